"""Runs the blocks of a page, and compares what they print with what stands below them.

A page is Markdown. Behind the three backquotes that open a block stand its kind and, for a file, its name:

  console [TOOL]..     lines `$ COMMAND`, each with the lines that it prints below it, up to the next one; not run where a tool is not there
  ANY KIND then NAME   a file of this name, which is written where the commands run
  sh                   commands for the reader, which are not run: each is `rt`, or a file that is there
  grammar, json        not run
  any other kind       not run, and told by `left`

The blocks of a page run one after the other in one shell, in a folder that has a copy of examples/, with the program as `hgdb`,
and this folder as outside/.
"""
import os, re, shutil, subprocess, tempfile

import built

ROOT = os.path.dirname(built.HERE)
MARK = "-- outside, end of a command --"
SECONDS = 5 * built.SECONDS


def blocks(path):
    """Returns the blocks of a page: the kind, the name of a file or nothing, the lines, and the number of the first line."""
    found, inside = [], None
    with open(path, encoding="utf-8") as page:
        for number, line in enumerate(page.read().split("\n"), 1):
            if line.startswith("```"):
                if inside is None:
                    kind, _, name = line[3:].strip().partition(" ")
                    inside = (kind, name or None, [], number)
                else:
                    found.append(inside)
                    inside = None
            elif inside is not None:
                inside[2].append(line)
    return found


def commands(lines):
    """Returns the commands of a console, each with what it prints."""
    found = []
    for line in lines:
        if line.startswith("$ "):
            found.append((line[2:], []))
        elif found:
            found[-1][1].append(line)
    return [(command, "".join(f"{it}\n" for it in printed)) for command, printed in found]


def lacking(found):
    """The blocks that are not run for want of a tool: the tool and the line."""
    for kind, name, _, number in found:
        for tool in (name or "").split() if kind == "console" else ():
            if not shutil.which(tool):
                yield tool, number


def script(found):
    """The shell script of a page's blocks, and for each of its commands the line of its block, the command and what it prints."""
    text, wanted = "", []
    without = {number for _, number in lacking(found)}
    for kind, name, lines, number in found:
        if kind == "console" and number in without:
            continue
        if kind == "console":
            for command, printed in commands(lines):
                text += f"{command}\nlast=$?; echo '{MARK}'; (exit $last)\n"
                wanted.append((number, command, printed))
        elif name is not None:
            text += f"cat >{name} <<'{MARK}'\n" + "".join(f"{it}\n" for it in lines) + f"{MARK}\n"
    return text, wanted


def left(found):
    """The blocks that nothing runs: not those of kind `sh` whose commands are there."""
    for kind, name, lines, number in found:
        if kind == "sh":
            for line in (it.split("#")[0].split() for it in lines):
                if line and line[0] != "rt" and not os.path.isfile(f"{ROOT}/{line[0]}"):
                    yield f"line {number}: there is no {line[0]}"
        elif kind not in ("console", "grammar", "json") and name is None:
            yield f"line {number}: nothing runs this block"


def faults(program, page, other=None, errors=True):
    """Runs a page; returns how many commands it has, and what is wrong. For the words of `other` other ones are put. What a command prints is
    standard output, and standard error with it, unless that is left out."""
    text, wanted = script(blocks(page))
    for word, put in (other or {}).items():
        text = text.replace(word, put)
    with tempfile.TemporaryDirectory() as folder:
        os.mkdir(f"{folder}/bin")
        os.symlink(program, f"{folder}/bin/hgdb")
        shutil.copytree(f"{ROOT}/examples", f"{folder}/there/examples")
        os.symlink(built.HERE, f"{folder}/there/outside")
        path = {**os.environ, "PATH": f"{folder}/bin:{os.environ['PATH']}", "LC_ALL": "C", "PYTHONDONTWRITEBYTECODE": "1"}
        ran = subprocess.run(["sh"], input=text.encode(), cwd=f"{folder}/there", env=path, stdout=subprocess.PIPE,
                             stderr=subprocess.STDOUT if errors else subprocess.DEVNULL, timeout=SECONDS)
    told = re.split(f"^{re.escape(MARK)}\n", ran.stdout.decode(errors="replace"), flags=re.M)
    found = []
    for (number, command, printed), got in zip(wanted, told):
        if got != printed:
            found.append(f"the block of line {number}: {command}: {built.difference(got.encode(), printed.encode())}")
    if len(told) != len(wanted) + 1:
        found.append(f"{len(told) - 1} of {len(wanted)} commands ran")
    return len(wanted), found
