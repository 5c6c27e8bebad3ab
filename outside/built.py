"""Finds the built program and runs it, for the judges of this folder that are written in Python.

A judge is called with the path of the built hgdb, by default crates/hgdb/out/hgdb. Without that program nothing is judged, which
is no fault; a path that is given and has no program is one.
"""
import importlib.machinery, importlib.util, os, shutil, subprocess, sys, tempfile

HERE = os.path.dirname(os.path.abspath(__file__))
# A run has so long, in seconds, where nothing else is said. An unproved build is slow: OUTSIDE_TIMES=30 gives it 30 times as long.
SECONDS = 60 * int(os.environ.get("OUTSIDE_TIMES", "1"))


def program(judge):
    """Returns the path of the program, or ends where there is none."""
    path = os.path.abspath(sys.argv[1] if len(sys.argv) > 1 else f"{HERE}/../crates/hgdb/out/hgdb")
    if not os.path.isfile(path) or not os.access(path, os.X_OK):
        print(f"{judge}: there is no program {path}, so nothing is judged")
        sys.exit(1 if len(sys.argv) > 1 else 0)
    return path


def run(path, words, files, seconds=SECONDS, full=False):
    """Runs the program where these files are, and returns its status and what it wrote. Where it takes longer the status is None."""
    with tempfile.TemporaryDirectory() as folder:
        for name, content in files.items():
            with open(f"{folder}/{name}", "wb") as file:
                file.write(content)
        out = open("/dev/full", "wb") if full else subprocess.PIPE
        try:
            ran = subprocess.run(
                [path, *words], cwd=folder, stdin=subprocess.DEVNULL, stdout=out, stderr=subprocess.DEVNULL, timeout=seconds
            )
        except subprocess.TimeoutExpired:
            return None, b""
        finally:
            if full:
                out.close()
    return ran.returncode, ran.stdout or b""


def there(judge, tool, what):
    """Whether a tool is there. Where it is not, that is told, with what is left out: `outside/all` collects these lines. `outside/tools` installs
    tools."""
    if not shutil.which(tool):
        print(f"{judge}: there is no {tool}, so {what}", flush=True)
    return bool(shutil.which(tool))


def difference(got, want):
    """Tells the first place at which a text differs from what is wanted."""
    at = next((i for i, (a, b) in enumerate(zip(got, want)) if a != b), min(len(got), len(want)))
    start = max(0, at - 30)
    return f"at byte {at} it wrote {got[start:at + 60]!r}, and {want[start:at + 60]!r} is wanted"


def fault(answer, status, want):
    """Tells what is wrong with an answer of `run`, or nothing."""
    if answer[0] is None:
        return "it had not ended in the time that it is given here"
    if answer[0] != status:
        return f"status {answer[0]}, and {status} is wanted; it wrote {answer[1][:200]!r}"
    return None if answer[1] == want else difference(answer[1], want)


def other(name):
    """Loads another judge of this folder, whose file has no ending."""
    loader = importlib.machinery.SourceFileLoader(name, f"{HERE}/{name}")
    found = importlib.util.module_from_spec(importlib.util.spec_from_loader(name, loader))
    loader.exec_module(found)
    return found
