"""The worked examples whose runs the judges of this folder cut short: by an output that takes no more, or for want of memory.

A run has the program's words, its files, and the whole of its text, with which it ends with status 0. What is wanted stands in
outside/cases, but for the replay: its files are those of outside/files.d, and its requests and text those of the session over the
same run.
"""
import built

answers = built.other("answers")
# By example the file and the name of each of its cases.
CASES = {
    "a session": (("debug.txt", "debug: a breakpoint, and on to it twice"),),
    "the texts of a design": (
        ("verilog.txt", "printed: a register, where what is needed is kept"),
        ("symbols.txt", "symbols: a register that adds while it is enabled"),
        ("waves.txt", "waves: a register that adds while it is enabled"),
    ),
    "a session of lanes": (("debug.txt", "debug: lanes that count their grants"),),
}


def run_of(file, name):
    """The words, the files and the text of a case."""
    case = next(it for it in answers.read_cases(f"{built.HERE}/cases/{file}") if it["case"] == name)
    files = {it: answers.joined(lines, kind, at) for it, (kind, lines, at) in ((it, case[it]) for it in case if it not in answers.OWN)}
    kind, lines, at = case["want"]
    return case["words"][1], files, answers.joined(lines, kind, at)


def replay():
    """The replay of the run of that design: to its stops and back."""
    _, session, text = run_of("debug.txt", "debug: back to each breakpoint and to the start")
    files = {"A.req": session["P.req"]}
    for name, at in (("A.json", "own.json"), ("A.vcd", "own.vcd")):
        with open(f"{built.HERE}/files.d/{at}", "rb") as file:
            files[name] = file.read()
    return ["replay", "A.json", "A.vcd", "A", "A.req"], files, text


def runs():
    """Each example with its runs."""
    found = {name: [run_of(*it) for it in cases] for name, cases in CASES.items()}
    found["a replay"] = [replay()]
    return found
