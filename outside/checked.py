"""Builds the program with checks of each access, by `rt try`, and runs it with one growth of memory after the other refused, for `fail-alloc`.

`rt try --fail-alloc N` refuses the N-th growth of every run of a build. So that one build serves all, `main` is changed in a copy of the
crates: first it asks for memory as often as its first word says, and gives it back, and only then it does what the further words say. So the
more it asks for first, the earlier the growth that is refused. What is asked for before that, with the words themselves, is refused by the rest.
"""
import os, re, shutil, subprocess, tempfile

import built

ROOT = os.path.dirname(built.HERE)
MAIN = "fn main(rt: HostRuntime) -> io::Result<ExitCode> {\n"
FIRST = "        if place > 0 {\n"
# The status of a run that ends before it does what its words say.
EARLY = 77
SPEND = """/// Asks for memory as often as the first word says, and gives it back each time.
fn spend(rt: &(impl Env + AllocGlobal)) -> Result<(), NoMemory> {
    let Ok(args) = env::args(rt) else {
        return Err(NoMemory);
    };
    let mut count = 0;
    for (place, arg) in args.enumerate() {
        if place == 1 {
            count = arg.as_str().parse::<u64>().unwrap_or(0);
        }
    }
    for _ in 0..count {
        let mut bytes: Vec<u8> = Vec::new(rt.alloc());
        bytes.push(1)?;
    }
    Ok(())
}

"""


def copy(folder):
    """Copies the crates, and changes `main` there."""
    shutil.copytree(f"{ROOT}/crates", f"{folder}/crates", ignore=shutil.ignore_patterns("out", "must-fail"))
    for name in ("crates.txt", "HANDLES"):
        shutil.copy(f"{ROOT}/{name}", folder)
    path = f"{folder}/crates/hgdb/src/main.rt"
    with open(path, encoding="utf-8") as file:
        text = file.read()
    for piece in (MAIN, FIRST):
        if text.count(piece) != 1:
            raise SystemExit(f"fail-alloc: {piece.strip()} does not stand once in main")
    early = f"    if spend(&rt).is_err() {{\n        return Ok(ExitCode::from({EARLY}));\n    }}\n"
    with open(path, "w", encoding="utf-8") as file:
        file.write(text.replace(FIRST, FIRST.replace("0", "1")).replace(MAIN, SPEND + MAIN + early))


def cases(folder, refused, runs):
    """Writes a case for each growth of each run that is to be refused, and returns what gives the files of all of them."""
    os.mkdir(f"{folder}/cases")
    data = []
    for run, (words, files, _, count) in enumerate(runs):
        for name, content in files.items():
            with open(f"{folder}/{run}-{name}", "wb") as file:
                file.write(content)
            data += ["--data", f"{run}-{name}={folder}/{run}-{name}"]
        words = [f"{run}-{it}" if it in files else it for it in words]
        for spent in range(refused - count, refused):
            open(f"{folder}/cases/{run}-{spent}", "wb").close()
            with open(f"{folder}/cases/{run}-{spent}.args", "w", encoding="utf-8") as file:
                file.write("".join(f"{it}\n" for it in (spent, *words)))
    return data


def ran(runs):
    """For each run, which has its words, its files, its text and how many of its growths are to be refused at most: by how much is asked for
    first, from the most on, the end and the output."""
    refused = max(it[3] for it in runs) + 1
    with tempfile.TemporaryDirectory() as folder:
        copy(folder)
        data = cases(folder, refused, runs)
        tried = ["rt", "try", "--fail-alloc", str(refused), "--cases", f"{folder}/cases", *data]
        found = subprocess.run(tried, cwd=f"{folder}/crates/hgdb", stdin=subprocess.DEVNULL, capture_output=True, check=False)
    ends = dict(re.findall(rb"^case=(\S+) (.*)\n", found.stderr, re.M))
    texts = dict(re.findall(rb"^== (\d+-\d+)\n((?:(?!== \d+-\d+\n).*\n?)*)", found.stdout, re.M))
    if len(ends) != sum(it[3] for it in runs):
        raise SystemExit(f"fail-alloc: rt try ran {len(ends)} cases, and told {found.stderr[-400:].decode()}")
    names = [[f"{run}-{spent}".encode() for spent in range(refused - 1, refused - 1 - it[3], -1)] for run, it in enumerate(runs)]
    return [[(ends[it].decode(), texts.get(it, b"")) for it in each] for each in names]
