"""What happens to hgdb-client in between, for `outside/client`: a server that is killed, Ctrl-C, a terminal, a stop at the wrong moment.

- For each command the server is killed once a stop was shown, and then the command is given: the client ends and says so, at once or,
  behind a command that asks nothing, at the next one.
- For each command the server is halted, so that no reply comes, the command is given and Ctrl-C pressed; then the server goes on. The
  session is still there. Ctrl-C twice gives it up.
- A server that is a script tells a stop between a request and its reply, and leaves a run to a pause, at a place where nothing executes.
  In a file of commands Ctrl-C leaves out the rest.
- Over a dump file Ctrl-C ends the run of the program, and the session stands where it stood.
- At a terminal a stop is shown while nothing is typed, a command that took more than a second tells it, lines are kept for the next time,
  there are colours, but for NO_COLOR, and Ctrl-D that is pressed while a command is obeyed ends the session at the next prompt.
"""
import concurrent.futures, json, os, re, select, signal, stat, subprocess, sys, tempfile, threading, time

import blocks, built, hgdb_prompt, websocket

serve = built.other("serve")
CLIENT = f"{built.HERE}/hgdb-client"
WORDS = ("-w", "-x", "--name", "--replay", "--source", "--hgdb", "--record", "--help")
SECONDS = 60
# How a session begins, and each command behind that; `a` and `b` are the numbers of its breakpoints, and `d` that of its display. The
# commands of `ALONE` ask the session nothing.
GIVEN = {
    "break": "break 33", "tbreak": "tbreak 33", "delete": "delete {a}", "disable": "disable {a}", "enable": "enable {b}",
    "condition": "condition {a} grant == 4", "ignore": "ignore {a} 1", "continue": "continue 2", "reverse": "reverse", "step": "step",
    "back": "back Arbiter 2", "until": "until 33", "finish": "finish", "start": "start", "run": "run", "pause": "pause", "wait": "wait",
    "threads": "threads", "instance": "instance Arbiter.stage", "print": "print grant + 1", "display": "display busy",
    "undisplay": "undisplay {d}", "wave": "wave grant turn", "info": "info locals", "where": "where", "list": "list",
    "set": "set listsize 5", "watch": "watch grant", "drop": "drop 0", "help": "help", "quit": "quit",
}
ALONE = ("ignore", "wait", "undisplay", "list", "set", "help")
ASKS = "Interrupted: the answer is waited for; Ctrl-C once more gives the connection up\n"
OVER = re.compile(r"hgdb-client: the connection is over: (the stream ended|nothing can be (sent|read): [A-Z][a-z ]+)\n")


class Pipe:
    """A client whose input and output are pipes; `words` are its words."""

    def __init__(self, *words, **how):
        self.told = ""
        self.child = subprocess.Popen([sys.executable, CLIENT, *words], stdin=subprocess.PIPE, stdout=subprocess.PIPE, stderr=subprocess.PIPE, **how)

    def __enter__(self):
        return self

    def __exit__(self, *_):
        self.child.kill()
        self.child.wait()
        for stream in (self.child.stdin, self.child.stdout, self.child.stderr):
            try:
                stream.close()
            except OSError:
                pass

    def give(self, text):
        self.child.stdin.write(text.encode())
        self.child.stdin.flush()

    def upto(self, text):
        """Reads up to a text, and returns what came before it."""
        until = time.monotonic() + SECONDS
        while text not in self.told:
            if not select.select([self.child.stdout], [], [], max(0, until - time.monotonic()))[0]:
                raise serve.Wrong(f"{text!r} does not come behind {self.told[-200:]!r}")
            data = os.read(self.child.stdout.fileno(), 4096)
            if not data:
                raise serve.Wrong(f"it ends before {text!r}, behind {self.told[-200:]!r}: {self.child.stderr.read().decode()}")
            self.told += data.decode()
        before, _, self.told = self.told.partition(text)
        return before

    def press(self):
        self.child.send_signal(signal.SIGINT)

    def rest(self):
        """The status, and what is still written to both outputs."""
        told, error = self.child.communicate(timeout=SECONDS)
        return self.child.returncode, self.told + told.decode(), error.decode()


def arbiter(program, count=1):
    """A server of the arbiter, and the words of a client on it."""
    files = {}
    for name, path in (("P.hg", "arbiter.hg"), ("P.stim", "arbiter.stim")):
        with open(f"{blocks.ROOT}/examples/{path}", "rb") as file:
            files[name] = file.read()
    server = serve.Server(program, count, ["Arbiter"], "keep", files)
    return server, ["-w", str(SECONDS), f"127.0.0.1:{server.port}", f"{blocks.ROOT}/examples/arbiter.hg"]


# A server that is killed


def begin(client, name):
    """Begins a session anew, up to a stop that is shown. Returns the command of this name behind it."""
    client.give("delete\nundisplay\ninstance\nbreak 37\n")
    client.upto("\nBreakpoint ")
    first = int(client.upto(" at line 37, slot 14\n"))
    client.give(f"break 30\ndisable {first + 1}\ndisplay turn\nrun\n")
    client.upto("(hgdb) run\n")
    shown = client.upto(": turn = 4'h1\n").split("\n")[-1]
    return GIVEN[name].format(a=first, b=first + 1, d=shown)


def killed(program, name):
    """The server is killed before a command."""
    server, words = arbiter(program)
    with server, Pipe(*words) as client:
        given = begin(client, name)
        server.child.kill()
        server.child.wait()
        client.give(f"{given}\nwhere\n")
        status, told, error = client.rest()
    serve.want((status, bool(OVER.fullmatch(error))), (1, True), f"the end, {error!r}")
    serve.want(told.startswith(f"(hgdb) {given}\n"), True, "the command")
    serve.want(told.endswith("\n(hgdb) where\n") and name != "where", name in ALONE, f"that it ended at the command, {told!r}")


def kills(program):
    with concurrent.futures.ThreadPoolExecutor(2) as pool:
        found = pool.map(lambda name: serve.guarded(killed, program, name), GIVEN)
        yield from zip((f"the server is killed, {it}" for it in GIVEN), found)


# Ctrl-C


def pressed(server, client, name):
    """Ctrl-C while the server is halted, in a command behind a stop; then the session is still there."""
    given = begin(client, name)
    server.child.send_signal(signal.SIGSTOP)
    client.give(f"{given}\n")
    client.upto(f"(hgdb) {given}\n")
    client.press()
    if name not in ALONE:
        client.upto(ASKS)
    server.child.send_signal(signal.SIGCONT)
    if name != "quit":
        client.give("where\nhelp drop\n")
        client.upto("(hgdb) where\n")
        told = client.upto("(hgdb) help drop\n")
        serve.want(bool(re.search("^(Cycle|It stands)", told, re.M)), True, f"where it stands, {told!r}")


def presses(program):
    """Ctrl-C in each command of one session, and `quit` at last."""
    server, words = arbiter(program)
    with server, Pipe(*words) as client:
        for name in sorted(GIVEN, key=lambda it: it == "quit"):
            why = serve.guarded(pressed, server, client, name)
            yield f"Ctrl-C, {name}", why
            if why:
                return
        status, told, error = client.rest()
        yield "Ctrl-C, the end", None if status in (0, 3) and "Traceback" not in error and "counted" in told else f"{status}, {told!r}, {error!r}"
        yield "Ctrl-C, the end of the server", serve.guarded(lambda: serve.want("bye" in server.line(), True, "the line"))


def given_up(program):
    """Ctrl-C twice gives the connection up."""
    server, words = arbiter(program)
    with server, Pipe(*words) as client:
        client.give("step\nhelp drop\n")
        client.upto("(hgdb) help drop\n")
        server.child.send_signal(signal.SIGSTOP)
        client.give("where\n")
        client.upto("(hgdb) where\n")
        client.press()
        client.upto(ASKS)
        client.press()
        status, _, error = client.rest()
    serve.want((status, error), (1, "hgdb-client: the connection is over: it was given up\n"), "the end")


# A server that is a script


def taken(stream):
    """The text of the next frame of a client."""
    head = exactly(stream, 2)
    size = head[1] & 127
    size = int.from_bytes(exactly(stream, 2), "big") if size == 126 else size
    key = exactly(stream, 4)
    return websocket.masked(exactly(stream, size), key).decode()


def exactly(stream, count):
    data = b""
    while len(data) < count:
        if not (piece := stream.recv(count - len(data))):
            raise OSError("the stream ended")
        data += piece
    return data


def scripted(listener, answer, steps, faults):
    """Plays a server: for each step the request that has to come, and what is done then: a line to send, or a function to call."""
    try:
        stream, _ = listener.accept()
        stream.settimeout(SECONDS)
        with stream:
            head = b""
            while not head.endswith(b"\r\n\r\n"):
                head += exactly(stream, 1)
            stream.sendall(answer(head))
            for wanted, *does in steps:
                got = json.loads(taken(stream))
                if got != wanted:
                    faults.append(f"{got} is asked, and {wanted} is wanted")
                    return
                for each in does:
                    each() if callable(each) else stream.sendall(websocket.frame(websocket.TEXT, json.dumps(each).encode(), mask=False))
    except (OSError, ValueError) as why:
        faults.append(str(why))


def stop(cycle, slot, line, *threads):
    return {"cycle": cycle, "gens": [], "line": line, "notice": "stopped", "slot": slot, "threads": list(threads)}


def ok(**more):
    return {"ok": True, "seq": 1, **more}


def no_stop(**at):
    return {"at": at, "code": 12, "error": "NoStop", "ok": False, "seq": 1}


def played(answer, commands, steps, told, by_file=False):
    """A session with a server that is a script. A step that is the text `press` presses Ctrl-C."""
    faults = []
    with serve.socket.create_server(("127.0.0.1", 0)) as listener, tempfile.NamedTemporaryFile("w") as file:
        file.write(commands)
        file.flush()
        with Pipe(*["-x", file.name] * by_file, f"127.0.0.1:{listener.getsockname()[1]}") as client:
            steps = [[client.press if it == "press" else it for it in step] for step in steps]
            thread = threading.Thread(target=scripted, args=(listener, answer, steps, faults), daemon=True)
            thread.start()
            client.give("" if by_file else commands)
            status, got, error = client.rest()
            thread.join(SECONDS)
    serve.want((faults, status), ([], 3 if "Interrupted" in told or "Refused" in told else 0), "the requests, and the status")
    want = "Attached to a design whose source is not given\n" + told
    if got != want:
        raise serve.Wrong(built.difference(got.encode(), want.encode()))
    serve.want("Traceback" in error, False, error)


LATE = ([
    ({"cmd": "break", "line": 5}, ok(bp=1, slots=[3])), ({"cmd": "continue"}, ok()),
    ({"cmd": "eval", "instance": "", "expr": "a"}, stop(1, 3, 5, "T.u"), no_stop(cycle=1, slot=3)),
    ({"cmd": "values", "instance": "T.u"}, ok(values=[["a", "4'h2"]])), ({"cmd": "eval", "instance": "T.u", "expr": "a"}, ok(value="4'h2")),
    ({"cmd": "bye"}, ok()),
], "break 5\ncontinue &\nprint a\n", """(hgdb) break 5
Breakpoint 1 at line 5, slot 3
(hgdb) continue &
(hgdb) print a
Breakpoint 1, cycle 1, line 5, T.u
a = 4'h2
""")
PAUSE = ([
    ({"cmd": "continue"}, ok(), "press"), ({"cmd": "pause"}, ok(at={"cycle": 7, "slot": 2})),
    ({"cmd": "threads"}, ok(at={"cycle": 7, "slot": 2}, gens=[], line=4, threads=[])),
    ({"cmd": "values", "instance": ""}, no_stop(cycle=7, slot=2)), ({"cmd": "eval", "instance": "", "expr": "a"}, no_stop(cycle=7, slot=2)),
    ({"cmd": "step"}, ok(), stop(7, 3, 5, "T.u")), ({"cmd": "values", "instance": "T.u"}, ok(values=[["a", "4'h2"]])), ({"cmd": "bye"}, ok()),
], "continue\ninfo locals\nprint a\nstep\n", """(hgdb) continue
Paused in cycle 7 at slot 2
No instance executes anything there; `step` goes to the next statement that is executed
(hgdb) info locals
Refused: it stands in cycle 7 at slot 2, where no instance executes anything; `step` goes to the next statement that is executed (NoStop)
(hgdb) print a
Refused: it stands in cycle 7 at slot 2, where no instance executes anything; `step` goes to the next statement that is executed (NoStop)
(hgdb) step
Cycle 7, line 5, T.u
""")
JUST = ([
    ({"cmd": "continue"}, ok(), "press"), ({"cmd": "pause"}, {"notice": "ended"}, {"code": 11, "error": "NotRunning", "ok": False, "seq": 2}),
    ({"cmd": "bye"}, ok()),
], "continue\n", "(hgdb) continue\nThe end of the run\n")
LEFT_OUT = ([
    ({"cmd": "continue"}, ok(), "press"), ({"cmd": "pause"}, ok(at="end")), ({"cmd": "bye"}, ok()),
], "continue\nwhere\n", """(hgdb) continue
Paused at the end of the run
Interrupted: the rest of the commands is left out
""")


# Over a dump file


def over_a_dump(program):
    """Ctrl-C in a command over a dump file: a program that never ends stands in for `hgdb` once."""
    with tempfile.TemporaryDirectory() as folder:
        with open(f"{blocks.ROOT}/examples/scramble.hg", "rb") as source, open(f"{blocks.ROOT}/examples/scramble.stim", "rb") as stimulus:
            files = {"P.hg": source.read(), "P.stim": stimulus.read()}
        for name, words in (("M.json", ["symbols", "keep", "P.hg"]), ("M.vcd", ["sim", "keep", "P.hg", "P.stim"])):
            with open(f"{folder}/{name}", "wb") as file:
                file.write(built.run(program, [*words, "Scramble"], files)[1])
        with open(f"{folder}/hgdb", "w", encoding="ascii") as file:
            file.write(f"#!/bin/sh\nif [ -e {folder}/halt ]; then rm {folder}/halt; sleep 600; fi\nexec {program} \"$@\"\n")
        os.chmod(f"{folder}/hgdb", stat.S_IRWXU)
        with Pipe("--replay", f"{folder}/M.json", f"{folder}/M.vcd", "Scramble", "--hgdb", f"{folder}/hgdb", start_new_session=True) as client:
            client.give("break 10\ncontinue\nwhere\n")
            client.upto("(hgdb) where\nCycle 0, line 10, Scramble\n")
            with open(f"{folder}/halt", "wb"):
                pass
            client.give("continue\n")
            until = time.monotonic() + SECONDS
            while os.path.exists(f"{folder}/halt"):
                serve.want(time.monotonic() < until, True, "that the program is run again")
                time.sleep(0.01)
            client.press()
            client.upto("(hgdb) continue\nInterrupted: the session stands where it stood\n")
            client.give("where\ncontinue\n")
            client.upto("(hgdb) where\nCycle 0, line 10, Scramble\n(hgdb) continue\nBreakpoint 1, cycle 1, line 10, Scramble\n")
            serve.want(client.rest()[0], 3, "the status")


# At a terminal


class Terminal:
    """A client at a terminal."""

    def __init__(self, words, home, **more):
        import pty
        self.told = ""
        self.child, self.end = pty.fork()
        if self.child == 0:
            clean = {name: it for name, it in os.environ.items() if name not in ("NO_COLOR", "HGDB_HISTORY", "INPUTRC")}
            os.execve(sys.executable, [sys.executable, CLIENT, *words], {**clean, "HOME": home, "TERM": "xterm", **more})

    def __enter__(self):
        return self

    def __exit__(self, *_):
        os.close(self.end)
        if self.child:
            os.kill(self.child, signal.SIGKILL)
            os.waitpid(self.child, 0)

    def types(self, text):
        os.write(self.end, text.encode())

    def upto(self, text):
        """Reads up to a text, and returns what came before it."""
        until = time.monotonic() + SECONDS
        while text not in self.told:
            if not select.select([self.end], [], [], max(0, until - time.monotonic()))[0]:
                raise serve.Wrong(f"{text!r} does not come behind {self.told[-200:]!r}")
            try:
                data = os.read(self.end, 4096)
            except OSError:
                raise serve.Wrong(f"it ends before {text!r}, behind {self.told[-200:]!r}") from None
            self.told += data.decode(errors="replace")
        before, _, self.told = self.told.partition(text)
        return before

    def ends(self):
        """The status, once it ends."""
        until = time.monotonic() + SECONDS
        while True:
            if not select.select([self.end], [], [], max(0, until - time.monotonic()))[0]:
                raise serve.Wrong(f"it does not end behind {self.told[-200:]!r}")
            try:
                if not os.read(self.end, 4096):
                    break
            except OSError:
                break
        child, self.child = self.child, 0
        return os.waitstatus_to_exitcode(os.waitpid(child, 0)[1])


def terminals(program):
    """A stop is shown while nothing is typed; Ctrl-C takes back what is typed; lines are kept; there are colours."""
    server, words = arbiter(program, 2)
    with server, tempfile.TemporaryDirectory() as home:
        with Terminal(words, home) as typist:
            typist.upto("(hgdb) ")
            typist.types("break 37\n")
            typist.upto("Breakpoint 1 at line 37, slot 14")
            typist.types("continue &\n")
            typist.upto("\x1b[1mBreakpoint 1, cycle 1, line 37, Arbiter, LANES=4\x1b[0m")
            typist.types("nonsense\x03")
            typist.upto("(hgdb) ")
            typist.types("print turn\n")
            typist.upto("turn = 4'h1")
            server.child.send_signal(signal.SIGSTOP)
            typist.types("where\n")
            typist.upto("where\r\n")
            time.sleep(3)
            server.child.send_signal(signal.SIGCONT)
            typist.upto("(it took ")
            typist.types("jump\n")
            typist.upto("\x1b[31mNo command 'jump'")
            typist.types("quit\n")
            serve.want(typist.ends(), 0, "the status")
        with open(f"{home}/.hgdb_history", encoding="utf-8") as file:
            serve.want(file.read().splitlines(), ["break 37", "continue &", "print turn", "where", "jump", "quit"], "the history")
        with Terminal(words, home, NO_COLOR="1") as typist:
            typist.upto("(hgdb) ")
            typist.types("\x1b[A\x1b[A\n")
            serve.want("\x1b[3" in typist.upto("No command 'jump'"), False, "a colour")
            server.child.send_signal(signal.SIGSTOP)
            typist.types("where\n")
            typist.upto("where\r\n")
            typist.types("\x04")
            server.child.send_signal(signal.SIGCONT)
            serve.want(typist.ends(), 0, "the status")


def judged(program):
    """Each thing that is judged, with what is wrong or nothing."""
    lacks = set(hgdb_prompt.COMMANDS) ^ set(GIVEN)
    yield "each command is tried", f"not {' '.join(lacks)}" if lacks else None
    yield from kills(program)
    yield from presses(program)
    answer = built.other("client").answer
    for name, (steps, commands, told) in (("a stop before a reply", LATE), ("a pause where nothing executes", PAUSE), ("a pause too late", JUST)):
        yield name, serve.guarded(played, answer, commands, steps, told)
    steps, commands, told = LEFT_OUT
    yield "Ctrl-C in a file of commands", serve.guarded(played, answer, commands, steps, told, True)
    for judge in (given_up, over_a_dump):
        yield judge.__doc__, serve.guarded(judge, program)
    try:
        import pty, readline, termios
    except ImportError:
        print("client: there is no readline, so no terminal is tried")
        return
    yield terminals.__doc__, serve.guarded(terminals, program)
