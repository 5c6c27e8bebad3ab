"""The conversation of an editor, answered by the machine of `outside/sessions`: frames, requests, responses and events, by the rules of the
profile that docs/ATTACHING.md tells, apart from hgdb's code. `outside/dap` compares the built program with it.

As a command it takes the words of `hgdb dap`, reads standard input and writes what an editor is told: a stand-in for the program in
the mode `keep`, in which nothing is removed.
"""
import json, sys

sys.dont_write_bytecode = True
import built, hgdb_source

sessions = built.other("sessions")

MOST_BODY, MOST_HEAD, MOST_FIELDS = 1 << 20, 4096, 16
BAD_HEAD, BAD_LENGTH, TOO_LONG, CUT_SHORT, BAD_BODY = 1, 2, 3, 4, 5
TOKEN = frozenset(b"!#$%&'*+-.^_`|~0123456789abcdefghijklmnopqrstuvwxyzABCDEFGHIJKLMNOPQRSTUVWXYZ")
VALUE = frozenset([9, *range(32, 127), *range(128, 256)])
GENERATOR = 8192


class Fault(Exception):
    """A fault of the frames, with its number."""


class More(Exception):
    """The text ends within what may still become a message."""


# ---- frames


def line_end(text, at):
    """Where the next line begins, behind a line end here; None where none stands here."""
    if text[at:at + 1] == b"\n":
        return at + 1
    if text[at:at + 1] == b"\r":
        if len(text) == at + 1:
            raise More
        if text[at + 1:at + 2] == b"\n":
            return at + 2
        raise Fault(BAD_HEAD)
    return None


def run_of(text, at, have):
    while at < len(text) and text[at] in have:
        at += 1
    return at


def head_of(text):
    """The fields of the head in front, and where the body begins."""
    at, fields = 0, []
    while True:
        if at == len(text):
            raise More
        if (behind := line_end(text, at)) is not None:
            return fields, behind
        if len(fields) == MOST_FIELDS:
            raise Fault(BAD_HEAD)
        end = run_of(text, at, TOKEN)
        if end == len(text):
            raise More
        if end == at or text[end] != ord(":"):
            raise Fault(BAD_HEAD)
        last = run_of(text, end + 1, VALUE)
        if last == len(text):
            raise More
        if (behind := line_end(text, last)) is None:
            raise Fault(BAD_HEAD)
        fields.append((text[at:end], text[end + 1:last].strip(b" \t")))
        at = behind


def length_of(fields):
    told = [value for name, value in fields if name.lower() == b"content-length" and value and not value.strip(b"0123456789")]
    if len(told) != 1:
        raise Fault(BAD_LENGTH)
    if int(told[0]) > MOST_BODY:
        raise Fault(TOO_LONG)
    return int(told[0])


def value_of(body):
    """The JSON value that bytes are, or None with whether they are none."""
    found = json.loads(body.decode(), parse_constant=sessions.constant, parse_int=lambda it: -0.0 if it == "-0" else int(it))
    if sessions.depth(found) > sessions.DEEPEST:
        raise ValueError
    json.dumps(found, ensure_ascii=False).encode()
    return found


def is_whole(it, below):
    return type(it) is int and 0 <= it < below


def framed(text, ended):
    """The first message of a text, as the object that its body is, and what is behind it. `More` where the text may go on, `Fault` where it has one."""
    try:
        fields, begin = head_of(text[:MOST_HEAD])
    except More:
        if len(text) >= MOST_HEAD:
            raise Fault(BAD_HEAD) from None
        if ended and text:
            raise Fault(CUT_SHORT) from None
        raise
    length = length_of(fields)
    if len(text) < begin + length:
        if ended:
            raise Fault(CUT_SHORT)
        raise More
    try:
        found = value_of(text[begin:begin + length])
    except (ValueError, RecursionError):
        raise Fault(BAD_BODY) from None
    if not isinstance(found, dict) or not is_whole(found.get("seq"), 1 << 63) or not isinstance(found.get("command"), str):
        raise Fault(BAD_BODY)
    return found, text[begin + length:]


# ---- the conversation


class Failed(Exception):
    """A request that fails, with its message."""


def argument(found, *keys):
    """An argument, by the keys that lead to it; None where it is not there."""
    for key in ("arguments", *keys):
        if not isinstance(found, dict):
            raise Failed("BadShape")
        found = found.get(key)
    return found


def text_at(found, *keys):
    if not isinstance(it := argument(found, *keys), str):
        raise Failed("BadShape")
    return it


def number_at(found, *keys):
    if not is_whole(it := argument(found, *keys), 1 << 64):
        raise Failed("BadShape")
    return it


class Conversation:
    """What is said to an editor over a world, whose files have these names. `out` has the lines, each without its head."""

    def __init__(self, world, names):
        self.session, self.world, self.names = sessions.Session(world), world, names
        self.seq, self.set, self.out, self.ended = 0, {}, [], False

    def say(self, told):
        self.seq = min(self.seq + 1, (1 << 64) - 1)
        self.out.append(json.dumps({**told, "seq": self.seq}, separators=(",", ":"), sort_keys=True, ensure_ascii=False))

    def ask(self, cmd, **fields):
        """Gives the session a request. Returns the reply and, where it ran, the notice."""
        found = {"cmd": cmd, **fields}
        self.session.seq, self.session.out = self.session.seq + 1, []
        try:
            reply = self.session.answer(found)
        except sessions.Refused as why:
            raise Failed(why.reply["error"]) from why
        self.session.go_on(found)
        return reply, *map(json.loads, self.session.out)

    def message(self, found):
        """Answers a message."""
        head = {"command": found["command"], "request_seq": found["seq"], "type": "response"}
        try:
            body, *events = getattr(self, f"do_{found['command']}", self.unknown)(found)
        except Failed as why:
            self.say({**head, "success": False, "message": str(why)})
            return
        self.say({**head, "success": True, **({} if body is None else {"body": body})})
        for event in events:
            self.say({"type": "event", **event})

    def unknown(self, found):
        raise Failed("UnknownCmd")

    def do_initialize(self, found):
        given = found.get("arguments", {})
        if not isinstance(given, dict) or given.get("linesStartAt1") is False:
            raise Failed("BadShape")
        can = ("supportsConditionalBreakpoints", "supportsConfigurationDoneRequest", "supportsStepBack")
        return dict.fromkeys(can, True), {"event": "initialized"}

    def do_launch(self, found):
        return (None,)

    do_attach = do_launch

    def do_setBreakpoints(self, found):
        path, entries = text_at(found, "source", "path"), argument(found, "breakpoints")
        if not isinstance(entries, list):
            raise Failed("BadShape")
        for it in entries:
            if not isinstance(it, dict) or not is_whole(it.get("line"), 1 << 24) or not isinstance(it.get("condition"), (str, type(None))):
                raise Failed("BadShape")
        name = path.rpartition("/")[2]
        if name not in self.names:
            return ({"breakpoints": [{"line": it["line"], "message": "NoFile", "verified": False} for it in entries]},)
        file = self.names.index(name)
        for bp in self.set.pop(file, []):
            self.ask("delete", bp=bp)
        return ({"breakpoints": [self.entry(file, it) for it in entries]},)

    def entry(self, file, it):
        try:
            reply = self.ask("break", file=file, line=it["line"], cond=it.get("condition"))[0]
        except Failed as why:
            return {"line": it["line"], "message": str(why), "verified": False}
        self.set.setdefault(file, []).append(reply["bp"])
        return {"id": reply["bp"], "line": it["line"], "verified": True}

    def run(self, cmd, reason, body=None):
        notice = self.ask(cmd)[1]
        told = {"allThreadsStopped": True}
        if notice["notice"] == "stopped":
            told |= {"reason": reason, "threadId": self.world.paths.index(notice["threads"][0]) + 1}
        else:
            told |= {"reason": "pause", "description": "end of run" if notice["notice"] == "ended" else "start of run"}
        return body, {"event": "stopped", "body": told}

    def do_configurationDone(self, found):
        return self.run("continue", "breakpoint")

    def do_continue(self, found):
        return self.run("continue", "breakpoint", {"allThreadsContinued": True})

    def do_reverseContinue(self, found):
        return self.run("reverse", "breakpoint")

    def do_next(self, found):
        return self.run("step", "step")

    do_stepIn = do_stepOut = do_next

    def do_stepBack(self, found):
        return self.run("back", "step")

    def do_pause(self, found):
        self.ask("pause")

    def do_threads(self, found):
        try:
            paths = self.ask("threads")[0]["threads"]
        except Failed:
            paths = []
        return ({"threads": [{"id": self.world.paths.index(it) + 1, "name": it} for it in paths]},)

    def instance(self, number):
        """The path of an instance, by its number plus 1."""
        if not 1 <= number <= len(self.world.paths):
            raise Failed("NoStop")
        return self.world.paths[number - 1]

    def at_stop(self, number):
        """The path of an instance that is a thread, and the reply that tells the threads."""
        reply = self.ask("threads")[0]
        if (path := self.instance(number)) not in reply["threads"]:
            raise Failed("NoStop")
        return path, reply

    def do_stackTrace(self, found):
        number = number_at(found, "threadId")
        path, reply = self.at_stop(number)
        source = {"name": self.names[reply.get("file", 0)]}
        return ({"stackFrames": [{"column": 1, "id": number, "line": reply["line"], "name": path, "source": source}], "totalFrames": 1},)

    def do_scopes(self, found):
        number = number_at(found, "frameId")
        self.instance(number)
        rows = (("Signals", number), ("Generator", GENERATOR + number))
        return ({"scopes": [{"expensive": False, "name": name, "variablesReference": it} for name, it in rows]},)

    def do_variables(self, found):
        number = number_at(found, "variablesReference")
        if number <= GENERATOR:
            rows = self.ask("values", instance=self.instance(number))[0]["values"]
        else:
            rows = self.at_stop(number - GENERATOR)[1]["gens"]
        return ({"variables": [{"name": name, "value": str(value), "variablesReference": 0} for name, value in rows]},)

    def do_evaluate(self, found):
        text, number = text_at(found, "expression"), number_at(found, "frameId")
        return ({"result": self.ask("eval", instance=self.instance(number), expr=text)[0]["value"], "variablesReference": 0},)

    def do_disconnect(self, found):
        self.ask("bye")
        self.ended = True
        return (None,)


def with_head(line):
    body = line.encode()
    return b"Content-Length: %d\r\n\r\n%s" % (len(body), body)


def answered(conversation, text):
    """What is written for a whole input, and the status."""
    try:
        while text and not conversation.ended:
            found, text = framed(text, True)
            conversation.message(found)
        status = 0
    except Fault:
        status = 10
    return b"".join(map(with_head, conversation.out)), status


def converse(conversation, source, sink):
    """Answers what comes, as it comes. Returns the status."""
    text, ended = b"", False
    while not conversation.ended:
        try:
            found, text = framed(text, ended)
        except More:
            if ended:
                return 0
            piece = source.read1(65536)
            text, ended = text + piece, not piece
            continue
        except Fault:
            return 10
        conversation.message(found)
        sink.write(b"".join(map(with_head, conversation.out)))
        sink.flush()
        conversation.out = []
    return 0


def files_of(path):
    """The files of a source, by their names: SRC first, and then those that it imports, by their numbers."""
    read = hgdb_source.read(path)
    folder = path[:path.rfind("/") + 1]
    texts = {}
    for it in read.files:
        with open(folder + it.name, encoding="utf-8", newline="") as file:
            texts[it.name] = file.read()
    return texts


def conversation_of(texts, stimulus, top, given):
    """A conversation over a design: its files by their names, in the order of their numbers."""
    source = texts if len(texts) > 1 else next(iter(texts.values()))
    return Conversation(sessions.World(source, stimulus, top, given), list(texts))


def main(words):
    _, mode, src, stim, top, *more = words
    given = {name: int(it) for name, it in (it.split("=") for it in more)}
    with open(stim, encoding="utf-8", newline="") as file:
        conversation = conversation_of(files_of(src), file.read(), top, given)
    return converse(conversation, sys.stdin.buffer, sys.stdout.buffer)


if __name__ == "__main__":
    sys.exit(main(sys.argv[1:]))
