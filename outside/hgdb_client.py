"""Sessions of hgdb for programs in Python: over a server (`hgdb serve`), or over a dump file (`hgdb replay`).

  with hgdb_client.attach("127.0.0.1:4711") as session:
      session.request("break", line=11)
      for stop in session.stops():
          print(stop["cycle"], session.request("values", instance=stop["threads"][0])["values"])

`attach` and `replay` make a Session, whose calls are the same over both; `outside/hgdb-client` makes no other ones. Requests, replies
and notices are those of docs/SESSIONS.md, as dictionaries; messages.schema.json has their form.

  session.request(cmd, **fields)    asks, and returns the reply, accepted (`ok`) or refused; a field that is None is left out
  session.ask(list)                 asks for each (cmd, fields), waits for the end of each run, returns a (reply, notice or None) for each
  session.run(cmd, **fields)        asks for a run, waits for its end and returns the notice; a refusal is raised as Refused
  session.stops(cmd, **fields)      runs again and again, by default by `continue`: an iterator over the stops up to the end or the start
  session.wait(seconds)             the notice at the end of the run that is under way, or None where none has come in so many seconds
  session.running                   the command of the run that is under way, or None
  session.leave()                   ends the session by `bye`; returns the rows of the listeners, as notices
  session.close()                   ends it without `bye`, as the end of `with` does

A connection that is over is raised as Lost. A reply comes in the order of the requests; a run that was asked for by `request` goes on
beside further requests, and its notice waits in `session.notices` until `wait` takes it.

What a session over a server and one over a dump file do in different ways stands in `Live` here, and in hgdb_trace.py.
"""
import contextlib, json, select, time

import websocket
from websocket import Lost

RUNS = ("continue", "reverse", "step", "back")
# How many requests are sent before the first of their replies is read.
AHEAD = 64
# What a notice has, and what an accepted reply to a request has.
NOTICES = {"stopped": ("cycle", "gens", "line", "slot", "threads"), "ended": (), "start": (), "rows": ("k", "rows")}
REPLIES = {
    "break": ("bp", "slots"), "pause": ("at",), "threads": ("at", "gens", "line", "threads"), "values": ("values",),
    "eval": ("value",), "drop": ("rows",), "status": ("at", "bps", "listeners", "mode"), "watch": ("slots", "wp"),
}
# What a refusal of a code has besides; one of a condition, 7, has an offset where it has no name.
KEPT = {
    "3": ("field",), "5": ("line",), "6": ("instance",), "7": ("offset",), "8": ("name", "slot"), "9": ("name", "slot"), "10": ("mode",),
    "12": ("at",), "13": ("limit",), "14": ("bp",), "15": ("k",), "16": ("limit",), "17": ("wp",),
}


class Refused(Exception):
    """A request that was refused; `reply` is the answer."""

    def __init__(self, reply):
        super().__init__(f"{reply['error']} (code {reply['code']})")
        self.reply = reply


def attach(address, seconds=0, record=None):
    """A session over a server at HOST:PORT. Where nobody listens there yet, it tries again for so many seconds."""
    return Live(websocket.Socket(*websocket.parted(address), seconds), record)


def replay(sym, vcd, scope, program=None, record=None):
    """A session over a dump file, by the program that is named, or `hgdb` on the path, or the built one of this repository."""
    import hgdb_trace
    return hgdb_trace.Trace(sym, vcd, scope, program, record)


def text_of(cmd, fields):
    """The text of a request. A field that is None is left out."""
    found = {"cmd": cmd, **{name: value for name, value in fields.items() if value is not None}}
    return json.dumps(found, separators=(",", ":"), ensure_ascii=False)


def line_of(text, cmd=None):
    """A line of a session: a notice, or the reply to a request."""
    try:
        found = json.loads(text)
    except ValueError:
        found = None
    needed = None
    if isinstance(found, dict) and "notice" in found:
        needed = NOTICES.get(str(found["notice"]))
    elif isinstance(found, dict) and found.get("ok") is True:
        needed = REPLIES.get(cmd, ())
    elif isinstance(found, dict) and found.get("ok") is False:
        kept = KEPT.get(str(found.get("code")), ())
        needed = ("code", "error", *(() if kept == ("offset",) and "name" in found else kept))
    if needed is None or any(name not in found for name in needed):
        raise Lost(f"this is no line of a session: {text[:80]!r}")
    return found


class Session:
    """What sessions of both kinds have. `record`, a file, is written each request behind a `>` and each line behind a `<`.

    `running` is the command of the run that is under way, and `ran` that of the last one. `notices` are the ends of runs that nobody
    took yet; one whose run another client of the session began has `other`. `rows` are what listeners told. `waker`, where it is not None,
    ends a wait: it has a `fileno` that is readable once the wait is to end, `drain`, which makes it silent again, and `late`, which is called
    where a reply is then still not there. Within `steady` no request is given up."""

    def __init__(self, record=None):
        self.record, self.running, self.ran, self.notices, self.rows = record, None, None, [], []
        self.waker, self.patient = None, False

    def __enter__(self):
        return self

    def __exit__(self, *_):
        self.close()

    @contextlib.contextmanager
    def steady(self):
        before, self.patient = self.patient, True
        try:
            yield
        finally:
            self.patient = before

    def kept(self, mark, text):
        """Writes a request or a line to the record."""
        if self.record is not None:
            self.record.write(f"{mark} {text}\n")
            self.record.flush()

    def note(self, notice):
        """Notes a notice: rows of a listener, or the end of a run."""
        if notice["notice"] == "rows":
            self.rows.append(notice)
        else:
            if not self.running:
                notice["other"] = True
            self.running = None
            self.notices.append(notice)

    def run(self, cmd, **fields):
        """Asks for a run, waits for its end, and returns the notice."""
        reply, notice = self.ask([(cmd, fields)])[0]
        if not reply["ok"]:
            raise Refused(reply)
        return notice

    def stops(self, cmd="continue", **fields):
        """Runs again and again: the stops up to the end or the start of the run."""
        while (notice := self.run(cmd, **fields))["notice"] == "stopped":
            yield notice

    def wait(self, seconds=None):
        """The notice at the end of the run that is under way, or None where none is, or none has come in so many seconds."""
        until = None if seconds is None else time.monotonic() + seconds
        while self.running and not self.notices and (until is None or time.monotonic() < until):
            self.listen(None if until is None else max(0, until - time.monotonic()))
        return self.notices.pop(0) if self.notices else None

    def listen(self, seconds=None):
        """Takes in what comes, until a run has ended, a wait was woken, or so many seconds are over. Nothing comes by itself here."""


class Live(Session):
    """A session over a server, by a connection to it."""

    def __init__(self, socket, record=None):
        super().__init__(record)
        self.socket = socket

    def fileno(self):
        """What is readable once something has come."""
        return self.socket.stream.fileno()

    def line(self, seconds=None, cmd=None):
        """The next line, or None where none has come in so many seconds, or the wait was woken. The next reply is that to `cmd`."""
        until = None if seconds is None else time.monotonic() + seconds
        while (text := self.socket.message()) is None:
            left = None if until is None else max(0, until - time.monotonic())
            heard = [self, *([] if self.waker is None else [self.waker])]
            if self not in select.select(heard, [], [], left)[0]:
                return None
            self.socket.fill()
        self.kept("<", text)
        return line_of(text, cmd)

    def send(self, cmd, fields):
        text = text_of(cmd, fields)
        self.kept(">", text)
        self.socket.send(text)

    def reply(self, cmd):
        """The reply to a request. Notices that come before it are noted."""
        while (found := self.line(None, cmd)) is None or "notice" in found:
            if found is not None:
                self.note(found)
            else:
                self.waker.drain()
                self.waker.late(self.socket.is_ready)
        if found["ok"] and cmd in RUNS:
            self.running = self.ran = cmd
        elif found["ok"] and cmd == "pause":
            self.running = None
        return found

    def request(self, cmd, **fields):
        self.send(cmd, fields)
        return self.reply(cmd)

    def listen(self, seconds=None):
        """Takes in what comes, until a run has ended, the wait was woken, or so many seconds are over."""
        found = self.line(seconds)
        if found is not None and "notice" in found:
            self.note(found)
        elif found is not None:
            raise Lost("the server answered what was not asked for")
        elif self.waker is not None:
            self.waker.drain()

    def ask(self, asked):
        """Asks for each (cmd, fields). Those that follow one another and are no runs are sent without waiting for the answers."""
        found, waiting = [], []
        for at, (cmd, fields) in enumerate(asked, 1):
            self.send(cmd, fields)
            waiting.append(cmd)
            if cmd in RUNS or len(waiting) == AHEAD or at == len(asked):
                found += [(self.reply(it), None) for it in waiting]
                waiting = []
            if cmd in RUNS and found[-1][0]["ok"]:
                while self.running:
                    self.listen()
                found[-1] = found[-1][0], self.notices.pop()
        return found

    def leave(self):
        if self.request("bye")["ok"]:
            try:
                while (found := self.line()) is None or "notice" in found:
                    self.note(found) if found is not None else self.waker.drain()
            except (websocket.Closed, websocket.Ended):
                pass
        self.close()
        return self.rows

    def close(self):
        self.socket.stream.close()
