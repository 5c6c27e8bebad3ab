"""A session over a dump file of another simulator, for hgdb_client.py: `hgdb replay` as if it waited for each request.

`hgdb replay SYM VCD SCOPE REQ` answers a file of requests and ends. A session is deterministic: the same requests over the same files
are answered by the same lines. So for each request the program is run anew over those before it and this one, and what was told
before is passed over. Of those before it only the accepted ones that change a session are given again; a look changes nothing. Several
requests whose texts are known beforehand are asked in one run (`ask`); and behind a run that is asked for once more, as by `continue 100`,
the same is asked some times in advance.

What was told before has to be told again: where it is not, the files have changed, and the session is over. A run that is woken, as by
Ctrl-C, is given up, and the session stands where it stood.
"""
import json, os, select, shutil, signal, subprocess, tempfile

import hgdb_client
from websocket import Lost

BUILT = os.path.join(os.path.dirname(os.path.dirname(os.path.abspath(__file__))), "crates", "hgdb", "out", "hgdb")
CHANGES = ("break", "delete", "watch", "unwatch", "drop", *hgdb_client.RUNS)
# How often a run is asked for in advance at most.
ADVANCE = 64


class Interrupted(Exception):
    """A request was given up; the session stands where it stood."""


def program_of(program=None):
    """The program that is named, or `hgdb` on the path, or the built one of this repository."""
    found = program or shutil.which("hgdb") or BUILT
    if not os.path.isfile(found) or not os.access(found, os.X_OK):
        raise Lost(f"there is no program {found}" if program else "there is no hgdb on the path: --hgdb names one")
    return found


def bare(line):
    """A line without its number, since a look before it counts too."""
    return {name: value for name, value in line.items() if name != "seq"}


class Trace(hgdb_client.Session):
    """A session over a dump file. `given` are the requests that are given again, and `told` the lines that they have to be told."""

    def __init__(self, sym, vcd, scope, program=None, record=None):
        super().__init__(record)
        self.words = [program_of(program), "replay", sym, vcd, scope]
        self.given, self.told, self.count = [], [], 0
        # The last request that changed something, and what is known in advance of the same once more.
        self.last, self.coming, self.most = None, [], 1
        self.ran_over([])

    def ran_over(self, texts):
        """The lines that the program prints for the requests that were given, and these."""
        with tempfile.NamedTemporaryFile() as file:
            file.write("".join(f"{it}\n" for it in self.given + texts).encode())
            file.flush()
            child = subprocess.Popen(
                [*self.words, file.name], stdin=subprocess.DEVNULL, stdout=subprocess.PIPE, stderr=subprocess.DEVNULL,
                start_new_session=True,
            )
            try:
                told = self.read(child).decode(errors="replace").splitlines()
            finally:
                child.kill()
                child.wait()
                child.stdout.close()
        if child.returncode != 0:
            raise Lost(f"{self.ended(child.returncode)}{': ' if told else ''}{''.join(told[:1])}")
        return told

    def ended(self, status):
        """How a run of the program ended."""
        return f"hgdb replay was ended by {signal.Signals(-status).name}" if status < 0 else f"hgdb replay ended with status {status}"

    def read(self, child):
        """What the program prints, up to its end."""
        data, stream = b"", child.stdout.fileno()
        while True:
            ready = select.select([stream, *([] if self.waker is None or self.patient else [self.waker])], [], [])[0]
            if stream not in ready:
                self.waker.drain()
                raise Interrupted
            piece = os.read(stream, 1 << 16)
            if not piece:
                child.wait()
                return data
            data += piece

    def request(self, cmd, **fields):
        text = hgdb_client.text_of(cmd, fields)
        if cmd in hgdb_client.RUNS and text == self.last:
            if not self.coming:
                self.most = min(2 * self.most, ADVANCE)
                self.coming = self.answers([(cmd, text)] * self.most)
            reply, notice = self.coming.pop(0)
        else:
            reply, notice = self.answers([(cmd, text)])[0]
        self.take(cmd, text, reply, notice)
        self.notices += [notice] * (notice is not None)
        return reply

    def ask(self, asked):
        """Asks for each (cmd, fields) in one run of the program."""
        texts = [(cmd, hgdb_client.text_of(cmd, fields)) for cmd, fields in asked]
        found = self.answers(texts)
        for (cmd, text), (reply, notice) in zip(texts, found):
            self.take(cmd, text, reply, notice)
            self.last, self.coming = None if cmd in CHANGES else self.last, [] if cmd in CHANGES else self.coming
        return found

    def answers(self, texts):
        """What is told to each (cmd, text) behind the requests before: a reply, and the notice of a run or None."""
        lines, found = iter(self.ran_over([text for _, text in texts])), []
        for told in self.told:
            if (line := next(lines, None)) is None or bare(hgdb_client.line_of(line)) != told:
                raise Lost("hgdb replay answers in another way than before: the files have changed")
        for cmd, _ in texts:
            reply = self.next(lines, cmd)
            found.append((reply, self.next(lines) if cmd in hgdb_client.RUNS and reply["ok"] else None))
        self.rows = [hgdb_client.line_of(it) for it in lines]
        return found

    def take(self, cmd, text, reply, notice):
        """Takes in what was told to a request: it counts now, and where it changed the session, it is given again from now on."""
        self.count += 1
        reply["seq"] = self.count
        lines = [reply] + [notice] * (notice is not None)
        if cmd in CHANGES and reply["ok"]:
            if text != self.last:
                self.last, self.coming, self.most = text, [], 1
            self.given.append(text)
            self.told += [bare(it) for it in lines]
            self.ran = cmd if cmd in hgdb_client.RUNS else self.ran
        self.kept(">", text)
        for line in lines + self.rows * (cmd == "bye"):
            self.kept("<", json.dumps(line, separators=(",", ":"), ensure_ascii=False))

    def next(self, lines, cmd=None):
        text = next(lines, None)
        if text is None:
            raise Lost("hgdb replay ended before its last answer")
        return hgdb_client.line_of(text, cmd)

    def leave(self):
        self.request("bye")
        return self.rows

    def close(self):
        """There is nothing that stays open."""
