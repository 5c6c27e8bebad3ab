"""What hgdb-client knows of a session of hgdb_client.py, live or over a dump file: where it stands, and what is shown of that.

The commands themselves stand in hgdb_commands.py. Whatever comes from the session is taken in before a command is obeyed (`catch_up`), so
that each command looks at the stop that was shown last. A command that is refused, or that is none, raises Failed with what is said of it;
that one failed is kept for the status of a script. Ctrl-C is noted (`press`) and looked at where something is waited for: a run is paused, a
row of runs ends, and a reply is waited for all the same, since what a request has changed is told by its reply; Ctrl-C once more gives the
connection up.
"""
import re

import hgdb_client, hgdb_points, hgdb_source, hgdb_wave

WHERE = "[FILE:]LINE [at INSTANCE] [if CONDITION]"
# Each command: other names, the words behind it, and what it does.
COMMANDS = {
    "break": (("b", "br"), WHERE, "stop before the statements of a line; FILE is a number or a name, and without it the first file"),
    "tbreak": (("tb",), WHERE, "the same, and take the breakpoint away at its first stop"),
    "watch": ((), "EXPRESSION", "stop where its value at this statement of this instance differs from that in the cycle before"),
    "delete": (("d",), "[NUMBER]..", "take breakpoints and watchpoints away; without a number, all of them"),
    "disable": ((), "[NUMBER]..", "let them rest; without a number, all of them"),
    "enable": ((), "[NUMBER]..", "set them again"),
    "condition": ((), "NUMBER [CONDITION]", "give a breakpoint another condition, or none"),
    "ignore": ((), "NUMBER COUNT", "pass over the next COUNT stops of a breakpoint"),
    "continue": (("c", "fg"), "[COUNT] [&]", "run forwards to the next stop, or to the COUNTth; with & the prompt comes back at once"),
    "reverse": (("rc", "reverse-continue"), "[COUNT] [&]", "run backwards to the next stop"),
    "step": (("s", "n", "next"), "[INSTANCE] [COUNT] [&]", "go to the next executed statement, or to the next one of an instance"),
    "back": (("rs", "reverse-step", "rn", "reverse-next"), "[INSTANCE] [COUNT] [&]", "the same backwards"),
    "until": (("u", "advance"), WHERE, "run forwards to a line"),
    "finish": (("fin",), "", "go to the last statement of the block, and tell what it assigns"),
    "start": ((), "", "go back to the start of the run"),
    "run": (("r",), "", "go back to the start of the run, and from there to the first stop"),
    "pause": (("interrupt",), "", "stop a run that is under way; so does Ctrl-C"),
    "wait": ((), "", "wait for the end of a run that is under way"),
    "threads": ((), "", "the instances that execute the statement"),
    "instance": (("thread",), "[NAME]", "choose the instance that is looked at; without a name, the first one of each stop"),
    "print": (("p", "inspect"), "[/x | /d | /t] EXPRESSION", "the value of an expression, in hexadecimal, decimal or binary digits"),
    "display": ((), "[/x | /d | /t] [EXPRESSION]", "show it at each stop; without an expression, show all of them now"),
    "undisplay": ((), "[NUMBER]..", "show it no longer"),
    "wave": ((), "NAME.. [CYCLES]", f"values over the cycles round the stop, {hgdb_wave.USUAL} of them, at most {hgdb_wave.CYCLES}"),
    "info": (("i",), "locals | breakpoints | watchpoints | display | line [[FILE:]LINE] | threads | listeners",
             "the values of all names; what stands behind the other words"),
    "where": (("bt", "frame", "f"), "", "where the session stands"),
    "list": (("l",), "[[FILE:]LINE | [FILE:]FIRST,LAST | -]", "lines of the source: around the stop, the next ones, around a line, those before"),
    "set": ((), "listsize NUMBER", "how many lines `list` shows"),
    "drop": ((), "NUMBER", "end a listener, and show what it had counted"),
    "help": (("h",), "[COMMAND]", "this text"),
    "quit": (("q", "exit"), "", "end the session"),
}
INFOS = ("locals", "breakpoints", "watchpoints", "display", "line", "listeners", "threads")
# What a refusal tells, by its code: a text over the fields of the answer.
REFUSALS = {
    1: "the request is too long",
    2: "the request is no JSON",
    3: "the field {field!r} of the request is missing or of another kind",
    4: "there is no such request",
    5: "no statement is on line {line}",
    6: "no instance {instance} has a statement on the line",
    8: "{name} was removed (slot {slot}); serve the design in the mode keep",
    9: "{name} is unset at slot {slot}; take a later line",
    10: "a run is under way, {mode}",
    11: "no run is under way",
    13: "there are {limit} breakpoints already",
    14: "there is no breakpoint {bp}",
    15: "there is no listener {k}",
    16: "there are {limit} watchpoints already",
    17: "there is no watchpoint {wp}",
}
MODES = {"continue": "forward", "step": "forward", "reverse": "backward", "back": "backward"}
ROWS = 8
LISTED = 10


class Failed(Exception):
    """A command that was not done: the lines that tell why."""

    def __init__(self, *lines):
        super().__init__(*lines)
        self.lines = lines


def number_of(word):
    """The number that a word is, or None."""
    return int(word) if re.fullmatch("[0-9]{1,20}", word) else None


def site_of(place):
    """The file and the line of a stop."""
    return place.get("file", 0), place["line"]


def place_of(at):
    """A place of a session in words."""
    if isinstance(at, dict):
        return f"in cycle {at['cycle']} at slot {at['slot']}"
    return f"at the {at} of the run"


def refusal(reply, text=None, nobody=False):
    """What a refused request tells. `text` is the condition or the expression that was asked for; `nobody` says that no instance
    executes the statement."""
    code, name = reply["code"], reply["error"]
    kept = {key: value for key, value in reply.items() if key not in ("code", "error", "ok", "seq", "id")}
    if code == 7:
        why = f"no name {reply['name']} is in scope" if "name" in reply else f"this is wrong from byte {reply['offset']} on"
    elif code == 12:
        why = f"it stands {place_of(reply['at'])}"
        if nobody:
            why += ", where no instance executes anything; `step` goes to the next statement that is executed"
        elif isinstance(reply["at"], dict):
            why += ", where this instance executes nothing"
    elif code == 5 and "file" in reply:
        why = f"no statement is on line {hgdb_points.spot(*site_of(reply))}"
    elif code == 6 and text is None:
        why = f"there is no instance {reply['instance']}"
    elif code in REFUSALS:
        why = REFUSALS[code].format(**kept)
    else:
        why = " ".join(f"{key} {value}" for key, value in kept.items())
    lines = [f"Refused: {why} ({name})"]
    if code == 7 and "offset" in reply and text is not None:
        front = text.encode()[:reply["offset"]].decode(errors="replace")
        lines += [f"  {text}", "  " + " " * len(front) + "^"]
    return lines


def rows_of(rows):
    """The rows of a listener in words."""
    told = [f"{key} ({times})" for key, times in rows[:ROWS]] + ["..."] * (len(rows) > ROWS)
    return ", ".join(told) or "none"


def formatted(shown, form):
    """A value in another form: `x`, `d` or `t` for hexadecimal, decimal or binary digits."""
    width, _, digits = shown.partition("'h")
    if not form or not digits:
        return shown
    return {"x": f"0x{digits}", "d": str(int(digits, 16)), "t": f"{int(digits, 16):0{int(width)}b}"}[form]


def command_of(word):
    """The command that a word names, by its name, another name or the beginning of a name; or None and those that it could be."""
    for name, (others, _, _) in COMMANDS.items():
        if word == name or word in others:
            return name, []
    found = {}
    for name, (others, _, _) in COMMANDS.items():
        for each in (name, *others):
            if word and each.startswith(word):
                found.setdefault(name, each)
    return (next(iter(found)), []) if len(found) == 1 else (None, sorted(found.values()))


def usage(name):
    """What is said where the words behind a command are none of it."""
    return Failed(f"Usage: {name} {COMMANDS[name][1]}".rstrip())


def counted(name, words, most=1):
    """The words of a run: a name or None, a count, and whether it is to run in the background."""
    behind = words[-1:] == ["&"]
    words = words[:-1] if behind else words
    numbers = [it for it in words if number_of(it) is not None]
    others = [it for it in words if number_of(it) is None]
    if len(numbers) > 1 or len(others) > most or numbers == ["0"] or "&" in others:
        raise usage(name)
    if numbers and behind:
        raise Failed("A count and & do not go together")
    return (others or [None])[0], int((numbers or ["1"])[0]), behind


class Never:
    """Ctrl-C where nobody presses it."""
    pressed = False


class Client:
    """The commands over a session, and what is known of it: breakpoints, the instance that was chosen, the place of the last stop, values
    that were shown last, names and instances, expressions to show. `paint` gives a text its colour; `shares` tells that other clients may lead the
    session too, and `led` that one did since this one ran or waited; who types has seen that."""

    def __init__(self, session, source=None, press=Never, paint=None):
        self.on, self.source, self.press = session, source or hgdb_source.Source(), press
        self.paint = paint or (lambda _, text: text)
        self.points = hgdb_points.Points(session, self.accepted)
        self.chosen, self.place, self.edge, self.hits, self.unshown = None, None, "start", [], False
        self.known, self.names, self.paths, self.slots = {}, set(), set(), {}
        self.displays, self.shown_last, self.listsize, self.listed = {}, 0, LISTED, None
        self.listed_file = 0
        self.failed, self.warned, self.shares, self.led = False, False, False, False
        # Tells of a stop that is left at once, so that no breakpoint is hit there.
        self.passing = lambda place: False

    def say(self, *lines, kind=None):
        for line in lines:
            print(self.paint(kind, line) if kind else line, flush=True)

    def fail(self, *lines):
        """Tells what was not done."""
        self.failed = True
        self.say(*lines, kind="refused")

    # What comes from the session

    def catch_up(self):
        """Takes in the ends of runs that have come, and shows where it stands now."""
        if self.on.running or self.shares:
            self.on.listen(0)
        while self.on.notices:
            self.come(self.on.notices.pop(0))
            if self.shares:
                self.on.listen(0)
        self.show()

    def come(self, notice):
        """Takes in the end of a run. A stop that all its breakpoints ignore goes on."""
        self.edge, self.place, self.hits, self.unshown = notice["notice"], None, [], True
        self.led = other = notice.pop("other", False)
        if other:
            self.say("Another client led the session on")
        if self.edge == "stopped":
            self.stand(notice)
            if self.passing(notice):
                return
            ran = self.on.ran in ("continue", "reverse") and not other
            found = self.points.fitting(notice, ran)
            self.hits = self.points.hit(found)
            if ran and found and not self.hits and not self.press.pressed:
                self.accepted(self.on.request(self.on.ran))
                self.unshown = False

    def stand(self, place):
        """Notes a place at which it stands."""
        self.edge, self.place, self.listed = "stopped", place, None
        self.paths.update(place["threads"])

    def settle(self):
        """Waits for the end of the run that is under way; Ctrl-C pauses it. Returns whether it stands at a statement and may go on."""
        paused = False
        while self.on.running or self.on.notices:
            if self.on.notices:
                self.come(self.on.notices.pop(0))
            elif self.press.pressed and not paused:
                paused = True
                self.paused(self.on.request("pause"))
            elif self.shares:
                self.on.listen(1)
                self.seen()
            else:
                self.on.listen()
        return self.edge == "stopped" and not self.press.pressed

    def seen(self):
        """Looks whether a run still goes on: where another client paused it, nobody else is told."""
        if self.on.running and not self.on.notices:
            reply = self.on.request("status")
            if reply["ok"] and reply["mode"] == "idle" and not self.on.notices:
                self.on.running = None
                self.say("Another client paused the run")
                self.paused(reply)

    def paused(self, reply):
        """Takes in the answer to a pause. Where the run had ended before, its notice tells where it stands."""
        if not reply["ok"]:
            return
        self.say(f"Paused {place_of(reply['at'])}")
        self.edge, self.place, self.hits, self.unshown = reply["at"], None, [], False
        if isinstance(reply["at"], dict):
            told = self.on.request("threads")
            self.stand({**reply["at"], **told})
            self.unshown = bool(told["threads"])
            if not told["threads"]:
                self.say("No instance executes anything there; `step` goes to the next statement that is executed")

    def late(self, ready):
        """Ctrl-C, where a reply is waited for and is not there soon: it is waited for on. The next one gives the connection up."""
        if ready(0.2):
            return
        if self.warned:
            raise hgdb_client.Lost("it was given up")
        self.warned = True
        self.say("Interrupted: the answer is waited for; Ctrl-C once more gives the connection up")

    def accepted(self, reply, text=None):
        """A reply, where it is an accepted one."""
        if not reply["ok"]:
            nobody = self.place is not None and not self.place["threads"]
            raise Failed(*refusal(reply, text, nobody and reply["code"] == 12))
        return reply

    def asked(self, cmd, **fields):
        """The accepted reply to a request."""
        return self.accepted(self.on.request(cmd, **fields))

    def idle(self):
        """Refuses what needs the session to stand, where it runs."""
        if self.on.running:
            raise Failed(f"Refused: a run is under way, {MODES[self.on.running]} (Busy)")

    # What is told of a place

    def here(self):
        """The instance that is looked at."""
        if self.chosen is not None:
            return self.chosen
        return self.place["threads"][0] if self.place and self.place["threads"] else ""

    def stopped(self):
        """Whether it stands where the instance that is looked at executes a statement."""
        return self.place is not None and self.here() in self.place["threads"]

    def show(self, pending=()):
        """Shows where it stands, if that is not shown yet, and registers over whose `<=` it stepped."""
        if not self.unshown:
            return
        self.unshown = False
        if self.place is None:
            self.say({"ended": "The end of the run", "start": "The start of the run"}[self.edge], kind="place")
        else:
            self.tell_place()
            self.tell_changes()
            self.tell_watches()
        self.tell_pending(pending)
        self.tell_displays()

    def tell_pending(self, pending):
        """Shows what registers will hold, each an instance, a name, the cycle of its `<=` and a value; in a later cycle, what they hold
        now, where that is not among the changes."""
        for (path, name), (cycle, value) in pending:
            later, mine = self.place is not None and self.place["cycle"] != cycle, path == self.here()
            if not (later and mine):
                self.say(f"  {name if mine else f'{path}.{name}'} <= {value} ({'held now' if later else 'pending'})", kind="pending")

    def tell_place(self):
        """Shows the place: the breakpoints, the cycle, the line, the instance that is looked at, and the line of the source."""
        place, (file, line) = self.place, site_of(self.place)
        points = ", ".join(it.name().capitalize() for it in self.hits if it.number)
        gens = "".join(f", {name}={number}" for name, number in place["gens"])
        self.say(f"{points + ', c' if points else 'C'}ycle {place['cycle']}, line {self.spot(file, line)}, {self.who()}{gens}", kind="place")
        self.say(*[f"{number}\t{text}" for number, text in self.lines(file, line, line)], kind="line")

    def spot(self, file, line):
        """A line, behind the name of its file, or the number where no name is known; alone where it is file 0."""
        return f"{self.source.file(file).name or file}:{line}" if file else str(line)

    def who(self):
        """Who executes the statement: the instance that is looked at, and how many more."""
        threads, one = self.place["threads"], self.here()
        if one not in threads:
            return f"not {one}" if one else "no instance"
        return one if len(threads) == 1 else f"{one} and {len(threads) - 1} more"

    def lines(self, file, first, last):
        """Lines of a file of the source with their numbers, where they are known."""
        have = self.source.file(file).lines
        return [(number, have[number - 1]) for number in range(max(first, 1), min(last, len(have)) + 1)]

    def tell_changes(self):
        """Shows what changed at the instance that is looked at since it was looked at before."""
        if not self.stopped():
            return
        before = self.known.get(self.here())
        now = self.values()
        for name, shown in now.items() if before is not None else ():
            if before.get(name) != shown:
                was = f", was {before[name]}" if name in before else ""
                self.say(f"  {name} = {shown}{was}", kind="changed")

    def tell_watches(self):
        """Shows what the watched expressions of the watchpoints that are hit were and are."""
        for point in self.hits:
            if isinstance(point, hgdb_points.Watch):
                was = self.points.earlier(point, self.place)
                now = self.asked("eval", instance=point.path, expr=point.cond)["value"]
                at = "" if point.path == self.here() else f" at {point.path}"
                self.say(f"  {point.cond}{at} = {now}" + f", was {was} in the cycle before" * (was is not None), kind="changed")

    def values(self):
        """The values of the instance that is looked at, which are kept."""
        path = self.here()
        now = dict(self.look("values")["values"])
        self.known[path] = {**self.known.get(path, {}), **now}
        self.names.update(now)
        return now

    def look(self, cmd, **fields):
        """The accepted reply to a request about the instance that is looked at. Where a run ended before the request came, it is asked
        for the instance of that stop."""
        reply = self.on.request(cmd, instance=self.here(), **fields)
        if self.on.notices:
            self.catch_up()
            reply = self.on.request(cmd, instance=self.here(), **fields)
        return self.accepted(reply)

    # Runs

    def go(self, cmd, count=1, behind=False):
        """Runs to breakpoints so many times."""
        for _ in range(count):
            self.asked(cmd)
            if behind or not self.settle():
                break
        if not behind:
            self.show()

    def walk(self, cmd, instance=None, count=1, behind=False):
        """Steps so many times, or up to a stop that is passed or a breakpoint. Returns the registers, or their parts, over whose `<=` it
        stepped and that no later one assigned anew."""
        pending = {}
        for _ in range(count):
            path, given = self.here(), None
            if cmd == "step" and not behind and instance in (None, path) and (given := self.gives("<=")):
                given = [((path, given[0]), (self.place["cycle"], given[1]))]
            self.asked(cmd, instance=instance)
            if behind:
                break
            for key, told in given or []:
                pending = {at: it for at, it in pending.items() if at[0] != key[0] or not hgdb_source.overlap(at[1], key[1])}
                pending[key] = told
            if not self.settle() or self.hits or self.passing(self.place):
                break
        return pending.items()

    def statement(self, place):
        """The statement at a place, by the source, or None where that does not tell it."""

        def slots():
            key = *site_of(place), self.here()
            if key not in self.slots:
                reply = self.on.request("break", **hgdb_points.sited(*key[:2]), instance=key[2])
                self.slots[key] = reply["slots"] if reply["ok"] else []
                self.points.unset(reply["bp"]) if reply["ok"] else None
            return self.slots[key]

        return self.source.file(site_of(place)[0]).at(place["line"], place["slot"], slots)

    def right(self, place, *kinds):
        """The name that the statement at a place assigns, and the text of the right side; or None, where it is of none of these kinds."""
        found = self.statement(place)
        return hgdb_source.told(found, place["gens"]) if found is not None and found.kind in kinds else None

    def gives(self, *kinds):
        """The name that the statement here assigns, and the value that it gives it; or None."""
        if self.on.running or not self.stopped():
            return None
        found = self.right(self.place, *kinds)
        if found is None:
            return None
        reply = self.on.request("eval", instance=self.here(), expr=found[1])
        if reply["ok"]:
            return found[0], reply["value"]
        return (found[0], "removed") if reply["code"] == 8 else None
