"""Waveforms of text, for hgdb-client: the values of names over the cycles round a stop.

A session tells values where an instance executes a statement, and each statement may show other ones. Here a name has in each cycle
the value that it has behind the last statement that the instance executes in it: its value before that statement, or, where this
statement assigns it by `=` and the source is known, the value of the right side.

The way there and back: `back` along the instance to its first statement of the cycle, a breakpoint there, and from one cycle to the next
by `reverse` and `continue`; from each cycle's first statement `back` goes to the last one of the cycle before, and `step` forth again. The
breakpoints of the person rest meanwhile. It ends where it began, which is compared. Ctrl-C cuts the waveform short, and not the way back.
"""

# The most cycles that are shown, how many where no number is given, and the most statements of an instance in a cycle.
CYCLES, USUAL, STATEMENTS = 64, 16, 4096
# How many statements are gone back at once, and how many cycles are looked at at once.
BACK, AT_ONCE = 16, 8
SHORT = {"x": "x", "unset": "u", "removed": "r"}
LEGEND = {"x": "x is not known", "u": "u is unset", "r": "r is removed"}


class Lacking(Exception):
    """No waveform can be shown: the text tells why."""


class Wave:
    """The way over the cycles round a stop, at which the session stands, along an instance. `right` tells the name that the statement
    of a stop assigns by `=`, and the text of the right side, or None. `pressed` tells whether to cut it short. `at` is the cycle at
    whose first statement it stands, or the number of cycles at the end of the run."""

    def __init__(self, session, stop, path, right, pressed):
        self.session, self.stop, self.path, self.right, self.pressed = session, stop, path, right, pressed
        self.steps, self.first, self.slots, self.at = 0, None, [], stop["cycle"]

    def along(self, cmd, count):
        """Goes so many statements of the instance on or back; the notices."""
        return [notice for _, notice in self.session.ask([(cmd, {"instance": self.path})] * count)]

    def seek(self):
        """Goes to the first statement that the instance executes in this cycle."""
        inside = BACK
        while inside == BACK:
            if self.steps > STATEMENTS:
                self.along("step", self.steps)
                raise Lacking(f"wave looks at no instance that executes more than {STATEMENTS:,} statements in a cycle")
            told = self.along("back", BACK)
            inside = next((i for i, it in enumerate(told) if it.get("cycle") != self.at), BACK)
            self.steps += inside
        beyond = [it["notice"] for it in told[inside:]]
        self.first = self.along("step", beyond.count("stopped") + ("start" in beyond))[-1]

    def go(self, cmd, count):
        """Goes so many cycles on or back, from first statement to first statement."""
        self.at += -count if cmd == "reverse" else count
        if len(self.slots) == 1:
            self.session.ask([(cmd, {})] * count)
            return
        for _ in range(count):
            while (notice := self.session.run(cmd))["notice"] == "stopped" and notice["slot"] != self.first["slot"]:
                pass

    def over(self, looks):
        """Goes over a cycle for each of these looks, which is made at the last statement of the cycle. For each that statement's notice
        and the reply. Behind the last cycle of the run the same statement comes again."""
        way, told = {"instance": self.path}, []
        for look in looks:
            told += [("continue", {}), ("back", way), look, ("step", way)]
        if len(self.slots) == 1:
            told = self.session.ask(told)
        else:
            told = [it for look in looks for it in (self.go("continue", 1), *self.session.ask([("back", way), look, ("step", way)]))]
        return [(told[i + 1][1], told[i + 2][0]) for i in range(0, len(told), 4)]

    def samples(self, count):
        """The values in each of so many cycles from here on, or up to the end."""
        way, found, at = {"instance": self.path}, {}, self.at
        for last, reply in self.over([("values", way)] * count):
            if last["cycle"] == at + len(found):
                found[last["cycle"]] = last, dict(reply["values"])
        self.at = at + len(found)
        rights = [self.right(last) if "unset" in values.values() else None for last, values in found.values()]
        if any(rights):
            self.go("reverse", len(found))
            again = self.over([("status", {}) if it is None else ("eval", {**way, "expr": it[1]}) for it in rights])
            self.at = at + len(found)
            for (_, values), right, (_, reply) in zip(found.values(), rights, again):
                if right is not None and reply["ok"]:
                    values[right[0]] = reply["value"]
        return [(cycle, values) for cycle, (_, values) in found.items()]

    def home(self):
        """Goes back to the stop, from the first statement of a cycle or from the end of the run."""
        if self.at != self.stop["cycle"]:
            self.go("reverse" if self.at > self.stop["cycle"] else "continue", abs(self.at - self.stop["cycle"]))
        last = self.along("step", self.steps)[-1] if self.steps else self.stop
        if (last.get("cycle"), last.get("slot")) != (self.stop["cycle"], self.stop["slot"]):
            raise Lacking("the way back did not lead to the stop")

    def taken(self, count):
        """The values in each of so many cycles round the stop, each a cycle and its values. Then it stands at the stop."""
        self.seek()
        reply = self.session.request("break", file=self.first.get("file"), line=self.first["line"], instance=self.path)
        self.slots, found = reply["slots"], []
        try:
            if before := min(count // 2, self.at):
                self.go("reverse", before)
            while len(found) < count and not self.pressed():
                wanted = min(AT_ONCE, count - len(found))
                found += (some := self.samples(wanted))
                if len(some) < wanted:
                    break
        finally:
            self.home()
            self.session.request("delete", bp=reply["bp"])
        return found


def short(shown):
    """A value in a column: the digits of a literal."""
    return SHORT.get(shown) or shown.partition("'h")[2]


def row(values, width):
    """The line of a name: levels where it has one bit, digits otherwise."""
    if not all(it in SHORT or it.startswith("1'h") for it in values):
        return "".join(short(it).ljust(width) for it in values)
    told, before = "", None
    for value in values:
        level = {"1'h0": "_", "1'h1": "-"}.get(value, SHORT.get(value))
        edge = {("_", "-"): "/", ("-", "_"): "\\"}.get((before, level), level)
        told, before = told + edge + level * (width - 1), level
    return told


def lines(names, found, cycle):
    """The lines of a waveform: the cycles, a line for each name, the mark of the stop's cycle, and what its letters mean."""
    width = 1 + max(len(it) for each, values in found for it in [str(each), *(short(values[name]) for name in names)])
    left = 2 + max(len("cycle"), *map(len, names))
    told = ["cycle".ljust(left) + "".join(str(each).ljust(width) for each, _ in found)]
    told += [name.ljust(left) + row([values[name] for _, values in found], width) for name in names]
    told += [" " * (left + width * at) + "^" for at, (each, _) in enumerate(found) if each == cycle]
    used = {short(values[name]) for _, values in found for name in names if values[name] in SHORT}
    told += [", ".join(LEGEND[it] for it in sorted(used))] * bool(used)
    return [it.rstrip() for it in told]
