"""The breakpoints and watchpoints of hgdb-client: numbers of its own over those of the session, which gives none twice.

A session has breakpoints that are set and taken away. What GDB has besides is made of that here: one that is disabled is taken away and
set anew once it is enabled, one whose condition changes is set anew first, and what is told of each (hits, stops to be ignored, whether
it is a temporary one) is kept here. A stop does not tell which breakpoints it has; so each of the slot is looked at: whether its
instance is there, and whether its condition is true. Where a run stopped and one alone can be the cause, it is, and nothing is asked.

Which watches match is told with a stop. What the value was is not: the session goes back along the instance to the same statement in the
cycle before, tells the value there, and goes forth again.
"""
import hgdb_expr

# How many statements are gone back at once.
BACK = 16


class Point:
    """A breakpoint: its number, where it is set (a line in a file, and an instance), its number in the session or None where it is disabled, the slots that it waits at,
    its hits, how many of the next ones are to be ignored, and whether it is taken away at its first stop."""

    WORD, SET, TEXT, UNSET, NUMBER = "breakpoint", "break", "cond", "delete", "bp"

    def __init__(self, number, at, path, cond, temporary):
        self.number, self.path, self.cond, self.temporary = number, path, cond, temporary
        self.file, self.line = at
        self.bp, self.slots, self.hits, self.ignored = None, [], 0, 0

    def name(self):
        """Its name at a stop."""
        return f"{'temporary ' * self.temporary}{self.WORD} {self.number}"

    def place(self):
        """Its line, behind the number of its file unless it is file 0."""
        return spot(self.file, self.line)

    def waits(self):
        """Where it waits, and for what."""
        at, when = f" at {self.path}" if self.path else "", f" if {self.cond}" if self.cond else ""
        return f"{'temporary, ' * self.temporary}line {self.place()}{at}{when}"

    def told(self):
        """What `info breakpoints` tells."""
        more = [f"hit {times(self.hits)}"] * (self.hits > 0) + [f"next {self.ignored} ignored"] * (self.ignored > 0)
        more += ["disabled"] * (self.bp is None)
        return f"{self.number}: {self.waits()}" + "".join(f", {it}" for it in more)


class Watch(Point):
    """A watchpoint: the same, of an expression at a line in an instance."""

    WORD, SET, TEXT, UNSET, NUMBER = "watchpoint", "watch", "expr", "unwatch", "wp"

    def waits(self):
        return f"{self.cond}, line {self.place()} at {self.path}"


def spot(file, line):
    """A line, behind the number of its file unless it is file 0."""
    return f"{file}:{line}" if file else str(line)


def sited(file, line):
    """The fields of a request that tell a place."""
    return {"file": file or None, "line": line}


def times(count):
    return "once" if count == 1 else f"{count} times"


class Points:
    """The breakpoints and the watchpoints over a session. A request that is refused is raised by `answered`, which is given the reply and
    the text of the condition, and returns an accepted one."""

    def __init__(self, session, answered):
        self.session, self.answered, self.all, self.last = session, answered, {}, 0

    def set(self, point, cond, gens=()):
        """Sets a point with this condition in the session. Returns its reply and the condition as it was taken."""

        def ask(texts):
            fields = {**sited(point.file, point.line), "instance": point.path}
            return [it for it, _ in self.session.ask([(point.SET, {**fields, point.TEXT: it}) for it in texts])]

        text, reply = (None, ask([None])[0]) if cond is None else hgdb_expr.fitted(ask, cond, gens)
        return self.answered(reply, text or ""), text

    def unset(self, bp, point=Point):
        with self.session.steady():
            self.answered(self.session.request(point.UNSET, **{point.NUMBER: bp}))

    def add(self, at, path, cond, temporary=False, hidden=False):
        """A new breakpoint. One that is hidden has the number 0."""
        return self.added(Point(0 if hidden else self.last + 1, at, path, cond, temporary))

    def added(self, point, gens=()):
        """A new point, which is set."""
        reply, point.cond = self.set(point, point.cond, gens)
        self.last += point.number > 0
        self.all[point.number] = point
        point.bp, point.slots = reply[point.NUMBER], reply["slots"]
        return point

    def watch(self, at, path, text, gens):
        """A new watchpoint."""
        return self.added(Watch(self.last + 1, at, path, text, False), gens)

    def numbers(self):
        """The numbers of those that are not hidden."""
        return [it for it in self.all if it]

    def watches(self):
        return [it for it in self.all.values() if isinstance(it, Watch)]

    def breakpoints(self):
        return [it for it in self.all.values() if not isinstance(it, Watch)]

    def remove(self, point):
        self.disable(point)
        self.all.pop(point.number, None)

    def disable(self, point):
        if point.bp is not None:
            self.unset(point.bp, point)
            point.bp = None

    def enable(self, point):
        if point.bp is None:
            point.bp = self.set(point, point.cond)[0][point.NUMBER]

    def condition(self, point, cond):
        """Gives a breakpoint another condition, or none. Where it is refused, the old one stays."""
        reply, text = self.set(point, cond)
        if point.bp is not None:
            self.unset(point.bp)
            point.bp = reply["bp"]
        else:
            self.unset(reply["bp"])
        point.cond = text

    def resting(self):
        """Takes all away from the session for a while. Returns those that were set, for `again`."""
        found = [it for it in self.all.values() if it.bp is not None]
        for point in found:
            self.disable(point)
        return found

    def again(self, found):
        """Sets those again that rested."""
        with self.session.steady():
            for point in found:
                self.enable(point)

    def fitting(self, stop, ran):
        """The breakpoints and watchpoints that a stop has. `ran` says that a run for them stopped there."""
        watches = [it for it in self.watches() if it.bp is not None and it.bp in stop.get("watches", ())]
        found = [it for it in self.breakpoints() if it.bp is not None and stop["slot"] in it.slots]
        found = [it for it in found if it.path is None or it.path in stop["threads"]]
        if not (ran and len(found) == 1 and not watches):
            found = [it for it in found if it.cond is None or self.holds(it, stop["threads"])]
        return found + watches

    def earlier(self, point, stop):
        """The value that a watch which matches at a stop had in the cycle before, or None where the way does not lead there."""
        way, gone, at = {"instance": point.path}, 0, None
        while at is None:
            told = [it for _, it in self.session.ask([("back", way)] * BACK)]
            places = [(it.get("cycle"), it.get("slot")) for it in told]
            at = next((i for i, it in enumerate(places) if it == (stop["cycle"] - 1, stop["slot"])), None)
            if at is None and told[-1]["notice"] != "stopped":
                return None
            gone += BACK if at is None else at + 1
        over = [it["notice"] for it in told[at + 1:]]
        forth = over.count("stopped") + ("start" in over)
        told = self.session.ask([("step", way)] * forth + [("eval", {**way, "expr": point.cond})] + [("step", way)] * gone)
        return told[forth][0].get("value")

    def holds(self, point, threads):
        """Whether the condition of a breakpoint is true at one of the threads that it waits for."""
        for path in threads if point.path is None else [point.path]:
            reply = self.session.request("eval", instance=path, expr=point.cond)
            if reply["ok"] and reply["value"] == "1'h1":
                return True
        return False

    def hit(self, found):
        """Counts a hit of each of these. Returns those that are not to be ignored; a temporary one of them is taken away."""
        stopping = []
        for point in found:
            point.hits += 1
            if point.ignored:
                point.ignored -= 1
            else:
                stopping.append(point)
                if point.temporary:
                    self.remove(point)
        return stopping

    def forget(self):
        """Takes the counts of hits back to 0."""
        for point in self.all.values():
            point.hits = 0
