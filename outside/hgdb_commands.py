"""The commands of hgdb-client, each a function `do_NAME` over the words behind it; hgdb_prompt.py has what they are made of.

What GDB has and a session has not is made of requests: `until` and `start` set and rest breakpoints, `finish` steps, `info line` asks
for a breakpoint and takes it away. So the listeners of a session count those stops too.
"""
import re

import hgdb_expr, hgdb_points, hgdb_wave
from hgdb_prompt import COMMANDS, INFOS, Client, Failed, command_of, counted, formatted, number_of, place_of, rows_of, site_of, usage

# The most statements that `finish` goes over; no design has more.
MOST = 200_000


class Commands(Client):
    """The commands over a session."""

    # Commands: breakpoints

    def placed(self, name, words):
        """A file and a line, an instance or None, and a condition or None."""
        given = re.fullmatch(r"(?:([^\s:]+):)?([0-9]{1,20})(?: at (\S+))?(?: if\b ?(.*))?", " ".join(words))
        if not given:
            raise usage(name)
        return (self.file_of(given[1]), int(given[2])), given[3], given[4]

    def file_of(self, word):
        """The number of the file that a word names: a number, or a name that is known; without a word file 0."""
        number = 0 if word is None else number_of(word)
        if number is None and (number := self.source.number(word)) is None:
            raise Failed(f"No file {word} is known; its number names it too")
        return number

    def do_break(self, words, temporary=False):
        at, path, cond = self.placed("tbreak" if temporary else "break", words)
        point = self.points.add(at, path, cond, temporary)
        slots = f"slot{'s' * (len(point.slots) != 1)} {', '.join(map(str, point.slots))}"
        changed = f" if {point.cond}" if point.cond != cond else ""
        self.say(f"{'Temporary b' if temporary else 'B'}reakpoint {point.number} at line {self.spot(*at)}{changed}, {slots}")

    def do_watch(self, words):
        if not words:
            raise usage("watch")
        self.idle()
        if not self.stopped():
            self.look("values")
        point = self.points.watch(site_of(self.place), self.here(), " ".join(words), self.place["gens"])
        slots = f"slot{'s' * (len(point.slots) != 1)} {', '.join(map(str, point.slots))}"
        self.say(f"Watchpoint {point.number} of {point.cond} at line {self.spot(point.file, point.line)} in {point.path}, {slots}")

    def do_tbreak(self, words):
        self.do_break(words, True)

    def numbered(self, words, have, what):
        """Those that numbers name, or all; what is none of them is told."""
        found = []
        for word in words or map(str, list(have)):
            number = number_of(word)
            if number is None:
                self.fail(f"{word} is no number of a {what}")
            elif number not in have:
                self.fail(f"There is no {what} {number}")
            else:
                found.append(number)
        return found

    def each(self, words, does):
        for number in self.numbered(words, self.points.numbers(), "breakpoint"):
            does(self.points.all[number])

    def do_delete(self, words):
        self.each(words, self.points.remove)

    def do_disable(self, words):
        self.each(words, self.points.disable)

    def do_enable(self, words):
        self.each(words, self.points.enable)

    def point(self, name, words, least, most):
        """The breakpoint that the first word names."""
        if not least <= len(words) <= most:
            raise usage(name)
        if not (found := self.numbered(words[:1], self.points.numbers(), "breakpoint")):
            raise Failed()
        return self.points.all[found[0]]

    def do_condition(self, words):
        point = self.point("condition", words, 1, len(words))
        if isinstance(point, hgdb_points.Watch):
            raise Failed(f"Watchpoint {point.number} has no condition")
        self.points.condition(point, " ".join(words[1:]) or None)
        self.say(f"Breakpoint {point.number} stops {f'if {point.cond}' if point.cond else 'always'}")

    def do_ignore(self, words):
        point, count = self.point("ignore", words, 2, 2), number_of(words[1])
        if count is None:
            raise usage("ignore")
        point.ignored = count
        self.say(f"{point.WORD.capitalize()} {point.number} is ignored {hgdb_points.times(count)}")

    # Commands: runs

    def do_continue(self, words, cmd="continue"):
        _, count, behind = counted(cmd, words, 0)
        self.go(cmd, count, behind)

    def do_reverse(self, words):
        self.do_continue(words, "reverse")

    def do_step(self, words, cmd="step"):
        instance, count, behind = counted(cmd, words)
        pending = self.walk(cmd, instance, count, behind)
        if not behind:
            self.show(pending)

    def do_back(self, words):
        self.do_step(words, "back")

    def do_until(self, words):
        at, path, cond = self.placed("until", words)
        self.idle()
        point = self.points.add(at, path, cond, hidden=True)
        try:
            self.go("continue")
        finally:
            self.points.remove(point)

    def do_finish(self, _):
        self.idle()
        if not self.stopped():
            self.look("values")
        found = self.statement(self.place)
        block = found.block if found is not None else self.source.file(site_of(self.place)[0]).block(self.place["line"])
        if block is None:
            raise Failed("The source does not tell which block this is")
        pending, last = self.within(block, self.place, self.here())
        given = self.gives("=", "<=", "let") if last else None
        self.show([it for it in pending if given is None or it[0] != (self.here(), given[0])])
        if given is not None:
            self.say(f"  {given[0]} is assigned {given[1]}", kind="pending")

    def within(self, block, stop, path):
        """Goes to the last statement of the block of a stop that an instance executes in that cycle. Returns what `walk` does, and whether it came
        there: a breakpoint and Ctrl-C end it before."""

        cycle, file = stop["cycle"], site_of(stop)[0]

        def leaves(place):
            return place is None or (place["cycle"], site_of(place)[0]) != (cycle, file) or not block.first <= place["line"] <= block.last

        self.passing = leaves
        try:
            pending = self.walk("step", path, MOST)
            last = leaves(self.place) and not self.press.pressed
            if last:
                self.passing = lambda place: True
                self.asked("back", instance=path)
                self.settle()
        finally:
            self.passing = lambda place: False
        return pending, last

    def do_start(self, _):
        self.idle()
        resting = self.points.resting()
        try:
            self.go("reverse")
        finally:
            self.points.again(resting)
        self.points.forget()

    def do_run(self, words):
        self.do_start(words)
        if self.edge == "start" and not self.press.pressed:
            self.go("continue")

    def do_wait(self, _):
        while self.shares and not (self.led or self.on.running or self.on.notices or self.press.pressed):
            self.on.listen()
        self.settle()
        self.show()
        self.led = False

    def do_pause(self, _):
        reply = self.on.request("pause")
        if not self.on.notices:
            self.paused(self.accepted(reply))
        self.catch_up()

    # Commands: what is looked at

    def do_threads(self, _):
        for path in self.asked("threads")["threads"]:
            self.paths.add(path)
            self.say(f"{'*' if path == self.here() else ' '} {path}")

    def do_instance(self, words):
        if len(words) > 1:
            raise usage("instance")
        if words and words[0] not in self.paths:
            self.idle()
            self.found(words[0])
        self.chosen = words[0] if words else None
        if self.chosen is None:
            self.say("No instance is chosen")
        else:
            executes = "" if self.place is None or self.stopped() else ", which does not execute this statement"
            self.say(f"Instance {self.chosen}{executes}")

    def found(self, path):
        """Looks for an instance: at the start and at the end a step leads nowhere, and elsewhere a breakpoint shows whether it is there."""
        if self.edge != "stopped":
            self.asked("back" if self.edge == "start" else "step", instance=path)
            while self.on.running:
                self.on.listen()
            self.on.notices.clear()
        elif not self.reaches(path):
            known = "executes a statement" if self.source.lines else "was seen; `step` with its name goes to its next statement"
            raise Failed(f"No instance {path} {known}")
        self.paths.add(path)

    def reaches(self, path):
        """Whether an instance has a statement on one of the lines that are known."""
        lines = {(number, it.line) for number, file in enumerate(self.source.files) for it in file.statements}
        lines |= {site_of(self.place)} | {(it.file, it.line) for it in self.points.all.values()}
        with self.on.steady():
            told = self.on.ask([("break", {**hgdb_points.sited(*at), "instance": path}) for at in sorted(lines)])
            taken = [reply["bp"] for reply, _ in told if reply["ok"]]
            self.on.ask([("delete", {"bp": bp}) for bp in taken])
        return bool(taken)

    def evaluated(self, text):
        """The value of an expression at the instance that is looked at, and the text that was asked for."""
        gens = self.place["gens"] if self.place is not None else ()

        def ask(texts):
            return [it for it, _ in self.on.ask([("eval", {"instance": self.here(), "expr": it}) for it in texts])]

        new, reply = hgdb_expr.fitted(ask, text, gens)
        if self.on.notices:
            self.catch_up()
            new, reply = hgdb_expr.fitted(ask, text, gens)
        if reply.get("name") == text and text in dict(gens):
            return text, str(dict(gens)[text])
        return new, self.accepted(reply, new)["value"]

    def do_print(self, words, form=""):
        if not words:
            raise usage("print")
        text, value = self.evaluated(" ".join(words))
        self.say(f"{text} = {formatted(value, form)}")

    def do_display(self, words, form=""):
        if words:
            self.shown_last += 1
            self.displays[self.shown_last] = " ".join(words), form
        self.tell_displays(*[self.shown_last] * bool(words))

    def tell_displays(self, *numbers):
        """Shows the expressions that are shown at each stop. One of names that are not in scope is left out."""
        for number in numbers or self.displays:
            text, form = self.displays[number]
            if self.stopped():
                try:
                    new, value = self.evaluated(text)
                    self.say(f"{number}: {new} = {formatted(value, form)}")
                except Failed as why:
                    self.say(*[f"{number}: {text}: {why.lines[0]}"] * ("no name" not in why.lines[0]))

    def do_undisplay(self, words):
        for number in self.numbered(words, self.displays, "display"):
            del self.displays[number]

    def do_wave(self, words):
        count = number_of(words[-1]) if len(words) > 1 else None
        names = words[:-1] if count is not None else words
        count = hgdb_wave.USUAL if count is None else count
        self.idle()
        if not names:
            raise usage("wave")
        if not 1 <= count <= hgdb_wave.CYCLES:
            raise Failed(f"wave shows 1 to {hgdb_wave.CYCLES} cycles")
        have = self.look("values")["values"]
        for name in names:
            if name not in dict(have):
                raise Failed(f"No name {name} is in scope")
        resting = self.points.resting()
        try:
            wave = hgdb_wave.Wave(self.on, self.place, self.here(), lambda it: self.right(it, "="), lambda: self.press.pressed)
            with self.on.steady():
                found = wave.taken(count)
        except hgdb_wave.Lacking as why:
            raise Failed(str(why)) from why
        finally:
            self.points.again(resting)
        if not found:
            raise Failed("Interrupted")
        self.say(*hgdb_wave.lines(names, found, self.place["cycle"]))

    # Commands: what is told

    def do_info(self, words):
        found = [it for it in INFOS if words and it.startswith(words[0])]
        if len(found) != 1 or len(words) > 1 + (found[0] == "line"):
            raise usage("info")
        getattr(self, f"info_{found[0]}")(words[1:])

    def info_locals(self, _):
        self.say(*[f"{name} = {shown}" for name, shown in self.values().items()])

    def info_breakpoints(self, _):
        self.say(*[it.told() for it in self.points.breakpoints()] or ["No breakpoints"])

    def info_watchpoints(self, _):
        self.say(*[it.told() for it in self.points.watches()] or ["No watchpoints"])

    def info_display(self, _):
        told = [f"{number}: {f'/{form} ' if form else ''}{text}" for number, (text, form) in self.displays.items()]
        self.say(*told or ["No displays"])

    def info_line(self, words):
        """Which slots a line has, as a breakpoint there tells them."""
        given = re.fullmatch(r"(?:([^\s:]+):)?([0-9]{1,20})", words[0]) if words else None
        if not given and (words or not self.place):
            raise usage("info") if words else Failed("It stands at no line")
        file, line = (self.file_of(given[1]), int(given[2])) if given else site_of(self.place)
        self.idle()
        reply = self.asked("break", **hgdb_points.sited(file, line))
        self.points.unset(reply["bp"])
        told = f"Line {self.spot(file, line)} has slot{'s' * (len(reply['slots']) != 1)} {', '.join(map(str, reply['slots']))}"
        if (block := self.source.file(file).block(line)) is not None:
            told += f", in the {block.kind} of {block.module}, lines {block.first} to {block.last}"
        points = [str(it.number) for it in self.points.breakpoints() if (it.file, it.line) == (file, line)]
        self.say(told, *[f"Breakpoint{'s' * (len(points) != 1)} {', '.join(points)}"] * bool(points), *self.listing(file, line, line))

    def info_threads(self, _):
        self.do_threads([])

    def info_listeners(self, _):
        self.say(*[f"Listener {k}" for k in self.asked("status")["listeners"]] or ["No listeners"])

    def do_where(self, _):
        status = self.asked("status")
        if status["mode"] != "idle":
            self.say(f"A run is under way, {status['mode']}, {place_of(status['at'])}")
        elif isinstance(status["at"], str) or not self.asked("threads")["threads"]:
            self.say(f"It stands {place_of(status['at'])}")
        else:
            self.hits = []
            self.tell_place()

    def listing(self, file, first, last):
        """Lines of a file with marks: `B` for a breakpoint, `b` for a disabled one, `>` for the stop."""
        marks, stop = {}, self.place["line"] if self.place and site_of(self.place)[0] == file else None
        for point in (it for it in self.points.breakpoints() if it.file == file):
            marks[point.line] = "B" if point.bp is not None or marks.get(point.line) == "B" else "b"
        told = [f"{marks.get(number, ' ')}{'>' if number == stop else ' '} {number}\t{text}" for number, text in self.lines(file, first, last)]
        return [self.paint("place", it) if it[1] == ">" else it for it in told]

    def do_list(self, words):
        if not self.source.lines:
            raise Failed("No source is known")
        word, given = re.fullmatch(r"(?:([^\s:]+):(?=[0-9]))?(.*)", " ".join(words)).groups()
        given = re.fullmatch(r"(?:([0-9]{1,9})(?: ?, ?([0-9]{1,9}))?|(-))?", given)
        if not given:
            raise usage("list")
        size, before = self.listsize, self.listed
        here = self.listed_file if before is not None else site_of(self.place)[0] if self.place else 0
        file = here if word is None else self.file_of(word)
        if given[2]:
            first, last = int(given[1]), int(given[2])
        elif given[3] and before is not None:
            first, last = before[0] - size, before[0] - 1
        elif given[1] or before is None:
            line = int(given[1] or self.place and self.place["line"] or 1)
            first = max(1, line - size // 2)
            last = first + size - 1
        else:
            first, last = before[1] + 1, before[1] + size
        told = self.listing(file, first, last)
        if not told:
            raise Failed(f"The source has {len(self.source.file(file).lines)} lines" if last > 0 else "The source begins with line 1")
        self.listed, self.listed_file = (max(1, first), last), file
        self.say(*told)

    def do_set(self, words):
        number = number_of(words[1]) if len(words) == 2 else None
        if not number or not "listsize".startswith(words[0]):
            raise usage("set")
        self.listsize = number

    def do_drop(self, words):
        k = number_of(words[0]) if len(words) == 1 else None
        if k is None:
            raise usage("drop")
        self.say(f"Listener {k} counted {rows_of(self.asked('drop', k=k)['rows'])}")

    def do_help(self, words):
        one, others = command_of(words[0]) if words else (None, [])
        if words and one is None:
            raise Failed(unknown(words[0], others))
        for name, (others, behind, what) in COMMANDS.items():
            if one in (None, name):
                short = f" ({', '.join(others)})" if others else ""
                self.say(f"{name} {behind}".rstrip() + short, f"    {what}")

    def quit(self):
        """Takes leave, and shows what the listeners counted."""
        for told in self.on.leave():
            self.say(f"Listener {told['k']} counted {rows_of(told['rows'])}")

    def obey(self, line):
        """Does what a line asks for. Returns whether it was to quit."""
        first, *words = line.split() or [""]
        first, _, form = first.partition("/")
        if words and words[0] in ("/x", "/d", "/t"):
            form = words.pop(0)[1:]
        name, others = command_of(first)
        self.warned = False
        try:
            if name != "wait":
                self.catch_up()
            if name is None:
                raise Failed(unknown(first, others))
            if form and (name not in ("print", "display") or form not in tuple("xdt")) or words and not COMMANDS[name][1]:
                raise usage(name)
            if name == "quit":
                return True
            getattr(self, f"do_{name}")(words, *[form] * bool(form))
        except Failed as why:
            self.fail(*why.lines)
        return False


def unknown(word, others):
    """What is said of a word that names no command."""
    return f"Ambiguous command {word!r}: {', '.join(others)}" if others else f"No command {word!r}: try \"help\""
