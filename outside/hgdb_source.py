"""A source as hgdb-client needs it: its lines, where its statements and blocks stand, and the files that it imports.

The text is walked by its braces and semicolons alone, and what is no source gives no statements: the server judges sources, and nothing
here does. Which of several statements of one line a slot is goes by the order of the slots of the line (`at`); where loops begin or
end between them it is not told.
"""
import itertools, os

import hgdb_expr

# The most files that a design has.
FILES = 64


class Block:
    """A `comb` or an `ff`: its kind, the name of its module, and its first and last line."""

    def __init__(self, kind, module, first):
        self.kind, self.module, self.first, self.last = kind, module, first, first


class Statement:
    """A statement: its line, its kind (`if`, `case`, `let`, `=` or `<=`), the tokens of its target, with its slice, and of its
    expression, its block, and the module and the loops and choices of the generator that it stands in, as numbers."""

    def __init__(self, line, kind, target, value, block, within):
        self.line, self.kind, self.target, self.value, self.block, self.within = line, kind, target, value, block, within


class Walk:
    """A walk over the tokens of a source."""

    def __init__(self, found):
        self.tokens, self.at, self.fresh = found, 0, itertools.count()
        self.statements, self.blocks, self.modules, self.imports = [], [], [], []

    def takes(self, text=None):
        """Takes a token, which has to be this one."""
        token = self.tokens[self.at]
        if text is not None and token[1] != text:
            raise hgdb_expr.Bad
        self.at += 1
        return token

    def upto(self, text):
        """Takes the tokens up to one, and that one."""
        start = self.at
        while self.takes()[1] != text:
            pass
        return self.tokens[start:self.at - 1]

    def source(self):
        while self.tokens[self.at][1] == "import":
            self.imports += [it[1] for it in self.upto(";")[1:2]]
        while self.at < len(self.tokens):
            self.takes("module")
            module = self.takes()[1]
            self.modules.append(module)
            self.upto("{")
            self.rest(self.item, module, (next(self.fresh),))

    def rest(self, form, *given):
        """What stands before the next brace that closes."""
        while self.tokens[self.at][1] != "}":
            form(*given)
        return self.takes()

    def generated(self, form, given, within):
        """A loop or a choice of the generator."""
        while True:
            self.upto("{")
            self.rest(form, given, (*within, next(self.fresh)))
            if self.at == len(self.tokens) or self.tokens[self.at][1] != "else":
                return

    def item(self, module, within):
        _, text, line = self.tokens[self.at]
        if text in ("comb", "ff"):
            block = Block(text, module, line)
            self.blocks.append(block)
            self.upto("{")
            block.last = self.rest(self.statement, block, within)[2]
        elif text in ("for", "gen"):
            self.generated(self.item, module, within)
        elif text == "inst":
            self.upto("}")
        else:
            self.upto(";")

    def statement(self, block, within):
        _, text, line = self.tokens[self.at]
        if text in ("for", "gen"):
            self.generated(self.statement, block, within)
            return
        if text == "if":
            self.takes()
            self.put(line, "if", [], self.upto("{"), block, within)
            self.rest(self.statement, block, within)
            if self.tokens[self.at][1] == "else":
                self.upto("{")
                self.rest(self.statement, block, within)
            return
        if text == "case":
            self.takes()
            self.put(line, "case", [], self.upto("{"), block, within)
            while self.tokens[self.at][1] != "}":
                self.upto("{")
                self.rest(self.statement, block, within)
            self.takes()
            return
        found = self.upto(";")
        kind, at = next((it[1], i) for i, it in enumerate(found) if it[1] in ("=", "<="))
        named = text == "let"
        self.put(line, "let" if named else kind, found[named:at], found[at + 1:], block, within)

    def put(self, *given):
        self.statements.append(Statement(*given))


class Source:
    """A source of this name and text; `name` is None where none is known. `files` has it and the files that it imports, by their numbers."""

    def __init__(self, name=None, text=""):
        self.name, self.lines = name, [it.rstrip("\r") for it in text.removesuffix("\n").split("\n")] if text else []
        try:
            walk = Walk(hgdb_expr.tokens(text))
        except hgdb_expr.Bad:
            walk = Walk([])
        try:
            walk.source()
        except (hgdb_expr.Bad, IndexError, StopIteration, RecursionError):
            pass
        self.statements, self.blocks, self.modules, self.imports = walk.statements, walk.blocks, walk.modules, walk.imports
        self.files = [self]

    def file(self, number):
        """The file of a number; one without a name and lines where it is not known."""
        return self.files[number] if number < len(self.files) else Source()

    def number(self, name):
        """The number of the file of a name, with its ending or without; or None."""
        return next((number for number, it in enumerate(self.files) if it.name in (name, f"{name}.hg")), None)

    def on(self, line):
        """The statements that begin on a line."""
        return [it for it in self.statements if it.line == line]

    def at(self, line, slot, slots):
        """The statement of a slot, or None where that is not known. `slots` asks for the slots of the line that the instance has."""
        found = self.on(line)
        if len(found) < 2:
            return found[0] if found else None
        if len({it.within for it in found}) > 1:
            return None
        have = slots()
        return found[have.index(slot) % len(found)] if slot in have and len(have) % len(found) == 0 else None

    def block(self, line):
        """The block that a line stands in, where it is one alone."""
        found = [it for it in self.blocks if it.first <= line <= it.last]
        return found[0] if len(found) == 1 else None

    def lines_of(self, module):
        """The lines of the statements of a module."""
        return sorted({it.line for it in self.statements if it.block.module == module})

    def plain(self):
        """The lines on which no statement begins."""
        have = {it.line for it in self.statements}
        return [line for line in range(1, len(self.lines) + 1) if line not in have]


def overlap(one, other):
    """Whether two targets have a bit in common."""
    (name, _, part), (named, _, parted) = one.partition("["), other.partition("[")
    if name != named or not part or not parted:
        return name == named
    (high, low), (top, least) = ([int(it) for it in each.rstrip("]").split(":")] for each in (part, parted))
    return low <= top and least <= high


def single(path):
    """The source of a file, without those that it imports."""
    with open(path, encoding="utf-8", errors="replace", newline="") as file:
        return Source(os.path.basename(path), file.read())


def read(path):
    """The source of a file, with those that it imports: they stand beside it and get numbers in the order in which they are met. One that
    cannot be read has no lines."""
    first, paths = single(path), [path]
    for source in first.files:
        for name in source.imports:
            there = f"{path[:path.rfind('/') + 1]}{name}.hg"
            if there not in paths and len(paths) < FILES:
                paths.append(there)
                try:
                    first.files.append(single(there))
                except OSError:
                    first.files.append(Source(os.path.basename(there)))
    return first


def told(statement, gens):
    """The target of a statement, with its slice, and its expression, as texts that a session takes; or None."""
    value, target = hgdb_expr.rewritten(statement.value, gens), hgdb_expr.rewritten(statement.target, gens)
    return None if value is None or target is None or value.numbers else (target.text(), value.text())
