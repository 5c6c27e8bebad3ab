"""Makes designs that are accepted, each with its top, its arguments and its stimulus, for the model of this folder.

A design is accepted by how it is made. A module's signals come one after the other, and an expression reads those alone that came
before it, and registers; so there is no loop, though blocks and instances are put in any order at the end. A block assigns its
targets, whole or by parts that have all bits, on each path before it reads them. A width is a text beside the numbers that it can
have, whatever the parameters are: two expressions go together where their texts are the same, and any other one is brought to a
width by `zext` and a slice.
"""
import re

FIXED = (1, 1, 2, 3, 4, 5, 7, 8, 8, 12, 16, 17, 31, 32, 33, 63, 64, 65, 100, 127, 128)
SAME = ("+", "-", "*", "&", "|", "^")
COMPARED = ("==", "!=", "<", "<=")
COMMENTS = ("// a comment\n", "//\n", "\t\n", "  // module X { }\n", "\r\n")


def fixed(width):
    """The width that is this number."""
    return str(width), width, width


ONE = fixed(1)
ANY = (None, 1, 128)


def with_arguments(text, arguments):
    """The text of an integer with arguments in place of parameters."""
    return re.sub(r"[A-Za-z]\w*", lambda it: arguments.get(it.group(), it.group()), text)


def given_width(width, arguments):
    """The width that an input has in an instance with these arguments."""
    text = with_arguments(width[0], arguments)
    return fixed(int(text)) if text.isdigit() else (text, *width[1:])


class Module:
    """A module that is there to be instantiated. A parameter has a name, its default and the range of its numbers."""

    def __init__(self, name):
        self.name, self.params, self.inputs, self.outputs, self.text = name, [], [], [], ""


class Maker:
    """Makes the body of one module. `ints` are the names that an integer can have here, with their ranges."""

    def __init__(self, rng, module, below):
        self.rng, self.module, self.below = rng, module, below
        self.ints, self.pool, self.items, self.indices = [], [], [], []
        self.widths, self.names, self.sets = [ONE], 0, "="

    def chance(self, share):
        return self.rng.random() < share

    def fresh(self, front):
        """A name that the module has not yet."""
        self.names += 1
        return f"{front}{self.names}"

    def number(self, value):
        """A text of this number."""
        if self.chance(0.7):
            return str(value)
        less = self.rng.randint(0, 5)
        return self.rng.choice((f"({value} + 0)", f"(({value} + {less}) - {less})", f"({value} * 1)"))

    def some_int(self, least, most):
        """A text of a number in this range."""
        fitting = [text for text, low, high in self.ints if least <= low and high <= most]
        if fitting and self.chance(0.6):
            return self.rng.choice(fitting)
        return self.number(self.rng.randint(least, most))

    def width(self):
        """One of the widths of the module, or any number."""
        return fixed(self.rng.choice(FIXED)) if self.chance(0.2) else self.rng.choice(self.widths)

    # Expressions: a text, and whether it is a form that a slice can follow.

    def literal(self, width):
        text, least, _ = width
        most = (1 << least) - 1
        value = self.rng.choice((0, 1, most, self.rng.randint(0, most)))
        if text.isdigit() and self.chance(0.8):
            return f"{text}'{self.rng.choice((f'h{value:x}', f'h{value:X}', f'd{value}'))}"
        return f"bits({text}, {self.some_int(0, min(most, 1 << 20))})"

    def sliced(self, operand, have):
        """An operand that a slice can follow."""
        return operand[0] if operand[1] else f"zext({operand[0]}, {have[0]})"

    def brought(self, operand, have, want):
        """An operand brought to another width."""
        if have[0] == want[0]:
            return operand
        if have[2] <= want[1] and self.chance(0.8):
            return f"zext({operand[0]}, {want[0]})", True
        if have[0] is None or have[1] < want[2] or self.chance(0.1):
            return f"zext({operand[0]}, 128)[({want[0]} - 1):0]", False
        low = self.rng.randint(0, have[1] - want[2])
        return f"{self.sliced(operand, have)}[({want[0]} + {low}):{low + 1}]" if low + want[2] < have[1] else \
            f"{self.sliced(operand, have)}[({want[0]} - 1):0]", False

    def leaf(self, pool, width):
        fitting = [text for text, have in pool if have[0] == width[0]]
        if fitting and self.chance(0.8):
            return self.rng.choice(fitting), True
        if pool and self.chance(0.8):
            text, have = self.rng.choice(pool)
            return self.brought((text, True), have, width)
        return self.literal(width), True

    def expr(self, pool, width, depth):
        """An expression of a width over the names of a pool."""
        if depth == 0 or self.chance(0.15):
            return self.leaf(pool, width)
        forms = [self.same, self.same, self.same, self.shift, self.inverted, self.chosen, self.converted]
        if width[0] == "1":
            forms += [self.compared, self.compared, self.reduced, self.reduced]
        if width[0].isdigit() and 2 <= width[1]:
            forms += [self.joined, self.joined]
        return self.rng.choice(forms)(pool, width, depth - 1)

    def text(self, pool, width, depth):
        return self.expr(pool, width, depth)[0]

    def same(self, pool, width, depth):
        return f"({self.text(pool, width, depth)} {self.rng.choice(SAME)} {self.text(pool, width, depth)})", True

    def shift(self, pool, width, depth):
        by = self.text(pool, self.rng.choice((self.width(), fixed(3), fixed(5))), depth)
        return f"({self.text(pool, width, depth)} {self.rng.choice(('<<', '>>'))} {by})", True

    def inverted(self, pool, width, depth):
        return f"~({self.text(pool, width, depth)})", True

    def chosen(self, pool, width, depth):
        test, yes, no = (self.text(pool, it, depth) for it in (ONE, width, width))
        return f"mux({test}, {yes}, {no})", True

    def converted(self, pool, width, depth):
        have = self.width()
        return self.brought(self.expr(pool, have, depth), have, width)

    def compared(self, pool, width, depth):
        have = self.width()
        return f"({self.text(pool, have, depth)} {self.rng.choice(COMPARED)} {self.text(pool, have, depth)})", True

    def reduced(self, pool, width, depth):
        return f"{self.rng.choice(('all', 'any', 'parity'))}({self.text(pool, self.width(), depth)})", True

    def joined(self, pool, width, depth):
        high = self.rng.randint(1, width[1] - 1)
        return f"cat({self.text(pool, fixed(high), depth)}, {self.text(pool, fixed(width[1] - high), depth)})", True

    # Statements: lines of text.

    def condition(self):
        """What a `gen if` turns on."""
        return f"{self.some_int(0, 4)} {self.rng.choice(COMPARED)} {self.some_int(0, 4)}"

    def body(self, pool, must, may, depth):
        """Statements that assign what they must on each path, and what they may on some. Lets are known up to their end."""
        pool, may, lines = list(pool), list(may), []
        for target in self.rng.sample(must, len(must)):
            lines += self.extra(pool, may, depth)
            lines += self.assigned(pool, target, may, depth)
            if target not in pool:
                pool.append(target)
            may.append(target)
        return lines + self.extra(pool, may, depth)

    def assigned(self, pool, target, may, depth):
        """Statements that assign a target."""
        form = self.rng.choice(("plain", "plain", "parts", "if", "case", "gen if")) if depth else self.rng.choice(("plain", "parts"))
        if form == "plain" or form == "parts" and target[1][1] == 1:
            return [f"{target[0]} {self.sets} {self.text(pool, target[1], 3)};"]
        if form == "parts":
            return self.parted(pool, target, may, depth)
        if form == "case":
            return self.case(pool, [target], may, depth, True)
        head = f"if {self.text(pool, ONE, 2)} {{" if form == "if" else f"gen if ({self.condition()}) {{"
        yes, no = (self.body(pool, [target], may, depth - 1) for _ in range(2))
        return [head, *yes, "} else {", *no, "}"]

    def pieces(self, width):
        """The parts of a width that is at least 2, from below: of each its bounds as they are written, and its width."""
        text, least, most = width
        if self.chance(0.5):
            cut = self.rng.randint(1, least - 1)
            return [(str(cut - 1), "0", fixed(cut)), (f"({text} - 1)", str(cut), (f"({text} - {cut})", least - cut, most - cut))]
        if not text.isdigit():
            cut = self.rng.randint(1, least - 1)
            return [(f"({text} - {cut + 1})", "0", (f"({text} - {cut})", least - cut, most - cut)), (f"({text} - 1)", f"({text} - {cut})", fixed(cut))]
        cuts = sorted({0, least, *(self.rng.randint(1, least - 1) for _ in range(self.rng.randint(1, 4)))})
        return [(self.number(high - 1), self.number(low), fixed(high - low)) for low, high in zip(cuts, cuts[1:])]

    def parted(self, pool, target, may, depth):
        """Statements that assign a target part by part, some of them on both sides of an `if`."""
        lines, pool = [], list(pool)
        for high, low, width in self.rng.sample(pieces := self.pieces(target[1]), len(pieces)):
            lines += self.extra(pool, may, depth - 1) if depth and self.chance(0.3) else []
            piece = [f"{target[0]}[{high}:{low}] {self.sets} {self.text(pool, width, 2)};" for _ in range(2)]
            if depth and self.chance(0.2):
                lines += [f"if {self.text(pool, ONE, 2)} {{", piece[0], "} else {", piece[1], "}"]
            else:
                lines += piece[:1]
        return lines

    def case(self, pool, must, may, depth, whole):
        """A `case` each arm of which assigns what it must, and so does its default, which there is where it is to be whole."""
        width = fixed(self.rng.choice((1, 2, 2, 3, 4))) if self.chance(0.7) else self.width()
        lines = [f"case {self.text(pool, width, 2)} {{"]
        for _ in range(self.rng.randint(1, 4)):
            tests = ", ".join(self.literal(width) if self.chance(0.3) else self.small(width) for _ in range(self.rng.choice((1, 1, 2, 3))))
            lines += [f"{tests}: {{", *self.body(pool, must, may, depth - 1), "}"]
        if whole or self.chance(0.5):
            lines += ["default {", *self.body(pool, must, may, depth - 1), "}"]
        return lines + ["}"]

    def small(self, width):
        """A literal of a low value."""
        return f"bits({width[0]}, {self.some_int(0, min((1 << width[1]) - 1, 3))})"

    def extra(self, pool, may, depth):
        """Statements that nothing asks for."""
        lines = []
        while self.chance(0.45):
            form = self.rng.choice((self.let, self.again, self.again, self.branch, self.branch, self.turns))
            lines += form(pool, may, depth)
        return lines

    def let(self, pool, may, depth):
        width, name = self.width(), self.fresh("t")
        if self.indices:
            places = "0"
            for index in self.indices:
                places = f"(({places} * 8) + {index})"
            name += f"#{places}"
        line = f"let {name} = {self.text(pool, width, 2)};"
        pool.append((name, width))
        return [line]

    def again(self, pool, may, depth):
        if not may:
            return []
        name, width = self.rng.choice(may)
        if width[1] > 1 and self.chance(0.3):
            high, low, part = self.rng.choice(self.pieces(width))
            return [f"{name}[{high}:{low}] {self.sets} {self.text(pool, part, 3)};"]
        return [f"{name} {self.sets} {self.text(pool, width, 3)};"]

    def branch(self, pool, may, depth):
        if not depth:
            return []
        if self.chance(0.3):
            return self.case(pool, [], may, depth, False)
        test, yes = self.text(pool, ONE, 2), self.body(pool, [], may, depth - 1)
        head = [f"if {test} {{", *yes] if self.chance(0.7) else [f"gen if ({self.condition()}) {{", *yes]
        return head + (["} else {", *self.body(pool, [], may, depth - 1)] if self.chance(0.4) else []) + ["}"]

    def turns(self, pool, may, depth):
        if not depth:
            return []
        head, leave = self.loop()
        lines = [head, *self.body(pool, [], may, depth - 1), "}"]
        leave()
        return lines

    def loop(self):
        """The head of a loop, and what is to be called at its end. A variable may hide a parameter of which no width is made."""
        old, open_ones = list(self.ints), " ".join(self.indices)
        hidden = [it[0] for it in self.ints if it[0].startswith("K") and f"({it[0]} " not in open_ones]
        var = self.rng.choice(hidden) if hidden and self.chance(0.2) else self.fresh("i")
        low, turns = self.rng.randint(-2, 2), self.rng.randint(0, 3)
        bounds = f"{self.number(low) if low >= 0 else f'(0 - {-low})'}..{f'({low + turns + 4} - 4)'}"
        counts = [it for it in self.ints if it[0].startswith("N")]
        if counts and self.chance(0.4):
            low, turns = 0, counts[0][2]
            bounds = f"0..{counts[0][0]}"
        self.ints = [it for it in self.ints if it[0] != var] + [(var, low, max(low, low + turns - 1))]
        self.indices.append(f"({var} + 2)")

        def leave():
            self.ints = old
            self.indices.pop()

        return f"for {var} in {bounds} {{", leave

    # Items.

    def declared(self, kind, name, width):
        return f"{kind} {name} : {width[0]};"

    def comb(self):
        """Wires and the block that assigns them."""
        targets = [(self.fresh("w"), self.width()) for _ in range(self.rng.randint(1, 3))]
        self.items += [self.declared("wire", *it) for it in targets]
        self.items.append("\n".join(["comb {", *self.body(self.pool, targets, [], 2), "}"]))
        self.pool += targets

    def counted(self):
        """How many members a family has: a text, and the least number."""
        counts = [it for it in self.ints if it[0].startswith("N")]
        if counts and self.chance(0.6):
            return counts[0][0], counts[0][1]
        number = self.rng.randint(1, 4)
        return str(number), number

    def chain(self):
        """A family of wires, each computed from the one before."""
        name, width, (count, least) = self.fresh("c"), self.width(), self.counted()
        var = self.fresh("i")
        self.items.append(f"for {var} in 0..{count} {{ {self.declared('wire', f'{name}#{var}', width)} }}")
        first = f"{name}#0 = {self.text(self.pool, width, 2)};"
        old = list(self.ints)
        self.ints.append((var, 1, 4))
        pool = self.pool + [(f"{name}#({var} - 1)", width)] * 3
        next_one = f"{name}#{var} = {self.text(pool, width, 2)};"
        self.ints = old
        self.items.append("\n".join(["comb {", first, f"for {var} in 1..{count} {{", next_one, "}", "}"]))
        self.pool += [(f"{name}#0", width), (f"{name}#({count} - 1)", width)]

    def turned(self):
        """A loop of items: in each turn a wire and its block."""
        name, width, (count, least), var = self.fresh("v"), self.width(), self.counted(), self.fresh("i")
        old = list(self.ints)
        self.ints.append((var, 0, 3))
        self.indices.append(var)
        block = ["comb {", *self.body(self.pool, [(f"{name}#{var}", width)], [], 1), "}"]
        self.ints = old
        self.indices.pop()
        wire = self.declared("wire", f"{name}#{var}", width)
        self.items.append("\n".join([f"for {var} in 0..{count} {{", *self.rng.sample([wire, "\n".join(block)], 2), "}"]))
        self.pool += [(f"{name}#{i}", width) for i in range(least)]

    def either(self):
        """A `gen if` whose branches declare one wire, each with a width of its own."""
        name, branches = self.fresh("g"), []
        for _ in range(2):
            target = (name, self.width())
            block = ["comb {", *self.body(self.pool, [target], [], 1), "}"]
            branches.append([self.declared("wire", *target), *block])
        self.items.append("\n".join([f"gen if ({self.condition()}) {{", *branches[0], "} else {", *branches[1], "}"]))
        self.pool.append((name, ANY))

    def child(self):
        """An instance, or a family of instances in a loop."""
        if not self.below:
            return self.comb()
        module, name, old = self.rng.choice(self.below), self.fresh("u"), list(self.ints)
        count = self.rng.randint(2, 3) if self.chance(0.35) else None
        var = self.fresh("i")
        if count:
            self.ints.append((var, 0, count - 1))
            self.ints.append((f"({var} + 1)", 1, count))
        written, arguments = self.arguments(module)
        conns = []
        for port, width in self.rng.sample(module.inputs, len(module.inputs)):
            conns.append(f"{port} = {self.text(self.pool, given_width(width, arguments), 2)};")
        self.ints = old
        member = f"{name}#{var}" if count else name
        text = "\n".join([f"inst {member} : {module.name}{written} {{", *conns, "}"])
        self.items.append(f"for {var} in 0..{count} {{\n{text}\n}}" if count else text)
        for path in [f"{name}#{i}" for i in range(count)] if count else [name]:
            self.pool += [(f"{path}.{port}", width if width[0].isdigit() else ANY) for port, width in module.outputs]
        return None

    def arguments(self, module):
        """Arguments of an instance as they are written, and the text that each parameter has in it."""
        written, texts = [], {}
        for name, default, least, most in module.params:
            if self.chance(0.6):
                texts[name] = self.some_int(least, most)
                written.append(f"{name} = {texts[name]}")
            else:
                texts[name] = with_arguments(default, texts)
        self.rng.shuffle(written)
        return (f"({', '.join(written)})" if written else ""), texts

    def registers(self):
        """Registers, which everything may read."""
        found = [(self.fresh("r"), self.width()) for _ in range(self.rng.randint(0, 3))]
        for name, width in found:
            self.items.append(f"reg {name} : {width[0]} = {self.literal(width)};")
        self.pool += found
        return found

    def clocked(self, registers):
        """Blocks that write the registers."""
        self.sets = "<="
        half = self.rng.randint(0, len(registers))
        for part in (registers[:half], registers[half:]):
            if part or self.chance(0.1):
                must = [it for it in part if self.chance(0.7)]
                self.items.append("\n".join(["ff {", *self.body(self.pool, must, part, 2), "}"]))
        self.sets = "="

    def declare_params(self):
        for front, least, most in (("W", 1, self.rng.choice((1, 8, 40))), ("N", 1, 3), ("K", 0, 7), ("V", 2, 9)):
            if self.chance(0.4):
                name, default = self.fresh(front), str(self.rng.randint(least, most))
                fitting = [it for it in self.ints if least <= it[1] + 1 and it[2] + 1 <= most]
                if fitting and self.chance(0.5):
                    default = f"({self.rng.choice(fitting)[0]} + 1)"
                self.module.params.append((name, default, least, most))
                self.ints.append((name, least, most))

    def choose_widths(self):
        self.widths += [fixed(self.rng.choice(FIXED)) for _ in range(self.rng.randint(1, 3))]
        for name, least, most in self.ints:
            if name[0] in "WV":
                self.widths += [(name, least, most), (f"({name} + 3)", least + 3, most + 3), (f"({name} * 2)", least * 2, most * 2)]

    def made(self):
        """Makes the module."""
        self.declare_params()
        self.choose_widths()
        module, params = self.module, ", ".join(f"{name} = {default}" for name, default, _, _ in self.module.params)
        module.inputs = [(self.fresh("a"), self.width()) for _ in range(self.rng.randint(0 if self.chance(0.1) else 1, 4))]
        module.outputs = [(self.fresh("y"), self.width()) for _ in range(self.rng.randint(1, 3))]
        self.pool += module.inputs
        registers = self.registers()
        for _ in range(self.rng.randint(1, 4)):
            self.rng.choice((self.comb, self.chain, self.turned, self.either, self.child, self.child))()
        self.items.append("\n".join(["comb {", *self.body(self.pool, module.outputs, [], 2), "}"]))
        self.clocked(registers)
        self.rng.shuffle(self.items)
        ports = [self.declared("input", *it) for it in module.inputs] + [self.declared("output", *it) for it in module.outputs]
        head = f"module {module.name}{f'({params})' if params else ''} {{"
        module.text = "\n".join([head, *self.rng.sample(ports, len(ports)), *self.items, "}"])
        module.inputs.sort(key=lambda it: module.text.index(f"input {it[0]} "))
        return module


def laid_out(rng, text):
    """A text with some of its lines put together, and comments between others."""
    found = ""
    for line in text.split("\n"):
        found += line + (" " if rng.random() < 0.2 else "\n")
        if rng.random() < 0.03:
            found += rng.choice(COMMENTS)
    return found


def field(rng, width):
    """A number of a stimulus."""
    most = (1 << width) - 1
    value = rng.choice((0, 1, most, rng.randint(0, most), rng.randint(0, most), rng.randint(0, min(most, 9))))
    return rng.choice((str(value), f"0x{value:x}", f"0x{value:X}", f"00{value}"))


def design(rng):
    """A source, a stimulus, and the top with its arguments."""
    modules = []
    for name in ("Low", "Mid", "Side", "Top")[rng.choice((0, 0, 1, 2, 3)):]:
        modules.append(Maker(rng, Module(name), modules[-2:]).made())
    top = modules[-1]
    given = {name: rng.randint(least, most) for name, _, least, most in top.params if rng.random() < 0.5}
    numbers = {}
    for name, default, _, _ in top.params:
        numbers[name] = given[name] if name in given else eval(default, {}, numbers)
    texts = [it.text for it in modules] + (["module Spare(P = Q) { comb { q = p; } }"] if rng.random() < 0.2 else [])
    rng.shuffle(texts)
    widths = [eval(width[0], {}, numbers) for _, width in top.inputs]
    rows = [" ".join(field(rng, it) for it in widths) for _ in range(rng.randint(1, 5))]
    stimulus = "\n".join([" ".join(name for name, _ in top.inputs), *rows]) + "\n"
    return laid_out(rng, "\n".join(texts)), stimulus, [top.name, *(f"{name}={value}" for name, value in given.items())]
