"""Reads a source by the grammar of the language, for the model of this folder. It was written from the rules of the language.

A source that is a true one is read as trees; of another one nothing is said. In a tree a number is an int, and a name of a
parameter or of a loop variable is a Var, so that putting a number in place of a name is one function (`put`).
"""
import re

TOKEN = re.compile(
    r"(?P<blank>[ \t\r\n]+|//[^\n]*)|(?P<lit>[0-9]+'(?:h[0-9a-fA-F]+|d[0-9]+))|(?P<number>[0-9]+)"
    r"|(?P<name>[A-Za-z][A-Za-z0-9_]*)|(?P<mark><<|>>|<=|==|!=|\.\.|[{}()\[\];:,.=<+\-*&|^~#])"
)
KEYWORDS = set(
    "module input output wire reg inst comb ff for in gen if else let bits cat zext mux all any parity clk case default import".split()
)
OPERATORS = set("+ - * & | ^ == != < <= << >>".split())


class Var(str):
    """A name in an integer."""


def tokens(text):
    """Returns the tokens of a source: the kind, the text and the line of each."""
    found, at, line = [], 0, 1
    while at < len(text):
        token = TOKEN.match(text, at)
        if not token:
            raise ValueError(f"line {line}: no token")
        kind = "keyword" if token.group() in KEYWORDS else token.lastgroup
        if kind != "blank":
            found.append((kind, token.group(), line))
        line += token.group().count("\n")
        at = token.end()
    return found + [("end", "", line)]


class Reader:
    """Reads the forms of the grammar, one function for each. A line is told as FILE:LINE where the file is not 0."""

    def __init__(self, text, file=0):
        self.tokens, self.at, self.file, self.imports = tokens(text), 0, file, []

    def sees(self, text):
        return self.tokens[self.at][1] == text and self.tokens[self.at][0] in ("mark", "keyword")

    def takes(self, text):
        if self.sees(text):
            self.at += 1
            return True
        return False

    def need(self, text):
        if not self.takes(text):
            raise ValueError(f"line {self.line()}: {text} is wanted, and {self.tokens[self.at][1]} stands there")

    def line(self):
        line = self.tokens[self.at][2]
        return f"{self.file}:{line}" if self.file else line

    def name(self):
        kind, text, line = self.tokens[self.at]
        if kind != "name":
            raise ValueError(f"line {line}: a name is wanted")
        self.at += 1
        return text

    def source(self):
        while self.takes("import"):
            self.imports.append(self.name())
            self.need(";")
        modules = [self.module()]
        while self.tokens[self.at][0] != "end":
            modules.append(self.module())
        return modules

    def module(self):
        self.need("module")
        name, params = self.name(), self.params()
        self.need("{")
        ports = []
        while self.sees("input") or self.sees("output"):
            kind = "input" if self.takes("input") else "output"
            self.at += kind == "output"
            port = self.name()
            self.need(":")
            ports.append((kind, port, self.int()))
            self.need(";")
        return name, params, ports, self.rest(self.item)

    def params(self):
        found = []
        if self.takes("("):
            while True:
                name = self.name()
                self.need("=")
                found.append((name, self.int()))
                if not self.takes(","):
                    break
            self.need(")")
        return found

    def body(self, form):
        self.need("{")
        return self.rest(form)

    def rest(self, form):
        found = []
        while not self.takes("}"):
            found.append(form())
        return found

    def item(self):
        line = self.line()
        if self.takes("wire"):
            return ("wire", self.declared()) + self.ended()
        if self.takes("reg"):
            fam, width = self.declared()
            self.need("=")
            return ("reg", (fam, width), self.lit()) + self.ended()
        if self.takes("inst"):
            fam = self.fam()
            self.need(":")
            return ("inst", fam, self.name(), self.params(), self.body(self.conn))
        if self.takes("comb"):
            return ("comb", self.body(self.stmt))
        if self.takes("ff"):
            return ("ff", self.body(self.stmt))
        return self.generated(line, self.item)

    def declared(self):
        fam = self.fam()
        self.need(":")
        return fam, self.int()

    def ended(self):
        self.need(";")
        return ()

    def generated(self, line, form):
        if self.takes("for"):
            var = self.name()
            self.need("in")
            low = self.int()
            self.need("..")
            return ("for", var, low, self.int(), self.body(form))
        self.need("gen")
        self.need("if")
        self.need("(")
        left, compared = self.int(), self.tokens[self.at][1]
        self.at += 1
        right = self.int()
        self.need(")")
        yes = self.body(form)
        return ("gen", compared, left, right, yes, self.body(form) if self.takes("else") else [])

    def conn(self):
        port = self.name()
        self.need("=")
        return (port, self.expr()) + self.ended()

    def stmt(self):
        line = self.line()
        if self.takes("if"):
            test, yes = self.expr(), self.body(self.stmt)
            return ("if", line, test, yes, self.body(self.stmt) if self.takes("else") else [])
        if self.takes("case"):
            return ("case", line, self.expr(), *self.arms())
        if self.sees("for") or self.sees("gen"):
            return self.generated(line, self.stmt)
        kind = "let" if self.takes("let") else "assign"
        fam, part = self.fam(), self.part()
        if not self.takes("<="):
            self.need("=")
        return (kind, line, fam, self.expr(), part) + self.ended()

    def arms(self):
        """The arms of a `case`, each with its literals, and its default, or None."""
        self.need("{")
        found = [self.arm()]
        while not self.sees("default") and not self.sees("}"):
            found.append(self.arm())
        other = self.body(self.stmt) if self.takes("default") else None
        self.need("}")
        return found, other

    def arm(self):
        tests = [self.lit()]
        while self.takes(","):
            tests.append(self.lit())
        self.need(":")
        return tests, self.body(self.stmt)

    def part(self):
        """The bounds of a slice, the higher one first, or None."""
        if not self.takes("["):
            return None
        high = self.int()
        self.need(":")
        low = self.int()
        self.need("]")
        return high, low

    def fam(self):
        name = self.name()
        return (name, self.int() if self.takes("#") else None)

    def int(self):
        kind, text, line = self.tokens[self.at]
        if self.takes("("):
            left, op = self.int(), self.tokens[self.at][1]
            self.at += 1
            right = self.int()
            self.need(")")
            return ("int", op, left, right)
        self.at += 1
        if kind not in ("number", "name"):
            raise ValueError(f"line {line}: an integer is wanted")
        return int(text) if kind == "number" else Var(text)

    def lit(self):
        kind, text, line = self.tokens[self.at]
        self.at += 1
        if kind == "lit":
            width, value = text.split("'")
            return ("lit", int(width), int(value[1:], 16 if value[0] == "h" else 10))
        if text != "bits":
            raise ValueError(f"line {line}: a literal is wanted")
        return ("lit",) + self.pair(self.int, self.int)

    def pair(self, *forms):
        self.need("(")
        found = []
        for form in forms:
            if found:
                self.need(",")
            found.append(form())
        self.need(")")
        return tuple(found)

    def expr(self):
        found, part = self.prim(), self.part()
        return ("slice", found, *part) if part else found

    def prim(self):
        kind, text, line = self.tokens[self.at]
        if kind == "name":
            fam = self.fam()
            return ("read", fam, self.name() if self.takes(".") else None)
        if kind == "lit" or text == "bits":
            return self.lit()
        if self.takes("("):
            left, op = self.expr(), self.tokens[self.at][1]
            if op not in OPERATORS:
                raise ValueError(f"line {self.line()}: an operator is wanted")
            self.at += 1
            right = self.expr()
            self.need(")")
            return ("two", op, left, right)
        self.at += 1
        if text in ("~", "all", "any", "parity"):
            return ("one", text) + self.pair(self.expr)
        if text == "cat":
            return ("two", text) + self.pair(self.expr, self.expr)
        if text == "zext":
            return ("zext",) + self.pair(self.expr, self.int)
        if text == "mux":
            return ("mux",) + self.pair(self.expr, self.expr, self.expr)
        raise ValueError(f"line {line}: an expression is wanted")


def project(read, name):
    """The modules of the files of a design, by the numbers of the files; `read` gives the text of a file by its name."""
    folder, names, modules = name[:name.rfind("/") + 1], [name], []
    # (the list grows while it is walked)
    for file, each in enumerate(names):
        reader = Reader(read(each), file)
        modules += reader.source()
        for other in (f"{folder}{it}.hg" for it in reader.imports):
            if other not in names:
                names.append(other)
    return modules


def put(tree, name, number):
    """Puts a number in place of a name. What a loop variable of the same name stands round is left as it is."""
    if isinstance(tree, Var):
        return number if tree == name else tree
    if isinstance(tree, tuple) and tree and tree[0] == "for" and tree[1] == name:
        return tree[:2] + (put(tree[2], name, number), put(tree[3], name, number), tree[4])
    if isinstance(tree, (tuple, list)):
        return type(tree)(put(it, name, number) for it in tree)
    return tree


def number(tree):
    """The number of an integer in which no name stands."""
    if isinstance(tree, int):
        return tree
    if isinstance(tree, Var):
        raise ValueError(f"{tree} has no number")
    left, right = number(tree[2]), number(tree[3])
    return {"+": left + right, "-": left - right, "*": left * right}[tree[1]]
