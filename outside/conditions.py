"""Reads conditions of the debugger and judges them, for the machine of `sessions`. It was written from the rules of conditions.

`read` gives the tree of a text, or the place at which it stops being a condition. A tree is a tuple of its kind, the offset of its
first token, and its parts. Offsets count the bytes of the text.
"""
import re

import reading

TOKEN = re.compile(
    r"(?P<blank>[ \t\r\n]+|//[^\n]*)|(?P<lit>[0-9]+'(?:h[0-9a-fA-F]+|d[0-9]+))|(?P<number>[0-9]+)"
    r"|(?P<name>[A-Za-z][A-Za-z0-9_]*)|(?P<mark><<|>>|<=|==|!=|\.\.|[{}()\[\];:,.=<+\-*&|^~#])"
)


class Bad(Exception):
    """A fault of a condition, at an offset."""

    def __init__(self, offset):
        self.offset = offset


def literal(text):
    """The width and the value that a literal writes."""
    width, value = text.split("'")
    return int(width), int(value[1:], 16 if value[0] == "h" else 10)


def tokens(text):
    """The tokens of a text, each with its kind and offset, up to the first place where none begins; and that place, or nothing."""
    found, at = [], 0
    while at < len(text):
        token = TOKEN.match(text, at)
        if not token:
            return found, at
        kind, word, end = token.lastgroup, token.group(), token.end()
        if kind in ("number", "lit") and re.match(r"[A-Za-z_]" if kind == "lit" else r"[A-Za-z_']", text[end:end + 1]):
            return found, at
        if kind == "number" and int(word) > 1 << 62:
            return found, at
        if kind == "lit" and (literal(word)[0] > 1 << 62 or literal(word)[1] >= 1 << 128):
            return found, at
        if kind != "blank":
            found.append(("keyword" if word in reading.KEYWORDS else kind, word, at))
        at = end
    return found, None


class Parser:
    """Reads the forms of the grammar. A token with which none goes on, and the end, is told by its number."""

    def __init__(self, found):
        self.tokens, self.at = found + [("end", "", None)], 0

    def next(self):
        return self.tokens[self.at]

    def take(self, *wanted):
        """Takes a token of one of these words or, where none is given, of any kind."""
        kind, word, _ = self.next()
        if word not in wanted or kind not in ("mark", "keyword"):
            raise Bad(self.at)
        self.at += 1
        return word

    def of_kind(self, wanted):
        kind, word, _ = self.next()
        if kind != wanted:
            raise Bad(self.at)
        self.at += 1
        return word

    def number(self):
        return int(self.of_kind("number"))

    def expr(self):
        found = self.prim()
        if self.next()[1] == "[":
            self.take("[")
            high = self.number()
            self.take(":")
            found = ("slice", found[1], found, high, self.number())
            self.take("]")
        return found

    def parts(self, count):
        """Expressions in brackets, with commas between."""
        self.take("(")
        found = [self.expr()]
        for _ in range(count - 1):
            self.take(",")
            found.append(self.expr())
        self.take(")")
        return found

    def prim(self):
        kind, word, offset = self.next()
        if kind == "name":
            return "name", offset, self.name()
        if kind == "lit":
            self.at += 1
            return ("lit", offset, *literal(word))
        if kind == "mark" and word == "(":
            self.at += 1
            left = self.expr()
            op = self.take(*reading.OPERATORS)
            found = ("two", offset, op, left, self.expr())
            self.take(")")
            return found
        word = self.take("~", "all", "any", "parity", "cat", "mux", "zext")
        if word == "zext":
            self.take("(")
            inner = self.expr()
            self.take(",")
            found = ("zext", offset, inner, self.number())
            self.take(")")
            return found
        if word == "mux":
            return ("mux", offset, *self.parts(3))
        return ("two", offset, word, *self.parts(2)) if word == "cat" else ("one", offset, word, *self.parts(1))

    def name(self):
        found = self.of_kind("name")
        if self.next()[1] == "#":
            self.take("#")
            found += f"#{self.number()}"
        if self.next()[1] == ".":
            self.take(".")
            found += "." + self.of_kind("name")
        return found


def read(text):
    """The tree of a condition, or it is bad at the least of the places that it has."""
    text = text.encode("utf-8", "surrogatepass").decode("latin-1")
    places = [at for at, byte in enumerate(text) if byte not in "\t\n\r" and not " " <= byte <= "~"][:1]
    found, bad = tokens(text)
    places += [] if bad is None else [bad]
    opened = 0
    for _, word, offset in found:
        opened += (word in ("(", "[", "{")) - (word in (")", "]", "}"))
        if opened == 65:
            places.append(offset)
            break
    parser, tree = Parser(found), None
    try:
        tree = parser.expr()
        if parser.at < len(found):
            raise Bad(parser.at)
    except Bad as why:
        if why.offset < len(found):
            places.append(found[why.offset][2])
        elif bad is None:
            places.append(len(text))
    if places:
        raise Bad(min(places))
    return tree


def parts_of(tree):
    """The parts of a tree that are trees."""
    return [it for it in tree[2:] if isinstance(it, tuple)]


def names(tree):
    """The names of a tree in the order of the text."""
    return [tree[2]] if tree[0] == "name" else [name for part in parts_of(tree) for name in names(part)]


def width(tree, widths):
    """The width of a tree over names of these widths, or it is bad at the first token of the first part that does not fit."""
    kind, offset = tree[:2]
    below = [width(it, widths) for it in parts_of(tree)]
    fits = True
    if kind == "name":
        found = widths[tree[2]]
    elif kind == "lit":
        fits, found = 1 <= tree[2] <= 128 and tree[3] < 1 << tree[2], tree[2]
    elif kind == "one":
        found = below[0] if tree[2] == "~" else 1
    elif kind == "mux":
        fits, found = below[0] == 1 and below[1] == below[2], below[1]
    elif kind == "zext":
        fits, found = below[0] <= tree[3] <= 128, tree[3]
    elif kind == "slice":
        fits, found = tree[4] <= tree[3] < below[0], tree[3] - tree[4] + 1
    elif tree[2] == "cat":
        fits, found = sum(below) <= 128, sum(below)
    else:
        fits = tree[2] in ("<<", ">>") or below[0] == below[1]
        found = 1 if tree[2] in ("==", "!=", "<", "<=") else below[0]
    if not fits:
        raise Bad(offset)
    return found


def value(tree, read_name, model):
    """The value of a tree, by the operators of the model: a width and a number."""
    kind = tree[0]
    if kind == "name":
        return read_name(tree[2])
    if kind == "lit":
        return tree[2], tree[3]
    below = [value(it, read_name, model) for it in parts_of(tree)]
    if kind == "one":
        return model.one(tree[2], below[0])
    if kind == "two":
        return model.two(tree[2], *below)
    if kind == "mux":
        return below[1] if below[0][1] == 1 else below[2]
    if kind == "zext":
        return tree[3], below[0][1]
    size = tree[3] - tree[4] + 1
    return size, (below[0][1] >> tree[4]) % (1 << size)
