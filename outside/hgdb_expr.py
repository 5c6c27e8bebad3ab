"""Expressions as people write them, for hgdb-client: what `eval` and `cond` take, with the brackets and numbers that they leave away.

An expression of a session is one of the language in which every integer is a number and no `bits` stands; each operator has its own
brackets, and each literal its width (docs/LANGUAGE.md). What a person types, or what stands in a source, is rewritten to that:

- outer brackets are put round a single operator: `a < b` is `(a < b)`;
- parameters and loop variables are replaced by their numbers and integers are worked out: `wide[(W - 1):(W - 1)]` is `wide[15:15]`;
- `bits(8, i)` is a literal;
- a number beside an operator is a literal as wide as the other side: `grant + 1` is `(grant + 4'd1)`. How wide that is, the session
  tells: from 1 bit on each width is asked for, until the part is no longer refused.

The session has the last word: a text is asked for as it was typed first, and rewritten only where it is refused as no expression.
"""
import re

TOKEN = re.compile(
    r"(?P<blank>[ \t\r\n]+|//[^\n]*)|(?P<lit>[0-9]+'(?:h[0-9a-fA-F]+|d[0-9]+))|(?P<number>[0-9]+)"
    r"|(?P<name>[A-Za-z][A-Za-z0-9_]*)|(?P<mark><<|>>|<=|==|!=|\.\.|[{}()\[\];:,.=<+\-*&|^~#])"
)
OPERATORS = frozenset("+ - * & | ^ == != < <= << >>".split())
SHIFTS = ("<<", ">>")
CALLS = {"~": 1, "all": 1, "any": 1, "parity": 1, "cat": 2, "mux": 3}
WIDEST = 128
# How many widths are asked for at once.
AT_ONCE = 16
DEEPEST = 64


class Bad(Exception):
    """A text is no expression."""


def tokens(text):
    """The tokens of a text: the kind, the text and the line of each, from 1."""
    found, at, line = [], 0, 1
    while at < len(text):
        token = TOKEN.match(text, at)
        if token is None:
            raise Bad
        if token.lastgroup != "blank":
            found.append((token.lastgroup, token.group(), line))
        line += token.group().count("\n")
        at = token.end()
    return found


class Number:
    """A number beside an operator: where it stands among the pieces, where the part begins whose widths have to fit, and its width."""

    def __init__(self, value, at):
        self.value, self.at, self.part = value, at, None
        self.width = self.least = max(1, value.bit_length())


class Rewritten:
    """Tokens that are rewritten to `pieces`, a list of texts; `numbers` are to be given widths, in the order in which their parts end."""

    def __init__(self, found, gens):
        self.tokens, self.gens, self.at, self.depth = [*found, ("end", "", 0)], dict(gens), 0, 0
        self.pieces, self.numbers = [], []

    # Reading

    def sees(self):
        return self.tokens[self.at][1]

    def takes(self, kind=None, *texts):
        """Takes the next token, which has to be of this kind, or one of these texts."""
        which, text, _ = self.tokens[self.at]
        if kind is not None and which != kind or texts and text not in texts:
            raise Bad
        self.at += 1
        return text

    def put(self, *texts):
        self.pieces += texts

    def whole(self):
        """Reads all tokens as one expression, or as a single operator without its brackets."""
        try:
            self.expr()
            self.takes("end")
        except Bad:
            self.at, self.depth, self.pieces, self.numbers = 0, 0, [], []
            self.two()
            self.takes("end")
        return self

    def expr(self):
        self.prim()
        if self.sees() == "[":
            self.takes()
            high = self.int()
            self.takes(None, ":")
            low = self.int()
            self.takes(None, "]")
            self.put(f"[{high}:{low}]")

    def prim(self):
        kind, text, _ = self.tokens[self.at]
        if text == "(":
            self.bracketed(self.two)
        elif text in CALLS:
            self.call(self.takes())
        elif text == "zext":
            self.put(self.takes(), "(")
            self.bracketed(self.extended)
            self.put(")")
        elif text == "bits":
            self.takes()
            self.bracketed(self.bits)
        elif kind == "lit":
            self.put(self.takes())
        else:
            self.name()

    def bracketed(self, form):
        self.takes(None, "(")
        self.depth += 1
        if self.depth > DEEPEST:
            raise Bad
        form()
        self.depth -= 1
        self.takes(None, ")")

    def two(self):
        """An operator between its operands, without brackets; they are put."""
        part, found = len(self.pieces), []
        self.put("(")
        found += self.operand()
        op = self.takes("mark", *OPERATORS)
        self.put(f" {op} ")
        if op in SHIFTS and self.tokens[self.at][0] == "number":
            value = int(self.takes())
            self.put(f"{max(1, value.bit_length())}'d{value}")
        else:
            found += self.operand()
        self.put(")")
        self.fit(part, found)

    def fit(self, part, found):
        """Notes the numbers of a part that ends here."""
        for number in found:
            number.part = part
        self.numbers += found

    def operand(self):
        """An operand; a list of the number that it is, or of none."""
        if self.tokens[self.at][0] != "number":
            self.expr()
            return []
        number = Number(int(self.takes()), len(self.pieces))
        self.put("")
        return [number]

    def call(self, name):
        part, found = len(self.pieces), []
        self.put(name, "(")
        self.bracketed(lambda: found.extend(self.operands(name)))
        self.put(")")
        self.fit(part, found)

    def operands(self, name):
        """The operands of a call; those of a choice may be numbers."""
        found = []
        for i in range(CALLS[name]):
            if i:
                self.takes(None, ",")
                self.put(", ")
            if name == "mux" and i:
                found += self.operand()
            else:
                self.expr()
        return found

    def extended(self):
        self.expr()
        self.takes(None, ",")
        self.put(f", {self.int()}")

    def bits(self):
        width = self.int()
        self.takes(None, ",")
        self.put(f"{width}'d{self.int()}")

    def name(self):
        self.put(self.takes("name"))
        if self.sees() == "#":
            self.takes()
            self.put(f"#{self.int()}")
        if self.sees() == ".":
            self.takes()
            self.put(f".{self.takes('name')}")

    def int(self):
        """An integer, which is worked out; it is not below 0."""
        value = self.integer()
        if value < 0:
            raise Bad
        return value

    def integer(self):
        kind, text, _ = self.tokens[self.at]
        if text == "(":
            found = []
            self.bracketed(lambda: found.append(self.worked()))
            return found[0]
        self.at += 1
        if kind == "number":
            return int(text)
        if kind != "name" or text not in self.gens:
            raise Bad
        return self.gens[text]

    def worked(self):
        left, op, right = self.integer(), self.takes(None, "+", "-", "*"), self.integer()
        return left + right if op == "+" else left - right if op == "-" else left * right

    # Asking

    def text(self, upto=None):
        """The text, or the front of it up to a piece."""
        for number in self.numbers:
            self.pieces[number.at] = f"{number.width}'d{number.value}"
        return "".join(self.pieces[:upto])

    def fits(self, number, reply):
        """Whether a reply does not refuse the part of a number for its widths."""
        return reply["ok"] or reply["code"] != 7 or reply.get("offset") != len(self.text(number.part))

    def asked(self, ask):
        """Asks with each number as wide as its part needs it. Returns the text that was asked for at last, and the reply."""
        for number in self.numbers:
            if (found := self.widened(ask, number)) is not None and found[1]["ok"]:
                return found
        return self.text(), ask([self.text()])[0]

    def widened(self, ask, number):
        """Asks with a number of each width from the least on, until its part fits. Returns the text and the reply, or None."""
        for first in range(number.least, WIDEST + 1, AT_ONCE):
            widths = range(first, min(first + AT_ONCE, WIDEST + 1))
            texts = []
            for number.width in widths:
                texts.append(self.text())
            for number.width, text, reply in zip(widths, texts, ask(texts)):
                if self.fits(number, reply):
                    return text, reply
        number.width = number.least
        return None


def rewritten(found, gens=()):
    """Tokens as an expression that a session takes, but for the widths of numbers; or None."""
    try:
        return Rewritten(found, gens).whole()
    except (Bad, ValueError, RecursionError):
        return None


def fitted(ask, text, gens=()):
    """Asks with a text and, where that is refused as no expression, with the text rewritten. `ask` takes a list of texts and returns
    the reply to each. Returns the text that counts, and its reply."""
    reply = ask([text])[0]
    if reply["ok"] or "offset" not in reply:
        return text, reply
    try:
        found = rewritten(tokens(text), gens)
    except Bad:
        found = None
    if found is None or not found.numbers and re.sub(r"\s", "", found.text()) == re.sub(r"\s", "", text):
        return text, reply
    new, other = found.asked(ask)
    return (new, other) if other["ok"] or not found.numbers or "offset" not in other else (text, reply)
