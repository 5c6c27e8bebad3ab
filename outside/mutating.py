"""Makes hostile files out of sound ones, from a seeded generator, for `mutate`.

A file is changed where its form has joints: a source by its tokens and its blocks, JSON by its values, a dump file by its commands and
changes, a stimulus by its rows and fields. Into each of these go numbers at and past the limits, names and nests of any length, keys and
blocks again and again, pieces of other files, and bytes that are no text. Any file is changed by its bytes too, and cut anywhere.
"""
import json, re

NUMBERS = [str(it).encode() for it in (
    0, 1, 2, 3, 7, 8, 63, 64, 65, 127, 128, 129, 255, 256, 1023, 1024, 1025, 4095, 4096, 4097, 65535, 65536, 2**30 - 1, 2**30, 2**31, 2**32 - 1,
    2**32, 2**53 + 1, 2**62, 2**62 + 1, 2**63 - 1, 2**63, 2**64 - 1, 2**64, 2**127, 2**128 - 1, 2**128, 10**40, -1, -2, -(2**62), -(2**62) - 1, -(2**63) - 1,
)] + [b"00", b"007", b"+1", b"-0", b"1.0", b"1e0", b"1e308", b"1e309", b"-1e999", b"0.1e-400", b"0x", b"0xff", b"0XFF", b"1_000", b"NaN", b"9" * 400, b"9" * 5000, b"0" * 5000 + b"1"]
# Bytes that no UTF-8 text has, signs of several bytes, and bytes that end a line or nothing.
BYTES = [
    b"\x00", b"\x01", b"\x0b", b"\x0c", b"\r", b"\r\n", b"\n", b"\t", b"\x1a", b"\x1b[0m", b"\x7f", b"\x80", b"\xff", b"\xc3", b"\xc3\xa9", b"\xc0\x80", b"\xe2\x82",
    b"\xe2\x80\xa8", b"\xed\xa0\x80", b"\xf0\x9f\x92\xa9", b"\xf4\x90\x80\x80", b"\xef\xbb\xbf", b"\xff\xfe", b"\xc2\x85",
]
LONG = (33, 64, 255, 256, 4096, 65535, 65536, 70000, 200000)
DEEP = (2, 10, 31, 32, 33, 55, 60, 61, 62, 63, 64, 65, 126, 127, 128, 129, 200, 1000, 5000, 100000)
WORDS = {
    "hg": "module input output wire reg comb ff if else case default for in gen inst let bits cat zext mux all any parity clk { } ( ) [ ] ; : . , # = == != < <= .. ~ & | ^ + - * << >> "
          "1'h0 1'h1 8'hff 8'd256 0'h0 128'hf 129'h0 8' 'h 8'h 1'hx // \" \\ @ $".split(),
    "vcd": "$var $scope $upscope $end $enddefinitions $date $version $timescale $comment $dumpvars $dumpall $dumpon $dumpoff $dumpports module wire reg real string "
           "integer parameter event tri1 clk # #0 b b0 bx bz B1 r1.5 R s S 0 1 x X z Z u - \\ [7:0] [".split(),
    "stim": ", ; # // - x".split(),
    "json": "{ } [ ] , : \" null true false {} [] \\ \\u0000 \\ud800 //".split(),
}
# Values of which many stand in few bytes.
DENSE = [b"0", b"[]", b"{}", b'""', b"[0]", b'{"":0}', b"[" * 100 + b"]" * 100, b'{"":' * 100 + b"0" + b"}" * 100]
STRINGS = ["", "unset", "removed", "1'h1", "1'h0", "8'h05", "2'h1", "129'h0", "8'h5", "8'H05", "1'd1", "A", "A.u", "clk", "break", "step", "bye", "\0", "\u00e9", "\U0001f4a9", " ", "\n", "."]


def log(chance, most):
    """A number from 0 to this one, as likely of one length as of another."""
    return min(most, chance.randrange(1 << chance.randrange(1, max(2, most.bit_length() + 1))))


def span(data, chance):
    """Two places in a text, the second mostly not far behind the first."""
    first = chance.randrange(len(data) + 1)
    return first, min(len(data), first + (log(chance, len(data)) if chance.random() < 0.2 else int(chance.expovariate(1 / 12))))


def long_name(chance):
    return bytes([chance.choice(b"ab_Z")]) * chance.choice(LONG)


def cut(data, chance):
    return data[:chance.randrange(len(data) + 1)]


def by_bytes(data, other, chance):
    """A text with some bytes changed, left out, doubled, put in, or taken from another text."""
    first, last = span(data, chance)
    kind = chance.randrange(7)
    if kind == 0 and first < len(data):
        return data[:first] + bytes([data[first] ^ 1 << chance.randrange(8)]) + data[first + 1:]
    if kind == 1:
        return data[:first] + data[last:]
    if kind == 2:
        return data[:last] + data[first:last] * chance.choice((1, 1, 1, 50)) + data[last:]
    if kind == 3:
        return data[:first] + chance.choice(BYTES) + data[chance.choice((first, last)):]
    if kind == 4:
        start, end = span(other, chance)
        return data[:first] + other[start:end] + data[last:]
    if kind == 5:
        return cut(data, chance)
    return data + cut(other, chance)


def by_lines(data, other, chance):
    """A text with some lines left out, doubled, put in another place, or taken from another text."""
    lines, more = data.split(b"\n"), other.split(b"\n")
    first, last = span(lines, chance)
    kind = chance.randrange(5)
    if kind == 0:
        del lines[first:last]
    elif kind == 1:
        lines[last:last] = lines[first:last] * chance.choice((1, 2, 3, 30))
    elif kind == 2:
        moved = lines[first:last]
        del lines[first:last]
        at = chance.randrange(len(lines) + 1)
        lines[at:at] = moved
    elif kind == 3:
        start, end = span(more, chance)
        lines[first:last] = more[start:end]
    else:
        lines[first:last] = reversed(lines[first:last])
    return b"\n".join(lines)


def some_size(chance, most):
    """A length: mostly up to some thousand bytes, and seldom up to what a file may have and a bit more."""
    size = min(chance.choices((1 << 14, 1 << 18, 1 << 21, most + 3), (600, 60, 10, 3))[0], most + 3)
    return log(chance, size) if chance.random() < 0.7 else size


def again(piece, size):
    """A piece again and again, up to a length."""
    return piece * max(1, size // max(1, len(piece)))


def grown_source(data, chance, most):
    """A source some lines or bytes of which come again and again."""
    first, last = span(data, chance)
    if chance.random() < 0.7:
        first = data.rfind(b"\n", 0, first) + 1
        last = data.find(b"\n", last) + 1 or len(data)
    return data[:last] + again(data[first:last] or b" ", some_size(chance, most) - len(data)) + data[last:]


def grown_stimulus(data, chance, most):
    """A stimulus of many rows. A long one is refused at its last row, since what it makes the commands write is longer by far."""
    lines = data.split(b"\n")
    size = some_size(chance, most)
    rows = again(chance.choice(lines[1:] or lines) + b"\n", size - len(data))
    return lines[0] + b"\n" + rows + b"\n".join(lines[1:]) + (b"\n?\n" if size > 1 << 16 else b"")


def grown_requests(data, chance, most):
    """Many requests: of any kind, or, where they are many thousand, such as are refused."""
    lines = data.split(b"\n")
    size = some_size(chance, most)
    quick = (b"x", b"[1]", b"{}", b'{"cmd":"break","line":999}', b'{"cmd":"eval","instance":"A","expr":"("}', b'"' + b"a" * 65534 + b'"', b"[" * 65536)
    line = chance.choice(lines if size <= 1 << 17 else quick)
    return b"\n".join((*lines[:1], again(line + b"\n", size - len(data)), *lines[1:]))


def grown_symbols(data, chance, most):
    """A symbol file an element of which comes again and again. Where it is no JSON, or nests deeper than is followed here, its bytes grow."""
    try:
        value = json.loads(data.decode(), object_pairs_hook=Pairs)
    except (ValueError, RecursionError):
        return grown_source(data, chance, most)
    try:
        return grown_value(value, data, chance, most)
    except RecursionError:
        return grown_source(data, chance, most)


def grown_value(value, data, chance, most):
    """The text of a JSON value an element of which comes again and again."""
    found = [it for it in holders(value) if it and not isinstance(it, Pairs)]
    if not found:
        return data
    holder = chance.choice(found)
    at = chance.randrange(len(holder))
    text, size = text_of(holder[at], chance), some_size(chance, most) - len(data)
    if isinstance(value, Pairs) and chance.random() < 0.3:
        # A key that is passed over.
        piece = chance.choice(DENSE)
        value.append(("more", Raw(b"[" + again(piece + b",", size) + piece + b"]")))
    else:
        holder[at] = Raw(again(text + b",", size) + text)
    return text_of(value, chance)


def grown_dump(data, chance, most):
    """A dump file some changes of which come again and again at one time, or some words anywhere."""
    changes = list(re.finditer(rb"(?:\n(?:[01xz][!-~]+|b[01xz]+ [!-~]+))+", data))
    if not changes or chance.random() < 0.2:
        return grown_source(data, chance, most)
    it = chance.choice(changes)
    first, last = span(it[0], chance)
    piece = it[0] if chance.random() < 0.5 else it[0][it[0].rfind(b"\n", 0, first + 1):it[0].find(b"\n", last + 1)]
    return data[:it.end()] + again(piece if piece.strip() else it[0], some_size(chance, most) - len(data)) + data[it.end():]


def of_tokens(pattern):
    """A mutation of a text by its tokens: these of it that are no blanks are changed, left out, doubled and put in."""

    def mutate(data, other, chance, kind):
        tokens = pattern.findall(data)
        places = [at for at, it in enumerate(tokens) if it.strip()]
        if not places:
            return data + chance.choice(WORDS[kind]).encode()
        at = chance.choice(places)
        which = chance.randrange(6)
        if which == 0:
            tokens[at] = chance.choice(WORDS[kind]).encode()
        elif which == 1:
            tokens[at] = b""
        elif which == 2:
            tokens[at] = (tokens[at] + b" ") * chance.choice((2, 3, 100))
        elif which == 3:
            there = chance.choice(places)
            tokens[at], tokens[there] = tokens[there], tokens[at]
        elif which == 4:
            more = [it for it in pattern.findall(other[:1 << 16]) if it.strip()]
            tokens[at] = chance.choice(more or [b""])
        else:
            tokens[at] = chance.choice((b" ", b"")) + chance.choice(NUMBERS + BYTES + [long_name(chance)])
        return b"".join(tokens)

    return mutate


SOURCE = re.compile(rb"\s+|//[^\n]*|[A-Za-z_]\w*|\d+'[hd]?[0-9a-fA-F]*|\d+|<=|==|!=|<<|>>|\.\.|.", re.S)
FIELDS = re.compile(rb"\s+|\S+")
source_tokens, field_tokens = of_tokens(SOURCE), of_tokens(FIELDS)


def blocks(data):
    """The places of the blocks of a source: of each its first bracket, and what is behind its last one."""
    found, opened = [], []
    for it in re.finditer(rb"[{}]", data):
        if it[0] == b"{":
            opened.append(it.start())
        elif opened:
            found.append((opened.pop(), it.end()))
    return found


def by_blocks(data, other, chance):
    """A source with a block doubled, left out, emptied, wrapped, or taken from another source. With it goes what is before it in its line."""
    found, more = blocks(data), blocks(other)
    if not found or not more:
        return data
    first, last = chance.choice(found)
    start = data.rfind(b"\n", 0, first) + 1
    kind = chance.randrange(6)
    if kind == 0:
        return data[:last] + (b"\n" + data[start:last]) * chance.choice((1, 2, 5, 40, 400)) + data[last:]
    if kind == 1:
        return data[:start] + data[last:]
    if kind == 2:
        return data[:first] + b"{ }" + data[last:]
    if kind == 3:
        a, b = chance.choice(more)
        return data[:first] + other[a:b] + data[last:]
    if kind == 4:
        front = chance.choice((
            b"if 1'h1 {", b"case 1'h1 { 1'h0, 1'h1: {", b"case 1'h0 { 1'h1: { } default {", b"for zz in 0..%s {" % chance.choice(NUMBERS),
            b"gen if (1 < %s) {" % chance.choice(NUMBERS), b"comb {", b"{",
        ))
        depth, behind = chance.choice((1, 1, 2, 3, *DEEP)), b"}}" if front.startswith(b"case") else b"}"
        return data[:start] + front * depth + data[start:last] + behind * depth + data[last:]
    there, end = chance.choice(found)
    return data[:first] + data[there:end] + data[last:]


def nested(data, chance):
    """A source, one name or literal of which is deep in an expression, or one operand of many."""
    found = list(re.finditer(rb"[A-Za-z_]\w*|\d+'[hd][0-9a-fA-F]+", data))
    if not found:
        return data
    it = chance.choice(found)
    fronts = ((b"~(", b")"), (b"(", b")"), (b"(1'h1 + ", b")"), (b"(", b" & 1'h1)"), (b"zext(", b", 8)"), (b"cat(", b", 1'h0)"), (b"mux(1'h1, ", b", 1'h0)"), (b"bits(", b")"), (b"x#(", b")"), (b"", b"[0:0]"))
    front, behind = chance.choice(fronts)
    depth = chance.choice(DEEP)
    return data[:it.start()] + front * depth + it[0] + behind * depth + data[it.end():]


def renamed(data, chance):
    """A source in which a name is another one wherever it stands, or here and there."""
    names = sorted(set(re.findall(rb"\b[A-Za-z_]\w*\b", data)))
    if not names:
        return data
    old = chance.choice(names)
    new = chance.choice((chance.choice(names), long_name(chance), chance.choice(WORDS["hg"]).encode(), old + b"#0", old + b"." + old, b"_" + old))
    always = chance.random() < 0.7
    return re.sub(rb"\b%s\b" % old, lambda it: new if always or chance.random() < 0.5 else it[0], data)


def parted(data, chance):
    """A source an assignment of which is of a slice, or some of which are."""
    part = chance.choice((b"[0:0]", b"[3:0]", b"[0:3]", b"[127:0]", b"[128:1]", b"[(0 - 1):0]", b"[%s:%s]" % (chance.choice(NUMBERS), chance.choice(NUMBERS)), b"[1]", b"[:]"))
    share = chance.choice((0.1, 0.5, 1))
    return re.sub(rb"\w(?= <?= )", lambda it: it[0] + part if chance.random() < share else it[0], data)


def numbered(data, chance):
    """A text one number of which is another one."""
    found = list(re.finditer(rb"\d+", data))
    if not found:
        return data
    it = chance.choice(found)
    near = b"%d" % max(0, int(it[0][:30]) + chance.choice((-1, 1, 1, 2, 60)))
    return data[:it.start()] + chance.choice((near, chance.choice(NUMBERS), b"%d" % chance.randrange(1 << chance.randrange(1, 70)))) + data[it.end():]


def source(data, other, chance):
    kind = chance.randrange(7)
    if kind == 6:
        return parted(data, chance)
    if kind == 0:
        return by_blocks(data, other, chance)
    if kind == 1:
        return nested(data, chance)
    if kind == 2:
        return renamed(data, chance)
    return numbered(data, chance) if kind == 3 else source_tokens(data, other, chance, "hg")


def stimulus(data, other, chance):
    return numbered(data, chance) if chance.random() < 0.3 else field_tokens(data, other, chance, "stim")


class Pairs(list):
    """The pairs of a JSON object, in which a key may come more than once."""


class Raw(bytes):
    """The text of a JSON value, whatever it is."""


def text_of(value, chance):
    """The text of a JSON value."""
    if isinstance(value, Raw):
        return bytes(value)
    blank = chance.choice((b"", b"", b"", b" ", b"\t\r\n")) if chance.random() < 0.02 else b""
    if isinstance(value, Pairs):
        return b"{" + blank + b",".join(text_of(key, chance) + b":" + blank + text_of(it, chance) for key, it in value) + b"}"
    if isinstance(value, list):
        return b"[" + b",".join(text_of(it, chance) for it in value) + blank + b"]"
    return json.dumps(value, ensure_ascii=chance.random() < 0.5).encode("utf-8", "surrogatepass")


def string(chance):
    """A string as it is, or one with bytes that no text has."""
    kind = chance.randrange(5)
    if kind == 0:
        return Raw(b'"' + chance.choice(BYTES + [b"\\u0000", b"\\ud800", b"\\udc00\\ud800", b"\\x", b"\\", b"\\u12", b"\\/"]) + b'"')
    return long_name(chance).decode() if kind == 1 else chance.choice(STRINGS)


def scalar(chance):
    return chance.choice((Raw(chance.choice(NUMBERS)), string(chance), None, True, chance.randrange(-2, 9), [], Pairs()))


def holders(value):
    """The lists and objects of a value, from the outside inwards."""
    found = [value] if isinstance(value, list) else []
    for it in found:
        found += [below for below in (pair[1] if isinstance(it, Pairs) else pair for pair in it) if isinstance(below, list)]
    return found


def moved(holder, at, chance):
    """Leaves out, doubles or moves elements or fields; whether it did."""
    kind = chance.randrange(9)
    if kind == 0:
        del holder[at]
    elif kind == 1:
        holder[at:at] = [holder[at]] * chance.choice((1, 1, 2, 100))
    elif kind == 2:
        chance.shuffle(holder)
    return kind < 3


def instead(old, there, chance):
    """A value in place of another one: that value deep in lists or objects, one from elsewhere, the next number, or any."""
    kind = chance.randrange(6)
    if kind == 0:
        depth = chance.choice(DEEP)
        front, behind = chance.choice(((b"[", b"]"), (b'{"a":', b"}")))
        return Raw(front * depth + text_of(old, chance) + behind * chance.choice((depth, depth, depth - 1)))
    if kind == 1:
        new = chance.choice(there)
        return Raw(text_of(new[1] if isinstance(there, Pairs) else new, chance))
    if kind == 2 and type(old) is int:
        return old + chance.choice((-1, 1, 2))
    return scalar(chance)


def changed(value, chance):
    """Changes a value within: an element or a field of one list or object in it. A field may get another key, and a key may come twice."""
    found = [it for it in holders(value) if it]
    if not found:
        return
    holder, there = chance.choice(found), chance.choice(found)
    at = chance.randrange(len(holder))
    if moved(holder, at, chance):
        return
    if not isinstance(holder, Pairs):
        holder[at] = instead(holder[at], there, chance)
        return
    key, old = holder[at]
    if chance.random() < 0.2:
        key = chance.choice((string(chance), chance.choice(there)[0] if isinstance(there, Pairs) else ""))
    holder[at] = key, instead(old, there, chance)
    if chance.random() < 0.2:
        holder.insert(chance.randrange(len(holder) + 1), (key, old))


def json_text(data, chance):
    """A JSON text with some values changed; where it is none, or nests deeper than is followed here, its bytes are."""
    try:
        value = json.loads(data.decode(), object_pairs_hook=Pairs)
    except (ValueError, RecursionError):
        return by_bytes(data, data, chance)
    try:
        return changed_text(value, chance)
    except RecursionError:
        return by_bytes(data, data, chance)


def changed_text(value, chance):
    """The text of a JSON value, some parts of which are changed."""
    if not isinstance(value, list):
        return text_of(scalar(chance), chance)
    for _ in range(1 + int(chance.expovariate(1))):
        changed(value, chance)
    return text_of(value, chance)


def symbols(data, other, chance):
    """A symbol file, mostly with values changed, and else by its tokens."""
    if chance.random() < 0.85 and len(data) < 1 << 20:
        return json_text(data.removesuffix(b"\n"), chance) + b"\n"
    return of_tokens(re.compile(rb'\s+|"[^"]*"?|[\w.+-]+|.', re.S))(data, other, chance, "json")


def condition(chance, names):
    """A condition that is right, wrong, deep or long."""
    kind, name = chance.randrange(6), chance.choice(names)
    if kind == 0:
        depth = chance.choice(DEEP)
        return "~(" * depth + name + ")" * chance.choice((depth, depth, depth - 1))
    if kind == 1:
        return "(" * 1 + " & ".join([f"({name} == {name})"] * chance.choice((1, 2, 50, 3000))) + ")"
    if kind == 2:
        return f"({name} {chance.choice('== != < <= + - * & | ^ << >>'.split())} {chance.choice(names)})"
    if kind == 3:
        return f"cat({', '.join([name] * chance.choice((1, 2, 3, 100, 10000)))})"
    return "".join(chance.choice(WORDS["hg"] + names) + chance.choice(("", " ")) for _ in range(chance.randrange(1, 12)))


def request(chance, names):
    """A request whose fields are mostly of their kinds."""
    cmd = chance.choice("break delete watch unwatch continue reverse step back pause threads values eval drop status bye".split() + ["break", "watch", "eval", "continue", "step", "x"])
    it = Pairs([("cmd", cmd)])
    fields = {
        "file": chance.choice((0, 0, 0, 1, 63, 64)), "line": chance.randrange(30), "bp": chance.randrange(1, 5), "wp": chance.randrange(1, 5), "k": chance.randrange(3), "id": chance.randrange(9), "instance": chance.choice(STRINGS + names),
        "cond": condition(chance, names), "expr": condition(chance, names),
    }
    for name, value in fields.items():
        if chance.random() < 0.4:
            it.append((name, value if chance.random() < 0.9 else scalar(chance)))
    return text_of(it, chance)


def requests(data, other, chance):
    """Requests with one of them changed, left out or put in, or some again and again."""
    lines = data.split(b"\n")
    at = chance.randrange(len(lines))
    kind = chance.randrange(5)
    names = sorted(set(re.findall(r"\b[a-z]\w*\b", data.decode("utf-8", "ignore")[:4000]))) or ["a"]
    if kind == 0:
        lines[at] = json_text(lines[at], chance)
    elif kind == 1:
        lines[at:at] = [request(chance, names) for _ in range(chance.choice((1, 1, 5, 40)))]
    elif kind == 2:
        lines[at] = lines[at] + b" " * (chance.choice((65535, 65536, 65537, 70000)) - len(lines[at]))
    elif kind == 3:
        lines[at:at] = [lines[at]] * chance.choice((1, 5, 1100))
    else:
        lines[at] = chance.choice((b"[" * 200 + b"]" * 200, b"[" * 100000, b'"' + b"\\u00e9" * 9000 + b'"', b'{"a":' * 130 + b"1" + b"}" * 130, b"\r", b"\x00"))
    return b"\n".join(lines)


def dump(data, other, chance):
    """A dump file with a command of its head, or a change behind that, changed, doubled, moved or put in."""
    kind, words = chance.randrange(8), chance.choice(WORDS["vcd"]).encode()
    commands = list(re.finditer(rb"\$(?:var|scope|upscope|enddefinitions|timescale|date|comment)\b[^$]*\$end\s*", data))
    if kind < 3 and commands:
        it, there = chance.choice(commands), chance.choice(commands)
        text = it[0]
        if kind == 0:
            text = field_tokens(text, other, chance, "vcd")
        elif kind == 1:
            text = text * chance.choice((0, 2, 3, 1000, 20000))
        else:
            text = there[0] + text
        return data[:it.start()] + text + data[it.end():]
    if kind == 3:
        depth, name = chance.choice(DEEP), chance.choice((b"a", b"\\a.b", b"a.b", b"[", long_name(chance)[:4096]))
        end = chance.choice((0, depth, depth, depth + 1))
        return b"$scope module %s $end " % name * depth + b"$upscope $end " * end + data
    if kind == 4:
        return re.sub(rb"#(\d+)", lambda it: b"#%d" % max(0, int(it[1]) + log(chance, 1 << 65) * chance.choice((0, 0, 1, -1))), data)
    if kind == 5:
        blank = chance.choice((b" ", b"\x0b", b"\x0c", b"\r", b"\t\t", b"", b"\x85", b"\xa0"))
        return re.sub(rb"\s+", lambda it: blank if chance.random() < 0.3 else it[0], data)
    if kind == 6:
        digits = chance.choice((b"0", b"1", b"x", b"Z", b"01xz")) * chance.choice((1, 2, 8, 9, 128, 129, 65536))
        return re.sub(rb"\b[bB]\S+", lambda it: b"b" + digits if chance.random() < 0.2 else it[0], data)
    return field_tokens(data, other, chance, "vcd") if chance.random() < 0.8 else data + b" " + words


FORMS = {"hg": source, "stim": stimulus, "req": requests, "sym": symbols, "vcd": dump}
GROWN = {"hg": grown_source, "stim": grown_stimulus, "req": grown_requests, "sym": grown_symbols, "vcd": grown_dump}


def mutated(kind, data, other, chance, most):
    """A file of a kind, changed once or some times; `other` is another one, and `most` what a file of this kind may have."""
    for _ in range(1 + int(chance.expovariate(0.8))):
        which = chance.random()
        if which < 0.6 and len(data) <= 1 << 22:
            data = FORMS[kind](data, other, chance)
        elif which < 0.8:
            data = by_bytes(data, other, chance)
        elif which < 0.9 and len(data) <= 1 << 22:
            data = by_lines(data, other, chance)
        elif which < 0.93:
            data = cut(data, chance)
        else:
            data = GROWN[kind](data, chance, most)
        # A file that is far too long says no more than one that is a bit too long.
        data = data[:most + 3]
    return data
