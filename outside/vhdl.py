"""Puts the Verilog that hgdb prints into VHDL, for GHDL, and makes a bench for it.

It is a translation of the few forms that hgdb prints, line by line. Each name becomes an extended identifier, `\\_0\\`, since VHDL has no names
that begin with `_`, and reads the others without case. It knows nothing else of Verilog.
"""
import re

NAME = r"(?:\\(\S+) |(\w+))"
HEAD = "library ieee;\nuse ieee.std_logic_1164.all;\nuse ieee.numeric_std.all;\n"
WORDS = {"+": "+", "-": "-", "&": "and", "|": "or", "^": "xor", "==": "=", "!=": "/=", "<": "<", "<=": "<="}
REDUCED = {"&": "and", "|": "or", "^": "xor"}


def name(verilog):
    """A name of Verilog, plain or escaped, in VHDL. The clock alone is plain."""
    plain = verilog.strip().removeprefix("\\")
    return plain if plain == "clk" else f"\\{plain}\\"


def kind(width):
    return f"unsigned({width - 1} downto 0)"


def literal(text):
    """A literal of Verilog in VHDL."""
    width, digits = text.split("'h")
    return f'{width}x"{digits}"'


def test(condition):
    """A condition as a value of one bit."""
    return f'"1" when {condition} else "0"'


def expression(text, width, widths):
    """What stands behind `=` in an assignment to a name of this width."""
    text = text.strip()
    a, b, c = (r"(?P<%s>\\\S+|\w+)" % it for it in "abc")
    if re.fullmatch(r"\d+'h[0-9a-f]+", text):
        return literal(text)
    if re.fullmatch(a, text):
        return name(text)
    found = re.fullmatch(rf"{a}\s*\[(\d+):(\d+)\]", text)
    if found:
        return f"{name(found['a'])}({found[2]} downto {found[3]})"
    found = re.fullmatch(rf"\{{\d+'h0, {a}\s*\}}", text)
    if found:
        return f"resize({name(found['a'])}, {width})"
    found = re.fullmatch(rf"\{{{a}\s*, {b}\s*\}}", text)
    if found:
        return f"{name(found['a'])} & {name(found['b'])}"
    found = re.fullmatch(rf"{a}\s* \? {b}\s* : {c}", text)
    if found:
        return f'{name(found["b"])} when {name(found["a"])} = "1" else {name(found["c"])}'
    found = re.fullmatch(rf"([~&|^]){a}", text)
    if found:
        one = name(found["a"])
        return f"not {one}" if found[1] == "~" else f"(0 => {REDUCED[found[1]]} {one})"
    found = re.fullmatch(rf"{a}\s* (\S+) {b}", text)
    if not found:
        raise ValueError(f"no form of an expression: {text}")
    one, op, other = name(found["a"]), found[2], name(found["b"])
    if op in ("<<", ">>"):
        amount = f"to_integer({other}({min(widths[found['b'].removeprefix(chr(92))], 31) - 1} downto 0))"
        shifted = f"shift_{'left' if op == '<<' else 'right'}({one}, {amount})"
        return f"to_unsigned(0, {width}) when {other} >= {width} else {shifted}"
    if op == "*":
        return f"resize({one} * {other}, {width})"
    together = f"{one} {WORDS[op]} {other}"
    return test(together) if op in ("==", "!=", "<", "<=") else together


def module(verilog):
    """The module in VHDL, and its ports: direction, name and width."""
    top = name(re.search(r"module (\\\S+ )", verilog)[1])
    ports, signals, body, widths, driven = [], [], [], {}, {}
    for line in verilog.splitlines():
        found = re.fullmatch(rf"  (input|output|wire|reg) \[(\d+):0\] {NAME}( = (\S+))?;", line)
        if found:
            plain, width = found[3] or found[4], int(found[2]) + 1
            widths[plain] = width
            if found[1] in ("input", "output"):
                ports.append((found[1], plain, width))
            else:
                start = f" := {literal(found[6])}" if found[6] else ""
                signals.append(f"  signal {name(plain)} : {kind(width)}{start};\n")
    for line in verilog.splitlines():
        found = re.fullmatch(rf"  assign {NAME} ?= (.*);", line)
        if found:
            plain = found[1] or found[2]
            body.append(f"  {name(plain)} <= {expression(found[3], widths[plain], widths)};\n")
        found = re.fullmatch(rf"  always @\(posedge clk\) (\w+) <= {NAME};", line)
        if found:
            driven[found[1]] = found[2] or found[3]
    clocked = "".join(f"      {name(to)} <= {name(by)};\n" for to, by in driven.items())
    if clocked:
        body.append(f"  process (clk) begin\n    if rising_edge(clk) then\n{clocked}    end if;\n  end process;\n")
    told = "".join(f"; {name(it)} : {'in' if way == 'input' else 'out'} {kind(width)}" for way, it, width in ports)
    text = f"{HEAD}entity {top} is\n  port (clk : in std_logic{told});\nend;\n"
    return text + f"architecture net of {top} is\n{''.join(signals)}begin\n{''.join(body)}end;\n", ports, top


def bench(verilog, stimulus):
    """The module and an entity `bench` that drives it with the rows, as its part `judged`. The inputs of the next row come behind the rise."""
    text, ports, top = module(verilog)
    header, *rows = [it.split() for it in stimulus.splitlines()]
    widths = {plain: width for _, plain, width in ports}
    text += f"{HEAD}entity bench is end;\narchitecture run of bench is\n  signal clk : std_logic := '0';\n"
    text += "".join(f"  signal {'in' if way == 'input' else 'out'}_{i} : {kind(width)};\n" for i, (way, _, width) in enumerate(ports))
    wired = "".join(f", {name(it)} => {'in' if way == 'input' else 'out'}_{i}" for i, (way, it, _) in enumerate(ports))
    text += f"begin\n  judged : entity work.{top} port map (clk => clk{wired});\n  process begin\n"
    places = {plain: i for i, (_, plain, _) in enumerate(ports)}
    for row in rows:
        for plain, value in zip(header, row):
            number = int(value, 16 if value.startswith("0x") else 10)
            text += f'    in_{places[plain]} <= {widths[plain]}x"{number:x}";\n'
        text += "    wait for 4 ns; clk <= '1';\n    wait for 5 ns; clk <= '0';\n    wait for 1 ns;\n"
    return text + "    wait;\n  end process;\nend;\n"


def plain_names(dump):
    """A dump file of GHDL without the `\\` on both sides of extended identifiers."""
    return re.sub(rb"(?m)^(\$var .*)\\([^\\\s]+)\\", rb"\1\2", dump)
