"""Checks lines of sessions against messages.schema.json, by Python's standard library alone.

`fault` is a checker of JSON Schema for the words that this schema has; a word that it does not know is an error and never passed over.
A whole number is an int, so 1.0 is none, as for hgdb. `session` takes the requests and the lines of a recorded session apart and checks
each: a request fits the schema exactly where it is not refused by the codes 1 to 4, and an accepted reply has the form of its command.
"""
import glob, json, os, re

import blocks, built

with open(os.path.join(os.path.dirname(os.path.abspath(__file__)), "messages.schema.json"), encoding="utf-8") as file:
    SCHEMA = json.load(file)
KINDS = {"object": dict, "array": list, "string": str, "integer": int, "null": type(None)}
# Words of a schema that judge nothing.
SILENT = ("$schema", "$defs", "title", "description")
RUNS = ("continue", "reverse", "step", "back")
# The codes of what is no request, and of what is no value or too long to be one.
NONE, TEXTS = (1, 2, 3, 4), (1, 2)


def is_kind(name, value):
    return isinstance(value, KINDS[name]) and not (name == "integer" and isinstance(value, bool))


def same(one, other):
    """Whether two values of JSON are the same; true is not 1."""
    return type(one) is type(other) and one == other


def part(word, given, value, schema):
    """What is wrong with a value by one word of a schema, or None. `schema` has the words beside it."""
    if word in SILENT:
        return None
    if word == "$ref":
        return fault(value, SCHEMA["$defs"][given.removeprefix("#/$defs/")])
    if word == "anyOf":
        found = [fault(value, each) for each in given]
        return None if None in found else f"is none of {len(given)} forms"
    if word == "type":
        return None if is_kind(given, value) else f"is no {given}"
    if word in ("const", "enum"):
        return None if any(same(value, each) for each in ([given] if word == "const" else given)) else f"is not {given}"
    if isinstance(value, dict):
        return in_object(word, given, value, schema)
    if isinstance(value, list):
        return in_list(word, given, value)
    return plain(word, given, value)


def in_object(word, given, value, schema):
    """The words of a schema that judge an object."""
    if word == "required":
        return next((f"has no {name}" for name in given if name not in value), None)
    if word == "properties":
        return next((f"{name}: {why}" for name in given if name in value and (why := fault(value[name], given[name]))), None)
    if word == "additionalProperties" and given is False:
        return next((f"has {name}" for name in value if name not in schema.get("properties", {})), None)
    raise ValueError(f"no word of a schema: {word}")


def in_list(word, given, value):
    """The words of a schema that judge a list."""
    if word == "prefixItems":
        return next((why for each, how in zip(value, given) if (why := fault(each, how))), None)
    if word == "items":
        return next((why for each in value if (why := fault(each, given))), None)
    if word in ("minItems", "maxItems"):
        return None if (len(value) >= given if word == "minItems" else len(value) <= given) else f"has {len(value)} members"
    if word == "uniqueItems" and given is True:
        return None if len({json.dumps(it) for it in value}) == len(value) else "has a member twice"
    raise ValueError(f"no word of a schema: {word}")


def plain(word, given, value):
    """The words of a schema that judge a number or a text."""
    if word in ("minimum", "maximum"):
        return None if (value >= given if word == "minimum" else value <= given) else f"is {value}"
    if word == "pattern":
        return None if re.search(given, value) else f"is {value!r}"
    if word in ("required", "properties", "additionalProperties", "items", "prefixItems", "minItems", "maxItems", "uniqueItems"):
        return None
    raise ValueError(f"no word of a schema: {word}")


def fault(value, schema=SCHEMA):
    """What is wrong with a value, or None."""
    return next((why for word, given in schema.items() if (why := part(word, given, value, schema))), None)


def named(name):
    """The form of this name."""
    return SCHEMA["$defs"][name]


def whole(digits):
    """A number without a point; -0 is no whole one."""
    return -0.0 if digits == "-0" else int(digits)


def request_of(text):
    """The value of a request, or None where it has none; the last of equal keys counts."""
    try:
        return json.loads(text, parse_int=whole)
    except (ValueError, RecursionError):
        return None


def session(requests, lines):
    """The faults of a recorded session: its requests, and its lines, where each run ends before the next request is answered."""
    rest = list(lines)
    for text in requests:
        if not rest:
            yield f"there is no answer to {text[:80]}"
            return
        reply = json.loads(rest.pop(0))
        asked, ok = request_of(text), reply.get("ok") is True
        if why := fault(reply, named(f"reply {asked['cmd']}") if ok else named("refused")):
            yield f"the answer to {text[:80]} {why}"
        why = fault(asked, named("request"))
        if reply.get("code") not in TEXTS and (why is None) != (reply.get("code") not in NONE):
            yield f"{text[:80]} {why or 'is a request'}, and its answer is {reply}"
        if ok and asked["cmd"] in RUNS and (why := fault(json.loads(rest.pop(0)), named("notice"))):
            yield f"what follows {text[:80]} {why}"
        if ok and asked["cmd"] == "bye":
            break
    for line in rest:
        if why := fault(json.loads(line), named("counted")):
            yield f"{line[:80]} {why}"


def bent(value):
    """What is no line of a session, made of one: without a key that it needs, with one more, and with a value of another kind."""
    for name in value:
        less = {key: each for key, each in value.items() if key != name}
        if name not in ("id", "file", "watches") and set(less) - {"id"} != {"ok", "seq"}:
            yield less
        yield {**value, name: {"": 0}}
    yield {**value, "more": 0}


# What was recorded


def examples():
    """The sessions beside examples/: a name, the requests, and the lines."""
    for path in sorted(glob.glob(f"{blocks.ROOT}/examples/*.session")):
        with open(f"{path[:-8]}.req", "rb") as asked, open(path, encoding="utf-8") as told:
            yield os.path.basename(path), [it for it in asked.read().split(b"\n") if it], told.read().splitlines()


def cases():
    """The sessions of outside/cases/, in the same form."""
    judge = built.other("answers")
    for file in sorted(glob.glob(f"{built.HERE}/cases/*.txt")):
        for case in judge.read_cases(file):
            words = case.get("words", ("", [], ""))[1]
            if words[:1] in (["debug"], ["replay"]) and case["status"] == 0 and "want" in case:
                texts = [judge.joined(case[it][1], case[it][0], case[it][2]) for it in (words[4], "want")]
                yield case["case"], [it for it in texts[0].split(b"\n") if it], texts[1].decode().splitlines()


def lines():
    """The whole lines of sessions in the pages of docs/, which are printed below their commands: a page and a line."""
    for path in sorted(glob.glob(f"{blocks.ROOT}/docs/*.md") + [f"{blocks.ROOT}/README.md"]):
        for _, _, told, _ in blocks.blocks(path):
            for line in told:
                value = request_of(line) if line.startswith('{"') else None
                if isinstance(value, dict) and ("ok" in value or "notice" in value):
                    yield os.path.basename(path), value
