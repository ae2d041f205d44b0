"""What a line of a trace lacks: where it is in the trace, and what would be right there.

The program alone judges a trace. This only looks for what to say of a line that the program has named.
"""
import re
from collections import namedtuple

NUMBER, REGISTER, NAME = r"(0|[1-9][0-9]*)", r"r([0-9]|1[0-5])", r"[A-Za-z][A-Za-z0-9_]{0,31}"
RESERVED = set("kaffe kernel type limit proc shared report graph roots exits shares faults charges ended absorbed closing end null directory".split())
BYTES_BOUND, FIELDS_MOST, INTEGER_BOUND = 2**40, 16, 2**64
HEADER_BYTES, FIELD_BYTES = 16, 8
OPERATIONS = {
    "new": ["rD", "T"], "knew": ["rD", "T"], "snew": ["rD", "S", "T"], "store": ["rX", "f", "rY"], "load": ["rD", "rX", "f"],
    "move": ["rD", "rS"], "drop": ["rD"], "dir": ["rD"], "put": ["rX", "f", "n"], "get": ["rX", "f"], "collect": [], "kcollect": [],
    "exit": [], "share": ["S"], "attach": ["rD", "S"], "freeze": ["S", "rX"], "kill": ["P"], "resize": ["L", "n"],
}  # fmt: skip
OF_SECOND_VERSION = ["kill", "resize"]
SECOND_VERSION = "kaffe 2"
HEADER = ["kaffe", "kernel", "type", "limit", "proc", "shared"]
FORMS = {
    "kaffe": "`kaffe 1` or `kaffe 2`",
    "kernel": "`kernel CEILING FIELDS`",
    "type": "`type NAME`, followed by 0 to 16 words `ref` or `int`",
    "root": "`limit NAME MAX`, for the root of the limits",
    "limit": "`limit NAME PARENT hard MAX` or `limit NAME PARENT soft MAX`",
    "proc": "`proc NAME LIMIT`",
    "shared": "`shared NAME`",
}

Limit = namedtuple("Limit", "parent is_hard maximum")


class Before:
    """What the lines before one have declared, read without judging them."""

    def __init__(self, lines):
        self.lines = lines
        self.names = {"type": {}, "limit": {}, "process": {}, "shared heap": {}}
        self.limits, self.exits, self.operations, self.version, self.kernel, self.is_second = {}, {}, 0, False, False, False
        for number, line in enumerate(lines, 1):
            self.take(number, line.split(" "))

    def take(self, number, words):
        kind = {"type": "type", "limit": "limit", "proc": "process", "shared": "shared heap"}.get(words[0])
        if self.operations or words[0] not in HEADER:
            self.operations += 1
            if words[1:] == ["exit"]:
                self.exits[words[0]] = number
        elif kind and len(words) > 1:
            self.names[kind][words[1]] = number
            if kind == "limit" and words[-1].isdigit():
                parent = words[2] if len(words) == 5 else None
                self.limits[words[1]] = Limit(parent, len(words) < 5 or words[3] == "hard", int(words[-1]))
        self.version |= number == 1 and words[0] == "kaffe"
        self.is_second |= number == 1 and " ".join(words) == SECOND_VERSION
        self.kernel |= words[0] == "kernel"

    def places(self):
        """The kinds of line that may come next."""
        if not self.version:
            return ["kaffe"]
        if not self.kernel:
            return ["kernel"]
        if not self.names["limit"]:
            return ["type", "root"]
        if not self.names["process"]:
            return ["limit", "proc"]
        if self.operations:
            return ["operation"]
        return (["proc"] if not self.names["shared heap"] else []) + ["shared", "operation"]

    def heaps(self):
        return {**self.names["process"], **self.names["shared heap"]}

    def operations_there(self):
        """The operations of the trace's version, each with the words that follow it."""
        return {name: words for name, words in OPERATIONS.items() if self.is_second or name not in OF_SECOND_VERSION}


def form_of(words, before):
    """The pattern words of the form that a line has, with their places' names, or None where it has none."""
    first = words[0]
    if "operation" in before.places() and first not in HEADER:
        found = before.operations_there().get(words[1]) if len(words) > 1 else None
        found = ["L", "MAX"] if words[1:2] == ["resize"] and found else found
        return None if found is None or len(found) != len(words) - 2 else ["P", "_", *found]
    if first == "limit" and len(words) == 5 and before.names["limit"]:
        return ["_", "NEW", "PARENT", "_", "MAX"]
    return {
        ("kernel", 3): ["_", "CEILING", "FIELDS"], ("limit", 3): ["_", "NEW", "MAX"], ("proc", 3): ["_", "NEW", "LIMIT"], ("shared", 2): ["_", "NEW"],
    }.get((first, len(words)), ["_", "TYPE", *["_"] * (len(words) - 2)] if first == "type" and len(words) > 1 else None)  # fmt: skip


def fits(place, word):
    """Whether a word is allowed in the place of a number or a register; True for any other place."""
    if place.startswith("r"):
        return re.fullmatch(REGISTER, word) is not None
    most = {"MAX": BYTES_BOUND, "CEILING": BYTES_BOUND, "FIELDS": FIELDS_MOST + 1, "f": FIELDS_MOST, "n": INTEGER_BOUND}.get(place)
    return most is None or (re.fullmatch(NUMBER, word) is not None and int(word) < most)


RANGES = {"MAX": "a number of bytes below 2^40", "CEILING": "a number of bytes below 2^40", "FIELDS": "a number from 0 to 16", "f": "a number from 0 to 15", "n": "a number from 0 to 2^64 - 1"}


def detail(reason, line, before, size):
    """What can be said of this line beyond the meaning of its reason: a list of sentences."""
    words = line.split(" ")
    form = form_of(words, before) or []
    told = {
        1: lambda: [f"The input has {size} bytes."] if size else [],
        2: lambda: [f"The line has {len(line)} bytes."],
        3: lambda: bad_byte(line),
        4: lambda: no_form(line, words, before),
        5: lambda: [f"`{word}` is in the place of {RANGES.get(place, 'a register, r0 to r15')}." for place, word in zip(form, words) if not fits(place, word)][:1],
        6: lambda: bad_name(words),
        7: lambda: declared_before(words, before),
        8: lambda: undeclared(form, words, before),
        9: lambda: [f"This would be operation {before.operations + 1}."] if before.operations else [f"There are {len(words) - 2} fields."] if words[0] == "type" and len(words) > 2 + FIELDS_MOST else [],
        10: lambda: no_room(words, before),
        11: lambda: [f"`{words[0]} exit` is line {before.exits[words[0]]}."] if words[0] in before.exits else [],
        12: lambda: ["What may come next is " + allowed(before) + "."],
    }.get(reason)
    return told() if told else []


def allowed(before):
    return ", or ".join(operation_forms(before) if it == "operation" else FORMS[it] for it in before.places())


def operation_forms(before):
    forms = "; ".join(" ".join([name, *words]) for name, words in before.operations_there().items())
    return f"an operation, which is a process's name and one of: {forms}"


def bad_byte(line):
    for column, byte in enumerate(line.encode("latin-1"), 1):
        if not 32 <= byte <= 126:
            what = {9: ", a tab", 13: ", a carriage return, as editors of Windows write it at the end of each line"}.get(byte, "")
            return [f"Byte {column} of the line is {byte}{what}."]
    return []


def no_form(line, words, before):
    """What keeps a line from having a form, and which forms are allowed there."""
    found = []
    if not line:
        found.append("The line is empty.")
    elif "" in words:
        found.append("Words are not separated by single spaces, or the line begins or ends with a space.")
    elif line.startswith("#") or line.startswith("//"):
        found.append("A trace has no comments.")
    elif len(words) > 1 and words[1] in OF_SECOND_VERSION and "operation" in before.places() and not before.is_second:
        return [f"`{words[1]}` is an operation of the second version, of which the first line is `{SECOND_VERSION}`."]
    elif len(words) > 1 and words[1] in OPERATIONS and "operation" in before.places():
        return [f"`{words[1]}` is written `{' '.join([words[0], words[1], *OPERATIONS[words[1]]])}`."]
    elif len(words) > 1 and "operation" in before.places() and words[0] in before.names["process"]:
        found.append(f"There is no operation `{words[1]}`.")
    elif words[0] in HEADER:
        found.append(f"A line that begins with `{words[0]}` has another form, or is not allowed here.")
    return found + ["Allowed here is " + allowed(before) + "."]


def bad_name(words):
    name = words[1] if len(words) > 1 else ""
    if name in RESERVED:
        return [f"`{name}` is a word of the formats, and so it is reserved."]
    return [] if re.fullmatch(NAME, name) else [f"`{name}` is no name: it has 1 to 32 letters, digits and `_`, and begins with a letter."]


def declared_before(words, before):
    kind = {"type": before.names["type"], "limit": before.names["limit"]}.get(words[0], before.heaps())
    return [f"`{words[1]}` was declared in line {kind[words[1]]}."] if len(words) > 1 and words[1] in kind else []


def undeclared(form, words, before):
    """The first word that names what is not declared, and what is."""
    kinds = {"T": "type", "S": "shared heap", "P": "process", "L": "limit", "PARENT": "limit", "LIMIT": "limit"}
    for place, word in zip(form, words):
        kind = kinds.get(place)
        if kind and word not in before.names[kind]:
            there = ", ".join(list(before.names[kind])[:8])
            return [f"There is no {kind} `{word}`; declared " + (f"are {there}{' and more' if len(before.names[kind]) > 8 else ''}." if there else "is none.")]
    return []


def no_room(words, before):
    """By how much a maximum does not fit, by the reservations of the lines before."""
    if words[0] == "kernel":
        fields = int(words[2]) if words[-1].isdigit() else 0
        return [f"A directory of {fields} fields takes {HEADER_BYTES + FIELD_BYTES * fields} bytes."]
    used = dict.fromkeys(before.limits, 0)
    for limit in before.limits.values():
        if limit.parent and limit.is_hard:
            for it in path(before.limits, limit.parent):
                used[it] += limit.maximum
    for it in path(before.limits, words[2]) if len(words) == 5 and words[2] in before.limits else []:
        room = before.limits[it].maximum - used[it]
        if words[4].isdigit() and int(words[4]) > room:
            return [f"`{it}` has {room} bytes left of {before.limits[it].maximum}, and {words[4]} are asked for."]
    return []


def path(limits, name):
    """The limits that are charged with what is reserved at this one: itself, and above each soft one its parent."""
    found = [name]
    while limits[found[-1]].parent and not limits[found[-1]].is_hard:
        found.append(limits[found[-1]].parent)
    return found
