"""Which functions of a crate an edit changes, and the paths by which the prover can be asked for them."""
import importlib.machinery
import importlib.util
import pathlib
import re
import sys
from typing import List, NamedTuple, Optional

HERE = pathlib.Path(__file__).resolve().parent
# How an item begins in a laid-out file. Of these only a function, and what can have functions in it, have a name in a path.
ITEM = re.compile(
    r"^[ \t]*(?:pub(?:\([^)]*\))?\s+)?(?:(?:unsafe|const|extern)\s+)*"
    r"(fn|impl|mod|trait|struct|enum|union|const|static|type|use|macro_rules!)(?=\W)(?:\s*(\w+))?",
    re.MULTILINE,
)
NAMED = ("mod", "trait")
UNIT = "Unit"


def one_door():
    """scripts/one-door, which reads code without its comments and strings."""
    loader = importlib.machinery.SourceFileLoader("one_door", str(HERE.parent / "one-door"))
    module = importlib.util.module_from_spec(importlib.util.spec_from_loader("one_door", loader))
    sys.dont_write_bytecode = True
    loader.exec_module(module)
    return module


ONE_DOOR = one_door()


def code_of(text):
    """The text with blanks in the place of comments and strings."""
    return ONE_DOOR.PASSED_OVER.sub(ONE_DOOR.blank, text)


def module_of(path):
    """The path of the module that a file below src/ is, as a list: none for the root."""
    parts = pathlib.PurePosixPath(path).with_suffix("").parts[1:]
    return list(parts[:-1] if parts[-1] in ("lib", "main", "mod") else parts)


def blocks_around(code, at):
    """The places of the braces that are open at this place, from outside inwards."""
    found = []
    for place, sign in enumerate(code[:at]):
        if sign == "{":
            found.append(place)
        elif sign == "}" and found:
            found.pop()
    return found


def item_of(code, start, block):
    """The item that the block belongs to: the last one that begins between these places and within no other block."""
    found, depth, read = None, 0, start
    for match in ITEM.finditer(code, start, block):
        depth += code.count("{", read, match.start()) - code.count("}", read, match.start())
        read = match.start()
        found = match if depth == 0 else found
    return found


def without_arguments(text):
    """The text without what stands in angle brackets, and these arguments from left to right."""
    plain, depth, arguments = [], 0, [""]
    for sign in text.replace("->", "  "):
        depth += sign == "<"
        if depth == 0:
            plain.append(sign)
        elif depth == 1 and sign in "<,>":
            arguments.append("")
        else:
            arguments[-1] += sign
        depth -= sign == ">"
    return "".join(plain), [it.strip() for it in arguments if it.strip()]


def last_name(text):
    """The last name of a path to a type, if it is one."""
    found = re.search(r"(\w+)\s*$", re.sub(r"'\w+", "", text))
    return found and found[1]


def owners(head):
    """The names by which the prover may know what the head of an impl is of: the likeliest first."""
    head = re.sub(r"^\s*(?:unsafe\s+)?impl\b", "", head)
    if head.lstrip().startswith("<"):
        depth = 0
        for place, sign in enumerate(head.replace("->", "  ")):
            depth += (sign == "<") - (sign == ">")
            if sign == ">" and depth == 0:
                head = head[place + 1 :]
                break
    head = re.split(r"\bwhere\b", head)[0]
    trait, is_trait, of = head.rpartition(" for ")
    name = last_name(without_arguments(of)[0])
    if not is_trait or not name:
        return [name] if name else []
    plain, arguments = without_arguments(trait)
    words = [UNIT if it == "()" else last_name(without_arguments(it)[0]) or "" for it in arguments if not it.startswith("'")]
    whole = name + (last_name(plain) or "")
    return list(dict.fromkeys([whole + "".join(it[:1].upper() + it[1:] for it in words), whole, name]))


class Place(NamedTuple):
    """Where an edit changes a crate: the file, its module, and of the function the name, its lines, and the ways to name what it is a part of."""

    file: str
    module: List[str]
    name: Optional[str]
    lines: range
    ways: List[List[str]]

    def paths(self):
        """The ways to name the function to the prover, the likeliest first."""
        return ["::".join([*self.module, *way, self.name]) for way in self.ways]

    def has(self, complaint):
        """Whether the line of a check complains of something in the function, or in a proof of it."""
        at = re.match(r"(?:note: )?(?:\./)?(\S+?):(\d+):\d+:", complaint)
        if not at or not self.name:
            return False
        if at[1] == self.file:
            return int(at[2]) in self.lines
        return at[1].startswith("/".join(["proofs", *self.module, ""])) and self.name in at[1].split("/")[:-1]


def lines_of(code, item):
    """The lines of an item of a laid-out file, with its attributes and comments, which are the lines right above it that are not empty and end no other."""
    lines, first = code.split("\n"), code.count("\n", 0, item.start()) + 1
    last = next((at for at in range(first, len(lines)) if lines[at] == f"{item[0][: -len(item[0].lstrip())]}}}"), len(lines) - 1)
    while first > 1 and lines[first - 2] and not lines[first - 2].endswith(("}", "{", ";")):
        first -= 1
    return range(first, last + 2)


def place_of(file, text, old):
    """Where this text stands in the text of a file. The lines of an edit take the place of as many."""
    code, at, start, ways = code_of(text), text.find(old), 0, [[]]
    for block in [*blocks_around(code, at), None]:
        item = item_of(code, start, at + len(old) if block is None else block)
        kind = item and item[1]
        if kind == "fn":
            return Place(file, module_of(file), item[2], lines_of(code, item), ways)
        if block is None:
            break
        if kind == "impl":
            ways = [[*way, it] for way in ways for it in owners(code[item.start() : block])]
        elif kind in NAMED:
            ways = [[*way, item[2]] for way in ways]
        else:
            break
        start = block + 1
    return Place(file, module_of(file), None, range(0), [])


def changes(edit):
    """Each change that the text of an edit makes: the file, the text that goes, and what comes for it."""
    file, old = None, None
    for line in edit.split("\n"):
        if line.startswith("file: "):
            file = line[len("file: ") :].strip()
        elif line.startswith("old: "):
            old = line[len("old: ") :]
        elif line.startswith("new:"):
            yield file, old, line[len("new:") :][1:]


def changed(edit, folder):
    """The places that the text of an edit changes in the crate's folder."""
    for file, old, _ in changes(edit):
        yield place_of(file, (pathlib.Path(folder) / file).read_text(encoding="utf-8"), old)


def asked(places):
    """The ways to ask the prover for the functions of these places, the narrowest first: what they are, and the paths. None where one is of no function."""
    if not all(it.name for it in places):
        return
    for at in range(max(len(it.ways) for it in places)):
        paths = [it.paths()[min(at, len(it.ways) - 1)] for it in places]
        yield "a check of the changed function alone", list(dict.fromkeys(paths))
    modules = list(dict.fromkeys("::".join(it.module) for it in places))
    if all(modules):
        yield "a check of the changed module", modules
