"""The words of traces and reports: numbers, names, registers, and the operands of each operation."""
from __future__ import annotations

import re
from typing import Dict, List, NamedTuple, Optional, Tuple

REGISTERS = 16
FIELDS = 16
NAME_BYTES = 32
LINE_BYTES = 4096
TRACE_BYTES = 16_777_216
MAXIMA = 1 << 40
NUMBERS = 1 << 64
SERIALS = 1 << 32

RESERVED = frozenset(
    "kaffe kernel type limit proc shared report graph roots exits shares faults charges ended absorbed closing end null directory".split()
)

# The operands of each operation. The last two are operations of version 2 alone.
OPERANDS: Dict[str, Tuple[str, ...]] = {
    "new": ("register", "type"),
    "knew": ("register", "type"),
    "snew": ("register", "shared heap", "type"),
    "store": ("register", "field", "register"),
    "load": ("register", "register", "field"),
    "move": ("register", "register"),
    "drop": ("register",),
    "dir": ("register",),
    "put": ("register", "field", "number"),
    "get": ("register", "field"),
    "collect": (),
    "kcollect": (),
    "share": ("shared heap",),
    "freeze": ("shared heap", "register"),
    "attach": ("register", "shared heap"),
    "exit": (),
    "kill": ("process",),
    "resize": ("limit", "maximum"),
}
VERSION_2 = ("kill", "resize")

_NUMBER = re.compile(r"0|[1-9][0-9]*")
_NAME = re.compile(r"[A-Za-z][A-Za-z0-9_]{0,%d}" % (NAME_BYTES - 1))
_RANGES = {"field": FIELDS, "number": NUMBERS, "maximum": MAXIMA}


class BadInput(Exception):
    """An input that cannot be used; its text is one sentence for the reader."""


class Text(NamedTuple):
    """The lines of one trace, report or snapshot, and what to call it in a message."""

    source: str
    lines: List[str]

    def bad(self, line: int, why: str) -> BadInput:
        """The error that the line of this number, counted from 1, is wrong."""
        return BadInput(f"{self.source}, line {line}: {why}")


class Name(NamedTuple):
    """The name of an object: its segment's number and its serial there."""

    segment: int
    serial: int


def number(word: str, below: int = NUMBERS) -> Optional[int]:
    """The number that a word spells, where it is one below the bound."""
    if len(word) > len(str(NUMBERS)) or not _NUMBER.fullmatch(word):
        return None
    value = int(word)
    return value if value < below else None


def register(word: str) -> Optional[int]:
    """The register that a word spells."""
    return number(word[1:], REGISTERS) if word.startswith("r") else None


def is_name(word: str) -> bool:
    """Whether a declaration may give this name."""
    return word not in RESERVED and bool(_NAME.fullmatch(word))


def size_of(fields: int) -> int:
    """The bytes of an object with so many fields."""
    return 16 + 8 * fields


def operand(kind: str, word: str) -> Optional[int]:
    """The value of an operand that names nothing declared; None where the word is out of form or range."""
    return register(word) if kind == "register" else number(word, _RANGES[kind])
