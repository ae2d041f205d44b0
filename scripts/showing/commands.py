"""The words of scripts/show."""
from __future__ import annotations

import argparse
import sys
from typing import List, Optional

from . import charges, dot, page, use, why
from .reading import read_run
from .words import BadInput

ABOUT = """Pictures of a run: reads a trace's report, or a trace and its report, and changes nothing.

  show graph FILES            the objects and references, in Graphviz's language; --svg: drawn by Graphviz
  show use FILES              the bytes at each limit and heap after each event; --csv: as comma-separated values
  show page FILES             one HTML page with curves, limits, the graph and a slider over the events
  show why NAME FILES         why the object of that name, such as p1.3, is kept
  show charges PROCESS FILES  what makes up a process's charge

FILES are a trace (kaffe 1), its report (report 1), both, one file with both, or a snapshot (snapshot 1); without one, and for -,
standard input is read. Of a report without its trace the end is known. Of a trace without a report the events are those in the
order of its file. A report that is not that of its trace is refused at its first wrong line, with status 1."""
NAMED = {"why": "the NAME of an object", "charges": "the name of a PROCESS"}
LONGEST = 600  # characters of a message
OPTIONS = {"after": ("graph", "why", "charges"), "svg": ("graph",), "csv": ("use",)}


def _parser() -> argparse.ArgumentParser:
    parser = argparse.ArgumentParser(
        prog="show", usage="show COMMAND [--help]", description=ABOUT, formatter_class=argparse.RawDescriptionHelpFormatter
    )
    parser.add_argument("command", choices=("graph", "use", "page", "why", "charges"), help=argparse.SUPPRESS)
    parser.add_argument("words", nargs="*", help=argparse.SUPPRESS)
    parser.add_argument("--after", type=int, metavar="N", help="of graph, why and charges: after N events, and not at the end")
    parser.add_argument("--svg", action="store_true", help=argparse.SUPPRESS)
    parser.add_argument("--csv", action="store_true", help=argparse.SUPPRESS)
    return parser


def _words(words: Optional[List[str]]) -> argparse.Namespace:
    """The words of the command line; ends the program with status 2 where they are no command."""
    parser = _parser()
    given = parser.parse_intermixed_args(words)
    for option, commands in OPTIONS.items():
        if getattr(given, option) not in (None, False) and given.command not in commands:
            parser.error(f"--{option} is no option of {given.command}")
    given.name = ""
    if given.command in NAMED:
        if not given.words:
            parser.error(f"{given.command} takes {NAMED[given.command]} before the files")
        given.name = given.words.pop(0)
    return given


def _answer(given: argparse.Namespace) -> str:
    run = read_run(given.words)
    if given.command == "use":
        return use.as_csv(run) if given.csv else use.as_text(run)
    if given.command == "page":
        return page.page(run)
    if given.command == "why":
        return why.why(run, given.after, given.name)
    state = run.after(given.after)
    if given.command == "charges":
        return charges.charges(run, state, given.name)
    when = "at the end" if given.after is None else f"after {given.after} events"
    text = dot.graph(state, f"{run.title}, {when}")
    return dot.svg(text) if given.svg else text


def _one_line(text: str) -> str:
    """A message without bytes that are not printable, and not longer than can be read."""
    printable = "".join(each if each.isprintable() else "?" for each in text)
    return printable if len(printable) <= LONGEST else f"{printable[: LONGEST // 2]} ... {printable[-LONGEST // 2 :]}"


def main(words: Optional[List[str]] = None) -> int:
    """Does a command: 0, or 1 where the input cannot be used, or 2 where the words are no command."""
    given = _words(words)
    try:
        answer = _answer(given)
    except BadInput as bad:
        sys.stderr.write(f"show: {_one_line(str(bad))}\n")
        return 1
    sys.stdout.write(answer)
    return 0
