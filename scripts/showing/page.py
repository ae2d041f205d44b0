"""One HTML page of a run: the curves, the tree of limits, the graph and a slider over the events, with nothing fetched."""
from __future__ import annotations

import html
import json
import pathlib
from typing import Any, Dict, List, Optional, Tuple

from . import rules, use
from .history import Event
from .reading import Run
from .state import State


WEB = pathlib.Path(__file__).resolve().parent / "web"
SCRIPTS = ("state.js", "charts.js", "graph.js", "page.js")
EXACT = 1 << 53  # from here on a number of JavaScript is not exact, and is written as a word
Steps = List[Tuple[int, int]]


class _Series:
    """What limits, heaps and processes have over all events, as the events at which a value changes."""

    def __init__(self, run: Run) -> None:
        setup = run.setup
        self.run = run
        self.limits: List[Steps] = [[] for _ in setup.limits]
        self.maxima: List[Steps] = [[] for _ in setup.limits]
        self.heaps: List[Steps] = [[] for _ in setup.segments]
        self.charges: List[Steps] = [[] for _ in setup.processes]

    def take(self, event: int, state: State) -> None:
        values = use.values(self.run, state)
        for steps, value in zip([*self.limits, *self.heaps, *self.charges, *self.maxima], [*values, *state.maxima]):
            if not steps or steps[-1][1] != value:
                steps.append((event, value))

    def shown(self) -> Dict[str, List[Steps]]:
        return {"limits": self.limits, "maxima": self.maxima, "heaps": self.heaps, "charges": self.charges}


def _shown(value: Any) -> Any:
    """A field of a change as the page has it."""
    if isinstance(value, list):
        return [_shown(each) for each in value]
    return str(value) if isinstance(value, int) and not isinstance(value, bool) and value >= EXACT else value


def _all_at_once(state: State) -> List[list]:
    """The changes that lead from nothing to a state of which only the end is known."""
    changes: List[list] = [["o", *name, body.type, list(body.fields)] for name, body in state.all_objects()]
    changes += [["t", process] for process, ended in enumerate(state.ended) if ended]
    for process, registers in enumerate(state.registers):
        changes += [["r", process, at, name] for at, name in enumerate(registers) if name is not None]
    for heap, targets in enumerate(state.exits):
        changes += [["e", heap, *target] for target in targets]
    changes += [["s", *share] for share in state.shares]
    return changes + [["p", shared, *phase] for shared, phase in enumerate(state.phases)]


class _Story:
    """Everything that the page has of a run."""

    def __init__(self, run: Run) -> None:
        self.run = run
        self.series = _Series(run)
        self.changes: List[list] = []
        self.marks: List[Tuple[int, str]] = []
        self.refusals: Dict[str, List[int]] = {}
        if run.is_whole:
            ended = 0
            for at, (event, state) in enumerate(run.states()):
                self.take(at, event, state, state.ended.count(True) > ended)
                ended = state.ended.count(True)
        else:
            self.series.take(0, run.end)
            self.changes.append(_all_at_once(run.end))

    def take(self, at: int, event: Optional[Event], state: State, ends: bool) -> None:
        self.series.take(at, state)
        self.changes.append(_shown(list(state.changes)))
        mark = use.mark(event, ends)
        if event is not None and mark:
            self.marks.append((at, mark))
        words = event.reply.split(" ") if event is not None else []
        if words[:2] == ["fault", "LimitFull"]:
            self.refusals.setdefault(words[2], []).append(at)

    def shown(self) -> Dict[str, Any]:
        """What the scripts of the page read."""
        run, setup = self.run, self.run.setup
        freed = [event.freed for event in run.events if event.kind == "ended"]
        limits = [{"name": each.name, "parent": each.parent, "hard": each.hard, "maximum": each.maximum} for each in setup.limits]
        return {
            "whole": run.is_whole,
            "segments": setup.segments,
            "processes": [{"name": each.name, "limit": each.limit} for each in setup.processes],
            "limits": limits,
            "types": [{"name": each.name, "kinds": each.kinds} for each in setup.types],
            "ceiling": setup.ceiling,
            "lines": run.lines,
            "marks": self.marks,
            "refused": sum(run.end.faults),
            "refusals": self.refusals,
            "freed": [sum(each.objects for each in freed), sum(each.bytes for each in freed)],
            "endings": run.end.ended.count(True),
            "changes": self.changes,
            "series": self.series.shown(),
            "samples": run.samples,
        }


def _about(run: Run) -> str:
    if not run.is_whole:
        return "Of this run only the end is known, since the trace was not given; with the trace the page has a slider over all events."
    live, there = len(rules.live(run.end)), sum(map(len, run.end.objects))
    heaps = len(run.setup.segments)
    facts = f"Heaps: {heaps}. Limits: {len(run.setup.limits)}. Objects at the end: {there:,}, live: {live:,}."
    return f"{facts} Choose an event by the slider, on a curve or in the list."


def page(run: Run) -> str:
    """The page, whole."""
    data = json.dumps(_Story(run).shown(), separators=(",", ":")).replace("<", "\\u003c")
    text = (WEB / "page.html").read_text(encoding="utf-8")
    title = pathlib.PurePath(run.title).name or "A run"
    style, script = (WEB / "page.css").read_text(encoding="utf-8"), "\n".join((WEB / name).read_text(encoding="utf-8") for name in SCRIPTS)
    for mark, value in (("TITLE", html.escape(title)), ("ABOUT", html.escape(_about(run))), ("STYLE", style), ("SCRIPT", script)):
        text = text.replace(f"@{mark}@", value)
    return text.replace("@RUN@", data)


