"""The graph of a state in Graphviz's language, and as SVG where Graphviz is installed."""
from __future__ import annotations

import shutil
import subprocess
from typing import Iterator, List, Set

from . import report, rules
from .replies import spell
from .state import State
from .words import BadInput, Name

HEAD = """digraph run {
  graph [label="%s", labelloc=t, rankdir=LR, fontname="Helvetica", fontsize=14, nodesep=0.25, ranksep=0.7];
  node [shape=box, style="rounded,filled", fillcolor=white, color="#30507a", fontname="Helvetica", fontsize=10];
  edge [color="#30507a", fontname="Helvetica", fontsize=8, arrowsize=0.7];"""
GARBAGE = 'color="#b0b0b0", fontcolor="#909090", fillcolor="#eeeeee"'
FILLS = {"kernel": "#f4efe2", "process": "#e8f1fb", "shared": "#e9f6ec"}


def _quote(text: str) -> str:
    return '"' + text.replace("\\", "\\\\").replace('"', '\\"') + '"'


def _heap_title(state: State, heap: int) -> str:
    """A heap's name, and what is to be known of it."""
    name, size = state.setup.segments[heap], rules.heap_bytes(state, heap)
    shared = state.setup.shared_of(heap)
    if heap == rules.KERNEL:
        return f"kernel heap, {size} bytes of {state.setup.ceiling}"
    if shared is None:
        return f"heap of {name}, {size} bytes"
    return f"shared heap {name}, {size} bytes, {report.phase_text(state, state.phases[shared])}"


def _kind(state: State, heap: int) -> str:
    if heap == rules.KERNEL:
        return "kernel"
    return "process" if state.setup.shared_of(heap) is None else "shared"


def _objects(state: State, heap: int, kept: Set[Name]) -> Iterator[str]:
    """The cluster of a heap."""
    yield f"  subgraph cluster_{heap} {{"
    fill = _quote(FILLS[_kind(state, heap)])
    yield f'    label={_quote(_heap_title(state, heap))}; style="rounded,filled"; fillcolor={fill}; color="#c8c8c8"; fontsize=11;'
    for segment in rules.segments_of(state, heap):
        for serial, body in state.objects[segment].items():
            name = Name(segment, serial)
            numbers = [str(each) for each in body.fields if isinstance(each, int)]
            label = "\n".join([spell(state, name), " ".join([report.type_name(state, name), *numbers])])
            look = "" if name in kept else f", {GARBAGE}"
            yield f"    {_quote(spell(state, name))} [label={_quote(label)}{look}];".replace("\n", "\\n")
    yield "  }"


def _references(state: State, kept: Set[Name]) -> Iterator[str]:
    for name, body in state.all_objects():
        for at, value in enumerate(body.fields):
            if isinstance(value, Name):
                look = "" if name in kept else ', color="#c0c0c0"'
                yield f"  {_quote(spell(state, name))} -> {_quote(spell(state, value))} [label={at}{look}];"


def _exits(state: State) -> Iterator[str]:
    """Exit items, each from a point that stands for the heap that has them."""
    for heap, targets in enumerate(state.exits):
        if targets:
            source = _quote(f"exits of {state.setup.segments[heap]}")
            yield f"  subgraph cluster_{heap} {{ {source} [shape=note, style=dashed, color=\"#a05a00\", fontcolor=\"#a05a00\"]; }}"
            for target in sorted(targets):
                yield f"  {source} -> {_quote(spell(state, target))} [style=dashed, color=\"#a05a00\", constraint=false];"


def _roots(state: State) -> Iterator[str]:
    """The registers of each process, and the directory, as what keeps objects."""
    look = 'shape=plaintext, style="", fontcolor="#7a1f5c"'
    for process, registers in enumerate(state.registers):
        for at, name in enumerate(registers):
            if name is not None:
                source = _quote(f"{state.setup.processes[process].name} r{at}")
                yield f"  {source} [{look}]; {source} -> {_quote(spell(state, name))} [color=\"#7a1f5c\"];"
    if 1 in state.objects[0]:
        yield f"  \"directory\" [{look}]; \"directory\" -> \"kernel.1\" [color=\"#7a1f5c\"];"


def graph(state: State, title: str) -> str:
    """The objects by heap with references, exit items dashed, registers and directory as roots, and garbage gray."""
    kept = rules.live(state)
    lines: List[str] = [HEAD % title.replace("\\", "\\\\").replace('"', '\\"')]
    for heap in range(len(state.made)):
        if any(state.objects[segment] for segment in rules.segments_of(state, heap)) or state.exits[heap]:
            lines += _objects(state, heap, kept)
    lines += [*_references(state, kept), *_exits(state), *_roots(state), "}"]
    return "\n".join(lines) + "\n"


def svg(text: str) -> str:
    """A graph as Graphviz draws it."""
    program = shutil.which("dot")
    if program is None:
        raise BadInput("Graphviz is not installed (there is no command 'dot'), so there is no SVG; without --svg the graph itself is written")
    done = subprocess.run([program, "-Tsvg"], input=text, stdout=subprocess.PIPE, stderr=subprocess.PIPE, encoding="utf-8", check=False)
    if done.returncode:
        raise BadInput(f"Graphviz could not draw the graph: {done.stderr.strip().splitlines()[:1]}")
    return done.stdout
