"""Opens a page in Debian's chromium, without a window, moves its slider, and compares what is seen with the model."""
from __future__ import annotations

import html
import json
import os
import pathlib
import re
import shutil
import subprocess
import tempfile
from typing import Any, Dict, Iterator, List, Optional

from . import page, rules
from .reading import Run
from .replies import spell

NAMES = ("chromium", "chromium-browser", "google-chrome")
SECONDS = 300  # a machine that proves beside the test is slow
WATCH = '<script>addEventListener("error", (error) => { document.body.dataset.error = error.message; });</script>'
LOOK = """<script>
const seen = EVENTS_WANTED.map((event) => {
  slider.value = event;
  slider.dispatchEvent(new Event("input"));
  const textOf = (row, part) => row.querySelector(part).textContent;
  const numbers = [...document.querySelectorAll(".row")].map((row) => [textOf(row, "b"), textOf(row, ".number")]);
  const standing = (how) => [...document.querySelectorAll(`#graph .node.${how}`)].map((node) => nameOf(Number(node.dataset.key)));
  const samples = [document.querySelectorAll(".dot").length, document.querySelectorAll("#samples tbody tr").length];
  return { samples, count: document.getElementById("count").textContent, line: document.getElementById("line").textContent, numbers,
           live: standing("live"), other: [...standing("kept"), ...standing("garbage")] };
});
document.body.dataset.seen = JSON.stringify(seen);
</script>"""


def program() -> Optional[str]:
    """The browser, where one is installed."""
    return next((path for path in map(shutil.which, NAMES) if path), None)


def _opened(browser: str, text: str) -> str:
    """The page as the browser has it when its scripts have run."""
    with tempfile.TemporaryDirectory() as folder:
        path = pathlib.Path(folder) / "page.html"
        path.write_text(text, encoding="utf-8")
        words = [browser, "--headless", "--disable-gpu", f"--user-data-dir={folder}/profile", "--virtual-time-budget=5000"]
        words += ["--no-sandbox"] if os.geteuid() == 0 else []
        done = subprocess.run([*words, "--dump-dom", path.as_uri()], stdout=subprocess.PIPE, stderr=subprocess.DEVNULL, timeout=SECONDS, check=False)
        return done.stdout.decode("utf-8", "replace")


def look(browser: str, run: Run, events: List[int]) -> List[Dict[str, Any]]:
    """What the page shows after each of these numbers of events, to which its slider is moved; raises where a script fails."""
    text = page.page(run).replace("<body>", f"<body>{WATCH}", 1)
    dom = _opened(browser, text.replace("</body>", LOOK.replace("EVENTS_WANTED", json.dumps(events)) + "</body>"))
    error, seen = (re.search(f'<body[^>]*data-{name}="([^"]*)"', dom) for name in ("error", "seen"))
    if error or not seen:
        raise RuntimeError(html.unescape(error.group(1)) if error else "the browser shows no page")
    return json.loads(html.unescape(seen.group(1)))


def wanted(run: Run, event: int) -> Dict[str, Any]:
    """What the page ought to show after so many events."""
    state = run.after(event)
    setup = run.setup
    uses = {limit.name: f"{use:,} of {most:,}" for limit, use, most in zip(setup.limits, rules.uses(state), state.maxima)}
    live = rules.live(state)
    return {
        "count": f"{event:,} of {len(run.events):,}",
        "line": run.lines[event - 1] if event else "the opening state",
        "uses": uses,
        "live": [spell(state, name) for name, _ in state.all_objects() if name in live],
        "other": sorted(spell(state, name) for name, _ in state.all_objects() if name not in live),
    }


def compared(browser: str, run: Run, events: List[int]) -> Iterator[str]:
    """Where the page shows something else than the model has."""
    for event, seen in zip(events, look(browser, run, events)):
        want = wanted(run, event)
        numbers = dict(reversed(seen["numbers"]))
        shown = {**seen, "uses": {name: numbers.get(name) for name in want["uses"]}, "live": sorted(seen["live"]), "other": sorted(seen["other"])}
        want["live"].sort()
        for part, value in want.items():
            if shown[part] != value:
                yield f"the page after {event} events: {part} is {shown[part]} and should be {value}"
