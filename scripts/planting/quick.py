"""Tries planted bodies by checks of the functions that they change, over libraries that are built.

The judgement is that of `rt must-fail`, by the kit's own code: the prover must read the edited text and refuse a statement. In a check of
single functions that is one of the changed function itself: the complaint stands in it or in its proof, and its line says that it is not
proved. Contracts are what callers go by, so bodies in several functions are planted at once, each judged by its own complaint; what that
does not settle is planted alone.
"""
import os
import pathlib
import re
import resource
import shutil
import threading
import time
from collections import Counter
from concurrent.futures import ThreadPoolExecutor
from typing import List, NamedTuple

from . import kit, places

REFUSED, STANDS, BAD, UNTRIED = "refused", "NOT REFUSED", "BAD EDIT", "NOT TRIED"
BY_CRATE, BY_COMPILER = "a check of the crate", "the compiler: it does not compile"
BY_ROUND = "one check with other bodies, each at its own function"
LITTLE = "a proof file alone, which names what the edit took away, so that this says little of the contract"
SHOWN = 300  # signs of a complaint
# A complaint of the prover or the compiler; of these one that says only that a proof file names what is gone.
COMPLAINT = re.compile(r"(?:note: )?\S+:\d+:\d+:")
NAMES_WHAT_IS_GONE = re.compile(r"(\./)?proofs/.*(has no field|is not in scope|has no `|was not admitted)")
NOT_PROVED = re.compile(r"^(?:fn|impl|struct|enum) (\S+): (?:not proved|no proof)", re.MULTILINE)
COMPILE_ERROR = re.compile(r"^\S+:\d+:\d+: error\[[\w-]+\]:.*", re.MULTILINE)
UNKNOWN = re.compile(r"`\w+` has no function `([\w:]+)`")
WRONG_CALL = 2  # the status of a prover that was asked for what there is not
TOLD = re.compile(r"must-fail \S+\.edit: (refused|NOT REFUSED|BAD EDIT)[^:]*(?:: (.*))?", re.DOTALL)


class Told(NamedTuple):
    """What came of a body: one of the four words above, by what kind of check, and the first complaint or the reason."""

    kind: str
    by: str
    said: str

    def line(self, name):
        by = f", by {self.by}" if self.kind == REFUSED and self.by else ""
        return f"{name}: {self.kind}{by}{': ' + self.said if self.said else ''}"


class Body(NamedTuple):
    """A planted body: its name, its text, and the places that it changes."""

    name: str
    edit: pathlib.Path
    text: str
    places: List[places.Place]

    def is_in_functions(self):
        return bool(self.places) and all(it.name for it in self.places)

    def functions(self):
        return {(it.file, it.lines) for it in self.places}

    def paths(self):
        """The likeliest names of the functions, for the prover."""
        return [it.paths()[0] for it in self.places]

    def has(self, line):
        return any(it.has(line) for it in self.places)

    def is_open(self, said):
        """Whether a check says that one of the functions is not proved."""
        return any(place.name in re.split(r"::|\+\+", it) for it in NOT_PROVED.findall(said) for place in self.places)


def body_of(edit, folder):
    text = edit.read_text(encoding="utf-8")
    return Body(edit.stem, edit, text, list(places.changed(text, folder)))


def rounds(bodies):
    """These bodies in groups that can be planted at once: no two of a group change one function."""
    found = []
    for body in bodies:
        fitting = next((it for it in found if all(body.functions().isdisjoint(other.functions()) for other in it)), None)
        if fitting is None:
            found.append([body])
        else:
            fitting.append(body)
    return found


def planted_at_once(bodies, folder):
    """The texts of the changed files with as many of these bodies in them as leave each other's places alone, and these bodies."""
    texts, planted = {}, []
    for body in bodies:
        after = dict(texts)
        for file, old, new in places.changes(body.text):
            text = after[file] if file in after else (pathlib.Path(folder) / file).read_text(encoding="utf-8")
            if text.count(old) != 1:
                break
            after[file] = text.replace(old, new)
        else:
            texts = after
            planted.append(body)
    return texts, planted


def complaint(lines):
    """The first complaint of these lines that speaks of a statement, else the first; and whether it does."""
    told = [it for it in lines if COMPLAINT.match(it)]
    told = [it for it in told if ": error" in it or it.startswith("note: ")] or told
    first = next((it for it in told if not NAMES_WHAT_IS_GONE.match(it)), None)
    return (first or (told or ["(it names no place)"])[0])[:SHOWN], first is not None


def judged(rt, ran, texts, body, by):
    """What a check of the changed functions says of the body: None where it does not know them, or says of none that it is refused."""
    lines = ran.stdout.rstrip("\n").split("\n")
    bad = next((it for it in lines if rt.unread(it, texts)), "")
    if bad:
        return Told(BAD, "", f"the prover cannot read the edited text: {bad[:SHOWN]}")
    if rt.rtlib.STALE.search(ran.stdout):
        return Told(UNTRIED, "", "the kept work of a library could not be used")
    if not lines[-1].startswith("only="):
        if ran.returncode == WRONG_CALL:
            return None
        error = COMPILE_ERROR.search(ran.stdout)
        first = error[0] if error else " ".join(ran.stdout.split())
        return Told(BAD, BY_COMPILER if error else "", f"it did not reach the prover: {first[:SHOWN]}")
    own = [it for it in lines if body.has(it)]
    said, speaks = complaint(own if own or by == BY_ROUND else lines)
    if ran.returncode != 1 or not body.is_open(ran.stdout) or (by == BY_ROUND and not speaks):
        return None
    return Told(REFUSED, by if speaks else LITTLE, said)


class Planter:
    """Tries the bodies of one crate after the other in a scratch copy, several crates side by side."""

    def __init__(self, rt, top, scratch, libraries, uncompiled):
        self.rt, self.top, self.scratch, self.libraries, self.uncompiled = rt, top, scratch, libraries, uncompiled
        self.crates, self.missing = {}, {}
        self.counts, self.printing = Counter(), threading.Lock()

    def copy(self, names, lists):
        """Copies the sources of all crates, and the built libraries of those below these and of themselves."""
        shutil.copytree(f"{self.top}/crates", f"{self.scratch}/crates", ignore=shutil.ignore_patterns("out", "must-fail", "planted"))
        for name in ("crates.txt", "HANDLES"):
            shutil.copy2(f"{self.top}/{name}", self.scratch)
        wanted = set()
        for name in names:
            wanted |= {name, *lists[name]}
        for name in sorted(wanted):
            built = f"{self.libraries}/crates/{name}/out/rlib"
            if os.path.isfile(f"{built}/stamp"):
                shutil.copytree(built, f"{self.scratch}/crates/{name}/out/rlib", symlinks=True)
        self.crates = kit.crates_of(self.rt, self.scratch, names)
        for name, crate in self.crates.items():
            self.missing[name] = [it.name for it in crate.below() if not it.is_built()]

    def say(self, line):
        with self.printing:
            print(line, flush=True)

    def kept_of(self, crate):
        """A folder of this run for what checks of the crate keep: it begins as a copy of what its build kept, where that is there."""
        kept, built = f"{self.scratch}/kept/{crate.name}", f"{self.libraries}/crates/{crate.name}/out/incremental"
        if os.path.isdir(built) and crate.makes_rlib() and crate.is_built():
            shutil.copytree(built, kept, symlinks=True)
        else:
            os.makedirs(kept)
        return kept

    def check(self, crate, texts, paths, kept):
        flags = ["--jobs", "1", *[word for path in paths for word in ("--only", path)]]
        return self.rt.checked(crate, texts, flags, kept)

    def in_rounds(self, crate, bodies, kept):
        """Of these bodies, each of which changes functions alone, those that are refused while others are planted, by name."""
        found = {}
        for group in rounds(bodies):
            while len(group) > 1:
                texts, group = planted_at_once(group, crate.folder)
                ran = self.check(crate, texts, [path for body in group for path in body.paths()], kept)
                if ran.stdout.rstrip("\n").split("\n")[-1].startswith("only="):
                    told = {body.name: judged(self.rt, ran, texts, body, BY_ROUND) for body in group}
                    found.update({name: it for name, it in told.items() if it and it.kind == REFUSED})
                    break
                lost = UNKNOWN.findall(ran.stdout)
                wrong = [it for it in ran.stdout.split("\n") if COMPILE_ERROR.match(it) or self.rt.unread(it, texts)]
                left = [body for body in group if not set(lost) & set(body.paths()) and not any(body.has(it) for it in wrong)]
                group = left if len(left) < len(group) else []
        return found

    def by_functions(self, crate, body, kept):
        """What checks of the changed functions say of the body, or None where they say nothing."""
        texts, why = self.rt.edited(body.text, crate.folder)
        if why:
            return Told(BAD, "", why)
        for by, paths in places.asked(body.places):
            ran = self.check(crate, texts, paths, kept)
            told = judged(self.rt, ran, texts, body, by)
            if told or ran.returncode == 0:
                return told
        return None

    def by_crate(self, crate, edit, kept):
        """What a check of the whole crate says of the body; as `rt must-fail` does, one that passes over kept work is tried from nothing."""
        for over in (kept, None):
            is_refused, text = self.rt.must_fail(crate, edit, ["--jobs", "1"], over)
            if is_refused:
                break
        match = TOLD.search(text)
        said = " ".join((match[2] or "").split())[:SHOWN] if match else text[:SHOWN]
        if is_refused:
            return Told(REFUSED, LITTLE if "this says little" in text else BY_CRATE, said)
        return Told(STANDS if match and match[1] == STANDS else BAD, "", said)

    def is_proved(self, crate, kept):
        """Whether the crate is proved as it is: its library says so, or a check of it does."""
        if crate.makes_rlib() and crate.is_built():
            return True
        return self.rt.checked(crate, {}, ["--jobs", "1"], kept).returncode == 0

    def try_body(self, crate, body, kept):
        told = self.by_functions(crate, body, kept) or self.by_crate(crate, body.edit, kept)
        if told.by == BY_COMPILER and told.kind == BAD and (crate.name, body.name) in self.uncompiled:
            return Told(REFUSED, BY_COMPILER, told.said)
        return told if told.kind == REFUSED else told._replace(by="")

    def tell(self, crate, body, told):
        self.counts[told.kind, told.by] += 1
        self.say(told.line(f"{crate.name}/{body.name}"))

    def try_crate(self, name, edits):
        """Tries these bodies of the crate, and tells of each."""
        crate, began = self.crates[name], time.monotonic()
        why = f"the library of {self.missing[name][0]} is not built of these files: see scripts/side-by-side" if self.missing[name] else ""
        kept = "" if why else self.kept_of(crate)
        if not why and not self.is_proved(crate, kept):
            why = "the crate is not proved as it is"
        bodies = [body_of(edit, crate.folder) for edit in edits]
        together = [it for it in bodies if it.is_in_functions() and (name, it.name) not in self.uncompiled]
        settled = {} if why else self.in_rounds(crate, together, kept)
        for body in bodies:
            self.tell(crate, body, Told(UNTRIED, "", why) if why else settled.get(body.name) or self.try_body(crate, body, kept))
        if kept:
            shutil.rmtree(kept, ignore_errors=True)
        self.say(f"# {name}: {len(edits)} bodies, {time.monotonic() - began:.0f} s")

    def try_all(self, work, jobs):
        """Tries the bodies of these crates, and gives how many were not refused."""
        with ThreadPoolExecutor(jobs) as pool:
            for done in [pool.submit(self.try_crate, name, edits) for name, edits in work]:
                done.result()
        for (kind, by), count in sorted(self.counts.items()):
            self.say(f"# {count} {kind}{', by ' + by if by else ''}")
        used = resource.getrusage(resource.RUSAGE_CHILDREN)
        self.say(f"# {used.ru_utime + used.ru_stime:.0f} s of processors")
        return sum(count for (kind, _), count in self.counts.items() if kind != REFUSED)
