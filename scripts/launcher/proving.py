"""How the kit's gate proves a program and the crates below it, several at once, in a copy of the checkout with nothing else.

What the gate has proved is kept beside the kit, so that a later build, or the gate of the whole checkout, need not prove it again. How the
processors are shared between the proofs is said in `lanes.py`.
"""
import collections
import contextlib
import os
import re
import shutil
import subprocess
import sys
import tempfile
import time

from launcher import progress, sources
from launcher.processes import CHECKER, CHILDREN_SYSTEM, CHILDREN_USER, PARENT, processes, seconds

# What `rt ci` reads of a crate for its proof and, of a program, for the run by which it tries it. Edits are left out: it would try them.
PARTS = (*sources.PROVED_PARTS, "args", "stdin", "stdout", "status", "data")
MEMORY_EACH_KB = 2_600_000
# With so much free memory for each processor proofs share the processors, as `lanes.py` has it, and keep their files in memory.
AMPLE_MEMORY_EACH_KB = 5_000_000
LINES_SHOWN = 60
# The checker's allocator keeps what it has freed. It would give it back to the system after a second, and take it again soon.
KEEPS_FREED = {"MIMALLOC_PURGE_DELAY": "-1"}
# A folder in memory, for the thousands of small files that a check makes and removes, and the memory that it must have.
IN_MEMORY, FILES_EACH_KB = "/dev/shm", 1_000_000
TOLD = re.compile(r"rt: (\w+) (?:(proved)|(is kept)\b.*|NOT PROVED\b.*)\n")


def free_memory():
    """The kilobytes of memory that programs can have."""
    with open("/proc/meminfo", encoding="ascii") as file:
        return next(int(line.split()[1]) for line in file if line.startswith("MemAvailable:"))


def wanted():
    """The number that RT_JOBS has, or none."""
    jobs = os.environ.get("RT_JOBS", "")
    return int(jobs) if jobs.isdigit() and int(jobs) else None


def at_once():
    """How many crates are proved at once: RT_JOBS, or one for each processor, as far as memory goes."""
    return wanted() or max(1, min(len(os.sched_getaffinity(0)), free_memory() // MEMORY_EACH_KB))


def shares():
    """Whether proofs share the processors: there is ample memory, and nobody has said how many run at once."""
    return not wanted() and free_memory() >= AMPLE_MEMORY_EACH_KB * len(os.sched_getaffinity(0))


def call_of(top, many, is_shared):
    """The words that begin the gate with so many proofs at once, and what its environment has besides. Where proofs do not share the processors
    each has one."""
    if is_shared:
        return [sys.executable, f"{top}/scripts/launcher/lanes.py", f"{top}/docs/gate-times"], {}
    return ["rt", "ci"], {"RT_JOBS": str(many)}


def has_room_in_memory(many):
    """Whether the files of so many checks can be in memory."""
    try:
        there = os.statvfs(IN_MEMORY)
    except OSError:
        return False
    return os.access(IN_MEMORY, os.W_OK) and there.f_bavail * there.f_frsize >= FILES_EACH_KB * 1024 * many


def copied(top, program, to):
    """A copy of the program's crates, which rt takes for a repository of its own."""
    need, lists = sources.crates_below(top, program)
    os.makedirs(f"{to}/.git")
    for name in need:
        os.makedirs(f"{to}/crates/{name}")
        for part in os.listdir(f"{top}/crates/{name}"):
            here, there = f"{top}/crates/{name}/{part}", f"{to}/crates/{name}/{part}"
            if part in PARTS:
                (shutil.copytree if os.path.isdir(here) else shutil.copy)(here, there)
    with open(f"{to}/crates.txt", "w", encoding="utf-8") as file:
        file.writelines(f"{name}: {' '.join(lists[name])}\n" for name in need)
    shutil.copy(f"{top}/HANDLES", to)
    return need, lists


def looked(call):
    """The seconds of processors that the checks have had which this call of the gate began and which have ended; and for each crate of which a
    check runs those that it has had."""
    ended, found = 0.0, {}
    for it, name, fields in processes():
        if int(it.name) == call.pid:
            ended = seconds(fields, CHILDREN_USER, CHILDREN_SYSTEM)
        elif name == CHECKER and int(fields[PARENT]) == call.pid:
            with contextlib.suppress(OSError):
                crate = os.path.basename(os.readlink(it / "cwd"))
                found[crate] = found.get(crate, 0.0) + seconds(fields)
    return ended, found


class Build:
    """A call of the gate that proves and builds a program. It follows what the gate says, and tells on standard error how far it is."""

    def __init__(self, at, of_build):
        self.at, self.progress = at, of_build
        self.began, self.used = time.monotonic(), 0.0
        # The last lines that the gate has said, and the crate that is not proved, if one is not.
        self.last, self.failed = collections.deque(maxlen=LINES_SHOWN), None

    def take(self, line, call):
        """Takes one line that the gate has said."""
        self.last.append(line)
        found = TOLD.fullmatch(line)
        if not found or found[1] not in self.progress.need:
            return
        crate = found[1]
        if found[2]:
            used, running = looked(call)
            said = self.progress.after(crate, time.monotonic() - self.began, used - self.used, running)
            self.used = used
            print(f"kaffe: {said}", file=sys.stderr, flush=True)
        elif found[3]:
            self.progress.keep(crate)
        elif not self.failed:
            # (the crates that do not stand on it are of no use by themselves)
            self.failed = crate
            call.terminate()

    def whole(self, words, env, files):
        """Proves and builds the program by this call, whose checks have their files in this folder, and gives whether that went well."""
        how = {"cwd": self.at, "stdin": subprocess.DEVNULL, "stderr": subprocess.STDOUT, "text": True, "errors": "replace"}
        how["env"] = {**KEEPS_FREED, **os.environ, **env, "TMPDIR": files}
        with subprocess.Popen(words, stdout=subprocess.PIPE, **how) as call:
            try:
                for line in call.stdout:
                    self.take(line, call)
            except BaseException:
                call.terminate()
                raise
        return not call.returncode


def prove(top, program, at):
    """Has the kit's gate prove and build the program of this crate in a copy of its crates, which it makes at this place. Gives the path of
    what was built, or None where a crate is not proved or the program does not run; what the gate said of it is printed."""
    need, lists = copied(top, program, at)
    many, is_shared = at_once(), shares()
    words, env = call_of(top, many, is_shared)
    gain = progress.GAIN_OF_JOBS if is_shared else 1.0
    build = Build(at, progress.Progress(need, lists, progress.times_of(f"{top}/docs/gate-times"), many, gain))
    whole = progress.shown(build.progress.whole)
    print(f"kaffe: {len(need)} crates, {many} at once; about {whole} by docs/gate-times where none is kept", file=sys.stderr, flush=True)
    made = f"{at}/crates/{program}/out/{program}"
    place = IN_MEMORY if is_shared and has_room_in_memory(many) else os.path.dirname(at)
    with tempfile.TemporaryDirectory(prefix="kaffe-", dir=place, ignore_cleanup_errors=True) as files:
        if build.whole(words, env, files) and os.access(made, os.X_OK):
            return made
    print("".join(build.last), end="", file=sys.stderr)
    if build.failed:
        print(f"kaffe: {build.failed} is not proved; rt's last lines are above", file=sys.stderr)
    return None
