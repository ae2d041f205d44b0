"""How ./kaffe builds a program: proved, by the kit's gate, or without any proof."""
import contextlib
import fcntl
import os
import re
import shutil
import subprocess
import sys
import tempfile
import threading
import time

from launcher import proving, sources
from launcher.commands import RUN_COMMANDS, fail
from launcher.sentences import NO_PROGRAM

NO_KIT = "rt, the command of the Rattle kit, is not on the PATH, so the program cannot be built"
# What each program is called in messages, and how long its proved build takes where nothing is proved yet, which --help says of the whole one.
CALLED = {sources.PROGRAM: "the whole program", sources.RUN_PROGRAM: "the program that runs traces"}
FIRST_BUILD = {sources.PROGRAM: "twenty to forty minutes", sources.RUN_PROGRAM: "fifteen to thirty minutes"}
# The workload of the run in which the unproved program is taken out of rt's own folder, and how often that folder is looked at.
SMALL_WORKLOAD, LOOK_SECONDS = "100", 0.01


def say(message):
    print(f"kaffe: {message}", file=sys.stderr, flush=True)


@contextlib.contextmanager
def alone(top):
    """Waits until no other launcher builds here, whichever program: each build reckons with all memory that is free."""
    out = f"{top}/crates/{sources.PROGRAM}/out"
    os.makedirs(out, exist_ok=True)
    with open(f"{out}/launcher.lock", "w", encoding="utf-8") as lock:
        try:
            fcntl.flock(lock, fcntl.LOCK_EX | fcntl.LOCK_NB)
        except BlockingIOError:
            say("another ./kaffe builds the program; waiting for it")
            fcntl.flock(lock, fcntl.LOCK_EX)
        except OSError:
            # Some file systems have no locks.
            pass
        yield


def built(program, build):
    """The path of the program, once it is that of the sources; builds it where it is not."""
    if not program.is_fresh():
        if not shutil.which("rt"):
            fail(NO_PROGRAM, NO_KIT)
        with alone(program.top):
            if not program.is_fresh():
                files = program.files()
                of_sources, of_kit = sources.content(program.top, files), sources.kit()
                os.makedirs(program.folder, exist_ok=True)
                build(program)
                if sources.seen(program.files()) == sources.seen(files):
                    program.keep(files, of_sources, of_kit)
                else:
                    say("a source changed during the build, so that the next call builds again")
    return program.path


def time_of_build(program):
    """What is said before a proved build of how long it takes."""
    of_runs = sources.proved(program.top, sources.RUN_PROGRAM)
    if program.crate == sources.PROGRAM and of_runs.is_fresh():
        return f"of which most was proved for {' and '.join(RUN_COMMANDS)}, and is not proved again where the kit has kept it"
    return f"which a first time takes {FIRST_BUILD[program.crate]}"


def build_proved(program):
    """Has rt prove the crates, several at once, and build the program; ends the launcher where that fails."""
    top = program.top
    doors = subprocess.run([f"{top}/scripts/one-door"], stdin=subprocess.DEVNULL, stdout=sys.stderr, check=False)
    if doors.returncode:
        fail(NO_PROGRAM, "the code at these places could answer want of memory with no refused allocation")
    say(f"proving and building {CALLED[program.crate]}, {time_of_build(program)} (--unproved takes a minute)")
    began = time.monotonic()
    with tempfile.TemporaryDirectory(prefix="proving-", dir=program.folder) as room:
        made = proving.prove(top, program.crate, f"{room}/copy")
        if not made:
            fail(NO_PROGRAM, "a crate that the program needs was not proved, or it does not run as it should, so the program is not built")
        os.replace(made, program.path)
    say(f"built in {round(time.monotonic() - began)} s")


def build_unproved(program):
    """Has rt compile the program without any proof, and keeps the executable that rt runs."""
    say("building the program without proofs, which takes about a minute")
    began = time.monotonic()
    with tempfile.TemporaryDirectory(prefix="unproved-", dir=program.folder) as room:
        ran, status = tried(program, ["big", SMALL_WORKLOAD], room)
        kept = f"{room}/program"
        if status != 0 or not ran.startswith(f"big {SMALL_WORKLOAD}\n") or not os.path.exists(kept):
            fail(NO_PROGRAM, "the unproved build failed, as rt says above" if status else "rt try ran the program, but its executable was not found")
        os.chmod(kept, 0o755)
        os.replace(kept, program.path)
    say(f"built in {round(time.monotonic() - began)} s, and kept until a source changes; nothing of it is proved")


def tried(program, words, room):
    """Runs `rt try` with these words, and links the executable that it runs to room/program. Gives what it wrote and its status."""
    command = ["rt", "try", "--", *words]
    how = {"cwd": f"{program.top}/crates/{program.crate}", "stdin": subprocess.DEVNULL, "env": {**os.environ, "TMPDIR": room}}
    with tempfile.TemporaryFile("w+", errors="replace") as said, tempfile.TemporaryFile("w+", errors="replace") as wrote:
        with subprocess.Popen(command, stdout=wrote, stderr=said, **how) as ran:
            over = threading.Event()
            watcher = threading.Thread(target=link_program, args=(room, over))
            watcher.start()
            try:
                ran.wait()
            finally:
                over.set()
                watcher.join()
        wrote.seek(0)
        said.seek(0)
        told = said.read()
        ended = re.findall(r"^run=ended status=(\d+) ", told, re.M)
        if not ended or ran.returncode:
            sys.stderr.write(told)
        return wrote.read(), int(ended[-1]) if ended else NO_PROGRAM


def link_program(room, over):
    """Gives the executable another name while rt try has it. A link and no copy, so that it is whole once rt has written it."""
    while not over.wait(LOOK_SECONDS):
        for at, _, names in os.walk(room):
            if at != room and "program" in names:
                with contextlib.suppress(OSError):
                    one = os.stat(f"{at}/program")
                    if not (os.path.exists(f"{room}/program") and os.path.samestat(os.stat(f"{room}/program"), one)):
                        os.link(f"{at}/program", f"{room}/next")
                        os.replace(f"{room}/next", f"{room}/program")
