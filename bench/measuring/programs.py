"""The programs that are measured, and how those of this folder are built."""
import pathlib
import re
import subprocess
import sys

TOP = pathlib.Path(__file__).resolve().parent.parent.parent
BENCH = TOP / "bench"
OUT = BENCH / "out"
PROGRAM = TOP / "crates/kaffe/out/kaffe"
TABLES = TOP / "crates/k_measure/out/k_measure"
# The level, the processor and the number of modules by which Rattle's programs are compiled.
AS_RATTLE = ["-C", "opt-level=3", "-C", "codegen-units=1", "-C", "target-cpu=x86-64-v2"]
LIBRARY = ["-O", "-C", "panic=abort", "--crate-type", "cdylib", "--crate-name", "watch"]
BUILT = {
    "peer": ("peer/main.rs", "2021", ["-O"]),
    "launch": ("measuring/launch.rs", "2021", ["-O"]),
    "libwatch.so": ("measuring/watch.rs", "2021", LIBRARY),
    "reader": ("reader/main.rs", "2024", AS_RATTLE),
}


def build():
    """Compiles what is measured beside the program, and what measures it."""
    OUT.mkdir(exist_ok=True)
    for name, (source, edition, flags) in BUILT.items():
        subprocess.run(["rustc", "--edition", edition, *flags, "-o", OUT / name, BENCH / source], check=True)


def sources():
    """The version of the compiler and the sources' commit, for the heading."""
    version = subprocess.run(["rustc", "--version"], capture_output=True, text=True, check=True).stdout.split("(")[0].strip()
    words = ["git", "-C", str(TOP), "describe", "--always", "--dirty"]
    commit = subprocess.run(words, capture_output=True, text=True, check=False).stdout.strip() or "of no repository"
    return f"{version}; sources {commit}"


class Programs:
    """Where the measured programs lie."""

    def __init__(self, kaffe):
        self.kaffe = pathlib.Path(kaffe).resolve()
        self.peer, self.reader, self.launcher, self.watch = OUT / "peer", OUT / "reader", OUT / "launch", OUT / "libwatch.so"
        if not self.kaffe.is_file():
            sys.exit(f"bench/measure: {self.kaffe} is not there; ./kaffe builds it, and --program names another one")

    def watched(self, frees=False):
        """The environment in which the program's threads are watched."""
        return {"LD_PRELOAD": str(self.watch), **({"WATCH_FREE": "1"} if frees else {})}


def last_watched(run):
    """The milliseconds of a watched run's threads, the longest gap between two frees, and how many there were."""
    lines = re.findall(r"^watch (\d+) (\d+) (\d+)$", run.errors, re.MULTILINE)
    if not lines:
        sys.exit("bench/measure: the program's threads cannot be watched: it does not take pthread_create from the C library")
    ran, gap, freed = map(int, lines[-1])
    return ran / 1e6, gap / 1e6, freed


def peer_run(run):
    """The milliseconds that the peer says its workers took."""
    return float(re.search(r"^run ([\d.]+)$", run.errors, re.MULTILINE).group(1))
