"""The machine's processes and what they have taken, as /proc tells."""
import contextlib
import os
import pathlib

# The kit's checker, by the name of its process.
CHECKER = "rattle"
TICKS = os.sysconf("SC_CLK_TCK")
# Fields of /proc/PID/stat, counted from the state on.
PARENT, USER, SYSTEM, CHILDREN_USER, CHILDREN_SYSTEM, START, PAGES = 1, 11, 12, 13, 14, 19, 21


def processes():
    """The folder below /proc, the name and the fields of each process, from its state on."""
    for process in pathlib.Path("/proc").glob("[0-9]*"):
        with contextlib.suppress(OSError):
            _, _, text = (process / "stat").read_text(errors="replace").partition("(")
            name, _, fields = text.rpartition(")")
            yield process, name, fields.split()


def seconds(fields, user=USER, system=SYSTEM):
    """The seconds of processors that a process has taken, or by other fields its children that have ended."""
    return (int(fields[user]) + int(fields[system])) / TICKS
