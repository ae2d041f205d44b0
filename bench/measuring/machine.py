"""The machine on which is measured: what it is, and how much of it others took meanwhile."""
import os
import pathlib
import platform
import re
import resource
import time

# Above these shares of all processors a figure says little.
MOST_BY_OTHERS = 0.02
MOST_STOLEN = 0.01
MOST_LOAD = 0.5


def first_match(path, pattern, otherwise):
    """What the pattern's group matches first in a file of the system."""
    try:
        found = re.search(pattern, pathlib.Path(path).read_text(encoding="utf-8", errors="replace"), re.MULTILINE)
    except OSError:
        return otherwise
    return found.group(1).strip() if found else otherwise


def description():
    """Sentences: the date, the machine, and its load."""
    processor = first_match("/proc/cpuinfo", r"^model name\s*:\s*(.*)$", platform.machine())
    memory = int(first_match("/proc/meminfo", r"^MemTotal:\s*(\d+)", "0")) / 2**20
    load = " ".join(f"{value:.2f}" for value in os.getloadavg())
    return (f"{time.strftime('%Y-%m-%d %H:%M %Z')}; {os.cpu_count()} processors, {processor}; {memory:.0f} GB; "
            f"{platform.system()} {platform.release()}; load {load}.")


def load_warning():
    """A warning where others load the machine, or nothing."""
    load = os.getloadavg()[0]
    if load <= MOST_LOAD:
        return ""
    return f"**Warning**: the load was {load:.2f} at the beginning, so that no figure of elapsed time below is worth anything."


class Ticks:
    """What all processors did since the machine started, in ticks of the clock."""

    def __init__(self):
        line = first_match("/proc/stat", r"^cpu\s+(.*)$", "0 0 0 0 0 0 0 0")
        user, nice, system, idle, wait, irq, softirq, stolen = map(int, line.split()[:8])
        self.busy = user + nice + system + irq + softirq
        self.stolen = stolen
        self.all = self.busy + stolen + idle + wait


def own_seconds():
    """The processor time of this process and of all its children that have ended."""
    usages = [resource.getrusage(who) for who in (resource.RUSAGE_SELF, resource.RUSAGE_CHILDREN)]
    return sum(usage.ru_utime + usage.ru_stime for usage in usages)


class Others:
    """Looks at how much of the machine others take while something is measured."""

    def __init__(self):
        self.ticks, self.own = Ticks(), own_seconds()

    def sentence(self):
        """What others took since this was made, with a warning where it was too much."""
        ticks = Ticks()
        passed = max(1, ticks.all - self.ticks.all)
        own = (own_seconds() - self.own) * os.sysconf("SC_CLK_TCK")
        others = max(0.0, (ticks.busy - self.ticks.busy - own) / passed)
        stolen = (ticks.stolen - self.ticks.stolen) / passed
        said = f"Meanwhile others took {others:.1%} of the processors, and {stolen:.1%} was stolen by the machine's host."
        if others > MOST_BY_OTHERS or stolen > MOST_STOLEN:
            said += " **Warning**: these figures are worth nothing."
        return said
