"""How far a build is: the crates that are done, the time so far, and the time left by docs/gate-times."""
import heapq

# How much faster a crate is proved by several jobs than by one, where it is given them, and how long one takes that nobody has timed, in seconds.
GAIN_OF_JOBS, UNKNOWN_SECONDS = 2.0, 60.0
# How much of a build the times of the file stand for in its pace, and the factors beyond which no pace is believed.
PART_OF_TIMES, PACE_LEAST, PACE_MOST = 0.01, 0.3, 10.0


def times_of(path):
    """The seconds of one processor that each crate's proof takes, by the file: lines of a crate and its seconds."""
    found = {}
    with open(path, encoding="utf-8") as file:
        for line in file:
            words = line.partition("#")[0].split()
            if len(words) >= 2:
                found[words[0]] = float(words[1])
    return found


def put_times(path, measured):
    """Puts these seconds into the file, and leaves its other lines as they are."""
    with open(path, encoding="utf-8") as file:
        lines = file.read().splitlines()
    known = [line.split()[0] if line and not line.startswith("#") else "" for line in lines]
    lines = [f"{name} {measured[name]:.0f}" if name in measured else line for name, line in zip(known, lines)]
    lines += [f"{name} {seconds:.0f}" for name, seconds in measured.items() if name not in known]
    with open(path, "w", encoding="utf-8") as file:
        file.writelines(f"{line}\n" for line in lines)


def chains(need, below, seconds):
    """For each crate the seconds of the longest chain from it upward, itself among them."""
    above = {name: [other for other in need if name in below[other]] for name in need}
    found = {}
    for name in reversed(need):
        found[name] = seconds[name] + max((found[it] for it in above[name]), default=0.0)
    return found


def seconds_left(need, below, seconds, at_once, gain=1.0):
    """How long the crates that are needed take, lowest first in the list, at_once side by side and the longest chain first. A crate that
    is alone is proved so many times faster: it may be given the processors that nobody else wants."""
    need = [it for it in need]
    rank = chains(need, below, seconds)
    waits = {name: {it for it in below[name] if it in rank} for name in need}
    left, running, now = set(need), [], 0.0
    while left or running:
        ready = sorted((it for it in left if not waits[it]), key=lambda it: -rank[it])
        for name in ready[: at_once - len(running)]:
            left.discard(name)
            alone = not running and len(ready) == 1 and at_once > 1
            heapq.heappush(running, (now + seconds[name] / (gain if alone else 1.0), name))
        now, name = heapq.heappop(running)
        for it in waits.values():
            it.discard(name)
    return now


class Progress:
    """Says after each crate how far the build is."""

    def __init__(self, need, below, times, at_once, gain=1.0):
        self.need, self.below, self.at_once, self.gain = [*need], below, at_once, gain
        self.seconds = {it: times.get(it, UNKNOWN_SECONDS) for it in need}
        self.done, self.used = [], 0.0
        self.whole = seconds_left(need, below, self.seconds, at_once, gain)

    def pace(self):
        """How many times the seconds of the file this build takes of a processor, by the crates that are done: the more of them, the less the file counts."""
        planned = sum(self.seconds[it] for it in self.done)
        given = PART_OF_TIMES * sum(self.seconds.values())
        return min(max((self.used + given) / (planned + given), PACE_LEAST), PACE_MOST)

    def left(self, running):
        """The seconds that are left, where each of these crates has been proved for so many seconds by one processor."""
        pace = self.pace()
        seconds = {it: max(each - running.get(it, 0.0) / pace, 0.0) for it, each in self.seconds.items()}
        return pace * seconds_left([it for it in self.need if it not in self.done], self.below, seconds, self.at_once, self.gain)

    def keep(self, name):
        """Takes out a crate that was proved by an earlier build."""
        self.need.remove(name)

    def after(self, name, so_far, used, running):
        """The line that is told when this crate is proved, so many seconds after the build began: it took so many seconds of processors, and
        each of the crates that are being proved has been for so many."""
        self.done.append(name)
        self.used += used
        line = f"{len(self.done)} of {len(self.need)} crates proved, {shown(so_far)} so far"
        return f"{line}, about {shown(self.left(running))} left ({name})" if len(self.done) < len(self.need) else f"{line} ({name})"


def shown(seconds):
    """A length of time as a reader wants it."""
    seconds = round(seconds)
    if seconds < 120:
        return f"{seconds} s"
    minutes = round(seconds / 60)
    return f"{minutes} min" if minutes < 120 else f"{minutes // 60} h {minutes % 60} min"
