"""Starts a program many times, each time with a text as its input."""
from __future__ import annotations

import os
import signal
import subprocess
import tempfile
from types import FrameType
from typing import Dict, Optional, Sequence, Tuple

LONGEST = 60  # seconds until a run counts as one that hangs


class Wrong(Exception):
    """Something that is not as it has to be; its text is one sentence without its full stop."""


class Hang(Exception):
    """A run that has not ended in time."""


def _late(_number: int, _frame: Optional[FrameType]) -> None:
    raise Hang


class Program:
    """A program, with one file for all its inputs and one for all its outputs; `texts` are what is to be looked at where it goes wrong.

    It is for the main thread of a process alone, since the signal of the clock comes there.
    """

    def __init__(self, path: str, longest: int = LONGEST) -> None:
        self.path, self.longest = path, longest
        self.texts: Dict[str, str] = {}
        self.source, self.sink = tempfile.TemporaryFile(), tempfile.TemporaryFile()
        signal.signal(signal.SIGALRM, _late)

    def call(self, words: Sequence[str], given: str) -> Tuple[int, str]:
        """The exit status of a run and what it wrote to standard output; raises Wrong where it hangs."""
        for file in (self.source, self.sink):
            file.seek(0)
            file.truncate()
        self.source.write(given.encode("latin-1"))
        self.source.seek(0)
        # (without close_fds, so that nothing is done between fork and exec)
        child = subprocess.Popen([self.path, *words], stdin=self.source, stdout=self.sink, close_fds=False)
        signal.alarm(self.longest)
        try:
            status = child.wait()
        except Hang:
            raise Wrong(f"{words[0]} has not ended after {self.longest} s") from None
        finally:
            signal.alarm(0)
            if child.returncode is None:
                child.kill()
                child.wait()
        return status, os.pread(self.sink.fileno(), os.fstat(self.sink.fileno()).st_size, 0).decode("latin-1")

    def done(self, words: Sequence[str], given: str) -> str:
        """What a run wrote; raises Wrong where it did not end with status 0."""
        self.texts[words[0]] = ""
        status, output = self.call(words, given)
        self.texts[words[0]] = output
        if status != 0:
            raise Wrong(f"{words[0]} ended with status {status}, and wrote '{output[:60].strip()}'")
        return output

    def check(self, trace: str, report: str) -> None:
        """Raises Wrong where the program's `check` does not call a report good."""
        status, output = self.call(["check"], trace + report)
        if (status, output) != (0, "good\n"):
            raise Wrong(f"check ended with status {status}, and wrote '{output.strip()}'")
