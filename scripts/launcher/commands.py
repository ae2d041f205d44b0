"""The words of ./kaffe: the program's commands as one table, and how files are handed to its standard input."""
import errno
import os
import re
import stat
import sys
import tempfile
from collections import namedtuple

from launcher.sentences import NO_INPUT, USAGE

USAGE_STATUS, WRITE_FAULT = 2, 5

# A command of the program: how its words are shown, the pattern of each word that the program itself takes after the
# command's name, how many files the launcher joins into standard input in its stead, and what it does. A new command is a
# line here, and a row in docs/MANUAL.md.
Command = namedtuple("Command", "shown words files does")

COMMANDS = {
    "run": Command("[TRACE]", [], 1, "a trace, run on threads: writes its report"),
    "replay": Command("[TRACE]", [], 1, "the same in the order of the file, so that the report is a function of the trace"),
    "check": Command("[TRACE [REPORT]]", [], 2, "whether a report is that of a run of its trace: 'good', or 'refused N'"),
    "big": Command("N", [r"[1-9][0-9]{0,2}|[1-4][0-9]{3}|5000"], 0, "a workload of 8 processes that make N objects each, N from 1 to 5000"),
    "watch": Command("K [TRACE]", [r"0|[1-9][0-9]{0,2}|1000"], 1, "a run beside a watcher that takes K samples, K from 0 to 1000"),
    "work": Command("[TRACE]", [], 1, "a run on threads, and behind its report the work of its collections, by who asked for them"),
    "snap": Command("[TRACE]", [], 1, "a trace in the order of the file: writes a snapshot of the state that it leaves"),
    "audit": Command("[TRACE [SNAPSHOT]]", [], 2, "whether a snapshot is that of a sound state: 'sound', 'refused N' or 'unsound N'"),
    "tree": Command("[SCRIPT]", [], 1, "a script whose processes make and end children, in the order of the file: writes its report"),
}

# The commands that the smaller program has, which is built for them where the whole one is not there.
RUN_COMMANDS = ("run", "replay")

# What is run: the words for the program, and the files to join; none means that standard input is left as it is.
Call = namedtuple("Call", "words files")


def call_of(words):
    """The call that the words ask for, or None where they are no command. Files are not opened here."""
    command = COMMANDS.get(words[0]) if words else None
    if command is None:
        return None
    own = len(command.words)
    rest = words[1:]
    if len(rest) < own or not all(re.fullmatch(it, word) for it, word in zip(command.words, rest)):
        return None
    files = rest[own:]
    if len(files) > command.files:
        return None
    return Call(words[: 1 + own], files)


def listed():
    """The program's commands as --help shows them."""
    heads = [f"./kaffe {name} {it.shown}" for name, it in COMMANDS.items()]
    return "\n".join(f"    {head:<33}{it.does}" for head, it in zip(heads, COMMANDS.values()))


def fail(status, message):
    """Ends the launcher with a message on standard error."""
    print(f"kaffe: {message}", file=sys.stderr)
    sys.exit(status)


def answer_usage(hint=None):
    """Answers as the program does where the words are no command: its usage line, and its status. Returns the status."""
    try:
        os.write(1, f"{USAGE}\n".encode())
    except OSError:
        return WRITE_FAULT
    if hint and sys.stderr.isatty():
        print(f"kaffe: {hint}", file=sys.stderr)
    return USAGE_STATUS


def unreadable(name, error):
    """Ends the launcher, as it cannot read this file."""
    fail(NO_INPUT, f"cannot read {'standard input' if name == '-' else repr(name)}: {error.strerror}")


def opened(name):
    """A descriptor of the file of that name, for reading, or a message and the end; `-` is standard input."""
    try:
        descriptor = 0 if name == "-" else os.open(name, os.O_RDONLY)
        if stat.S_ISDIR(os.fstat(descriptor).st_mode):
            raise IsADirectoryError(errno.EISDIR, os.strerror(errno.EISDIR))
        return descriptor
    except OSError as error:
        return unreadable(name, error)


def joined(files):
    """A descriptor from which the files are read one after the other. A line feed is put between two where the first lacks it."""
    descriptors = [opened(it) for it in files]
    if len(descriptors) == 1:
        return descriptors[0]
    whole, last = tempfile.TemporaryFile(), b"\n"
    for name, descriptor in zip(files, descriptors):
        if last != b"\n":
            whole.write(b"\n")
        try:
            with open(descriptor, "rb", closefd=False) as source:
                last = copied(source, whole)
        except OSError as error:
            unreadable(name, error)
    whole.flush()
    descriptor = os.dup(whole.fileno())
    os.lseek(descriptor, 0, os.SEEK_SET)
    return descriptor


def copied(source, whole):
    """Copies a file after what is there, and gives its last byte, or a line feed where it is empty."""
    last = b"\n"
    for piece in iter(lambda: source.read(1 << 20), b""):
        whole.write(piece)
        last = piece[-1:]
    return last
