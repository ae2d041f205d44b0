"""./kaffe install DIR: the whole proved program and its manual page, put where they can be used without the checkout."""
import os
import shutil
import sys
import tempfile

from launcher import building, sources
from launcher.commands import fail
from launcher.sentences import NO_PLACE

PROGRAM_AT, PAGE_AT = "bin/kaffe", "share/man/man1/kaffe.1"
WORDS = "usage: kaffe install DIR"
USAGE_STATUS = 2


def main(top, words):
    """Installs the program, which is built where it is not fresh. Gives the exit status."""
    if words in (["--help"], ["-h"]):
        print(f"{WORDS}\n\nPuts the whole proved program at DIR/{PROGRAM_AT} and its manual page at DIR/{PAGE_AT}. Where it is not there, or not\nthat of the sources, it is built first; where that fails nothing is put anywhere.")
        return 0
    if len(words) != 1 or words[0].startswith("-") or not words[0]:
        print(WORDS, file=sys.stderr)
        return USAGE_STATUS
    folder = words[0]
    program = building.built(sources.proved(top), building.build_proved)
    for source, place, mode in [(program, PROGRAM_AT, 0o755), (f"{top}/docs/kaffe.1", PAGE_AT, 0o644)]:
        try:
            put(source, f"{folder}/{place}", mode)
        except OSError as error:
            fail(NO_PLACE, f"cannot install {folder}/{place}: {error.strerror}")
        print(f"installed {folder}/{place}")
    print("the program needs the C library alone; it does not read this checkout")
    return 0


def put(source, place, mode):
    """Copies a file to its place by a rename, so that a program that runs there is not overwritten."""
    os.makedirs(os.path.dirname(place), exist_ok=True)
    with tempfile.TemporaryDirectory(prefix=".kaffe-", dir=os.path.dirname(place)) as room:
        made = shutil.copyfile(source, f"{room}/it")
        os.chmod(made, mode)
        os.replace(made, place)
