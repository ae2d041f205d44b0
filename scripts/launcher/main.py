"""What ./kaffe does with its words."""
import os
import sys

from launcher import commands, sources

# The version of the project, which is the latest one of the traces that it reads.
VERSION = "2"
MEMORY_FAULT = "exitcode=70"


def main(top, words, text):
    """Does what the words say, and gives the exit status, unless the program has taken this one's place."""
    is_unproved = os.environ.get("KAFFE_UNPROVED") == "1"
    if words[:1] == ["--unproved"]:
        is_unproved, words = True, words[1:]
    first = words[0] if words else ""
    if first in ("--help", "-h", "help"):
        from launcher import building

        print(text.format(commands=commands.listed(), first_build=building.FIRST_BUILD[sources.PROGRAM]), end="")
        return 0
    if first == "--version" and len(words) == 1:
        return tell_version(top)
    if first == "explain":
        from launcher import explain

        return explain.main(words[1:])
    if first == "install":
        from launcher import installing

        return installing.main(top, words[1:])
    call = commands.call_of(words)
    if call is None:
        return commands.answer_usage(hint_of(words))
    source = commands.joined(call.files) if call.files else 0
    program = path_of(top, call.words[0], is_unproved)
    return run(program, call, source, is_unproved)


def hint_of(words):
    """What is said on a terminal where the words are no command."""
    if not words:
        return "--help says what each command does"
    if words[0] in commands.COMMANDS:
        return f"{words[0]} takes other words: --help lists them"
    return f"there is no command {words[0]!r}: --help lists them"


def programs_for(top, name, is_unproved):
    """The programs that can do the command of this name: the first that is fresh does it, and where none is, the last is built."""
    if is_unproved:
        return [sources.unproved(top)]
    whole = sources.proved(top)
    return [whole, sources.proved(top, sources.RUN_PROGRAM)] if name in commands.RUN_COMMANDS else [whole]


def path_of(top, name, is_unproved):
    """The program to run for the command of this name, built if need be."""
    programs = programs_for(top, name, is_unproved)
    fresh = next((it for it in programs if it.is_fresh()), None)
    if fresh:
        return fresh.path
    from launcher import building

    return building.built(programs[-1], building.build_unproved if is_unproved else building.build_proved)


def run(program, call, source, is_unproved):
    """Runs the program in the place of this process, or, where its answer is to be explained, beside it."""
    if is_unproved:
        # A fault of memory, which no proof excludes there, must not look like one of the program's own statuses.
        os.environ["ASAN_OPTIONS"] = ":".join(it for it in [os.environ.get("ASAN_OPTIONS"), MEMORY_FAULT] if it)
    if source != 0:
        os.dup2(source, 0)
    if is_explaining():
        from launcher import explain

        return explain.run_and_explain([program, *call.words], call)
    import signal

    # (Python ignores this signal, and the program would inherit that)
    signal.signal(signal.SIGPIPE, signal.SIG_DFL)
    sys.stdout.flush()
    sys.stderr.flush()
    os.execv(program, [program, *call.words])


def is_explaining():
    """Whether an answer is explained on standard error: on a terminal, or as KAFFE_EXPLAIN says."""
    wanted = os.environ.get("KAFFE_EXPLAIN", "")
    return wanted == "1" or (wanted != "0" and sys.stderr.isatty())


def tell_version(top):
    """Prints the versions of the project and of the kit, and what is known of the programs that are there."""
    print(f"kaffe {VERSION}{commit_of(top)}")
    print(f"kit: {sources.kit() or 'none, since its command rt is not on the PATH'}")
    print(f"program: {state_of(sources.proved(top), 'proved')}")
    of_runs = sources.proved(top, sources.RUN_PROGRAM)
    if of_runs.is_there():
        print(f"program for {' and '.join(commands.RUN_COMMANDS)} alone: {state_of(of_runs, 'proved')}")
    print(f"unproved build: {state_of(sources.unproved(top), 'not proved')}")
    return 0


def state_of(program, proof):
    if not program.is_there():
        return "not built"
    is_fresh = "that of the sources as they are" if program.is_fresh() else "older than the sources, or made by another kit"
    return f"{os.path.relpath(program.path, program.top)}, {proof}, {is_fresh}"


def commit_of(top):
    """The commit of the checkout, where it is one and git is installed."""
    import shutil
    import subprocess

    if not shutil.which("git") or not os.path.exists(f"{top}/.git"):
        return ""
    ran = subprocess.run(["git", "-C", top, "describe", "--always", "--dirty"], stdout=subprocess.PIPE, stderr=subprocess.DEVNULL, check=False)
    found = ran.stdout.decode(errors="replace").strip()
    return f" ({found})" if found else ""
