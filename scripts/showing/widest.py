"""A trace that has as much of everything as a trace may have, except for operations and bytes: names, numbers, counts, and the last of each."""

PROCESSES = SHARED_HEAPS = 64
LIMITS = 128
SOFT = 40  # of the limits
TYPES = 256
FIELDS = 16
LAST = FIELDS - 1  # the number of the last field, and of the last register
LONGEST = 32  # bytes of a name
GREATEST = 2**40 - 1  # of a maximum, and of the kernel's ceiling
STEP = 1_000_000  # bytes between the maximum of a limit and that of the next
NUMBER = 2**64 - 1  # in a field
KERNEL_OBJECTS = 400  # of the first process, each of which the second one's heap refers to


def name(letter, number):
    """A name that is as long as a name may be."""
    return letter * (LONGEST - len(str(number))) + str(number)


def header(version):
    """The lines before the operations. The limits are a chain, each below the one before, of which the last ones are soft."""
    limits = [name("l", number) for number in range(LIMITS)]
    yield f"kaffe {version}"
    yield f"kernel {GREATEST} {FIELDS}"
    for number in range(TYPES):
        yield " ".join([f"type {name('t', number)}", *(LAST * ["ref"]), "int"])
    yield f"limit {limits[0]} {GREATEST}"
    for number in range(1, LIMITS):
        kind = "hard" if number < LIMITS - SOFT else "soft"
        yield f"limit {limits[number]} {limits[number - 1]} {kind} {GREATEST - number * STEP}"
    for number in range(PROCESSES):
        yield f"proc {name('p', number)} {limits[0 if number == 0 else -1]}"
    for number in range(SHARED_HEAPS):
        yield f"shared {name('s', number)}"


def own(process):
    """A process makes its shared heap, and an object of its own with the greatest number in its last field."""
    shared, kind = name("s", process), name("t", TYPES - 1)
    yield from (f"share {shared}", f"snew r0 {shared} {kind}", f"put r0 {LAST} {process}", f"freeze {shared} r0", "drop r0")
    yield from (f"new r{LAST} {kind}", f"put r{LAST} {LAST} {NUMBER}", f"get r{LAST} {LAST}", f"move r14 r{LAST}", f"store r{LAST} {LAST - 1} r14")
    yield from ("dir r13", f"store r13 {LAST} r{LAST}", f"load r12 r{LAST} {LAST - 1}", f"drop r{LAST}")


def attaching(process):
    """All but the first process share the first shared heap, and the last process shares all."""
    for shared in range(SHARED_HEAPS if process == PROCESSES - 1 else min(process, 1)):
        yield from (f"attach r11 {name('s', shared)}", f"get r11 {LAST}", "store r12 0 r11")


def kernel_objects():
    """A process refers to many objects of the kernel, each by another object of its heap, which is kept in a list."""
    kind = name("t", 0)
    for _ in range(KERNEL_OBJECTS):
        yield from (f"knew r1 {kind}", f"new r2 {kind}", "store r2 0 r1", "store r2 1 r3", "move r3 r2")


def operations(version):
    """The operations of each process: all do their own, then all share, and then the first ends the others,
    and the kernel absorbs the shared heaps that are orphans."""
    for work in (own, attaching):
        for process in range(PROCESSES):
            yield from (f"{name('p', process)} {operation}" for operation in work(process))
    yield from (f"{name('p', 1)} {operation}" for operation in (*kernel_objects(), "collect", "kcollect"))
    first = name("p", 0)
    if version > 1:
        yield f"{first} resize {name('l', LIMITS - 1)} {2**32}"
        yield f"{first} resize {name('l', LIMITS - 1)} {GREATEST}"
        yield from (f"{first} kill {name('p', process)}" for process in reversed(range(1, PROCESSES)))
    else:
        yield from (f"{name('p', process)} exit" for process in reversed(range(1, PROCESSES)))
    yield from (f"{first} {operation}" for operation in ("collect", "kcollect", "exit"))


def trace(version):
    """The whole text."""
    return "".join(f"{line}\n" for line in (*header(version), *operations(version)))
