"""What each answer of the program means, and what to do about it.

docs/MANUAL.md has the same sentences in its tables: scripts/manual writes them there, and its --check compares them.
"""
from collections import namedtuple

# The line that the program, and so the launcher, writes where the words are no command: the text is that of
# crates/k_answers/src/texts.rt.
USAGE = "usage: kaffe run | replay | check | big N | watch K | work | snap | audit | tree"

# What an exit status, a reason or a fault means, and what to do about it.
Meaning = namedtuple("Meaning", "means todo")

NO_INPUT, NO_PROGRAM, NO_PLACE = 66, 70, 73

STATUSES = {
    0: Meaning(
        "The command was done. For `check` it says that the report is good, and for `audit` that the snapshot is sound.",
        "Nothing is to be done. The report may still hold faults, which are answers to single operations.",
    ),
    1: Meaning(
        "The input is no trace, or by `tree` no script. Standard output has `bad trace: line L reason R`, for the first bad line and the lowest reason that applies to it.",
        "Correct that line, and run the command again. `kaffe explain` says what would be right there.",
    ),
    2: Meaning(
        "The words are no command. Nothing was read, and standard output has the usage line.",
        "`kaffe --help` lists the commands with their words.",
    ),
    3: Meaning(
        "Memory ran out. Nothing was written.",
        "Give the program more memory, or a smaller trace. The manual says how much memory goes with which input.",
    ),
    4: Meaning(
        "Reading standard input failed. Nothing was written.",
        "Look at where the input comes from: a closed stream, a folder or a failing disk gives this status.",
    ),
    5: Meaning(
        "Writing to standard output failed. What was written is a beginning of the whole text.",
        "Look at where the output goes: a full disk or a closed pipe gives this status. Throw away what was written, and run the command again.",
    ),
    6: Meaning(
        "By `check`: the report is not that of a legal and complete run of its trace. By `audit`: the snapshot is none, or not that of a sound state. Standard output has `refused N`, for the first wrong line of the report or the snapshot, or `unsound N`, for the lowest point that does not hold.",
        "Look at line N, counted from the line `report 1` or `snapshot 1`. `kaffe explain` says by which rule a report is refused, and `kaffe explain point N` what a point is.",
    ),
    NO_INPUT: Meaning(
        "By the launcher: a file that was named cannot be read. The program was not started.",
        "Correct the name of the file, or its permissions. The message on standard error says which file it is.",
    ),
    NO_PROGRAM: Meaning(
        "By the launcher: there is no program to run, and it could not be built; or an unproved build was stopped by a fault of memory.",
        "Read the messages on standard error. Most often the Rattle kit is not installed, or its command `rt` is not on the PATH.",
    ),
    NO_PLACE: Meaning(
        "By `kaffe install` alone: the program or its manual page could not be written to its place.",
        "Name a folder in which you may write; the message on standard error says which file it is.",
    ),
}

REASONS = {
    1: Meaning(
        "The input has more bytes than a trace may have, 16,777,216, or than `check` and `audit` may read, 67,108,864. The line is 0.",
        "Split the trace, or leave out operations that do not matter.",
    ),
    2: Meaning("The line has more than 4,096 bytes.", "Shorten the line: no form of a line needs so many bytes."),
    3: Meaning(
        "The line has a byte below 32 or above 126.",
        "Write the line in ASCII, with single spaces and no tabs, and end it by a line feed alone.",
    ),
    4: Meaning(
        "The line has none of the forms that are allowed in its place.",
        "Write one of the forms of this place. Words are separated by exactly one space, and there are no empty lines and no comments. `kill` and `resize` have a form only in a trace that begins with `kaffe 2`, and `spawn` and `reap` only in a script.",
    ),
    5: Meaning(
        "A word in the place of a number or a register is none, or is out of range.",
        "Write a number without leading zeros, within the range of its place, or a register from r0 to r15.",
    ),
    6: Meaning(
        "A word in the place of a new name is no name, or is reserved.",
        "Choose a name of 1 to 32 letters, digits and `_` that begins with a letter and is no word of the formats.",
    ),
    7: Meaning(
        "A new name was declared before among those from which it must differ.",
        "Choose another name. Types differ among themselves, and so do limits; processes and shared heaps differ together.",
    ),
    8: Meaning(
        "A type, limit, process or shared heap is not declared.",
        "Declare it in the header, before the line that names it, or correct the name.",
    ),
    9: Meaning(
        "There are more fields, types, limits, processes, shared heaps or operations than a trace may have.",
        "Keep to 16 fields a type, 256 types, 128 limits, 64 processes, 64 shared heaps and 200,000 operations.",
    ),
    10: Meaning(
        "The maximum of a hard limit does not fit at its parent, or the kernel's ceiling is below the size of the directory.",
        "Lower the maximum, or raise that of the parent. A ceiling must be at least 16 bytes and 8 more for each field of the directory.",
    ),
    11: Meaning(
        "The operation's process has an `exit` before it.",
        "Let `exit` be the last operation of its process.",
    ),
    12: Meaning(
        "The input ends before the kernel line, a limit or a process was read. The line is one past the last.",
        "Go on with the header: a version, a kernel line, at least one limit and at least one process.",
    ),
    14: Meaning(
        "By `tree` alone: the process of the `spawn` or `reap` is not the parent of the process that is named.",
        "Let the parent ask, which the line `child NAME PARENT` names. A process of a line `proc` has no parent.",
    ),
    15: Meaning(
        "By `tree` alone: the line's process is a child that was not spawned or was reaped, or the child is spawned or reaped out of its time.",
        "Spawn a child once, before its first line, and reap it once, after its last. The reaping of a child is also that of all below it.",
    ),
}

FAULTS = {
    "Null": Meaning(
        "The register through which the operation goes is null; for `freeze` it is the register of the root.",
        "Put an object into the register first, by `new`, `load`, `dir` or `attach`. An operation that was refused before leaves its register as it was.",
    ),
    "Foreign": Meaning(
        "The object in the register belongs to another process that lives.",
        "A register may hold such an object, but its fields cannot be read or written. Let processes talk through a shared heap, or through the kernel's heap.",
    ),
    "NotSharer S": Meaning(
        "The object lies in the shared heap S, and the process does not share S.",
        "Let the process `attach` to S first, once S is frozen.",
    ),
    "NoField": Meaning(
        "The object has no field of that number.",
        "Fields are numbered from 0, in the order of the type's line.",
    ),
    "WrongKind": Meaning(
        "The field holds a number where the operation wants a reference, or a reference where it wants a number.",
        "Use `store` and `load` for fields that are `ref`, and `put` and `get` for those that are `int`.",
    ),
    "Frozen": Meaning(
        "The store would change a reference in a frozen shared heap.",
        "Link the objects of a shared heap before it is frozen. Its numbers can still be written, by `put`.",
    ),
    "Segv": Meaning(
        "The write barrier refuses the store, or the root that `freeze` was given is no object of that shared heap.",
        "An object of a process may refer to its own heap, to the kernel's and to shared heaps; one of a shared heap to its own heap and to the kernel's.",
    ),
    "NotPopulating S": Meaning(
        "The process does not populate the shared heap S.",
        "Only the process that said `share` may make objects in S and freeze it, and only until it is frozen.",
    ),
    "NotFrozen S": Meaning(
        "The shared heap S is not frozen: it is unmade, still populated, or absorbed.",
        "Let the process that populates S freeze it first. By `run` the operations of different processes come in any order.",
    ),
    "Taken S": Meaning(
        "Another process, or this one before, has begun to populate the shared heap S.",
        "Each shared heap is populated once, by one process. Declare another one, or let this process attach.",
    ),
    "LimitFull L": Meaning(
        "The size does not fit: L is the first full limit from the process's own upward. On `resize` it is what a hard limit gets more that does not fit, and L is the first full limit from its parent upward.",
        "Raise the maximum of L, in the header or by `resize`. Or free memory first: drop registers and `collect`, which also ends shares that are no longer used.",
    ),
    "KernelFull": Meaning(
        "The bytes of the kernel's heap and the new object's size pass the ceiling.",
        "Raise the ceiling in the kernel line, or free memory by `kcollect` once nothing refers to the kernel's objects.",
    ),
    "ProcNotBelow P": Meaning(
        "The process may not end the process P, whose limit is not below its own.",
        "Let a process ask that is charged at a limit above that of P, as a supervisor is. A process ends itself by `exit`.",
    ),
    "LimitNotBelow L": Meaning(
        "The process may not change the maximum of the limit L, which is not below its own limit.",
        "Let a process ask that is charged at a limit above L. The maximum of the root never changes.",
    ),
    "InUse L": Meaning(
        "More bytes are used at the limit L than its maximum was to be.",
        "Ask for a maximum that is no less than what is used at L, or free memory there first. What hard limits just below L reserve counts as used.",
    ),
}

# The rules by which `check` refuses a report, in the order in which they are tried.
RULES = {
    1: "The first line of the report is not `report 1`.",
    2: "The line comes before the line `graph`, and is no event line, or its operation is not the next one of its process, or the event is not possible there.",
    3: "There is no line `graph`. The number is one past the last line.",
    4: "The history is not complete at the line `graph`: an operation is missing, a collection is open, or the closing is missing though every process has ended.",
    5: "The line comes after `graph`, and is not that of the report of this history, or is one too many. Where lines are missing, the number is one past the last line.",
}

# What `audit` asks of a snapshot, in the order in which it is asked.
POINTS = {
    1: "No object has a serial above the number that its segment has under `made`.",
    2: "The directory is there, and so is each object that a field, a register, an exit item or the root of a frozen heap names.",
    3: "Each reference is one that the write barrier lets pass, and where it leaves its heap it has its exit item there.",
    4: "Each exit item leads out of its heap, to where the write barrier lets references of that heap lead.",
    5: "A process that has ended has no register that is not null, no share and no exit item. An absorbed heap has no sharer and no exit item.",
    6: "An unmade heap has no sharer and no object. A populated one has no sharer but the process that populates it, which shares it as long as it lives. The root of a frozen heap lies in it.",
    7: "At no limit more is used than its maximum.",
    8: "What the text says beside the state is so: the owner of each object, the kernel's bytes and ceiling, the use of each limit, the charge of each process, and the bytes of each shared heap.",
}


def fault_word(text):
    """The fault's own word, as `LimitFull` of `LimitFull L`."""
    return text.split(" ")[0]
