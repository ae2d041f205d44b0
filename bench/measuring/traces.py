"""The traces that are measured, but for those of `scripts/greatest`."""

HEADER = ["kaffe 1", "kernel 80 8", "type Node ref ref int", "type Wide" + 16 * " int"]
NODE_BYTES, WIDE_BYTES = 40, 144
# After so many objects a process drops its registers and collects its heap.
COLLECTED_EACH = 10


def bytes_of(line):
    """What the operation is charged, where it makes an object."""
    return 0 if not line.startswith("new ") else WIDE_BYTES if line.endswith(" Wide") else NODE_BYTES


def trace(operations):
    """A trace of processes w0, w1 and so on, each on a hard limit of its own, whose operations come one process after another.

    A single process gets another one beside it that does nothing, since the program starts no thread for one alone.
    """
    if len(operations) == 1:
        operations = [*operations, []]
    room = [max(NODE_BYTES, sum(bytes_of(line) for line in lines)) for lines in operations]
    lines = [*HEADER, f"limit root {sum(room)}"]
    lines += [f"limit l{process} root hard {bytes_}" for process, bytes_ in enumerate(room)]
    lines += [f"proc w{process} l{process}" for process in range(len(operations))]
    lines += [f"w{process} {line}" for process, mine in enumerate(operations) for line in mine]
    return "\n".join(lines) + "\n"


def keeping_nothing(objects, processes):
    """So many objects in all, made, linked, numbered and collected by so many processes, which keep none of them."""
    def one(count):
        lines = []
        for number in range(count):
            lines += ["new r0", "store r0 0 r1", "move r1 r0", f"put r0 2 {number}"]
            if (number + 1) % COLLECTED_EACH == 0:
                lines += ["drop r0", "drop r1", "collect"]
        return [f"{line} Node" if line.startswith("new") else line for line in lines]
    return trace(processes * [one(objects // processes)])


def inside(operations, processes):
    """Processes that write integers into an object of their own, which needs no lock but their heap's."""
    return trace(processes * [["new r0 Node", *(f"put r0 2 {number}" for number in range(operations))]])


def list_of(objects):
    """A list of so many objects, by two operations each."""
    turns = [["new r0 Node", "store r0 0 r1"], ["new r1 Node", "store r1 0 r0"]]
    return [line for number in range(objects) for line in turns[number % 2]]


def collected(objects, collections):
    """The operations of a process that makes a list and collects its heap so many times."""
    return list_of(objects) + collections * ["collect"]


def written_and_collected(objects, collections):
    """The operations of a process that makes a list, and so many times writes a reference into it and collects its heap.

    So each collection marks all objects anew. Before the first of these and after the last one it makes a wide object, drops it and collects,
    which whoever watches its calls of `free` can tell from all others. The reference that is written stands there already.
    """
    newest = (objects + 1) % 2
    written = [f"store r{newest} 0 r{1 - newest}", "collect"]
    marker = ["new r2 Wide", "drop r2", "collect"]
    return [*list_of(objects), *marker, *(collections * written), *marker]


def beside(objects, collections, rounds):
    """Such a process, and a sibling that makes an object, drops it and collects, which needs the book three times a round."""
    return trace([written_and_collected(objects, collections), rounds * ["new r0 Node", "drop r0", "collect"]])
