"""The numbers of `kaffe.h`, and requests and answers as they cross to C, for `machine.py` and `model.py`."""
import struct

UNKNOWN, ENDED, ORPHAN, NO_CALL, RESERVED, OBJECTS, ITEMS, FORGOTTEN, OVER, LESS_ROOMS = 1, 3, 7, 8, 10, 11, 12, 13, 16, 19
NOTHING, NAME, NUMBER, FREED, TEXTS = range(5)
FAULTS = ("Done Null Foreign NotSharer NoField WrongKind Frozen Segv NotPopulating NotFrozen Taken LimitFull KernelFull "
          "ProcNotBelow LimitNotBelow InUse").split()
FAULT = {name: number for number, name in enumerate(FAULTS)}
(NEW, KNEW, SNEW, STORE, LOAD, MOVE, CLEAR, DIR, PUT, GET, SHARE, FREEZE, ATTACH, KILL_BY, RESIZE) = range(15)
COLLECT, KCOLLECT, KILL, ABSORB, TAKE, PUBLISH = 16, 17, 18, 19, 20, 21
END_OF_A_COLLECTION = 22
PRINT = 24
(LIVES, BYTES, CHARGE, USE, MAX, REGISTER, DONE, EVENTS, BODIES, KERNEL_BYTES, FIRST_ORPHAN, LEFT, FREED_COUNT, FREED_NAME,
 EVENT, CAME) = range(32, 48)
ASKED = 32
# Whether an operation names a register that it writes or stores, and one of the object or that it reads.
REGISTERS_OF = {NEW: (1, 0), KNEW: (1, 0), SNEW: (1, 0), STORE: (1, 1), LOAD: (1, 1), MOVE: (1, 1), CLEAR: (1, 0), DIR: (1, 0), PUT: (0, 1),
                GET: (0, 1), SHARE: (0, 0), FREEZE: (1, 0), ATTACH: (1, 0), KILL_BY: (0, 0), RESIZE: (0, 0)}
REGISTERS = 16


def answer(status=0, fault=0, at=0, what=NOTHING, name=(0, 0), number=0):
    return struct.pack("<6IQ", status, fault, at, what, name[0], name[1], number)


def asked(call, pid=0, at=0, reg=0, base=0, number=0):
    """What an event was asked for, as the library tells it."""
    return answer(what=ASKED + call, at=pid, name=(at, reg + 256 * base), number=number)


class Request:
    """What is asked, as `kaffe_request`."""

    def __init__(self, call, pid=0, at=0, to=0, reg=0, base=0, number=0):
        self.call, self.pid, self.at, self.to, self.reg, self.base, self.number = call, pid, at, to, reg, base, number

    def packed(self):
        return struct.pack("<4I4BIQ", self.call, self.pid, self.at, self.to, self.reg, self.base, 0, 0, 0, self.number)

    def asked(self):
        """What its event was asked for: those of its numbers that the operation has."""
        reg, base = (used and r for used, r in zip(REGISTERS_OF[self.call], (self.reg, self.base)))
        at = 0 if self.call in (MOVE, CLEAR, DIR) else self.at
        number = self.to if self.call == SNEW else self.number if self.call in (PUT, RESIZE) else 0
        return asked(self.call, self.pid, at, reg, base, number)
