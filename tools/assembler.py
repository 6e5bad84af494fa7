"""An assembler for rule packages: one function for each declaration and command.

`here` marks the declaration or the command at which a fault stands; the offset of
the fault is the length of all that comes before it.
"""


class Part:
    """Some bytes of a package, and the offset in them at which a fault stands."""

    def __init__(self, octets, fault=None):
        self.octets = octets
        self.fault = fault

    def __len__(self):
        return len(self.octets)

    def __add__(self, other):
        fault = self.fault
        if other.fault is not None:
            assert fault is None, "a fault is marked once"
            fault = len(self) + other.fault
        return Part(self.octets + other.octets, fault)

    def __mul__(self, times):
        assert self.fault is None, "a fault is marked once"
        return Part(self.octets * times)

    def first(self, length):
        """The first so many bytes."""
        return Part(self.octets[:length])

    def rest(self, length):
        """All but the first so many bytes."""
        return Part(self.octets[length:])


NOTHING = Part(b"")


def joined(parts):
    return sum(parts, NOTHING)


def here(part):
    """The same bytes, with the fault at their first."""
    return Part(part.octets, 0)


def number(value, width=1):
    return Part(value.to_bytes(width, "big"))


# Declarations.


def party(frame=3):
    return number(0x81) + number(frame, 8)


def input_(owner, value):
    return number(0x82) + number(owner) + number(value, 4)


def cell(value=0, frame=3):
    return number(0x83) + number(value, 4) + number(frame, 8)


def table(first, length):
    return number(0x84) + number(first) + number(length)


def device(need=1):
    return number(0x85) + number(need, 8)


def proc_head(owner, length):
    return number(0x86) + number(owner) + number(length, 2)


def proc(owner, body):
    return proc_head(owner, len(body)) + body


def entry(procedure):
    return number(0x87) + number(procedure)


FINISH = number(0x88)


# Commands.


def set_(x, n):
    return number(0x01) + number(x) + number(n, 4)


def copy(x, a):
    return number(0x02) + number(x) + number(a)


def add(x, a, b):
    return number(0x03) + number(x) + number(a) + number(b)


def sub(x, a, b):
    return number(0x04) + number(x) + number(a) + number(b)


def less(x, a, b):
    return number(0x05) + number(x) + number(a) + number(b)


def same(x, a, b):
    return number(0x06) + number(x) + number(a) + number(b)


def bits(x, a, b):
    return number(0x07) + number(x) + number(a) + number(b)


def pick(x, t, a):
    return number(0x08) + number(x) + number(t) + number(a)


def put(t, a, b):
    return number(0x09) + number(t) + number(a) + number(b)


def drive(d, a):
    return number(0x0A) + number(d) + number(a)


def when_head(a, l, m):
    return number(0x0B) + number(a) + number(l, 2) + number(m, 2)


def when(a, first, second):
    return when_head(a, len(first), len(second)) + first + second


def loop_head(a, k, l):
    return number(0x0C) + number(a) + number(k) + number(l, 2)


def loop(a, k, block):
    return loop_head(a, k, len(block)) + block


def grant_head(g, l):
    return number(0x0D) + number(g, 8) + number(l, 2)


def grant(g, block):
    return grant_head(g, len(block)) + block


def call(p):
    return number(0x0E) + number(p)


def try_head(g, a, l, m):
    return number(0x0F) + number(g, 8) + number(a) + number(l, 2) + number(m, 2)


def try_(g, a, first, second):
    return try_head(g, a, len(first), len(second)) + first + second
