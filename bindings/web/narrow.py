#!/usr/bin/env python3
"""Makes of a module with 64-bit memory one with 32-bit memory, for browsers that don't take the other.

    narrow.py MODULE NARROWED

What the module has and computes stays: addresses and lengths are numbers of 64 bits as before, in calls from outside
too. Only where an instruction goes to memory, the lower 32 bits of the address are taken. They are the same address, as
the memory has fewer than 4 GiB; a call that is passed an address past it would be stopped in 64-bit memory, and isn't
here. Nothing of this is proved. Status 2, and nothing is written, where the module has what isn't known here.
"""

import pathlib
import sys

WRAP, EXTEND_SIGNED, EXTEND = b"\xa7", b"\xac", b"\xad"
GET, SET = b"\x20", b"\x21"
I32, I64, F32, F64 = b"\x7f", b"\x7e", b"\x7d", b"\x7c"
# What each instruction that stores takes from the stack beside the address.
STORED = dict(zip(range(0x36, 0x3F), (I32, I64, F32, F64, I32, I32, I64, I64, I64)))
TYPE, IMPORT, FUNCTION, TABLE, MEMORY, ELEMENT, CODE, DATA = 1, 2, 3, 4, 5, 9, 10, 11


def stop(why):
    print(f"narrow.py: {why}", file=sys.stderr)
    sys.exit(2)


def number(value):
    """A number as LEB128 without sign."""
    octets = b""
    while value > 127:
        octets += bytes([value & 127 | 128])
        value >>= 7
    return octets + bytes([value])


def sized(octets):
    return number(len(octets)) + octets


class Reader:
    """Octets that are read from the front."""

    def __init__(self, octets):
        self.octets, self.at = octets, 0

    def more(self):
        return self.at < len(self.octets)

    def take(self, count):
        taken = self.octets[self.at : self.at + count]
        if len(taken) != count:
            stop("the module ends too soon")
        self.at += count
        return taken

    def byte(self):
        return self.take(1)[0]

    def number(self):
        value = shift = 0
        while True:
            octet = self.byte()
            value |= (octet & 127) << shift
            shift += 7
            if octet < 128:
                return value

    def small(self):
        """The octets of a number of fewer than 31 bits, which mean it with a sign and without."""
        value = self.number()
        if value >> 30:
            stop("a number doesn't fit into 32 bits")
        octets = number(value)
        return octets if octets[-1] < 64 else octets[:-1] + bytes([octets[-1] | 128, 0])

    def limits(self):
        """The limits of a memory or a table, as those of one of 32 bits."""
        flags = self.byte()
        if flags & ~5:
            stop("a memory or a table is shared")
        return bytes([flags & 1]) + b"".join(self.small() for _ in range(1 + (flags & 1)))


class Function:
    """A function's body, with a local more for each type of what is set aside to come to the address below it."""

    def __init__(self, parameters, body):
        reader, parts = Reader(body), []
        groups = [(reader.number(), reader.take(1)) for _ in range(reader.number())]
        self.locals, self.spare = parameters + sum(count for count, _ in groups), {}
        while reader.more():
            parts.append(self.instruction(reader))
        groups += [(1, kind) for kind, _ in self.spare]
        self.octets = number(len(groups)) + b"".join(number(count) + kind for count, kind in groups) + b"".join(parts)

    def aside(self, kind, place=0):
        """A local of this type: the octets that set it, and that get it."""
        index = number(self.locals + self.spare.setdefault((kind, place), len(self.spare)))
        return SET + index, GET + index

    def instruction(self, reader):
        """An instruction as it is in 32-bit memory."""
        begin = reader.at
        code = reader.byte()
        if code in (0x02, 0x03, 0x04, 0x0C, 0x0D, 0x10, 0x12, 0x41, 0x42) or 0x20 <= code <= 0x24:
            reader.number()
        elif code == 0x0E:
            for _ in range(reader.number() + 1):
                reader.number()
        elif code == 0x1C:
            reader.take(reader.number())
        elif 0x28 <= code <= 0x3E:
            # How it is aligned, and an offset.
            access = bytes([code]) + reader.small() + reader.small()
            put, get = self.aside(STORED[code]) if code in STORED else (b"", b"")
            return put + WRAP + get + access
        elif code in (0x3F, 0x40):
            reader.take(1)
            return bytes([code, 0]) + EXTEND if code == 0x3F else WRAP + bytes([code, 0]) + EXTEND_SIGNED
        elif code in (0x43, 0x44):
            reader.take(4 if code == 0x43 else 8)
        elif code == 0xFC:
            return self.bulk(reader)
        elif not (code in (0x00, 0x01, 0x05, 0x0B, 0x0F, 0x1A, 0x1B) or 0x45 <= code <= 0xC4):
            stop(f"the instruction {code:#x} isn't known")
        return reader.octets[begin : reader.at]

    def bulk(self, reader):
        """What copies or fills many octets, and what rounds to a whole number."""
        code = reader.number()
        if code < 8:
            return bytes([0xFC, code])
        if code not in (10, 11):
            stop(f"the instruction 0xfc {code} isn't known")
        # Which memories: there is one. What is copied lies at an address; what is filled in is an octet.
        memories, kind, wrap = (2, I64, WRAP) if code == 10 else (1, I32, b"")
        reader.take(memories)
        (put, get), (put_size, get_size) = self.aside(kind), self.aside(I64, 1)
        return put_size + put + WRAP + get + wrap + get_size + WRAP + bytes([0xFC, code]) + bytes(memories)


def parameters_of(reader):
    """How many parameters each type of function has."""
    found = []
    for _ in range(reader.number()):
        if reader.byte() != 0x60:
            stop("a type isn't that of a function")
        found.append(reader.number())
        reader.take(found[-1])
        reader.take(reader.number())
    return found


def data(reader):
    """The octets that the memory begins with."""
    count = reader.number()
    octets = number(count)
    for _ in range(count):
        if reader.number() != 0 or reader.byte() != 0x42:
            stop("data don't lie at an offset that is a number")
        octets += b"\0\x41" + reader.small() + reader.take(1) + sized(reader.take(reader.number()))
    return octets


def narrowed(octets):
    """The octets of the module with 32-bit memory."""
    module = Reader(octets)
    out, types, functions = module.take(8), [], []
    while module.more():
        kind, section = module.byte(), Reader(module.take(module.number()))
        if kind == TYPE:
            types = parameters_of(Reader(section.octets))
        elif kind == FUNCTION:
            functions = [types[section.number()] for _ in range(section.number())]
        elif kind in (IMPORT, ELEMENT) and section.number():
            stop("it imports something, or has functions in a table")
        elif kind in (TABLE, MEMORY):
            heads = [section.take(1 if kind == TABLE else 0) + section.limits() for _ in range(section.number())]
            section = Reader(number(len(heads)) + b"".join(heads))
        elif kind == CODE:
            count = section.number()
            bodies = [section.take(section.number()) for _ in range(count)]
            if count != len(functions):
                stop("it has not as many bodies as functions")
            made = [sized(Function(*it).octets) for it in zip(functions, bodies)]
            section = Reader(number(count) + b"".join(made))
        elif kind == DATA:
            section = Reader(data(section))
        # It would say that the memory has 64 bits.
        if kind or not section.octets.startswith(b"\x0ftarget_features"):
            out += bytes([kind]) + sized(section.octets)
    return out


if __name__ == "__main__":
    made = narrowed(pathlib.Path(sys.argv[1]).read_bytes())
    pathlib.Path(sys.argv[2]).write_bytes(made)
