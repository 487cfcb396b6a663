"""What `dnswalk make` is to write of the lines that `dnswalk message` shows of a message, read and written from the
standards alone: RFC 1035 (4.1), 3597 (4), 6891 (6.1). The reader of messages and data is that of conformance_messages.
"""

import pathlib
import sys

sys.path.insert(0, str(pathlib.Path(__file__).resolve().parents[1] / "conformance_messages"))
import second as messages

SERVICES = (64, 65)
REMEMBERED, FARTHEST = 128, 0x3FFF

# Why nothing is made of the lines of a message.
SHORT = "an entry that is missing: message shows what is before it, and fails"
UNREAD = "data that isn't of its type: make refuses it"
PARAMETERS = "service parameters, whose text make doesn't read"
LONG = "a longer message than 65,535 octets, where the names in its data are whole"


class Refused(Exception):
    """Why no message is made of the lines of a message."""


class Writer:
    """A message that is written: names of questions and owners are ended by a pointer to a suffix that stands there
    already, ignoring case (RFC 1035, 4.1.4)."""

    def __init__(self, header):
        self.octets, self.places = bytearray(header), {}

    def name(self, labels):
        for at, label in enumerate(labels):
            suffix = tuple(it.lower() for it in labels[at:])
            if suffix in self.places:
                self.octets += (0xC000 | self.places[suffix]).to_bytes(2, "big")
                return
            if len(self.octets) <= FARTHEST and len(self.places) < REMEMBERED:
                self.places[suffix] = len(self.octets)
            self.octets += bytes([len(label)]) + label
        self.octets += b"\0"

    def numbers(self, *sized):
        for number, size in sized:
            self.octets += number.to_bytes(size, "big")


def fields_of(rtype, data):
    """The octets of data with no name compressed, and with the bitmaps of its types."""
    composed = b""
    for kind in messages.ALL[rtype]:
        begin = data.place
        octets = messages.field(data, kind, False)[0]
        composed += bitmaps_of(messages.Reader(data.octets, begin, data.place)) if kind in "mM" and octets else octets
    return composed


def bitmaps_of(data):
    """The bitmaps of the types that bitmaps have, without blocks and octets at a block's end that say none (RFC 4034,
    4.1.2)."""
    windows = {}
    for number in messages.bitmaps(data):
        bits = windows.setdefault(number >> 8, bytearray(32))
        bits[number % 256 // 8] |= 0x80 >> number % 8
    return b"".join(bytes([it, len(bits.rstrip(b"\0"))]) + bits.rstrip(b"\0") for it, bits in sorted(windows.items()))


def data_of(rtype, rclass, data):
    """The octets of a record's data, or why they aren't made of its text."""
    whole, again = data.octets[data.place:data.end], messages.Reader(data.octets, data.place, data.end)
    if rtype not in messages.ALL or rclass != 1 and rtype in messages.OF_IN or not whole and rclass in (254, 255):
        return whole
    try:
        plain, _canonical, _length, text = messages.of_any(rtype, data, messages.ALL)
    except messages.Refused:
        raise Refused(UNREAD) from None
    if text.startswith("\\# "):
        if len(plain) > 65535:
            raise Refused(LONG)
        return plain
    if rtype in SERVICES:
        raise Refused(PARAMETERS)
    return fields_of(rtype, again)


def names_of(octets):
    """The names of a message's questions and owners."""
    message = messages.Message(octets)
    questions, reader = message.questions()
    return [it[0] for it in questions] + [reader.record()[0] for _ in range(sum(message.counts[1:]))]


def made_of(octets):
    """The message that is made of the lines which show a message. `Refused` has why none is made."""
    try:
        message = messages.Message(octets)
        questions, reader = message.questions()
        records = [[reader.record() for _ in range(count)] for count in message.counts[1:]]
    except messages.Refused:
        raise Refused(SHORT) from None
    writer = Writer(octets[:12])
    for name, rtype, rclass in questions:
        writer.name(name)
        writer.numbers((rtype, 2), (rclass, 2))
    for section in records:
        for owner, rtype, rclass, ttl, data in section:
            said = data_of(rtype, rclass, data)
            writer.name(owner)
            writer.numbers((rtype, 2), (rclass, 2), (ttl, 4), (len(said), 2))
            writer.octets += said
    if len(writer.octets) > 65535:
        raise Refused(LONG)
    return bytes(writer.octets)
