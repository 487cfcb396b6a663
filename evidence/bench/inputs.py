#!/usr/bin/env python3
"""Writes the input files of the benchmarks into a folder.

    inputs.py FOLDER

A file is: the number of cases (32 bits, little endian); then for each case a
number (32 bits, little endian), the length (the same) and the octets. The
number is the place of a name in the octets, or 0. The same files come out each
time.

`records-N.whole` has messages of a question and N answers; the number is N.
`grow-L-P.msg` has names of L labels, of an octet each, along which P pointers
lead; `mixed-N.stream`, `hosts-N.stream` and `middles-N.stream` have one case: N
names, each behind the one before it, and N as the number. The names of a
message that is written stand behind one another, and the number is the place
of an octet of the message.
"""

import pathlib
import random
import struct
import sys

LABELS = [1, 4, 16, 64, 127]
POINTERS = [0, 1, 16, 255]
NAMES = [10, 30, 100, 300, 1000, 3000, 10000]
RECORDS = [4, 100, 1000]


def write(folder, name, cases):
    out = bytearray(struct.pack("<I", len(cases)))
    for place, octets in cases:
        out += struct.pack("<II", place, len(octets)) + octets
    (folder / name).write_bytes(out)


def wire(parts):
    return b"".join(bytes([len(p)]) + p for p in parts) + b"\0"


def pointer(target):
    return bytes([0xC0 | target >> 8, target & 255])


def spread(labels, pointers, turn):
    """A message with a name of so many labels and pointers, and the place of the name.

    The pointers lead to the next label, or to the next pointer, or to the root; they stand before the labels and the
    root in about equal numbers.
    """
    before = [0] * (labels + 1)
    for k in range(pointers):
        before[(2 * k + 1) * (labels + 1) // (2 * pointers)] += 1
    pieces, run = [], b""
    for i in range(labels):
        if before[i]:
            pieces += [run] * bool(run) + [b""] * (before[i] - 1)
            run = b""
        run += bytes([1, 97 + (i + turn) % 26])
    if before[labels]:
        pieces += [run] * bool(run) + [b""] * (before[labels] - 1)
        run = b""
    if before[0]:
        pieces.insert(0, b"")
    msg = bytearray(12)
    place = len(msg)
    msg += run + b"\0"
    for piece in reversed(pieces):
        here = len(msg)
        msg += piece + pointer(place)
        place = here
    return place, bytes(msg)


def response(rng, zone, records):
    """A message with a question and so many answers, compressed: owners of one zone, data of five types."""
    label = lambda: wire([word(rng, 3, 8)])[:-1]
    msg = bytearray(bytes.fromhex("123481800001") + struct.pack(">H", records) + bytes(4))
    at_zone = pointer(len(msg) + 4)
    msg += wire([b"www"] + zone) + bytes.fromhex("00010001")
    for k in range(records):
        owner = pointer(12) if k % 4 == 0 else label() + at_zone
        rtype, data = [
            (1, bytes([192, 0, 2, k % 250 + 1])),
            (28, bytes.fromhex("20010db8") + bytes(11) + bytes([k % 256])),
            (15, struct.pack(">H", 10 * (k % 7)) + label() + at_zone),
            (2, label() + at_zone),
            (16, bytes([20]) + word(rng, 20, 20)),
        ][k % 5]
        msg += owner + struct.pack(">HHIH", rtype, 1, 3600, len(data)) + data
    return bytes(msg)


def word(rng, low, high):
    return bytes(rng.choice(b"abcdefghijklmnopqrstuvwxyz0123456789") for _ in range(rng.randint(low, high)))


def mixed(rng, octets):
    return bytes(c ^ 0x20 if 97 <= c <= 122 and rng.random() < 0.5 else c for c in octets)


def main():
    folder = pathlib.Path(sys.argv[1])
    folder.mkdir(parents=True, exist_ok=True)
    rng = random.Random("benchmark")
    tlds = [b"com", b"net", b"org", b"io", b"de", b"info"]

    def domain():
        return [word(rng, 4, 12), rng.choice(tlds)]

    # a response: question `www.DOMAIN`, an answer by pointer, a second answer
    # `LABEL` + pointer to DOMAIN; the place is that of the second answer's name
    typical, whole = [], []
    for _ in range(256):
        dom = domain()
        host = rng.choice([b"www", b"mail", b"api", b"cdn"])
        msg = bytearray(bytes.fromhex("123481800001000200000000"))
        msg += wire([host] + dom) + bytes.fromhex("00010001")
        msg += pointer(12) + bytes.fromhex("0001000100000e100004c0000201")
        whole.append((12 + len(wire([host] + dom)) + 4, None))
        place = len(msg)
        msg += bytes([3]) + word(rng, 3, 3) + pointer(12 + 1 + len(host)) + bytes.fromhex("0001000100000e100004c0000202")
        typical.append((place, bytes(msg)))
        whole[-1] = (whole[-1][0], bytes(msg))
    write(folder, "typical.msg", typical)
    write(folder, "pointer.msg", whole)

    # 127 labels, 255 pointers
    worst = []
    for k in range(16):
        msg = bytearray(12) + b"\0"
        last = 12
        for _ in range(128):
            here = len(msg)
            msg += pointer(last)
            last = here
        for i in range(127):
            here = len(msg)
            msg += bytes([1, 97 + (i + k) % 26]) + pointer(last)
            last = here
        worst.append((last, bytes(msg)))
    write(folder, "worst.msg", worst)

    # 127 labels, flat in a message; and the same names alone
    deep = [wire([bytes([97 + (i + k) % 26]) for i in range(127)]) for k in range(16)]
    write(folder, "deep.msg", [(12, bytes(12) + name + b"\0\1\0\1") for name in deep])

    # `www.example.com` flat at the end of a message of 64 and of 65,535 octets
    name = wire([b"www", b"example", b"com"])
    for file, size in [("short.msg", 64), ("long.msg", 65535)]:
        write(folder, file, [(size - len(name) - k, bytes(12) + bytes(size - 12 - len(name) - k) + name + bytes(k)) for k in range(4)])

    # names two by two: equal except for case, or with another first or last label
    pairs = []
    for i in range(256):
        name = wire([word(rng, 2, 10)] + domain())
        other = mixed(rng, name)
        if i % 4 == 2:
            other = wire([word(rng, 2, 10)] + domain())
        if i % 4 == 3:
            other = bytes([3]) + b"zzz" + name[1 + name[0]:]
        pairs += [(0, name), (0, other)]
    write(folder, "typical.names", pairs)
    write(folder, "deep.names", [(0, n) for name in deep for n in (name, mixed(rng, name))])

    # texts: typical, and with escapes
    texts = [(0, b".".join([word(rng, 2, 10)] + domain()) + rng.choice([b"", b"."])) for _ in range(256)]
    write(folder, "typical.texts", texts)
    escapes = []
    for _ in range(64):
        labels = []
        for _ in range(6):
            labels.append(b"".join(rng.choice([b"\\.", b"\\032", b"\\200", b"a", b"\\\\", b"Z"]) for _ in range(12)))
        escapes.append((0, b".".join(labels)))
    write(folder, "escaped.texts", escapes)

    # how cost grows, by labels and pointers
    for labels in LABELS:
        for pointers in POINTERS:
            write(folder, f"grow-{labels}-{pointers}.msg", [spread(labels, pointers, k) for k in range(16)])

    # names of eight zones, and hosts of one zone in a row, to be composed into one message
    zones = [wire(domain()) for _ in range(8)]
    mixed_names = []
    for _ in range(max(NAMES)):
        front = [word(rng, 1, 8)] + ([word(rng, 2, 6)] if rng.random() < 0.5 else [])
        mixed_names.append(wire(front)[:-1] + rng.choice(zones))
    for count in NAMES:
        write(folder, f"mixed-{count}.stream", [(count, b"".join(mixed_names[:count]))])
        # labels whose last octets differ, and labels that differ in the middle alone
        for kind, label in [("hosts", b"host%03d"), ("middles", b"h%03dx")]:
            hosts = [wire([label % i, b"example", b"com"]) for i in range(count)]
            write(folder, f"{kind}-{count}.stream", [(count, b"".join(hosts))])

    for records in RECORDS:
        messages = [response(rng, domain(), records) for _ in range(max(2, 64 // records))]
        write(folder, f"records-{records}.whole", [(records, msg) for msg in messages])

    # the names of messages that are written: of a question; and of a zone and its servers
    questions, referrals = [], []
    for _ in range(64):
        zone = domain()
        names = [wire([rng.choice([b"www", b"mail", b"api"])] + zone), wire(zone)]
        names += [wire([b"ns%d" % k] + zone) for k in range(1, 5)]
        place = rng.randint(12, 60)
        questions.append((place, names[0]))
        referrals.append((place, b"".join(names)))
    write(folder, "query.writes", questions)
    write(folder, "answer.writes", questions)
    write(folder, "referral.writes", referrals)


if __name__ == "__main__":
    main()
