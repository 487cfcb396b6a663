#!/usr/bin/env python3
"""What a call takes from Python: this package beside dnspython, where it is there. Lines as those of bench.c.

    bench.py             measures
    bench.py FILE        writes the messages of the row 'read all' into a file, for bench.c: the length of each in two
                         octets, the high one first, and the message
"""

import gc
import sys
import time
import timeit

import dnsnames

try:
    import dns.message
    import dns.name
except ImportError:
    dns = None

TYPICAL = bytes(12) + b"\7example\3com\0\0\1\0\1\3www\xc0\x0c"
LABELS = b"".join(bytes([1, 97 + i % 26]) for i in range(127)) + b"\0"
INPUTS = (("typical", TYPICAL, 29, "mail.example.com."), ("127 labels", bytes(12) + LABELS, 12, None))


def calls(message, offset, other):
    """Each operation, the library, and a call of it."""
    name = dnsnames.Name.from_message(message, offset)
    text = str(name)
    other = other or "0" + text[1:]
    ours = dnsnames.Name(other)
    assert ours < name
    yield "read", "dnsnames", lambda: dnsnames.read(message, offset)
    yield "compare", "dnsnames", lambda: ours < name
    yield "to text", "dnsnames", name.to_text
    yield "from text", "dnsnames", lambda: dnsnames.Name.from_text(text)
    if dns is None:
        return
    theirs, their_other = dns.name.from_wire(message, offset)[0], dns.name.from_text(other)
    assert theirs.to_text() == text and their_other < theirs
    yield "read", "dnspython", lambda: dns.name.from_wire(message, offset)
    yield "compare", "dnspython", lambda: their_other < theirs
    yield "to text", "dnspython", theirs.to_text
    yield "from text", "dnspython", lambda: dns.name.from_text(text)


def messages(count=10_000):
    """Responses of a question and ten records each, no two the same: six A records of the name that is asked for, and four
    AAAA records of servers of its zone, whose names end in a pointer."""
    for i in range(count):
        host, zone = b"www%d" % (i % 97), b"example%d" % i
        octets = bytearray(i.to_bytes(2, "big") + bytes.fromhex("8180 0001 0006 0000 0004"))
        octets += bytes([len(host)]) + host + bytes([len(zone)]) + zone + b"\3com\0" + b"\0\1\0\1"
        for k in range(6):
            octets += b"\xc0\x0c" + b"\0\1\0\1" + (60 + k).to_bytes(4, "big") + b"\0\4" + bytes([192, 0, 2, i % 250 + k])
        for k in range(4):
            octets += b"\3ns%d" % k + bytes([0xC0, 13 + len(host)]) + b"\0\x1c\0\1" + (3600 + i).to_bytes(4, "big")
            octets += b"\0\x10" + bytes.fromhex("20010db8") + bytes(10) + i.to_bytes(2, "big")
        yield bytes(octets)


def read_all(octets):
    """All fields of all records: owner's name, type, class, TTL, and the data as octets."""
    return [
        (record.name, record.type, record.class_, record.ttl, record.data)
        for record in dnsnames.Message(octets).records()
    ]


def their_read_all(octets):
    """The same with dnspython; the data are its objects of a record's type, which it makes while it reads."""
    message = dns.message.from_wire(octets)
    return [
        (rrset.name, rrset.rdtype, rrset.rdclass, rrset.ttl, data)
        for section in (message.answer, message.authority, message.additional)
        for rrset in section
        for data in rrset
    ]


def measure_messages():
    """Seconds of the processor for each message: of each hundred the best of some turns, in which the libraries alternate,
    and of these the mean."""
    octets = list(messages())
    calls = {"dnsnames": read_all}
    ours = read_all(octets[0])
    assert len(ours) == 10
    if dns is not None:
        calls["dnspython"] = their_read_all
        found = [(bytes(name), *numbers[:2], data) for name, *numbers, _, data in ours]
        wanted = [(name.to_wire(), *numbers[:2], data.to_wire()) for name, *numbers, _, data in their_read_all(octets[0])]
        assert found == wanted, (found, wanted)
    total = dict.fromkeys(calls, 0.0)
    gc.disable()
    for begin in range(0, len(octets), 100):
        best = dict.fromkeys(calls, float("inf"))
        for _ in range(5):
            for library, call in calls.items():
                begun = time.process_time()
                for message in octets[begin : begin + 100]:
                    call(message)
                best[library] = min(best[library], time.process_time() - begun)
        for library, seconds in best.items():
            total[library] += seconds
        gc.collect()
    gc.enable()
    for library, seconds in total.items():
        print(f"read all\t10 records\t{library}\t{seconds / len(octets) * 1e9:.0f}")


def main():
    for title, message, offset, other in INPUTS:
        rows = [(operation, library, timeit.Timer(call)) for operation, library, call in calls(message, offset, other)]
        times = [max(1, int(2e-3 / (timer.timeit(50) / 50))) for _, _, timer in rows]
        best = [float("inf")] * len(rows)
        for _ in range(40):  # in turns, so that all meet the same weather on the machine
            for k, (_, _, timer) in enumerate(rows):
                best[k] = min(best[k], timer.timeit(times[k]) / times[k])
        for (operation, library, _), seconds in zip(rows, best):
            print(f"{operation}\t{title}\t{library}\t{seconds * 1e9:.0f}")
    measure_messages()


if len(sys.argv) > 1:
    with open(sys.argv[1], "wb") as file:
        for each in messages():
            file.write(len(each).to_bytes(2, "big") + each)
else:
    main()
