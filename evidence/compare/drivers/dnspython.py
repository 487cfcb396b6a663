"""dnspython, by the line protocol of the drivers (line.h tells it)."""

import io
import sys
import time

import dns.name
import dns.version

# Exceptions of any type are refusals, since not all are of the library's own.


def octets(word):
    return b"" if word == "-" else bytes.fromhex(word)


def shown(name):
    labels = [label.hex() for label in name.labels if label]
    return ".".join(labels) or "."


def name_of(wire):
    return dns.name.from_wire(octets(wire), 0)[0]


def read(message, offsets):
    accepted = 0
    for offset in offsets:
        try:
            dns.name.from_wire(message, offset)
            accepted += 1
        except Exception:
            pass
    return accepted


def compose(names):
    """Composes names one after another behind a header of 12 octets, and tells the octets written."""
    file, table, end = io.BytesIO(bytes(12)), {}, 12
    file.seek(12)
    for name in names:
        name.to_wire(file, table)
        if file.tell() > 65535:
            break
        end = file.tell()
    return end


def measure(one_round):
    """Makes rounds for two tenths of a second, at least one and at most 200; the best counts."""
    best, begun, rounds = None, time.process_time_ns(), 0
    while rounds == 0 or rounds < 200 and time.process_time_ns() - begun < 2e8:
        start = time.process_time_ns()
        count = one_round()
        took = time.process_time_ns() - start
        best = took if best is None else min(best, took)
        rounds += 1
    return f"ok {best} {count}"


def time_file(what, path):
    with open(path) as file:
        lines = file.read().splitlines()
    if what == "read":
        message, offsets = octets(lines[0]), [int(word) for word in lines[1].split()]
        return measure(lambda: read(message, offsets))
    names = [name_of(line) for line in lines]
    if what == "compare":
        return measure(lambda: sum(left < right for left, right in zip(names, names[1:])))
    if what == "sort":
        return measure(lambda: len(sorted(names)))
    return measure(lambda: compose(names))


def answer(call, *words):
    if call == "version":
        return f"ok {dns.version.version}"
    if call == "read":
        offset = int(words[1])
        name, taken = dns.name.from_wire(octets(words[0]), offset)
        return f"ok {shown(name)} {offset + taken}"
    if call == "text":
        return f"ok {shown(dns.name.from_text(octets(words[0]).decode()))}"
    if call == "show":
        return f"ok {name_of(words[0]).to_text().encode().hex()}"
    if call == "sort":
        return " ".join(["ok", *(shown(name) for name in sorted(map(name_of, words)))])
    if call == "time":
        return time_file(*words)
    return "none"


for line in sys.stdin:
    try:
        print(answer(*line.split()), flush=True)
    except Exception:
        print("no", flush=True)
