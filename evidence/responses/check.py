#!/usr/bin/env python3
"""Asks the zones of the conformance table with `dnszone answer`, and compares each message, octet by octet, with that
of second_writer.py of conformance_zones: every question of the table without EDNS, with EDNS of several sizes and
with DO, over a datagram and over a stream, and queries that aren't answered.

    evidence/responses/check.py [--zones N] [--try]

--zones N takes the zones before those that are drawn, and N of these; --try runs the sources without a proof. A zone
whose data isn't that of its types is left out: a zone's text has none such. The last line is 'N passed, N failed', over
messages."""

import argparse
import pathlib
import subprocess
import sys

TOP = pathlib.Path(__file__).resolve().parents[2]
sys.dont_write_bytecode = True
sys.path.insert(0, str(TOP / "crates/conformance_zones"))
from response_rows import query, writer, zones

SIZE = 1232


def queries(asked):
    """Each question in several forms, and what is refused."""
    for name, rtype in asked:
        yield query(name, rtype)
        yield query(name, rtype, flags=0x0010, opts=[(".", 1232, 0x8000)])
        yield query(name, rtype, opts=[(".", 100, 0)])
    name, rtype = asked[0]
    yield from (query(name, it) for it in (0, 41, 249, 250, 251, 252, 253, 254, 255, 65535))
    yield from (query(name, rtype, rclass=it) for it in (0, 3, 254, 255))
    yield from (query(name, rtype, flags=it << 11 | 0x7BF) for it in range(16))
    yield query(name, rtype, flags=0x8000)
    yield query(name, rtype, opts=[(".", 4096, 0x10000)])
    yield query(name, rtype, opts=[(".", 4096, 0xFF8000)], flags=0x2800)
    yield query(name, rtype, opts=[(".", 4096, 0x8000), (".", 512, 0)])
    yield query(name, rtype, opts=[("a.", 4096, 0)])
    yield query(name, rtype, counts=(0, 0, 0, 0))
    yield query(name, rtype, counts=(2, 0, 0, 0))
    yield query(name, rtype, counts=(2, 0, 0, 0), tail=b"\0\0\1\0\1")
    yield query(name, rtype, counts=(1, 0, 0, 1))
    yield query(name, rtype, counts=(1, 1, 0, 0), tail=b"\0\0\1\0\1\0\0\0\0\0\1")
    yield query(name, rtype, tail=b"octets after the message")
    whole = query(name, rtype, opts=[(".", 1232, 0)])
    yield from (whole[:it] for it in range(len(whole)))


def text_of(zone):
    """The zone as a text, data as octets (RFC 3597, 5). RRSIG records of an owner can have different TTLs."""
    said = ""
    for rtype, it in zone.rrsets():
        for ttl, data in it.records:
            said += f"{it.spellings[data]} {ttl} IN TYPE{rtype} \\# {len(data)} {data.hex()}\n"
    return said


def run(words, text, unproved):
    """The lines that the program prints, or None where the text is that of no zone."""
    command = ["rt", "try", "--"] if unproved else ["out/dnszone"]
    made = subprocess.run(command + words, input=text, capture_output=True, text=True, cwd=TOP / "crates/dnszone")
    if made.returncode and "line " in made.stderr + made.stdout:
        return None
    return [it for it in made.stdout.split("\n") if not it.startswith(("checked:", "run="))]


def table():
    """The zones of the table with their questions, and whether they are drawn."""
    drawn = False
    for line in (TOP / "crates/conformance_zones/stdin").read_text().splitlines():
        if line.startswith("#"):
            drawn = "drawn" in line
        if not line.startswith("zone ") or line.endswith(" -"):
            continue
        _, apex, records, questions = line.split(" ")
        zone = zones.Zone(apex)
        for it in records.split(";"):
            owner, rtype, ttl, data = it.split("/")
            zone.insert(owner, int(rtype), int(ttl), bytes.fromhex(data.replace("-", "")))
        if zone.is_zone() and zone.wildcards_fit():
            yield drawn, zone, [(it.split("/")[0], int(it.split("/")[1])) for it in questions.split(";")]


def main():
    words = argparse.ArgumentParser(description=__doc__)
    words.add_argument("--zones", type=int, default=0)
    words.add_argument("--try", action="store_true", dest="unproved")
    asked = words.parse_args()
    passed = failed = left_out = 0
    for drawn, zone, questions in table():
        if drawn and asked.zones == 0:
            break
        asked.zones -= drawn
        for stream in (False, True):
            sent = list(dict.fromkeys(queries(questions)))
            words = ["answer"] + ["--stream"] * stream + [it.hex() for it in sent]
            sent_lines = run(words, text_of(zone), asked.unproved)
            if sent_lines is None:
                left_out += 1
                break
            for octets, line in zip(sent, sent_lines):
                expected = writer.response(zone, octets, stream, SIZE)
                if line == ("" if expected is None else expected.hex()):
                    passed += 1
                    continue
                failed += 1
                print(f"{zones.text_of(zone.apex)}: to {octets.hex()}\n  {line or 'nothing'}, not\n  "
                      f"{expected.hex() if expected else 'nothing'}")
    print(f"{left_out} zones left out")
    print(f"{passed} passed, {failed} failed")
    return int(bool(failed))


if __name__ == "__main__":
    sys.exit(main())
