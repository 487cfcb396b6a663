"""The zones and questions of large.py: always the same, for a number of records.

A zone has groups of 3 to 6 records at a name of its own. Their labels are in no order, as where a zone is sorted by
nothing. Half of the groups, by turns of 1,000, are below a $ORIGIN of their own. Owners and names in data are relative
to it."""

import random
import struct

APEX = "large.example."
A, CNAME, MX, TXT, AAAA, OPT = 1, 5, 15, 16, 28, 41
HEAD = """$ORIGIN large.example.
$TTL 3600
@ IN SOA ns1 hostmaster ( 2026120100 ; serial number
    7200 900 1209600 300 )
  NS ns1
  NS ns2
ns1 A 192.0.2.1
ns2 A 192.0.2.2
"""
HEAD_COUNT, TURN, DIGITS = 5, 1000, "0123456789abcdefghijklmnopqrstuvwxyz"
SERVER_SIZE = 1232


def label(number):
    """A label of this number, and of no other: the last digits are those that change most."""
    number, digits = (number * 2654435761 + 40503) % 2**32, ""
    while number:
        number, digit = divmod(number, 36)
        digits += DIGITS[digit]
    return f"n{digits}"


def address(number):
    return f"10.{number >> 16 & 255}.{number >> 8 & 255}.{number & 255}"


def host(it, number):
    """An address of each kind, and an alias."""
    yield f"{it} A {address(number)}"
    yield f"  AAAA 2001:db8:{number >> 16:x}::{number & 65535:x}"
    yield f"www.{it} CNAME {it}"


def mail(it, number):
    """What a name that gets mail has."""
    yield f"{it} 300 IN A {address(number)}"
    yield f"  MX 10 mail.{it}"
    yield "  MX 20 mail.provider.example.net."
    yield f'  TXT "v=spf1 mx ip4:{address(number)} include:_spf.provider.example.net -all"'
    yield f"mail.{it} A {address(number + 1)}"
    yield f'_dmarc.{it} TXT "v=DMARC1; p=reject; rua=mailto:dmarc@{it}.{APEX[:-1]}"'


def cut(it, number):
    """A zone cut with glue."""
    yield f"{it} 86400 NS ns1.{it}"
    yield f"  86400 NS ns2.{it}"
    yield "  86400 NS ns.provider.example.net."
    yield f"ns1.{it} A {address(number)}"
    yield f"ns2.{it} A {address(number + 1)}"
    yield f"  AAAA 2001:db8:ffff:{number >> 16:x}::{number & 65535:x}"


def deep(it, number):
    """Names with others between, that own nothing."""
    yield f"rack-7.row-3.room-b.{it} A {address(number)}"
    yield f"console.rack-7.row-3.room-b.{it} CNAME rack-7.row-3.room-b.{it}"
    yield f'note.{it} TXT "group {number}" "of {APEX}"'


KINDS = [host, host, host, host, mail, mail, cut, cut, cut, deep]


def origin_of(number):
    """The labels between the name of a group and the apex."""
    turn = number // TURN
    return f"part-{turn}." if turn % 2 else ""


def zone_lines(count):
    """The lines of the zone of so many records. Hosts with an address fill what no group has room for."""
    yield from HEAD.splitlines()
    left, number = count - HEAD_COUNT, 0
    while left:
        if number % TURN == 0:
            yield f"$ORIGIN {origin_of(number)}{APEX}"
        records = list(KINDS[number % len(KINDS)](label(number), number))
        records = records if len(records) <= left else [f"{label(number)} A {address(number)}"]
        yield from records
        left -= len(records)
        number += 1


def groups_of(count):
    """How many groups have all their records in a zone of so many records."""
    turn = sum(len(list(it(label(0), 0))) for it in KINDS)
    return (count - HEAD_COUNT) // turn * len(KINDS)


# What is asked: the group's number modulo ten, the labels before its name, the type; and what must come.
FOUND, EMPTY, NONE, REFERRAL = "found", "no data", "no such name", "referral"
ASKED = [
    (0, "", A, FOUND),
    (1, "www.", A, FOUND),
    (2, "", AAAA, FOUND),
    (4, "", MX, FOUND),
    (4, "_dmarc.", TXT, FOUND),
    (9, "rack-7.row-3.room-b.", A, FOUND),
    (3, "", MX, EMPTY),
    (9, "row-3.room-b.", A, EMPTY),
    (0, "gone.", A, NONE),
    (5, "a.b.c.", AAAA, NONE),
    (4, "x", A, NONE),
    (9, "rack-8.row-3.room-b.", A, NONE),
    (6, "", A, REFERRAL),
    (7, "www.", A, REFERRAL),
    (8, "a.b.c.", MX, REFERRAL),
    (6, "ns1.", A, REFERRAL),
]


def wire(name):
    return b"".join(bytes([len(it)]) + it.encode() for it in name.rstrip(".").split(".")) + b"\0"


def queries(count, most):
    """So many queries to the zone of `count` records: each with what must come. Every other one has an OPT record."""
    draw, groups, suffix = random.Random(count), groups_of(count) // len(KINDS), wire(APEX)
    opt = struct.pack(">BHHIH", 0, OPT, SERVER_SIZE, 0, 0)
    for at in range(most):
        kind, before, rtype, comes = ASKED[draw.randrange(len(ASKED))]
        number = draw.randrange(groups) * len(KINDS) + kind
        name = wire(f"{before}{label(number)}.{origin_of(number)}")[:-1] + suffix
        head = struct.pack(">HHHHHH", at % 65536, 0, 1, 0, 0, at % 2)
        yield head + name + struct.pack(">HH", rtype, 1) + opt * (at % 2), comes


def write_zone(path, count):
    path.write_text("".join(f"{it}\n" for it in zone_lines(count)))


def write_queries(path, count, marks):
    """Writes as many queries as the last mark says, each behind its length. Returns how many there are of each outcome
    up to each mark."""
    comes, so_far = {}, dict.fromkeys((FOUND, EMPTY, NONE, REFERRAL), 0)
    with path.open("wb") as file:
        for at, (octets, outcome) in enumerate(queries(count, marks[-1]), 1):
            file.write(struct.pack(">H", len(octets)) + octets)
            so_far[outcome] += 1
            comes |= {str(at): dict(so_far)} if at in marks else {}
    return comes
