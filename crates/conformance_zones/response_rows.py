"""The rows `respond` of the table, always the same: rows whose headers are beside them, from the RFCs, zones of
zone_rows.py with their questions, and zones and queries that are drawn from a fixed seed; then the same for DNSSEC,
where the types of each section are beside a header. second_writer.py answers all, and has to answer the rows with
headers as they say here."""

import random
import struct
import sys

import second_writer as writer
import zone_rows as drawing
from second_writer import zones

A, NS, CNAME, SOA, MX, TXT, AAAA, DNAME, OPT = 1, 2, 5, 6, 15, 16, 28, 39, 41
HINFO, DS, RRSIG, NSEC, DNSKEY = 13, 43, 46, 47, 48
TKEY, IXFR, AXFR, MAILB, MAILA, ANY = 249, 251, 252, 253, 254, 255
NOTIFY, UPDATE = 4, 5
RD, CD, DO = 0x0100, 0x0010, 0x8000
UDP, TCP, OWN = "udp", "tcp", 1232
NAME = drawing.name


def query(name, rtype, rclass=1, flags=RD, opts=(), counts=None, tail=b""):
    """The octets of a query with one question, and OPT records of these owners, sizes and TTLs."""
    said = struct.pack(">HHHHHH", 0x1234, flags, *(counts or (1, 0, 0, len(opts))))
    said += NAME(name) + struct.pack(">HH", rtype, rclass)
    for owner, size, ttl in opts:
        said += NAME(owner) + struct.pack(">HHIH", OPT, size, ttl, 0)
    return said + tail


def edns(size, ttl=0):
    return [(".", size, ttl)]


# The zone of the refusals: an alias, a wildcard and a cut.
SMALL = [
    ("www.example.", A, drawing.address("192.0.2.1")),
    ("alias.example.", CNAME, NAME("www.example.")),
    ("old.example.", DNAME, NAME("new.example.")),
    ("*.w.example.", TXT, drawing.text("w")),
    ("sub.example.", NS, NAME("ns.sub.example.")),
    ("ns.sub.example.", A, drawing.address("192.0.2.2")),
]
WWW = ("www.example.", A)

# Aliases: chains that end in each way, loops, and one of 18 aliases.
AT = drawing.address("192.0.2.3")
MADE = ".".join(["m" * 62] * 3)
CHAINS = [
    ("www.example.", A, AT),
    ("WWW.example.", TXT, drawing.text("w")),
    ("one.example.", CNAME, NAME("www.example.")),
    ("two.example.", CNAME, NAME("One.eXample.")),
    ("self.example.", CNAME, NAME("SELF.example.")),
    *((f"{it}.of2.example.", CNAME, NAME(f"{1 - it}.of2.example.")) for it in range(2)),
    *((f"{it}.of3.example.", CNAME, NAME(f"{(it + 1) % 3}.OF3.example.")) for it in range(3)),
    ("into.example.", CNAME, NAME("0.of3.example.")),
    ("out.example.", CNAME, NAME("www.example.net.")),
    ("up.example.", CNAME, NAME("out.example.")),
    ("cut.example.", CNAME, NAME("www.sub.example.")),
    ("sub.example.", NS, NAME("ns.sub.example.")),
    ("ns.sub.example.", A, AT),
    ("gone.example.", CNAME, NAME("no.example.")),
    ("*.w.example.", CNAME, NAME("a.b.v.example.")),
    ("*.v.example.", CNAME, NAME("two.example.")),
    ("old.example.", DNAME, NAME("new.example.")),
    ("a.new.example.", CNAME, NAME("b.old.example.")),
    ("b.new.example.", A, AT),
    ("loop.example.", DNAME, NAME("loop2.example.")),
    ("loop2.example.", DNAME, NAME("loop.example.")),
    # a.grows leads to a.x.grows2, and this to a.y.x.grows, which has four octets more.
    ("grows.example.", DNAME, NAME("x.grows2.example.")),
    ("grows2.example.", DNAME, NAME("y.grows.example.")),
    # A DNAME that adds 189 octets, and one that leads to it.
    ("long.example.", DNAME, NAME(f"{MADE}.example.")),
    ("far.example.", CNAME, NAME(f"{'n' * 60}.long.example.")),
    *((f"c{it}.example.", CNAME, NAME(f"c{it + 1}.example.")) for it in range(18)),
    ("c18.example.", A, AT),
]
LONG_END = [("to.example.", CNAME, NAME("end.example."))]
LONG_END += [("end.example.", TXT, bytes([99]) + b"%099d" % it) for it in range(40)]

# RRsets that don't fit: 40 texts of 100 octets, 20 of 20, and name servers with addresses below the cut and beside it.
LONG = [("long.example.", TXT, bytes([99]) + b"%099d" % it) for it in range(40)]
SOME = [("some.example.", TXT, bytes([19]) + b"%019d" % it) for it in range(20)]
BELOW = [("below.example.", NS, NAME(f"ns{it}.below.example.")) for it in range(4)] + [
    (f"ns{it}.below.example.", rtype, bytes([it, at]) + bytes(2 if rtype == A else 14))
    for it in range(4)
    for rtype in (A, AAAA)
    for at in range(5)
]
BESIDE = [
    ("beside.example.", NS, NAME("ns.beside.example.")),
    ("beside.example.", NS, NAME("a.ns.example.")),
    ("beside.example.", NS, NAME("b.ns.example.")),
    ("ns.beside.example.", A, drawing.address("192.0.2.3")),
    *(("a.ns.example.", AAAA, bytes([32, 1, at]) + bytes(13)) for at in range(16)),
    ("b.ns.example.", A, drawing.address("192.0.2.4")),
]
MANY = [("many.example.", NS, NAME(f"{it:040d}.example.net.")) for it in range(12)]
HUGE = [("huge.example.", TXT, bytes([255]) + b"%0255d" % it) for it in range(244)]
LAST, TOO_LONG = ([("huge.example.", TXT, bytes([it]) + b"%0*d" % (it, 244))] for it in (100, 101))

# What is asked, by which RFC; the records beside an SOA and a name server of example.; how the responses are sent; the
# queries, with what must come: None, or the two octets of flags and the four counts.
TOLD = [
    (
        "RFC 1035, 4.1.1; RFC 4035, 3.1.6: the identifier, the opcode and RD are those of the query, and CD is clear",
        SMALL,
        UDP,
        [
            (query(*WWW), "8500 1 1 0 0"),
            (query(*WWW, flags=0), "8400 1 1 0 0"),
            (query(*WWW, flags=CD), "8400 1 1 0 0"),
            (query(*WWW, flags=0x07F0), "8500 1 1 0 0"),
            (query("alias.example.", A), "8500 1 2 0 0"),
            (query("a.old.example.", A), "8503 1 2 1 0"),
            (query("www.example.", AAAA), "8500 1 0 1 0"),
            (query("no.example.", A), "8503 1 0 1 0"),
            (query("a.w.example.", TXT), "8500 1 1 0 0"),
            (query("a.sub.example.", A), "8100 1 0 1 1"),
            (query("WWW.eXample.", ANY), "8500 1 1 0 0"),
        ],
    ),
    (
        "RFC 1034, 4.3.2, step 3a: a CNAME is followed, and what its target has is after it",
        CHAINS,
        UDP,
        [
            (query("one.example.", A), "8500 1 2 0 0"),
            (query("two.example.", A), "8500 1 3 0 0"),
            (query("TWO.example.", TXT), "8500 1 3 0 0"),
            (query("two.example.", CNAME), "8500 1 1 0 0"),
            (query("two.example.", ANY), "8500 1 1 0 0"),
            (query("a.w.example.", A), "8500 1 5 0 0"),
            (query("a.w.example.", CNAME), "8500 1 1 0 0"),
            (query("a.w.example.", ANY), "8500 1 1 0 0"),
        ],
    ),
    (
        "RFC 6604, 3; RFC 2308, 2.1 and 2.2: the code is that of the last name, with the SOA of a negative response",
        CHAINS,
        UDP,
        [
            (query("gone.example.", A), "8503 1 1 1 0"),
            (query("two.example.", AAAA), "8500 1 2 1 0"),
            (query("a.w.example.", AAAA), "8500 1 4 1 0"),
            (query("gone.example.", A, opts=edns(1232, DO)), "8503 1 1 1 1"),
        ],
    ),
    (
        "RFC 1034, 4.3.2: a chain that leaves the zone ends with its alias, and one that comes to a cut with a referral",
        CHAINS,
        UDP,
        [
            (query("out.example.", A), "8500 1 1 0 0"),
            (query("up.example.", A), "8500 1 2 0 0"),
            (query("cut.example.", A), "8500 1 1 1 1"),
            (query("cut.example.", A, opts=edns(1232)), "8500 1 1 1 2"),
        ],
    ),
    (
        "A chain that comes back to a name ends before it, and of a long one sixteen aliases are followed",
        CHAINS,
        UDP,
        [
            (query("self.example.", A), "8500 1 1 0 0"),
            (query("0.of2.example.", A), "8500 1 2 0 0"),
            (query("0.OF3.example.", A), "8500 1 3 0 0"),
            (query("into.example.", A), "8500 1 4 0 0"),
            (query("c0.example.", A), "8500 1 17 0 0"),
            (query("c1.example.", A), "8500 1 17 0 0"),
            (query("c2.example.", A), "8500 1 17 0 0"),
            (query("c3.example.", A), "8500 1 16 0 0"),
            (query("c2.example.", AAAA), "8500 1 16 1 0"),
            (query("c1.example.", AAAA), "8500 1 17 0 0"),
        ],
    ),
    (
        "RFC 6672, 2.2 and 3.2: a DNAME is followed, and a name that would be too long is YXDOMAIN",
        CHAINS,
        UDP,
        [
            (query("a.old.example.", A), "8500 1 5 0 0"),
            (query("a.old.example.", DNAME), "8500 1 4 1 0"),
            (query("b.old.example.", A), "8500 1 3 0 0"),
            (query("b.old.example.", AAAA), "8500 1 2 1 0"),
            (query("c.old.example.", A), "8503 1 2 1 0"),
            (query("a.old.example.", CNAME), "8500 1 2 0 0"),
            (query("a.old.example.", ANY), "8500 1 2 0 0"),
            (query("a.loop.example.", A), "8500 1 4 0 0"),
            (query("far.example.", A), "8506 1 2 0 0"),
        ],
    ),
    (
        "RFC 6672, 2.2; RFC 6604, 3: a DNAME chain that grows ends with YXDOMAIN, or at the limit",
        CHAINS,
        TCP,
        [
            (query("a.grows.example.", A), "8500 1 19 0 0"),
            (query(f"{'g' * 63}.{'h' * 63}.{'i' * 63}.{'j' * 20}.grows.example.", A), "8506 1 15 0 0"),
        ],
    ),
    (
        "RFC 2181, 9: what doesn't fit of a chain is left out by whole RRsets, and the code is that of its end",
        CHAINS + LONG_END,
        UDP,
        [
            (query("to.example.", TXT), "8700 1 1 0 0"),
            (query("to.example.", TXT, opts=edns(4096)), "8700 1 1 0 1"),
            (query("c9.example.", AAAA), "8500 1 9 1 0"),
            (query(f"{'g' * 63}.{'h' * 63}.{'i' * 20}.loop.example.", A), "8700 1 3 0 0"),
        ],
    ),
    (
        "RFC 1035, 4.1.1: what isn't answered from a zone: FORMERR, NOTIMP and REFUSED",
        SMALL,
        UDP,
        [
            (b"", None),
            (query(*WWW)[:11], None),
            (query(*WWW, flags=0x8000), None),
            (query(*WWW)[:12], "8101 0 0 0 0"),
            (query(*WWW)[:-1], "8101 0 0 0 0"),
            (query(*WWW, counts=(0, 0, 0, 0)), "8101 0 0 0 0"),
            (query(*WWW, counts=(2, 0, 0, 0)), "8101 1 0 0 0"),
            (query(*WWW, counts=(2, 0, 0, 0), tail=b"\0\0\1\0\1"), "8101 1 0 0 0"),
            (query(*WWW, counts=(1, 1, 0, 0)), "8101 1 0 0 0"),
            (query(*WWW, counts=(1, 0, 0, 1)), "8101 1 0 0 0"),
            (query(*WWW, flags=RD | 1 << 11), "8904 1 0 0 0"),
            (query("example.", SOA, flags=NOTIFY << 11), "a004 1 0 0 0"),
            (query("example.", SOA, flags=UPDATE << 11), "a804 1 0 0 0"),
            *((query(*WWW, flags=it << 11), f"{0x8004 | it << 11:x} 1 0 0 0") for it in (2, 3, 6, 7, 15)),
            (query(*WWW, rclass=3), "8105 1 0 0 0"),
            (query(*WWW, rclass=255), "8105 1 0 0 0"),
            (query("www.example.net.", A), "8105 1 0 0 0"),
            (query(".", NS), "8105 1 0 0 0"),
            (query(*WWW, tail=b"octets after the message"), "8500 1 1 0 0"),
        ],
    ),
    (
        "RFC 2930, 4; RFC 6895, 3.1: types that aren't asked for, or that aren't served",
        SMALL,
        UDP,
        [
            *((query("www.example.", it), "8104 1 0 0 0") for it in (TKEY, IXFR, AXFR, MAILB, MAILA)),
            *((query("www.example.", it), "8101 1 0 0 0") for it in (0, OPT, 128, 248, 250, 65535)),
            *((query("www.example.", it), "8500 1 0 1 0") for it in (127, 256, 65534)),
        ],
    ),
    (
        "RFC 6891, 6.1; RFC 3225, 3: the OPT record of a response, BADVERS, and two OPT records",
        SMALL,
        UDP,
        [
            (query(*WWW, opts=edns(1232)), "8500 1 1 0 1"),
            (query(*WWW, opts=edns(0, DO)), "8500 1 1 0 1"),
            (query(*WWW, opts=edns(4096, 0x7FFF)), "8500 1 1 0 1"),
            (query(*WWW, opts=edns(1232, 0x0001_0000)), "8100 1 0 0 1"),
            (query(*WWW, opts=edns(1232, 0x00FF_8000), flags=0x2800), "a800 1 0 0 1"),
            (query(*WWW, opts=edns(1232, 0xFF00_0000)), "8500 1 1 0 1"),
            (query(*WWW, opts=edns(4096, DO) + edns(512)), "8101 1 0 0 1"),
            (query(*WWW, opts=[("a.", 4096, 0)]), "8101 1 0 0 1"),
            (query(*WWW, opts=edns(1232), counts=(1, 1, 0, 0)), "8500 1 1 0 0"),
            (query(*WWW, opts=edns(1232))[:-1], "8101 1 0 0 0"),
            (query(*WWW, opts=edns(1232), rclass=3), "8105 1 0 0 1"),
            (query("www.example.", AXFR, opts=edns(1232)), "8104 1 0 0 1"),
            (query("no.example.", A, opts=edns(1232)), "8503 1 0 1 1"),
        ],
    ),
    (
        "RFC 1035, 4.2.1; RFC 2181, 9; RFC 6891, 6.2: what doesn't fit a datagram is left out by whole RRsets",
        LONG + SOME + BELOW + BESIDE + MANY,
        UDP,
        [
            (query("some.example.", TXT), "8700 1 0 0 0"),
            (query("some.example.", TXT, opts=edns(512)), "8700 1 0 0 1"),
            (query("some.example.", TXT, opts=edns(680)), "8700 1 0 0 1"),
            (query("some.example.", TXT, opts=edns(681)), "8500 1 20 0 1"),
            (query("long.example.", TXT, opts=edns(4096)), "8700 1 0 0 1"),
            (query("many.example.", A), "8300 1 0 0 0"),
            (query("many.example.", A, opts=edns(4096)), "8100 1 0 12 1"),
            (query("below.example.", A), "8300 1 0 4 15"),
            (query("below.example.", A, opts=edns(4096)), "8100 1 0 4 41"),
            (query("beside.example.", A), "8100 1 0 3 1"),
            (query("beside.example.", A, opts=edns(4096)), "8100 1 0 3 19"),
        ],
    ),
    (
        "RFC 1035, 4.2.2: a stream takes 65,535 octets",
        LONG + BELOW,
        TCP,
        [
            (query("long.example.", TXT), "8500 1 40 0 0"),
            (query("below.example.", A), "8100 1 0 4 40"),
            (query("long.example.", TXT, opts=edns(0)), "8500 1 40 0 1"),
        ],
    ),
    (
        "RFC 1035, 4.2.2: a message of 65,535 octets, and an RRset that has an octet more",
        HUGE + LAST,
        TCP,
        [(query("huge.example.", TXT), "8500 1 245 0 0"), (query("huge.example.", TXT, opts=edns(0)), "8700 1 0 0 1")],
    ),
    (
        "RFC 1035, 4.2.2: a message of 65,535 octets, and an RRset that has an octet more",
        HUGE + TOO_LONG,
        TCP,
        [(query("huge.example.", TXT), "8700 1 0 0 0")],
    ),
]

# ---- DNSSEC

NAMED = "A NS CNAME SOA HINFO MX TXT AAAA DNAME DS RRSIG NSEC DNSKEY".split()
TYPES = dict(zip([A, NS, CNAME, SOA, HINFO, MX, TXT, AAAA, DNAME, DS, RRSIG, NSEC, DNSKEY], NAMED))
KEY_TAG, OTHER_TAG = 38519, 9465
UNTIL, SINCE = 1084127779, 1081535779  # 20040509183619 and 20040409183619


def rrsig(owner, covered, tag=KEY_TAG, algorithm=5, ttl=3600):
    """The data of an RRSIG as in RFC 4035, appendix A (RFC 4034, 3.1), with a short signature. An asterisk isn't among
    the labels that it counts (RFC 4034, 3.1.3)."""
    labels = len(zones.labels_of(owner.removeprefix("*.")))
    return struct.pack(">HBBIIIH", covered, algorithm, labels, ttl, UNTIL, SINCE, tag) + NAME("example.") + b"signed"


def covering(covered, octets):
    """Data of so many octets that cover a type."""
    return struct.pack(">H", covered).ljust(octets, b"s")


def with_rrsigs(rows, unsigned=()):
    """The rows, and an RRSIG for each of their RRsets: not for glue, which has these owners, and not for name servers
    at a cut (RFC 4035, 2.2). The apex is example."""
    sets = dict.fromkeys(it[:2] for it in rows if it[0] not in unsigned and (it[1] != NS or it[0] == "example."))
    return rows + [(owner, RRSIG, rrsig(owner, rtype)) for owner, rtype in sets]


def with_nsecs(rows, names):
    """The rows, and NSEC records at these names, each with the next as its own next name, after the last the first."""
    owned = {name: {rtype for owner, rtype, *_ in rows if owner == name} | {RRSIG, NSEC} for name in names}
    following = [*names[1:], names[0]]
    return rows + [(name, NSEC, drawing.nsec(then, sorted(owned[name]))) for name, then in zip(names, following)]


# The zone of RFC 4035, appendix A: what the table of zones has of it, its SOA, its keys in short, and the signatures.
APPENDIX_SOA = NAME("ns1.example.") + NAME("bugs.x.w.example.")
APPENDIX_SOA += struct.pack(">5I", 1081539377, 3600, 300, 3600000, 3600)
APPENDIX_GLUE = ["ns1.a.example.", "ns2.a.example.", "ns1.b.example.", "ns2.b.example."]
APPENDIX = with_rrsigs(
    [
        ("example.", SOA, APPENDIX_SOA),
        *drawing.SIGNED_EXAMPLE,
        ("example.", DNSKEY, bytes.fromhex("01000305") + b"zone"),
        ("example.", DNSKEY, bytes.fromhex("01010305") + b"entry"),
    ],
    APPENDIX_GLUE,
) + [("example.", RRSIG, rrsig("example.", DNSKEY, OTHER_TAG))]
UNSIGNED = [it for it in APPENDIX if it[1] != RRSIG]
WITHOUT_NSEC = [it for it in APPENDIX if it[1] != NSEC]

# Its questions of appendix B, and what RFC 4035 has in the answers. In B.1 and B.6 that is also the name servers of the
# apex and addresses of what the answer names. These are left out here, as a server needn't add them.
GLUE_A, GLUE_B = (f"ns1.{it}.example. A, ns2.{it}.example. A" for it in "ab")
APPENDIX_B = [
    ("x.w.example.", MX, "8400 1 2 0", "x.w.example. MX ~MX", "", ""),
    ("ml.example.", A, "8403 1 0 6", "", "example. SOA ~SOA, b.example. NSEC ~NSEC, example. NSEC ~NSEC", ""),
    ("ns1.example.", MX, "8400 1 0 4", "", "example. SOA ~SOA, ns1.example. NSEC ~NSEC", ""),
    ("mc.a.example.", MX, "8000 1 0 4", "", "a.example. NS NS DS ~DS", GLUE_A),
    ("mc.b.example.", MX, "8000 1 0 4", "", "b.example. NS NS NSEC ~NSEC", GLUE_B),
    ("a.z.w.example.", MX, "8400 1 2 2", "a.z.w.example. MX ~MX", "x.y.w.example. NSEC ~NSEC", ""),
    (
        "a.z.w.example.",
        AAAA,
        "8400 1 0 6",
        "",
        "example. SOA ~SOA, x.y.w.example. NSEC ~NSEC, *.w.example. NSEC ~NSEC",
        "",
    ),
    ("example.", DS, "8400 1 0 4", "", "example. SOA ~SOA NSEC ~NSEC", ""),
]
PLAIN_B = [
    ("x.w.example.", MX, "8400 1 1 0", "x.w.example. MX", "", ""),
    ("ml.example.", A, "8403 1 0 1", "", "example. SOA", ""),
    ("ns1.example.", MX, "8400 1 0 1", "", "example. SOA", ""),
    ("mc.a.example.", MX, "8000 1 0 2", "", "a.example. NS NS", GLUE_A),
    ("mc.b.example.", MX, "8000 1 0 2", "", "b.example. NS NS", GLUE_B),
    ("a.z.w.example.", MX, "8400 1 1 0", "a.z.w.example. MX", "", ""),
    ("a.z.w.example.", AAAA, "8400 1 0 1", "", "example. SOA", ""),
    ("example.", DS, "8400 1 0 1", "", "example. SOA", ""),
]


def with_do(name, rtype, size=OWN, **more):
    return query(name, rtype, opts=edns(size, DO), **more)


def appendix_b(told, opts):
    """The questions of appendix B with these OPT records, each with what must come."""
    for name, rtype, header, answer, authority, additional in told:
        number = len(opts) + len(additional.split(",")) * bool(additional)
        yield query(name, rtype, flags=0, opts=opts), f"{header} {number}", answer, authority, additional


# Chains in a signed zone. SOA_DATA of the table of zones has a MINIMUM of 0, so the SOA has that TTL where it denies.
APEX = [("example.", SOA, drawing.SOA_DATA), ("example.", NS, NAME("ns.example.net."))]
SOA_SIGNED = "example. SOA/0 ~SOA/0"
CHAINED = with_rrsigs(
    with_nsecs(
        [
            *APEX,
            ("alias.example.", CNAME, NAME("m.example.")),
            ("d.example.", DNAME, NAME("w.example.")),
            ("ds.example.", CNAME, NAME("sub.example.")),
            ("m.example.", A, AT),
            ("*.r.example.", CNAME, NAME("a.r.example.")),
            ("sub.example.", NS, NAME("ns.sub.example.")),
            ("sub.example.", DS, bytes.fromhex("00010802")),
            ("ns.sub.example.", A, AT),
            ("*.t.example.", CNAME, NAME("q.w.example.")),
            ("uns.example.", NS, NAME("ns.sub.example.")),
            ("*.v.example.", CNAME, NAME("a.sub.example.")),
            ("*.w.example.", CNAME, NAME("no.example.")),
            ("*.x.example.", CNAME, NAME("xx.example.")),
            ("*.y.example.", CNAME, NAME("www.example.net.")),
            ("*.z.example.", CNAME, NAME("m.example.")),
        ],
        ["example.", "alias.example.", "d.example.", "ds.example.", "m.example.", "*.r.example.", "sub.example."]
        + [f"{it}.example." for it in ("*.t", "uns", "*.v", "*.w", "*.x", "*.y", "*.z")],
    ),
    ["ns.sub.example."],
)
NO_EXAMPLE = "m.example. NSEC ~NSEC, example. NSEC ~NSEC"

# A wildcard right below the apex, and the one of the root.
STARRED = with_rrsigs(
    with_nsecs([*APEX, ("*.example.", A, AT), ("m.example.", A, AT)], ["example.", "*.example.", "m.example."])
)
ROOT = [
    (".", SOA, drawing.SOA_DATA),
    (".", NS, NAME("ns.")),
    (".", NSEC, drawing.nsec("*.", [NS, SOA, NSEC])),
    (".", RRSIG, covering(NSEC, 3)),
    (".", RRSIG, covering(SOA, 3)),
    ("*.", TXT, drawing.text("w")),
    ("*.", NSEC, drawing.nsec(".", [TXT, NSEC])),
    ("*.", RRSIG, covering(TXT, 3)),
    ("*.", RRSIG, covering(NSEC, 3)),
]

# Signatures of each kind.
KINDS = [
    *APEX,
    ("two.example.", A, AT),
    ("two.example.", TXT, drawing.text("t")),
    *(("two.example.", RRSIG, rrsig("two.example.", A, algorithm=it)) for it in (5, 8)),
    *(("two.example.", RRSIG, rrsig("two.example.", it)) for it in (TXT, MX)),
    ("Mixed.eXample.", A, AT),
    ("mIXED.EXAMPLE.", RRSIG, rrsig("mixed.example.", A)),
    ("ttl.example.", A, AT, 300),
    ("ttl.example.", RRSIG, rrsig("ttl.example.", A), 60),
    ("ttl.example.", RRSIG, rrsig("ttl.example.", A, algorithm=8), 7200),
    ("ttl.example.", RRSIG, rrsig("ttl.example.", TXT), 7),
    ("*.w.example.", TXT, drawing.text("w"), 30),
    ("*.w.example.", RRSIG, rrsig("*.w.example.", TXT), 900),
    *((f"{it}.w.example.", RRSIG, rrsig("*.w.example.", TXT)) for it in ("own", "a.low")),
    *(("short.example.", RRSIG, it) for it in (b"", b"\0", b"\1", b"\0\0", b"\0\1")),
    ("short.example.", A, AT),
    *(("shorter.example.", RRSIG, it) for it in (b"", b"\0")),
    ("shorter.example.", A, AT),
    ("none.example.", A, AT),
    ("none.example.", RRSIG, rrsig("none.example.", AAAA)),
    ("d.example.", DNAME, NAME("none.example.")),
    ("d.example.", RRSIG, rrsig("d.example.", DNAME)),
    ("d.example.", RRSIG, rrsig("d.example.", CNAME)),
    ("cut.example.", NS, NAME("ns.cut.example.")),
    ("cut.example.", NS, NAME("two.example.")),
    ("cut.example.", RRSIG, rrsig("cut.example.", NS)),
    ("ns.cut.example.", A, AT),
    ("ns.cut.example.", AAAA, bytes(16)),
    ("ns.cut.example.", RRSIG, rrsig("ns.cut.example.", A)),
]
ITSELF = [
    *APEX,
    ("self.example.", RRSIG, rrsig("self.example.", RRSIG)),
    ("self.example.", RRSIG, rrsig("self.example.", A), 60),
]

# A wildcard that lacks its NSEC record.
LACKING = [
    *APEX,
    ("*.example.", CNAME, NAME("m.example.")),
    ("m.example.", NSEC, drawing.nsec("example.", [NSEC])),
]

# What fits, and not with an octet less. Header, question and OPT record take 40 octets for fit.example., a text and its
# signatures 112, 212 and 236 after it: 600. For no.example. they take 39, then the SOA 34, its signature 512, the NSEC
# 29 and its signature 86: 700.
FITS = [
    *APEX,
    ("fit.example.", TXT, bytes([99]) + bytes(99)),
    ("fit.example.", RRSIG, covering(TXT, 200)),
    ("fit.example.", RRSIG, covering(TXT, 224)),
    ("example.", RRSIG, covering(SOA, 500)),
    ("example.", NSEC, drawing.nsec("example.", [NS, SOA, NSEC])),
    ("example.", RRSIG, covering(NSEC, 74)),
]
# Addresses beside a cut: 44 octets for www.far.example., name servers 52, an address 21, its signature 495, an address
# 18, its signature 70: 700. Then an address below a cut: 45 octets for www.near.example., name servers 55, the address
# 19. After it come an address beside the cut, 21, its signature, 495, and the signature of the first, 481: 1116.
BESIDES = [
    *APEX,
    ("far.example.", NS, NAME("a.ns.example.")),
    ("far.example.", NS, NAME("b.ns.example.")),
    ("a.ns.example.", A, AT),
    ("a.ns.example.", RRSIG, covering(A, 483)),
    ("b.ns.example.", A, AT),
    ("b.ns.example.", RRSIG, covering(A, 58)),
    ("near.example.", NS, NAME("a.ns.example.")),
    ("near.example.", NS, NAME("ns.near.example.")),
    ("ns.near.example.", A, AT),
    ("ns.near.example.", RRSIG, covering(A, 469)),
]

# What is asked, by which RFC; the records; how the responses are sent; the queries, each with the octets of flags and
# the counts, and the sections: owners with the types of their records. ~ is before the type that an RRSIG covers, and a
# TTL other than 3600 is after a type. Commas are between owners, and the OPT record is left out.
SIGNED_TOLD = [
    ("RFC 4035, appendix B.1 to B.8, with DO", APPENDIX, UDP, [*appendix_b(APPENDIX_B, edns(OWN, DO))]),
    (
        "RFC 4035, 3.1: the same without EDNS, and with DO clear",
        APPENDIX,
        UDP,
        [*appendix_b(PLAIN_B, []), *appendix_b(PLAIN_B, edns(OWN, 0x7FFF))],
    ),
    (
        "RFC 4035, 3.1.1; RFC 4592, 4.7 and 4.8: questions for records of DNSSEC, and for all types",
        APPENDIX,
        UDP,
        [
            (with_do("ns1.example.", RRSIG), "8500 1 2 0 1", "ns1.example. ~A ~NSEC", "", ""),
            (with_do("ns1.example.", NSEC), "8500 1 2 0 1", "ns1.example. NSEC ~NSEC", "", ""),
            (with_do("NS1.Example.", ANY), "8500 1 2 0 1", "NS1.Example. A ~A", "", ""),
            (with_do("example.", ANY), "8500 1 3 0 1", "example. NS NS ~NS", "", ""),
            (with_do("example.", SOA), "8500 1 2 0 1", "example. SOA ~SOA", "", ""),
            (with_do("example.", DNSKEY), "8500 1 4 0 1", "example. DNSKEY DNSKEY ~DNSKEY ~DNSKEY", "", ""),
            (with_do("a.example.", DS), "8500 1 2 0 1", "a.example. DS ~DS", "", ""),
            (with_do("b.example.", DS), "8500 1 0 4 1", "", "example. SOA ~SOA, b.example. NSEC ~NSEC", ""),
            (with_do("a.example.", NSEC), "8100 1 0 4 3", "", "a.example. NS NS DS ~DS", GLUE_A),
            (with_do("b.example.", RRSIG), "8100 1 0 4 3", "", "b.example. NS NS NSEC ~NSEC", GLUE_B),
            (
                with_do("a.z.w.example.", NSEC),
                "8500 1 2 2 1",
                "a.z.w.example. NSEC ~NSEC",
                "x.y.w.example. NSEC ~NSEC",
                "",
            ),
            (
                with_do("a.z.w.example.", RRSIG),
                "8500 1 2 2 1",
                "a.z.w.example. ~MX ~NSEC",
                "x.y.w.example. NSEC ~NSEC",
                "",
            ),
            (with_do("a.z.w.example.", ANY), "8500 1 2 2 1", "a.z.w.example. MX ~MX", "x.y.w.example. NSEC ~NSEC", ""),
        ],
    ),
    (
        "RFC 4035, 3.1.3; RFC 4592, 2.2.2: empty non-terminals, one NSEC for both names, and what isn't answered",
        APPENDIX,
        UDP,
        [
            (with_do("w.example.", A), "8500 1 0 4 1", "", "example. SOA ~SOA, ns2.example. NSEC ~NSEC", ""),
            (with_do("z.ns1.example.", A), "8503 1 0 4 1", "", "example. SOA ~SOA, ns1.example. NSEC ~NSEC", ""),
            (
                with_do("zz.example.", A),
                "8503 1 0 6 1",
                "",
                "example. SOA ~SOA, xx.example. NSEC ~NSEC, example. NSEC ~NSEC",
                "",
            ),
            (with_do("example.net.", A), "8105 1 0 0 1", "", "", ""),
            (with_do("ml.example.", A, rclass=3), "8105 1 0 0 1", "", "", ""),
            (with_do("ml.example.", 0), "8101 1 0 0 1", "", "", ""),
            (query("ml.example.", A, opts=edns(OWN, 0xFF00_FFFF)), "8503 1 0 6 1", *APPENDIX_B[1][3:]),
            (query("ml.example.", A, opts=edns(OWN, 0x0001_8000)), "8100 1 0 0 1", "", "", ""),
            (query("ml.example.", A, opts=2 * edns(OWN, DO)), "8101 1 0 0 1", "", "", ""),
            (query("ml.example.", A, opts=[("a.", OWN, DO)]), "8101 1 0 0 1", "", "", ""),
        ],
    ),
    (
        "RFC 4035, 3.1.3: each question of a chain has what denies for it, and the chain has each RRset once",
        CHAINED,
        UDP,
        [
            (with_do("alias.example.", A), "8500 1 4 0 1", "alias.example. CNAME ~CNAME, m.example. A ~A", "", ""),
            (
                with_do("a.z.example.", A),
                "8500 1 4 2 1",
                "a.z.example. CNAME ~CNAME, m.example. A ~A",
                "*.z.example. NSEC ~NSEC",
                "",
            ),
            (
                with_do("x.w.example.", A),
                "8503 1 2 8 1",
                "x.w.example. CNAME ~CNAME",
                f"{SOA_SIGNED}, *.w.example. NSEC ~NSEC, {NO_EXAMPLE}",
                "",
            ),
            (
                with_do("x.x.example.", A),
                "8503 1 2 6 1",
                "x.x.example. CNAME ~CNAME",
                f"{SOA_SIGNED}, *.x.example. NSEC ~NSEC, example. NSEC ~NSEC",
                "",
            ),
            (
                with_do("p.t.example.", A),
                "8503 1 4 10 1",
                "p.t.example. CNAME ~CNAME, q.w.example. CNAME ~CNAME",
                f"{SOA_SIGNED}, *.t.example. NSEC ~NSEC, *.w.example. NSEC ~NSEC, {NO_EXAMPLE}",
                "",
            ),
            (
                with_do("b.r.example.", A),
                "8500 1 4 2 1",
                "b.r.example. CNAME ~CNAME, a.r.example. CNAME ~CNAME",
                "*.r.example. NSEC ~NSEC",
                "",
            ),
            (with_do("b.y.example.", A), "8500 1 2 2 1", "b.y.example. CNAME ~CNAME", "*.y.example. NSEC ~NSEC", ""),
            (
                with_do("b.w.example.", CNAME),
                "8500 1 2 2 1",
                "b.w.example. CNAME ~CNAME",
                "*.w.example. NSEC ~NSEC",
                "",
            ),
            (
                with_do("a.d.example.", A),
                "8503 1 5 8 1",
                "d.example. DNAME ~DNAME, a.d.example. CNAME, a.w.example. CNAME ~CNAME",
                f"{SOA_SIGNED}, *.w.example. NSEC ~NSEC, {NO_EXAMPLE}",
                "",
            ),
            (with_do("d.example.", A), "8500 1 0 4 1", "", f"{SOA_SIGNED}, d.example. NSEC ~NSEC", ""),
        ],
    ),
    (
        "RFC 4035, 3.1.4: a referral with a DS RRset, and one without, also at the end of a chain",
        CHAINED,
        UDP,
        [
            (with_do("a.sub.example.", A), "8100 1 0 3 2", "", "sub.example. NS DS ~DS", "ns.sub.example. A"),
            (with_do("a.uns.example.", A), "8100 1 0 3 2", "", "uns.example. NS NSEC ~NSEC", "ns.sub.example. A"),
            (
                with_do("y.v.example.", A),
                "8500 1 2 5 2",
                "y.v.example. CNAME ~CNAME",
                "sub.example. NS, *.v.example. NSEC ~NSEC, sub.example. DS ~DS",
                "ns.sub.example. A",
            ),
            (
                with_do("ds.example.", A),
                "8500 1 2 3 2",
                "ds.example. CNAME ~CNAME",
                "sub.example. NS DS ~DS",
                "ns.sub.example. A",
            ),
            (with_do("ds.example.", DS), "8500 1 4 0 1", "ds.example. CNAME ~CNAME, sub.example. DS ~DS", "", ""),
            (query("y.v.example.", A), "8500 1 1 1 1", "y.v.example. CNAME", "sub.example. NS", "ns.sub.example. A"),
        ],
    ),
    (
        "RFC 4035, 3.1.3.3 and 3.1.3.4: a wildcard right below the apex",
        STARRED,
        UDP,
        [
            (with_do("x.example.", A), "8500 1 2 2 1", "x.example. A ~A", "m.example. NSEC ~NSEC", ""),
            (with_do("a.b.example.", A), "8500 1 2 2 1", "a.b.example. A ~A", "*.example. NSEC ~NSEC", ""),
            (with_do("*.example.", A), "8500 1 2 0 1", "*.example. A ~A", "", ""),
            (with_do("a.example.", MX), "8500 1 0 4 1", "", f"{SOA_SIGNED}, *.example. NSEC ~NSEC", ""),
            (
                with_do("x.example.", MX),
                "8500 1 0 6 1",
                "",
                f"{SOA_SIGNED}, m.example. NSEC ~NSEC, *.example. NSEC ~NSEC",
                "",
            ),
            (with_do("a.m.example.", A), "8503 1 0 4 1", "", f"{SOA_SIGNED}, m.example. NSEC ~NSEC", ""),
        ],
    ),
    (
        "RFC 4035, 3.1.3.3 and 3.1.3.4: a wildcard right below the root",
        ROOT,
        UDP,
        [
            (with_do("a.b.", TXT), "8500 1 2 2 1", "a.b. TXT ~TXT", "*. NSEC ~NSEC", ""),
            (with_do("a.b.", A), "8500 1 0 4 1", "", ". SOA/0 ~SOA/0, *. NSEC ~NSEC", ""),
            (with_do(".", A), "8500 1 0 4 1", "", ". SOA/0 ~SOA/0 NSEC ~NSEC", ""),
            (with_do(".", NS), "8500 1 1 0 1", ". NS", "", ""),
            (with_do("a.*.", TXT), "8503 1 0 4 1", "", ". SOA/0 ~SOA/0, *. NSEC ~NSEC", ""),
        ],
    ),
    (
        "RFC 4035, 3.1.1; RFC 4034, 3: the signatures of an RRset are those that cover its type, with its TTL",
        KINDS,
        UDP,
        [
            (with_do("two.example.", A), "8500 1 3 0 1", "two.example. A ~A ~A", "", ""),
            (with_do("two.example.", TXT), "8500 1 2 0 1", "two.example. TXT ~TXT", "", ""),
            (with_do("two.example.", MX), "8500 1 0 1 1", "", "example. SOA/0", ""),
            (with_do("two.example.", RRSIG), "8500 1 4 0 1", "two.example. ~A ~A ~MX ~TXT", "", ""),
            (with_do("mixed.example.", A), "8500 1 2 0 1", "mixed.example. A ~A", "", ""),
            (with_do("ttl.example.", A), "8500 1 3 0 1", "ttl.example. A/300 ~A/300 ~A/300", "", ""),
            (with_do("ttl.example.", RRSIG), "8500 1 3 0 1", "ttl.example. ~A/60 ~A/60 ~TXT/7", "", ""),
            (with_do("a.w.example.", TXT), "8500 1 2 0 1", "a.w.example. TXT/30 ~TXT/30", "", ""),
            (with_do("own.w.example.", TXT), "8500 1 0 1 1", "", "example. SOA/0", ""),
            (with_do("low.w.example.", TXT), "8500 1 0 1 1", "", "example. SOA/0", ""),
            (with_do("short.example.", A), "8500 1 2 0 1", "short.example. A ~A", "", ""),
            (with_do("short.example.", RRSIG), "8500 1 5 0 1", "short.example. ~- ~- ~0 ~A ~-", "", ""),
            (with_do("shorter.example.", A), "8500 1 1 0 1", "shorter.example. A", "", ""),
            (with_do("none.example.", A), "8500 1 1 0 1", "none.example. A", "", ""),
            (
                with_do("none.d.example.", A),
                "8503 1 3 1 1",
                "d.example. DNAME ~DNAME, none.d.example. CNAME",
                "example. SOA/0",
                "",
            ),
            (
                with_do("a.cut.example.", A),
                "8100 1 0 3 7",
                "",
                "cut.example. NS NS ~NS",
                "ns.cut.example. A AAAA ~A, two.example. A ~A ~A",
            ),
        ],
    ),
    (
        "RFC 4035, 2.2: an RRSIG isn't signed: its records are there once, also where one of them covers RRSIG",
        ITSELF,
        UDP,
        [(with_do("self.example.", RRSIG), "8500 1 2 0 1", "self.example. ~A/60 ~RRSIG", "", "")],
    ),
    (
        "RFC 4035, 3.1.3.3: where NSEC records are missing, the one that denies can be the one that is asked for",
        LACKING,
        UDP,
        [
            (with_do("z.example.", NSEC), "8500 1 2 1 1", "z.example. CNAME, m.example. NSEC", "m.example. NSEC", ""),
            (with_do("b.example.", NSEC), "8500 1 2 0 1", "b.example. CNAME, m.example. NSEC", "", ""),
        ],
    ),
    (
        "RFC 4035, 3.1.1: signatures that just fit, and that have an octet too much, with TC",
        FITS,
        UDP,
        [
            (with_do("fit.example.", TXT, 600), "8500 1 3 0 1", "fit.example. TXT ~TXT ~TXT", "", ""),
            (with_do("fit.example.", TXT, 599), "8700 1 1 0 1", "fit.example. TXT", "", ""),
            (query("fit.example.", TXT, opts=edns(599)), "8500 1 1 0 1", "fit.example. TXT", "", ""),
            (with_do("no.example.", A, 700), "8503 1 0 4 1", "", "example. SOA/0 ~SOA/0 NSEC ~NSEC", ""),
            (with_do("no.example.", A, 699), "8703 1 0 3 1", "", "example. SOA/0 ~SOA/0 NSEC", ""),
            (with_do("no.example.", A, 614), "8703 1 0 3 1", "", "example. SOA/0 ~SOA/0 NSEC", ""),
            (with_do("no.example.", A, 613), "8703 1 0 2 1", "", "example. SOA/0 ~SOA/0", ""),
            (with_do("no.example.", A, 585), "8703 1 0 2 1", "", "example. SOA/0 ~SOA/0", ""),
            (with_do("no.example.", A, 584), "8703 1 0 1 1", "", "example. SOA/0", ""),
            (with_do("no.example.", A, 512), "8703 1 0 1 1", "", "example. SOA/0", ""),
        ],
    ),
    (
        "RFC 4035, 3.1.1: signatures that have an octet too much for the additional section, without TC",
        BESIDES,
        UDP,
        [
            (
                with_do("www.far.example.", A, 700),
                "8100 1 0 2 5",
                "",
                "far.example. NS NS",
                "a.ns.example. A ~A, b.ns.example. A ~A",
            ),
            (
                with_do("www.far.example.", A, 699),
                "8100 1 0 2 4",
                "",
                "far.example. NS NS",
                "a.ns.example. A ~A, b.ns.example. A",
            ),
            (with_do("www.far.example.", A, 629), "8100 1 0 2 3", "", "far.example. NS NS", "a.ns.example. A ~A"),
            (with_do("www.far.example.", A, 611), "8100 1 0 2 2", "", "far.example. NS NS", "a.ns.example. A"),
        ],
    ),
    (
        "RFC 9471, 3.1; RFC 4035, 3.1.1: addresses at a cut are required, and signatures that they have aren't",
        BESIDES,
        UDP,
        [
            (
                with_do("www.near.example.", A),
                "8100 1 0 2 5",
                "",
                "near.example. NS NS",
                "ns.near.example. A, a.ns.example. A ~A, ns.near.example. ~A",
            ),
            *(
                (
                    with_do("www.near.example.", A, it),
                    "8100 1 0 2 3",
                    "",
                    "near.example. NS NS",
                    "ns.near.example. A, a.ns.example. A",
                )
                for it in (621, 600, 599)
            ),
        ],
    ),
    (
        "RFC 4035, 3.1.3: a zone with NSEC records and without RRSIG records",
        UNSIGNED,
        UDP,
        [
            (with_do("x.w.example.", MX), "8500 1 1 0 1", "x.w.example. MX", "", ""),
            (with_do("ml.example.", A), "8503 1 0 3 1", "", "example. SOA, b.example. NSEC, example. NSEC", ""),
            (with_do("mc.a.example.", MX), "8100 1 0 3 3", "", "a.example. NS NS DS", GLUE_A),
            (with_do("mc.b.example.", MX), "8100 1 0 3 3", "", "b.example. NS NS NSEC", GLUE_B),
            (with_do("a.z.w.example.", MX), "8500 1 1 1 1", "a.z.w.example. MX", "x.y.w.example. NSEC", ""),
        ],
    ),
    (
        "RFC 4035, 3.1.1: a zone with RRSIG records and without NSEC records",
        WITHOUT_NSEC,
        UDP,
        [
            (with_do("x.w.example.", MX), "8500 1 2 0 1", "x.w.example. MX ~MX", "", ""),
            (with_do("ml.example.", A), "8503 1 0 2 1", "", "example. SOA ~SOA", ""),
            (with_do("ns1.example.", NSEC), "8500 1 0 2 1", "", "example. SOA ~SOA", ""),
            (with_do("mc.a.example.", MX), "8100 1 0 4 3", "", "a.example. NS NS DS ~DS", GLUE_A),
            (with_do("mc.b.example.", MX), "8100 1 0 2 3", "", "b.example. NS NS", GLUE_B),
            (with_do("a.z.w.example.", MX), "8500 1 2 0 1", "a.z.w.example. MX ~MX", "", ""),
        ],
    ),
]

# What the drawn queries are made of.
SIZES = [0, 100, 511, 512, 513, 600, 700, 1231, 1232, 1233, 4096, 65535]
ZONES, QUERIES, SEED = 400, 8, 2181
SIGNED_SIZES = [0, 512, 513, 540, 570, 600, 650, 700, 1232, 65535]
SIGNED_ZONES, SIGNED_QUERIES, SIGNED_SEED = 250, 7, 4035


def drawn_query(draw, asked):
    """A query for one of these questions; at times an octet is changed, or it is cut."""
    name, rtype = draw.choice(asked)
    flags = draw.choice([0, RD, RD, CD, RD | CD, draw.randrange(0x8000)])
    opts = edns(draw.choice(SIZES), draw.choice([0, DO])) if draw.random() < 0.5 else []
    made = query(name, rtype, flags=flags, opts=opts)
    at = draw.randrange(len(made))
    return draw.choice(
        [made] * 6 + [made[:at], made[:at] + bytes([draw.randrange(256)]) + made[at + 1 :], made + bytes(at)]
    )


def is_plain(octets):
    """The second reader takes text of the first name: without dots in labels, and with ASCII alone."""
    if len(octets) < 12:
        return True
    names = [it[0] for it in writer.Query(octets).questions[:1]]
    return all("." not in label and label.isascii() for it in names for label in it)


def drawn_texts(draw, apex):
    """Texts in numbers and lengths that fit, or don't."""
    owner = draw.choice(["t.", "*."]) + apex.removeprefix(".")
    length, count = draw.choice([1, 20, 90, 200]), draw.randrange(1, 24)
    return [(owner, TXT, 60, bytes([length]) + b"%0*d" % (length, it)) for it in range(count if length > 1 else 9)]


def drawn_rows(draw):
    """Zones that are drawn, each with queries, and how the responses are sent."""
    while True:
        apex, records, questions = drawing.drawn_zone(draw)
        if draw.random() < 0.4:
            added = drawn_texts(draw, apex)
            records, questions = records + added, [*questions, (added[0][0], TXT)]
        zone = zones.Zone(apex)
        kept = [it for it in drawing.spelled_alike(records) if zone.insert(*it) == "."]
        if zone.is_zone() and zone.wildcards_fit():
            asked = filter(is_plain, [drawn_query(draw, questions) for _ in range(QUERIES)])
            yield zone, apex, kept, draw.choice([UDP, UDP, TCP]), draw.choice(SIZES), list(asked)


def drawn_aliases(draw, apex, known):
    """CNAMEs at wildcards, most of which lead to names below one another or beside these, and a text at one."""
    near = [f"{it}.{apex.removeprefix('.')}" for it in "defg"]
    for it in draw.sample(near, draw.randrange(4)):
        target = draw.choice([draw.choice(near), *(f"q.{draw.choice(near)}" for _ in "qq"), draw.choice(known)])
        yield f"*.{it}", CNAME, draw.choice([60, 3600]), NAME(target)
    if draw.random() < 0.5:
        yield draw.choice(["*.", ""]) + draw.choice(near), TXT, 60, drawing.text("t")


def drawn_signatures(draw, records):
    """RRSIG records of most RRsets, at times two, or with another TTL or spelling; and some that cover other types."""
    missing, lengths = draw.choice([0, 0, 0.2, 0.7, 1]), draw.choice([[2, 3, 4], [2, 3, 18], [80, 110, 111, 150]])
    for owner, rtype, ttl in dict.fromkeys((owner, rtype, ttl) for owner, rtype, ttl, _ in records):
        for _ in range(draw.choice([1, 1, 1, 2]) if draw.random() >= missing else 0):
            spelled = owner if draw.random() < 0.9 else owner.swapcase()
            data = struct.pack(">H", rtype).ljust(draw.choice(lengths), draw.choice([b"r", b"s"]))
            yield spelled, RRSIG, ttl if draw.random() < 0.8 else draw.choice([0, 60, 7200]), data
    for owner, *_ in records:
        if draw.random() < 0.1:
            covered = draw.choice([A, NS, CNAME, SOA, TXT, RRSIG, NSEC, 0])
            yield owner, RRSIG, 3600, draw.choice([struct.pack(">H", covered) + b"t", b"", b"\0", b"\1"])


def drawn_signed(draw):
    """The apex, records and questions of a zone with records of DNSSEC that is drawn."""
    apex, records, questions = drawing.drawn_zone(draw)
    records += drawing.drawn_cut(draw, apex, [apex]) if draw.random() < 0.4 else []
    known = [owner for owner, *_ in records if owner.endswith(apex)] or [apex]
    aliases = [*drawn_aliases(draw, apex, known)]
    records += aliases + (drawn_texts(draw, apex) if draw.random() < 0.3 else [])
    cuts = dict.fromkeys(owner for owner, rtype, *_ in records if rtype == NS and owner != apex)
    records += [(it, DS, 3600, drawing.text(draw.choice("ds"))) for it in cuts if draw.random() < 0.5]
    records = drawing.with_nsecs(draw, apex, records) if draw.random() < 0.9 else records
    records += drawn_signatures(draw, records)
    starred = [owner.replace("*.", draw.choice(["q.", "b.", "a.c."]), 1) for owner, *_ in records if "*." in owner]
    asked = [(draw.choice(it), draw.choice([A, TXT, DS, NSEC, RRSIG, ANY])) for it in (starred, known) if it]
    asked += [(owner.replace("*", "x"), draw.choice([A, TXT])) for owner, *_ in aliases]
    asked += [(draw.choice(["", "q."]) + owner, draw.choice([A, DS])) for owner in cuts]
    return apex, records, questions[:4] + asked


def drawn_signed_query(draw, asked):
    """A query for one of these questions, most with DO; at times an octet is changed."""
    opts = edns(draw.choice(SIGNED_SIZES), draw.choice([DO, DO, DO, DO, DO | 1, 0])) if draw.random() < 0.9 else []
    made = query(*draw.choice(asked), flags=draw.choice([0, RD]), opts=opts)
    at = draw.randrange(len(made))
    return draw.choice([made] * 15 + [made[:at] + bytes([draw.randrange(256)]) + made[at + 1 :]])


def drawn_signed_rows(draw):
    """Zones with records of DNSSEC that are drawn, each with queries, and how the responses are sent."""
    while True:
        apex, records, questions = drawn_signed(draw)
        zone = zones.Zone(apex)
        kept = [it for it in drawing.spelled_alike(records) if zone.insert(*it) == "."]
        if zone.is_zone() and zone.wildcards_fit():
            asked = filter(is_plain, [drawn_signed_query(draw, questions) for _ in range(SIGNED_QUERIES)])
            yield zone, apex, kept, draw.choice([UDP] * 5 + [TCP]), draw.choice(SIGNED_SIZES), list(asked)


def line_of(apex, records, sent, size, asked):
    shown = ";".join(f"{owner}/{rtype}/{ttl}/{data.hex() or '-'}" for owner, rtype, ttl, data in records)
    return f"respond {apex} {shown} {sent}/{size} {';'.join(it.hex() or '-' for it in asked)}"


def answers(zone, sent, size, asked):
    made = [writer.response(zone, it, sent == TCP, size) for it in asked]
    return " ".join("none" if it is None else it.hex() for it in made)


def told_rows():
    """The rows with headers beside them, which the second writer has to give."""
    for heading, rows, sent, asked in TOLD:
        zone, apex = zones.Zone("example."), "example."
        records = drawing.records_of(apex, rows)
        for it in records:
            zone.insert(*it)
        for octets, wanted in asked:
            made = writer.response(zone, octets, sent == TCP, OWN)
            flags, *counts = struct.unpack(">HHHHH", made[2:12]) if made else (0,)
            said = made and f"{flags:x} {' '.join(map(str, counts))}"
            if said != wanted:
                sys.exit(f"{heading}: {octets.hex()}: {said}, not {wanted}")
        yield heading, zone, apex, records, sent, OWN, [it[0] for it in asked]


def asked_rows():
    """The zones of the RFCs in zone_rows.py, each asked without and with EDNS, and with each octet cut."""
    for heading, apex, rows, asked in drawing.told_rows():
        zone = zones.Zone(apex)
        records = drawing.records_of(apex, rows)
        for it in records:
            zone.insert(*it)
        sent = [query(*it[:2]) for it in asked] + [query(*it[:2], opts=edns(1232, DO)) for it in asked]
        yield heading, zone, apex, records, UDP, OWN, sent + [sent[-1][:it] for it in range(len(sent[-1]))]


def shape(octets):
    """What the sections of a message have, as it is beside the rows of DNSSEC."""
    counts = struct.unpack(">HHHH", octets[4:12])
    at = writer.read_name(octets, 12)[1] + 4 if counts[0] else 12
    sections = []
    for count in counts[1:]:
        owners = []
        for _ in range(count):
            labels, at = writer.read_name(octets, at)
            rtype, _, ttl, size = struct.unpack(">HHIH", octets[at : at + 10])
            data, at = octets[at + 10 : at + 10 + size], at + 10 + size
            owner = zones.text_of(labels) if labels else "."
            if rtype == OPT:
                continue
            if not owners or owners[-1][0] != owner:
                owners.append([owner])
            owners[-1].append(shown_type(rtype, data) + f"/{ttl}" * (ttl != 3600))
        sections.append(", ".join(" ".join(it) for it in owners))
    return sections


def shown_type(rtype, data):
    """The type of a record, in place of RRSIG the type that it covers, or - for none."""
    if rtype != RRSIG:
        return TYPES[rtype]
    covered = int.from_bytes(data[:2], "big")
    return f"~{TYPES.get(covered, covered)}" if len(data) > 1 else "~-"


def records_of(rows):
    """The zone and the records of rows whose first owner is the apex. A row without a TTL has 3600."""
    records = [(owner, rtype, ttl[0] if ttl else 3600, data) for owner, rtype, data, *ttl in rows]
    zone = zones.Zone(rows[0][0])
    for it in records:
        zone.insert(*it)
    return zone, rows[0][0], records


def signed_rows():
    """The rows of DNSSEC with headers and sections beside them, which the second writer has to give."""
    for heading, rows, sent, asked in SIGNED_TOLD:
        zone, apex, records = records_of(rows)
        for octets, *wanted in asked:
            made = writer.response(zone, octets, sent == TCP, OWN)
            flags, *counts = struct.unpack(">HHHHH", made[2:12])
            said = [f"{flags:x} {' '.join(map(str, counts))}", *shape(made)]
            if said != wanted:
                sys.exit(f"{heading}: {octets.hex()}: {said}, not {wanted}")
        yield heading, zone, apex, records, sent, OWN, [it[0] for it in asked]


def cut_rows():
    """The zone of RFC 4035 again: the questions of its appendix B at sizes that leave out more and more."""
    zone, apex, records = records_of([it if it[1] != RRSIG else (*it[:2], it[2] + bytes(64)) for it in APPENDIX])
    asked = [with_do(*it[:2], size) for it in APPENDIX_B for size in (512, 520, 560, 600, 640, 1232)]
    yield "RFC 4035, appendix B, with longer signatures, at several sizes", zone, apex, records, UDP, OWN, asked


def rows():
    """Each heading and each line, with its answer."""
    draw, signed = drawn_rows(random.Random(SEED)), drawn_signed_rows(random.Random(SIGNED_SEED))
    made = [*told_rows(), *asked_rows()]
    made += [("zones and queries that are drawn", *next(draw)) for _ in range(ZONES)]
    made += [*signed_rows(), *cut_rows()]
    made += [("zones with records of DNSSEC that are drawn", *next(signed)) for _ in range(SIGNED_ZONES)]
    lines = ((topic, line_of(*it), answers(zone, *it[2:])) for topic, zone, *it in made)
    return [*drawing.headed(lines)]
