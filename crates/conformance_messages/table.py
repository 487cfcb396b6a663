#!/usr/bin/env python3
"""Writes the conformance table of messages anew: the lines to `stdin` and their answers to `stdout`, beside this file.

    table.py ANSWERER [WORD ..]
    table.py --random COUNT SEED

ANSWERER is a command that answers the lines of README.md beside this file; those of `answers`, `limit`, `any`, `typed`
and `order` are answered by second.py, those of `rebuild` by rebuild.rows or, where the message can't be read, by
second.py. The rows `text` are those of text_rows.py, which it calls last. No answer comes from the program itself.
Parts of answers that stand here beside their line must be in what is answered.

With --random it prints lines of so many random and mutated messages, always the same for a SEED.
"""
import base64
import ipaddress
import itertools
import os
import random
import subprocess
import sys

import second
import text_rows

FOLDER = os.path.dirname(os.path.abspath(__file__))
rows = []  # (line, what must be in its answer, or None)
written = {}  # the answers of rebuild.rows

A, NS, CNAME, SOA, PTR, MX, TXT, AAAA, SRV, DNAME, PRIVATE = 1, 2, 5, 6, 12, 15, 16, 28, 33, 39, 65280
KNOWN = (A, NS, CNAME, SOA, PTR, MX, AAAA, SRV, DNAME)
FLAGS = {"qr": 15, "aa": 10, "tc": 9, "rd": 8, "ra": 7, "z": 6, "ad": 5, "cd": 4}
OPCODES = {0: "QUERY", 1: "IQUERY", 2: "STATUS", 4: "NOTIFY", 5: "UPDATE", 6: "DSO"}
RCODES = dict(enumerate("NOERROR FORMERR SERVFAIL NXDOMAIN NOTIMP REFUSED YXDOMAIN YXRRSET NXRRSET NOTAUTH NOTZONE DSOTYPENI".split()))
CLASSES = {1: "IN", 3: "CH", 4: "HS", 254: "NONE", 255: "ANY"}


def hx(octets):
    return bytes(octets).hex() or "-"


def topic(text):
    rows.append(("# " + text, None))


def row(*fields, told=None):
    rows.append((" ".join(hx(f) if isinstance(f, (bytes, bytearray)) else str(f) for f in fields), told))


def u16(number):
    return number.to_bytes(2, "big")


def u32(number):
    return number.to_bytes(4, "big")


def name(text):
    labels = [label.encode("latin-1") for label in text.strip(".").split(".") if label]
    return b"".join(bytes([len(label)]) + label for label in labels) + b"\0"


def pointer(place):
    return u16(0xC000 | place)


def header(counts=(0, 0, 0, 0), ident=0x1234, bits=0x8180):
    return u16(ident) + u16(bits) + b"".join(u16(count) for count in counts)


def question(owner, rtype=A, rclass=1):
    return owner + u16(rtype) + u16(rclass)


def record(owner, rtype, data, rclass=1, ttl=3600, length=None):
    return owner + u16(rtype) + u16(rclass) + u32(ttl) + u16(len(data) if length is None else length) + data


def message(questions=(), answers=(), authority=(), additional=(), bits=0x8180):
    parts = (questions, answers, authority, additional)
    return header([len(part) for part in parts], bits=bits) + b"".join(b"".join(part) for part in parts)


SOA_NUMBERS = u32(2026112501) + u32(7200) + u32(3600) + u32(1209600) + u32(2**32 - 1)
WWW = name("www.example.com")
AT = pointer(12)  # the name of the first question
END = pointer(16)  # that without its first label
OF_TYPE = {
    A: bytes([192, 0, 2, 1]),
    NS: name("ns1.Example.com"),
    CNAME: name("Host.example.org"),
    SOA: name("ns1.example.com") + name("host\\.Master.example.com") + SOA_NUMBERS,
    PTR: name("example.net"),
    MX: u16(10) + name("Mail.example.com"),
    AAAA: bytes(range(16)),
    SRV: u16(1) + u16(65535) + u16(5060) + name("SIP.example.com"),
    DNAME: name("Other.example"),
}
WORKED = message(
    [question(WWW)],
    [
        record(AT, CNAME, b"\4host" + END),
        record(b"\4Host" + END, A, bytes([192, 0, 2, 1])),
        record(END, MX, u16(10) + b"\4mail" + END),
        record(END, TXT, b"\3a b"),
    ],
    [
        record(END, NS, b"\2ns" + END, ttl=2**32 - 1),
        record(END, SOA, b"\2ns" + END + b"\5admin" + END + SOA_NUMBERS),
        record(b"\1d" + END, DNAME, name("example.org")),
    ],
    [
        record(b"\4mail" + END, AAAA, bytes(range(16)), ttl=0),
        record(b"\4_sip\4_udp" + END, SRV, u16(1) + u16(2) + u16(5060) + name("sip.example.com")),
        record(name("1.2.0.192.in-addr.arpa"), PTR, AT),
        record(b"\0", 65281, b"", rclass=1232),
        record(b"\0", PRIVATE, b"\xc0\x0c", rclass=2),
    ],
)


def header_rows():
    topic("the header: lengths, each bit, each code, each count")
    for size in range(13):
        row("header", b"\xff" * size, told="err short message" if size < 12 else "65535 OPCODE15 RCODE15 65535")
        row("message", b"\0" * size, told="err short message" if size < 12 else "question=@12")
        row("write", b"\xff" * size, "qr:0", told="err short message" if size < 12 else "ffff7fff")
    for word, at in FLAGS.items():
        row("header", header(bits=1 << at), told="4660 QUERY NOERROR 0 0 0 0 " + word)
        others = " ".join(other for other in FLAGS if other != word)
        row("header", header(bits=0xFFFF ^ 1 << at), told="4660 OPCODE15 RCODE15 0 0 0 0 " + others)
        row("write", header(bits=0), word + ":1", told="1234" + u16(1 << at).hex())
        row("write", header(bits=0xFFFF), word + ":0", told="1234" + u16(0xFFFF ^ 1 << at).hex())
        row("write", header(bits=0), word + ":0", told="12340000")
        row("write", header(bits=0xFFFF), word + ":1", told="1234ffff")
    for code in range(16):
        for bits in (0, 0x87F0):
            text = OPCODES.get(code, "OPCODE%d" % code)
            row("header", header(bits=bits | code << 11), told="4660 %s NOERROR 0" % text)
            row("write", header(bits=bits | 0x7800 ^ code << 11), "opcode:%d" % code, told="1234" + u16(bits | code << 11).hex())
        for bits in (0, 0xFFF0):
            text = RCODES.get(code, "RCODE%d" % code)
            row("header", header(bits=bits | code), told=" %s 0 0 0 0" % text)
            row("write", header(bits=bits | 15 ^ code), "rcode:%d" % code, told="1234" + u16(bits | code).hex())
    for bit in range(16):
        row("header", header(ident=1 << bit), told="%d QUERY" % (1 << bit))
        row("write", header(ident=0xFFFF), "id:%d" % (1 << bit), told=u16(1 << bit).hex() + "8180")
        for place, word in enumerate(("qdcount", "ancount", "nscount", "arcount")):
            counts = [0, 0, 0, 0]
            counts[place] = 1 << bit
            row("header", header(counts), told="4660 QUERY NOERROR %d %d %d %d qr rd ra" % tuple(counts))
            row("write", header(), "%s:%d" % (word, 1 << bit), told=header(counts).hex())
            row("message", header(counts))
    row("write", header() + WWW, "id:0;qr:0;rd:0;ra:0;opcode:5;rcode:9;qdcount:1;ancount:2;nscount:3;arcount:4;arcount:5",
        told="00002809" + "0001000200030005" + WWW.hex())
    for calls in ("qr:2", "qr", "qr:", "QR:1", "opcode:16", "rcode:16", "id:65536", "id:-1", "", ";", "qr:1;", "no:1"):
        row("write", header(), calls, told="bad")
    topic("mnemonics of classes")
    for number in (*range(8), *range(250, 260), 32768, 65279, 65535):
        text = CLASSES.get(number, "CLASS%d" % number)
        row("message", message([question(WWW, rclass=number)]), told="question=www.example.com./1/%s;" % text)
        row("message", message([], [record(WWW, A, b"", rclass=number)]), told="answer=www.example.com./1/%s/3600/39+0;" % text)
    for number, text in CLASSES.items():
        for way in (text, text.lower(), text.capitalize()):
            row("class", way.encode(), told=str(number))
    row("class", b"*", told="255")
    for text in ("", "I", "INN", "IN ", " IN", "AN", "**", "CS", "CLASS1", "1", "\u0131N"):
        row("class", text.encode(), told="none")
    row("class", b"\xff", told="bad")


def section_rows():
    topic("a message with all sections: cut at each octet, behind other octets, with each count")
    row("message", WORKED, told="additional=mail.example.com./28/IN/0/")
    row("compose", WORKED)
    for size in range(len(WORKED)):
        row("message", WORKED[:size])
        row("compose", WORKED[:size])
    row("message", message([question(WWW)], (), (), [record(b"\0", 41, b"", rclass=1232)]), told="additional=./41/CLASS1232/3600/44+0;")
    row("message", WORKED + b"\xff" * 9)
    row("compose", WORKED + b"\xff" * 9)
    for place in (4, 6, 8, 10):
        for count in (0, 1, 2, 3, 4, 5, 6, 255, 256, 65535):
            changed = WORKED[:place] + u16(count) + WORKED[place + 2:]
            row("message", changed)
            row("compose", changed)
    topic("each octet of it changed")
    for place in range(12, len(WORKED)):
        for octet in (0, 0xFF, WORKED[place] ^ 1, WORKED[place] ^ 0xC0):
            row("message", WORKED[:place] + bytes([octet]) + WORKED[place + 1:])
    for place in range(12, len(WORKED), 3):
        row("compose", WORKED[:place] + bytes([WORKED[place] ^ 0xC0]) + WORKED[place + 1:])
    topic("questions: none, two, one that is missing; pointers that lead nowhere")
    row("message", header(), told="sole=err no question first=none canonical=none")
    row("message", message([question(WWW)] * 2), told="sole=err multiple questions first=www.example.com./1/IN")
    row("message", header((1, 0, 0, 0)), told="sole=err unexpected end of input first=none canonical=none")
    row("message", header((2, 0, 0, 0)), told="sole=err multiple questions first=none canonical=none")
    row("message", header((2, 1, 1, 1)) + question(WWW), told="answer=err unexpected end of input authority=err")
    for owner in (pointer(12), pointer(14), pointer(16), pointer(18), pointer(0x3FFF), b"\xc0", b"\x40a\0", b"\x80a\0",
                  b"\1a" + pointer(12), b"\1a" + pointer(14), b"\1a" + pointer(16), pointer(2), pointer(4), pointer(11)):
        row("message", message([question(owner)]))
        row("message", message([question(WWW), question(owner)]))
        row("message", message([question(WWW)], [record(owner, A, b"\1\2\3\4")]))
        row("message", message([question(WWW)], [record(WWW, CNAME, owner)]))
        row("compose", message([question(WWW)], [record(WWW, CNAME, owner)]))
    ring = header((1, 0, 0, 0)) + pointer(14) + pointer(12) + u16(A) + u16(1)
    row("message", ring)
    row("message", message([question(name("a" * 63 + "." + "b" * 63 + "." + "c" * 63 + "." + "d" * 61))]))
    row("message", message([question(name("a" * 63 + "." + "b" * 63 + "." + "c" * 63 + "." + "d" * 62))]), told="err long domain name")


def long_rows():
    topic("65,535 octets of data, and one too few; data that ends past what a pointer reaches")
    head = message([question(WWW)]).hex()
    for rtype in (A, NS, TXT, PRIVATE):
        start = header((1, 1, 0, 0)) + question(WWW) + record(AT, rtype, b"", length=65535)
        for zeros in (65535, 65534, 65536, 0, 1):
            row("message", "%s+zeros:%d" % (start.hex(), zeros))
        row("data", rtype, "zeros:65535", 0, 65535)
        row("data", rtype, "zeros:65536", 1, 65535)
    start = header((1, 2, 0, 0)) + question(WWW) + record(AT, PRIVATE, b"", length=16340)
    more = record(name("later.example"), NS, b"\2ns" + END)
    for end in (b"", b"\0"):
        row("message", "%s+zeros:16340+%s" % (start.hex(), (more + end).hex()))
    start = header((1, 3, 0, 0)) + question(WWW) + record(AT, PRIVATE, b"", length=16340)
    for gap in range(16310, 16350, 3):
        start = header((1, 3, 0, 0)) + question(WWW) + record(AT, PRIVATE, b"", length=gap)
        again = record(name("a.b.c.later"), NS, name("a.b.c.later")) + record(name("x.b.c.later"), CNAME, name("y.later"))
        row("compose", "%s+zeros:%d+%s" % (start.hex(), gap, again.hex()))
    row("message", head + "+zeros:100000", told="@33 authority=@33 additional=@33")
    row("message", head + "+zeros:100001", told="bad")
    for count in (42, 43, 44, 128):
        # Names of three labels that share none: 128 places are remembered.
        owners = ["a%d.b%d.c%d" % (k, k, k) for k in range(count)]
        row("compose", message([question(name(owner)) for owner in owners + owners]))


def data_rows():
    topic("data of each type: in its own octets, cut and too long, asked as each other type")
    for rtype, octets in OF_TYPE.items():
        for size in range(len(octets) + 1):
            row("data", rtype, octets, 0, size)
        for more in (1, 2, 17):
            row("data", rtype, octets + b"\0" * more, 0, len(octets) + more, told="err trailing data")
        row("data", rtype, octets + b"\0", 0, len(octets), told="ok")
        row("data", rtype, b"\xff" + octets + b"\xff", 1, len(octets), told="ok")
        for other in KNOWN:
            row("data", other, octets, 0, len(octets))
    for rtype in (0, 3, 7, 16, 27, 29, 40, 41, 255, 256, 257, 513, 65535):
        row("data", rtype, b"\1\2\3\4", 0, 4, told="none")
        row("data", rtype, b"", 0, 0, told="none")
    topic("names in data: pointers into the message, forward, out of it, in a ring, into the data itself")
    before = header() + WWW  # 12 to 28
    at = len(before)
    for rtype, front, back in ((NS, b"", b""), (CNAME, b"", b""), (PTR, b"", b""), (DNAME, b"", b""), (MX, u16(5), b""),
                               (SRV, u16(1) + u16(2) + u16(3), b""), (SOA, b"\1m" + END, SOA_NUMBERS),
                               (SOA, b"", b"\1r" + END + SOA_NUMBERS)):
        here = at + len(front)
        for middle in (AT, END, b"\1a" + AT, pointer(here), pointer(here + 1), pointer(here + 2), pointer(at), pointer(0x3FFF),
                       b"\1a" + pointer(here), b"\1a" + pointer(here + 2), b"\1a" + pointer(here + 4), b"\xc0", b"\x40\0",
                       b"\x80\0", b"\1", b"\2a", b"\1a", b"", b"\0", b"\0\0", pointer(11), pointer(0), name("A.b.C")):
            data = front + middle + back
            row("data", rtype, before + data, at, len(data))
            row("data", rtype, before + data + WWW, at, len(data))
            row("message", message([question(WWW)], [record(AT, rtype, data), record(AT, A, b"\1\2\3\4")]))
    ring = before + pointer(at + 2) + pointer(at)
    row("data", NS, ring, at, 2)
    row("data", NS, ring, at + 2, 2)
    long = name(".".join(["x" * 62] * 4))[:-1]
    for rtype in (NS, DNAME):
        row("data", rtype, long + b"\0", 0, len(long) + 1, told="ok")
        for more in (b"\1a", b"\2ab"):
            octets = long + more + b"\0"
            row("data", rtype, octets, 0, len(octets))
    for line in ("data 1 00 0", "data 1 00 0 1 1", "data 65536 00 0 1", "data 1 00 0 2", "data 1 00 2 0", "data x 00 0 1", "data 1 0 0 0",
                 "data 1 zeros 0 0", "data 1 ones:1 0 0", "data 1 00+ 0 0", "data 1 +00 0 0", "message", "message 00 00", "header 0G",
                 "massage 00", "write 00", "compose"):
        row(line, told="bad")


def chain_rows():
    topic("CNAME chains: straight, in any order, with a gap, with a ring, with data that is no name")
    links = [record(name(a), CNAME, name(b)) for a, b in (("www.example.com", "b"), ("b", "c"), ("c", "d"), ("d", "e"))]
    ask = [question(WWW)]
    for size in range(5):
        row("message", message(ask, links[:size]), told="canonical=%s." % ["www.example.com", "b", "c", "d", "e"][size])
    for order in itertools.permutations(links):
        row("message", message(ask, order), told="canonical=e.")
    for gone in range(4):
        left = links[:gone] + links[gone + 1:]
        row("message", message(ask, left), told="canonical=%s." % ["www.example.com", "b", "c", "d"][gone])
        row("message", message(ask, left[::-1]), told="canonical=%s." % ["www.example.com", "b", "c", "d"][gone])
    for back in ("www.example.com", "WWW.example.COM", "b", "c", "d", "e"):
        ring = links + [record(name("e"), CNAME, name(back))]
        row("message", message(ask, ring), told="canonical=none")
        row("message", message(ask, ring[::-1]), told="canonical=none")
    row("message", message(ask, [record(WWW, CNAME, WWW)]), told="canonical=none")
    row("message", message(ask, [record(AT, CNAME, AT)]), told="canonical=none")
    row("message", message(ask, links + [record(name("x"), CNAME, name("x"))]), told="canonical=e.")
    row("message", message(ask, links[:1] + [record(name("B"), CNAME, name("X"))]), told="canonical=X.")
    row("message", message(ask, [record(WWW, CNAME, name("first")), record(WWW, CNAME, name("second"))]), told="canonical=first.")
    row("message", message(ask, [record(WWW, CNAME, name("a"), rclass=3)]), told="canonical=a.")
    row("message", message(ask, [record(WWW, DNAME, name("a")), record(WWW, A, b"\1a\0\0")]), told="canonical=www.example.com.")
    row("message", message(ask, (), links), told="canonical=www.example.com.")
    row("message", message(ask, (), (), links), told="canonical=www.example.com.")
    row("message", message((), links), told="canonical=none")
    row("message", message([question(name("b")), question(WWW)], links), told="canonical=e.")
    for data in (b"", b"\0\0", b"\1", b"\1a", b"\1a\0\0", b"\xc0", b"\xff\0", pointer(0x3FFF), b"\x40\0"):
        row("message", message(ask, [record(WWW, CNAME, data)]), told="canonical=www.example.com.")
        row("message", message(ask, [record(WWW, CNAME, data)] + links), told="canonical=e.")
    for cut in range(1, 30):
        row("message", message(ask, links)[:-cut], told="canonical=")
    long = message(ask, links[::-1])
    row("message", long[:6] + u16(65535) + long[8:], told="canonical=e.")
    steps = ["www.example.com"] + ["n%d.example" % k for k in range(60)]
    chain = [record(name(a), CNAME, name(b)) for a, b in zip(steps, steps[1:])]
    row("message", message(ask, chain), told="canonical=n59.example.")
    row("message", message(ask, chain[::-1]), told="canonical=n59.example.")
    row("message", message(ask, chain + [record(name("n59.example"), CNAME, name("n0.example"))]), told="canonical=none")


def answers_rows():
    topic("which message answers which query: the response flag, the identifier, the opcode, the questions in their order, case")
    query = header((1, 0, 0, 0), bits=0x0100) + question(WWW)
    reply = message([question(WWW)], [record(AT, A, b"\xc0\0\2\1")])

    def asked(octets, told, of=query):
        row("answers", of, octets, told=told)

    asked(reply, "1")
    asked(query, "0")
    asked(query, "0", of=reply)
    asked(reply, "1", of=reply)
    asked(reply + b"\xff" * 5, "1")
    for bit in range(16):
        asked(header((1, 0, 0, 0), bits=1 << bit) + question(WWW), "1" if bit == 15 else "0")
        asked(header((1, 0, 0, 0), bits=0x87FF ^ 1 << bit) + question(WWW), "0" if bit > 10 else "1")
        asked(header((1, 0, 0, 0), ident=0x1234 ^ 1 << bit) + question(WWW), "0")
    for opcode in (1, 2, 4, 5, 15):
        response, other = (header((1, 0, 0, 0), bits=bits | opcode << 11) + question(WWW) for bits in (0x8000, 0))
        asked(response, "1", of=other)
        asked(response, "0")
        asked(reply, "0", of=other)
    for size in range(len(reply)):
        asked(reply[:size], "err short message" if size < 12 else "1" if size >= 33 else "0")
    for size in range(len(query)):
        asked(reply, "err short message" if size < 12 else "0", of=query[:size])
    for rtype, rclass, told in ((A, 1, "1"), (NS, 1, "0"), (257, 1, "0"), (A, 3, "0"), (A, 257, "0"), (0, 0, "0"), (255, 255, "0")):
        asked(message([question(WWW, rtype, rclass)]), told)
    for text, told in (("WWW.EXAMPLE.COM", "1"), ("wWw.eXample.coM", "1"), ("ww.example.com", "0"), ("www.example", "0"), ("", "0"),
                       ("w.www.example.com", "0"), ("wwv.example.com", "0"), ("www.example.con", "0"), ("wwwexample.com", "0")):
        asked(message([question(name(text))]), told)
    for one, other, told in ((b"@", b"`", "0"), (b"[", b"{", "0"), (b"A", b"a", "1"), (b"z", b"Z", "1"), (b"\xc0", b"\xe0", "0"), (b"\0", b" ", "0")):
        asked(message([question(b"\1" + one + b"\0")]), told, of=message([question(b"\1" + other + b"\0")]))
    two = [question(WWW), question(name("b"), MX)]
    for theirs, ours, told in ((two, two, "1"), (two, two[::-1], "0"), (two, two[:1], "0"), (two[:1], two, "0"), ((), (), "1"),
                               ((), two, "0"), (two, (), "0"), (two, two[:1] * 2, "0"), (two * 2, two * 2, "1")):
        asked(message(ours), told, of=message(theirs, bits=0x0100))
    for count in (0, 1, 2, 255, 65535):
        asked(reply[:4] + u16(count) + reply[6:], "1" if count == 1 else "0")
        asked(reply[:4] + u16(count) + reply[6:], "1" if count in (0, 1) else "0", of=query[:4] + u16(count) + query[6:])
    for owner, told in ((name("B.www.Example.com"), "1"), (b"\1b" + AT, "1"), (AT, "0"), (b"\1b" + pointer(35), "0"), (b"\x40\0", "0")):
        both = message([question(WWW), question(owner)])
        asked(both, told, of=message([question(WWW), question(name("b.www.example.com"))], bits=0))
        asked(both, "1" if told == "1" or owner == AT else "0", of=both[:2] + u16(0) + both[4:])
    for line in ("answers", "answers 00", "answers 00 00 00", "answers 0 00", "answers x -"):
        row(line, told="bad")
    row("answers", b"", b"", told="err short message")


def limit_rows():
    topic("the answers of one type: cut at each octet, other sections, classes, data that is bad, counts, types")
    words = {"a": A, "aaaa": AAAA, "ns": NS, "cname": CNAME, "ptr": PTR, "mx": MX, "soa": SOA, "srv": SRV, "txt": TXT, "dname": DNAME}
    of_type = {**OF_TYPE, TXT: b"\3a \"\0\2\\\xff"}
    ask = [question(WWW)]

    def limited(word, octets, told=None):
        row("limit", word, octets, told=told)

    hosts = message(ask, [
        record(AT, MX, u16(20) + b"\1b" + END), record(END, A, b"\1\2\3\4"), record(END, MX, u16(10) + b"\1A" + END, rclass=3),
        record(END, MX, u16(5) + b"\0", ttl=2**32 - 1)], [record(END, MX, u16(1) + END)], [record(END, MX, u16(0) + END)])
    limited("mx", hosts, "any=www.example.com./IN/3600/20 b.example.com.;example.com./CH/3600/10 A.example.com.;example.com./IN/4294967295/5 .; "
            "in=www.example.com./IN/3600/20 b.example.com.;example.com./IN/4294967295/5 .;")
    for size in range(len(hosts)):
        limited("mx", hosts[:size], None if size >= 33 else "err")
    for word, rtype in words.items():
        mixed = message(ask, [record(name("o.%s" % other), kind, of_type[kind]) for other, kind in words.items()])
        limited(word, mixed, "any=o.%s./IN/3600/" % word)
        limited(word, WORKED)
        limited(word, header(), "any= in=")
        limited(word, message(ask, [record(WWW, rtype + 256, of_type[rtype]), record(WWW, PRIVATE, b"")]), "any= in=")
        limited(word, message(ask, (), [record(WWW, rtype, of_type[rtype])], [record(WWW, rtype, b"")]), "any= in=")
        for rclass in (0, 3, 4, 254, 255, 257):
            limited(word, message(ask, [record(WWW, rtype, of_type[rtype], rclass=rclass), record(AT, rtype, of_type[rtype])]), " in=www.example.com./IN/3600/")
    topic("the answers of one type: data that is bad")
    for word, rtype in words.items():
        whole = record(AT, rtype, of_type[rtype])
        for bad in (record(END, rtype, of_type[rtype] + b"\1"), record(END, rtype, of_type[rtype][:-1]), record(END, rtype, b"")):
            limited(word, message(ask, [bad, whole, whole]), "any=err ")
            limited(word, message(ask, [whole, bad, whole]))
            limited(word, message(ask, [whole, whole, bad]))
        other = record(END, rtype, b"", rclass=3)
        limited(word, message(ask, [other, whole]), "any=err unexpected end of input; in=www.example.com.")
        limited(word, message(ask, [record(END, TXT if rtype != TXT else A, b"\5"), whole]), "any=www.example.com./IN/3600/")
    topic("the answers of one type: counts, pointers, strings and addresses")
    whole = message(ask, [record(AT, CNAME, name("b")), record(name("b"), CNAME, name("c"))])
    for count in (0, 1, 2, 3, 255, 65535):
        limited("cname", whole[:6] + u16(count) + whole[8:])
        limited("a", whole[:6] + u16(count) + whole[8:], "any=err unexpected end of input; in=err" if count > 2 else "any= in=")
    for count in (0, 2, 65535):
        limited("cname", whole[:4] + u16(count) + whole[6:])
    for data in (pointer(12), pointer(14), pointer(45), pointer(46), pointer(0x3FFF), b"\1a" + pointer(45), pointer(33), pointer(43),
                 b"\xc0", b"\x80", b"\1a", name(".".join(["x" * 62] * 4))[:-1] + b"\1a\0"):
        limited("ns", message(ask, [record(AT, NS, data), record(AT, NS, name("b"))]))
        limited("a", message(ask, [record(AT, NS, data), record(AT, A, b"\1\2\3\4")]), "any=www.example.com./IN/3600/1.2.3.4;")
        limited("a", message(ask, [record(AT, A, b"\1\2\3\4"), record(data, A, b"\1\2\3\4")]), "any=www.example.com./IN/3600/1.2.3.4;")
    ring = header((0, 2, 0, 0)) + record(b"\0", PRIVATE, pointer(25) + pointer(23)) + record(pointer(23), A, b"\1\2\3\4")
    limited("a", ring, "any=err too many compression pointers;")
    for data in (b"\0", b"\0\0", b"\1", b"\1a\1", b"\xff" + b"x" * 255, b"\xff" + b"x" * 254, bytes([255, *range(255)])):
        limited("txt", message(ask, [record(AT, TXT, data), record(AT, TXT, b"\1b")]))
    for text in ("::", "::1", "1::", "2001:db8::1", "1:0:0:2:0:0:0:3", "1:0:0:2:3:0:0:4", "1:0:2:3:4:5:6:7", "::ffff:1.2.3.4", "::1.2.3.4"):
        limited("aaaa", message(ask, [record(AT, AAAA, ipaddress.IPv6Address(text).packed)]))
    for word in ("A", "any", "opt", "aa", "1"):
        limited(word, whole, "bad")
    for line in ("limit", "limit a", "limit a 00 00", "limit a 0", "limit  " + whole.hex()):
        row(line, told="bad")
    limited("a", b"", "err short message")


# Data of each type that `any` reads by its fields: octets, and the text that its RFC has for them or that is in its form.
ANY = (
    (3, name("Mail.Example."), "Mail.Example."), (4, name("mail.example."), "mail.example."), (7, name("a.B."), "a.B."),
    (8, name("A."), "A."), (9, b"\0", "."), (14, name("Who.a.") + name("err.B."), "Who.a. err.B."),
    (17, name("Louie.Trantor.umd.edu.") + name("LAM1.people.umd.edu."), "Louie.Trantor.umd.edu. LAM1.people.umd.edu."),
    (18, u16(1) + name("Bigbird.toaster.com."), "1 Bigbird.toaster.com."), (21, u16(10) + name("NET.prime.com."), "10 NET.prime.com."),
    (26, u16(50) + name("ab.net2.it.") + name("O-ab.PRMD-net2.ADMDb.C-it."), "50 ab.net2.it. O-ab.PRMD-net2.ADMDb.C-it."),
    (36, u16(2) + name("rodney-KX.iana.org."), "2 rodney-KX.iana.org."),
    (13, b"\1a\1b", '"a" "b"'), (35, u16(1) + u16(2) + b"\0\0\0" + name("A."), '1 2 "" "" "" A.'),
    (16, b"\1a\0", '"a" ""'), (1, b"\1\2\3\4", "1.2.3.4"), (24, b"\0\1", second.SHORT), (47, name("B.") + b"\0\1\x40", "B. A"),
    (65280, b"", "\\# 0"), (99, b"\xff", second.SHORT),
)

HASH = bytes.fromhex("174eb2409fe28bcb4887a1836f957f0a8425e27b")
DIGEST = bytes(range(200, 248))
# The same of types that `any` alone knows, and of data that has the form of RFC 3597, 5: of a kind without a form of its own,
# or with a field without octets that must have some.
LATER = (
    (2, b'\7a;"()@$\0', 'a\\;\\"\\(\\)\\@\\$.'), (12, b"\3a b\0", "a\\ b."),
    (19, b"\x0c311061700956", '"311061700956"'), (20, b"\x0f150862028003217\x03004", '"150862028003217" "004"'),
    (20, b"\x0f150862028003217", '"150862028003217"'), (27, b"\x08-32.6882\x08116.8652\x0410.0", '"-32.6882" "116.8652" "10.0"'),
    (24, u16(30) + b"\1\3" + u32(3600) + u32(852174245) + u32(850298948) + u16(21435) + name("Foo.nil.") + b"\1\2\3",
     "NXT 1 3 3600 19970102030405 19961211100908 21435 Foo.nil. AQID"),
    (25, u16(512) + b"\3\1\1\2\3", "512 3 1 AQID"), (30, name("Big.foo.tld.") + b"\x62", "\\# 14 03 42 69 67 03 66 6f 6f 03 74 6c 64 00 62"),
    (37, u16(1) + u16(12179) + b"\3\xff\xfe", "1 12179 3 //4="), (49, base64.b64decode("AAIBY2/AuCccgoJbsaxcQc9TUapptP69lOjxfNuVAA2kjEA="),
     " AAIBY2/AuCccgoJbsaxcQc9TUapptP69lOjxfNuVAA2kjEA="),
    (50, b"\1\1\0\x0c\4\xaa\xbb\xcc\xdd\x14" + HASH + b"\0\7\x22\1\0\0\0\2\x90",
     "1 1 12 aabbccdd 2t7b4g4vsa5smi47k61mv5bv1a22bojr NS SOA MX RRSIG DNSKEY NSEC3PARAM"),
    (50, b"\1\0\0\0\0\x14" + HASH, "1 0 0 - 2t7b4g4vsa5smi47k61mv5bv1a22bojr"), (50, b"\1\0\0\0\0\1f\0\1\x40", "1 0 0 - co A"),
    (50, b"\1\0\0\0\0\0", "hash without an octet"), (51, b"\1\0\0\x0c\4\xaa\xbb\xcc\xdd", "1 0 12 aabbccdd"), (51, b"\1\0\0\0\0", "1 0 0 -"),
    (53, b"\3\1\0\xc6\x80", "3 1 0 c680"), (56, b"\5zone1\0", '"zone1" ""'),
    (57, u16(0) + b"\1\5\1\2\3", "0 1 5 AQID"), (57, u16(0) + b"\1\5", "\\# 4 00 00 01 05"), (58, name("A.") + name("b."), "A. b."), (59, u16(60485) + b"\5\1\x2b\xb1", "60485 5 1 2bb1"),
    (59, u16(0) + b"\0\0\0", "0 0 0 00"), (60, u16(0) + b"\3\0\0", "0 3 0 AA=="), (60, u16(0) + b"\3\0", "\\# 4 00 00 03 00"),
    (61, b"\x98\x33\4", "mDME"), (61, b"", "\\# 0"), (62, u32(66) + u16(3) + b"\0\4\x60\0\0\x08", "66 3 A NS AAAA"), (62, u32(66) + u16(3), "66 3"),
    (63, u32(2018031900) + b"\1\1" + DIGEST, "2018031900 1 1 " + DIGEST.hex()), (67, b"\x86\x18\x1d", "hhgd"), (67, b"", "\\# 0"), (68, b"\xff\xfe", "//4="),
    (104, u16(10) + bytes(range(8)), "\\# 10 00 0a 00 01 02 03 04 05 06 07"),
    (105, u16(10) + b"\x0a\1\2\0", "10 10.1.2.0"), (107, u16(10) + name("l64-subnet1.example.com."), "10 l64-subnet1.example.com."),
    (108, b"\0\0\x5e\0\x53\x2a", "\\# 6 00 00 5e 00 53 2a"), (249, name("a.") + bytes(12) + b"\0\1\1\0\0", "\\# 20 01 61 00 "),
    (250, name("a.") + bytes(8) + b"\0\1\1" + bytes(6), "\\# 20 01 61 00 "), (256, u16(10) + u16(1) + b"ftp://ftp1.example.com/public",
     '10 1 "ftp://ftp1.example.com/public"'), (32769, u16(60485) + b"\5\1\x2b\xb1", "60485 5 1 2bb1"), (99, b"\6v=spf1\0", '"v=spf1" ""'),
    (261, b"\x08qnamemin\x0cexterr=15-17\x2ainfourl=https://resolver.example.com/guide",
     '"qnamemin" "exterr=15-17" "infourl=https://resolver.example.com/guide"'),
    (262, b"\x03BTC\x04a\"b;", '"BTC" "a\\"b;"'), (263, b"\6TCP-v4\6TCP-v6", '"TCP-v4" "TCP-v6"'),
)


# Data that is shown as its octets: the type, and what is before and after its name. A signature without octets, octets of
# which no more is known, a bitmap without types, numbers of 48 bits, and octets behind two that count them.
AROUND_NAME = (
    (24, u16(30) + b"\1\3" + u32(3600) + u32(852174245) + u32(850298948) + u16(21435), b""),
    (46, u16(1) + b"\5\3" + u32(86400) + u32(1048354263) + u32(1045762263) + u16(2642), b""),
    (30, b"", b"\x62"), (30, b"", b""), (47, b"", b"\0\1\0"), (249, b"", bytes(12) + b"\0\1\1\0\0"), (250, b"", bytes(8) + b"\0\1\1" + bytes(6)),
)


def plain_rows(before, at):
    topic("data of any type: as octets, where a name is compressed, and is written out (RFC 3597, 4 and 5)")
    names = ((pointer(12), name("WWW.Example.com.")), (pointer(16), name("Example.com.")), (b"\2aB" + pointer(12), name("aB.WWW.Example.com.")),
             (pointer(28), b"\0"), (name("Z."), name("Z.")))
    for rtype, start, end in AROUND_NAME:
        for compressed, whole in names:
            data, plain = start + compressed + end, start + whole + end
            row("any", rtype, before + data, at, len(data), told=f" \\# {len(plain)} {plain.hex(' ')}")
    records = ((46, 1, AROUND_NAME[1][1] + END), (30, 1, AT + b"\x62"), (47, 1, END + b"\0\1\0"), (26, 3, u16(1) + AT + END), (PRIVATE, 1, AT))
    shown, place = "", 33
    for rtype, rclass, data in records:
        shown += f"www.example.com./{rtype}/{CLASSES[rclass]}/3600/{place + 12}+{len(data)};"
        place += 12 + len(data)
    row("message", message([question(WWW)], [record(AT, rtype, data, rclass) for rtype, rclass, data in records]),
        told=f"question=www.example.com./1/IN;@33 answer={shown}@{place} authority=@{place} additional=@{place}"
             " sole=www.example.com./1/IN first=www.example.com./1/IN canonical=www.example.com.")


def any_rows():
    topic("data of any type: by its fields where they are known, cut and too long, and as octets")
    for rtype, octets, text in ANY:
        row("any", rtype, octets, 0, len(octets), told=" " + text)
        for size in range(len(octets)):
            row("any", rtype, octets, 0, size)
        for more in (1, 255):
            row("any", rtype, octets + b"\1" * more, 0, len(octets) + more)
        told = "err " if text == second.SHORT else "ok " + (octets.hex() or "-") + " "
        row("any", rtype, b"\xff" + octets + b"\xff", 1, len(octets), told=told)
    for rtype, octets, text in TYPED:
        # A last field without octets has no word: then the data has the form of RFC 3597, 5.
        row("any", rtype, octets, 0, len(octets), told=f" \\# {len(octets)} " if text.endswith(" ") else " " + text)
        row("any", rtype, octets, 0, len(octets) - 1)
    for rtype, octets, _text in ANY + tuple((rtype, octets, "") for rtype, octets in OF_TYPE.items()):
        for other in (*second.SHAPES, 16, 24, 46, 99):
            row("any", other, octets, 0, len(octets))
    topic("data of any type: of types that no other line asks, cut and too long, and without a form of their own")
    for rtype, octets, text in LATER:
        row("any", rtype, octets, 0, len(octets), told=text)
        for size in range(len(octets)):
            row("any", rtype, octets, 0, size)
        row("any", rtype, octets + b"\1", 0, len(octets) + 1)
    topic("data of any type: names with pointers, in capitals")
    before = header() + name("WWW.Example.com.")
    at = len(before)
    for rtype, shape in second.SHAPES.items():
        for last in (pointer(12), pointer(16), b"\1A" + pointer(12), pointer(at), b"\xc0", pointer(at + 1), b"\0", name("Z.")):
            fields = {"n": pointer(12), "w": b"\2aB" + pointer(12), "2": u16(515), "4": u32(67438087), "a": b"\1\2\3\4", "A": bytes(16)}
            data = b"".join(last if place == len(shape) - 1 and kind in "nw" else fields[kind] for place, kind in enumerate(shape))
            row("any", rtype, before + data, at, len(data))
            row("any", rtype, before + data + b"\0", at, len(data))
    plain_rows(before, at)
    topic("data of any type: drawn at random, and as long as it may be")
    rng = random.Random(2)
    for _row in range(1500):
        rtype = rng.choice((*second.SHAPES, 16, 16, 47, 65280))
        octets = header() + name("Ns1.Example.org.")
        at = len(octets)
        sizes = {"2": 2, "4": 4, "a": 4, "A": 16}
        for kind in second.SHAPES.get(rtype, "ss" if rtype == 16 else "h"):
            if kind in "nw":
                octets += random_name(rng, [12, 16], len(octets))
            elif kind in "st":
                size = rng.choice((0, 1, 2, 5, 20, 255))
                octets += bytes([size]) + bytes(rng.randrange(256) if rng.random() < 0.3 else rng.randrange(48, 123) for _octet in range(size))
            else:
                octets += bytes(rng.randrange(256) for _octet in range(sizes.get(kind) or rng.choice((0, 1, 2, 3, 20, 32, 64))))
        if rng.random() < 0.3:
            octets = octets[:at] + mutated(rng, octets[at:])
        row("any", rtype, octets, at, len(octets) - at)
    for rtype in (16, 65280):
        row("any", rtype, "zeros:65536", 0, 65536, told="err record data too long")
    for line in ("any 13 00 0", "any 65536 00 0 1", "any 13 00 0 2", "any 13 00 2 0", "any x 00 0 1", "any 13 0 0 0"):
        row(line, told="bad")


# Data of each type that `typed` asks: octets, and the text that its RFC has for them or that is in its form.
TYPED = (
    (13, b"\7VAX-780\4UNIX", '"VAX-780" "UNIX"'), (13, b"\0\3\"\\\xff", '"" "\\"\\\\\\255"'),  # RFC 1035, 3.3.2
    (35, u16(100) + u16(50) + b"\1s\7http+I2\0" + name("_http._tcp.Foo.com."), '100 50 "s" "http+I2" "" _http._tcp.Foo.com.'),
    (35, u16(100) + u16(10) + b"\0\0\x16!^urn:cid:.+@([^\\.]+).\0", '100 10 "" "" "!^urn:cid:.+@([^\\\\.]+)." .'),
    (43, u16(60485) + b"\5\1" + bytes.fromhex("2BB183AF5F22588179A53B0A98631FAD1A292118"),  # RFC 4034, 5.4
     "60485 5 1 2bb183af5f22588179a53b0a98631fad1a292118"),
    (44, b"\2\1" + bytes.fromhex("123456789abcdef67890123456789abcdef67890"),  # RFC 4255, 3.2
     "2 1 123456789abcdef67890123456789abcdef67890"),
    (46, u16(1) + b"\5\3" + u32(86400) + u32(1048354263) + u32(1045762263) + u16(2642) + name("Example.com.") + b"\x2b\xb1\xff\0",
     "A 5 3 86400 20030322173103 20030220173103 2642 Example.com. K7H/AA=="),
    (46, u16(65280) + b"\0\0" + u32(0) * 3 + u16(0) + b"\0", "TYPE65280 0 0 0 19700101000000 19700101000000 0 . "),
    (47, name("host.example.com.") + b"\0\6\x40\1\0\0\0\3\4\x1b" + bytes(26) + b"\x20",  # RFC 4034, 4.3
     "host.example.com. A MX RRSIG NSEC TYPE1234"),
    (47, name("Z.Example.") + b"\0\1\x40\1\1\x40\xff\x20" + bytes(31) + b"\1", "Z.Example. A CAA TYPE65535"),
    (47, b"\0\0\1\0", ". "), (47, b"\0\3\2\xff\0", ". " + " ".join(f"TYPE{number}" for number in range(768, 776))),
    (48, u16(256) + b"\3\5" + b"\1\3\xd2\x2a", "256 3 5 AQPSKg=="), (48, u16(257) + b"\3\x0d" + b"abcde", "257 3 13 YWJjZGU="),
    (48, u16(0) + b"\3\0", "0 3 0 "), (48, u16(256) + b"\3\x0f" + b"abcdef", "256 3 15 YWJjZGVm"),
    (52, b"\0\0\1" + bytes.fromhex("d2abde240d7cd3ee6b4b28c54df034b9"), "0 0 1 d2abde240d7cd3ee6b4b28c54df034b9"),  # RFC 6698, 2.3
    (257, b"\0\5issueca1.example.net", '0 issue "ca1.example.net"'), (257, b"\x80\3TbsUnknown", '128 Tbs "Unknown"'),  # RFC 8659, 4
    (257, b"\0\x09issuewild;", '0 issuewild ";"'), (257, b"\0\1a", '0 a ""'), (257, b"\0\1a" + b"\"" * 300, '0 a "\\"\\"'),
)


def typed_rows():
    topic("data with strings, keys, digests and signatures: cut and too long, and as other types")
    for rtype, octets, text in TYPED:
        row("typed", rtype, octets, 0, len(octets), told=" " + text)
        for size in range(min(len(octets), 60)):
            row("typed", rtype, octets, 0, size)
        row("typed", rtype, octets + b"\1", 0, len(octets) + 1)
        row("typed", rtype, b"\xff" + octets + b"\xff", 1, len(octets), told="ok " + octets.hex() + " ")
        for other in (*second.TYPED, 1, 16, 47, 59, 65280):
            row("typed", other, octets, 0, len(octets))
    for tag in (b"", b"-", b"issue ", b"is-sue", b"is\xffsue", b"/", b":", b"@", b"[", b"`", b"{", b"09azAZ"):
        row("typed", 257, b"\0" + bytes([len(tag)]) + tag + b"v", 0, 3 + len(tag), told="ok " if tag == b"09azAZ" else "err invalid tag")
    bitmaps = (
        (b"", second.SHORT), (b"\0", second.SHORT), (b"\0\1", second.SHORT), (b"\0\2\x40", second.SHORT), (b"\0\1\x40\1", second.SHORT),
        (b"\1\1\x40\0\1\x40", "windows of types out of order"), (b"\0\1\x40\0\1\x40", "windows of types out of order"),
        (b"\0\0", "invalid length of a type bitmap"), (b"\0\1\x40\1\0", "invalid length of a type bitmap"),
        (b"\0\x21" + bytes(33), "invalid length of a type bitmap"), (b"\0\xff\1", "invalid length of a type bitmap"),
        (b"\1\1\x40\0\0", "windows of types out of order"), (b"\0\x21", "invalid length of a type bitmap"),
    )
    for octets, why in bitmaps:
        row("typed", 47, b"\1a\0" + octets, 0, 3 + len(octets), told="err " + why)
    row("typed", 47, b"\1a\0" + b"".join(bytes([window, 32]) + bytes(31) + b"\1" for window in range(256)), 0, 3 + 256 * 34, told="TYPE65535")
    topic("data with strings, keys, digests and signatures: times")
    days = (58, 59, 60, 364, 365, 789, 790, 11016, 11017, 20789, 47540, 47541, 47542, 49709, 49710)
    for seconds in (*(day * 86400 + time for day in days for time in (0, 3599, 86399 if day < 49710 else 23295)), 2**31, 2**32 - 1):
        octets = u16(1) + b"\5\3" + u32(0) + u32(seconds) + u32(2**32 - 1 - seconds) + u16(0) + b"\0"
        row("typed", 46, octets, 0, len(octets))
    topic("data with strings, keys, digests and signatures: names with pointers, in capitals")
    before = header() + name("WWW.Example.com.")
    at = len(before)
    for rtype, start, end in ((35, u16(1) + u16(2) + b"\1u\0\0", b""), (46, u16(6) + b"\5\3" + u32(1) * 3 + u16(7), b"sig"), (47, b"", b"\0\1\x40")):
        for last in (pointer(12), pointer(16), b"\1A" + pointer(12), pointer(at), b"\xc0", b"\x41a", b"\0", name("Z.")):
            row("typed", rtype, before + start + last + end, at, len(start + last + end))
    topic("data with strings, keys, digests and signatures: drawn at random, and as long as it may be")
    rng = random.Random(3)
    sizes = {"1": 1, "2": 2, "4": 4, "T": 2}
    for _row in range(600):
        rtype = rng.choice(tuple(second.TYPED))
        octets = header() + name("Ns1.Example.org.")
        at = len(octets)
        for kind in second.TYPED[rtype].replace("D", "4"):
            if kind == "w":
                octets += random_name(rng, [12, 16], len(octets))
            elif kind == "m":
                octets += random_bitmaps(rng)
            elif kind in "st":
                size = rng.choice((0, 1, 2, 5, 20, 255))
                octets += bytes([size]) + bytes(rng.randrange(256) if rng.random() < 0.1 else rng.randrange(97, 123) for _octet in range(size))
            else:
                octets += bytes(rng.randrange(256) for _octet in range(sizes.get(kind) or rng.choice((0, 1, 2, 3, 20, 32, 64))))
        if rng.random() < 0.3 and rtype != 47:  # there are types of which second.py has no mnemonic
            octets = octets[:at] + mutated(rng, octets[at:])
        row("typed", rtype, octets, at, len(octets) - at)
    for rtype, before in ((47, "00"), (43, "01010102"), (44, "0101"), (48, "01010308"), (52, "010101"), (257, "000161")):
        row("typed", rtype, f"{before}+zeros:65536", 0, len(before) // 2 + 65536, told="err record data too long")
    for line in ("typed 13 00 0", "typed 65536 00 0 1", "typed 13 00 0 2", "typed x 00 0 1"):
        row(line, told="bad")


def parameter(key, value):
    return u16(key) + u16(len(value)) + value


FOO = name("foo.example.com.")
# Data of SVCB and HTTPS, and its text: the wire format of RFC 9460, D, and the text that dnspython writes for it.
SERVICES = (
    (b"\0\0" + FOO, "0 foo.example.com."), (b"\0\1\0", "1 ."), (b"\0\x10" + FOO + parameter(3, b"\0\x35"), '16 foo.example.com. port="53"'),
    (b"\0\1" + FOO + parameter(667, b"hello"), '1 foo.example.com. key667="hello"'),
    (b"\0\1" + FOO + parameter(667, b"hello\xd2qoo"), '1 foo.example.com. key667="hello\\210qoo"'),
    (b"\0\1" + FOO + parameter(6, bytes.fromhex("20010db8000000000000000000000001" "20010db8000000000000000000530001")),
     '1 foo.example.com. ipv6hint="2001:db8::1,2001:db8::53:1"'),
    (b"\0\1" + name("example.com.") + parameter(6, bytes.fromhex("20010db80122034400000000c0000221")),
     '1 example.com. ipv6hint="2001:db8:122:344::c000:221"'),
    (b"\0\x10" + name("foo.example.org.") + parameter(0, b"\0\1\0\4") + parameter(1, b"\2h2\5h3-19") + parameter(4, b"\xc0\0\2\1"),
     '16 foo.example.org. mandatory="alpn,ipv4hint" alpn="h2,h3-19" ipv4hint="192.0.2.1"'),
    (b"\0\x10" + name("foo.example.org.") + parameter(1, b"\x08f\\oo,bar\2h2"), '16 foo.example.org. alpn="f\\\\\\\\oo\\\\,bar,h2"'),
    (b"\0\1" + FOO + parameter(1, b"\2h2") + parameter(2, b""), '1 foo.example.com. alpn="h2" no-default-alpn'),
    (b"\xff\xff" + name("Foo.Example.") + parameter(4, b"\1\2\3\4\xff\0\0\xff"), '65535 Foo.Example. ipv4hint="1.2.3.4,255.0.0.255"'),
    (b"\0\1\0" + parameter(5, b"\0\x45\xfe\x0d"), '1 . ech="AEX+DQ=="'), (b"\0\1\0" + parameter(667, b""), "1 . key667"),
    (b"\0\1\0" + parameter(9, b'\\"') + parameter(65535, b" "), '1 . key9="\\\\\\"" key65535=" "'),
    (b"\0\1\0" + parameter(6, bytes(10) + b"\xff\xff\1\2\3\4"), '1 . ipv6hint="::ffff:1.2.3.4"'),
)
# Values that dnspython doesn't take, or of keys that it doesn't know, and their text by RFC 9460, 2.1 and A.1, RFC 9461 and 9540.
VALUES = (
    (0, b"", "key0"), (0, b"\0", 'key0="\\000"'), (0, b"\0\0", 'key0="\\000\\000"'), (0, b"\0\4\0\4", 'key0="\\000\\004\\000\\004"'),
    (0, b"\0\4\0\3", 'key0="\\000\\004\\000\\003"'), (0, b"\0\2\0\5\2\x9b", 'mandatory="no-default-alpn,ech,key667"'),
    (1, b"", "key1"), (1, b"\0", 'key1="\\000"'), (1, b"\3h2", 'key1="\\003h2"'), (1, b"\2h2\0", 'key1="\\002h2\\000"'), (1, b"\2\"\1", 'alpn="\\"\\001"'),
    (2, b"\1", 'key2="\\001"'), (3, b"\1", 'key3="\\001"'), (3, b"\0\1\2", 'key3="\\000\\001\\002"'), (3, b"", "key3"),
    (4, b"", "key4"), (4, b"abc", 'key4="abc"'), (4, b"abcde", 'key4="abcde"'), (5, b"", "key5"), (6, b"abcd", 'key6="abcd"'), (6, b"", "key6"),
    (7, b"/dns-query{?dns}", 'dohpath="/dns-query{?dns}"'), (7, b"", "key7"), (8, b"", "ohttp"), (8, b"x", 'key8="x"'),
)


def service_rows():
    topic("data of SVCB and HTTPS: the vectors of RFC 9460, values that their keys don't want, cut, and out of order")
    for rtype in (64, 65):
        for octets, text in SERVICES:
            row("any", rtype, octets, 0, len(octets), told=f"ok {octets.hex()} {octets.hex()} {len(octets)} {text}")
    for key, value, text in VALUES:
        octets = b"\0\1\0" + parameter(key, value)
        row("any", 64, octets, 0, len(octets), told=f"ok {octets.hex()} {octets.hex()} {len(octets)} 1 . {text}")
    octets = SERVICES[7][0]
    for size in range(len(octets)):
        row("any", 64, octets, 0, size)
    start = b"\0\1\0"
    out = "err keys of parameters out of order"
    for params, told in (
            (parameter(1, b"\1a") + parameter(1, b"\1a"), out), (parameter(4, b"abcd") + parameter(3, b"\0\1"), out),
            (parameter(1, b"") + b"\0\1", out), (parameter(1, b"") + b"\0\0\0\5", out), (parameter(65535, b"") + parameter(65535, b""), out),
            (parameter(1, b"") + b"\0", "err " + second.SHORT), (b"\0\1\0", "err " + second.SHORT), (b"\0\1\0\1", "err " + second.SHORT),
            (parameter(0, b"\0\1") + parameter(65535, bytes(300)), "ok ")):
        row("any", 65, start + params, 0, len(start + params), told=told)
    before = header() + name("WWW.Example.com.")
    for last in (pointer(12), pointer(16), b"\1A" + pointer(12), pointer(len(before) + 2), b"\xc0"):
        octets = b"\0\1" + last + parameter(3, b"\1\xbb")
        row("any", 65, before + octets, len(before), len(octets))


def rebuild_rows():
    topic("messages that dnspython and libknot wrote, built anew")
    with open(os.path.join(FOLDER, "rebuild.rows"), encoding="ascii") as file:
        for line in file:
            octets, answer = line.rstrip("\n").split("\t")
            row("rebuild", octets)
            written[rows[-1][0]] = hx(second.octets_of(octets if answer == "=" else answer))
    topic("messages that can't be read: cut at each octet, with other counts, with data that is none")
    mail = record(AT, MX, u16(10) + b"\4mail" + END)
    naptr = record(AT, 35, u16(1) + u16(2) + b"\1u\0\0" + END)
    whole = message([question(WWW)], [mail, naptr], (), [record(b"\0", 41, b"\0\3\0\0", rclass=1232)])
    for size in range(len(whole)):
        row("rebuild", whole[:size], told="err ")
    for place in (4, 6, 8, 10):
        row("rebuild", whole[:place] + u16(7) + whole[place + 2:], told="err ")
    for rtype, data in ((A, b"\1\2\3"), (A, b"\1\2\3\4\5"), (NS, AT + b"\0"), (CNAME, pointer(4000)), (TXT, b""),
                        (TXT, b"\2a"), (MX, u16(1)), (SOA, AT + AT + bytes(19)), (35, u16(1) + u16(2) + b"\2u")):
        row("rebuild", message([question(WWW)], [record(AT, rtype, data)]), told="err ")


def order_rows():
    topic("data of any type: the order of two, and whether they are equal")
    data = [(rtype, octets) for rtype, octets, _text in ANY + TYPED] + list(OF_TYPE.items())
    for (rtype, octets), (other, octets_of_other) in zip(data, data[1:] + data[:1]):
        row("order", rtype, octets, rtype, octets, told="err " if (rtype, octets, second.SHORT) in ANY else "equal same")
        row("order", rtype, octets, rtype, octets.swapcase())
        row("order", other, octets_of_other, rtype, octets)
        row("order", rtype, octets[:-1], rtype, octets)
    for rtype, before, told in ((MX, u16(10), "equal same"), (33, u16(1) + u16(2) + u16(3), "equal same"), (64, u16(1), "less other")):
        row("order", rtype, before + name("A."), rtype, before + name("a."), told=told)
    row("order", 47, name("A.") + b"\0\1\x40", 47, name("a.") + b"\0\1\x40", told="less other")
    row("order", TXT, b"\1a", TXT, b"\1A", told="greater other")
    row("order", PRIVATE, b"a", PRIVATE, b"ab", told="less other")
    row("order", NS, b"\1b\0", NS, b"\2aa\0", told="less other")
    for rtype, octets, text in LATER:
        row("order", rtype, octets, rtype, octets, told="equal same" if text != "hash without an octet" else "err ")
        row("order", rtype, octets.swapcase(), rtype, octets)
    rng = random.Random(5)
    for _row in range(600):
        rtype, octets = rng.choice(data)
        both = []
        for _data in range(2):
            changed = bytearray(octets)
            for place in range(len(changed)):
                if 64 < changed[place] < 123 and rng.random() < 0.3:
                    changed[place] ^= 32
            if changed and rng.random() < 0.3:
                place = rng.randrange(len(changed))
                changed[place] = min(255, changed[place] + 1)
            both.append(bytes(changed))
        row("order", rtype, both[0], rtype, both[1])
    for line in ("order 1 00 1", "order 65536 - 1 -", "order 1 - 65536 -", "order x - 1 -", "order 1 0 1 -"):
        row(line, told="bad")


def random_bitmaps(rng):
    """Blocks of bitmaps, mostly in order and of a length that is allowed; the types that have a mnemonic are of second.py."""
    windows = sorted(rng.sample((0, 1, 4, 5, 77, 254, 255), rng.choice((1, 1, 2, 3))))
    if rng.random() < 0.1:
        rng.shuffle(windows)
    octets = b""
    for window in windows:
        if window < 2:
            bitmap = bytearray(32)
            for number in rng.sample(tuple(second.MNEMONICS), 5):
                if number // 256 == window:
                    bitmap[number % 256 // 8] |= 128 >> number % 8
            bitmap = bytes(bitmap[:rng.choice((1, 6, 7, 32))])
        else:
            bitmap = bytes(rng.choice((0, 1, 32, 128, 255, rng.randrange(256))) for _octet in range(rng.choice((1, 2, 31, 32))))
        octets += bytes([window, rng.choice((0, 33, 255)) if rng.random() < 0.03 else len(bitmap)]) + bitmap
    return octets[:rng.randrange(len(octets))] if rng.random() < 0.1 else octets


def random_name(rng, places, at):
    """Labels of a few words, in any case, and then the root or a pointer to a name, sometimes to anywhere."""
    octets = b""
    for _label in range(rng.choice((0, 0, 1, 1, 1, 2, 3, 5))):
        word = rng.choice((b"a", b"b", b"www", b"mail", b"example", b"com", b"x" * 63, b"\x00", b". \\", b"ns1"))
        word = bytes(octet ^ 32 if rng.random() < 0.1 and chr(octet).isalpha() else octet for octet in word)
        octets += bytes([len(word)]) + word
    if places and rng.random() < 0.6:
        return octets + pointer(rng.choice(places) & 0x3FFF)
    if rng.random() < 0.02:
        return octets + pointer(rng.randrange(0, at + 40) & 0x3FFF)
    return octets + b"\0"


def random_data(rng, rtype, places, at):
    shape = {A: "a", NS: "n", CNAME: "n", SOA: "nns", PTR: "n", MX: "2n", AAAA: "aaaa", SRV: "222n", DNAME: "n"}.get(rtype, "r")
    octets = b""
    for part in shape:
        if part == "n":
            octets += random_name(rng, places, at + len(octets))
        else:
            size = {"a": 4, "2": 2, "s": 20}.get(part) or rng.randrange(0, 20)
            octets += bytes(rng.randrange(256) for _octet in range(size))
    return octets


def random_message(rng):
    """A header and the entries that it counts; and the type, offset and length of each record's data."""
    counts = [rng.choice((0, 1, 1, 1, 1, 2)), rng.choice((0, 1, 2, 3, 4, 8)), rng.choice((0, 0, 1, 2)), rng.choice((0, 0, 1, 2))]
    octets = header(counts, rng.randrange(65536), rng.randrange(65536))
    places, parts = [], []
    for place, count in enumerate(counts):
        for _entry in range(count):
            at = len(octets)
            owner = random_name(rng, places, at)
            rclass = rng.choice((1, 1, 1, 3, 255, rng.randrange(65536)))
            rtype = rng.choice(KNOWN + (CNAME, CNAME, TXT, PRIVATE, rng.randrange(65536)))
            octets += question(owner, rtype, rclass)
            if place:
                data = random_data(rng, rtype, places + [at], len(octets) + 6)
                if rtype in (NS, CNAME, PTR, DNAME) and rng.random() < 0.9:
                    places.append(len(octets) + 6)
                octets += u32(rng.choice((0, 300, 2**31, rng.randrange(2**32)))) + u16(len(data)) + data
                parts.append((rtype, len(octets) - len(data), len(data)))
            places.append(at)
    return octets, parts


def mutated(rng, octets):
    octets = bytearray(octets)
    for _time in range(rng.choice((0, 0, 1, 1, 2, 4))):
        if not octets:
            break
        at = rng.randrange(len(octets))
        way = rng.randrange(7)
        if way == 0:
            octets[at] ^= 1 << rng.randrange(8)
        elif way == 1:
            octets[at] = rng.choice((0, 1, 2, 3, 4, 12, 63, 64, 127, 128, 191, 192, 255))
        elif way == 2:
            octets[at:at] = bytes(rng.randrange(256) for _octet in range(rng.randrange(1, 4)))
        elif way == 3:
            del octets[at:at + rng.randrange(1, 4)]
        elif way == 4:
            del octets[at:]
        elif way == 5:
            octets[at:at + 2] = pointer(rng.randrange(len(octets)) & 0x3FFF)
        elif len(octets) > 12:
            octets[4 + rng.randrange(8)] = rng.choice((0, 1, 2, 3, 255))
    return bytes(octets)


def random_lines(count, seed):
    """For each message what it has, what is composed of it, and the data of a record, or of a type at any of its places."""
    rng = random.Random(seed)
    for _message in range(count):
        octets, parts = random_message(rng)
        if rng.random() < 0.03:
            octets = bytes(rng.randrange(256) for _octet in range(rng.randrange(40)))
        octets = mutated(rng, octets)
        yield "message " + hx(octets)
        yield "compose " + hx(octets)
        begin = rng.randrange(len(octets) + 1)
        length = rng.choice((len(octets) - begin, rng.randrange(len(octets) - begin + 1)))
        data = (rng.choice(KNOWN), begin, length)
        if parts and rng.random() < 0.9:
            data = rng.choice(parts)
        if data[1] + data[2] <= len(octets):
            yield "data %d %s %d %d" % (data[0], hx(octets), *data[1:])


def answers_to(lines, answerer):
    """The answer to each line, by rebuild.rows, by second.py or by the command."""
    ours = [line.split(" ")[0] in ("answers", "limit", "any", "typed", "order", "rebuild") for line in lines]
    text = "".join(line + "\n" for line, is_ours in zip(lines, ours) if not is_ours)
    ran = subprocess.run(answerer, input=text.encode(), stdout=subprocess.PIPE, check=True)
    others = ran.stdout.decode().splitlines()
    assert len(others) == ours.count(False), (len(others), ours.count(False))
    others = iter(others)
    return [
        written.get(line) or second.answer(line) if is_ours else next(others) for line, is_ours in zip(lines, ours)]


def main():
    if sys.argv[1:2] == ["--random"]:
        for line in random_lines(int(sys.argv[2]), int(sys.argv[3])):
            print(line)
        return
    answerer = sys.argv[1:]
    if not answerer:
        sys.exit(__doc__)
    for make in (header_rows, section_rows, long_rows, data_rows, chain_rows, answers_rows, limit_rows, any_rows,
                 typed_rows, service_rows, order_rows):
        make()
    topic("random and mutated messages")
    for line in random_lines(400, 1):
        row(line)
    rebuild_rows()
    table = {}
    for line, told in rows:
        if told is not None or line not in table:
            table[line] = told
    text = "".join(line + "\n" for line in table)
    answers = answers_to(table, answerer)
    wrong = 0
    for (line, told), answer in zip(table.items(), answers):
        if told is not None and told not in answer:
            wrong += 1
            print("different:", line[:300], "\n  wanted:", told[:300], "\n  is:    ", answer[:300], file=sys.stderr)
    with open(os.path.join(FOLDER, "stdin"), "w", encoding="ascii") as file:
        file.write(text)
    with open(os.path.join(FOLDER, "stdout"), "w", encoding="ascii") as file:
        file.write("".join(answer + "\n" for answer in answers))
    lines = sum(not line.startswith("#") for line in table)
    by_hand = sum(told is not None for told in table.values())
    print(f"{lines} rows, {by_hand} of them with a part of the answer beside them; {wrong} different")
    wrong += text_rows.write()
    sys.exit(wrong > 0)


main()
