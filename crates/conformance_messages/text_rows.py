#!/usr/bin/env python3
"""Writes the rows `text` of the conformance table of messages anew: record data from its presentation format.

    text_rows.py

The lines are always the same; their answers are those of second_text.py, and none is the program's. They are at the end
of `stdin` and `stdout`, from the heading that FIRST tells, and replace what is there. Where the octets that a text
stands for are known beforehand, from a standard or since the text was made of them, they must be the answer. The texts
that the rows `any` and `typed` print are read back. The last line tells how many rows there are.
"""
import ipaddress
import os
import random
import re
import sys

import second
import second_text

FOLDER = os.path.dirname(os.path.abspath(__file__))
FIRST = "# texts: words, white space and comments"
A, NS, CNAME, SOA, HINFO, MX, TXT, RP, AAAA, SRV, DNAME, SPF = 1, 2, 5, 6, 13, 15, 16, 17, 28, 33, 39, 99
IN, CH, HS, NONE, ANY = 1, 3, 4, 254, 255
# What the data of a type is, one letter a word: n a name, 2 and 4 a number of as many octets, a and A an address, s a
# character string; S is one of these or more.
FORMS = {
    1: "a", 2: "n", 3: "n", 4: "n", 5: "n", 6: "nn44444", 7: "n", 8: "n", 9: "n", 12: "n", 13: "ss", 14: "nn", 15: "2n",
    16: "S", 17: "nn", 18: "2n", 21: "2n", 28: "A", 33: "222n", 36: "2n", 39: "n", 99: "S",
}
# Types of which nothing is known: after `\\#` their data is any octets.
UNKNOWN = (0, 731, 32767, 65280, 65281, 65534, 65535)
# Types of which data is read by its fields in class IN alone (RFC 1035, 3.4; RFC 2782; RFC 2230)
OF_INTERNET = (A, AAAA, SRV, 36)
rows = {}  # a line, and its answer if it is known beforehand


def topic(text):
    rows["# texts: " + text] = None


def row(rtype, text, data=None, rclass=IN, err=None):
    """A line, and the octets that its text stands for, or why it is none, if that is known."""
    text = text.encode("latin-1") if isinstance(text, str) else text
    told = "ok " + (data.hex() or "-") if data is not None else "err " + err if err else None
    line = f"text {rclass} {rtype} {text.hex() or '-'}"
    rows[line] = rows.get(line) or told


def wire(*labels):
    return b"".join(bytes([len(label)]) + label for label in labels) + b"\0"


def strings(*parts):
    return b"".join(bytes([len(part)]) + part for part in parts)


# A text of the data of each type, and its octets.
NAME, HOST = wire(b"ns1", b"Example", b"com"), wire(b"mail", b"example")
NUMBERS = "2026112501 7200 3600 1209600 4294967295"
OF_NUMBERS = b"".join(int(it).to_bytes(4, "big") for it in NUMBERS.split())
WORKED = {
    A: ("192.0.2.1", bytes([192, 0, 2, 1])), SOA: ("ns1.Example.com. mail.example. " + NUMBERS, NAME + HOST + OF_NUMBERS),
    HINFO: ('"PC \\"x\\"" Linux', strings(b'PC "x"', b"Linux")), TXT: ('"a b" \\"c\\059 ""', strings(b"a b", b'"c;', b"")),
    AAAA: ("2001:db8::8:800:200c:417a", bytes.fromhex("20010db80000000000080800200c417a")), SPF: ("v=spf1", strings(b"v=spf1")),
    SRV: ("1 65535 5060 mail.example.", b"\0\1\xff\xff\x13\xc4" + HOST),
}
WORKED.update({rtype: ("ns1.Example.com.", NAME) for rtype in (2, 3, 4, 5, 7, 8, 9, 12, 39)})
WORKED.update({rtype: ("ns1.Example.com. mail.example.", NAME + HOST) for rtype in (14, 17)})
WORKED.update({rtype: ("10 mail.example.", b"\0\x0a" + HOST) for rtype in (15, 18, 21, 36)})


def word_rows():
    topic(FIRST.removeprefix("# texts: "))
    for rtype, (text, octets) in sorted(WORKED.items()):
        row(rtype, text, octets)
        for before, after in ((" ", ""), ("", " "), ("\t", "\t"), ("", "\r"), (" \t\r ", " ; a comment"), ("", " ;"), ("", " ;\"")):
            row(rtype, before + text + after, octets)
        row(rtype, text.replace(" ", "\t \r"), octets if rtype not in (HINFO, TXT) else None)
        row(rtype, ";" + text)
        row(rtype, text + ";")
        for mark in '()@$"\\\n\v\f':
            row(rtype, text + mark)
            row(rtype, mark + text)
            row(rtype, text + " " + mark)
            row(rtype, mark + " " + text)
        row(rtype, f"( {text} )")
        row(rtype, '"' + text.replace('"', '\\"') + '"')
    for text in ('"', '""', '"""', '""""', '"a', 'a"', 'a"b', '"a"b', 'a"b"', 'a"b c"d', '"a""b"', '"a" "b"', '"a"\t"b"', '"\\""', '"\\"',
                 '"\\\\"', '"\\\\\\"', "\\", "\\\\", "\\\\\\", "a\\", 'a "b\\', '"b" a\\', '"a;b"', "a;b", "a ;b", "a\\ b", "\\ ", "\\\t", "\\\r",
                 "a\\\tb", '"a\tb"', '"a\rb"', "\\;a", "\\;", "\\;\\;", "\\034", "\\034a b\\034", '"a\\032b"', "\\#", "\\\\#", '"\\#"', "\\035 0",
                 "a \\# 0", "\\#0", "\\# 0;", "(", ")", "()", '("a")', '( "a" )', "( a", "$ORIGIN", "@", "a\0b", "\0", "\x80", '"\x80"', "\xc3\xa9",
                 '"\xc3\xa9"', '\\\xc3\xa9', "\n", '"a\nb"', "a\nb"):
        row(TXT, text)
        row(HINFO, text + " b")
        row(NS, text + ".")


def name_rows():
    topic("names: each octet by itself, after a backslash and by its number, and names about the limits")
    for octet in range(256):
        it = bytes([octet])
        row(NS, b"\\%03d." % octet, wire(it))
        row(CNAME, b"a\\%03db.c." % octet, wire(b"a" + it + b"b", b"c"))
        row(MX, b"1 a" + it + b"b.")
        row(NS, b"\\" + it + b".", wire(it) if it not in b"[0123456789" and 32 <= octet < 127 else None)
        row(DNAME, b"a\\" + it + b"b.", wire(b"a" + it + b"b") if it not in b"0123456789" and 32 <= octet < 127 else None)
    for escape in ("\\256", "\\299", "\\300", "\\999", "\\1", "\\12", "\\0", "\\00", "\\1a", "\\12a", "\\1a2", "\\+12", "\\ 12", "\\0x1", "\\-01"):
        row(NS, escape + ".", err="0 Name" if escape[1] in "01239" else None)
        row(NS, "a" + escape + "b.c.")
        row(TXT, escape)
        row(TXT, f'"a{escape}b"')
    for text in (".", "..", "a..", ".a.", "a..b.", "a", "a.b", "a\\.", "a\\\\.", "a\\\\\\.", "\\..", "\\.", "a\\046.", "a\\046", "a.\\046", "*.a.", "\\*.a.",
                 "_sip._udp.a.", "-.", "A-b.C.", "@", "@.", "\\@.", "1.2.", "a.b\\", "\\[.", "\\[x.", "\\[b1/1].", "a\\[.", "[.", "\\091.", '"a."', '"a".',
                 'a".', '"a b".', 'a"b c".', "xn--nxasmq6b.", "a. b.", "a.;b.", "a;b.", "\\059.", "a.\\;."):
        row(NS, text)
        row(MX, "0 " + text)
        row(RP, text + " " + text)
        row(SOA, f"{text} {text} 1 2 3 4 5")
    for size in (1, 62, 63, 64, 65, 255, 256):
        told = wire(b"a" * size) if size < 64 else None
        row(NS, "a" * size + ".", told, err=None if told else "0 Name")
        row(NS, "\\097" * size + ".", told, err=None if told else "0 Name")
        row(NS, "\\a" * size + ".", told)
        row(NS, "b." + "a" * size + ".c.", wire(b"b", b"a" * size, b"c") if told else None)
    for last in range(57, 64):  # names of 251 to 257 octets
        labels = [b"a" * 63] * 3 + [b"b" * last]
        told = wire(*labels) if len(wire(*labels)) <= 255 else None
        row(CNAME, b".".join(labels) + b".", told, err=None if told else "0 Name")
        row(SRV, b"0 0 0 " + b".".join(labels) + b".", b"\0" * 6 + told if told else None)
    for count in (126, 127, 128, 129):
        told = wire(*[b"a"] * count) if count < 128 else None
        row(NS, "a." * count, told, err=None if told else "0 Name")
        row(NS, "\\046." * count, wire(*[b"."] * count) if told else None)
    row(NS, "mail.example.;", None)


def number_rows():
    topic("numbers: digits, limits and what is none")
    for text in ("0", "1", "00", "007", "65535", "65536", "065535", "0000065535", "00000065535", "99999", "100000", "4294967295", "4294967296",
                 "04294967295", "9999999999", "10000000000", "0000000000", "00000000000", "-1", "-0", "+1", "1.0", "1e3", "0x10", "1_0", "1 000", "a",
                 "1a", "a1", '"1"', "\\1", "\\049", "1h", "1W2D", "1\0", "\xb2", "\xd9\xa1", "18446744073709551616", "1;", "1\\", "1\xa0"):
        value = int(text) if text.isdecimal() and text.isascii() and len(text) <= 10 else 2**40
        for rtype in (15, 36):
            row(rtype, text + " .", value.to_bytes(2, "big") + b"\0" if value < 2**16 else None)
        row(SRV, f"1 {text} 2 .", b"\0\1" + value.to_bytes(2, "big") + b"\0\2\0" if value < 2**16 else None)
        row(SRV, f"1 2 {text} .")
        for place in range(5):
            words = ["1", "2", "3", "4", "5"]
            words[place] = text
            numbers = [value if it == place else it + 1 for it in range(5)]
            row(SOA, ". . " + " ".join(words), b"\0\0" + b"".join(it.to_bytes(4, "big") for it in numbers) if value < 2**32 else None)
        row(65280, f"\\# {text} 00")
        row(A, f"\\# {text}")
    row(SOA, ". . 1h 2 3 4 5", err="4 Number")
    for text, numbers in ((". . 1 1h 15M 2w 1d", (1, 3600, 900, 1209600, 86400)), (". . 1 2 3 1W2D 5", (1, 2, 3, 777600, 5))):
        row(SOA, text, b"\0\0" + b"".join(it.to_bytes(4, "big") for it in numbers))


def address_rows():
    topic("addresses")
    for text in ("0.0.0.0", "255.255.255.255", "1.2.3.4", "10.0.0.1", "256.1.1.1", "1.256.1.1", "1.1.1.256", "1.2.3", "1.2.3.4.5", "1.2.3.4.", ".1.2.3.4",
                 "1..2.3", "01.2.3.4", "1.2.3.04", "00.0.0.0", "1.2.3.000", "0x1.2.3.4", "1.2.3.+4", "1.2.3.-4", "1.2.3.4a", "a.b.c.d", "1.2.3.\\052",
                 '"1.2.3.4"', "1 2 3 4", "16909060", "1.2.3.4/24", "::1", "1.2.3.\xb2", "1.2.3.1e1", "1.2.3.4294967296", "192.0.2.1.", "\\1.2.3.4"):
        row(A, text)
        row(AAAA, text)
        row(AAAA, "::" + text)
        row(AAAA, "::ffff:" + text)
        row(AAAA, "1:2:3:4:5:6:" + text)
    # RFC 4291, 2.2
    for text in ("ABCD:EF01:2345:6789:ABCD:EF01:2345:6789", "2001:DB8:0:0:8:800:200C:417A", "FF01:0:0:0:0:0:0:101", "0:0:0:0:0:0:0:1", "0:0:0:0:0:0:0:0",
                 "2001:DB8::8:800:200C:417A", "FF01::101", "::1", "::", "0:0:0:0:0:0:13.1.68.3", "0:0:0:0:0:FFFF:129.144.52.38", "::13.1.68.3",
                 "::FFFF:129.144.52.38", "2001:0DB8:0000:CD30:0000:0000:0000:0000", "2001:0DB8::CD30:0:0:0:0", "2001:0DB8:0:CD30::", "fe80::1"):
        row(AAAA, text, ipaddress.IPv6Address(text).packed)
        row(AAAA, text.swapcase(), ipaddress.IPv6Address(text).packed)
    for text in (":", ":::", "1::2::3", "1:2:3:4:5:6:7", "1:2:3:4:5:6:7:8:9", "1:2:3:4:5:6:7:", ":1:2:3:4:5:6:7", "1:2:3:4:5:6:7::", "::2:3:4:5:6:7:8",
                 "1::3:4:5:6:7:8", "1:2:3:4::5:6:7:8", "::1:2:3:4:5:6:7:8", "1:2:3:4:5:6:7:8::", "12345::", "0001::", "00001::", "g::", "1:2:3:4:5:6:7:1.2.3.4",
                 "1:2:3:4:5:6:7:8.1.2.3", "1.2.3.4::", "::1.2.3.4:5", "::1.2.3", "::1.2.3.256", "::01.2.3.4", "fe80::1%eth0", "fe80::1%1", "[::1]", "::1/128",
                 "1: :2", "::-1", "::+1", "::0x1", "1:2", "::\\049", '"::1"', "::\xb2", "::1 ::2", "::1.", "-::", "1::-"):
        row(AAAA, text)
        row(A, text)
    for head in range(9):
        for tail in range(9 - head):
            row(AAAA, ":".join(["a"] * head) + "::" + ":".join(["b"] * tail))
            row(AAAA, ":".join(["a"] * head) + "::" + ":".join(["b"] * tail + ["1.2.3.4"]))


def string_rows():
    topic("character strings: each octet by itself, after a backslash and by its number, and strings about the limits")
    for octet in range(256):
        it = bytes([octet])
        plain = it not in b'"\\'
        row(TXT, b"\\%03d" % octet, strings(it))
        row(TXT, b'"a\\%03db"' % octet, strings(b"a" + it + b"b"))
        row(TXT, b'"' + it + b'"', strings(it) if plain else None)
        row(TXT, b"a" + it + b"b", strings(b"a" + it + b"b") if plain and it not in b" \t\r\n;()" else None)
        row(SPF, it)
        row(TXT, b"\\" + it, strings(it) if it not in b"#0123456789" else None)
        row(HINFO, b'"\\' + it + b'" "' + it + it + b'"')
    for size in (0, 1, 2, 254, 255, 256, 257, 300):
        told = strings(b"a" * size) if size < 256 else None
        err = None if told else "0 CharString"
        for text in ('"' + "a" * size + '"', '"' + "\\a" * size + '"', '"' + "\\097" * size + '"'):
            row(TXT, text, told, err=err)
            row(TXT, text + " b", told and told + strings(b"b"), err=err)
            row(TXT, "b " + text, told and strings(b"b") + told)
            row(HINFO, f"{text} {text}", told and told + told, err=err)
        if size:
            row(TXT, "a" * size, told, err=err)
            row(TXT, "\\097" * size, told, err=err)
    for count in (1, 2, 3, 17, 300):
        row(TXT, " ".join(["a"] * count), strings(*[b"a"] * count))
        row(TXT, " ".join(['""'] * count), bytes(count))
        row(SPF, " ".join(['"' + "b" * 255 + '"'] * count), strings(*[b"b" * 255] * count) if count < 256 else None)
    row(TXT, "", err="0 MissingWord")
    row(TXT, " ; nothing", err="10 MissingWord")


WRONG = ("x", "x.", "1", "65536", "4294967296", "1.2.3.4", "::1", '"a b"', '"', "\\", "\\256", "..", "a" * 64 + ".", '""', "\\#", "\x80", "a" * 256)


def field_rows():
    topic("data of each type: with each word left out, twice, and replaced by what is none")
    for rtype, (text, _octets) in sorted(WORKED.items()):
        words = [word.decode() for _offset, word in second_text.words_of(text.encode())]
        for count in range(len(words)):
            row(rtype, " ".join(words[:count]))
        for place in range(len(words)):
            row(rtype, " ".join(words[:place] + words[place + 1:]))
            row(rtype, " ".join(words[:place] + words[place:place + 1] + words[place:]))
            for wrong in WRONG:
                row(rtype, " ".join(words[:place] + [wrong] + words[place + 1:]))
        for wrong in WRONG:
            row(rtype, f"{text} {wrong}")
        # Of two words that are none the first is reported.
        row(rtype, " ".join(['"'] * len(words)))
        row(rtype, " ".join(["\x80"] * len(words)))
        row(rtype, "  ".join(["x"] * len(words)))
        row(rtype, text.upper() if rtype not in (HINFO, TXT) else text)


def generic_rows():
    topic("data of any type behind \\#, and types that are read in no other form")
    # RFC 3597, 5
    row(731, "\\# 6 abcd ef 01 23 45", bytes.fromhex("abcdef012345"), rclass=32)
    row(731, "\\# 6 abcd ( ef 01 23 45 )", rclass=32)
    row(62347, "\\# 0", b"", rclass=HS)
    row(A, "\\# 4 0A000001", bytes([10, 0, 0, 1]))
    row(A, "10.0.0.2", bytes([10, 0, 0, 2]))
    for rtype in [*range(0, 120), *range(245, 265), 32767, 32768, 32769, 65280, 65534, 65535]:
        is_unknown = rtype in UNKNOWN
        row(rtype, "\\# 3 01 02 ff", b"\1\2\xff" if is_unknown else None)
        row(rtype, "\\# 0", b"" if is_unknown else None)
        row(rtype, "1")
        row(rtype, "")
    for text in ("\\#", "\\# ", "\\# ;", "\\# 1", "\\# 0 00", "\\# 1 0", "\\# 1 000", "\\# 1 00 ", "\\# 1 0 0", "\\# 2 000 0", "\\# 2 0000", "\\# 2 00 00", "\\# 2 00\t00",
                 "\\# 2 00 00 ; 00", "\\# 2 00;00", "\\# 2 00 ;00", "\\# 3 00 00", "\\# 1 00 00", "\\# 1 0g", "\\# 1 g0", "\\# 1 0x00", "\\# 1 \\048\\048", '\\# 1 "00"',
                 '\\# 0 ""', "\\# x 00", "\\# -1", "\\# 00", "\\#1 00", "\\#  1   00", "\\# 1 aF", "\\# 1 Fa", "\\# 2 aFFa", "\\# 65536", "\\# 65535 00", "\\# 1 0\\#",
                 "\\# \\# 0", "\\\\# 0", '"\\#" 0', "# 0", "\\35 0", "\\035 1 00", "x \\# 0", ". \\# 0", "\\# 1 \xff\xff", "\\# 1 @@", "\\# 1 //", "\\# 1 ::", "\\# 1 ``",
                 "\\# 1 GG", "\\# 1 gg", "\\# 4 01020304", "\\# 4 0102 0304", "\\# 4 01 02 03 04", "\\# 4 01 02 03", "\\# 4 01 02 03 04 05", "\\# 4 010203 4", "\\# 4 010 20304"):
        for rtype in (A, NS, TXT, 46, 48, 65280):
            row(rtype, text)
    for size in (1, 255, 256, 1000, 65535):
        octets = bytes(it * 7 % 256 for it in range(size))
        row(65281, f"\\# {size} {octets.hex()}", octets)
    row(65281, "\\# 0 " + "00" * 65536)
    for rtype, (_text, octets) in sorted(WORKED.items()):
        row(rtype, f"\\# {len(octets)} {octets.hex()}", octets)
        row(rtype, f"\\# {len(octets)} {octets.hex(' ')}", octets)
        row(rtype, f"\\# {len(octets)} {octets.hex().upper()}", octets)
        row(rtype, f"\\# {len(octets) + 1} {octets.hex()}")
        row(rtype, f"\\# {len(octets) - 1} {octets.hex()[2:]}")
    for rtype, text in OTHERS:
        row(rtype, text)


# Texts of other types, most of them as their RFCs write them.
OTHERS = (
    (11, "10.0.0.1 TCP 25"), (19, "311061700956"), (20, "150862028003217 004"), (22, "0x47.0005.80"), (24, "SIG 1 3 300 0 0 0 a. aa=="),
    (25, "256 3 5 AQPSKmynfzW4"), (26, "10 net2.it. PRMD-net2."), (27, "-32.6882 116.8652 10.0"), (29, "42 21 54 N 71 06 18 W -24m 30m"), (30, "a. A NS"),
    (35, '100 50 "s" "z3950+N2L+N2C" "" cidserver.example.com.'), (37, "PGP 0 0 aa=="), (38, "0 . a."), (41, ""), (42, "1:192.168.32.0/21 !1:192.168.38.0/28"),
    (43, "60485 5 1 2BB183AF5F22588179A53B0A 98631FAD1A292118"), (44, "2 1 123456789abcdef67890 123456789abcdef67890"), (45, "10 1 2 192.0.2.38 AQNRU3mG7TVTO2Bk"),
    (46, "A 5 3 86400 20030322173103 20030220173103 2642 example.com. oJB1W6WNGv+ldvQ3 WDG0MQkg"), (46, "A 5 3 86400 1048354263 1045762263 2642 example.com. oJB1"),
    (47, "host.example.com. A MX RRSIG NSEC TYPE1234"), (48, "256 3 5 AQPSKmynfzW4kyBv015MUG2DeIQ3 Cbl+BBZH4b/0PY1kxkmvHjcZc8no"), (49, "AAIBY2/AuCccgoJbsaxcQc9T"),
    (50, "1 1 12 aabbccdd 2t7b4g4vsa5smi47k61mv5bv1a22bojr MX DNSKEY NS"), (51, "1 0 12 aabbccdd"), (52, "0 0 1 d2abde240d7cd3ee6b4b28c54df034b9 7983a1d16e8a410e"),
    (53, "3 0 0 aabb"), (55, "2 200100107B1A74DF365639CC39F1D578 AwEAAbdxyhNuSutc5EMzxTs9LBPCIkOFH8cI"), (59, "60485 5 1 2BB183AF"), (60, "256 3 5 AQPS"), (61, "AQPS"),
    (62, "66 3 A NS AAAA"), (63, "2018031500 1 1 aabb"), (64, "1 . alpn=h2"), (65, "0 foo.example.com."), (104, "10 0014:4fff:ff20:ee64"), (105, "10 10.1.2.0"),
    (106, "10 2001:0DB8:1140:1000"), (107, "10 l64-subnet1.example.com."), (108, "00-00-5e-00-53-2a"), (109, "00-00-5e-ef-10-00-00-2a"), (250, "hmac-sha1. 1 1 0 1 0 0"),
    (256, '10 1 "ftp://ftp1.example.com/public"'), (257, '0 issue "ca.example.net"'), (258, '"a"'), (32769, "60485 5 1 2BB183AF"), (65280, "a"),
)


def class_rows():
    topic("classes, and records without data")
    for rclass in (0, 1, 2, CH, HS, 5, 253, NONE, ANY, 256, 65280, 65535):
        for rtype in (A, NS, TXT, AAAA, SRV, 46, 65280):
            row(rtype, "", rclass=rclass)
            row(rtype, " \t", rclass=rclass)
            row(rtype, " ; nothing", rclass=rclass)
            row(rtype, "\\# 0", b"" if rtype in UNKNOWN else None, rclass=rclass)
            row(rtype, WORKED.get(rtype, ("x",))[0], rclass=rclass)
            row(rtype, '""', rclass=rclass)
            row(rtype, "\\#", rclass=rclass)
    for rclass, rtype, octets in (("65536", "1", "-"), ("1", "65536", "-"), ("x", "1", "-"), ("1", "A", "-"), ("1", "1", ""), ("1", "1", "0"), ("1", "1", "zz")):
        rows[f"text {rclass} {rtype} {octets}"] = "bad"
    rows["text 1 1"] = rows["text 1 1 - -"] = rows["text"] = "bad"


NOT_PRINTABLE = bytes([*range(32), *range(127, 256)])


def spelled_octet(rng, octet, special, unescaped=b"0123456789"):
    """An octet by itself, after a backslash or by its number, where it may be."""
    ways = [b"\\%03d" % octet]
    it = bytes([octet])
    if it not in unescaped:
        ways.append(b"\\" + it)
    if it not in special:
        ways += [it] * 6
    return rng.choice(ways)


def random_octets(rng, most):
    octets = (rng.choice((rng.randrange(256), rng.choice(b'aA09z -;"\\()@$.[')))for _octet in range(rng.randrange(most)))
    return bytes(octets)


def random_string(rng):
    octets = random_octets(rng, rng.choice((1, 4, 12, 40)))
    if octets and rng.random() < 0.4:
        # A semicolon would begin a comment there, and white space end the word.
        start = spelled_octet(rng, octets[0], b'"\\ \t\r;')
        return start + b"".join(spelled_octet(rng, octet, b'"\\ \t\r') for octet in octets[1:]), strings(octets)
    return b'"' + b"".join(spelled_octet(rng, octet, b'"\\') for octet in octets) + b'"', strings(octets)


def random_name(rng):
    labels = []
    for _label in range(rng.choice((0, 1, 1, 2, 3, 5))):
        octets = rng.choice((b"www", b"a", b"Example", b"xn--a", b"_sip", b"*", random_octets(rng, 12))) or b"b"
        labels.append(octets)
    text, unescaped = b"", NOT_PRINTABLE + b"0123456789"
    for label in labels:
        # No label begins with `\[`, and quotes would make a word of several.
        start = b"\\091" if label[0] == ord("[") else spelled_octet(rng, label[0], NOT_PRINTABLE + b'"\\. ;', unescaped)
        text += start + b"".join(spelled_octet(rng, octet, NOT_PRINTABLE + b'"\\. ', unescaped) for octet in label[1:]) + b"."
    return text or b".", wire(*labels)


def random_number(rng, size):
    value = rng.choice((0, 1, 256 ** size - 1, rng.randrange(256 ** size)))
    return str(value).zfill(rng.choice((0, 0, 5, 10))).encode(), value.to_bytes(size, "big")


def random_address6(rng):
    octets = b"".join(rng.choice((b"\0\0", rng.randbytes(2))) for _segment in range(8))
    address = ipaddress.IPv6Address(octets)
    text = rng.choice((str(address), address.exploded, address.exploded.upper(), ":".join(it.lstrip("0") or "0" for it in address.exploded.split(":"))))
    return text.encode(), octets


def random_word(rng, kind):
    if kind == "n":
        return random_name(rng)
    if kind == "s":
        return random_string(rng)
    if kind == "A":
        return random_address6(rng)
    if kind == "a":
        octets = rng.randbytes(4)
        return ".".join(map(str, octets)).encode(), octets
    return random_number(rng, int(kind))


def random_generic(rng):
    octets = rng.randbytes(rng.randrange(30))
    words, at = [b"\\#", str(len(octets)).encode()], 0
    while at < len(octets):
        size = rng.randrange(1, 9)
        words.append(rng.choice((octets[at:at + size].hex(), octets[at:at + size].hex().upper())).encode())
        at += size
    return words, octets


def blank(rng, least):
    return bytes(rng.choice(b" \t\r  ") for _octet in range(rng.choice((least, least, least, 1, 3))))


def random_rows():
    topic("drawn at random, spelled in every way, and some of them changed")
    rng = random.Random(20261128)
    for _row in range(2500):
        rtype = rng.choice((*FORMS, TXT, TXT, SPF, HINFO, SOA, SRV, MX, RP))
        form = FORMS[rtype]
        form = "s" * rng.choice((1, 1, 2, 3, 6)) if form == "S" else form
        words, octets = zip(*(random_word(rng, kind) for kind in form))
        octets = b"".join(octets) if not any(map(is_more, words)) else None
        if rng.random() < 0.15:
            words, _octets = random_generic(rng)
            octets = None  # they may be none of the type
        text = blank(rng, 0) + blank(rng, 0).join(word + blank(rng, 1) for word in words)
        if rng.random() < 0.1 and text.endswith((b" ", b"\t", b"\r")):
            text += b";" + random_octets(rng, 20)
        if rng.random() < 0.35:
            text = changed(rng, text)
            octets = None
        rclass = rng.choice((IN, IN, IN, IN, CH, HS, NONE, ANY, rng.randrange(65536)))
        row(rtype, text, octets if rclass == IN or rtype not in OF_INTERNET else None, rclass=rclass)


def is_more(word):
    """Whether a word isn't between quotes, and has an octet that ends it or begins quotes."""
    return word[:1] != b'"' and re.search(rb'[\n;()"]', re.sub(rb"\\.", b"", word, flags=re.S)) is not None


def changed(rng, text):
    """The text with octets put in, taken out, doubled or replaced."""
    text = bytearray(text)
    for _time in range(rng.choice((1, 1, 2))):
        at = rng.randrange(len(text) + 1)
        way = rng.randrange(4)
        if way == 0:
            text[at:at] = bytes([rng.choice(b'"\\;. 0129af:@()\t\n\x00\x7f\x80')])
        elif way == 1:
            del text[at:at + rng.choice((1, 1, 4))]
        elif way == 2:
            text[at:at] = text[at:at + rng.choice((1, 3, 8))]
        else:
            text[at:at + 1] = bytes([rng.randrange(256)])
    return bytes(text)


def shown_rows(lines, answers):
    """The texts that the rows from octets print, read back: where the type is read, they are the same octets."""
    topic("what the rows from octets print, read back")
    for line, answer in zip(lines, answers):
        word, *fields = line.split(" ")
        if word not in ("any", "typed") or not answer.startswith("ok "):
            continue
        _ok, octets, _canonical, _length, *text = answer.split(" ", 4)
        rtype, octets, text = int(fields[0]), second.octets_of(octets), text[0] if text else ""
        if text.startswith("\\#"):
            row(rtype, text, octets if rtype in UNKNOWN else None)
        elif rtype not in FORMS:
            row(rtype, text)
        else:
            # In a name of `typed` a quote and a semicolon stand for themselves as it is shown, and not as it is read.
            is_plain = word == "any" or "n" not in FORMS[rtype] or not set(text) & set('";')
            row(rtype, text, octets if is_plain else None)


def write():
    """Writes the rows, and returns how many answers aren't the ones that are known."""
    kept = []
    for file in ("stdin", "stdout"):
        with open(os.path.join(FOLDER, file), encoding="ascii") as opened:
            lines = opened.read().splitlines()
            kept.append(lines[:lines.index(FIRST)] if FIRST in lines else lines)
    for make in (word_rows, name_rows, number_rows, address_rows, string_rows, field_rows, generic_rows, class_rows, random_rows):
        make()
    shown_rows(*kept)
    wrong = 0
    for line, told in rows.items():
        kept[0].append(line)
        kept[1].append(line if line.startswith("#") else second_text.answer(line))
        if told not in (None, kept[1][-1]):
            wrong += 1
            print("different:", line[:300], "\n  wanted:", told[:300], "\n  is:    ", kept[1][-1][:300], file=sys.stderr)
    for file, lines in zip(("stdin", "stdout"), kept):
        with open(os.path.join(FOLDER, file), "w", encoding="ascii") as opened:
            opened.write("".join(line + "\n" for line in lines))
    by_hand = sum(told is not None for told in rows.values())
    print(f"{sum(not it.startswith('#') for it in rows)} rows from texts, {by_hand} of them with their answer beside them; {wrong} different")
    return wrong


if __name__ == "__main__":
    sys.exit(write() > 0)
