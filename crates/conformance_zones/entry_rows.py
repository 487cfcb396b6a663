#!/usr/bin/env python3
"""The rows `entries` and `ttl` of the table, always the same: those with their answers beside them, from the RFCs or by
the way they are made, and those that second_entries.py alone answers.

`rows` gives each heading and each line, with its answer or None. In a refused text, `^` is before the octet at fault,
and isn't in the line."""

import ipaddress
import itertools
import random
import re

IN, CH, HS, NONE, ANY = 1, 3, 4, 254, 255
A, NS, CNAME, SOA, MB, MG, PTR, HINFO, MX, TXT, AAAA, SRV, DNAME, DS = 1, 2, 5, 6, 7, 8, 12, 13, 15, 16, 28, 33, 39, 43
CAA, PRIVATE = 257, 65280
SEED, MOST_TEXT = 20261129, 1400
EXAMPLE = b"\x07example\0"
ROOT = b"\0"
PLAIN = re.compile(rb"(?!hex:)[ -~]*[!-~]")


def name(text):
    """The wire format of an absolute name that is written without a backslash."""
    labels = [it for it in text.split(".") if it]
    return b"".join(bytes([len(it)]) + it.encode("latin-1") for it in labels) + ROOT


def label(octets):
    """The wire format of a name below `example.` with one label more."""
    return bytes([len(octets)]) + octets + EXAMPLE


def address(text):
    return bytes(map(int, text.split(".")))


def strings(*parts):
    return b"".join(bytes([len(it)]) + it.encode("latin-1") for it in parts)


def numbers(size, *values):
    return b"".join(it.to_bytes(size, "big") for it in values)


def mx(preference, host):
    return numbers(2, preference) + name(host)


def srv(priority, weight, port, host):
    return numbers(2, priority, weight, port) + name(host)


def soa(server, mailbox, *values):
    return server + mailbox + numbers(4, *values)


def record(owner, ttl, rtype, data, rclass=IN):
    """How a record is printed. The owner is in wire format, or written without a backslash."""
    owner = owner if isinstance(owner, bytes) else name(owner)
    return f"{owner.hex()}/{ttl}/{rclass}/{rtype}/{data.hex() or '-'}"


def text_at(owner="a.example.", ttl=5, string="x", rclass=IN):
    """How a TXT record is printed."""
    return record(owner, ttl, TXT, strings(string), rclass)


def include(file, origin=None):
    """How a file to include is printed."""
    return f"$INCLUDE/{file.encode().hex()}/{'.' if origin is None else name(origin).hex()}"


def row(text, *answers, origin=EXAMPLE):
    """A line and its answer, or None if none is given. Text that isn't plain is written by its digits."""
    text = text if isinstance(text, bytes) else text.encode("latin-1")
    shown = text if PLAIN.fullmatch(text) else b"hex:" + (text.hex() or "-").encode()
    return b"entries " + origin.hex().encode() + b" " + shown, " ".join(answers) or None


def refused(marked, reason, *before, origin=EXAMPLE):
    """The line of a text that is refused at its mark, and its answer."""
    start, end = marked.split("^")
    line, column = start.count("\n") + 1, len(start) - start.rfind("\n")
    return row(start + end, *before, f"err {line} {column} {reason}", origin=origin)


# RFC 1034, 6.1: a part of the root zone.
ROOT_ZONE = """\
.       IN      SOA     SRI-NIC.ARPA. HOSTMASTER.SRI-NIC.ARPA. (
                870611          ;serial
                1800            ;refresh every 30 min
                300             ;retry every 5 min
                604800          ;expire after a week
                86400)          ;minimum of a day
        NS      A.ISI.EDU.
        NS      C.ISI.EDU.
        NS      SRI-NIC.ARPA.

MIL.    86400   NS      SRI-NIC.ARPA.
        86400   NS      A.ISI.EDU.

EDU.    86400   NS      SRI-NIC.ARPA.
        86400   NS      C.ISI.EDU.

SRI-NIC.ARPA.   A       26.0.0.73
                A       10.0.0.51
                MX      0 SRI-NIC.ARPA.
                HINFO   DEC-2060 TOPS20

USC-ISIC.ARPA.  CNAME   C.ISI.EDU.

73.0.0.26.IN-ADDR.ARPA.  PTR    SRI-NIC.ARPA.

A.ISI.EDU. 86400 A      26.3.0.103
C.ISI.EDU. 86400 A      10.0.0.52
"""
ROOT_SOA = soa(name("SRI-NIC.ARPA."), name("HOSTMASTER.SRI-NIC.ARPA."), 870611, 1800, 300, 604800, 86400)
ROOT_RECORDS = [
    (".", SOA, ROOT_SOA), (".", NS, name("A.ISI.EDU.")), (".", NS, name("C.ISI.EDU.")),
    (".", NS, name("SRI-NIC.ARPA.")),
    ("MIL.", NS, name("SRI-NIC.ARPA.")), ("MIL.", NS, name("A.ISI.EDU.")),
    ("EDU.", NS, name("SRI-NIC.ARPA.")), ("EDU.", NS, name("C.ISI.EDU.")),
    ("SRI-NIC.ARPA.", A, address("26.0.0.73")), ("SRI-NIC.ARPA.", A, address("10.0.0.51")),
    ("SRI-NIC.ARPA.", MX, mx(0, "SRI-NIC.ARPA.")), ("SRI-NIC.ARPA.", HINFO, strings("DEC-2060", "TOPS20")),
    ("USC-ISIC.ARPA.", CNAME, name("C.ISI.EDU.")), ("73.0.0.26.IN-ADDR.ARPA.", PTR, name("SRI-NIC.ARPA.")),
    ("A.ISI.EDU.", A, address("26.3.0.103")), ("C.ISI.EDU.", A, address("10.0.0.52")),
]

# RFC 1035, 5.3: the zone ISI.EDU, and the file that it includes.
ISI_ZONE = """\
@   IN  SOA     VENERA      Action\\.domains (
                                 20     ; SERIAL
                                 7200   ; REFRESH
                                 600    ; RETRY
                                 3600000; EXPIRE
                                 60)    ; MINIMUM

        NS      A.ISI.EDU.
        NS      VENERA
        NS      VAXA
        MX      10      VENERA
        MX      20      VAXA

A       A       26.3.0.103

VENERA  A       10.1.0.52
        A       128.9.0.32

VAXA    A       10.2.0.27
        A       128.9.0.33

$INCLUDE <SUBSYS>ISI-MAILBOXES
"""
ISI_MAILBOX = b"\x0eAction.domains" + name("ISI.EDU.")
ISI_RECORDS = [
    ("ISI.EDU.", SOA, soa(name("VENERA.ISI.EDU."), ISI_MAILBOX, 20, 7200, 600, 3600000, 60)),
    ("ISI.EDU.", NS, name("A.ISI.EDU.")), ("ISI.EDU.", NS, name("VENERA.ISI.EDU.")),
    ("ISI.EDU.", NS, name("VAXA.ISI.EDU.")),
    ("ISI.EDU.", MX, mx(10, "VENERA.ISI.EDU.")), ("ISI.EDU.", MX, mx(20, "VAXA.ISI.EDU.")),
    ("A.ISI.EDU.", A, address("26.3.0.103")),
    ("VENERA.ISI.EDU.", A, address("10.1.0.52")), ("VENERA.ISI.EDU.", A, address("128.9.0.32")),
    ("VAXA.ISI.EDU.", A, address("10.2.0.27")), ("VAXA.ISI.EDU.", A, address("128.9.0.33")),
]
MAILBOXES = """\
    MOE     MB      A.ISI.EDU.
    LARRY   MB      A.ISI.EDU.
    CURLEY  MB      A.ISI.EDU.
    STOOGES MG      MOE
            MG      LARRY
            MG      CURLEY
"""
MAILBOX_RECORDS = [
    ("MOE.ISI.EDU.", MB, name("A.ISI.EDU.")), ("LARRY.ISI.EDU.", MB, name("A.ISI.EDU.")),
    ("CURLEY.ISI.EDU.", MB, name("A.ISI.EDU.")), ("STOOGES.ISI.EDU.", MG, name("MOE.ISI.EDU.")),
    ("STOOGES.ISI.EDU.", MG, name("LARRY.ISI.EDU.")), ("STOOGES.ISI.EDU.", MG, name("CURLEY.ISI.EDU.")),
]

# RFC 2782: a part of the zone example.com.
SERVICE_ZONE = """\
$ORIGIN example.com.
@               SOA server.example.com. root.example.com. (
                    1995032001 3600 3600 604800 86400 )
                NS  server.example.com.
                NS  ns1.ip-provider.net.
; foobar - use old-slow-box or new-fast-box if either is
; available, make three quarters of the logins go to
; new-fast-box.
_foobar._tcp    SRV 0 1 9 old-slow-box.example.com.
                SRV 0 3 9 new-fast-box.example.com.
server          A   172.30.79.10
; NO other services are supported
*._tcp          SRV  0 0 0 .
*._udp          SRV  0 0 0 .
"""
SERVICE_SOA = soa(name("server.example.com."), name("root.example.com."), 1995032001, 3600, 3600, 604800, 86400)
SERVICE_RECORDS = [
    ("example.com.", SOA, SERVICE_SOA),
    ("example.com.", NS, name("server.example.com.")), ("example.com.", NS, name("ns1.ip-provider.net.")),
    ("_foobar._tcp.example.com.", SRV, srv(0, 1, 9, "old-slow-box.example.com.")),
    ("_foobar._tcp.example.com.", SRV, srv(0, 3, 9, "new-fast-box.example.com.")),
    ("server.example.com.", A, address("172.30.79.10")),
    ("*._tcp.example.com.", SRV, srv(0, 0, 0, ".")), ("*._udp.example.com.", SRV, srv(0, 0, 0, ".")),
]

# RFC 4592, 2.2.1, with data of SOA and SRV records.
WILDCARD_ZONE = """\
$ORIGIN example.
example.                 3600 IN  SOA   ns.example.com. host.example.com. 1 2 3 4 5
example.                 3600     NS    ns.example.com.
example.                 3600     NS    ns.example.net.
*.example.               3600     TXT   "this is a wildcard"
*.example.               3600     MX    10 host1.example.
sub.*.example.           3600     TXT   "this is not a wildcard"
host1.example.           3600     A     192.0.2.1
_ssh._tcp.host1.example. 3600     SRV   0 0 22 host1.example.
_ssh._tcp.host2.example. 3600     SRV   0 0 22 host2.example.
subdel.example.          3600     NS    ns.example.com.
subdel.example.          3600     NS    ns.example.net.
"""
WILDCARD_RECORDS = [
    ("example.", SOA, soa(name("ns.example.com."), name("host.example.com."), 1, 2, 3, 4, 5)),
    ("example.", NS, name("ns.example.com.")), ("example.", NS, name("ns.example.net.")),
    ("*.example.", TXT, strings("this is a wildcard")), ("*.example.", MX, mx(10, "host1.example.")),
    ("sub.*.example.", TXT, strings("this is not a wildcard")), ("host1.example.", A, address("192.0.2.1")),
    ("_ssh._tcp.host1.example.", SRV, srv(0, 0, 22, "host1.example.")),
    ("_ssh._tcp.host2.example.", SRV, srv(0, 0, 22, "host2.example.")),
    ("subdel.example.", NS, name("ns.example.com.")), ("subdel.example.", NS, name("ns.example.net.")),
]

# The zone of RFC 2308, 2.1, with directives of its section 4.
NEGATIVE_ZONE = """\
$ORIGIN XX.
$TTL 1h ; of all that follows
@ SOA NS1.XX. HOSTMASTER.NS1.XX. 1 2 3 4 5
  NS NS1.XX.
  NS NS2.XX.
TRIPPLE 0 A 127.0.0.1
NS1 A 127.0.0.2
$TTL 2h
NS2 A 127.0.0.3
"""
NEGATIVE_RECORDS = [
    record("XX.", 3600, SOA, soa(name("NS1.XX."), name("HOSTMASTER.NS1.XX."), 1, 2, 3, 4, 5)),
    record("XX.", 3600, NS, name("NS1.XX.")), record("XX.", 3600, NS, name("NS2.XX.")),
    record("TRIPPLE.XX.", 0, A, address("127.0.0.1")), record("NS1.XX.", 3600, A, address("127.0.0.2")),
    record("NS2.XX.", 7200, A, address("127.0.0.3")),
]

# RFC 3597, 5, with a TTL.
UNKNOWN_ZONE = """\
$TTL 60
a.example.   CLASS32     TYPE731         \\# 6 abcd (
                                         ef 01 23 45 )
b.example.   HS          TYPE62347       \\# 0
e.example.   IN          A               \\# 4 0A000001
e.example.   CLASS1      TYPE1           10.0.0.2
"""
UNKNOWN_RECORDS = [
    record("a.example.", 60, 731, bytes.fromhex("abcdef012345"), 32), record("b.example.", 60, 62347, b"", HS),
    record("e.example.", 60, A, address("10.0.0.1")), record("e.example.", 60, A, address("10.0.0.2")),
]

# RFC 6672, 6.1 and 6.2: an organisation that is renamed, and a delegation of a shorter prefix.
RENAMED_ZONE = """\
$TTL 1d
frobozz.example.  DNAME    frobozz-division.acme.example.
                  MX       10       mailhub.acme.example.
$ORIGIN 0.192.in-addr.arpa.
8/22    NS       ns.slash-22-holder.example.
8       DNAME    8.8/22
9       DNAME    9.8/22
"""
RENAMED_RECORDS = [
    ("frobozz.example.", DNAME, name("frobozz-division.acme.example.")),
    ("frobozz.example.", MX, mx(10, "mailhub.acme.example.")),
    ("8/22.0.192.in-addr.arpa.", NS, name("ns.slash-22-holder.example.")),
    ("8.0.192.in-addr.arpa.", DNAME, name("8.8/22.0.192.in-addr.arpa.")),
    ("9.0.192.in-addr.arpa.", DNAME, name("9.8/22.0.192.in-addr.arpa.")),
]

# RFC 4034, 5.4, and properties of RFC 8659, 4.2 and 4.4.
SIGNED_ZONE = """\
dskey.example.com. 86400 IN DS 60485 5 1 ( 2BB183AF5F22588179A53B0A
                                           98631FAD1A292118 )
$ORIGIN example.com.
@       CAA 0 issue "ca1.example.net"
        CAA 128 iodef "mailto:security@example.com"
"""
SIGNED_RECORDS = [
    ("dskey.example.com.", DS, bytes.fromhex("ec4505012bb183af5f22588179a53b0a98631fad1a292118")),
    ("example.com.", CAA, b"\0\5issueca1.example.net"),
    ("example.com.", CAA, b"\x80\5iodefmailto:security@example.com"),
]


def records(listed, ttl):
    return [record(owner, ttl, rtype, data) for owner, rtype, data in listed]


def example_rows():
    isi, mailboxes = records(ISI_RECORDS, 86400), records(MAILBOX_RECORDS, 86400)
    unindented = MAILBOXES.replace("\n    ", "\n").removeprefix("    ")
    included = include("<SUBSYS>ISI-MAILBOXES")
    edu = name("ISI.EDU.")
    return [
        row("$TTL 86400\n" + ROOT_ZONE, *records(ROOT_RECORDS, 86400), origin=ROOT),
        row(ROOT_ZONE.replace("IN ", "86400 IN", 1), *records(ROOT_RECORDS, 86400), origin=ROOT),
        refused(ROOT_ZONE.replace("SOA", "^SOA", 1), "NoTtl", origin=ROOT),
        row("$TTL 86400\n" + ISI_ZONE, *isi, included, origin=edu),
        row(ISI_ZONE.replace("SOA ", "1d SOA", 1), *isi, included, origin=edu),
        row(ISI_ZONE.replace("IN  SOA", "86400 SOA", 1).replace("\n", "\r\n"), *isi, included, origin=edu),
        refused(ISI_ZONE.replace("SOA", "^SOA", 1), "NoTtl", origin=edu),
        row("$TTL 86400\n" + unindented, *mailboxes, origin=edu),
        row("$ORIGIN ISI\n$TTL 86400\n" + unindented.replace("MB", "IN MB", 1), *mailboxes, origin=name("EDU.")),
        refused("$TTL 86400\n^" + MAILBOXES, "NoOwner", origin=edu),
        row("$TTL 1d\n" + SERVICE_ZONE, *records(SERVICE_RECORDS, 86400)),
        row("$TTL 2w\n" + SERVICE_ZONE, *records(SERVICE_RECORDS, 1209600), origin=ROOT),
        row(WILDCARD_ZONE, *records(WILDCARD_RECORDS, 3600), origin=ROOT),
        row(WILDCARD_ZONE.replace("example. ", "@ ", 1).replace("host1.example.  ", "host1 "),
            *records(WILDCARD_RECORDS, 3600)),
        row(NEGATIVE_ZONE, *NEGATIVE_RECORDS),
        row(NEGATIVE_ZONE.removesuffix("\n"), *NEGATIVE_RECORDS),
        row(UNKNOWN_ZONE, *UNKNOWN_RECORDS),
        row(RENAMED_ZONE, *records(RENAMED_RECORDS, 86400)),
        row(SIGNED_ZONE, *records(SIGNED_RECORDS, 86400)),
    ]


SHAPE_FAULTS = [
    ("OpenQuote", [
        'a 5 TXT ^"x', 'a 5 TXT "x" ^"', '^"a 5 TXT x', '^"', 'a 5 TXT ^"x\nb 5 TXT y\n', 'a 5 TXT ( ^"x )\n',
        'a 5 TXT ^"x\\"', 'a 5 TXT x^"', 'a 5 TXT ( x\n(\n^" ) )', '$TTL ^"5', '""^"', 'a..b zz ^"x',
        'a 5 TXT ^"x ; y', 'a 5 TXT (\n) ^" ) (',
    ]),
    ("LoneBackslash", [
        "a 5 TXT x^\\", "^\\", "a 5 TXT ^\\", "a 5 TXT ( x^\\", "a 5 TXT x\\\\^\\", "a..b ^\\", "$TTL 5^\\",
        "a 5 TXT (\n\n(\n ^\\", 'a 5 TXT "x"^\\', " ^\\",
    ]),
    ("OpenParenthesis", [
        "a 5 TXT ^( x", "a 5 TXT ^(\nx\n", "a 5 TXT ^( ( x )", "a 5 TXT ( x ) ^(", "^(", "^((", "^(\n\n",
        "a 5 TXT ( ) ^( ( ) ( x", "a 5 TXT ^( x ; )", "a 5 TXT ^( x \\)", 'a 5 TXT ^( ")"', "a^(5 TXT x",
        "a 5 TXT ^( x ; \\", "a..b zz ^(", "$TTL ^( 5\n", "a 5 TXT (\n) ^(\nx ; )\n",
    ]),
    ("ClosingParenthesis", [
        "a 5 TXT x ^)", "^)", "a 5 TXT ( x ) ^)", "a 5 TXT ( x\n) ^)\n", "a 5 TXT ^) (", "a^)b",
        'a 5 TXT ^) "x', "a 5 TXT ^) \\", "a..b zz ^)", "$TTL zz ^)", " ^)", "$X ^)", "a 5 TXT (\n) ^) (",
        "a TXT ^)", "; )\n\n\n ^) ; x", "a 5 TXT (())^)",
    ]),
]
WORD_FAULTS = [
    ("Name", [
        "^a..b 5 TXT x", "^.a 5 TXT x", "^.. 5 TXT x", "^a\\256 5 TXT x", "^a\\25 5 TXT x", "^\\2 5 TXT x",
        "^a..", "^\\999. 5 TXT x", "^a\\2x5 TXT x", "$ORIGIN ^a..b", "$ORIGIN ^\\1", "$INCLUDE f ^a..b",
        "$ORIGIN ^a..b c", "$INCLUDE f ^.. c", "^a..b 6 5 TXT x", "^a..b", "$ORIGIN (\n ^.a )\n",
        "^a..b 5 TXT x\n)",
    ]),
    ("MissingType", [
        "a^", "a 5^", "a 5 IN^", "a IN 5^", "a 5 ; comment^", "a 5 (\n)^\n", "a^\nb 5 TXT x", "a\r^\n",
        "a 5 ^\n", "a 5 (;\n) ; x^\n\n", "a CH^", "a;^", "a IN;TXT x^", "a ()^", "@^",
    ]),
    ("Ttl", [
        "a ^1x TXT x", "a 5 ^6 TXT x", "a 5 IN ^6 TXT x", "a 5 ^5", "a ^0s5 TXT x", "a ^1h30 TXT x",
        "a ^1hh TXT x", "a ^1.5 TXT x", "a ^0x10 TXT x", "a ^5_ TXT x", "a ^1H2w3X TXT x", "a ^5\\  TXT x",
        'a ^5"" TXT x', "$TTL ^x", "$TTL ^-1", '$TTL ^"5"', "$TTL ^+5", "$TTL ^h", "$TTL ^5,", "$TTL ^x 6",
        "$TTL (\n^\\053 )", "a IN ^5IN TXT x", "a 5 CH ^6 TXT x", "a (\n5\n^6\n)", "a ^5TXT x",
        "a ^1w2 TXT x", "a IN 5 ^1h TXT x",
    ]),
    ("Rtype", [
        "a 5 ^TXTX x", "a 5 IN ^IN TXT x", "a 5 IN ^CH TXT x", "a ^-5 TXT x", "a 5 ^TYPE65536 \\# 0",
        "a ^+5 TXT x", "a 5 ^CLASS65536 TXT x", "a 5 ^CLASS TXT x", "a 5 ^CLASSX TXT x", "a 5 ^TYPE x",
        'a ^"5" TXT x', 'a ^"IN" TXT x', 'a 5 ^"TXT" x', "a 5 ^T\\XT x", "a 5 ^\\# 0",
        "a 5 CLASS1 ^CLASS1 TXT x", "a 5 ^b TXT x", "a ^h TXT x", "a 5 ^CLASS99999999999 TXT x",
        "a 5 ^TYPE99999999999 x", "a 5 IN ^-6", "a ^$TTL 5", "a ^@ TXT x", "a (\n\n ^TXTX )",
        "a 5 ^CLASS-1 TXT x", "a 5 ^CLASS1.0 TXT x",
    ]),
    ("NoOwner", [
        "^ 5 TXT x", "^\t5 TXT x", "$TTL 5\n^ TXT x", "$ORIGIN a\n^ 5 TXT x",
        "^ a..b", "^ $TTL 5", "^ $X", "\n\n^ x", "^\t(a;\n)",
    ]),
    ("NoTtl", [
        "a ^TXT x", "a IN ^TXT x", "a CH ^TXT x", "a ^A x", "a ^TXT", "a IN ^TYPE65280 x",
        "$ORIGIN b\na ^TXT x", "a (\n^TXT\nx )", "a ^TXT (x)",
    ]),
    ("Directive", [
        "^$X", "^$", "^$TTLX 5", "^$GENERATE 1-2 a A 1.2.3.4", "^$$", "^$TTL\\ 5", '^$"TTL" 5', "^$ORIGIN. a",
        "^$a 5 TXT x", "^$\\TTL 5", "^$TT 5", "^$TTL\x0b5", "^$X a..b",
    ]),
    ("MissingWord", [
        "$TTL^", "$ORIGIN^", "$INCLUDE^", "$TTL ; 5^", "$ORIGIN (\n)^\n", "$TTL ^\n", "$include\t^\n5",
        "$TTL;^", "$TTL()^",
    ]),
    ("ExtraWord", [
        "$TTL 5 ^6", "$ORIGIN b ^c", "$INCLUDE f b ^c", '$TTL 5 ^"6"', "$TTL 5 (\n^6 )", "$ORIGIN . ^.",
        "$TTL 5 ^TXT 6 7", "$INCLUDE f . ^a..b",
    ]),
    ("Data/MissingWord", [
        "a 5 A^", "a 5 A ; x^\n", "a 5 A (\n)^\n", "a 5 MX 10^", "a 5 MX (10;\n;\n)^", "a 5 NS\r^\n",
    ]),
    ("Data/ExtraWord", [
        "a 5 A 1.2.3.4 ^5", "a 5 A ( 1.2.3.4\n^5 )", "a 5 NS b. ^c.",
    ]),
    ("Data/Number", [
        "a 5 MX ^x b.", "a 5 MX ^65536 b.", "a 5 TYPE65280 \\# ^x", "a 5 MX (\n\n ^x b. )",
    ]),
    ("Data/Name", [
        "a 5 NS ^b..", "a 5 MX 10 ^.b", "a 5 MX (\n10\n^b..c\n)", "a 5 SOA @ ^b\\256 1 2 3 4 5", 'a 5 NS ^"b"',
        'a 5 NS ^"@"', "a 5 NS ^@..", f"a 5 NS ^{64 * 'b'}", f"a 5 NS ^{'b.' * 124}b",
        f"$ORIGIN {'b.' * 122}c\na. 5 MX 10 ^d",
    ]),
    ("Data/Ipv4", [
        "a 5 A ^1.2.3", "a 5 A ^1.2.3.256", "a 5 A (^x)", "a 5 A(^x)",
    ]),
    ("Data/Ipv6", [
        "a 5 AAAA ^1::2::3", "a 5 AAAA ^1.2.3.4",
    ]),
    ("Data/CharString", [
        "a 5 TXT x ^" + 256 * "y", "a 5 TXT ^\\256",
    ]),
    ("Data/Base16", [
        "a 5 TYPE65280 \\# 1 ^0", "a 5 TYPE65280 \\# 2 00 ^0g",
    ]),
    ("Data/OctetCount", [
        "a 5 TYPE65280 \\# ^2 00", "a 5 TYPE65280 \\# ^0 00",
    ]),
]


def fault_rows():
    faults = [refused(text, reason) for reason, texts in SHAPE_FAULTS + WORD_FAULTS for text in texts]
    first, second = text_at(), text_at("b.example.", string="y")
    return faults + [
        refused("a 5 TXT x\n^)", "ClosingParenthesis", first),
        refused('a 5 TXT x\nb 5 TXT y\n\n\n ; z\nc 5 TXT ^"z', "OpenQuote", first, second),
        refused("a 5 TXT x\nb 5 TXT y\n ^b 5 TXT z", "Rtype", first, second),
        refused("a 5 TXT x\n ^TXTX\nb 5 TXT y", "Rtype", first),
        refused("a 5 TXT x\n 5^\nb 5 TXT y", "MissingType", first),
        refused("a 5 TXT x\n ^$TTL 5", "Rtype", first),
        refused("a 5 TXT x\n 5 ^6 TXT y", "Ttl", first),
        refused("a 5 TXT x\n(TXT ^y)", "Rtype", first), refused("a 5 TXT x\n(\n\nTXT ^y)", "Rtype", first),
        refused("a 5 TXT x\n() TXT ^y", "Rtype", first), refused("(5 ^TXT x)", "NoTtl"),
        refused("a 5 TXT x\r\n\r\n\t^\\# 0", "Rtype", first),
        refused("a 5 TXT x\n$TTL 6 ; y\n$ORIGIN b\n@ TXT ^\\300", "Data/CharString", first),
        refused("$INCLUDE f\n$INCLUDE ^\n", "MissingWord", include("f")),
        refused('a 5 TXT "x\n\n"\n^)', "ClosingParenthesis", text_at(string="x\n\n")),
        refused("a 5 TXT x\\\n\n ^)", "ClosingParenthesis", text_at(string="x\n")),
        row('a 5 TXT "x\\'), row('"\\'), row('a 5 TXT ( "x \\'), row("a 5 NSEC b. A"), row("a 5 TYPE65280 x"),
        row("a 5 TYPE65280"), row("a 5 TXT"), row("a 5 SVCB 1 . x"), row("a 5 A \\# 3 000000"),
        row("a 5 MX \\# 4 0001c000"),
    ]


# Texts of an owner below `example.`, and of the record or file of each.
DIRECTIVE_TEXTS = [
    ("$TTL 1h\na TXT x", text_at(ttl=3600)), ("$ttl 5\na TXT x", text_at()), ("$Ttl 5 ; y\na TXT x", text_at()),
    ("$TTL (\n5 )\na TXT x", text_at()), ("$TTL\t5\r\na TXT x\r\n", text_at()), ("$TTL 5;6\na TXT x", text_at()),
    ("$TTL 6\n$TTL 5\na TXT x", text_at()), ("$TTL 0\na TXT x", text_at(ttl=0)),
    ("$ORIGIN b\na 5 TXT x", text_at("a.b.example.")), ("$ORIGIN b.\na 5 TXT x", text_at("a.b.")),
    ("$ORIGIN .\na 5 TXT x", text_at("a.")), ("$ORIGIN @\na 5 TXT x", text_at()),
    ("$ORIGIN b\n$ORIGIN c\na 5 TXT x", text_at("a.c.b.example.")), ("$ORIGIN b\n@ 5 TXT x", text_at("b.example.")),
    ("$origin b\n$ORIGIN c.\n@ 5 TXT x", text_at("c.")), ("$ORIGIN .\n$ORIGIN b\n@ 5 TXT x", text_at("b.")),
    ("$ORIGIN (\nb ; c\n)\n@ 5 TXT x", text_at("b.example.")), ("$OrIgIn b;c\n@ 5 TXT x", text_at("b.example.")),
    ("$ORIGIN b.\na. 5 TXT x", text_at("a.")), ("$ORIGIN \\064\n@ 5 TXT x", text_at("@.example.")),
    ("\\$TTL 5 TXT x", text_at("$TTL.example.")), ("\\036TTL 5 TXT x", text_at("$TTL.example.")),
    ("a$TTL 5 TXT x", text_at("a$TTL.example.")), ("$TTL 7\n$ORIGIN b\na TXT x", text_at("a.b.example.", 7)),
    ("$INCLUDE f", include("f")), ("$INCLUDE f b", include("f", "b.example.")), ("$INCLUDE f b.", include("f", "b.")),
    ("$INCLUDE f @", include("f", "example.")), ("$INCLUDE f .", include("f", ".")), ("$include f", include("f")),
    ('$INCLUDE "f g" b.', include('"f g"', "b.")), ("$INCLUDE f\\ g", include("f\\ g")), ('$INCLUDE ""', include('""')),
    ("$INCLUDE f ; b", include("f")), ("$INCLUDE (\nf\nb )", include("f", "b.example.")),
    ("$INCLUDE /a/b.c", include("/a/b.c")),
    ("$INCLUDE $TTL", include("$TTL")), ("$INCLUDE ..", include("..")), ("$INCLUDE f;b", include("f")),
    ("$INCLUDE \\300", include("\\300")), ('$INCLUDE f"(b c)"d', include('f"(b c)"d')),
    ("$ORIGIN b.\n$INCLUDE f c", include("f", "c.b.")),
    ("$INCLUDE f b\n$INCLUDE g c", include("f", "b.example."), include("g", "c.example.")),
    ("$INCLUDE f b\na 5 TXT x", include("f", "b.example."), text_at()),
    ("a 5 TXT x\n$INCLUDE f b\n TXT y", text_at(), include("f", "b.example."), text_at(string="y")),
    ("a 5 TXT x\n$ORIGIN b\n TXT y", text_at(), text_at(string="y")),
    ("a 5 TXT x\n$ORIGIN b\n$TTL 6\n\n TXT y", text_at(), text_at(ttl=6, string="y")),
    ("$TTL 5", "none"), ("$ORIGIN b", "none"), ("$TTL 5\n$ORIGIN b\n", "none"),
]
HEAD_TEXTS = [
    ("a 5 IN TXT x", text_at()), ("a IN 5 TXT x", text_at()), ("a 5 TXT x", text_at()), ("a 5 in txt x", text_at()),
    ("a In 5 tXt x", text_at()), ("a 5 CH TXT x", text_at(rclass=CH)), ("a CH 5 TXT x", text_at(rclass=CH)),
    ("a hs 5 TXT x", text_at(rclass=HS)), ("a 5 CLASS3 TXT x", text_at(rclass=CH)),
    ("a class3 5 TXT x", text_at(rclass=CH)),
    ("a 5 CLASS1 TYPE16 x", text_at()), ("a 5 type16 x", text_at()), ("a 5 TyPe16 x", text_at()),
    ("a 5 CLASS32 TXT x", text_at(rclass=32)), ("a 5 CLASS0 TXT x", text_at(rclass=0)),
    ("a 5 CLASS65535 TXT x", text_at(rclass=65535)), ("a 5 CLASS254 TXT x", text_at(rclass=NONE)),
    ("a 5 NONE TXT x", text_at(rclass=NONE)), ("a 5 ANY TXT x", text_at(rclass=ANY)),
    ("a any 5 TXT x", text_at(rclass=ANY)),
    ("a 5 TYPE1 192.0.2.1", record("a.example.", 5, A, address("192.0.2.1"))),
    ("a 5 TYPE65280 \\# 0", record("a.example.", 5, PRIVATE, b"")),
    ("a 5 TYPE65280 \\# 3 00ff Ff", record("a.example.", 5, PRIVATE, b"\0\xff\xff")),
    ("a 5 TYPE65535 \\# 1 00", record("a.example.", 5, 65535, b"\0")),
    ("a 5 IN TXT IN", text_at(string="IN")), ("a 5 TXT 5", text_at(string="5")), ("a\t5\tIN\tTXT\tx", text_at()),
    ("5 5 TXT x", text_at("5.example.")), ("IN 5 IN TXT x", text_at("IN.example.")),
    ("TXT 5 TXT TXT", text_at("TXT.example.", string="TXT")),
    ("1h 5 TXT x", text_at("1h.example.")), ("5 IN 5 TXT x", text_at("5.example.")),
    ("  \n5 5 TXT x", text_at("5.example.")),
    ("MX 5 MX 5 MX.", record("MX.example.", 5, MX, mx(5, "MX."))), ("a  5   IN    TXT     x", text_at()),
    ("a 5 CLASS00003 TXT x", ), ("a 5 TYPE00016 x", ), ("a 5 ANY", ), ("a 5 IN ANY \\# 0", ), ("a 5 ANY ANY \\# 0", ),
    ("a 5 NONE NONE x", ), ("a 5 * x", ), ("a 5 CS TXT x", ), ("a 5 CH A b. 1", ), ("a 5 CH A 192.0.2.1", ),
    ("a 5 TYPE0 \\# 0", ),
    ("a 5 CLASS TYPE16 x", ), ("a 5 IN CLASS3 x", ), ("a 5 OPT \\# 0", ), ("a 5 AXFR \\# 0", ), ("a 5 TYPE16\\# 0", ),
]
CARRIED_TEXTS = [
    ("a 5 TXT x\n TXT y\n\tTXT z", text_at(), text_at(string="y"), text_at(string="z")),
    ("a 5 TXT x\nb TXT y", text_at(), text_at("b.example.", string="y")),
    ("a 5 TXT x\nb 6 TXT y\nc TXT z", text_at(), text_at("b.example.", 6, "y"), text_at("c.example.", 6, "z")),
    ("a 5 TXT x\n$TTL 7\nb TXT y\nc 8 TXT z\nd TXT w", text_at(), text_at("b.example.", 7, "y"),
     text_at("c.example.", 8, "z"),
     text_at("d.example.", 7, "w")),
    ("$TTL 7\na TXT x\n$TTL 9\nb TXT y", text_at(ttl=7), text_at("b.example.", 9, "y")),
    ("$TTL 7\na 5 TXT x\n TXT y", text_at(), text_at(ttl=7, string="y")),
    ("$TTL 0\na 5 TXT x\n TXT y", text_at(), text_at(ttl=0, string="y")),
    ("a 0 TXT x\nb TXT y", text_at(ttl=0), text_at("b.example.", 0, "y")),
    ("a 5 CH TXT x\nb TXT y\nc IN TXT z\nd TXT w", text_at(rclass=CH), text_at("b.example.", string="y", rclass=CH),
     text_at("c.example.", string="z"), text_at("d.example.", string="w")),
    ("a CLASS9 5 TXT x\n TXT y\n$TTL 6\n TXT z", text_at(rclass=9), text_at(string="y", rclass=9),
     text_at(ttl=6, string="z", rclass=9)),
    ("a 5 CLASS0 TXT x\n TXT y", text_at(rclass=0), text_at(string="y", rclass=0)),
    ("a 5 TXT x\n\n ; c\n\n TXT y", text_at(), text_at(string="y")),
    (". 5 TXT x\n TXT y", text_at("."), text_at(".", string="y")),
    ("@ 5 TXT x\n$ORIGIN b.\n TXT y\n@ TXT z", text_at("example."), text_at("example.", string="y"),
     text_at("b.", string="z")),
    ("a 5 TXT x\n \t TXT y\n 6 TXT z\n CH TXT w", text_at(), text_at(string="y"), text_at(ttl=6, string="z"),
     text_at(ttl=6, string="w", rclass=CH)),
    ("a 5 TXT x\n CH 6 TXT y\nb TXT z", text_at(), text_at(ttl=6, string="y", rclass=CH),
     text_at("b.example.", 6, "z", CH)),
    ("a 5 TXT x\nB TXT y\nA TXT z", text_at(), text_at("B.example.", string="y"), text_at("A.example.", string="z")),
    ("a 5 TXT x\na 5 TXT x", text_at(), text_at()),
]


def several(*parts):
    """A TXT record of several strings, as it is printed."""
    return record("a.example.", 5, TXT, strings(*parts))


SHAPE_TEXTS = [
    ("a 5 TXT ( x )", text_at()), ("a 5 TXT (x)", text_at()), ("a ( 5 TXT x )", text_at()), ("a(5)TXT(x)", text_at()),
    ("a ( 5\n TXT\n x\n)\nb TXT y", text_at(), text_at("b.example.", string="y")), ("a 5 TXT ((x))", text_at()),
    ("a 5 TXT ( ( x ) ( y ) )", several("x", "y")), ("a 5 TXT x ( )", text_at()), ("a ()5() TXT x", text_at()),
    ("a 5 TXT ( x\n) y\nb TXT z", several("x", "y"), text_at("b.example.", string="z")),
    ('a 5 TXT "(" ")"', several("(", ")")),
    ("a 5 TXT \\( \\)", several("(", ")")), ('a 5 TXT ( "x)" )', text_at(string="x)")),
    ("a 5 TXT ( x ; )\n)", text_at()),
    ("a 5 TXT ( x\n\n\n y )", several("x", "y")), ("()", "none"), ("(\n)\n", "none"), ("((\n)(\n))", "none"),
    ("( ; x\n) ; y", "none"),
    (" ( ) ", "none"),
    ("a 5 TXT x(y)z", several("x", "y", "z")), ("a 5 TXT (\nx\n) ; c\n", text_at()),
    ("a 5 TXT (\nb 5 TXT x\n)", several("b", "5", "TXT", "x")),
    ("a 5 TXT x\n(b TXT y)", text_at(), text_at("b.example.", string="y")),
    ("(a 5 TXT x)", text_at()), ("(\na 5 TXT x )", text_at()), ("()a 5 TXT x", text_at()),
    ("a (\n5 TXT\n$TTL\n)", text_at(string="$TTL")), ("a 5 TXT (;(\nx;)\n)", text_at()),
    ("a 5 TXT (((((((((x)))))))))", text_at()), ("a 5 TXT " + 300 * "(" + "x" + 300 * ")", text_at()),
    ("a(\n5\n)(\nTXT\n)(\nx\n)\n", text_at()), ("a 5 TXT (x\r\n)\r\n", text_at()),
    ("a 5 TXT ( \"x\ny\" )", text_at(string="x\ny")),
    ("\\( 5 TXT x", text_at("(.example.")), ("a\\)b 5 TXT x", text_at("a)b.example.")),
    # Comments
    (";", "none"), ("; x", "none"), (" ; x", "none"), (";\n;\n;", "none"), ("; \" ( ) \\", "none"), (";\r\n", "none"),
    (";;;", "none"), ("\t;\0\xff", "none"),
    ("a 5 TXT x;y", text_at()), ("a 5 TXT x ;y", text_at()), (";a\na 5 TXT x", text_at()),
    ("a 5 TXT x\\;y", text_at(string="x;y")),
    ('a 5 TXT "x;y"', text_at(string="x;y")), ('a 5 TXT x ; " ( ) \\\na TXT x', text_at(), text_at()),
    ('a 5 TXT ( x ; "c\n y ; (c\n )', several("x", "y")),
    ("a 5 TXT ( ; y\nx ; z\n)", text_at()), ('a 5 TXT "x";y', text_at()),
    ("a(;5\n5;6\nTXT;MX\nx;y\n);z", text_at()), ("a 5 TXT x\\\\;y", text_at(string="x\\")),
    ("a\\;b 5 TXT x", text_at("a;b.example.")),
    ("a 5 TXT x ; y\r\n TXT y ; z\r\n", text_at(), text_at(string="y")),
    ("a 5 TXT x ; y \\\n TXT y", text_at(), text_at(string="y")),
    # Ends of lines, and octets that aren't printed
    ("", "none"), ("\n", "none"), ("\n\n\n", "none"), (" ", "none"), (" \n", "none"), ("\t", "none"), ("\r", "none"),
    ("\r\n", "none"), (" \r\n\t\r\n", "none"),
    ("a 5 TXT x\n", text_at()), ("a 5 TXT x\r\n", text_at()), ("a 5 TXT x\r", text_at()), ("\na 5 TXT x", text_at()),
    ("a 5 TXT x\r\na TXT x\r\n", text_at(), text_at()), ("a 5 TXT x\r\n TXT x", text_at(), text_at()),
    ("a\r5\rTXT\rx", text_at()), ("a 5 TXT x ", text_at()), ("a 5 TXT x\t \n", text_at()),
    ("a\t 5 \t TXT\t\tx", text_at()),
    ('a 5 TXT "x\ny"', text_at(string="x\ny")), ("a 5 TXT x\\\ny", text_at(string="x\ny")),
    ("a\\\nb 5 TXT x", text_at("a\nb.example.")),
    ('a 5 TXT "x\r\ny"\n', text_at(string="x\r\ny")), ("a 5 TXT x\\\r\n", text_at(string="x\r")),
    ("a 5 TXT \0", text_at(string="\0")),
    ("a\0b 5 TXT x", text_at("a\0b.example.")), ("\0 5 TXT x", text_at("\0.example.")),
    ("a 5 TXT x\0\n TXT y", text_at(string="x\0"), text_at(string="y")),
    ("a\xff 5 TXT \xff\x80", text_at("a\xff.example.", string="\xff\x80")),
    ("a\x0bb 5 TXT \x0c", text_at("a\x0bb.example.", string="\x0c")),
    ("hex 5 TXT x", text_at("hex.example.")), ("hex: 5 TXT x", text_at("hex:.example.")), ("\r$TTL 5\na TXT x", ),
]
# Owners of one label below `example.`, and their octets (RFC 1035, 5.1)
LABELS = [
    ("\\.", b"."), ("a\\.b", b"a.b"), ("\\046", b"."), ("\\@", b"@"), ("@x", b"@x"), ("x@", b"x@"), ("\\064", b"@"),
    ("@@", b"@@"), ("\\065", b"A"), ("\\a", b"a"), ("\\\\", b"\\"), ("\\ ", b" "), ("a\\ b", b"a b"),
    ("a\\\tb", b"a\tb"),
    ('\\"', b'"'), ('a\\"b', b'a"b'), ("\\(", b"("), ("\\)x", b")x"), ("\\;", b";"), ("\\000", b"\0"),
    ("\\255", b"\xff"),
    ("\\0461", b".1"), ("a\\.", b"a."), ("\\[x", b"[x"), ("*", b"*"), ("\\*", b"*"), ("_x", b"_x"), ("#", b"#"),
    ("\\#", b"#"), ("\\$", b"$"), ("a\\\\", b"a\\"), ("\\\\\\.", b"\\."), ("\\010", b"\n"), ("\\032", b" "),
    ("\\n", b"n"),
    ("\\092", b"\\"), ("\\0921", b"\\1"), ("\\034", b'"'), ("8/22", b"8/22"), ("-", b"-"), ("0", b"0"), ("IN", b"IN"),
]
# Other owners
OWNERS = [
    ("@", EXAMPLE), (".", ROOT), ("@.", b"\1@\0"), ("\\@.", b"\1@\0"), ("a.", b"\1a\0"), ("a\\..", b"\2a.\0"),
    ("a\\.b.", b"\3a.b\0"), ("a.\\046.", b"\1a\1.\0"), ("a.\\.", b"\1a\1." + EXAMPLE), ("a.@", b"\1a\1@" + EXAMPLE),
    ("@.a", b"\1@\1a" + EXAMPLE), ("\\..", b"\1.\0"), ("a.b.c.d", b"\1a\1b\1c\1d" + EXAMPLE),
    ("\\..\\.", b"\1.\1." + EXAMPLE),
    ("\\\\.", b"\1\\\0"), ("..", None), ("a..", None), (".a", None), ("a..b", None), ("\\1", None), ("\\12", None),
    ("\\256", None), ("\\999", None), ("\\1a2", None), ("\\12a", None), ("@..", None), ("\\2555", b"\2\xff5" + EXAMPLE),
]


def owner_rows(word, owner, origin=EXAMPLE):
    """A word as an owner, in $ORIGIN, in $INCLUDE and in data; without its wire format it isn't a name."""
    if owner is None:
        return [refused(text, "Name", *before, origin=origin) for text, *before in (
            (f"^{word} 5 TXT x", ), (f"$ORIGIN ^{word}\n@ 5 TXT x", ), (f"$INCLUDE f ^{word}\n", ),
            (f"a. 5 TXT x\n^{word} TXT y", text_at("a.")))] + [
                refused(f"a. 5 MX 10 ^{word}", "Data/Name", origin=origin),
                refused(f"a. 5 SOA . ^{word} 1 2 3 4 5", "Data/Name", origin=origin)]
    return [
        row(f"{word} 5 TXT x", text_at(owner), origin=origin),
        row(f"{word} 5 TXT x\n\tTXT y", text_at(owner), text_at(owner, string="y"), origin=origin),
        row(f"$ORIGIN {word}\n@ 5 TXT x", text_at(owner), origin=origin),
        row(f"$INCLUDE f {word}", f"$INCLUDE/66/{owner.hex()}", origin=origin),
        row(f"a. 5 MX 10 {word}", record("a.", 5, MX, numbers(2, 10) + owner), origin=origin),
        row(f"$ORIGIN {word}\na. 5 NS @", record("a.", 5, NS, owner), origin=origin),
        row(f"a. 5 SOA . {word} 1 2 3 4 5", record("a.", 5, SOA, soa(ROOT, owner, 1, 2, 3, 4, 5)), origin=origin),
    ]


def escape_rows():
    made = [owner_rows(word, label(octets)) for word, octets in LABELS]
    made += [owner_rows(word, owner) for word, owner in OWNERS]
    quoted = [row(text) for text in ('"a" 5 TXT x', 'a"b" 5 TXT x', '"a b". 5 TXT x', '"a.b" 5 TXT x', '"" 5 TXT x',
                                     '"$TTL" 5', '"@" 5 TXT x', '$ORIGIN "b"', '$INCLUDE f "b"')]
    return [*itertools.chain(*made), *quoted]


def lengths(total):
    """The lengths of labels that have so many octets with the octet before each: as many of 63 as there can be."""
    return (total - 1) // 64 * [63] + [(total - 1) % 64]


def limit_rows():
    made = []
    for count, (spelling, octet) in itertools.product((1, 62, 63, 64, 65, 127, 128, 192, 255, 256), (
            ("a", b"a"), ("\\a", b"a"), ("\\097", b"a"), ("\\.", b"."))):
        label_of = bytes([count]) + count * octet if count < 64 else None
        made += owner_rows(count * spelling, label_of and label_of + EXAMPLE)
        made += owner_rows(count * spelling + ".", label_of and label_of + ROOT)
    for size in range(250, 258):
        for ending, origin in (("", EXAMPLE), (".", ROOT)):
            parts = lengths(size - len(origin))
            owner = b"".join(bytes([it]) + it * b"a" for it in parts) + origin
            made += owner_rows(".".join(it * "a" for it in parts) + ending, owner if size <= 255 else None)
    for count in (126, 127, 128):
        made += owner_rows(count * "a.", count * b"\1a" + ROOT if count <= 127 else None)
    for size in range(250, 256):
        origin = b"".join(bytes([it]) + it * b"b" for it in lengths(size - 1)) + ROOT
        made += owner_rows("@", origin, origin) + owner_rows(".", ROOT, origin)
        for count in (1, 2, 3):
            owner = bytes([count]) + count * b"a" + origin
            made += owner_rows(count * "a", owner if len(owner) <= 255 else None, origin)
    return made


# Words, and the TTL that each is (RFC 1035, 5.1; RFC 2181, 8)
TTLS = [
    ("0", 0), ("1", 1), ("00", 0), ("0000000005", 5), (300 * "0" + "7", 7), ("2147483646", 2147483646),
    ("2147483647", 2147483647), ("2147483648", None), ("4294967295", None), ("4294967296", None), ("4294967301", None),
    ("18446744073709551616", None), ("18446744073709551621", None), (300 * "9", None), ("1w", 604800), ("1d", 86400),
    ("1h", 3600), ("1m", 60), ("1s", 1), ("1W", 604800), ("1D", 86400), ("1H", 3600), ("1M", 60), ("1S", 1), ("0w", 0),
    ("1w2d3h4m5s", 788645), ("5s4m3h2d1w", 788645), ("1h1h", 7200), ("1h30m", 5400), ("1H30m", 5400), ("01h030M", 5400),
    ("0s5s", 5), ("3550w", 2147040000), ("3551w", None), ("3550w5d3h14m7s", 2147483647), ("3550w5d3h14m8s", None),
    ("24855d", 2147472000), ("24856d", None), ("596523h", 2147482800), ("596524h", None), ("35791394m", 2147483640),
    ("35791395m", None), ("2147483647s", 2147483647), ("2147483648s", None), ("2147483647s1s", None),
    ("1s2147483647s", None),
    ("7101w", None), ("30500568904944w", None), (300 * "9" + "w", None), (300 * "0" + "1w", 604800), ("1h30", None),
    ("0s5", None), ("1hm", None), ("1y", None), ("1h ", 3600), ("1.0", None), ("1e3", None), ("1_000", None),
    ("1,5", None),
    ("1-", None), ("1\\s", None), ("1\\104", None), ("1h-", None), ("5IN", None), (100 * "1s", 100),
    (100 * "1s" + "1", None),
    ("2147483647w", None), ("1\xb2", None), ("1\0", None),
]


def ttl_rows():
    made = []
    for word, seconds in TTLS:
        if seconds is None:
            made += [refused(text, "Ttl") for text in (
                f"a ^{word} TXT x", f"a IN ^{word} TXT x", f"$TTL ^{word}\na TXT x")]
        else:
            made += [row(text, text_at(ttl=seconds)) for text in (
                f"a {word} TXT x", f"a IN {word} TXT x", f"$TTL {word}\na TXT x")]
    return made


def octet_rows():
    """Each octet within an owner, as the first one, after a backslash, and within parentheses."""
    made = []
    for octet in map(chr, range(256)):
        of_words, is_digit = octet in ' \t\r\n();"\\', octet in "0123456789"
        within, first = text_at(f"a{octet}b.example."), text_at(f"{octet}a.example.")
        escaped = "err 1 1 Name" if is_digit else text_at(label(f"a{octet}b".encode("latin-1")))
        made += [
            row(f"a{octet}b 5 TXT x", *[] if of_words else [within]),
            row(f"{octet}a 5 TXT x", *[] if of_words or octet in ".$" else [first]),
            row(f"a\\{octet}b 5 TXT x", escaped),
            row(f"a 5 TXT (x{octet}y)", *[] if of_words else [text_at(string=f"x{octet}y")]),
        ]
    return made


FIRST_PARTS = ("a..b 5 TXT x", " 5 TXT x", "a TXT x", "$X", "$TTL x", "a 5 TXT x", "a 5 A x", "a", "a 5", "$TTL", "")
LAST_PARTS = (" )", " (", ' "', " \\", "\n)", "\n(", '\n"', "\n\\", " ;)", ' ;"', " ;\\", " ;(", " ()", "(\n)", "\n")


def beside_rows():
    """Each part of a record correct, refused or absent beside each of the others; then faults of words and entries."""
    owners, ttls, classes = ("a", "a..b", ""), ("", "5", "5x", "5 6"), ("", "CH", "CH IN")
    types, data = ("TXT", "TXTX", ""), ("x", "\\300")
    for owner, *parts in itertools.product(owners, ttls, classes, types, data):
        yield row(" ".join([owner, *filter(None, parts)]))
    for first, last in itertools.product(FIRST_PARTS, LAST_PARTS):
        yield row(first + last)


CUT_TEXT = ('$TTL 1h;x\n$INCLUDE "f" b\n@ IN MX (10 ; "\n mail.example. )\r\n\t5 CH TXT "a;\\"b" c\\ d\n'
            "$ORIGIN b\na.\\098 CLASS9 TYPE65280 \\# 2 00ff\n")


def cut_rows():
    """A text cut at each octet, and with each octet absent, twice, or after a space."""
    for at, octet in enumerate(CUT_TEXT):
        front, rest = CUT_TEXT[:at], CUT_TEXT[at + 1:]
        for text in (front, front + rest, front + octet + octet + rest, f"{front} {octet}{rest}"):
            yield row(text)


# Lines that aren't understood: a field is absent, or the origin isn't a name in wire format (RFC 1035, 3.1)
BAD = [
    b"entries", b"entries 00", b"entries  ", b"entries  . 5 TXT x", b"entries - . 5 TXT x", b"entries 0 . 5 TXT x",
    b"entries 000 . 5 TXT x",
    b"entries 0g . 5 TXT x", b"entries 0000 . 5 TXT x", b"entries 01 . 5 TXT x", b"entries 0161 . 5 TXT x",
    b"entries 016100ff . 5 TXT x",
    b"entries 4161 . 5 TXT x", b"entries 40" + 64 * b"61" + b"00 . 5 TXT x", b"entries c000 . 5 TXT x",
    b"entries 0161c000 . 5 TXT x",
    b"entries 80 . 5 TXT x", b"entries 026100 . 5 TXT x",
    b"entries example. . 5 TXT x", b"entries . . 5 TXT x",
    b"entries " + 127 * b"0161" + b"0161" + b"00 . 5 TXT x", b"entries 00 hex:0", b"entries 00 hex:0g",
    b"entries 00 hex:2e 20",
    b"entries 00 hex:2e205", b"Entries 00 . 5 TXT x", b"entry 00 . 5 TXT x", b"entries\t00 . 5 TXT x",
    b"entries 0x00 . 5 TXT x",
]


# Texts with the origin ISI.EDU., and line, column and reason of the first fault.
PLACED = [
    ('a 1 TXT "b', 1, 9, "OpenQuote"), ('\n\na 1 TXT ( "b\\"\n ;)\n', 3, 11, "OpenQuote"),
    ("a 1 TXT b\\", 1, 10, "LoneBackslash"), ("\na 1 TXT ( ( b )\n\n", 2, 9, "OpenParenthesis"),
    ("a 1 TXT ( b ; )\n", 1, 9, "OpenParenthesis"), ("a 1 TXT b )\n", 1, 11, "ClosingParenthesis"),
    ("a..b 1 TXT a\n", 1, 1, "Name"), ('"a" 1 TXT a\n', 1, 1, "Name"), ("a\\25 1 TXT a\n", 1, 1, "Name"),
    ("a\\256 1 TXT a\n", 1, 1, "Name"), (".a 1 TXT a\n", 1, 1, "Name"), ("$INCLUDE file ..", 1, 15, "Name"),
    ("a", 1, 2, "MissingType"), ("a 1 IN\n", 1, 7, "MissingType"), ("a 2147483648 TXT a\n", 1, 3, "Ttl"),
    ("a 1 IN 1 TXT a\n", 1, 8, "Ttl"), ("a 1h1 TXT a\n", 1, 3, "Ttl"), ("$TTL x\n", 1, 6, "Ttl"),
    ("$TTL 24855d3h14m8s\n", 1, 6, "Ttl"), ("a 1 IN IN TXT a\n", 1, 8, "Rtype"), ("a 1 NOTYPE a\n", 1, 5, "Rtype"),
    ("a 1 TYPE65536 a\n", 1, 5, "Rtype"), ("\n 1 TXT a\n", 2, 1, "NoOwner"), ("a TXT a\n", 1, 3, "NoTtl"),
    ("$ORIGINS a\n", 1, 1, "Directive"), ("$TTL\n", 1, 5, "MissingWord"), ("$INCLUDE ; a\n", 1, 13, "MissingWord"),
    ("$TTL 1 2\n", 1, 8, "ExtraWord"), ("$INCLUDE a b c\n", 1, 14, "ExtraWord"),
    ("\na 1 MX (10\n mail..a )\n", 3, 2, "Data/Name"), ("a 1 A\n", 1, 6, "Data/MissingWord"),
]
# Words, and the seconds that they are.
TTL_WORDS = [
    ("0", 0), ("3600", 3600), ("2147483647", 2**31 - 1), ("1s", 1), ("1m", 60), ("1h", 3600), ("1d", 86400),
    ("1w", 604800), ("1W2D3H4M5S", 788645), ("1m1h1m", 3720), ("24855d3h14m7s", 2**31 - 1),
    ("000000000000000000000001d", 86400), ("", None), ("2147483648", None), ("24855d3h14m8s", None), ("h", None),
    ("1h30", None), ("1y", None), ("-1", None), ("+1", None), ("1 h", None), ("99999999999999999999999999", None),
    ("0s5", None), ("0w0d0h0m0s", 0), ("5S", 5), ("1.5", None), ("1h-1", None), ("0x10", None), (" 1", None), ("1 ", None),
]


def placed_rows():
    """Texts with another origin: their faults, and their records."""
    isi, apex, a, www = name("ISI.EDU."), "ISI.EDU.", record("a.ISI.EDU.", 1, TXT, strings("b")), "www.ISI.EDU."
    week = 788645
    for text, line, column, reason in PLACED:
        yield row(text, f"err {line} {column} {reason}", origin=isi)
    yield row("a 1 TXT ( b )\n a )\n", a, "err 2 4 ClosingParenthesis", origin=isi)
    yield row("a 1 TXT b\n$ORIGIN b..c\n", a, "err 2 9 Name", origin=isi)
    yield row(
        "www 1h IN A 1.2.3.4\n in 7200 a 1.2.3.5\n\tA 1.2.3.6\r\n TYPE65280 \\# 1 AB",
        record(www, 3600, A, address("1.2.3.4")), record(www, 7200, A, address("1.2.3.5")),
        record(www, 7200, A, address("1.2.3.6")), record(www, 7200, PRIVATE, b"\xab"), origin=isi,
    )
    yield row("www 3600 CLASS3 TXT a\n A \\# 1 ff\n", record(www, 3600, TXT, strings("a"), CH),
              record(www, 3600, A, b"\xff", CH), origin=isi)
    yield row(
        "; a comment\n\n$TTL 1w2d3h4m5s ; another\n$ORIGIN example.\n@ TXT \"(;\" ; )\n$origin sub\na\\.b TXT a;b\n"
        "\\065\\ c. TXT (\na)\n$ORIGIN .\nx TXT \\(\n. TXT ( ; (\n b )\n",
        record("example.", week, TXT, strings("(;")), record(b"\x03a.b\x03sub" + EXAMPLE, week, TXT, strings("a")),
        record(b"\x03A c\0", week, TXT, strings("a")), record("x.", week, TXT, strings("(")),
        record(".", week, TXT, strings("b")), origin=isi,
    )
    yield row('$INCLUDE "a file" sub', include('"a file"', "sub." + apex), origin=isi)
    seconds = ((5, ""), (5, ""), (9, "$TTL 9\n"), (7, ""), (9, ""), (0, "$TTL 0\n"))
    stated = (" 5", "", "", " 7", "", "")
    yield row("".join(f"{before}a.{ttl} TXT x\n" for (_, before), ttl in zip(seconds, stated)),
              *(record("a.", ttl, TXT, strings("x")) for ttl, _ in seconds), origin=isi)


def ttl_words():
    """Words that are TTLs, and words that aren't."""
    for word, seconds in TTL_WORDS:
        shown = word.encode() if PLAIN.fullmatch(word.encode()) and word[0] != " " else b"hex:" + (word.encode().hex() or "-").encode()
        yield b"ttl " + shown, "none" if seconds is None else str(seconds)


def bad_rows():
    return [(line, "bad") for line in BAD]


LETTERS = b"abcdefghijklmnopqrstuvwxyzABCXYZ0123456789-_*/"
SPECIAL = b' .\\;"()@$\t\n\0\x7f\xff'
TTL_UNITS = (("w", 604800), ("d", 86400), ("h", 3600), ("m", 60), ("s", 1))
COMMENTS = ("", " a comment", ' " ', " ( ", " ) ", " \\", ";;", "\t$TTL x")
MARKS = b' \t\r\n();"\\.@$0159aINxX*#-:/\0\x7f\xff'


def cased(draw, word):
    return "".join(draw.choice((it.upper(), it.lower())) for it in word) if draw.random() < 0.2 else word


def spelled(draw, octets):
    """Octets of a label or a string: most as they are, others after a backslash or by their number (RFC 1035, 5.1)."""
    parts = []
    for octet in octets:
        is_digit = chr(octet) in "0123456789"
        if octet in LETTERS and draw.random() < 0.95:
            parts.append(chr(octet))
        elif 32 < octet < 127 and not is_digit and draw.random() < 0.7:
            parts.append("\\" + chr(octet))
        else:
            parts.append(f"\\{octet:03}")
    return "".join(parts)


def drawn_octets(draw, least, most):
    source = LETTERS + SPECIAL if draw.random() < 0.2 else LETTERS
    return bytes(draw.choice(source) for _ in range(draw.randint(least, most)))


def drawn_name(draw):
    """The labels of a name, and how they are spelled with a dot between two."""
    labels = [drawn_octets(draw, *((1, 8) if draw.random() < 0.97 else (60, 63))) for _ in range(draw.randint(1, 3))]
    return b"".join(bytes([len(it)]) + it for it in labels), ".".join(spelled(draw, it) for it in labels)


def drawn_word(draw, origin):
    """The wire format of a name, and a word that it is after this origin: `@`, a relative name or an absolute one."""
    kind = draw.random()
    if kind < 0.15:
        return origin, "@"
    labels, text = drawn_name(draw)
    if kind < 0.7 and len(labels + origin) <= 255:
        return labels + origin, text
    return labels + ROOT, text + "."


def drawn_host(draw, origin):
    """The same, or the root."""
    return (ROOT, ".") if draw.random() < 0.1 else drawn_word(draw, origin)


def drawn_number(draw, size):
    """A number of so many octets, and its digits."""
    value = draw.choice((draw.randrange(256 ** size), draw.randrange(100), 0, 256 ** size - 1))
    return value.to_bytes(size, "big"), str(value)


def drawn_string(draw):
    """A character string, and its text."""
    octets = drawn_octets(draw, 0, 12)
    if octets and draw.random() < 0.5:
        return strings(octets.decode("latin-1")), spelled(draw, octets)
    text = octets.decode("latin-1").replace("\\", "\\\\").replace('"', '\\"')
    return strings(octets.decode("latin-1")), f'"{text}"'


def drawn_digits(draw, octets):
    """Octets in hexadecimal digits, in one word or more."""
    at, words = 0, []
    while at < len(octets):
        count = draw.randint(1, len(octets) - at)
        digits = octets[at:at + count].hex()
        words.append(draw.choice((digits, digits.upper())))
        at += count
    return words


def drawn_soa(draw, origin):
    parts = [drawn_host(draw, origin), drawn_host(draw, origin)] + [drawn_number(draw, 4) for _ in range(5)]
    return b"".join(octets for octets, _ in parts), [text for _, text in parts]


def drawn_fields(draw, rtype, origin):
    """The data of a type, and its words after this origin."""
    if rtype == A:
        octets = draw.randbytes(4)
        return octets, [str(ipaddress.IPv4Address(octets))]
    if rtype == AAAA:
        at = ipaddress.IPv6Address(draw.choice((draw.randbytes(16), bytes(10) + draw.randbytes(6))))
        return at.packed, [draw.choice((at.compressed, at.exploded, at.compressed.upper()))]
    if rtype in (NS, MX):
        preference, digits = drawn_number(draw, 2)
        host, text = drawn_host(draw, origin)
        return (host, [text]) if rtype == NS else (preference + host, [digits, text])
    if rtype == TXT:
        parts = [drawn_string(draw) for _ in range(draw.randint(1, 3))]
        return b"".join(octets for octets, _ in parts), [text for _, text in parts]
    if rtype == SOA:
        return drawn_soa(draw, origin)
    if rtype == CAA:
        flags, digits = drawn_number(draw, 1)
        tag, value = draw.choice(("issue", "issuewild", "iodef", "x1")), draw.choice(("ca.example", ";", "a; b=c", ""))
        return flags + strings(tag) + value.encode(), [digits, tag, f'"{value}"']
    if rtype == DS:
        parts, digest = [drawn_number(draw, it) for it in (2, 1, 1)], draw.randbytes(draw.choice((1, 20, 32)))
        words = [text for _, text in parts] + [draw.choice((digest.hex(), digest.hex().upper()))]
        return b"".join(octets for octets, _ in parts) + digest, words
    octets = draw.randbytes(draw.randint(0, 12))
    return octets, ["\\#", str(len(octets)), *drawn_digits(draw, octets)]


MNEMONICS = {A: "A", AAAA: "AAAA", NS: "NS", MX: "MX", TXT: "TXT", SOA: "SOA", CAA: "CAA", DS: "DS"}
DRAWN_CLASSES = {IN: ("IN", "CLASS1"), CH: ("CH", "CLASS3"), HS: ("HS", "CLASS4"), 32: ("CLASS32", )}


def drawn_data(draw, rclass, origin):
    """A type that has the same data in any class, or one of class IN; its word; its data, and the words of that after
    this origin."""
    rtypes = [NS, MX, TXT, TXT, SOA, CAA, DS, PRIVATE] + ([A, A, AAAA] if rclass == IN else [])
    rtype = draw.choice(rtypes)
    data, words = drawn_fields(draw, rtype, origin)
    if draw.random() < 0.1:
        words = ["\\#", str(len(data)), *drawn_digits(draw, data)]
    number = f"TYPE{rtype}"
    return rtype, cased(draw, number if draw.random() < 0.1 else MNEMONICS.get(rtype, number)), data, words


def drawn_ttl(draw):
    """A TTL, and its word."""
    if draw.random() < 0.6:
        seconds = draw.choice((draw.randrange(100000), 0, 2**31 - 1, 3600))
        return seconds, str(seconds)
    units = draw.sample(TTL_UNITS, draw.randint(1, 3))
    counts = [draw.randint(0, 99) for _ in units]
    word = "".join(f"{count}{letter}" for count, (letter, _) in zip(counts, units))
    return sum(count * size for count, (_, size) in zip(counts, units)), cased(draw, word)


class DrawnZone:
    """The text of a zone while it is drawn, and what it says."""

    def __init__(self, draw):
        self.draw = draw
        self.origin = self.first_origin = draw.choice((ROOT, EXAMPLE, name("b.example."), b"\2\0.\0"))
        self.owner = self.default_ttl = self.stated_ttl = None
        self.rclass, self.text, self.answers = IN, "", []

    def joined(self, words):
        """The words of an entry, which may be on several lines between parentheses."""
        draw, text = self.draw, words[0]
        opening = draw.randrange(1, len(words)) if len(words) > 1 and draw.random() < 0.35 else None
        for index, word in enumerate(words[1:], 1):
            space = draw.choice((" ", " ", " ", "\t", "  "))
            if opening is not None and index == opening:
                space = draw.choice((" (", " ( ", "(", "\t(\n"))
            elif opening is not None and index > opening:
                comment = f" ;{draw.choice(COMMENTS)}\n"
                space = draw.choice((" ", "\n", "\n\t", "\r\n  ", comment, " ( ) ", "\n\n", "(", " ("))
            text += space + word
            text += ")" if space in ("(", " (") and index != opening else ""
        return text + (draw.choice((")", " )", "\n)", " ; x\n )")) if opening is not None else "")

    def end_line(self):
        comment = f";{self.draw.choice(COMMENTS)}"
        self.text += self.draw.choice(("\n", "\n", "\n", "\r\n", " \n", f" {comment}\n", f"{comment}\r\n"))

    def add_directive(self):
        kind, draw = self.draw.choice(("$TTL", "$TTL", "$ORIGIN", "$INCLUDE")), self.draw
        words = [cased(draw, kind)]
        if kind == "$TTL":
            self.default_ttl, word = drawn_ttl(draw)
            words.append(word)
        elif kind == "$ORIGIN":
            self.origin, word = drawn_word(draw, self.origin)
            words.append(word)
        else:
            file, (origin, word) = draw.choice(("a", "b/c.zone", '"d e"', '"(;)"')), drawn_word(draw, self.origin)
            is_named = draw.random() < 0.5
            words += [file, word] if is_named else [file]
            self.answers.append(f"$INCLUDE/{file.encode().hex()}/{origin.hex() if is_named else '.'}")
        self.text += self.joined(words)
        self.end_line()

    def add_record(self):
        draw, owner = self.draw, ""
        if self.owner is None or draw.random() < 0.6:
            self.owner, owner = drawn_word(draw, self.origin)
        head, ttl = [], self.stated_ttl if self.default_ttl is None else self.default_ttl
        if ttl is None or draw.random() < 0.4:
            ttl, word = drawn_ttl(draw)
            self.stated_ttl = ttl
            head.append(word)
        if draw.random() < 0.4:
            self.rclass = draw.choice((IN, IN, IN, IN, CH, HS, 32))
            head.append(cased(draw, draw.choice(DRAWN_CLASSES[self.rclass])))
        draw.shuffle(head)
        rtype, mnemonic, data, words = drawn_data(draw, self.rclass, self.origin)
        self.text += self.joined([owner or draw.choice(" \t"), *head, mnemonic, *words])
        self.answers.append(record(self.owner, ttl, rtype, data, self.rclass))
        self.end_line()

    def add_entry(self):
        kind = self.draw.random()
        if kind < 0.1:
            self.text += self.draw.choice(("", " ", "\t", ";", " ; \" (", "()", "(\n)"))
            self.end_line()
        elif kind < 0.25:
            self.add_directive()
        else:
            self.add_record()


def changed(draw, text):
    """A text with an octet changed, absent, more or twice, or cut."""
    kind, at, octet = draw.randrange(5), draw.randrange(len(text)), chr(draw.choice(MARKS))
    front, rest = text[:at], text[at + 1:]
    return (front + octet + rest, front + rest, front + octet + text[at:], front + text[at] + text[at:], front)[kind]


def drawn_rows(draw, count):
    """Texts that are drawn with what they say; of three, about one has a change, and what it says then isn't known."""
    made = []
    while len(made) < count:
        zone = DrawnZone(draw)
        for _ in range(draw.randint(1, 6)):
            zone.add_entry()
        text = zone.text.removesuffix("\n") if draw.random() < 0.2 else zone.text
        if len(text) > MOST_TEXT or not text:
            continue
        if draw.random() < 1 / 3:
            made.append(row(changed(draw, text), origin=zone.first_origin))
        else:
            made.append(row(text, *zone.answers or ["none"], origin=zone.first_origin))
    return made


PIECES = (
    "a", "@", ".", "b.", "..", "\\046", "5", "1h", "5x", "IN", "CH", "ANY", "A", "TXT", "MX", "TYPE65280", "\\#", "0",
    "192.0.2.1", "x", '"y z"', '"', "\\", ";", "(", ")", "(", ")", "\n", "\n", "\n", "\r\n", "\t", "$TTL", "$ORIGIN",
    "$INCLUDE", "$X", "\0", "\\5", "5",
)


def piece_rows(draw, count):
    """Texts of pieces that are drawn without a rule."""
    made = []
    for _ in range(count):
        pieces = [draw.choice(PIECES) + draw.choice(("", " ", " ", " ")) for _ in range(draw.randint(1, 14))]
        made.append(row(draw.choice(("", "a 5 TXT x\n", "$TTL 5\na TXT x\n")) + "".join(pieces)))
    return made


def listed_rows(texts):
    """Texts with their answers beside them; without one, second_entries.py alone has it."""
    return [row(text, *answers) for text, *answers in texts]


def rows():
    """Each heading and each line, with its answer or None."""
    draw = random.Random(SEED)
    listed = []
    for heading, made in (
        ("zones of the RFCs", example_rows()),
        ("texts that are refused", fault_rows()),
        ("directives", listed_rows(DIRECTIVE_TEXTS)),
        ("TTL, class and type", listed_rows(HEAD_TEXTS)),
        ("owners, TTLs and classes of entries before", listed_rows(CARRIED_TEXTS)),
        ("parentheses, comments and ends of lines", listed_rows(SHAPE_TEXTS)),
        ("escapes in owners and origins", escape_rows()),
        ("labels and names at their limits", limit_rows()),
        ("TTLs at their limits", ttl_rows()),
        ("each octet in owners and data", octet_rows()),
        ("parts of a record beside each other", beside_rows()),
        ("a text cut at each octet, and changed", cut_rows()),
        ("faults at their places, and texts with another origin", placed_rows()),
        ("words that are TTLs or not", ttl_words()),
        ("lines of zones that aren't understood", bad_rows()),
        ("zones that are drawn", drawn_rows(draw, 1500)),
        ("pieces that are drawn", piece_rows(draw, 500)),
    ):
        listed.append(("# " + heading, None))
        listed.extend(made)
    return listed
