#!/usr/bin/env python3
"""Writes the conformance table anew: the lines to `stdin` and their answers to `stdout`, beside this file.

    table.py ANSWERER [WORD ..]

ANSWERER is a command that answers the lines of README.md beside this file: the Rust crate behind it. Where
that one gives three columns with tabs between, the third is taken: what is documented in place of a fault of the
crate. Answers that stand here beside their line, from the standards or from the documented behaviour, must be the
same as the ANSWERER's, except those of `own`, which it can't give. No answer comes from the program itself.
"""
import os
import random
import subprocess
import sys

rows = []  # (line, answer or None, whether the answerer lacks it)
promised = []  # (line, what must stand in its answer): the order of RFC 4034, 6.1


def hx(octets):
    return bytes(octets).hex() or "-"


def topic(text):
    rows.append(("# " + text, "# " + text, True))


def row(*fields):
    rows.append((" ".join(hx(f) if isinstance(f, (bytes, bytearray)) else str(f) for f in fields), None, False))


def told(*fields):
    *fields, answer = fields
    row(*fields)
    rows[-1] = (rows[-1][0], answer, False)


def own(*fields):
    *fields, answer = fields
    row(*fields)
    rows[-1] = (rows[-1][0], answer, True)


def rel(*labels):
    return b"".join(bytes([len(label)]) + label for label in labels)


def absolute(*labels):
    return rel(*labels) + b"\0"


def of_len(total, last=1):
    """A relative wire form of so many octets; its last label has `last` octets."""
    rest = total - last - 1
    octets = b""
    while rest > 0:
        size = min(64, rest) if rest != 65 else 32
        octets += bytes([size - 1]) + bytes(97 + (len(octets) + i) % 26 for i in range(size - 1))
        rest -= size
    return octets + bytes([last]) + b"z" * last


def pointer(place):
    return bytes([0xC0 | place >> 8, place & 0xFF])


def pointers(count):
    """A root, and pointers at 1, 3, 5 ..: the first to the root, each other to the one before."""
    return b"\0" + pointer(0) + b"".join(pointer(2 * k - 1) for k in range(1, count))


def read_slowly(message, place, limit=255):
    """The labels of the name at a place, its flag and the place behind it, by the three cases of RFC 1035, 4.1.4; or the
    first fault on the way."""
    labels, at, passed, followed, behind, flag = [], place, 0, 0, None, "f"
    while at < len(message):
        head = message[at]
        if head == 0:
            return labels + [b""], flag, behind or at + 1
        elif head < 0x40:
            label = message[at + 1:at + 1 + head]
            passed += 1 + head
            if len(label) < head:
                break
            if passed > 254:
                return "long domain name"
            labels.append(label)
            at += 1 + head
        elif head < 0xC0:
            return "invalid label type"
        else:
            if at + 1 == len(message):
                break
            target = (head & 0x3F) << 8 | message[at + 1]
            if target >= at or followed == limit:
                return "too many compression pointers"
            behind, followed, flag, at = behind or at + 2, followed + 1, "c" if labels else "f", target
    return "unexpected end of input"


def from_ends(labels, calls):
    """What calls give on a list of labels, `f` at its front and `b` at its back."""
    labels = list(labels)
    return ",".join(hx(labels.pop(0 if call == "f" else -1)) if labels else "none" for call in calls)


def in_orders(labels):
    """The labels from the front, from the back and from both ends in turn."""
    count = len(labels)
    return " ".join(from_ends(labels, calls) for calls in ("f" * count, "b" * count, ("fb" * count)[:count]))


def walked(message, place):
    """What `walk` answers for a name whose labels are letters alone."""
    labels, flag, _behind = read_slowly(message, place)
    rests = [flag + hx(rel(*labels[at:])) for at in range(len(labels))]
    firsts = [hx(rel(label)) for label in labels[:-1]] + rests[-1:]
    text = b".".join(labels[:-1])
    numbers = "%d %d %s %s %s" % (len(labels), len(labels) - 1, hx(text), hx(text + b"."), hx(rel(*labels).lower()))
    return " ".join((in_orders(labels), ",".join(rests), ",".join(rests[1:]), ",".join(firsts), numbers))


WWW = absolute(b"www", b"example", b"com")
MIXED = absolute(b"wWw", b"eXAMple", b"Com")
OTHER = absolute(b"ww4", b"EXAMPLE", b"com")
RELATIVE = WWW[:-1]
LONG = rel(*[b"123456789"] * 25)
SCATTERED = b"\3com\0\7example\xc0\0\3www\xc0\5"
FLAT_POINTER = WWW + b"\xc0\0"
ONCE = b"\3com\0\3www\7example\xc0\0"
INSIDE = b"\3\1a\0\xc0\1"
PLACED = [(FLAT_POINTER, 0), (FLAT_POINTER, 17), (ONCE, 5), (SCATTERED, 15)]
MOST = pointers(253)[:507] + b"\xc1\xf9" + b"\1a" * 127 + b"\xc1\xfb"
RISING = [
    absolute(b"example"), absolute(b"a", b"example"), absolute(b"yljkjljk", b"a", b"example"),
    absolute(b"Z", b"a", b"example"), absolute(b"zABC", b"a", b"EXAMPLE"), absolute(b"z", b"example"),
    absolute(b"\1", b"z", b"example"), absolute(b"*", b"z", b"example"), absolute(b"\xc8", b"z", b"example"),
]
PARTS = [b"", rel(b"www"), rel(b"www", b"example"), RELATIVE, rel(b"example", b"com"), rel(b"com")]
FAR = b"\x80" * 16383 + b"\1z\0\1y\xff\xff"
assert len(MOST) == 765


def scattered_most():
    """127 labels, each behind two pointers, and a pointer to the first of them. Its place, too."""
    message, last = b"\0", 0
    for at in range(127):
        message += pointer(last)
        last = len(message)
        message += bytes([1, b"aBcD"[at % 4] + at // 4 % 8]) + pointer(last - 2)
    return message + pointer(last), len(message)


WORST, WORST_PLACE = scattered_most()
assert len(read_slowly(WORST, WORST_PLACE)[0]) == 128 and isinstance(read_slowly(WORST, WORST_PLACE, 254), str)

rnd = random.Random(1035)


def message_rows(message, place):
    for word in ("parse", "skip", "nparse", "walk", "slice"):
        row(word, message, place)


# ---------------------------------------------------------------------------------------------------------------
topic("what is not understood")
for line in (
    "nothing", "name", "name 0", "name 0g", "name 00 00", "name  00", "parse 00", "parse 00 2", "parse 00 0 2",
    "parse 00 1 0", "parse 00 x", "parse 00 -1", "split 00", "cmp 00", "cmp 00 01", "show 01", "show -", "relshow 00",
    "chain 00 00", "chain 0161 01", "pcmp 00 0 1", "root 00", "part 00 0", "signed 7 1", "signed 8 128", "signed 8 -129",
    "unsigned 8 256", "unsigned 8 -1", "unsigned 16 x", "unsigned 64 18446744073709551616", "address 0102",
    "parser 00 0 1 u9", "parser 00 0 2 u8", "parser 00 0 1 peek", "parser 00 0 1 u8:1", "write 00 1 00", "write 00 0 0000",
):
    told(line, "bad")

topic("octets of each kind")
for octets, keep in ((b"abc", 4), (b"abc", 3), (b"abc", 2), (b"abc", 1), (b"abc", 0), (b"\1\2\3\4", 1), (b"", 0), (b"", 1)):
    told("truncate", octets, keep, hx(octets[:keep]))
for size in (1, 63, 64, 65, 127, 128, 254, 255):
    for keep in (0, 1, size - 1, size, size + 1, 1000000000000):
        told("truncate", bytes(i % 251 for i in range(size)), keep, hx(bytes(i % 251 for i in range(size))[:keep]))
for octets, place, written in ((b"abc", 1, b"x"), (b"axc", 2, b"y"), (b"\1\2\3\4", 3, b"\x09"), (b"abc", 0, b"\0"), (b"\xff" * 255, 254, b"\0")):
    made = octets[:place] + written + octets[place + 1:]
    told("write", octets, place, written, hx(made) + " " + hx(made))
told("write", b"abc", 3, b"x", "bad")
for a in range(0, 10):
    for b in (0, 1, 7, 8, 9):
        first, second = b"abcdefghij"[:a], b"0123456789"[:b]
        kept = first if a <= 8 else b""
        fits = len(kept) + b <= 8
        told("append", first, second, "%s %s %s ok ok %s" % (
            "ok" if a <= 8 else "err", "ok" if fits else "err", hx(kept + second if fits else kept), hx(first + second)))
for octets in (b"", b"a", b"abc", b"abcd", b"abcde", WWW):
    told("from", octets, hx(octets) + " " + (hx(octets) if len(octets) <= 4 else "buffer size exceeded"))

topic("a parser")
told("parser", b"\1\2\3", 0, 3, "u16;u16;u8", "010203 010203 258@2 unexpected end of input@2 3@3")
told("parser", b"\1\2\3", 0, 3, "u16;u16;u8;u8;rest;seek:4;seek:3;seek:1;advance:3;peek:2;peek:3;advance:1;rest;octets:2;octets:1",
     "010203 010203 258@2 unexpected end of input@2 3@3 unexpected end of input@3 -@3 unexpected end of input@3 ok@3 ok@1 "
     "unexpected end of input@1 0203@1 unexpected end of input@1 ok@2 03@2 unexpected end of input@2 03@3")
told("parser", b"\1\2\3\4", 1, 3, "rest;buf:3;buf:2;seek:4",
     "01020304 010203 0203@1 unexpected end of input:eeeeee@1 ok:0203@3 unexpected end of input@3")
BIG = bytes.fromhex("fffefdfcfbfaf9f8")
told("parser", BIG, 0, 8, "i8", hx(BIG) + " " + hx(BIG) + " -1@1")
told("parser", BIG, 0, 8, "i16", hx(BIG) + " " + hx(BIG) + " -2@2")
told("parser", BIG, 0, 8, "u32;i32", hx(BIG) + " " + hx(BIG) + " 4294901244@4 -67438088@8")
told("parser", BIG, 0, 8, "u64", hx(BIG) + " " + hx(BIG) + " 18446460386757245432@8")
told("parser", BIG, 0, 8, "i64;i64", hx(BIG) + " " + hx(BIG) + " -283686952306184@8 unexpected end of input@8")
told("parser", b"", 0, 0, "rest;peek:0;octets:0;advance:0;seek:0;buf:0;u8", "- - -@0 -@0 -@0 ok@0 ok@0 ok:-@0 unexpected end of input@0")
CALLS = ["u8", "i8", "u16", "i16", "u32", "i32", "u64", "i64", "rest"]
for word, size in (("u8", 1), ("i8", 1), ("u16", 2), ("i16", 2), ("u32", 4), ("i32", 4), ("u64", 8), ("i64", 8)):
    for head in (0, 1, 0x7F, 0x80, 0xFF):
        octets = bytes([head]) + bytes(range(1, size))
        for end in range(size + 1):
            row("parser", octets + b"\x55", 0, end, "%s;%s;rest" % (word, word))
for word in ("peek", "octets", "buf", "seek", "advance"):
    for begin in (0, 2, 5):
        for end in (5, 7):
            row("parser", b"abcdefg", begin, end, ";".join("%s:%d" % (word, n) for n in (0, 1, end - begin + 1, end - begin, 1, end, end + 1, 0)) + ";rest")
    for n in (30, 31, 32, 999999999999999):
        if word != "buf" or n <= 32:
            row("parser", bytes(range(31)), 0, 31, "%s:%d;rest" % (word, n))
for _time in range(220):
    octets = bytes(rnd.randrange(256) for _octet in range(rnd.randrange(12)))
    begin = rnd.randrange(len(octets) + 1)
    end = rnd.randrange(begin, len(octets) + 1)
    calls = []
    for _call in range(rnd.randrange(1, 9)):
        if rnd.random() < 0.5:
            calls.append(rnd.choice(CALLS))
        else:
            calls.append("%s:%d" % (rnd.choice(("peek", "octets", "buf", "seek", "advance")), rnd.randrange(6)))
    row("parser", octets, begin, end, ";".join(calls))

topic("numbers and addresses")
told("unsigned 16 258", "0102")
told("signed 8 -1", "ff")
told("unsigned 8 128", "80")
told("signed 16 -2", "fffe")
told("unsigned 32 16909060", "01020304")
told("signed 32 -16909060", "fefdfcfc")
told("unsigned 64 72623859790382856", "0102030405060708")
told("signed 64 -9223372036854775808", "8000000000000000")
told("unsigned 128 258", "00" * 14 + "0102")
told("signed 128 -1", "ff" * 16)
told("unsigned 32 1", "00000001")
for bits in (8, 16, 32, 64, 128):
    top = 1 << bits
    for number in sorted({0, 1, 127, 128, 255, top // 2 - 1, top // 2, top // 2 + 1, top - 2, top - 1, top // 3}):
        told("unsigned", bits, number, number.to_bytes(bits // 8, "big").hex())
    for number in sorted({0, 1, -1, -2, 127, -128, top // 2 - 1, -top // 2, 1 - top // 2, top // 5, -top // 5}):
        told("signed", bits, number, number.to_bytes(bits // 8, "big", signed=True).hex())
    told("unsigned", bits, top, "bad")
    told("signed", bits, top // 2, "bad")
    told("signed", bits, -top // 2 - 1, "bad")
told("address", bytes([192, 0, 2, 1]), "v4 c0000201")
told("address", bytes.fromhex("20010db8000000000000000000000001"), "v6 20010db8000000000000000000000001")
for octets in (b"\0" * 4, b"\xff" * 4, b"\0" * 16, b"\xff" * 16, bytes(range(16)), bytes(range(0xF0, 0x100)), b"\0\0\0\1"):
    told("address", octets, ("v4 " if len(octets) == 4 else "v6 ") + octets.hex())
for octets in (b"", b"\1", b"\1\2\3", b"\1" * 5, b"\1" * 15, b"\1" * 17):
    told("address", octets, "bad")
for octets, answer in ((b"\1\2\3", "trailing data trailing data"), (b"\1", "unexpected end of input trailing data"),
                       (b"\1\2", "258 trailing data"), (b"", "unexpected end of input ok"), (b"\xff\xff", "65535 trailing data"),
                       (b"\xff" * 300, "trailing data trailing data")):
    told("whole", octets, answer)
row("ints", b"\1\2\3", 0)
row("ints", bytes([0xC0, 0, 2, 1]), 0)
row("arrays", b"\1\2", 2)
row("arrays", b"\1\2\3", 0)
for octets in (BIG + BIG, bytes(range(20)), b"\x80" + b"\0" * 19, b"\xfe", b"\xff\xfe", bytes.fromhex("fefdfcfc"), b"\x7f" + b"\xff" * 15):
    for place in range(len(octets) + 1):
        row("ints", octets, place)
        row("arrays", octets, place)
for first, second in ((b"\1\2", b"\xc0\0\2\1"), (b"", b""), (b"a" * 300, b""), (b"", b"b"), (b"\0" * 640, b"\xff")):
    told("composevec", first, second, hx(first + second))

topic("labels")
told("splitlabel", b"\3www\7example", "ok 777777 076578616d706c65")
told("splitlabel", b"\3www\7example\3com\0", "ok 777777 076578616d706c6503636f6d00")
told("splitlabel", b"\0some", "ok - 736f6d65")
told("splitlabel", b"\3www", "ok 777777 -")
told("splitlabel", b"\3ww", "err ShortInput unexpected end of input")
told("splitlabel", b"", "err ShortInput unexpected end of input")
told("splitlabel", b"\xc0", "err ShortInput unexpected end of input")
told("splitlabel", b"\xc0\5foo", "err Pointer(5)")
told("splitlabel", b"\xff\xff", "err Pointer(16383)")
told("splitlabel", b"\xb3foo", "err BadType(Undefined) undefined label type")
told("splitlabel", b"\x40", "err BadType(Extended(64)) unknown extended label 0x40")
told("splitlabel", b"\x66foo", "err BadType(Extended(102)) unknown extended label 0x66")
told("splitlabel", b"\x4a", "err BadType(Extended(74)) unknown extended label 0x4a")
told("labelerrors", b"\xc0\5", "parse=Form compressed domain name name=CompressedName compressed domain name "
     "relative=CompressedName compressed domain name")
told("labelerrors", b"\x80", "parse=Form invalid label type name=BadLabel(Undefined) undefined label type "
     "relative=BadLabel(Undefined) undefined label type")
told("labelerrors", b"\x62a", "parse=Form invalid label type name=BadLabel(Extended(98)) unknown extended label 0x62 "
     "relative=BadLabel(Extended(98)) unknown extended label 0x62")
told("labelerrors", b"", "parse=ShortInput name=ShortInput unexpected end of input relative=ShortInput unexpected end of input")
for head in range(256):
    row("splitlabel", bytes([head]) + b"Abc")
    row("splitlabel", bytes([head]) + b"B" * 70)
    row("labelerrors", bytes([head]))
    if head % 5 == 0 or head in (1, 2, 3, 4, 62, 63, 64, 65, 127, 128, 191, 192, 254):
        row("splitmut", bytes([head]) + b"Abc")
        row("splitmut", bytes([head]) + b"ZQ" * 40)
        row("labelfill", bytes([head]) + b"B" * 70)
for size in (0, 1, 2, 62, 63, 64, 65, 100, 255, 256, 300):
    row("labelmut", bytes(64 + i % 64 for i in range(size)))
    row("labelmut", b"A" * size)
    row("label", b"A" * size, b"a" * 63)
    row("label", b"A" * 10, b"a" * size)
    row("splitlabel", bytes([min(size, 255)]) + b"A" * size)
    row("splitmut", bytes([min(size, 255)]) + b"A" * size)
told("labelmut", b"Www", "ok 777777 777777")
told("labelmut", b"A" * 64, "err long label " + "41" * 64)
told("splitmut", b"\1A\1B", "ok 61 0142 01610142")
told("splitmut", b"\x66FOO", "err BadType(Extended(102)) unknown extended label 0x66 66464f4f")
told("splitmut", b"\xc0\5FOO", "err Pointer(5) c005464f4f")
told("splitmut", b"\3WW", "err ShortInput unexpected end of input 035757")
told("splitmut", b"", "err ShortInput unexpected end of input -")
told("splitmut", b"Www", "err BadType(Extended(87)) unknown extended label 0x57 577777")
told("labelfill", b"\3WWWabc", "ok 032a2a2a616263")
told("labelfill", b"\x41WWW", "err 41575757")
octet_label = b"\x61\x2e\x5c\x20\x07\x80\x41"
told("label", octet_label, b"a", "eq=0 cmp=> composed=> lower=> text=" + hx(b"a\\.\\\\\\ \\007\\128A")
     + " root=0 wild=0 wire=07612e5c20078041 canonical=07612e5c20078061 len=8")
row("label", b"\x1f\x21\x5b\x7e\x7f\xff", b"")
for octet in range(256):
    row("label", bytes([octet]), bytes([(octet + 32) % 256]))
    row("label", b"a" + bytes([octet]) + b"Z", b"A" + bytes([octet ^ 0x20]) + b"z")
row("label", b"\x80" * 63, b"\xff" * 63)
row("label", b"\0" * 63, b"\0" * 62)
LABELS = [b"", b"\1", b"*", b"\xc8", b"example", b"eXAMple", b"e4ample", b"aB", b"z", b"Ba", b"Ab", b"12C", b"*w", b"[\xc1",
          b"{\xe1", b"@", b"`", b"a" * 63, b"A" * 62 + b"b", b"a" * 62, b"www", b"\0", b"\xff", b"\0\0"]
for one in LABELS:
    for other in LABELS:
        row("label", one, other)
for octets, label in ((b"\3WWWabc", 4), (b"\0abc", 1), (b"\1a", 2), (b"\0", 1), (b"\x3f" + b"A" * 99, 64), (b"\x3f" + b"A" * 63, 64), (b"\2ab\3abc", 3)):
    own("restfill", octets, "ok " + hx(octets[:label] + b"*" * (len(octets) - label)))
for octets in (b"", b"\2a", b"\x41WWW", b"\x80WWW", b"\xc0\0WWW", b"\xc0", b"\x3f" + b"A" * 62):
    own("restfill", octets, "err " + hx(octets))

topic("the labels of a slice")
for octets, start, answer in (
    (b"\xc0\0", 0, "none"), (b"\1a\xc0\0", 0, "61,61"), (b"\7example\3com\0", 8, "636f6d,-"),
    (b"\7example\3com\0", 0, "6578616d706c65,636f6d,-"), (b"\7example\3com\0", 12, "-"), (b"\7example\3com\0", 13, "none"),
    (b"", 0, "none"), (b"", 1, "none"), (b"", 999999999999999, "none"), (b"\1a\2b", 0, "61"), (b"\1a\x40b", 0, "61"),
    (b"\1a\xc0\3\0", 0, "61"), (b"\1a\0\1b\xc0\0", 3, "62,61,-"), (b"\1a\1b\xc0\0", 0, "61,62,61,62"),
):
    told("slice", octets, start, answer)
for message, places in ((SCATTERED, 22), (FLAT_POINTER, 20), (INSIDE, 7), (b"\4\1a\xc0\1\xc0\1", 8)):
    for place in range(places):
        row("slice", message, place)

topic("absolute names of octets")
told("name", LONG + b"\x03123\0", "ok")
told("name", LONG + b"\0041234\0", "err LongName long domain name")
told("name", WWW, "ok")
told("name", b"\0", "ok")
told("name", b"", "err ShortInput unexpected end of input")
told("name", b"\3www", "err RelativeName relative name")
told("name", RELATIVE, "err RelativeName relative name")
told("name", b"\3www\7exa", "err ShortInput unexpected end of input")
told("name", b"\3com\0\0", "err TrailingData trailing data")
told("name", b"\3com\0\3www\0", "err TrailingData trailing data")
told("name", b"\0\0", "err TrailingData trailing data")
told("name", b"\xccab", "err CompressedName compressed domain name")
told("name", b"\xcc", "err ShortInput unexpected end of input")
told("name", b"\x62a", "err BadLabel(Extended(98)) unknown extended label 0x62")
told("name", b"\xa2a", "err BadLabel(Undefined) undefined label type")
told("name", b"\x3f" + b"\0" * 64, "ok")
told("name", b"\x40" + b"\0" * 65, "err BadLabel(Extended(64)) unknown extended label 0x40")
told("nameerrors", b"\x62a", "form=unknown label type parse=Form unknown label type")
told("nameerrors", b"\xccab", "form=compressed domain name parse=Form compressed domain name")
told("nameerrors", LONG + b"\0041234\0", "form=long domain name parse=Form long domain name")
told("nameerrors", b"\3www", "form=relative domain name parse=Form relative domain name")
told("nameerrors", b"\0\0", "form=trailing data in buffer parse=Form trailing data in buffer")
told("nameerrors", b"", "form=unexpected end of buffer parse=ShortInput")
told("nameerrors", b"\xa2a", "form=unknown label type parse=Form unknown label type")
topic("relative names of octets")
told("rel", b"", "ok")
told("rel", b"\3www", "ok")
told("rel", b"\3www\7example", "ok")
told("rel", LONG + b"\x03123", "ok")
told("rel", LONG + b"\0041234", "err LongName long domain name")
told("rel", b"\3www\7exa", "err ShortInput unexpected end of input")
told("rel", b"\1", "err ShortInput unexpected end of input")
told("rel", b"\xccab", "err CompressedName compressed domain name")
told("rel", b"\0", "err AbsoluteName absolute domain name")
told("rel", b"\3www\0", "err AbsoluteName absolute domain name")
told("rel", WWW, "err AbsoluteName absolute domain name")
told("rel", b"\x62a", "err BadLabel(Extended(98)) unknown extended label 0x62")
told("rel", b"\xa2a", "err BadLabel(Undefined) undefined label type")
told("rel", b"\x3f" + b"\0" * 63, "ok")
told("rel", b"\x40" + b"\0" * 64, "err BadLabel(Extended(64)) unknown extended label 0x40")
topic("octets at the limits, cut, and with each head")
for total in (252, 253, 254, 255, 256, 257):
    for last in (1, 63):
        octets = of_len(total, last)
        for made in (octets, octets[:-1], octets + b"\0", octets + b"\0\0", octets + b"\xc0\0", octets + b"\x40", octets + b"\5a"):
            row("name", made)
            row("rel", made)
    for octets in (of_len(total - 1) + b"\0", b"\1a" * ((total - 1) // 2) + (b"\0" if total % 2 else b"\1")):
        row("nameerrors", octets)
        row("nparse", octets + b"rest", 0)
        row("parse", octets + b"rest", 0)
        row("skip", octets + b"rest", 0)
for size in range(61, 67):
    for octets in (bytes([size]) + b"x" * size, bytes([size]) + b"x" * (size - 1), bytes([size]) + b"x" * size + b"\0"):
        row("name", octets)
        row("rel", octets)
        row("parse", octets, 0)
        row("nparse", octets, 0)
        row("skip", octets, 0)
        row("splitlabel", octets)
for octets in (WWW + b"\0", RELATIVE + b"\xc0\0", RELATIVE + b"\x80", SCATTERED):
    for cut in range(len(octets) + 1):
        row("name", octets[:cut])
        row("rel", octets[:cut])
        row("nameerrors", octets[:cut])
for head in range(256):
    row("name", bytes([head]) + b"a\0")
    row("rel", bytes([head]) + b"a")
    row("name", b"\1a" + bytes([head]))
    row("rel", b"\1a" + bytes([head]))
    row("nparse", b"\1a" + bytes([head]) + b"b", 0)
    row("parse", b"\0\1a" + bytes([head]) + b"\0", 1)
    row("skip", b"\0\1a" + bytes([head]) + b"\0", 1)
for _time in range(150):
    octets = bytes(rnd.choice((0, 1, 1, 2, 3, 97, 98, 0xC0, 0x80, 0x41)) for _octet in range(rnd.randrange(9)))
    row("name", octets)
    row("rel", octets)
    row("nparse", octets, 0)
    row("splitlabel", octets)

topic("names made and copied")
own("root", "00 buffer size exceeded")
own("empty", "-")
own("wildcard", "012a buffer size exceeded")
FLAT = [b"\0", WWW, MIXED, absolute(b"com"), absolute(b"*", b"example"), absolute(b"wWw", b"Z"), LONG + b"\x03123\0", b"\1a" * 127 + b"\0",
        rel(*[b"\x80" * 63] * 3, b"\xff" * 61) + b"\0", absolute(octet_label), absolute(b"EXAMPLE", b"com")]
FLAT += [of_len(size - 1) + b"\0" for size in (5, 15, 16, 17, 18, 19, 64, 65, 66, 127, 128, 129, 252, 253, 254, 255)]
for octets in FLAT:
    told("keep", octets, hx(octets) + " " + hx(octets[:-1]))
    told("relkeep", octets[:-1], hx(octets[:-1]))
    for word in ("forms", "lentforms", "show", "flatwalk"):
        row(word, octets)
    for word in ("relforms", "relshow", "relwalk", "rooted"):
        row(word, octets[:-1])
    row("pforms", octets, 0)
    row("pforms", b"\x03123" + octets + b"\xc0\4", 4 + len(octets))
    row("chainforms", b"", octets)
    row("chainforms", octets[:-1], b"\0")
    row("chainforms", octets[:-1], b"")
    first = octets[0] + 1
    if len(octets) > 1:
        row("chainforms", octets[:first], octets[first:])
        row("chainforms", octets[:first], octets[first:-1])
    for labels in (0, 1, 2, 3, 1000):
        row("fromflat", octets, labels)
told("keep", absolute(b"www"), "0377777700 03777777")
for octets in PARTS + [b"\1*"]:
    for word in ("relforms", "relshow", "relwalk", "rooted", "relkeep"):
        row(word, octets)
for message, place in PLACED:
    row("pforms", message, place)
    row("pforms", message.replace(b"example", b"Example"), place)
told("forms", WWW, "made={0} canonical={0} cow=lent held={0} lowered={0} composed=err aa err aa dotted={1} rrsig=3".format(hx(WWW), hx(b"www.example.com.")))
told("forms", absolute(b"com"), "made={0} canonical={0} cow=lent held={0} lowered={0} composed=ok aa{0} ok aa{0} dotted={1} rrsig=1".format(hx(absolute(b"com")), hx(b"com.")))
told("pforms", SCATTERED, 15, "made={0} canonical={0} cow=own held={0} lowered={0} composed=err aa err aa dotted={1} rrsig=3".format(hx(WWW), hx(b"www.example.com.")))
told("forms", absolute(b"wWw", b"Z"), "made={0} canonical={1} cow=lent held={0} lowered={1} composed=ok aa{0} ok aa{1} dotted={2} rrsig=2".format(
    hx(absolute(b"wWw", b"Z")), hx(absolute(b"www", b"z")), hx(b"wWw.Z.")))
told("chainforms", rel(b"www"), absolute(b"com"), "made={0} canonical={0} cow=own held={0} lowered={0} composed=ok aa{0} ok aa{0} dotted={1} rrsig=2".format(
    hx(absolute(b"www", b"com")), hx(b"www.com.")))
row("forms", absolute(b"www", b"examples", b"com"))
row("pforms", b"\3com\0\7exampleS\xc0\0\3www\xc0\5".replace(b"\7exampleS", b"\10exampleS"), 16)


def lent_forms(octets):
    """What is made of a reference to a relative name, which lends no octets."""
    both = octets, octets.lower()
    held = [hx(it) if len(it) <= 17 else "buffer size exceeded" for it in both]
    composed = ["ok aa" + it.hex() if len(it) <= 16 else "err aa" for it in both]
    own("lentrelforms", octets, "made=%s canonical=%s cow=own held=%s lowered=%s composed=%s %s" % (*map(hx, both), *held, *composed))


for octets in [it[:-1] for it in FLAT] + PARTS + [b"\1*"]:
    lent_forms(octets)

topic("names one after another into one array, which refuses those that it has no room for")


def onto(size, message, calls):
    """Each call adds its octets where there is room for all of them; the next one goes on with what is there."""
    held, answers = b"", []
    for word, given in calls:
        octets = given if isinstance(given, bytes) else rel(*read_slowly(message, given)[0])
        octets = octets.lower() if word.startswith("lower") else octets
        fits = len(held + octets) <= size
        held += octets if fits else b""
        answers.append(("ok " if fits else "err ") + hx(held))
    own("onto", size, message, ";".join("%s:%s" % (word, hx(given) if isinstance(given, bytes) else given) for word, given in calls), ";".join(answers))


COM = absolute(b"com")
for word in ("at", "lowerat"):
    own("onto", 17, SCATTERED, "octets:aa;%s:15;%s:0" % (word, word), "ok aa;err aa;ok aa03636f6d00")
    for size in range(17):
        own("onto", size, SCATTERED, "%s:15" % word, "err -")
    own("onto", 17, SCATTERED, "%s:15" % word, "ok " + hx(WWW))
for size in range(18):
    for message in (SCATTERED, SCATTERED.replace(b"example", b"EXaMPLE").replace(b"com", b"Com")):
        for long, short, root in (
            (("at", 15), ("at", 0), ("at", 4)), (("lowerat", 15), ("lowerat", 0), ("lowerat", 4)),
            (("name", MIXED), ("name", COM), ("name", b"\0")), (("lower", MIXED), ("lower", b"\3COM\0"), ("lower", b"\0")),
            (("rel", MIXED[:-1]), ("rel", COM[:-1]), ("rel", b"")), (("lowerrel", MIXED[:-1]), ("lowerrel", b"\3cOM"), ("lowerrel", b"")),
        ):
            onto(size, message, [long, short, long, root])
            onto(size, message, [("octets", b"\xaa"), long, short, ("octets", b"\xbb\xcc"), short, root, root])
            onto(size, message, [("octets", b"\xaa" * (size - min(size, 5))), long, short, long, root])
for line in ("onto 18 00 at:0", "onto 5 00 at:1", "onto 5 00 at:x", "onto 5 00 at:", "onto 5 00 nothing:00", "onto 5 00 name:01", "onto 5 00 rel:00", "onto 5 00 -", "onto 5 00", "onto x 00 at:0",
             "onto 5 00 at:0;", "onto 5 0 at:0"):
    own(line, "bad")

topic("names in rooms of each size")
for message, place, name in ((SCATTERED, 15, WWW), (WWW, 0, WWW), (SCATTERED, 0, absolute(b"com")), (b"\0", 0, b"\0"), (MIXED, 0, MIXED)):
    for size in range(18):
        held = b"\xaa" * (17 - size)
        own("room", message, place, size, " / ".join(" ".join(
            "ok " + hx(held + octets) if len(octets) <= size else "err " + hx(held) for octets in (made, made.lower())) for made in (name, name, name[:-1])))
own("room", WWW, 0, 18, "bad")
own("room", WWW, 1, 17, "bad")
for message, place, name in ((SCATTERED, 15, WWW), (WWW, 0, WWW), (MIXED, 0, MIXED), (SCATTERED, 0, absolute(b"com")), (b"\0", 0, b"\0"), (LONG + b"\x03123\0", 0, LONG + b"\x03123\0"),
                             (absolute(b"wWw", b"Examples"), 0, absolute(b"wWw", b"Examples")), (absolute(b"www", b"examples", b"com"), 0, absolute(b"www", b"examples", b"com"))):
    for size in (0, 16, 17):
        own("sized", message, place, size, " ".join(hx(octets) if len(octets) <= size else "buffer size exceeded" for octets in (name, name.lower())))
own("sized", WWW, 0, 15, "bad")
topic("room that is asked for")
for size in (0, 1, 7, 8, 9, 17, 253, 254, 255, 256, 257, 16384, 65535, 65536, 1000000):
    own("capacity", size, "ok ok ok ok ok")
own("capacity", 2**64 - 1, "err ok err err ok")
own("capacity", 2**63, "err ok err err ok")
for field in (2**64, "x", "-1", ""):
    own("capacity", field, "bad")

topic("names shown, and their labels")
told("show", WWW, "text=%s dotted=%s rrsig=3 labels=4 canonical=%s first=777777 suffixes=%s,%s,%s,00" % (
    hx(b"www.example.com"), hx(b"www.example.com."), hx(WWW), hx(WWW), hx(WWW[4:]), hx(WWW[12:])))
told("show", b"\0", "text=2e dotted=2e rrsig=0 labels=1 canonical=00 first=- suffixes=00")
told("relshow", RELATIVE, "text=%s ndots=2 labels=3 canonical=%s first=777777 last=636f6d" % (hx(b"www.example.com"), hx(RELATIVE)))
told("relshow", b"", "text=- ndots=0 labels=0 canonical=- first=none last=none")
for octets in (b"\0", absolute(b"com"), absolute(b"example", b"com"), absolute(b"www"), absolute(b"*"), absolute(b"*", b"a"), absolute(b"**", b"a"),
               absolute(b"a", b"*"), absolute(b"*", b"*", b"*")):
    row("show", octets)
    row("relshow", octets[:-1])
    row("walk", octets, 0)
    row("flatwalk", octets)
    row("relwalk", octets[:-1])
for low in range(0, 256, 16):
    label = bytes(range(low, low + 16))
    row("show", absolute(label, b"A.b", label[::-1]))
    row("relshow", rel(label, b"A.b", label[::-1]))
    row("walk", b"\0" + rel(label) + b"\xc0\0", 1)
told("rooted", RELATIVE, "ok %s 17 -,636f6d,6578616d706c65,777777 %s" % (hx(WWW), hx(b"www.example.com.")))
told("rooted", b"", "ok 00 1 - 2e")

topic("parts of names")
for place in range(20):
    row("split", WWW, place)
    row("relsplit", RELATIVE, place)
told("split", WWW, 4, "yes 03777777 " + hx(WWW[4:]))
told("split", WWW, 16, "yes %s 00" % hx(RELATIVE))
told("split", WWW, 5, "no")
told("split", WWW, 17, "no")
told("relsplit", RELATIVE, 16, "yes %s -" % hx(RELATIVE))
told("relsplit", RELATIVE, 4, "yes 03777777 " + hx(RELATIVE[4:]))
told("relsplit", RELATIVE, 17, "no")
own("parents", RELATIVE, "076578616d706c6503636f6d,03636f6d,-,none")
for labels in ((), (b"com",), (b"example", b"com"), (b"www", b"example", b"com"), (b"a", b"B", b"\0", b"\xff" * 63), (b"a", b"b", b"c", b"d", b"e"), (b"1",) * 127):
    rests = [hx(rel(*labels[at:])) for at in range(1, len(labels) + 1)] + ["none"]
    own("parents", rel(*labels), ",".join(rests[:4]))
own("parents", b"\0", "bad")
own("parents", b"\3ab", "bad")
for begin in (0, 1, 4, 5, 11, 12, 16, 17):
    for end in (0, 3, 4, 12, 13, 16, 17, 18):
        row("part", WWW, begin, end)
        row("relpart", RELATIVE, begin, end)
for octets in (b"\0", LONG + b"\x03123\0", b"\1a" * 127 + b"\0", absolute(b"\0\1\2", b"\1a")):
    for place in (0, 1, 2, 3, 10, 128, 250, 253, 254, 255, 999999999999999):
        row("split", octets, place)
        row("relsplit", octets[:-1], place)
        row("part", octets, 0, place)
        row("relpart", octets[:-1], place, 254)
BASES = [WWW, absolute(b"example", b"com"), absolute(b"EXAMPLE", b"com"), absolute(b"com"), b"\0", absolute(b"www", b"example", b"net"), absolute(b"example", b"net"),
         absolute(b"net"), absolute(b"ample", b"com"), absolute(b"a", b"www", b"example", b"com"), MIXED, absolute(b"www"), absolute(b"le\3com")]
for name in (WWW, MIXED, b"\0", absolute(b"com")):
    for base in BASES:
        row("strip", name, base)
        row("relstrip", name[:-1], base[:-1])
        row("chainstrip", b"", base, name)
        if len(base) > 1:
            row("chainstrip", base[:base[0] + 1], base[base[0] + 1:], name)
            row("chainstrip", base[:-1], b"\0", name)
told("strip", WWW, absolute(b"EXAMPLE", b"com"), "ok 03777777")
told("strip", WWW, absolute(b"net"), "err " + hx(WWW))
told("relstrip", RELATIVE, rel(b"net"), "err %s suffix not found" % hx(RELATIVE))
told("chainstrip", rel(b"example"), absolute(b"com"), WWW, "ok 03777777")

topic("names compared")
SET = RISING + [b"\0", WWW, MIXED, OTHER, absolute(b"b"), absolute(b"aa"), absolute(b"B"), absolute(b"a"), absolute(b"A", b"b"), absolute(b"@"), absolute(b"["),
                absolute(b"`"), absolute(b"{"), absolute(b"\xc1"), absolute(b"\xe1"), absolute(b"a\0"), absolute(b"a", b"\0"), absolute(b"com"),
                absolute(b"example", b"com"), LONG + b"\x03123\0", LONG + b"\x03124\0"]
for one in SET:
    for other in SET:
        row("cmp", one, other)
        if len(one) + len(other) < 120:
            row("relcmp", one[:-1], other[:-1])
told("cmp", absolute(b"b"), absolute(b"aa"), "eq=0 cmp=> composed=< lower=< starts=0 ends=0 hash=016200 02616100")
told("cmp", absolute(b"B"), absolute(b"a"), "eq=0 cmp=> composed=< lower=> starts=0 ends=0 hash=016200 016100")
told("cmp", absolute(b"\1a"), absolute(b"a"), "eq=0 cmp=< composed=> lower=> starts=0 ends=0 hash=02016100 016100")
for one in PARTS:
    for other in PARTS:
        row("relcmp", one, other)
        row("chainrel", one, b"", other)
        row("chainrel", b"", one, other)
        row("chainends", one, b"", other + b"\0")
for start in PARTS:
    for name in (WWW, b"\0", MIXED, OTHER):
        row("ends", name, start)
        row("chaincmp", start, b"\0", name)
        row("chaincmp", start, absolute(b"com"), name)
        row("chainends", start, rel(b"com"), name)
    for message, place in PLACED + [(b"123\0", 3)]:
        row("prel", message, place, start)
        row("pchain", message, place, start, b"\0")
        row("pchain", message, place, start, absolute(b"COM"))
for left, right in ((rel(b"www"), rel(b"example", b"com")), (rel(b"wWw"), rel(b"eXAMple", b"coM")), (rel(b"www"), rel(b"3xample", b"com")),
                    (rel(b"www", b"example"), rel(b"com")), (RELATIVE, b""), (b"", RELATIVE), (rel(b"www"), rel(b"example"))):
    for name in (WWW, MIXED, OTHER, b"\0"):
        row("chaincmp", left, right + b"\0", name)
        row("chainrel", left, right, name[:-1])
        row("chainends", left, right, name)
    for message, place in PLACED:
        row("pchain", message, place, left, right + b"\0")
for message, place in PLACED + [(b"123\0", 3), (SCATTERED, 5), (SCATTERED, 0), (INSIDE, 0), (INSIDE, 4)]:
    for name in (WWW, MIXED, OTHER, b"\0", WWW[4:], WWW[12:], absolute(b"zz", b"Example", b"com"), absolute(b"\1a\0", b"a")):
        row("pname", message, place, name)
for left in (SCATTERED, 0), (SCATTERED, 5), (SCATTERED, 15), (ONCE, 0), (ONCE, 5), (ONCE, 9), (ONCE, 17):
    for right in (0, 5, 15) if left[0] is SCATTERED else (0, 5, 9, 17):
        row("pcmp", left[0], left[1], right)
for one in SET[:26]:
    for other in rnd.sample(SET[:26], 6):
        row("pname", b"\3com\0" + one + pointer(4), 4 + len(one), other)

for name, start, answer in ((WWW, rel(b"www"), "1000"), (WWW, rel(b"com"), "0000"), (WWW, b"", "1100"), (WWW, rel(b"example", b"com"), "0000")):
    told("ends", name, start, answer)
for one, other in ((WWW, MIXED), (WWW, WWW)):
    told("cmp", one, other, "eq=1 cmp== composed=%s lower== starts=1 ends=1 hash=%s %s" % ("=" if one == other else ">", hx(WWW), hx(WWW)))
for place, other in enumerate(RISING):
    for at, one in enumerate(RISING):
        cmp = "<" if at < place else "=" if at == place else ">"
        promised.append(("cmp %s %s" % (hx(one), hx(other)), " cmp=%s " % cmp))
        promised.append(("relcmp %s %s" % (hx(one[:-1]), hx(other[:-1])), " cmp=%s " % cmp))
BESIDE = b"".join(RISING)
for at, one in enumerate(RISING):
    for place, other in enumerate(RISING):
        cmp = "<" if at < place else "=" if at == place else ">"
        row("pcmp", BESIDE, len(b"".join(RISING[:at])), len(b"".join(RISING[:place])))
        promised.append((rows[-1][0], " cmp=%s " % cmp))
    promised.append(("cmp %s %s" % (hx(one), hx(RISING[5])), " ends=%d " % (at >= 5)))
told("walk", b"123\0", 3, "- - - f00 none f00 1 0 - 2e 00")
told("pname", SCATTERED, 15, absolute(b"wWw", b"EXAMPLE", b"com"), " / ".join(
    "eq=1 cmp== composed=%s lower== starts=1 ends=1 hash=%s %s" % (sign, hx(WWW), hx(WWW)) for sign in "><"))
UPPER = absolute(b"wWw", b"EXAMPLE", b"com")
told("chaincmp", rel(b"www"), absolute(b"example", b"com"), UPPER, " / ".join("eq=1 cmp== composed=%s lower== starts=1 ends=1" % sign for sign in "><"))
told("cmp", WWW, UPPER, "eq=1 cmp== composed=> lower== starts=1 ends=1 hash=%s %s" % (hx(WWW), hx(WWW)))
told("cmp", UPPER, OTHER, "eq=0 cmp=> composed=< lower=> starts=0 ends=0 hash=%s %s" % (hx(WWW), hx(absolute(b"ww4", b"example", b"com"))))


topic("names in canonical order")
# Each comes before the next one (RFC 4034, 6.1).
IN_ORDER = [
    b"\0", absolute(b"\0"), absolute(b"\xff" * 63, b"\0"), absolute(b"\0\0"), absolute(b"1"), absolute(b"@"), absolute(b"["), absolute(b"`"),
    absolute(b"A"), absolute(b"\0", b"a"), absolute(b"\0\0", b"A"), absolute(b"a", b"a"), absolute(b"A", b"A", b"a"), absolute(b"\xff", b"A"), absolute(b"a\0"), absolute(b"A@"),
    absolute(b"aA"), absolute(b"A" * 62), absolute(b"a" * 63), absolute(b"A" * 62 + b"b"), absolute(b"\xff", b"a" * 62 + b"B"), absolute(b"aB"),
    absolute(b"a\xff"), absolute(b"b"), absolute(b"a", b"b"), absolute(b"Z"), absolute(b"{"), absolute(b"\x7f"), absolute(b"\x80"), absolute(b"\xc1"), absolute(b"\xe1"),
    absolute(b"\xff"), absolute(b"\0", b"\xff"), absolute(b"\xff", b"\xff"), absolute(b"\xff\0"), absolute(b"\xff" * 63),
]
for lower, upper in list(zip(IN_ORDER, IN_ORDER[1:])) + [(IN_ORDER[0], IN_ORDER[-1]), (b"\1a" * 126 + b"\0", b"\1A" * 127 + b"\0"), (b"\1A" * 127 + b"\0", b"\1B" + b"\1a" * 126 + b"\0"),
                         (b"\1z" + b"\1a" * 126 + b"\0", b"\1a" * 126 + b"\1b\0"), (LONG + b"\x03123\0", LONG + b"\x03124\0"), (absolute(b"b", b"a"), absolute(b"a", b"b"))]:
    told("canonical", lower, upper, "<")
    told("canonical", upper, lower, ">")
for one, other in ((b"\0", b"\0"), (WWW, WWW), (WWW, MIXED), (absolute(b"A" * 63), absolute(b"a" * 63)), (b"\1a" * 127 + b"\0", b"\1A" * 127 + b"\0"),
                   (absolute(b"@AMZ[", b"`amz{\xff\0"), absolute(b"@amz[", b"`AMZ{\xff\0"))):
    told("canonical", one, other, "=")
told("canonical", b"\3www", WWW, "bad")
told("canonical", WWW, b"\3www", "bad")
for at, one in enumerate(RISING):
    for place, other in enumerate(RISING):
        cmp = "<" if at < place else "=" if at == place else ">"
        told("canonical", one, other, cmp)
        told("pcanonical", BESIDE, len(b"".join(RISING[:at])), len(b"".join(RISING[:place])), cmp)
for message, one, other, answer in (
    (SCATTERED, 15, 15, "="), (SCATTERED, 15, 5, ">"), (SCATTERED, 5, 15, "<"), (SCATTERED, 0, 5, "<"), (SCATTERED, 4, 0, "<"), (FLAT_POINTER, 0, 17, "="), (FLAT_POINTER, 4, 17, "<"),
    (b"\1a\0\1B\xc0\0\1A\1b\xc0\0", 3, 7, "<"), (b"\1a\0\1B\xc0\0\1A\1b\xc0\0", 9, 3, "="), (b"\1b\0\2aa\0\1a\xc0\0", 0, 3, ">"), (b"\1b\0\2aa\0\1a\xc0\0", 7, 3, ">"),
    (MOST, 509, 511, ">"), (MOST, 511, 509, "<"), (MOST, 509, 0, ">"), (MOST, 507, 0, "="), (WORST, WORST_PLACE, WORST_PLACE - 4, "="), (WORST, WORST_PLACE, 3, ">"), (INSIDE, 0, 4, ">"),
    (SCATTERED, 15, 16, "bad"), (SCATTERED, 21, 0, "bad"),
):
    told("pcanonical", message, one, other, answer)

topic("chains")
told("chain", LONG, b"\x03123", "ok %s 254 %s" % (hx(LONG + b"\x03123"), ",".join(["313233"] + [hx(b"123456789")] * 25)))
told("chain", LONG, b"\0041234", "err long domain name")
told("rooted", LONG + b"\x03123", "ok %s 255 %s %s" % (hx(LONG + b"\x03123\0"), ",".join(["-", "313233"] + [hx(b"123456789")] * 25), hx(b"123456789." * 25 + b"123.")))
told("chain", rel(b"www"), absolute(b"com"), "ok 0377777703636f6d00 9 -,636f6d,777777")


def rooted_chain(left, right):
    """The labels of both and the root, where these are at most 255 octets."""
    wire, text = absolute(*left, *right), b".".join([*left, *right, b""]) or b"."
    labels = ",".join(hx(label) for label in [b"", *right[::-1], *left[::-1]])
    own("rootedchain", rel(*left), rel(*right), "ok %s %d %s %s" % (hx(wire), len(wire), labels, hx(text)) if len(wire) < 256 else "err long domain name")


own("rootedchain", LONG, b"\x03123", "ok %s 255 %s %s" % (hx(LONG + b"\x03123\0"), ",".join(["-", "313233"] + [hx(b"123456789")] * 25), hx(b"123456789." * 25 + b"123.")))
own("rootedchain", LONG, b"\x041234", "err long domain name")
own("rootedchain", b"", b"", "ok 00 1 - 2e")
for left in ((), (b"www",), (b"www", b"Example"), (b"123456789",) * 25, (b"1",) * 126, (b"1",) * 127):
    for right in ((), (b"com",), (b"Example", b"com"), (b"12",), (b"123",), (b"1234",), (b"1", b"2"), (b"a" * 63,), (b"x" * 63, b"y" * 63, b"z" * 63, b"z" * 60), (b"x" * 63, b"y" * 63, b"z" * 63, b"z" * 61)):
        rooted_chain(left, right)
own("rootedchain", b"\0", b"", "bad")
own("rootedchain", b"", b"\0", "bad")
for total in (252, 253, 254, 255, 256, 257):
    for left in (2, 128, 250):
        right = total - left
        if right >= 2:
            row("chain", of_len(left), of_len(right))
            row("chainforms", of_len(left), of_len(right))
        if right >= 3:
            row("chain", of_len(left), of_len(right - 1) + b"\0")
            row("chainforms", of_len(left), of_len(right - 1) + b"\0")
    if total <= 255:
        row("chain", of_len(min(total, 254)), b"")
        row("chain", b"", of_len(min(total, 254)))
        row("rooted", of_len(min(total, 254)))
        row("chain", of_len(min(total, 254)), b"\0")
for left in PARTS:
    for right in PARTS:
        row("chainwalk", left, right)
        row("chain", left, right)
        row("chain", left, right + b"\0")
row("chainwalk", b"", b"")
row("chainwalk", b"\1a" * 60, b"\1b" * 67)

topic("names in messages")
told("parse", SCATTERED, 15, "ok %s c 21" % hx(WWW))
told("parse", FLAT_POINTER, 17, "ok %s f 19" % hx(WWW))
told("parse", b"\xc0\00012", 0, "err 0 too many compression pointers")
told("skip", b"\xc0\00012", 0, "ok 2")
told("parse", b"\1a\xc0\0", 0, "err 0 long domain name")
told("parse", pointers(256), 509, "ok 00 f 511")
told("parse", pointers(256), 511, "err 511 too many compression pointers")
told("parse", MOST, 509, "ok %s c 765" % hx(b"\1a" * 127 + b"\0"))
told("parse", b"\3com\0\xc0\0", 5, "ok 03636f6d00 f 7")
told("parse", b"\x3fab\xc0\0" + b"x" * 95, 3, 5, "err 3 unexpected end of input")
told("parse", b"\1a" * 127 + b"\5a", 0, "err 0 unexpected end of input")
told("parse", b"\1a" * 127 + b"\1a\0", 0, "err 0 long domain name")
told("parse", b"\1a" * 126 + b"\2aa\xc0\0", 0, "err 0 long domain name")
told("skip", b"\1a" * 126 + b"\2aa\xc0\0", 0, "ok 257")
told("skip", b"\1a" * 126 + b"\2aa\0", 0, "err 0 long domain name")
told("parse", INSIDE, 4, "ok 016100 f 6")
told("parse", INSIDE, 0, "ok 03016100016100 c 6")
told("parse", b"\xc0\2\xc0\00012", 2, "err 2 too many compression pointers")
told("skip", b"\xc0\2\xc0\00012", 2, "ok 4")
told("parse", b"123\0", 3, "ok 00 f 4")
told("skip", b"123\0", 3, "ok 4")
told("parse", ONCE, 5, "ok %s c 19" % hx(WWW))
told("skip", ONCE, 5, "ok 19")
for octets, answer in ((b"\3www\7exam", "err 0 unexpected end of input"), (b"\3www\7example", "err 0 unexpected end of input"),
                       (b"\3www\7example\xbffoo", "err 0 invalid label type")):
    told("parse", octets, 0, answer)
    told("skip", octets, 0, answer)
for octets, place, answer in ((b"\3www\xc0\xee12", 0, "too many compression pointers"), (b"\3www\xc0\00412", 4, "too many compression pointers"),
                              (b"\3www\xc0\00612", 4, "too many compression pointers"), (b"\3www\xc0\00012", 0, "long domain name")):
    told("parse", octets, place, "err %d %s" % (place, answer))
    told("skip", octets, place, "ok 6")
told("parse", b"\x03123\0" + LONG + b"\xc0\00012", 5, "ok %s c 257" % hx(LONG + b"\x03123\0"))
told("skip", b"\x03123\0" + LONG + b"\xc0\00012", 5, "ok 257")
told("parse", b"\0041234\0" + LONG + b"\xc0\00012", 6, "err 6 long domain name")
told("skip", b"\0041234\0" + LONG + b"\xc0\00012", 6, "ok 258")
for end in range(15, 21):
    told("parse", SCATTERED, 15, end, "err 15 unexpected end of input")
    told("skip", SCATTERED, 15, end, "err 15 unexpected end of input")
told("parse", SCATTERED + b"\xff" * 100, 15, 21, "ok %s c 21" % hx(WWW))
own("walk", SCATTERED + b"\xff" * 100, 15, 21, walked(SCATTERED, 15))
own("walk", SCATTERED, 15, 20, "err")
own("walk", SCATTERED, 15, 22, "bad")
told("parse", b"\1a\1b\xc0\0", 0, "err 0 long domain name")
told("parse", b"\4\1a\xc0\1\xc0\1", 0, "err 0 long domain name")
told("parse", FAR, 16386, "ok 0179017a00 c 16390")
told("parse", FAR, 16388, "ok 017a00 f 16390")
told("parse", FAR, 0, "err 0 invalid label type")
row("parse", b"\3www\0" + b"\x55" * 600 + b"\1a\xc0\0", 605)
row("pforms", b"\3www\0" + b"\x55" * 600 + b"\1a\xc0\0", 605)
row("walk", b"\3www\0" + b"\x55" * 600 + b"\1a\xc0\0", 605)
for message, place in PLACED:
    row("walk", message, place)
    row("walk", message.replace(b"example", b"Example"), place)
    for labels in range(6):
        row("rest", message, place, labels)
row("walk", b"123\0", 3)
told("walk", SCATTERED, 15, walked(SCATTERED, 15))
told("rest", SCATTERED, 15, 1, "6578616d706c65,636f6d,- -,636f6d,6578616d706c65 6578616d706c65,-,636f6d c076578616d706c6503636f6d00")
told("rest", MOST, 509, 126, "61,- -,61 61,- c016100")
row("rest", MOST, 509, 0)
row("rest", MOST, 509, 100)
row("pforms", MOST, 509)
row("walk", MOST, 509)
row("walk", b"\x03123\0" + LONG + b"\xc0\0" + b"12", 5)
row("walk", b"\x041234\0" + LONG + b"\xc0\0" + b"12", 6)
row("walk", rel(*[b"\x80" * 63] * 3, b"\xff" * 61) + b"\0", 0)
row("walk", absolute(octet_label), 0)
for place in (0, 4, 12, 16):
    row("walk", WWW, place)
for message in (SCATTERED, FLAT_POINTER, ONCE, INSIDE, b"\1a\xc0\0", b"\1a\1b\xc0\0", b"\4\1a\xc0\1\xc0\1", b"\xc0\2\xc0\00012", b"\3www\xc0\xee12", b"\3www\xc0\00412"):
    for place in range(len(message) + 1):
        message_rows(message, place)
        for end in range(place, len(message) + 1):
            row("parse", message, place, end)
            row("skip", message, place, end)
            row("nparse", message, place, end)
WIRE_OF_WORST = rel(*read_slowly(WORST, WORST_PLACE)[0])
told("parse", WORST, WORST_PLACE, "ok %s c %d" % (hx(WIRE_OF_WORST), len(WORST)))
told("skip", WORST, WORST_PLACE, "ok %d" % len(WORST))
row("walk", WORST, WORST_PLACE)
told("pforms", WORST, WORST_PLACE, "made=%s canonical=%s cow=own held=%s lowered=%s composed=err aa err aa dotted=%s rrsig=127" % (
    hx(WIRE_OF_WORST), hx(WIRE_OF_WORST.lower()), *["buffer size exceeded"] * 2, hx(WIRE_OF_WORST[1::2].replace(b"", b".")[1:])))
row("pcmp", WORST, WORST_PLACE, WORST_PLACE - 4)
topic("what is left of names without their first labels, from both ends")
LEFT = PLACED + [(INSIDE, 0), (INSIDE, 4), (b"123\0", 3), (b"\1a" * 127 + b"\0", 0), (MOST, 509), (WORST, WORST_PLACE), (FAR, 16386), (rel(b"\0", b"\xff", b"\0\0") + b"\0" + b"\2Ab" + pointer(2), 8)]
for message, place in LEFT:
    labels = read_slowly(message, place)[0]
    told("parentswalk", message, place, " / ".join(in_orders(labels[at:]) for at in range(len(labels))))
told("parentswalk", SCATTERED, 21, "bad")
told("mixture", WWW, 0, 0, "fbbffb", "777777,-,636f6d,6578616d706c65,none,none")
told("mixture", SCATTERED, 15, 0, "bbbbf", "-,636f6d,6578616d706c65,777777,none")
told("mixture", SCATTERED, 15, 0, "fbbff", "777777,-,636f6d,6578616d706c65,none")
told("mixture", SCATTERED + b"\xff" * 100, 15, 0, "bbbbb", "-,636f6d,6578616d706c65,777777,none")
told("mixture", SCATTERED, 15, 1, "bfbfb", "-,6578616d706c65,636f6d,none,none")
told("mixture", SCATTERED, 15, 1, "bfff", "-,6578616d706c65,636f6d,none")
told("mixture", SCATTERED, 15, 9, "fb", "-,none")
told("mixture", MOST, 509, 126, "bff", "-,61,none")
told("mixture", MOST, 509, 0, "b" * 129, "-," + "61," * 127 + "none")
told("mixture", SCATTERED, 15, 0, "x", "bad")
told("mixture", SCATTERED, 21, 0, "f", "bad")
mixtures = random.Random(4034)
for message, place in LEFT[:-2] + [LEFT[-1]]:
    labels = read_slowly(message, place)[0]
    for dropped in sorted({0, 1, 2, len(labels) // 2, len(labels) - 2, len(labels) - 1}):
        if 0 <= dropped < len(labels):
            for calls in ["".join(mixtures.choice("fb") for _call in range(len(labels) - dropped + 3)) for _time in range(4)]:
                told("mixture", message, place, dropped, calls, from_ends(labels[dropped:], calls))

topic("what is left of names by either call that leaves out a label, from both ends")


def after(message, place, steps, calls):
    """Each step leaves out the first label, but never the root."""
    labels = read_slowly(message, place)[0]
    own("after", message, place, steps or "-", calls, from_ends(labels[min(len(steps), len(labels) - 1):], calls))


own("after", SCATTERED, 15, "s", "bfff", "-,6578616d706c65,636f6d,none")
own("after", MOST, 509, "s" * 126, "bff", "-,61,none")
own("after", SCATTERED, 15, "x", "f", "bad")
own("after", SCATTERED, 15, "s", "x", "bad")
own("after", SCATTERED, 21, "s", "f", "bad")
for message, place in PLACED:
    for steps in ("", "s", "p", "ss", "sp", "ps", "pp", "sss", "sps", "psp", "ssss", "spspsp"):
        left = max(4 - len(steps), 1)
        for number in range(2 ** (left + 1)):
            after(message, place, steps, "".join("fb"[number >> at & 1] for at in range(left + 1)))
for message, place in LEFT[:-2] + [LEFT[-1]]:
    count = len(read_slowly(message, place)[0])
    for dropped in sorted({1, 2, 3, count // 2, count - 2, count - 1, count, count + 2}):
        if 0 < dropped:
            for _time in range(3):
                steps = "".join(mixtures.choice("sssp") for _step in range(dropped))
                after(message, place, steps, "".join(mixtures.choice("fb") for _call in range(max(count - dropped, 1) + 2)))

topic("names parsed without pointers")
told("nparse", b"\3com\0\3www\7example\3com\0af", 0, "ok 03636f6d00 5")
told("nparse", b"\3com\0\3www\7example\3com\0af", 5, "ok %s 22" % hx(WWW))
told("nparse", b"\3com\0\7example\0rest", 5, "ok 076578616d706c6500 14")
told("nparse", b"\0041234" * 50 + b"\x03123\0", 0, "ok %s 255" % hx(b"\0041234" * 50 + b"\x03123\0"))
told("nparse", b"\0041234" * 50 + b"\0041234\0", 0, "err 0 long domain name")
told("nparse", LONG + b"\0041234\0", 0, "err 0 long domain name")
told("nparse", LONG + b"\0041234\x80", 0, "err 0 invalid label type")
for octets, place, answer in (
    (b"", 0, "unexpected end of input"), (b"\3www", 0, "unexpected end of input"), (b"\3ww", 0, "unexpected end of input"),
    (b"\3www\7exam", 0, "unexpected end of input"), (b"\3www\xc0\0", 0, "compressed domain name"),
    (b"\3com\3www\7example\xc0\0", 4, "compressed domain name"), (b"\x40a\0", 0, "invalid label type"), (b"\3www\7example\xbffoo", 0, "invalid label type"),
):
    told("nparse", octets, place, "err %d %s" % (place, answer))
for count in (127, 128, 129):
    for tail in (b"", b"\0", b"\x80", b"\xc0\0", b"\xc0"):
        row("nparse", b"\1a" * count + tail, 0)
topic("pointers at the limits")
for count in (253, 254, 255, 256):
    message = pointers(count)
    for place in (2 * count - 5, 2 * count - 3, 2 * count - 1):
        row("parse", message, place)
        row("skip", message, place)
    row("parse", message + b"\1a" + pointer(2 * count - 1), 2 * count + 1)
    row("parse", message + b"\1a" + pointer(2 * count - 3), 2 * count + 1)
for count in (124, 125, 126, 127, 128):
    for tail in (b"\0", b"\xc0\0", b"\1", b"\2bb\0", b"\x80"):
        row("parse", b"\0" + b"\1a" * count + tail, 1)
        row("skip", b"\0" + b"\1a" * count + tail, 1)
for target in (0, 1, 254, 255, 256, 257, 258, 259, 511, 512, 513, 600, 0x3FFF):
    message = b"\0" + b"\1a\0" * 199 + b"\1b" + pointer(target) + b"\0"
    row("parse", message, 598)
    row("skip", message, 598)
topic("hostile pointers")
for message in (b"\xc0\0", b"\xc0\1", b"\xc0", b"\xff", b"\xff\xff", b"\0\xc0\0", b"\0\xc0\1", b"\xc0\2\0", b"\xc0\2\xc0\0", b"\1a\xc0\2", b"\1a\xc0\1", b"\x01\xc0\xc0\1",
                b"\2\xc0\0\xc0\1", b"\xc0\0\xc0\0\xc0\2\xc0\4", b"\1\0\xc0\1", b"\3\xc0\0\0\xc0\1"):
    for place in range(len(message) + 1):
        message_rows(message, place)
ALPHABET = (0, 0, 1, 1, 2, 3, 97, 0xC0, 0xC0, 0xC0, 0x41, 0x80, 0xFF)
for _time in range(420):
    size = rnd.randrange(2, 14)
    message = bytearray(rnd.choice(ALPHABET) for _octet in range(size))
    for at in range(1, size):
        if message[at - 1] == 0xC0 and rnd.random() < 0.8:
            message[at] = rnd.randrange(size)
    place = rnd.randrange(size)
    row("parse", message, place)
    row("skip", message, place)
    row("walk", message, place)
    row("slice", message, place)
for _time in range(160):
    labels = [bytes(rnd.choice(b"abcXYZ.\\ \x00\xff*") for _octet in range(rnd.randrange(1, 5))) for _label in range(6)]
    message = bytearray(b"\0")
    places = [0]
    for label in labels:
        target = rnd.choice(places)
        places.append(len(message))
        message += rel(label) + pointer(target)
    place = rnd.choice(places[1:])
    other = rnd.choice(places)
    row("parse", message, place)
    row("walk", message, place)
    row("pcmp", message, place, other)
    row("rest", message, place, rnd.randrange(5))
    row("pforms", message, place)

topic("a limit on pointers")
for message, place, limit, answer in (
    (SCATTERED, 15, 0, "err 15 too many compression pointers"), (SCATTERED, 15, 1, "err 15 too many compression pointers"),
    (SCATTERED, 15, 2, "ok " + hx(WWW) + " c 21"), (SCATTERED, 15, 3, "ok " + hx(WWW) + " c 21"), (SCATTERED, 15, 255, "ok " + hx(WWW) + " c 21"),
    (FLAT_POINTER, 0, 0, "ok " + hx(WWW) + " f 17"), (FLAT_POINTER, 17, 0, "err 17 too many compression pointers"),
    (FLAT_POINTER, 17, 1, "ok " + hx(WWW) + " f 19"),
    (b"\1a\xc0\0", 0, 3, "err 0 too many compression pointers"), (b"\1a\xc0\0", 0, 126, "err 0 too many compression pointers"),
    (b"\1a\xc0\0", 0, 127, "err 0 long domain name"), (b"\1a\xc0\0", 0, 255, "err 0 long domain name"),
    (b"\xc0", 0, 0, "err 0 unexpected end of input"), (b"\xc0\0", 0, 0, "err 0 too many compression pointers"), (b"\0", 0, 0, "ok 00 f 1"),
    (pointers(256), 509, 255, "ok 00 f 511"), (pointers(256), 509, 254, "err 509 too many compression pointers"),
    (pointers(256), 511, 255, "err 511 too many compression pointers"), (pointers(256), 1, 1, "ok 00 f 3"),
    (pointers(256), 1, 0, "err 1 too many compression pointers"),
    (MOST, 509, 255, "ok " + hx(b"\1a" * 127 + b"\0") + " c 765"), (MOST, 509, 254, "err 509 too many compression pointers"),
    (b"\0", 0, 256, "bad"), (b"\0", 2, 1, "bad"),
):
    own("parselimit", message, place, limit, answer)
# The nth pointer of a row of them needs a limit of n, and the name of 127 labels all that there are.
for count in (1, 2, 3, 63, 64, 127, 128, 129, 253, 254, 255):
    place = 2 * count - 1
    own("parselimit", pointers(256), place, count, "ok 00 f %d" % (place + 2))
    own("parselimit", pointers(256), place, count - 1, "err %d too many compression pointers" % place)
own("parselimit", WORST, WORST_PLACE, 255, "ok %s c %d" % (hx(WIRE_OF_WORST), len(WORST)))
own("parselimit", WORST, WORST_PLACE, 254, "err %d too many compression pointers" % WORST_PLACE)
own("parselimit", WORST, WORST_PLACE - 4, 253, "err %d too many compression pointers" % (WORST_PLACE - 4))
own("parselimit", WORST, WORST_PLACE - 4, 254, "ok %s c %d" % (hx(WIRE_OF_WORST), WORST_PLACE))
for message in (SCATTERED, ONCE, INSIDE, b"\4\1a\xc0\1\xc0\1", b"\1a\xc0\0", b"\1a\1b\xc0\0", b"\xc0\2\xc0\00012", b"\0\xc0\0\xc0\1\1a\xc0\3\xc0\5\xc0", b"\1a\xc0\2\x80\xc0\1"):
    for place in range(len(message)):
        for limit in (0, 1, 2, 62, 63, 124, 125, 126, 127, 255):
            read = read_slowly(message, place, limit)
            answer = "err %d %s" % (place, read) if isinstance(read, str) else "ok %s %s %d" % (hx(rel(*read[0])), *read[1:])
            if limit < 3 or isinstance(read, str) and read != read_slowly(message, place, limit - 1):
                own("parselimit", message, place, limit, answer)

topic("names one after another on one target that writes them shorter; the answers are by the definition, from a slow model of it")
with open(os.path.join(os.path.dirname(os.path.abspath(__file__)), "compress.rows")) as file:
    for line in file:
        line, answer = line.rstrip("\n").split("\t")
        rows.append((line, answer, True))


def spelled(text):
    return text.encode() if isinstance(text, str) else text


def text_rows(text):
    for word in ("text", "reltext", "labeltext"):
        row(word, spelled(text))


topic("names and labels from text")
LABEL = "123456789."
for text, answer in (
    ("", "err BadLabel(SymbolChars(ShortInput))"), (".", "ok 00"), (".a", "err EmptyLabel"), ("a..b", "err EmptyLabel"), ("a.b", "ok 0161016200"),
    ("a.b.", "ok 0161016200"), ("\\[a", "err BadLabel(BinaryLabel)"), ("[a", "ok 025b6100"), ("\\065", "ok 014100"),
    ("\\256", "err BadLabel(SymbolChars(BadEscape))"), ("\\256a", "err BadLabel(SymbolChars(BadEscape))"), ("a\\", "err BadLabel(SymbolChars(ShortInput))"), ("a\\.b", "ok 03612e6200"), ("\u00e9", "err BadLabel(BadSymbol)"),
    (".\\256", "err EmptyLabel"), ("..", "err EmptyLabel"), ("www.example.com", "ok " + hx(WWW)), ("www.example.com.", "ok " + hx(WWW)), ("a\\065.b", "ok 026141016200"),
    ("\\091a", "ok 025b6100"), ("a.\\[", "err BadLabel(BinaryLabel)"), ("a\\[", "ok 02615b00"), ("\\", "err BadLabel(SymbolChars(ShortInput))"), ("a\u00e9", "err BadLabel(BadSymbol)"),
    (LABEL * 25 + "123", "ok " + hx(LONG + b"\x03123\0")), (LABEL * 25 + "123.", "ok " + hx(LONG + b"\x03123\0")), (LABEL * 25 + "1234", "err LongName"),
):
    told("text", spelled(text), answer)
for text, answer in (
    ("", "ok -"), ("www.example", "ok " + hx(rel(b"www", b"example"))), ("www.example.com.", "err AbsoluteName"), (".", "err EmptyLabel"), ("a..b", "err EmptyLabel"),
    ("wWw.exAmpLE.coM", "ok " + hx(rel(b"wWw", b"exAmpLE", b"coM"))), (LABEL * 25 + "123", "ok " + hx(LONG + b"\x03123")), (LABEL * 25 + "1234", "err LongName"),
    (LABEL * 25 + "123.", "err AbsoluteName"),
):
    told("reltext", spelled(text), answer)
for text, answer in (
    ("", "ok 00 -"), ("a.b", "err BadSymbol"), ("a" * 63 + "\u00e9", "err LongLabel"), ("a" * 63, "ok 3f" + "61" * 63 + " " + "61" * 63), ("\\[", "err BinaryLabel"),
    ("a\\[", "ok 02615b " + hx(b"a[")), ("\\\u00e9", "err SymbolChars(BadEscape)"), ("\\25", "err SymbolChars(ShortInput)"), ("a\\\x07", "ok 026107 " + hx(b"a\\007")),
    ("\\\x7f", "ok 017f " + hx(b"\\127")), ("a" * 63 + "\\256", "err LongLabel"),
):
    told("labeltext", spelled(text), answer)
for text in (b"\xff", b"a\xc3", b"\xed\xa0\x80"):
    for word in ("text", "reltext", "labeltext"):
        told(word, text, "bad")
for code in list(range(128)) + [0x80, 0xE9, 0xFF, 0x100, 0x130, 0x661, 0x2E2E, 0x3002, 0xFF0E, 0xFFFD, 0x1F600, 0x10FFFF]:
    text_rows(chr(code))
    text_rows("\\" + chr(code))
    text_rows("a" + chr(code) + "b")
    if code >= 0x20 and (code < 0x30 or code > 0x39):
        text_rows("\\1" + chr(code) + "1")
        text_rows("a\\12" + chr(code))
for number in list(range(0, 1000, 37)) + [1, 31, 32, 33, 45, 46, 47, 91, 92, 126, 127, 128, 199, 200, 249, 250, 254, 255, 256, 257, 259, 260, 299, 300, 999]:
    text_rows("\\%03d" % number)
    text_rows("a\\%03d." % number)
for text in ("www.example.com", "a\\.b\\046\\\\c.\\000\\255", "\\[x.\\[y", "..a", "a\\2.5", "\u00e9.\\"):
    for cut in range(len(text) + 1):
        text_rows(text[:cut])
        row("text", spelled(text[:cut] + "."))
        row("reltext", spelled(text[:cut] + "."))
for size in (61, 62, 63, 64, 65):
    for tail in ("", ".", "..", ".b", "\\", "\\256", "\u00e9", "\\[", "\\065"):
        text_rows("a" * size + tail)
        text_rows("\\200" * size + tail)
for total in (252, 253, 254, 255, 256):
    for last in (1, 2, 63):
        labels = of_len(total, last)
        text, at = "", 0
        while at < len(labels):
            text += labels[at + 1:at + 1 + labels[at]].decode() + "."
            at += 1 + labels[at]
        for it in (text, text[:-1], text + ".", text + "x", text[:-1] + "\\", text[:-1] + "\u00e9"):
            row("text", spelled(it))
            row("reltext", spelled(it))
SIGNS = ["a", "B", "0", "9", ".", ".", "\\", "\\", "[", " ", "\u00e9", "\\065", "\\.", "\\[", "\\\\", "\\256", "\\09", "-", "*", "\x7f", "_"]
for _time in range(260):
    text_rows("".join(rnd.choice(SIGNS) for _sign in range(rnd.randrange(1, 9))))

PLAIN = [chr(code) for code in range(0x20, 0x7F) if chr(code) not in ".\\"]
drawn = random.Random(253)
for _time in range(60):
    sizes = [drawn.choice((1, 2, 3, 8, 17, 62, 63)) for _label in range(drawn.randrange(1, 6))]
    labels = ["".join(drawn.choice(PLAIN) for _sign in range(size)) for size in sizes]
    place = drawn.randrange(sum(sizes) + len(sizes))
    text = ".".join(labels)
    for it in (text, text + ".", text[:place] + drawn.choice(("..", "\\", "\x1f", "\x7f", "\u00e9", "x" * 60 + ".")) + text[place:]):
        row("text", spelled(it))
        row("reltext", spelled(it))

topic("names from text in small rooms")
for text, room, answer in (("ab", 4, "ok 02616200"), ("abc", 4, "err ShortBuf"), ("abcd..", 4, "err EmptyLabel"), ("abcd\\256", 4, "err BadLabel(SymbolChars(BadEscape))"),
                           (".", 0, "err ShortBuf"), ("", 0, "err BadLabel(SymbolChars(ShortInput))"), (".", 2, "ok 00")):
    told("textroom", spelled(text), room, answer)
for text, room, answer in (("ab", 2, "err ShortBuf"), ("ab.", 2, "err AbsoluteName"), ("a", 2, "ok 0161"), ("", 0, "ok -"), (".", 0, "err EmptyLabel")):
    told("reltextroom", spelled(text), room, answer)
own("textroom", b"a", 9, "bad")
own("reltextroom", b"a", 9, "bad")
for text in ("", ".", "a", "a.", "ab", "a.b", "a.b.", "abc", "abcd", "a.b.c", "..", "a..", "a.\\[", "\\", "abcdef\\", "abcdef\u00e9", "\\097\\.", "www.example.com", "www.example.com."):
    for room in (0, 2, 4, 255):
        row("textroom", spelled(text), room)
    for room in (0, 2, 254):
        row("reltextroom", spelled(text), room)
for tail in ("1", "12", "123", "1234", "123.", "12.", "12..", "123\\"):
    row("textroom", spelled(LABEL * 25 + tail), 255)
    row("reltextroom", spelled(LABEL * 25 + tail), 254)


def called(*calls):
    return ";".join(it if isinstance(it, str) else "%s:%s" % (it[0], hx(spelled(it[1]))) for it in calls)


topic("builders")
NINE = ("label", b"123456789")
told("build", called(("push", b"w"), ("slice", b"ww"), "end", ("label", b"\0" * 64), ("char", "."), ("name", b"\7example"), ("chars", "com"), "finish"),
     "ok;ok;ok;LongLabel;EmptyLabel;ok;ok;ok " + hx(RELATIVE))
told("build", called(("chars", "a.b..c"), ("chars", "c"), "finish"), "EmptyLabel;ok;ok 016101620163")
told("build", called(*[NINE] * 25, ("origin", b"\x03123\0")), "ok;" * 25 + "ok " + hx(LONG + b"\x03123\0"))
told("build", called(*[NINE] * 25, ("origin", b"\x041234\0")), "ok;" * 25 + "LongName")
told("build", called(("slice", b"ab")), "ok 006162 1")
told("build", called(("slice", b"ab"), ("label", b"")), "ok;ok 026162 0")
for octet, label in ((0, "0130"), (40, "023430"), (207, "03323037")):
    told("build", called(("dec", bytes([octet]))), "ok %s 0" % label)
told("build", called(("hex", b"\xfb")), "ok 0142 0")
told("build", called(("chars", "a..b"), ("push", b"c"), "finish"), "EmptyLabel;ok;ok 01610163")
FILLED = [("label", b"\0" * 63), ("label", b"\0" * 64), ("label", b"\0" * 164), ("slice", b"\0" * 60)]
told("build", called(*FILLED, ("slice", b"1234"), ("slice", b"12"), ("push", b"3"), ("push", b"4"), "finish"),
     "ok;LongLabel;LongLabel;ok;LongLabel;ok;ok;LongLabel;ok " + hx(rel(b"\0" * 63, b"\0" * 60 + b"123")))
told("build", called(*FILLED, ("label", b"123"), "finish"), "ok;LongLabel;LongLabel;ok;ok;ok " + hx(rel(b"\0" * 63, b"\0" * 60, b"123")))
told("build", called(*[NINE] * 25, ("label", b"12345"), ("slice", b"12345"), ("slice", b"12"), ("slice", b"34"), ("push", b"3"), ("push", b"4"), "finish"),
     "ok;" * 25 + "LongName;LongName;ok;LongName;ok;LongName;ok " + hx(LONG + b"\x03123"))
own("buildaside", called(*FILLED), called(("label", b"123")), called(("slice", b"1234"), ("slice", b"12"), ("push", b"3"), ("push", b"4")),
    "ok;LongLabel;LongLabel;ok %s 1 / ok %s 0 / LongLabel;ok;ok;LongLabel %s 1" % (
        hx(rel(b"\0" * 63) + b"\0" + b"\0" * 60), hx(rel(b"\0" * 63, b"\0" * 60, b"123")), hx(rel(b"\0" * 63) + b"\0" + b"\0" * 60 + b"123")))
own("buildaside", called(*[NINE] * 25), called(("label", b"1234"), ("label", b"123")),
    called(("label", b"12345"), ("slice", b"12345"), ("slice", b"12"), ("slice", b"34"), ("push", b"3"), ("push", b"4")),
    "ok;" * 24 + "ok %s 0 / LongName;ok %s 0 / LongName;LongName;ok;LongName;ok;LongName %s 1" % (hx(LONG), hx(LONG + b"\x03123"), hx(LONG + b"\x00123")))
own("buildaside", called(("slice", b"ab")), called(("push", b"c"), "end"), called(("name", b"\1d")), "ok 006162 1 / ok;ok 03616263 0 / ok 0261620164 0")
own("buildaside", "end", "end", "end", "ok - 0 / ok - 0 / ok - 0")
for last in ("finish", "into_name", "origin:00", "from:0161", "x", ""):
    own("buildaside", "end", last, "end", "bad")
own("buildaside", "end", "end", "bad")
told("build", called(*[NINE] * 25, ("label", b"1234")), "ok;" * 25 + "LongName %s 0" % hx(LONG))
told("build", called(*[NINE] * 25, ("label", b"123")), "ok;" * 25 + "ok %s 0" % hx(LONG + b"\x03123"))
told("build", called(("slice", b"\0" * 60), ("slice", b"123"), ("slice", b"1"), "finish"), "ok;ok;LongLabel;ok " + hx(rel(b"\0" * 60 + b"123")))
told("build", called(("push", b"a"), ("name", b"\1b"), "finish"), "ok;ok;ok 01610162")
told("build", called(("push", b"w"), ("slice", b"ww"), "end", ("slice", b"exa"), ("push", b"m"), ("push", b"p"), ("slice", b"le"), "end", ("slice", b"com"), "finish"),
     "ok;" * 9 + "ok " + hx(RELATIVE))
told("build", called(("label", b"www"), ("label", b"example"), ("label", b"com"), "finish"), "ok;ok;ok;ok " + hx(RELATIVE))
told("build", called(("push", b"w"), ("slice", b"ww"), ("label", b"example"), ("slice", b"com"), "finish"), "ok;ok;ok;ok;ok " + hx(RELATIVE))
told("build", called(("label", b"www"), ("label", b"example"), ("slice", b"com"), "into_name"), "ok;ok;ok;ok " + hx(WWW))
told("build", called(("from", b"\3www"), ("push", b"a")), "ok 03777777" + "0061 1")
told("build", called(("from", b"\3www\0")), "err AbsoluteName")
told("build", called(("from", LONG + b"\x041234"), "end"), "err LongName")
for front in (b"\xc0", b"\xc0\0", b"\x40a", b"\x80", b"\2a", b"\0", b"\1a\0", LONG + b"\x03123", LONG + b"\0123", b""):
    row("build", called(("from", front), ("push", b"x"), "into_name"))
for calls in ("nothing", "push", "push:6162", "push:", "push:6", "label:0", "name:00", "name:02", "char:6161", "char:-", "origin:01", "origin:-", "chars:ff", "dec:-", "end;", ";end", "simple:", "end;x"):
    told("build", calls, "bad")
told("build", called(("label", b"1" * 63), ("label", b"2" * 63), ("label", b"3" * 61), ("slice", b"4" * 63), ("push", b"5")),
     "ok;ok;ok;ok;LongName %s 1" % hx(rel(b"1" * 63, b"2" * 63, b"3" * 61) + b"\0" + b"4" * 63))
told("build", called(("label", b"1" * 63), ("label", b"2" * 63), ("label", b"3" * 61), ("slice", b"4" * 62), ("push", b"5"), ("push", b"6"), "finish"),
     "ok;ok;ok;ok;ok;LongName;ok " + hx(rel(b"1" * 63, b"2" * 63, b"3" * 61, b"4" * 62 + b"5")))
for last in ("finish", "into_name", "origin:00"):
    for calls in ("%s;push:61", "%s;end", "push:61;%s;finish", "%s;into_name", "%s;origin:00", "from:0161;%s;slice:-"):
        own("build", calls % last, "bad")
        own("buildcap", 5, calls % last, "bad")
told("build 0161 0162", "bad")
told("build", "bad")
own("buildcap", 9, "end", "bad")
told("buildcap", "x", "end", "bad")
told("buildcap", 2, called(("from", b"\3www")), "bad")
for octet in (0, 1, 9, 10, 99, 100, 199, 200, 249, 250, 255):
    row("build", called(("dec", bytes([octet])), ("hex", bytes([octet])), ("push", bytes([octet])), ("decimal", bytes([octet])), ("simple", bytes([octet]))))
for code in (0, 0x1F, 0x20, 0x2D, 0x2E, 0x5B, 0x5C, 0x7E, 0x7F, 0x80, 0xE9, 0x3002, 0x1F600):
    row("build", called(("char", chr(code)), ("char", chr(code)), "finish"))
    row("build", called(("push", b"a"), ("char", chr(code)), "into_name"))
for before in ([], [("push", b"a")], [("slice", b"ab"), "end"], [("slice", b"\0" * 62)], [("slice", b"\0" * 63)], [("label", b"\0" * 63)] * 3, [("label", b"\0" * 63)] * 3 + [("slice", b"\0" * 59)],
               [("label", b"\0" * 63)] * 3 + [("slice", b"\0" * 60)], [("label", b"\0" * 63)] * 3 + [("label", b"\0" * 61)], [NINE] * 25 + [("push", b"1")]):
    for call in (("push", b"x"), ("slice", b""), ("slice", b"x"), ("slice", b"xy"), ("slice", b"x" * 63), ("slice", b"x" * 64), "end", ("label", b""), ("label", b"x"), ("label", b"xy"),
                 ("label", b"x" * 64), ("dec", b"\xff"), ("dec", b"\1"), ("hex", b"\xa1"), ("name", b""), ("name", b"\1x"), ("name", b"\2xy"), ("name", LONG), ("char", "."), ("char", "x"),
                 ("simple", b"["), ("decimal", b"["), ("chars", ""), ("chars", "x.y"), ("chars", "x."), ("chars", "xyz\\."), ("chars", "..")):
        row("build", called(*before, call))
        row("build", called(*before, call, ("push", b"z"), "finish"))
    for last in ("finish", "into_name", ("origin", b"\0"), ("origin", b"\1x\0"), ("origin", b"\2xy\0"), ("origin", WWW)):
        row("build", called(*before, last))
NAMES = (b"", b"\1b", b"\3www\7example", LONG, LONG + b"\x03123", b"\x3f" + b"n" * 63)
TEXTS = ("", "a", ".", "a.b", "a.", "a..b", "\\", "\\256", "a\\.b", "\\[", "[", "\u00e9", "x" * 70, "a.b.c.d", "\\000\\255")


def any_call():
    kind = rnd.randrange(13)
    if kind < 3:
        return ("push", bytes([rnd.randrange(256)]))
    if kind < 5:
        return ("slice", bytes(rnd.randrange(97, 123) for _octet in range(rnd.choice((0, 1, 2, 3, 5, 20, 59, 62, 63, 64)))))
    if kind == 5:
        return "end"
    if kind < 8:
        return ("label", bytes(rnd.randrange(97, 123) for _octet in range(rnd.choice((0, 1, 2, 3, 5, 9, 40, 62, 63, 64, 70)))))
    if kind == 8:
        return (rnd.choice(("dec", "hex", "simple", "decimal")), bytes([rnd.choice((0, 9, 10, 91, 92, 100, 255))]))
    if kind == 9:
        return ("name", rnd.choice(NAMES))
    if kind < 12:
        return ("chars", rnd.choice(TEXTS))
    return ("char", rnd.choice(".a[\\\u00e9"))


def any_last():
    return rnd.choice(([], [], ["finish"], ["into_name"], [("origin", b"\0")], [("origin", absolute(b"com"))]))


for _time in range(420):
    before = [NINE] * rnd.choice((0, 0, 0, 1, 12, 23, 24, 25))
    row("build", called(*before, *[any_call() for _call in range(rnd.randrange(1, 9))], *any_last()))

topic("builders in small rooms")
told("buildcap", 5, called(("slice", b"ab"), ("label", b"cd"), ("push", b"c"), ("push", b"d"), ("push", b"e"), "finish"), "ok;ShortBuf;ok;ok;ShortBuf;ok 0461626364")
told("buildcap", 5, called(("slice", b"ab"), ("label", b"cd")), "ok;ShortBuf 006162 1")
told("buildcap", 5, called(("label", b"abc"), ("label", b"d"), ("push", b"d"), "into_name"), "ok;ShortBuf;ShortBuf;ok 0361626300")
told("buildcap", 3, called(("dec", b"\xc0")), "ShortBuf - 0")
told("buildcap", 3, called(("dec", b"\xc0"), ("dec", b"\x5c")), "ShortBuf;ok 023932 0")
told("buildcap", 5, called(("chars", "a.b.c")), "ShortBuf 01610162 0")
own("buildcap", 5, called(("chars", "a.b.c"), "finish"), "ShortBuf;ok 01610162")
own("buildcap", 5, called(("chars", "a.b.c"), ("push", b"c"), "into_name"), "ShortBuf;ShortBuf;ok 0161016200")
own("buildcap", 5, called(("chars", "a.b.c"), ("origin", b"\0")), "ShortBuf;ok 0161016200")
own("buildcap", 5, called(("chars", "a.b.c"), ("origin", b"\1c\0")), "ShortBuf;ShortBuf")
own("buildcap", 8, called(("chars", "abc.de.fg"), ("push", b"f"), ("char", "."), "into_name"), "ShortBuf;ShortBuf;EmptyLabel;ok 0361626302646500")
own("buildcap", 8, called(("chars", "abc.d.fg"), ("push", b"h"), "finish"), "ShortBuf;ShortBuf;ok 0361626301640166")
own("buildcap", 8, called(("chars", "abcd.efg"), ("chars", "."), ("push", b"h"), "finish"), "ShortBuf;ok;ShortBuf;ok 0461626364026566")
told("buildcap", 5, called(("label", b"abc"), ("label", b"d"), "end", "finish"), "ok;ShortBuf;ok;ok 03616263")
ROOMS = (0, 1, 2, 3, 4, 5, 8, 255)
for calls in (
    ["finish"], ["into_name"], [("push", b"a")], [("push", b"a"), ("push", b"b"), "into_name"], [("slice", b"abc"), "end", ("push", b"d"), "finish"],
    [("label", b"ab"), ("label", b"cd"), "into_name"], [("dec", b"\xc8"), ("hex", b"\5"), ("dec", b"\7"), "into_name"], [("name", b"\1a\1b"), ("name", b"\1c"), ("name", b"")],
    [("push", b"a"), ("name", b"\1b"), ("push", b"c"), "finish"], [("chars", "ab.c.d")], [("chars", "a.b"), ("chars", ".c"), ("chars", "\\.d"), "into_name"],
    [("push", b"a"), ("origin", b"\0")], [("push", b"a"), ("origin", b"\1b\0")], [("slice", b"ab"), ("label", b"cdefg"), ("slice", b"c"), "finish"],
    [("char", "a"), ("char", "."), ("simple", b"["), ("decimal", b"b"), "finish"], [("label", b"\0" * 63), ("push", b"a"), "into_name"],
    [NINE] * 25 + [("slice", b"123"), ("push", b"4"), "into_name"], [NINE] * 25 + [("label", b"123"), ("origin", b"\0")], [NINE] * 25 + [("label", b"123"), ("origin", b"\1b\0")],
    [("from", b"\1a"), ("push", b"b"), "into_name"], [("slice", b"a" * 300), ("slice", b"")],
):
    for room in ROOMS:
        row("buildcap", room, called(*calls))
for _time in range(330):
    room = rnd.choice(ROOMS)
    before = [NINE] * (rnd.choice((0, 24, 25)) if room > 64 else 0)
    row("buildcap", room, called(*before, *[any_call() for _call in range(rnd.randrange(1, 8))], *any_last()))

topic("relative names with the root behind them")
for octets in PARTS + [LONG, LONG + b"\x03123", b"\1a" * 127, rel(b"a" * 14), rel(b"a" * 15), rel(b"a" * 16), rel(b"a" * 17), rel(b"a" * 7, b"b" * 7), rel(b"a" * 7, b"b" * 8), b"\1*"]:
    row("absolute", octets)
told("absolute", RELATIVE, "%s %s" % (hx(WWW), hx(WWW)))
told("absolute", b"\0", "bad")
told("absolute", b"\2a", "bad")

topic("names of addresses")
told("rev", bytes([192, 0, 2, 1]), "ok %s %s" % (hx(absolute(b"1", b"2", b"0", b"192", b"in-addr", b"arpa")), hx(b"1.2.0.192.in-addr.arpa")))
SEGMENTS = bytes.fromhex("20010db8123400005678" + "0001" + "9abc" + "0def")
UNDER = b"F.E.D.0.C.B.A.9.1.0.0.0.8.7.6.5.0.0.0.0.4.3.2.1.8.B.D.0.1.0.0.2.ip6.arpa"
told("rev", SEGMENTS, "ok %s %s" % (hx(absolute(*UNDER.split(b"."))), hx(UNDER)))
told("rev", bytes([192, 0, 2, 12]), "ok %s %s" % (hx(absolute(b"12", b"2", b"0", b"192", b"in-addr", b"arpa")), hx(b"12.2.0.192.in-addr.arpa")))
for octets in (b"", b"\1", b"\1\2\3", b"\1" * 5, b"\1" * 15, b"\1" * 17):
    told("rev", octets, "bad")
for octets in (b"\0" * 4, b"\xff" * 4, b"\0" * 16, b"\xff" * 16, bytes(range(16)), bytes(range(0xF0, 0x100)), bytes([9, 10, 99, 100]), bytes([100, 99, 10, 9])):
    row("rev", octets)
for _time in range(40):
    row("rev", bytes(rnd.randrange(256) for _octet in range(rnd.choice((4, 4, 16)))))

topic("serial numbers")
for a, b, answer in ((12, 13, "<"), (3000000012, 12, "<"), (1, 0x80000001, "none"), (0, 0xFFFFFFFF, ">"), (13, 12, ">"), (12, 3000000012, ">"), (0x80000001, 1, "none"), (12, 12, "=")):
    told("serial", a, b, answer)
for a, n, answer in ((0, 4, 4), (0xFF000000, 0x0F000000, 0x0E000000), (0xFFFFFFFF, 1, 0)):
    told("add", a, n, str(answer))
for a, n in ((0, 0x80000000), (0, 0xFFFFFFFF), (0, 4294967296), (4294967296, 0), ("x", 1), (1, "x"), (1, ""), ("-1", 0)):
    told("add", a, n, "bad")
for a, b in ((4294967296, 0), (0, 4294967296), ("", 0), (0, "-1"), ("1x", 0), ("12345678901", 0)):
    told("serial", a, b, "bad")
told("serial", "+5", "005", "=")
EDGES = (0, 1, 2, 0x7FFFFFFE, 0x7FFFFFFF, 0x80000000, 0x80000001, 0xFFFFFFFE, 0xFFFFFFFF)
for a in EDGES:
    for b in EDGES:
        row("serial", a, b)
        row("add", a, b)
for _time in range(60):
    a, far = rnd.randrange(1 << 32), rnd.choice((rnd.randrange(1 << 31), 0x7FFFFFFF, 0x80000000, 0x80000001, 1))
    row("serial", a, (a + far) % (1 << 32))
    row("serial", (a + far) % (1 << 32), a)
    row("add", a, min(far, 0x7FFFFFFF))

topic("record data")
told("rdata", b"\1\2\xff", "ok %s 00030102ff" % hx(b"\\# 3 01 02 ff"))
told("rdata", b"", "ok %s 0000" % hx(b"\\# 0"))
told("rdata", bytes([192, 0, 2, 1]), "ok %s 0004c0000201" % hx(b"\\# 4 c0 00 02 01"))
for size in (1, 2, 3, 4, 9, 10, 15, 16, 99, 100, 255, 256, 257):
    row("rdata", bytes((7 * i + size) % 256 for i in range(size)))
row("rdata", bytes(range(256)))
DATA = (b"", b"\0", b"\0\0", b"\1", b"\1\2", b"\1\3", b"\2", b"\xff", b"\x7f", b"\x80", b"A", b"a", b"\1\2\xff", b"\xff\0")
for one in DATA:
    for other in DATA:
        row("rdatacmp", one, other)
told("rdatacmp", b"\1", b"\1", "eq=1 cmp== canonical==")
told("longdata", 0, "ok 0")
told("longdata", 65535, "ok 65535")
told("longdata", 65536, "err record data too long")
told("longdata", 65537, "err record data too long")
told("longdata", 100000, "err record data too long")
for size in (1, 254, 255, 256, 257, 16384, 32767, 32768, 65534):
    told("longdata", size, "ok %d" % size)
told("lengths", "65535,0", "ok")
told("lengths", "65535,1", "err record data too long")
told("lengths", "18446744073709551615,1", "err record data too long")
for lens in ("0", "65535", "65536", "18446744073709551615", "0,0", "0,65535", "1,65535", "32768,32767", "32768,32768", "18446744073709551615,0", "18446744073709551615,18446744073709551615",
             "0,0,0", "65535,0,0", "0,65535,1", "30000,30000,5535", "30000,30000,5536", "18446744073709551615,1,0", "1,0,18446744073709551615", "9223372036854775808,9223372036854775808,1"):
    row("lengths", lens)
told("lengths", "1,2,3,4", "bad")
told("lengths", "x", "bad")
told("lengths", "18446744073709551616", "bad")

topic("a parser of a part")
for octets, begin, end, calls, answer in (
    (b"abcdef", 1, 5, "parser:2;parser:3;parser:2;parser:0;parser:1", "1:6263@3 unexpected end of input@3 3:6465@5 5:-@5 unexpected end of input@5"),
    (b"abcdef", 0, 6, "u8;parser:4;rest", "97@1 1:62636465@5 66@5"), (b"", 0, 0, "parser:0;parser:1", "0:-@0 unexpected end of input@0"),
    (b"ab", 0, 1, "parser:2;parser:1", "unexpected end of input@0 0:61@1"),
):
    own("parser", octets, begin, end, calls, "%s %s %s" % (hx(octets), hx(octets[:end]), answer))

topic("texts of errors")
LABEL_LONG, LONG_TEXT, SHORT, INPUT, ESCAPE = "label length limit exceeded", "long domain name", "buffer size exceeded", "unexpected end of input", "illegal escape sequence"
own("errors", "".join(it + ";" for it in (
    ["long label", LABEL_LONG, LONG_TEXT, LONG_TEXT, SHORT, SHORT] + [LONG_TEXT, LONG_TEXT, SHORT, SHORT] + [INPUT] * 4 + [ESCAPE] * 4 + ["illegal character"] * 4
    + ["a binary label was encountered"] * 3 + [LABEL_LONG] * 3 + ["empty label"] * 3 + [LONG_TEXT] * 3 + [SHORT, "absolute domain name"]
    + ["record data too long", "record data too long", SHORT, "record data too long", "illegal signature time"]
    + ["undefined label type"] * 4 + ["unknown extended label 0x7f"] * 4 + ["compressed domain name"] * 3 + [INPUT] * 3 + [LONG_TEXT, "absolute domain name"]
    + ["long label", LONG_TEXT, "suffix not found", SHORT, INPUT, INPUT, "another form", "another form"])))

topic("the program's words")
USAGE = b"usage: dnsnames at PLACE [--pointers N] | dnsnames text NAME | dnsnames list\n"
ENDED, MANY = b"unexpected end of input\n", b"too many compression pointers\n"
ANSWER = bytes.fromhex("123481800001000100000000" "0161000001 0001" "c00c00010001 00000e10 0004 c0000201")
QUESTION, RECORD = b"question a. 1 1\n", b"answer a. 1 1 3600 \\# 4 c0 00 02 01\n"


def ran(texts, octets, status, shown=b"", reason=b""):
    words = ",".join(hx(text.encode()) for text in texts) or "none"
    own("run", words, octets, "%d %s %s" % (status, hx(shown), hx(reason)))


for place, shown in (("0", b"www.example.com.\n"), ("4", b"example.com.\n"), ("16", b".\n"), ("12", b"com.\n"), ("00", b"www.example.com.\n"), ("0000000004", b"example.com.\n")):
    ran(["at", place], WWW, 0, shown)
for place in ("17", "18", "4294967295"):
    ran(["at", place], WWW, 1, b"", ENDED)
ran(["at", "0"], absolute(octet_label), 0, b"a\\.\\\\\\ \\007\\128A.\n")
for octets, reason in ((b"\x40a\0", b"invalid label type\n"), (b"\xc0\0", MANY), (b"\1a\xc0\0", b"long domain name\n"), (b"", ENDED)):
    ran(["at", "0"], octets, 1, b"", reason)
for place in ("4294967296", "00000000000", "x", "", "+1", "-1", "1 ", "\u0661"):
    ran(["at", place], WWW, 2, b"", USAGE)
for texts in ([], ["at"], ["at", "0", "0"], ["AT", "0"], ["text"], ["text", "a", "b"], ["list", "0"], ["at", "15", "--pointers"], ["at", "x", "--pointers", "2"], ["at", "0", "--pointer", "2"], ["", ""]):
    ran(texts, SCATTERED, 2, b"", USAGE)
ran(["at", "00"], b"\0", 0, b".\n")
for place, shown in (("0", b"com.\n"), ("4", b".\n"), ("5", b"example.com.\n"), ("15", b"www.example.com.\n")):
    ran(["at", place], SCATTERED, 0, shown)
    ran(["at", place], SCATTERED.replace(b"example", b"Example"), 0, shown.replace(b"example", b"Example"))
for place in ("21", "22"):
    ran(["at", place], SCATTERED, 1, b"", ENDED)
ran(["at", "x"], SCATTERED, 2, b"", USAGE)
ran(["at", "0"], INSIDE, 0, b"\\001a\\000.a.\n")
ran(["at", "0"], rel(*[b"\x80" * 63] * 3, b"\xff" * 61) + b"\0", 0, b".".join([b"\\128" * 63] * 3 + [b"\\255" * 61]) + b".\n")
for limit, status, shown, reason in (("2", 0, b"www.example.com.\n", b""), ("002", 0, b"www.example.com.\n", b""), ("255", 0, b"www.example.com.\n", b""), ("1", 1, b"", MANY), ("0", 1, b"", MANY),
                                     ("256", 2, b"", USAGE), ("0002", 2, b"", USAGE), ("+2", 2, b"", USAGE), ("", 2, b"", USAGE)):
    ran(["at", "15", "--pointers", limit], SCATTERED, status, shown, reason)
for size in (1, 255, 256, 16384, 65534, 65535, 65536, 65537, 100000):
    for place in (0, size - 1):
        ran(["at", str(place)], "zeros:%d" % size, 0, b".\n")
    ran(["at", str(size)], "zeros:%d" % size, 1, b"", ENDED)
    if size > 11:
        ran(["list"], "zeros:%d" % size, 0)
ran(["at", "0"], "zeros:0", 1, b"", ENDED)
for line in ("run 6174,30 zeros:x", "run 6174,30 zeros:100001", "run 6174,30 ones:1", "run 6174,30", "run 6174,3 00", "run ff 00", "run , 00", "run 6174,30 00 00"):
    own(line, "bad")
for text, wire in (("www.example.com", WWW), ("www.example.com.", WWW), ("a\\065.b", b"\2aA\1b\0"), (".", b"\0"), (LABEL * 25 + "123", LONG + b"\x03123\0")):
    ran(["text", text], b"", 0, hx(wire).encode() + b"\n")
for text, reason in (("", ENDED), ("a..b", b"empty label\n"), (".a", b"empty label\n"), ("\\", ENDED), ("\\256", b"illegal escape sequence\n"), ("\u00e9", b"illegal character\n"),
                     ("\\[a", b"a binary label was encountered\n"), ("1" * 64, b"label length limit exceeded\n"), (LABEL * 25 + "1234", b"long domain name\n")):
    ran(["text", text], b"", 1, b"", reason)
ran(["list"], ANSWER, 0, QUESTION + RECORD)
ran(["list"], ANSWER + b"\xff" * 9, 0, QUESTION + RECORD)
ran(["list"], ANSWER[:-1], 1, QUESTION, ENDED)
ran(["list"], ANSWER[:4] + b"\0\2" + b"\0" * 6 + b"\1a\0\0\1\0\1", 1, QUESTION, ENDED)
ran(["list"], ANSWER[:2] + b"\0\0\0\2" + b"\0" * 6 + b"\1a\0\0\1\0\1", 1, QUESTION, ENDED)
ran(["list"], b"\0" * 11, 1, b"", ENDED)
ran(["list"], b"\0" * 12, 0)
ran(["list"], ANSWER[:4] + b"\xff" * 8, 1, b"", ENDED)
ran(["list"], ANSWER[:4] + b"\0\1" + b"\0" * 6 + b"\xc0\x0c\0\1\0\1", 1, b"", MANY)
COUNTED = b"\0" * 5 + b"\1\0\1\0\1\0\2"
ENTRIES = (
    (b"\1a\0\0\1\0\1", b"question a. 1 1\n"), (b"\xc0\x0c\0\5\0\1\0\0\0\x3c\0\2\xc0\x0c", b"answer a. 5 1 60 \\# 2 c0 0c\n"),
    (b"\1b\xc0\x0c\0\2\xff\xff\0\0\0\0\0\1\0", b"authority b.a. 2 65535 0 \\# 1 00\n"), (b"\0\0\x29\x10\0\xff\xff\xff\xff\0\0", b"additional . 41 4096 4294967295 \\# 0\n"),
    (b"\2 .\xc0\x0c\xff\xff\0\0\x80\0\0\0\0\3\1\2\xff", b"additional \\ \\..a. 65535 0 2147483648 \\# 3 01 02 ff\n"),
)
for count in range(5):
    before = COUNTED + b"".join(octets for octets, _line in ENTRIES[:count])
    lines = b"".join(line for _octets, line in ENTRIES[:count])
    ran(["list"], before + ENTRIES[count][0][:-1], 1, lines, ENDED)
    ran(["list"], before + b"\xc0\xff" + ENTRIES[count][0][1:], 1, lines, MANY)
ran(["list"], COUNTED + b"".join(octets for octets, _line in ENTRIES), 0, b"".join(line for _octets, line in ENTRIES))


topic("labels that open at the limit, and values of the crate's own tests")
WWW, WW4 = (absolute(it, b"example", b"com") for it in (b"www", b"ww4"))
TENS = ";".join(["label:" + hx(b"123456789")] * 25)
told("build", TENS + ";slice:31323334", "ok;" * 25 + "LongName " + hx(rel(*[b"123456789"] * 25)) + " 0")
told("build", "label:777777;label:6578616d706c65;slice:636f6d;finish", "ok;ok;ok;ok " + hx(WWW[:-1]))
told("serial", 12, 112, "<")
for word in ("name", "rel"):
    told(word, "a261736461736473", "err BadLabel(Undefined) undefined label type")
    told(word, "6261736461736473", "err BadLabel(Extended(98)) unknown extended label 0x62")
    told(word, "cc61736461736473", "err CompressedName compressed domain name")
told("cmp", WWW, WW4, f"eq=0 cmp=> composed=> lower=> starts=0 ends=0 hash={hx(WWW)} {hx(WW4)}")
told("relcmp", WWW[:-1], WW4[:-1], f"eq=0 cmp=> starts=0 ends=0 hash={hx(WWW[:-1])} {hx(WW4[:-1])}")
told("text", b"wWw.exAmpLE.coM.", "ok " + hx(absolute(b"wWw", b"exAmpLE", b"coM")))
told("nparse", WWW + b"af", 0, f"ok {hx(WWW)} 17")
told("nparse", WWW[:12], 0, "err 0 unexpected end of input")
SHOUTED = absolute(b"wWw", b"EXAMPLE", b"com")
BOTH_WAYS = "eq=1 cmp== composed={} lower== starts=1 ends=1 hash={} {}"
SAME = " / ".join(BOTH_WAYS.format(it, hx(WWW), hx(WWW)) for it in "><")
told("pname", WWW + b"\xc0\0", 0, SHOUTED, SAME)
told("pname", absolute(b"com") + rel(b"www", b"example") + b"\xc0\0", 5, SHOUTED, SAME)
own("compress", hx(WWW) + ";canonical:" + hx(absolute(b"ns", b"example", b"com")), f"{hx(WWW)};0010{hx(absolute(b'ns', b'example', b'com'))}")

topic("names read slowly, at each offset")


def skip_slowly(message, place):
    """The place behind the root or the first pointer of the name at a place, or the first fault before it."""
    at, passed = place, 0
    while at < len(message):
        head = message[at]
        if head >= 0xC0:
            if at + 1 == len(message):
                break
            return at + 2
        if head >= 0x40:
            return "invalid label type"
        passed += 1 + head
        if at + 1 + head > len(message):
            break
        if passed > 255:
            return "long domain name"
        at += 1 + head
        if head == 0:
            return at
    return "unexpected end of input"


def read_answer(message, place, limit=255):
    read = read_slowly(message, place, limit)
    if isinstance(read, str):
        return "err %d %s" % (place, read)
    labels, flag, behind = read
    return "ok %s %s %d" % (hx(rel(*labels)), flag, behind)


def slow_rows(message, places, ends):
    for end in ends:
        for place in places:
            if place <= end <= len(message):
                told("parse", message, place, end, read_answer(message[:end], place))
                skipped = skip_slowly(message[:end], place)
                told("skip", message, place, end, "err %d %s" % (place, skipped) if isinstance(skipped, str) else "ok %d" % skipped)


for octets in (
    SCATTERED, FLAT_POINTER, ONCE, b"\3com\0\xc0\0", b"123\0", INSIDE, b"\xc0\x0012", b"\xc0\2\xc0\x0012", b"\1a\xc0\0", b"\3www\xc0\xee12",
    b"\3www\xc0\x0412", b"\3www\xc0\x0612", b"\3www\xc0\x0012", b"\3www\7exam", b"\3www\7example", b"\3www\7example\xbffoo", b"\x40a\x80\0",
    b"\1a\1b\xc0\0", b"\4\1a\xc0\1\xc0\1", ANSWER,
):
    slow_rows(octets, range(len(octets) + 1), range(len(octets) + 1))
    for place in range(len(octets) + 1):
        for limit in (0, 1, 2):
            own("parselimit", octets, place, limit, read_answer(octets, place, limit))
for octets in (LONG + b"\xc0\x0012", b"\1a" * 127 + b"\0", b"\1a" * 127 + b"\5a", b"\1a" * 128 + b"\0", b"\1a" * 126 + b"\2aa\xc0\0", b"\1a" * 126 + b"\2aa\0", b"\3123\0" + LONG + b"\xc0\x0012", b"\x041234\0" + LONG + b"\xc0\x0012"):
    slow_rows(octets, (0, 1, 2, 4, 5, 6, 15, len(octets) - 4, len(octets) - 2, len(octets)), range(len(octets) - 3, len(octets) + 1))

topic("names read at every offset with every end, beside the program's own slow reader: the number of pairs of both")


def everywhere(message):
    """One pair for each offset up to the end, for each end."""
    own("everywhere", message, str(sum(end + 1 for end in range(len(message) + 1))))


def drawn_message(draws):
    """Labels, roots, pointers and other octets, at most 24 of them, so that some names are whole and many aren't."""
    message = b""
    for _part in range(draws.randint(1, 8)):
        kind = draws.randrange(10)
        if kind < 4:
            message += rel(bytes(draws.choices(b"aB.\0", k=draws.randint(1, 3))))
        elif kind < 6:
            message += b"\0"
        elif kind < 9:
            message += pointer(draws.randrange(len(message) + 2))
        else:
            message += bytes([draws.randrange(256)])
    return message[:24]


for octets in (
    SCATTERED, SCATTERED + b"\xff" * 100, FLAT_POINTER, b"\1a\xc0\0", b"\1a\1b\xc0\0", b"\4\1a\xc0\1\xc0\1", ANSWER,
    b"\1a" * 127 + b"\5a", b"\1a" * 127 + b"\1a\0", b"\1a" * 126 + b"\2aa\xc0\0", b"\1a" * 126 + b"\2aa\0",
    MOST, pointers(255), pointers(256), WORST, b"\x3fab\xc0\0" + b"x" * 95, ONCE, INSIDE, b"\xc0\x0012",
    LONG + b"\xc0\x0012", b"\3123\0" + LONG + b"\xc0\x0012", b"\x041234\0" + LONG + b"\xc0\x0012", b"\1a" * 127 + b"\0", b"",
):
    everywhere(octets)
assert ("everywhere " + hx(MOST), "293761", True) in rows
draws, drawn = random.Random(1987), {}
while len(drawn) < 1000:
    drawn[drawn_message(draws)] = None
for octets in drawn:
    everywhere(octets)
for line in ("everywhere", "everywhere 00 0", "everywhere 0"):
    own(line, "bad")



def main():
    answerer = sys.argv[1:]
    if not answerer:
        sys.exit(__doc__)
    seen, table = set(), []
    for it in rows:
        if it[0] not in seen or it[0].startswith("#"):
            seen.add(it[0])
            table.append(it)
        elif it[1] is not None:
            table = [it if it[0] == other[0] else other for other in table]
    text = "".join(line + "\n" for line, _answer, _own in table)
    ran = subprocess.run(answerer, input=text.encode(), stdout=subprocess.PIPE, check=True)
    answers = ran.stdout.decode().splitlines()
    assert len(answers) == len(table), (len(answers), len(table))
    out, wrong, by_hand, alone, documented = [], 0, 0, 0, 0
    for (line, wanted, is_own), answer in zip(table, answers):
        columns = answer.split("\t")
        if line.startswith("#"):
            out.append(line)
            continue
        documented += len(columns) == 3
        answer = wanted if is_own else columns[-1]
        by_hand += wanted is not None
        alone += is_own
        if wanted is not None and wanted != answer or answer == "panic":
            wrong += 1
            print("different:", line[:200], "\n  wanted:", (wanted or "")[:300], "\n  is:    ", answer[:300], file=sys.stderr)
        out.append(answer)
    told_by = dict(zip((it[0] for it in table), out))
    for line, part in promised:
        if part not in told_by[line]:
            wrong += 1
            print("not in order:", line, told_by[line], file=sys.stderr)
    folder = os.path.dirname(os.path.abspath(__file__))
    with open(os.path.join(folder, "stdin"), "w") as file:
        file.write(text)
    with open(os.path.join(folder, "stdout"), "w") as file:
        file.write("".join(it + "\n" for it in out))
    lines = sum(not it[0].startswith("#") for it in table)
    print(f"{lines} rows: {by_hand} with an answer of their own ({alone} of them without another), {documented} from the documented behaviour, the others from the crate alone; "
          f"{len(text)} octets in, {sum(len(it) + 1 for it in out)} out; {wrong} different")
    sys.exit(wrong > 0)


main()
