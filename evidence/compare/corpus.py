"""The cases of the comparison, each with what the standard's text says of it; nothing here is taken from a library.

A case asks one line of a driver (drivers/line.h tells the protocol). Its expectation is ACCEPT, REFUSE or
UNSAID; with ACCEPT and UNSAID go the labels, and for a message the offset after the name, that an acceptance has to
give. UNSAID is where the text decides nothing, which `rule` then says.

Left out: offsets past the end of a message, which several libraries take as addresses, so that they are a caller's
fault; and how a zone file is split into words (quotes, parentheses, comments, `@`), which isn't a name's affair.
"""

import random
from dataclasses import dataclass
from typing import Optional

ACCEPT, REFUSE, UNSAID = "accept", "refuse", "unsaid"

# What the standard says, in short: the section, and its words in others.
RULES = {
    "size": ("1035 3.1", "labels, each a length octet of at most 63 and that many octets, up to the root's empty "
                         "label; a name has 255 octets or less, length octets included"),
    "limits": ("1035 2.3.4", "labels have 63 octets or less, names 255 octets or less"),
    "pointers": ("1035 4.1.4", "a name, or its last labels, may be a pointer to a prior occurrence; all programs must "
                               "understand pointers, and how many may follow each other isn't limited"),
    "prior": ("1035 4.1.4", "a pointer leads to a prior occurrence of the name"),
    "inside": ("1035 4.1.4", "a writer has to lead a pointer to a name that occurred before. It isn't said that a "
                             "reader, which can't know where names began, has to refuse other octets that read as "
                             "one"),
    "types": ("1035 4.1.4", "length octets that begin with the bits 01 and 10 are reserved (01 also by RFC 6891, 5)"),
    "octets": ("2181 11", "any octets whatever can be in a label"),
    "case": ("4343 4", "the case of letters is to be preserved (also RFC 1035, 2.3.3)"),
    "escapes": ("1035 5.1", "`\\DDD` is the octet of that decimal number, `\\X` the character X where it is no digit"),
    "broken": ("1035 5.1", "after a backslash come three digits that make an octet, or a character that is no digit; "
                           "there is no other rule"),
    "dots": ("1035 5.1", "labels are separated by dots; a name with a dot at its end is absolute"),
    "relative": ("1035 5.1", "a name without a dot at its end is relative to an origin; none is given here, and "
                             "accepted counts a name of its labels and the root"),
    "characters": ("1035 5.1", "nothing is said of such a character in a name where no backslash is before it"),
    "empty": ("1034 3.1", "the empty label is the root's alone"),
    "nothing": ("1034 3.1", "nothing is said of a text without any character"),
    "text": ("1035 5.1", "a text of the name is one that reads as its labels"),
    "order": ("4034 6.1", "by labels from the right, each as its octets in lower case, the absence of octets first"),
}


@dataclass
class Case:
    group: str                      # the table: read, text, show or order
    name: str
    line: str                       # what the driver is asked
    expect: str
    rule: str
    labels: Optional[list] = None   # of an acceptance; for order, names
    end: Optional[int] = None


def wire(*labels):
    return b"".join(bytes([len(label)]) + label for label in labels) + b"\0"


def front(*labels):
    """Labels without the root."""
    return wire(*labels)[:-1]


def pointer(offset):
    return bytes([0xC0 | offset >> 8, offset & 0xFF])


def octets(data):
    return data.hex() or "-"


HEADER = bytes.fromhex("1234 8180 0001 0001 0000 0000")
ZERO_HEADER = bytes(12)
WWW = [b"www", b"example", b"com"]


def labels_of_size(size):
    """Labels whose name has so many octets: of 63 octets, and one for the rest."""
    rest, labels = size - 1, []
    while rest > 0:
        # A rest of one octet would leave no label.
        length = min(63, rest - 1 if rest - 65 != 0 else rest - 3)
        labels.append(bytes([97 + len(labels)]) * length)
        rest -= length + 1
    assert len(wire(*labels)) == size
    return labels


def read(name, message, offset, expect, rule, labels=None, end=None):
    return Case("read", name, f"read {octets(message)} {offset}", expect, rule, labels, end)


def lengths():
    for size in [253, 254, 255, 256]:
        labels = labels_of_size(size)
        expect, rule = (ACCEPT if size <= 255 else REFUSE), "size"
        yield read(f"name of {size} octets", HEADER + wire(*labels), 12, expect, rule, labels, 12 + size)
        # The last two labels stand first, the others point to them.
        before = HEADER + wire(*labels[2:])
        message = before + front(*labels[:2]) + pointer(12)
        yield read(f"name of {size} octets by a pointer", message, len(before), expect, rule, labels, len(message))
    for count in [127, 128]:
        labels = [b"x"] * count
        yield read(f"{count} labels of one octet", HEADER + wire(*labels), 12, ACCEPT if count < 128 else REFUSE,
                   "size", labels, 12 + 2 * count + 1)
    labels = [b"x" * 63, b"com"]
    yield read("label of 63 octets", HEADER + wire(*labels), 12, ACCEPT, "limits", labels, 12 + 69)
    yield read("label of 64 octets", HEADER + wire(b"x" * 64, b"com"), 12, REFUSE, "limits")


def pointers_in_a_row(count):
    """A message whose last name goes through so many pointers, and its offset."""
    message = HEADER + wire(*WWW)
    target = 12
    for _ in range(count):
        message, target = message + pointer(target), len(message)
    return message, target


def pointers():
    def behind_name(name, rest, offset, expect, rule, labels=None, end=None):
        """The rest of the message stands behind a header and www.example.com, at offset 29."""
        return read(name, HEADER + wire(*WWW) + rest, offset, expect, rule, labels, end)

    yield behind_name("pointer to a name", pointer(12), 29, ACCEPT, "pointers", WWW, 31)
    yield behind_name("label, pointer to labels at the end", front(b"mail") + pointer(16), 29, ACCEPT, "pointers",
                      [b"mail", *WWW[1:]], 36)
    yield behind_name("pointer to the root", pointer(28), 29, ACCEPT, "pointers", [], 31)
    yield behind_name("label, pointer to the root", front(b"com") + pointer(28), 29, ACCEPT, "pointers", [b"com"], 35)
    for count in [2, 10, 11, 50, 51, 126, 127, 128, 255, 256, 1000]:
        message, offset = pointers_in_a_row(count)
        yield read(f"{count} pointers in a row", message, offset, ACCEPT, "pointers", WWW, offset + 2)
    # Each label stands apart, and has a pointer to the next.
    message, target = HEADER + wire(b"x"), 12
    for _ in range(126):
        message, target = message + front(b"x") + pointer(target), len(message)
    yield read("127 labels, a pointer between each", message, target, ACCEPT, "pointers", [b"x"] * 127, len(message))
    far = HEADER + wire(*WWW) + bytes(20000 - 29) + pointer(12)
    yield read("pointer at offset 20,000", far, 20000, ACCEPT, "pointers", WWW, 20002)
    far = HEADER + bytes(16383 - 12) + wire(b"com") + pointer(16383)
    yield read("pointer to offset 16,383", far, 16388, ACCEPT, "pointers", [b"com"], 16390)

    yield behind_name("pointer to itself", pointer(29), 29, REFUSE, "prior")
    yield behind_name("ring of two pointers", pointer(31) + pointer(29), 31, REFUSE, "prior")
    yield behind_name("ring of three pointers", pointer(33) + pointer(29) + pointer(31), 33, REFUSE, "prior")
    yield behind_name("label, pointer to that label", front(b"a") + pointer(29), 29, REFUSE, "prior")
    yield behind_name("forward pointer to a name", pointer(31) + wire(b"com"), 29, REFUSE, "prior")
    yield behind_name("forward pointer to the root", pointer(31) + b"\0", 29, REFUSE, "prior")
    yield behind_name("label, forward pointer to a name", front(b"a") + pointer(33) + wire(b"com"), 29, REFUSE,
                      "prior")
    yield behind_name("back, then forward to a name", pointer(35) + wire(b"a")[:2] + pointer(29) + wire(b"com"), 31,
                      REFUSE, "prior")
    yield behind_name("pointer to its own second octet", b"\xc0\x1e\0", 29, REFUSE, "prior")
    yield behind_name("pointer to the offset after the message", pointer(31), 29, REFUSE, "prior")
    yield behind_name("pointer past the message", pointer(0x3FFF), 29, REFUSE, "prior")
    yield behind_name("pointer cut after one octet", b"\xc0", 29, REFUSE, "size")
    yield behind_name("label, pointer cut after one octet", front(b"a") + b"\xc0", 29, REFUSE, "size")

    inside = front(b"\3inn\0")
    yield read("pointer into a label that reads as a name", HEADER + inside + b"\0" + pointer(13), 19, UNSAID,
               "inside", [b"inn"], 21)
    yield read("pointer into a label of its own name", HEADER + inside + pointer(13), 12, UNSAID, "inside",
               [b"\3inn\0", b"inn"], 20)
    message = HEADER + wire(*WWW) + pointer(12) + b"0123456789ab\0" + pointer(30)
    yield read("pointer to a pointer's second octet", message, 44, UNSAID, "inside", [b"0123456789ab"], 46)
    yield read("pointer to offset 0, which reads as the root", ZERO_HEADER + pointer(0), 12, UNSAID,
               "inside", [], 14)
    header = bytes.fromhex("0161 0000 0000 0000 0000 0000")
    yield read("pointer to offset 0, which reads as a name", header + pointer(0), 12, UNSAID, "inside",
               [b"a"], 14)
    yield read("pointer to offset 2, which reads as the root", ZERO_HEADER + pointer(2), 12, UNSAID,
               "inside", [], 14)


def label_types():
    for head in [0x40, 0x41, 0x7F, 0x80, 0xBF]:
        yield read(f"length octet 0x{head:02X}", HEADER + bytes([head]) + bytes(255), 12, REFUSE, "types")
    for head in [0x41, 0x80]:
        yield read(f"length octet 0x{head:02X} after a label", HEADER + front(b"a") + bytes([head]) + bytes(255), 12,
                   REFUSE, "types")
        message = HEADER + bytes([head]) + bytes(255)
        yield read(f"length octet 0x{head:02X} by a pointer", message + pointer(12), len(message), REFUSE, "types")


def cuts():
    message = HEADER + wire(*WWW) + front(b"mail") + pointer(16)
    for length in range(12, 29):
        yield read(f"name cut after {length - 12} of 17 octets", message[:length], 12, REFUSE, "size")
    for length in range(29, len(message)):
        yield read(f"name with a pointer cut after {length - 29} of 7 octets", message[:length], 29, REFUSE, "size")


def contents():
    yield read("root", HEADER + b"\0", 12, ACCEPT, "size", [], 13)
    yield read("root, the message's one octet", b"\0", 0, ACCEPT, "size", [], 1)
    yield read("root before other octets", HEADER + b"\0\3com\0", 12, ACCEPT, "size", [], 13)
    yield read("name that ends in the last octet", HEADER + wire(*WWW), 12, ACCEPT, "size", WWW, 29)
    yield read("pointer that ends in the last octet", HEADER + wire(b"com") + pointer(12), 17, ACCEPT, "pointers",
               [b"com"], 19)
    yield read("name before other octets", HEADER + wire(*WWW) + b"\0\1\0\1", 12, ACCEPT, "size", WWW, 29)

    def content(name, *labels, rule="octets"):
        return read(name, HEADER + wire(*labels), 12, ACCEPT, rule, list(labels), 12 + len(wire(*labels)))

    yield content("label of one octet 0", b"a", b"\0", b"b")
    yield content("label with octet 0 inside", b"a\0b", b"com")
    yield content("label with a dot", b"a.b", b"com")
    yield content("label of one dot", b".", b"com")
    yield content("label with a backslash", b"a\\b", b"com")
    yield content("label with a space", b"a b", b"com")
    yield content("label with octets above 127", b"\x80\xc3\xbc\xff", b"com")
    yield content("label with octet 127", b"a\x7fb", b"com")
    yield content("labels of * and of _", b"*", b"_dns", b"com")
    yield content("label that begins with [", b"[x", b"com")
    yield content("label that is digits", b"065", b"com")
    every = bytes(range(256))
    yield content("all octets but 0 to 31", *[every[i:i + 56] for i in range(32, 256, 56)])
    yield content("octets 0 to 31", every[:32])
    yield content("capitals", b"WwW", b"EXAMPLE", b"com", rule="case")
    yield read("capitals by a pointer", HEADER + wire(b"COM") + front(b"a") + pointer(12), 17, ACCEPT, "case",
               [b"a", b"COM"], 21)


def text(name, value, expect, rule, labels=None):
    return Case("text", name, f"text {octets(value)}", expect, rule, labels)


def dotted(labels):
    return b"".join(label + b"." for label in labels)


def texts():
    yield text("www.example.com.", b"www.example.com.", ACCEPT, "dots", WWW)
    yield text("www.example.com without a final dot", b"www.example.com", UNSAID, "relative", WWW)
    yield text("capitals", b"WwW.Example.COM.", ACCEPT, "case", [b"WwW", b"Example", b"COM"])
    yield text("the root, .", b".", ACCEPT, "dots", [])
    yield text("no character", b"", UNSAID, "nothing", [])
    for value in [b"..", b".a.", b"a..", b"a..b."]:
        yield text(value.decode(), value, REFUSE, "empty")
    for length in [63, 64]:
        labels = [b"x" * length, b"com"]
        yield text(f"label of {length} octets", dotted(labels), ACCEPT if length < 64 else REFUSE, "limits", labels)
    escaped = b"\\120" * 63 + b".com."
    yield text("label of 63 octets, all escaped", escaped, ACCEPT, "escapes", [b"x" * 63, b"com"])
    for size in [255, 256]:
        labels = labels_of_size(size)
        yield text(f"name of {size} octets", dotted(labels), ACCEPT if size < 256 else REFUSE, "limits", labels)
    yield text("name of 256 octets without a final dot", dotted(labels_of_size(256))[:-1], REFUSE, "limits")
    for count in [127, 128]:
        labels = [b"x"] * count
        yield text(f"{count} labels", dotted(labels), ACCEPT if count < 128 else REFUSE, "limits", labels)
    for value, label in [(rb"\000", b"\0"), (rb"\065", b"A"), (rb"\255", b"\xff"), (rb"a\.b", b"a.b"),
                         (rb"a\046b", b"a.b"), (rb"a\\b", b"a\\b"), (rb"\a", b"a"), (rb"a\ b", b"a b"),
                         (rb"\@", b"@"), (rb"\"x", b'"x'), (rb"\[x", b"[x"), (rb"a\[x", b"a[x"), (rb"\091x", b"[x")]:
        yield text(value.decode() + ".com.", value + b".com.", ACCEPT, "escapes", [label, b"com"])
    yield text("[x.com.", b"[x.com.", ACCEPT, "dots", [b"[x", b"com"])
    for value in [rb"\256.com.", rb"\999.com.", rb"\12.com.", rb"\1a.com.", rb"\12a.com.", "com.\\", "com.\\1",
                  "com.\\12"]:
        value = value.encode() if isinstance(value, str) else value
        yield text(value.decode(), value, REFUSE, "broken")
    yield text("a b.com.", b"a b.com.", UNSAID, "characters", [b"a b", b"com"])
    yield text("octet 127, unescaped", b"a\x7f.com.", UNSAID, "characters", [b"a\x7f", b"com"])
    yield text("\u00fc.com., in UTF-8", "\u00fc.com.".encode(), UNSAID, "characters", ["\u00fc".encode(), b"com"])


def shows():
    for name, labels in [
        ("www.example.com.", WWW), ("the root", []), ("capitals", [b"WwW", b"COM"]),
        ("label with a dot", [b"a.b", b"com"]), ("label of one dot", [b"."]),
        ("label with a backslash", [b"a\\b", b"com"]), ("label with a space", [b"a b", b"com"]),
        ("label of one octet 0", [b"\0", b"com"]), ("octets 0 to 31", [bytes(range(32))]),
        ("octet 127", [b"\x7f", b"com"]),
        ("octets above 127", [b"\x80\xc3\xbc\xff", b"com"]), ("octet before a digit", [b"\x011", b"\xff9"]),
        ("special characters of zone files", [b"@", b'"$;()"', b"#"]), ("label that begins with [", [b"[x", b"com"]),
        ("name of 255 octets", labels_of_size(255)),
        ("255 octets, all to be escaped", [b"\xff" * 63] * 3 + [b"\0" * 61]),
    ]:
        yield Case("show", name, f"show {octets(wire(*labels))}", ACCEPT, "text", labels)


def canonical_key(labels):
    """RFC 4034, 6.1: the labels from the right, as octets in lower case."""
    return [label.lower() for label in reversed(labels)]


def sort(name, names, rng):
    shuffled = names[:]
    rng.shuffle(shuffled)
    return Case("order", name, "sort " + " ".join(octets(wire(*labels)) for labels in shuffled), ACCEPT, "order",
                sorted(names, key=canonical_key))


def orders():
    rng = random.Random(4034)
    z = [b"z", b"example"]
    yield sort("the example of RFC 4034, 6.1", [
        [b"example"], [b"a", b"example"], [b"yljkjljk", b"a", b"example"], [b"Z", b"a", b"example"],
        [b"zABC", b"a", b"EXAMPLE"], z, [b"\1", *z], [b"*", *z], [b"\xc8", *z]], rng)
    zone = {(): []}
    alphabet = [b"a", b"B", b"aa", b"A-b", b"_x", b"*", b"\0", b"\1", b"\xc8", b"\xff", b"z", b"Z0", b"[", b"{", b"@"]
    while len(zone) < 1000:
        labels = [rng.choice(alphabet) for _ in range(rng.randint(1, 6))] + [b"Example"]
        zone.setdefault(tuple(canonical_key(labels)), labels)
    yield sort("a zone of 1,000 names", list(zone.values()), rng)
    zeros = [[], [b"b"], [b"a", b"b"], [b"c", b"a", b"b"], [b"a\0", b"b"], [b"c", b"a\0", b"b"], [b"a\0\0", b"b"],
             [b"\0", b"b"], [b"\1", b"\0", b"b"], [b"\0\0\t", b"b"]]
    yield sort("labels that differ by octets 0", zeros, rng)
    deep = [[b"x"] * count for count in range(100, 128)] + [[b"y"] + [b"x"] * count for count in range(100, 127)]
    yield sort("names of 100 to 127 labels", deep, rng)


def cases():
    for maker in [lengths, pointers, label_types, cuts, contents, texts, shows, orders]:
        yield from maker()


# What follows is for the random messages.

def standard_name(message, offset):
    """The labels of the name at an offset and the offset after it, or None: RFC 1035, 3.1 and 4.1.4, where `prior` is
    taken for an offset before the pointer's own."""
    labels, size, end, at = [], 1, None, offset
    while at < len(message):
        head = message[at]
        if head == 0:
            return labels, end or at + 1
        if head >= 0xC0:
            if at + 1 == len(message):
                return None
            target = (head & 0x3F) << 8 | message[at + 1]
            if target >= at:
                return None
            end, at = end or at + 2, target
            continue
        label = message[at + 1:at + 1 + head]
        size += 1 + head
        if head >= 0x40 or len(label) < head or size > 255:
            return None
        labels.append(label)
        at += 1 + head
    return None


ALPHABETS = [
    bytes([0, 1, 2, 0x61]), bytes([0, 1, 0xC0]), bytes([0, 1, 2, 3, 4, 6, 8, 0xC0]),
    bytes([0, 1, 3, 0x2E, 0x41, 0x5C, 0xC0]), bytes([0, 1, 2, 0x3F, 0x40, 0x80, 0xC0]),
    bytes([0, 2, 12, 14, 16, 18, 0xC0]), bytes([1, 2, 5, 9, 0xC0, 0xC1, 0xFF]),
]


def random_messages(count):
    """Messages of 1 to 40 octets, each of one small alphabet, and an offset in each."""
    rng = random.Random(1035)
    for _ in range(count):
        alphabet = rng.choice(ALPHABETS)
        message = bytes(rng.choice(alphabet) for _ in range(rng.randint(1, 40)))
        yield message, rng.randrange(len(message))


def standard_text(data):
    """The labels of an absolute name's text by RFC 1035, 5.1, with or without its final dot, or None."""
    if data in (b".", b""):
        return []
    labels, label, at = [], b"", 0
    while at < len(data):
        octet = data[at]
        if octet == 0x2E:
            if not label:
                return None
            labels, label = labels + [label], b""
        elif octet != 0x5C:
            if not 0x21 <= octet <= 0x7E:
                return None
            label += bytes([octet])
        elif data[at + 1:at + 4].isdigit() and len(data[at + 1:at + 4]) == 3 and int(data[at + 1:at + 4]) < 256:
            label += bytes([int(data[at + 1:at + 4])])
            at += 3
        elif at + 1 < len(data) and not data[at + 1:at + 2].isdigit():
            label += data[at + 1:at + 2]
            at += 1
        else:
            return None
        at += 1
    return labels + [label] if label else labels


def check():
    """What is expected of messages is what `standard_name` reads, but where the text decides nothing."""
    names = [(case.group, case.name) for case in cases()]
    assert len(set(names)) == len(names)
    for case in cases():
        words = case.line.split()
        if case.group == "read":
            message = b"" if words[1] == "-" else bytes.fromhex(words[1])
            found = standard_name(message, int(words[2]))
            assert found == (None if case.expect == REFUSE else (case.labels, case.end)), case.name
        elif case.group == "text" and case.expect != UNSAID:
            found = standard_text(bytes.fromhex(words[1]))
            whole = (found is not None and len(wire(*[x[:63] for x in found])) <= 255
                     and all(len(x) < 64 for x in found))
            assert (found if whole else None) == (None if case.expect == REFUSE else case.labels), case.name


if __name__ == "__main__":
    check()
    for case in cases():
        print(f"{case.group}\t{case.name}\t{case.expect}\t{case.rule}\t{case.line[:80]}")
