#!/usr/bin/env python3
"""Answers the lines `answers`, `limit`, `any` and `typed` of the conformance table of messages, written from the standards;
and `rebuild` where the message can't be read.

    second.py < LINES

It is a reader of its own: RFC 1035, 3.3, 3.4, 4.1 and 5.1 for messages, data and texts, RFC 5452, 9.1 for which message
answers which query, RFC 2782, 3596 and 6672 for SRV, AAAA and DNAME, RFC 5952 for IPv6 addresses; for `any` the RFC of each
type beside it, RFC 4034, 6.2, with RFC 6840, 5.1, for the canonical form, RFC 3597, 4 and 5, for what may be compressed and
for types that aren't known, and RFC 1035, 5.1, for what has a meaning in a zone. The texts of errors, and which of several comes first, are those of the Rust crate. Another
line is answered by nothing.
"""
import base64
import datetime
import ipaddress
import string
import sys

CLASSES = {1: "IN", 3: "CH", 4: "HS", 254: "NONE", 255: "ANY"}
SHORT = "unexpected end of input"
EPOCH = datetime.datetime(1970, 1, 1)
TAG_CHARACTERS = string.ascii_letters + string.digits


class Refused(Exception):
    """Why something can't be read."""


def octets_of(field):
    if field == "-":
        return b""
    octets = b""
    for part in field.split("+"):
        octets += bytes(int(part[6:])) if part.startswith("zeros:") else bytes.fromhex(part)
    return octets


class Reader:
    """Octets of a message from a place on, up to an end that it doesn't read past."""

    def __init__(self, octets, place, end):
        self.octets, self.place, self.end = octets, place, end

    def take(self, size):
        if self.place + size > self.end:
            raise Refused(SHORT)
        self.place += size
        return self.octets[self.place - size:self.place]

    def number(self, size):
        return int.from_bytes(self.take(size), "big")

    def name(self):
        """The labels of a name, the root left out (RFC 1035, 4.1.4). A pointer leads to an earlier place than its own."""
        labels, size, pointers, walk = [], 0, 0, self
        while True:
            first = walk.number(1)
            if first >= 0xC0:
                to = (first & 0x3F) << 8 | walk.number(1)
                if to >= walk.place - 2 or pointers == 255:
                    raise Refused("too many compression pointers")
                pointers += 1
                walk = Reader(self.octets, to, self.end)
            elif first >= 0x40:
                raise Refused("invalid label type")
            elif first == 0:
                return labels
            else:
                labels.append(walk.take(first))
                size += first + 1
                if size > 254:  # 255 with the root
                    raise Refused("long domain name")

    def question(self):
        return self.name(), self.number(2), self.number(2)

    def record(self):
        owner, rtype, rclass, ttl, size = self.name(), self.number(2), self.number(2), self.number(4), self.number(2)
        self.take(size)
        return owner, rtype, rclass, ttl, Reader(self.octets, self.place - size, self.place)


def spelled(octets, special):
    """Octets as they are spelled in a text (RFC 1035, 5.1)."""
    text = ""
    for octet in octets:
        text += "\\" + chr(octet) if octet in special else chr(octet) if 32 <= octet < 127 else "\\%03d" % octet
    return text


def name_text(labels, special=b" .\\"):
    return "".join(spelled(label, special) + "." for label in labels) or "."


# What has a meaning in a zone (RFC 1035, 5.1): names of `any` have a backslash before each of these.
OF_ZONES = b' .\\;"()@$'


def of_name(data):
    return name_text(data.name())


def of_mx(data):
    preference = data.number(2)
    return f"{preference} {name_text(data.name())}"


def of_srv(data):
    numbers = [data.number(2) for _number in range(3)]
    return " ".join(map(str, numbers)) + " " + name_text(data.name())


def of_soa(data):
    names = [name_text(data.name()) for _name in range(2)]
    return " ".join(names + [str(data.number(4)) for _number in range(5)])


def of_a(data):
    return ".".join(str(octet) for octet in data.take(4))


def of_aaaa(data):
    address = ipaddress.IPv6Address(data.take(16))
    if address.ipv4_mapped:
        return f"::ffff:{address.ipv4_mapped}"
    return str(address)


def of_txt(data):
    strings = []
    while data.place < data.end or not strings:  # one or more
        strings.append('"' + spelled(data.take(data.number(1)), b'"\\') + '"')
    return " ".join(strings)


TYPES = {"a": (1, of_a), "ns": (2, of_name), "cname": (5, of_name), "soa": (6, of_soa), "ptr": (12, of_name),
         "mx": (15, of_mx), "txt": (16, of_txt), "aaaa": (28, of_aaaa), "srv": (33, of_srv), "dname": (39, of_name)}


# What the data of a type is, one letter a field: n a name that may be compressed, w one that is written whole, 1, 2 and 4 a
# number of as many octets, a and A an address.
SHAPES = {
    1: "a", 2: "n", 3: "n", 4: "n", 5: "n", 6: "nn44444", 7: "n", 8: "n", 9: "n", 12: "n", 14: "nn", 15: "2n",  # RFC 1035
    17: "ww", 18: "2w", 21: "2w",  # RFC 1183
    26: "2ww",  # RFC 2163
    28: "A",  # RFC 3596
    33: "222w",  # RFC 2782
    36: "2w",  # RFC 2230
    39: "w",  # RFC 6672
}
# RFC 4034, 6.2, without NSEC, and without HINFO, which has no name (RFC 6840, 5.1)
LOWERCASE = {2, 3, 4, 5, 6, 7, 8, 9, 12, 14, 15, 17, 18, 21, 24, 26, 30, 33, 35, 36, 38, 39, 46}


# The data of the types that `typed` asks. Beside the letters above: s a character string, t a tag, T a type, D a time, m bitmaps
# of types. The octets to the end are x in hexadecimal digits, b in base64, q between quotes.
TYPED = {
    13: "ss",  # RFC 1035
    35: "22sssw",  # RFC 3403
    43: "211x", 46: "T114DD2wb", 47: "wm", 48: "211b",  # RFC 4034
    44: "11x",  # RFC 4255
    52: "111x",  # RFC 6698
    257: "1tq",  # RFC 8659
}
# The other types that `any` knows, in class IN. Beside the letters above: S character strings to the end, one or more, o one
# or none, M bitmaps of types or none, v service parameters. Octets behind their number are h in hexadecimal digits and H in
# base32hex. Without a text are 6 and 8, numbers of 6 and 8 octets, B, octets behind their number in two, and y, those to the end.
OTHERS = {
    11: "y", 16: "S",  # RFC 1035
    19: "s", 20: "so",  # RFC 1183
    24: "T114DD2wb", 25: "211b", 30: "wy",  # RFC 2535
    27: "sss",  # RFC 1712
    29: "y",  # RFC 1876
    37: "221b",  # RFC 4398
    42: "y",  # RFC 3123
    45: "y",  # RFC 4025
    49: "b",  # RFC 4701
    50: "112hHM", 51: "112h",  # RFC 5155
    53: "111x",  # RFC 8162
    55: "y",  # RFC 8005
    56: "S", 57: "211b",  # the templates of NINFO and RKEY in IANA's registry
    58: "ww",  # the template of TALINK in IANA's registry
    59: "211x", 60: "211b",  # RFC 7344
    61: "b",  # RFC 7929
    62: "42M",  # RFC 7477
    63: "411x",  # RFC 8976
    64: "2wv", 65: "2wv",  # RFC 9460
    67: "b", 68: "b",  # RFC 9886
    99: "S",  # RFC 4408
    104: "28", 105: "2a", 106: "28", 107: "2w",  # RFC 6742
    108: "6", 109: "8",  # RFC 7043
    249: "wDD22BB",  # RFC 2930
    250: "w62B22B",  # RFC 8945
    256: "22q",  # RFC 7553
    258: "S",  # the template of AVC in IANA's registry
    260: "y",  # RFC 8777
    261: "S",  # RFC 9606
    262: "S", 263: "S",  # the templates of WALLET and CLA in IANA's registry
    32769: "211x",  # RFC 4431
}
# The types whose fields `any` knows
ALL = SHAPES | TYPED | OTHERS
# Those whose data is octets in classes other than IN, as their RFCs define them for IN alone
OF_IN = {1, 11, 26, 28, 33, 36, 42, 49, 64, 65}
# The mnemonics that rows have (RFC 1035, 3.2.2, and the RFC of each type)
MNEMONICS = {1: "A", 2: "NS", 6: "SOA", 15: "MX", 16: "TXT", 28: "AAAA", 43: "DS", 46: "RRSIG", 47: "NSEC", 48: "DNSKEY",
             257: "CAA"}
# Those that rows of `any` alone have (RFC 2535; RFC 5155)
LATER_MNEMONICS = {30: "NXT", 51: "NSEC3PARAM"}


def name_octets(labels):
    return b"".join(bytes([len(label)]) + label for label in labels) + b"\0"


def type_text(number):
    # As questions for any type are written (RFC 2136, 2.4), and as dnspython has it.
    if number == 255:
        return "ANY"
    return (MNEMONICS | LATER_MNEMONICS).get(number, f"TYPE{number}")


def bitmaps(data):
    """The types of bitmaps (RFC 4034, 4.1.2): blocks, one or more, of a window, a length from 1 to 32 and so many octets."""
    types, least = [], 0
    while True:
        window, size = data.take(2)
        if window < least:
            raise Refused("windows of types out of order")
        if not 1 <= size <= 32:
            raise Refused("invalid length of a type bitmap")
        bits = "".join(f"{octet:08b}" for octet in data.take(size))
        types += [256 * window + place for place, bit in enumerate(bits) if bit == "1"]
        least = window + 1
        if data.place == data.end:
            return types


# The keys that have a mnemonic (RFC 9460, 14.3.2; RFC 9461, 5; RFC 9540, 4)
KEYS = ("mandatory", "alpn", "no-default-alpn", "port", "ipv4hint", "ech", "ipv6hint", "dohpath", "ohttp")


def key_text(key):
    return KEYS[key] if key < len(KEYS) else f"key{key}"


def parts(octets, size):
    """Octets in parts of a size: none if they aren't whole parts."""
    return [octets[at:at + size] for at in range(0, len(octets), size)] if len(octets) % size == 0 else []


def listed(value):
    """The protocols of a value (RFC 9460, 7.1.1), none if they aren't one octet or more each, and whole."""
    found = []
    while value:
        size, value = value[0], value[1:]
        if not 1 <= size <= len(value):
            return []
        found.append(value[:size])
        value = value[size:]
    return found


def items(key, value):
    """The items of a value that is a list, as text before it is quoted: none if it isn't as its key wants it."""
    if key == 0:  # RFC 9460, 8
        keys = [int.from_bytes(it, "big") for it in parts(value, 2)]
        return [key_text(it) for it in keys] if 0 not in keys and all(a < b for a, b in zip(keys, keys[1:])) else []
    if key == 1:  # A.1
        return [it.replace(b"\\", b"\\\\").replace(b",", b"\\,") for it in listed(value)]
    if key == 4:
        return [str(ipaddress.IPv4Address(it)) for it in parts(value, 4)]
    return [of_aaaa(Reader(it, 0, 16)) for it in parts(value, 16)]


def parameter_text(key, value):
    """A service parameter (RFC 9460, 2.1): its key by its mnemonic where the value is as the key wants it."""
    quoted = '="' + spelled(value, b'"\\') + '"' if value else ""
    if key in (0, 1, 4, 6) and items(key, value):
        octets = b",".join(it if isinstance(it, bytes) else it.encode() for it in items(key, value))
        return key_text(key) + '="' + spelled(octets, b'"\\') + '"'
    if key in (2, 8) and not value:
        return key_text(key)
    if key == 3 and len(value) == 2:
        return f'port="{int.from_bytes(value, "big")}"'
    if key == 5 and value:
        return f'ech="{base64.b64encode(value).decode()}"'
    if key == 7 and value:
        return "dohpath" + quoted
    return f"key{key}" + quoted


def parameters(data):
    """Service parameters (RFC 9460, 2.2): keys that ascend, each with a length and so many octets."""
    texts, least = [], 0
    while data.place < data.end:
        key = data.number(2)
        if key < least:
            raise Refused("keys of parameters out of order")
        texts.append(parameter_text(key, data.take(data.number(2))))
        least = key + 1
    return texts


def base32hex(octets):
    """Base32hex without padding, in lower case (RFC 5155, 3.3; RFC 4648, 7)."""
    bits = "".join(f"{octet:08b}" for octet in octets)
    bits += "0" * (-len(bits) % 5)
    return "".join("0123456789abcdefghijklmnopqrstuv"[int(bits[at:at + 5], 2)] for at in range(0, len(bits), 5))


def other_field(data, kind):
    """The text of a field of those that `any` alone has, None where it has none."""
    if kind == "S":
        strings = []
        while data.place < data.end or not strings:
            strings.append('"' + spelled(data.take(data.number(1)), b'"\\') + '"')
        return " ".join(strings)
    if kind == "o":
        return '"' + spelled(data.take(data.number(1)), b'"\\') + '"' if data.place < data.end else ""
    if kind in "hH":
        octets = data.take(data.number(1))
        if kind == "H" and not octets:
            raise Refused("hash without an octet")
        return base32hex(octets) if kind == "H" else octets.hex() or "-"
    if kind == "M":
        return " ".join(map(type_text, bitmaps(data))) if data.place < data.end else ""
    data.take({"6": 6, "8": 8}[kind] if kind in "68" else data.number(2) if kind == "B" else data.end - data.place)
    return None


def field(data, kind, lowercase, special=b" .\\"):
    """A field: its octets, those of the canonical form, and its text, None where it has none."""
    if kind in "nw":
        labels = data.name()
        canonical = [label.lower() if lowercase else label for label in labels]
        return name_octets(labels), name_octets(canonical), name_text(labels, special)
    start = data.place
    if kind in "aA":
        text = of_a(data) if kind == "a" else of_aaaa(data)
    elif kind in "st":
        octets = data.take(data.number(1))
        if kind == "t" and not (octets and all(chr(it) in TAG_CHARACTERS for it in octets)):
            raise Refused("invalid tag")
        text = octets.decode() if kind == "t" else '"' + spelled(octets, b'"\\') + '"'
    elif kind == "T":
        text = type_text(data.number(2))
    elif kind == "D":
        text = f"{EPOCH + datetime.timedelta(seconds=data.number(4)):%Y%m%d%H%M%S}"
    elif kind in "xbqmv" and data.end - data.place > 65535:
        raise Refused("record data too long")
    elif kind == "m":
        text = " ".join(type_text(number) for number in bitmaps(data))
    elif kind in "SohHM68By":
        text = other_field(data, kind)
    elif kind == "v":
        text = " ".join(parameters(data))
    elif kind in "xbq":
        left = data.take(data.end - data.place)
        text = {"x": left.hex(), "b": base64.b64encode(left).decode(), "q": '"' + spelled(left, b'"\\') + '"'}[kind]
    else:
        text = str(data.number(int(kind)))
    octets = data.octets[start:data.place]
    return octets, octets, text


def text_of(shape, texts, whole):
    """The text of data: its fields, a word that is absent left out; or its octets, where a field has no text, or is empty that
    must not be: with names written out, since a pointer leads nowhere outside of its message (RFC 3597, 4 and 5)."""
    if any(text is None or text == "" and kind not in "oMv" for kind, text in zip(shape, texts)):
        return unknown_text(whole)
    return " ".join(text for text in texts if text)


def unknown_text(whole):
    return "\\# " + " ".join([str(len(whole))] + ["%02x" % octet for octet in whole])


def of_any(rtype, data, shapes):
    """Data of any type: its octets, the canonical form or None, the length where it is known, and its text."""
    whole = data.octets[data.place:data.end]
    if shapes is ALL and len(whole) > 65535:
        raise Refused("record data too long")
    if rtype in shapes:
        shape = shapes[rtype]
        special = OF_ZONES if shapes is ALL else b" .\\"
        composed, canonical, texts = zip(*(field(data, kind, rtype in LOWERCASE, special) for kind in shape))
        if data.place < data.end:
            raise Refused("trailing data")
        length = "-" if "n" in shape else str(sum(map(len, composed)))
        plain = b"".join(composed)
        # No record has more octets, so there is no such form of them: then they are shown as they are in the message.
        shown = plain if len(plain) <= 65535 else whole
        text = text_of(shape, texts, shown) if shapes is ALL else " ".join(texts)
        return plain, b"".join(canonical), length, text
    if len(whole) > 65535:
        raise Refused("record data too long")
    return whole, None if rtype in LOWERCASE else whole, str(len(whole)), unknown_text(whole)


def any_answer(fields, shapes):
    """The answer to a line `any` or `typed`: the latter reads nothing of a type that isn't among these."""
    try:
        rtype, begin, size = (int(fields[place]) for place in (0, 2, 3))
        octets = octets_of(fields[1])
    except ValueError:
        return "bad"
    if rtype > 65535 or begin + size > len(octets):
        return "bad"
    try:
        if shapes is TYPED and rtype not in TYPED:
            return "none"
        composed, canonical, length, text = of_any(rtype, Reader(octets, begin, begin + size), shapes)
    except Refused as why:
        return f"err {why}"
    shown = [it.hex() or "-" for it in (composed, canonical or b"")]
    if canonical is None:
        shown[1] = "unknown:" + shown[0]
    return f"ok {shown[0]} {shown[1]} {length} {text}"


def compared(rtype, octets):
    """What data of any type is compared by: the type, and the octets of the canonical form, or unchanged where that isn't
    known (RFC 4034, 6.2 and 6.3)."""
    composed, canonical, _length, _text = of_any(rtype, Reader(octets, 0, len(octets)), ALL)
    return rtype, composed if canonical is None else canonical


def order_answer(fields):
    """The answer to a line `order`."""
    try:
        both = [(int(fields[at]), octets_of(fields[at + 1])) for at in (0, 2)]
    except ValueError:
        return "bad"
    if any(rtype > 65535 for rtype, _octets in both):
        return "bad"
    faults, read = [], []
    for rtype, octets in both:
        try:
            read.append(compared(rtype, octets))
        except Refused as why:
            faults.append(f"err {why}")
    if faults:
        return "".join(faults)
    first, second = read
    order = "less" if first < second else "greater" if first > second else "equal"
    return f"{order} {'same' if first == second else 'other'}"


class Message:
    def __init__(self, octets):
        if len(octets) < 12:
            raise Refused("short message")
        self.octets, self.id, self.is_response, self.opcode = octets, octets[:2], octets[2] >= 128, octets[2] >> 3 & 15
        self.counts = [int.from_bytes(octets[at:at + 2], "big") for at in (4, 6, 8, 10)]

    def questions(self):
        """The questions, and a reader after them."""
        reader = Reader(self.octets, 12, len(self.octets))
        return [reader.question() for _question in range(self.counts[0])], reader


def answers(query, message):
    """A response with the query's identifier, opcode and questions, in their order, the names without case."""
    if not message.is_response or (message.id, message.opcode) != (query.id, query.opcode):
        return "0"
    if message.counts[0] != query.counts[0]:
        return "0"
    try:
        theirs, ours = (
            [([label.lower() for label in name], rtype, rclass) for name, rtype, rclass in it.questions()[0]]
            for it in (query, message))
    except Refused:
        return "0"
    return "1" if ours == theirs else "0"


def kept(message, word, only_in):
    """The answers with data of the type, up to the first error; the others are passed by, whatever their data is."""
    rtype, read = TYPES[word]
    reader = message.questions()[1]
    text = ""
    try:
        for _record in range(message.counts[1]):
            owner, its_type, rclass, ttl, data = reader.record()
            if its_type != rtype or only_in and rclass != 1:
                continue
            shown = read(data)
            if data.place < data.end:
                raise Refused("trailing data")
            text += f"{name_text(owner)}/{CLASSES.get(rclass, f'CLASS{rclass}')}/{ttl}/{shown};"
    except Refused as why:
        text += f"err {why};"
    return text


def read_all(message):
    """Reads each entry of a message, and the data of each record."""
    reader = message.questions()[1]
    for _record in range(sum(message.counts[1:])):
        _owner, rtype, rclass, _ttl, data = reader.record()
        of_any(rtype, data, ALL if rclass == 1 or rtype not in OF_IN else {})


def unread_answer(octets):
    """The answer to a line `rebuild` with a message that can't be read."""
    try:
        read_all(Message(octets))
    except Refused as why:
        return f"err {why}"
    raise SystemExit(f"rebuild {octets.hex()}: it can be read, and what is written is told by another writer")


def answer(line):
    """The answer to a line."""
    word, *fields = line.split(" ")
    if word == "rebuild":
        return unread_answer(octets_of(fields[0]))
    if word in ("any", "typed") and len(fields) == 4:
        return any_answer(fields, TYPED if word == "typed" else ALL)
    if word == "order" and len(fields) == 4:
        return order_answer(fields)
    if len(fields) != 2 or word not in ("answers", "limit"):
        return "bad"
    try:
        octets = [octets_of(field) for field in (fields if word == "answers" else fields[1:])]
    except ValueError:
        return "bad"
    try:
        messages = [Message(it) for it in octets]
        if word == "answers":
            return answers(*messages)
        messages[0].questions()
    except Refused as why:
        return f"err {why}"
    if fields[0] not in TYPES:
        return "bad"
    return f"any={kept(messages[0], fields[0], False)} in={kept(messages[0], fields[0], True)}"


def main():
    for line in sys.stdin:
        print(answer(line.rstrip("\n")))


if __name__ == "__main__":
    main()
