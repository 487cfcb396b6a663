#!/usr/bin/env python3
"""Answers the lines `read`, `show`, `words` and `place` of the table, one for each line of standard input.

    second_data.py < LINES

A second reader and writer of record data, written from the standards: RFC 1035 (3.1, 3.3, 4.1.4 and 5.1) for names,
character strings, numbers and words; RFC 3597 (4 and 5) for data of any type and for the names of types; RFC 4291
(2.2) and 5952 (4) for IPv6 addresses; RFC 4034 (3.2 and 4.1.2) for points in time and bitmaps of types; RFC 4648
(4, 7 and 8) for base64, base32hex and hexadecimal digits; RFC 5155 (3.2 and 3.3) for salts and hashes; RFC 8659 (4.1)
for tags; RFC 9460 (2.2) for service parameters; and the RFC of each type, which is beside its line of `FIELDS`. Where
these leave a choice, it is that of the pages of `domain_rdata_text` and `domain_descriptor`.
"""
import base64
import binascii
import datetime
import re
import sys

# The mnemonics of types, in runs after the number of the first type in each (the registry of IANA, RFC 6895, 3.1).
# The registry has `*` for 255, which RFC 8482 calls ANY: both are read.
RUNS = {
    1: "A NS MD MF CNAME SOA MB MG MR NULL WKS PTR HINFO MINFO MX TXT RP AFSDB X25 ISDN RT NSAP NSAP-PTR SIG KEY PX",
    27: "GPOS AAAA LOC NXT EID NIMLOC SRV ATMA NAPTR KX CERT A6 DNAME SINK OPT APL DS SSHFP IPSECKEY RRSIG NSEC DNSKEY",
    49: "DHCID NSEC3 NSEC3PARAM TLSA SMIMEA",
    55: "HIP NINFO RKEY TALINK CDS CDNSKEY OPENPGPKEY CSYNC ZONEMD SVCB HTTPS DSYNC HHIT BRID",
    99: "SPF UINFO UID GID UNSPEC NID L32 L64 LP EUI48 EUI64",
    128: "NXNAME",
    249: "TKEY TSIG IXFR AXFR MAILB MAILA ANY",
    256: "URI CAA AVC DOA AMTRELAY RESINFO WALLET CLA IPN",
    32768: "TA DLV",
}
MNEMONICS = {begin + index: word for begin, run in RUNS.items() for index, word in enumerate(run.split())}
NUMBERS = {b"*": 255} | {word.encode(): number for number, word in MNEMONICS.items()}

# The fields of data of each type, by the names of `FieldKind`
FIELDS = {
    "A": "Ipv4",  # RFC 1035, 3.4.1
    "NS": "Name",  # RFC 1035, 3.3.11
    "MD": "Name",  # RFC 1035, 3.3.4
    "MF": "Name",  # RFC 1035, 3.3.5
    "CNAME": "Name",  # RFC 1035, 3.3.1
    "SOA": "Name Name Serial Ttl Ttl Ttl Ttl",  # RFC 1035, 3.3.13
    "MB": "Name",  # RFC 1035, 3.3.3
    "MG": "Name",  # RFC 1035, 3.3.6
    "MR": "Name",  # RFC 1035, 3.3.8
    "WKS": "Octets",  # RFC 1035, 3.4.2
    "PTR": "Name",  # RFC 1035, 3.3.12
    "HINFO": "CharString CharString",  # RFC 1035, 3.3.2
    "MINFO": "Name Name",  # RFC 1035, 3.3.7
    "MX": "Number16 Name",  # RFC 1035, 3.3.9
    "TXT": "CharStrings",  # RFC 1035, 3.3.14
    "RP": "Name Name",  # RFC 1183, 2.2
    "AFSDB": "Number16 Name",  # RFC 1183, 1
    "X25": "CharString",  # RFC 1183, 3.1
    "ISDN": "CharString OptionalString",  # RFC 1183, 3.2
    "RT": "Number16 Name",  # RFC 1183, 3.3
    "SIG": "Rtype Number8 Number8 Ttl Time Time Number16 Name Base64",  # RFC 2535, 4.1
    "KEY": "Number16 Number8 Number8 Base64",  # RFC 2535, 3.1
    "PX": "Number16 Name Name",  # RFC 2163, 4
    "GPOS": "CharString CharString CharString",  # RFC 1712, 3
    "AAAA": "Ipv6",  # RFC 3596, 2.2
    "LOC": "Octets",  # RFC 1876, 2
    "NXT": "Name Octets",  # RFC 2535, 5.2
    "SRV": "Number16 Number16 Number16 Name",  # RFC 2782
    "NAPTR": "Number16 Number16 CharString CharString CharString Name",  # RFC 3403, 4.1
    "KX": "Number16 Name",  # RFC 2230, 3.1
    "CERT": "Number16 Number16 Number8 Base64",  # RFC 4398, 2
    "DNAME": "Name",  # RFC 6672, 2.1
    "APL": "Octets",  # RFC 3123, 4
    "DS": "Number16 Number8 Number8 Base16",  # RFC 4034, 5.1
    "SSHFP": "Number8 Number8 Base16",  # RFC 4255, 3.1
    "IPSECKEY": "Octets",  # RFC 4025, 2.1
    "RRSIG": "Rtype Number8 Number8 Ttl Time Time Number16 Name Base64",  # RFC 4034, 3.1
    "NSEC": "Name TypeBitmaps",  # RFC 4034, 4.1
    "DNSKEY": "Number16 Number8 Number8 Base64",  # RFC 4034, 2.1
    "DHCID": "Base64",  # RFC 4701, 3.1
    "NSEC3": "Number8 Number8 Number16 CountedBase16 CountedBase32 OptionalTypeBitmaps",  # RFC 5155, 3.2
    "NSEC3PARAM": "Number8 Number8 Number16 CountedBase16",  # RFC 5155, 4.2
    "TLSA": "Number8 Number8 Number8 Base16",  # RFC 6698, 2.1
    "SMIMEA": "Number8 Number8 Number8 Base16",  # RFC 8162, 2
    "HIP": "Octets",  # RFC 8005, 5
    "NINFO": "CharStrings",  # the registry of IANA: as TXT
    "RKEY": "Number16 Number8 Number8 Base64",  # the registry of IANA: as KEY
    "TALINK": "Name Name",  # draft-wijngaards-dnsop-trust-history, 2
    "CDS": "Number16 Number8 Number8 Base16",  # RFC 7344, 3.1
    "CDNSKEY": "Number16 Number8 Number8 Base64",  # RFC 7344, 3.2
    "OPENPGPKEY": "Base64",  # RFC 7929, 2.1
    "CSYNC": "Serial Number16 OptionalTypeBitmaps",  # RFC 7477, 2.1, which has one block or more: none is taken, too
    "ZONEMD": "Serial Number8 Number8 Base16",  # RFC 8976, 2.2
    "SVCB": "Number16 Name SvcParams",  # RFC 9460, 2.2
    "HTTPS": "Number16 Name SvcParams",  # RFC 9460, 9
    "HHIT": "Base64",  # RFC 9886, 5.1
    "BRID": "Base64",  # RFC 9886, 5.2
    "SPF": "CharStrings",  # RFC 4408, 3.1.1
    "NID": "Number16 Number64",  # RFC 6742, 2.1
    "L32": "Number16 Ipv4",  # RFC 6742, 2.2
    "L64": "Number16 Number64",  # RFC 6742, 2.3
    "LP": "Number16 Name",  # RFC 6742, 2.4
    "EUI48": "Number48",  # RFC 7043, 3.1
    "EUI64": "Number64",  # RFC 7043, 4.1
    "TKEY": "Name Time Time Number16 Number16 CountedBase64 CountedBase64",  # RFC 2930, 2
    "TSIG": "Name Number48 Number16 CountedBase64 Number16 Number16 CountedBase64",  # RFC 8945, 4.2
    "URI": "Number16 Number16 QuotedText",  # RFC 7553, 4.5
    "CAA": "Number8 Tag QuotedText",  # RFC 8659, 4.1
    "AVC": "CharStrings",  # the registry of IANA: as TXT
    "AMTRELAY": "Octets",  # RFC 8777, 4.2
    "RESINFO": "CharStrings",  # RFC 9606, 4
    "WALLET": "CharStrings",  # the registry of IANA: as TXT
    "CLA": "CharStrings",  # the registry of IANA: as TXT
    "DLV": "Number16 Number8 Number8 Base16",  # RFC 4431, 2
}
# The types whose data has its fields in class IN alone
OF_INTERNET = "A WKS PX AAAA SRV KX APL DHCID SVCB HTTPS".split()
IN = 1

# How many octets a field of each kind has that is a number or an address
SIZES = {
    "Number8": 1, "Number16": 2, "Number32": 4, "Number48": 6, "Number64": 8, "Ttl": 4, "Serial": 4, "Time": 4,
    "Rtype": 2, "Ipv4": 4, "Ipv6": 16,
}
# How many octets the count has before the octets of a field
COUNTS = {"CharString": 1, "CountedBase16": 1, "CountedBase64": 2}
MOST_NAME, MOST_LABEL, MOST_POINTERS, MOST_STRING, MOST_BITMAP, MOST_DATA = 255, 63, 255, 255, 32, 65535

# White space and comments; a word; a symbol of a word (RFC 1035, 5.1)
SPACE = re.compile(rb"(?:[ \t\r\n]|;[^\n]*)*")
WORD = re.compile(rb'(?:\\.|"(?:\\.|[^\\"])*"|[^\\" \t\r\n;()])+', re.S)
SYMBOL = re.compile(rb"\\([0-9]{3})|\\([^0-9])|([^\\])", re.S)
# A TTL: seconds, or numbers with units, at most 2^31 - 1 seconds (RFC 2181, 8)
TTL = re.compile(rb"[0-9]+|(?:[0-9]+[wdhms])+", re.I)
TTL_PART = re.compile(rb"([0-9]+)([wdhms]?)", re.I)
SECONDS = {b"w": 604800, b"d": 86400, b"h": 3600, b"m": 60, b"s": 1}
MOST_TTL = 2**31 - 1
# A quote and a dot without a backslash, as `symbols` returns them
QUOTE, DOT = (ord('"'), False), (ord("."), False)
GENERIC = rb"\#"


class Refused(Exception):
    """Why a text isn't data, and at which offset: `reason` is the name of a variant of `Reason`."""

    def __init__(self, at, reason):
        super().__init__(at, reason)
        self.at, self.reason = at, reason


class Fault(Exception):
    """The first error of octets that aren't data: `name` is that of a variant of `DataFault`."""

    def __init__(self, name):
        super().__init__(name)
        self.name = name


class BadLine(Exception):
    """A line of the table that isn't understood."""


def kinds_of(rtype, rclass):
    """Returns the kinds of the fields of data, one of octets where nothing is known of the type in the class."""
    mnemonic = MNEMONICS.get(rtype)
    if mnemonic not in FIELDS or mnemonic in OF_INTERNET and rclass != IN:
        return ["Octets"]
    return FIELDS[mnemonic].split()


# Words and symbols of a text

def split_words(text):
    """Returns the words of a text without comments, each after its offset (RFC 1035, 5.1)."""
    words, at = [], SPACE.match(text).end()
    while at < len(text):
        found = WORD.match(text, at)
        end = found.end() if found else at
        stop = text[end:end + 1]
        if stop in (b"(", b")"):
            raise Refused(end, "Parenthesis")
        if stop == b'"':
            raise Refused(len(text), "OpenQuote")
        if stop == b"\\":
            raise Refused(len(text), "LoneBackslash")
        words.append((at, found[0]))
        at = SPACE.match(text, end).end()
    return words


def symbols(word):
    """Returns the octets of a word, each with whether it has a backslash; None where a backslash is followed by
    digits that aren't the number of an octet (RFC 1035, 5.1)."""
    found, at = [], 0
    while at < len(word):
        symbol = SYMBOL.match(word, at)
        if not symbol:
            return None
        by_number, escaped, itself = symbol.groups()
        octet = int(by_number) if by_number else (escaped or itself)[0]
        if octet > 255:
            return None
        found.append((octet, itself is None))
        at = symbol.end()
    return found


def octets_in(parts):
    """Returns the octets of symbols."""
    return bytes(octet for octet, _has_backslash in parts)


# The octets of a field that a word is: None where the word isn't such a field

def number_in(word, limit):
    """Returns the number below the limit that decimal digits are."""
    if not re.fullmatch(rb"[0-9]+", word):
        return None
    digits = word.lstrip(b"0") or b"0"
    if len(digits) > len(str(limit)) or int(digits) >= limit:
        return None
    return int(digits)


def number_octets(word, size):
    """Returns a number in `size` octets, the high one first (RFC 1035, 2.3.2)."""
    number = number_in(word, 256 ** size)
    return None if number is None else number.to_bytes(size, "big")


def whole(digits):
    """The number that decimal digits are, or 10 ** 11 where it has more than 11 digits."""
    digits = digits.lstrip(b"0") or b"0"
    return int(digits) if len(digits) <= 11 else 10**11


def ttl_of(word):
    """The seconds that a word states, or None: digits, or numbers each with a unit. RFC 2181, 8 has the limit."""
    if not TTL.fullmatch(word):
        return None
    seconds = sum(whole(digits) * SECONDS[unit.lower() or b"s"] for digits, unit in TTL_PART.findall(word))
    return seconds if seconds <= MOST_TTL else None


def ttl_octets(word):
    """Returns the seconds of a TTL in data: a number of 32 bits, or numbers with units (as NSD and dnspython)."""
    seconds = ttl_of(word)
    return number_octets(word, 4) if seconds is None else seconds.to_bytes(4, "big")


def time_octets(word):
    """Returns a point in time: the seconds since 1970, or a date and a time of day in 14 digits (RFC 4034, 3.2)."""
    if len(word) != 14:
        return number_octets(word, 4)
    if not re.fullmatch(rb"[0-9]+", word):
        return None
    try:
        moment = datetime.datetime(int(word[:4]), *(int(word[at:at + 2]) for at in range(4, 14, 2)))
    except ValueError:
        return None
    passed = moment - datetime.datetime(1970, 1, 1)
    seconds = passed.days * 86400 + passed.seconds
    return seconds.to_bytes(4, "big") if 0 <= seconds < 2 ** 32 else None


def type_of(word):
    """Returns the number of a type, which a mnemonic says, or `TYPE` and the number (RFC 3597, 5)."""
    upper = word.upper()
    if upper in NUMBERS:
        return NUMBERS[upper]
    return number_in(word[4:], 65536) if upper.startswith(b"TYPE") else None


def rtype_octets(word):
    """Returns a type as a number of 16 bits (RFC 1035, 3.2.2)."""
    number = type_of(word)
    return None if number is None else number.to_bytes(2, "big")


def ipv4_octets(word):
    """Returns an address of four numbers with dots between them (RFC 1035, 3.4.1)."""
    numbers = [number_octets(it, 1) for it in word.split(b".")]
    return None if len(numbers) != 4 or None in numbers else b"".join(numbers)


def groups_octets(text, is_end):
    """Returns the groups of an IPv6 address on one side of `::`; at the end of the address, the last two may be written
    as an IPv4 address (RFC 4291, 2.2)."""
    if not text:
        return b""
    parts = text.split(b":")
    last = ipv4_octets(parts[-1]) if is_end else None
    groups = parts if last is None else parts[:-1]
    if not all(re.fullmatch(rb"[0-9A-Fa-f]{1,4}", it) for it in groups):
        return None
    return b"".join(int(it, 16).to_bytes(2, "big") for it in groups) + (last or b"")


def ipv6_octets(word):
    """Returns an address of eight groups, where `::` stands for one group of zeros or more (RFC 4291, 2.2)."""
    before, gap, after = word.partition(b"::")
    front, back = groups_octets(before, not gap), groups_octets(after, True)
    if front is None or back is None:
        return None
    zeros = 16 - len(front) - len(back)
    if zeros < 2 if gap else zeros != 0:
        return None
    return front + bytes(zeros) + back


def name_octets(word, origin=None):
    """Returns a name (RFC 1035, 3.1 and 5.1). Without its final dot it goes on with the origin, and `@` alone is the
    origin, if there is one."""
    if word in (b"@", b"."):
        return origin if word == b"@" else b"\0"
    parts = symbols(word)
    if parts is None or QUOTE in parts:
        return None
    labels = [[]]
    for part in parts:
        if part == DOT:
            labels.append([])
        else:
            labels[-1].append(part)
    if parts[-1] == DOT:
        labels.pop()
        origin = b"\0"
    if origin is None or not all(1 <= len(label) <= MOST_LABEL for label in labels):
        return None
    octets = b"".join(bytes([len(label)]) + octets_in(label) for label in labels) + origin
    return octets if len(octets) <= MOST_NAME else None


def text_octets(word):
    """Returns the octets of a string, which may stand between quotes (RFC 1035, 5.1)."""
    parts = symbols(word)
    if parts is None:
        return None
    if parts[0] == QUOTE:
        if parts[1:].count(QUOTE) != 1 or parts[-1] != QUOTE:
            return None
        return octets_in(parts[1:-1])
    return None if QUOTE in parts else octets_in(parts)


def counted(octets):
    """Returns octets behind one that says how many they are."""
    return None if octets is None or len(octets) > MOST_STRING else bytes([len(octets)]) + octets


def string_octets(word):
    """Returns a character string (RFC 1035, 3.3)."""
    return counted(text_octets(word))


def tag_octets(word):
    """Returns a tag of letters and digits behind their number (RFC 8659, 4.1)."""
    return counted(word) if re.fullmatch(rb"[0-9A-Za-z]+", word) else None


def hex_octets(word):
    """Returns the octets of hexadecimal digits, two for each (RFC 4648, 8)."""
    return binascii.unhexlify(word) if re.fullmatch(rb"(?:[0-9A-Fa-f]{2})+", word) else None


def salt_octets(word):
    """Returns a salt behind its length, which a hyphen says to be zero (RFC 5155, 3.3)."""
    return b"\0" if word == b"-" else counted(hex_octets(word))


def hash_octets(word):
    """Returns the octets that digits in base32hex are, five bits in each, behind their number (RFC 4648, 7; RFC 5155,
    3.3). The bits after the last octet are zeros, and fewer than a digit has."""
    if not re.fullmatch(rb"[0-9A-Va-v]+", word):
        return None
    size, spare = divmod(5 * len(word), 8)
    number = int(word, 32)
    if spare >= 5 or number % 2 ** spare:
        return None
    return counted((number >> spare).to_bytes(size, "big"))


# How a field that is one word is read, and the reason where the word isn't such a field
WORD_FORMS = {
    "Number8": (lambda word: number_octets(word, 1), "Number"),
    "Number16": (lambda word: number_octets(word, 2), "Number"),
    "Number32": (lambda word: number_octets(word, 4), "Number"),
    "Ttl": (ttl_octets, "Number"),
    "Serial": (lambda word: number_octets(word, 4), "Number"),
    "Time": (time_octets, "Time"),
    "Rtype": (rtype_octets, "Rtype"),
    "Ipv4": (ipv4_octets, "Ipv4"),
    "Ipv6": (ipv6_octets, "Ipv6"),
    "Name": (name_octets, "Name"),
    "CharString": (string_octets, "CharString"),
    "OptionalString": (string_octets, "CharString"),
    "Tag": (tag_octets, "Tag"),
    "QuotedText": (text_octets, "QuotedText"),
    "CountedBase16": (salt_octets, "CountedBase16"),
    "CountedBase32": (hash_octets, "CountedBase32"),
}


# A field that is all words to the end

def read_each(words, form, reason):
    """Returns the octets of words that are each read alike."""
    octets = []
    for begin, word in words:
        octets.append(form(word))
        if octets[-1] is None:
            raise Refused(begin, reason)
    return b"".join(octets)


def read_base64(words):
    """Returns the octets of one base64 text in words, with its padding and without stray bits (RFC 4648, 3.5 and 4)."""
    text = b"".join(word for _begin, word in words)
    try:
        octets = base64.b64decode(text, validate=True)
    except binascii.Error:
        octets = b""
    if base64.b64encode(octets) != text:
        raise Refused(words[0][0], "Base64")
    return octets


def bitmaps_of(types):
    """Returns the blocks of a set of types: for each window with a type its number, the length of its bitmap, and the
    bitmap up to its last octet that isn't zero (RFC 4034, 4.1.2)."""
    blocks = b""
    for window in sorted({rtype // 256 for rtype in types}):
        places = [rtype % 256 for rtype in types if rtype // 256 == window]
        bits = sum(1 << 255 - place for place in places)
        bitmap = bits.to_bytes(32, "big").rstrip(b"\0")
        blocks += bytes([window, len(bitmap)]) + bitmap
    return blocks


def read_types(words):
    """Returns the bitmaps of the types that words are, in any order (RFC 4034, 4.2)."""
    types = set()
    for begin, word in words:
        number = type_of(word)
        if number is None:
            raise Refused(begin, "Rtype")
        types.add(number)
    return bitmaps_of(types)


END_FORMS = {
    "CharStrings": lambda words: read_each(words, string_octets, "CharString"),
    "Base16": lambda words: read_each(words, hex_octets, "Base16"),
    "Base64": read_base64,
    "TypeBitmaps": read_types,
    "OptionalTypeBitmaps": read_types,
}
# Kinds of which a field may have no word.
ABSENT = ("OptionalString", "OptionalTypeBitmaps")


def read_field(kind, words, origin):
    """Returns the octets of the field that words begin with, and the words after it. Names go on with the origin."""
    if not words and kind in ABSENT:
        return b"", []
    begin, word = words[0]
    if kind in END_FORMS:
        return END_FORMS[kind](words), []
    if kind not in WORD_FORMS:
        raise Refused(begin, "OnlyGeneric")
    form, reason = WORD_FORMS[kind]
    octets = form(word, origin) if kind == "Name" else form(word)
    if octets is None:
        raise Refused(begin, reason)
    return octets, words[1:]


def read_generic(rtype, rclass, words, end):
    """Returns the octets after `\\#` and their number (RFC 3597, 5)."""
    if len(words) < 2:
        raise Refused(end, "MissingWord")
    (mark_at, _mark), (count_at, count_word) = words[:2]
    count = number_in(count_word, MOST_DATA + 1)
    if count is None:
        raise Refused(count_at, "Number")
    octets = read_each(words[2:], hex_octets, "Base16")
    if len(octets) != count:
        raise Refused(count_at, "OctetCount")
    if not is_plain_data(rtype, rclass, octets):
        raise Refused(mark_at, "NotData")
    return octets


def read(rtype, rclass, text, origin=None):
    """Returns the octets of the data that a text says, without compressed names (RFC 1035, 5.1; RFC 3597, 5). Without
    an origin each name has its final dot."""
    words = split_words(text)
    if words and words[0][1] == GENERIC:
        return read_generic(rtype, rclass, words, len(text))
    data = []
    for kind in kinds_of(rtype, rclass):
        if not words and kind not in ABSENT:
            raise Refused(len(text), "MissingWord")
        octets, words = read_field(kind, words, origin)
        data.append(octets)
    if words:
        raise Refused(words[0][0], "ExtraWord")
    octets = b"".join(data)
    if len(octets) > MOST_DATA:
        raise Refused(len(text), "LongData")
    return octets


# Fields in a message

def number_at(message, at, size):
    """Returns the number in `size` octets at an offset."""
    if at + size > len(message):
        raise Fault("ShortInput")
    return int.from_bytes(message[at:at + size], "big")


def end_of_counted(message, at, size):
    """Returns the offset after octets whose count is before them, in `size` octets."""
    end = at + size + number_at(message, at, size)
    if end > len(message):
        raise Fault("ShortInput")
    return end


def name_at(message, begin):
    """Returns the octets of a name without pointers, and the offset after it (RFC 1035, 3.1 and 4.1.4)."""
    octets, at, end, pointers = b"", begin, None, 0
    while at < len(message):
        first = message[at]
        if first == 0:
            return octets + b"\0", at + 1 if end is None else end
        if first <= MOST_LABEL:
            label = message[at:at + 1 + first]
            if len(label) <= first:
                break
            octets += label
            if len(octets) >= MOST_NAME:
                raise Fault("Name/LongName")
            at += len(label)
        elif first < 0xC0:
            raise Fault("Name/BadLabelType")
        else:
            if at + 2 > len(message):
                break
            target, pointers = number_at(message, at, 2) & 0x3FFF, pointers + 1
            if target >= at or pointers > MOST_POINTERS:
                raise Fault("Name/TooManyPointers")
            end, at = at + 2 if end is None else end, target
    raise Fault("Name/ShortInput")


def end_of_tag(message, at):
    """Returns the offset after a tag of one letter or digit or more (RFC 8659, 4.1)."""
    end = end_of_counted(message, at, 1)
    if not re.fullmatch(rb"[0-9A-Za-z]+", message[at + 1:end]):
        raise Fault("InvalidTag")
    return end


def end_of_hash(message, at):
    """Returns the offset after the hash of NSEC3 (RFC 5155, 3.1.6 and 3.1.7)."""
    if number_at(message, at, 1) == 0:
        raise Fault("EmptyHash")
    return end_of_counted(message, at, 1)


def end_of_optional(message, at):
    """Returns the offset after a character string, or of the end of the data (RFC 1183, 3.2)."""
    return end_of_counted(message, at, 1) if at < len(message) else at


def end_of_strings(message, at):
    """Returns the offset after one character string or more (RFC 1035, 3.3.14)."""
    at = end_of_counted(message, at, 1)
    while at < len(message):
        at = end_of_counted(message, at, 1)
    return at


def end_of_bitmaps(message, at):
    """Returns the offset after blocks of a bitmap, or none, whose windows ascend (RFC 4034, 4.1.2)."""
    last = -1
    while at < len(message):
        window, count = message[at], number_at(message, at + 1, 1)
        if window <= last:
            raise Fault("WindowOrder")
        if not 1 <= count <= MOST_BITMAP:
            raise Fault("BitmapLength")
        last, at = window, end_of_counted(message, at + 1, 1)
    return at


def end_of_present_bitmaps(message, at):
    """Returns the offset after one block of a bitmap or more (RFC 4034, 4.1.2)."""
    if at == len(message):
        raise Fault("ShortInput")
    return end_of_bitmaps(message, at)


def end_of_parameters(message, at):
    """Returns the offset after service parameters, or none, whose keys ascend (RFC 9460, 2.2)."""
    last = -1
    while at < len(message):
        key = number_at(message, at, 2)
        if key <= last:
            raise Fault("KeyOrder")
        last, at = key, end_of_counted(message, at + 2, 2)
    return at


# How the end of a field is found, for kinds that have a structure of their own
ENDS = {
    "OptionalString": end_of_optional, "Tag": end_of_tag, "CountedBase32": end_of_hash, "CharStrings": end_of_strings,
    "TypeBitmaps": end_of_present_bitmaps, "OptionalTypeBitmaps": end_of_bitmaps, "SvcParams": end_of_parameters,
}


def end_of(kind, message, at):
    """Returns the offset after a field at an offset that isn't a name."""
    if kind in SIZES:
        number_at(message, at, SIZES[kind])
        return at + SIZES[kind]
    if kind in COUNTS:
        return end_of_counted(message, at, COUNTS[kind])
    return ENDS[kind](message, at) if kind in ENDS else len(message)


def fields_at(kinds, message, begin):
    """Returns the octets of each field of data, in which names have no pointers. The data are the octets of a message
    from an offset on, up to the end."""
    fields, at = [], begin
    for kind in kinds:
        if kind == "Name":
            octets, at = name_at(message, at)
        else:
            end = end_of(kind, message, at)
            octets, at = message[at:end], end
        fields.append(octets)
    if at < len(message):
        raise Fault("TrailingData")
    return fields


def is_plain_data(rtype, rclass, octets):
    """Returns whether octets are data of the type in the class, and no name in it is compressed (RFC 3597, 4 and 5)."""
    try:
        return b"".join(fields_at(kinds_of(rtype, rclass), octets, 0)) == octets
    except Fault:
        return False


# The text of fields

def spelled(octets, escaped):
    """Returns the text of octets: the escaped ones after a backslash, and those that aren't printed as a backslash and
    three digits (RFC 1035, 5.1)."""
    parts = []
    for octet in octets:
        if octet in escaped:
            parts.append(b"\\%c" % octet)
        else:
            parts.append(b"%c" % octet if 0x20 <= octet <= 0x7E else b"\\%03d" % octet)
    return b"".join(parts)


def show_name(octets):
    """Returns the text of a name, a dot after each label."""
    labels, at = [], 0
    while octets[at]:
        label = octets[at + 1:at + 1 + octets[at]]
        labels.append(spelled(label, b'.\\;"()@$ ') + b".")
        at += 1 + octets[at]
    return b"".join(labels) or b"."


def show_text(octets):
    """Returns the text of octets between quotes."""
    return b'"' + spelled(octets, b'"\\') + b'"'


def show_strings(octets):
    """Returns the text of character strings."""
    texts, at = [], 0
    while at < len(octets):
        end = at + 1 + octets[at]
        texts.append(show_text(octets[at + 1:end]))
        at = end
    return b" ".join(texts)


def show_number(octets):
    """Returns the decimal digits of a number."""
    return b"%d" % int.from_bytes(octets, "big")


def show_rtype(octets):
    """Returns the mnemonic of a type, or `TYPE` and its number (RFC 3597, 5)."""
    number = int.from_bytes(octets, "big")
    return MNEMONICS.get(number, f"TYPE{number}").encode()


def show_ipv4(octets):
    """Returns the text of an IPv4 address (RFC 1035, 3.4.1)."""
    return b"%d.%d.%d.%d" % tuple(octets)


def show_ipv6(octets):
    """Returns the text of an IPv6 address, with `::` for the first of the longest runs of zeros, if these are two or
    more (RFC 5952, 4)."""
    groups = [octets[at] << 8 | octets[at + 1] for at in range(0, 16, 2)]
    runs = [(end - begin, -begin) for begin in range(8) for end in range(begin + 2, 9) if not any(groups[begin:end])]
    if not runs:
        return b":".join(b"%x" % it for it in groups)
    length, minus_begin = max(runs)
    sides = groups[:-minus_begin], groups[length - minus_begin:]
    return b"::".join(b":".join(b"%x" % it for it in side) for side in sides)


def show_hash(octets):
    """Returns the digits in base32hex of octets behind their number, in lower case and without padding (RFC 4648, 7;
    RFC 5155, 3.3)."""
    count = (8 * octets[0] + 4) // 5
    number = int.from_bytes(octets[1:], "big") << 5 * count - 8 * octets[0]
    return bytes(b"0123456789abcdefghijklmnopqrstuv"[number >> 5 * at & 31] for at in reversed(range(count)))


def blocks_in(octets):
    """Returns the window and the bitmap of each block."""
    blocks, at = [], 0
    while at < len(octets):
        end = at + 2 + octets[at + 1]
        blocks.append((octets[at], octets[at + 2:end]))
        at = end
    return blocks


def show_types(octets):
    """Returns the types of bitmaps, in the order of their numbers, with a space between two (RFC 4034, 4.2)."""
    types = [
        256 * window + place
        for window, bitmap in blocks_in(octets)
        for place in range(8 * len(bitmap)) if bitmap[place // 8] >> 7 - place % 8 & 1
    ]
    return b" ".join(show_rtype(it.to_bytes(2, "big")) for it in types)


# How a field of each kind is written. A kind that isn't here has no form of its own.
SHOWN = {
    "Number8": show_number, "Number16": show_number, "Number32": show_number, "Ttl": show_number,
    "Serial": show_number, "Time": show_number, "Rtype": show_rtype, "Ipv4": show_ipv4, "Ipv6": show_ipv6,
    "Name": show_name, "CharString": show_strings, "OptionalString": show_strings, "CharStrings": show_strings,
    "QuotedText": show_text, "Tag": lambda octets: octets[1:], "Base16": binascii.hexlify, "Base64": base64.b64encode,
    "CountedBase16": lambda octets: binascii.hexlify(octets[1:]) or b"-", "CountedBase32": show_hash,
    "TypeBitmaps": show_types, "OptionalTypeBitmaps": show_types,
}
# Kinds of which a field without octets has no word.
WITHOUT_WORD = ("Base16", "Base64")


def is_shown(kind, octets):
    """Returns whether a field has a text. One without octets has none, nor have bitmaps that end in a zero octet, which
    RFC 4034, 4.1.2, has to be omitted."""
    if "TypeBitmaps" in kind:
        return all(bitmap[-1] for _window, bitmap in blocks_in(octets))
    return kind in SHOWN and (octets or kind not in WITHOUT_WORD)


def show(rtype, rclass, message, begin):
    """Returns the text of the data that a message has from an offset on, up to its end (RFC 1035, 5.1; RFC 3597, 5)."""
    kinds = kinds_of(rtype, rclass)
    fields = fields_at(kinds, message, begin)
    if all(is_shown(*it) for it in zip(kinds, fields)):
        texts = [SHOWN[kind](octets) for kind, octets in zip(kinds, fields)]
        return b" ".join(it for it in texts if it)
    octets = b"".join(fields)
    return b" ".join([GENERIC, b"%d" % len(octets)] + ([binascii.hexlify(octets)] if octets else []))


# Lines of the table

def octets_of(field):
    """Returns the octets that hexadecimal digits say; a hyphen stands for none."""
    octets = b"" if field == b"-" else hex_octets(field)
    if octets is None:
        raise BadLine(field)
    return octets


def text_of(rest):
    """Returns the text that the rest of a line is: unchanged, or the octets after `hex:`."""
    if not rest.startswith(b"hex:"):
        return rest
    return octets_of(rest[4:])


def number_of(field, limit):
    """Returns the number that a field of a line is, below the limit."""
    number = number_in(field, limit)
    if number is None:
        raise BadLine(field)
    return number


def answer_read(fields):
    """Returns the answer to a line `read` with these fields."""
    rtype, rclass, rest = fields
    numbers = number_of(rtype, 65536), number_of(rclass, 65536)
    text = text_of(rest)
    try:
        return read(*numbers, text).hex() or "-"
    except Refused as refused:
        return f"err {refused.at} {refused.reason}"


def answer_show(fields):
    """Returns the answer to a line `show` with these fields."""
    rtype, rclass, digits, begin = fields
    message = octets_of(digits)
    numbers = number_of(rtype, 65536), number_of(rclass, 65536)
    at = number_of(begin, len(message) + 1)
    try:
        return show(*numbers, message, at).decode("ascii")
    except Fault as fault:
        return f"err {fault.name}"


def answer_words(fields):
    """Returns the answer to a line `words` with this text."""
    text, = fields
    try:
        words = split_words(text_of(text))
    except Refused as refused:
        return f"err {refused.at} {refused.reason}"
    return " ".join(f"{begin}/{word.hex()}" for begin, word in words) or "none"


def place_of(text, at):
    """Returns line and column of an offset, counted from 1. An offset after the end is taken for the end."""
    at = min(at, len(text))
    return text.count(b"\n", 0, at) + 1, at - text.rfind(b"\n", 0, at)


def answer_place(fields):
    """Returns the answer to a line `place` with these fields."""
    at, rest = fields
    line, column = place_of(text_of(rest), number_of(at, 10**15))
    return f"{line} {column}"


# How many fields each line has, the last of which may be a text with spaces, and what answers it.
CALLS = {
    b"read": (3, answer_read), b"show": (4, answer_show), b"words": (1, answer_words), b"place": (2, answer_place),
}


def answer(line):
    """Returns the answer to a line of the table: `bad` to one that isn't understood. A heading is its own answer."""
    if line.startswith(b"#"):
        return line.decode(errors="surrogateescape")
    call, space, rest = line.partition(b" ")
    count, answered = CALLS.get(call, (0, None))
    fields = rest.split(b" ", count - 1) if space and count else []
    try:
        return answered(fields) if answered and len(fields) == count else "bad"
    except BadLine:
        return "bad"


def main():
    """Answers each line of standard input that isn't empty."""
    for line in sys.stdin.buffer:
        line = line.removesuffix(b"\n")
        if line:
            sys.stdout.buffer.write(answer(line).encode(errors="surrogateescape") + b"\n")


if __name__ == "__main__":
    main()
