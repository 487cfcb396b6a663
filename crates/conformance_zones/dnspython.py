#!/usr/bin/env python3
"""Compares what the table answers to `read`, `show` and `entries` with dnspython 2.3, word by word.

    dnspython.py LINES ANSWERS

LINES and ANSWERS are files such as `stdin` and `stdout`. Octets are compared with those that dnspython makes of a
text, texts with what it shows, and the records of a zone one by one: all of them octet by octet. A row passes where
both answers are the same; where they are the same once the row is said to dnspython, or its answer is written, as the
turns tell, the fewest that serve; where both refuse it, however it is said; or where dnspython alone takes it, for a
reason of ONE_SIDED or of ENTRY_REASONS. Which fault a row has isn't compared. Each turn and reason is printed with the
count of its rows, and with the RFC by which it is so. The last line is 'N passed, N failed', and the status 1 where
one failed. It needs Debian's python3-dnspython.
"""
import base64
import calendar
import collections
import functools
import itertools
import re
import sys
import time
from typing import NamedTuple, Optional

import dns.dnssectypes
import dns.exception
import dns.name
import dns.rdata
import dns.rdataclass
import dns.rdatatype
import dns.tokenizer
import dns.ttl
import dns.zonefile

sys.dont_write_bytecode = True
import data_rows

IN, CHAOS, PRIVATE = 1, 3, 65280
A, NS, SOA, HINFO, TXT, RP, X25, ISDN, SIG, GPOS, AAAA, NAPTR, CERT = 1, 2, 6, 13, 16, 17, 19, 20, 24, 27, 28, 35, 37
DS, RRSIG, DNSKEY, CDS, ZONEMD, SPF, URI, CAA, AVC, DLV = 43, 46, 48, 59, 63, 99, 256, 257, 258, 32769
NXT, NSEC, NSEC3, OPENPGPKEY, CSYNC, SVCB, HTTPS, TSIG = 30, 47, 50, 61, 62, 64, 65, 250
# Types that dnspython doesn't know, and one with the same fields that it knows (RFC 1035, 3.3; RFC 2535, 3 and 4).
SAME_FIELDS = {3: NS, 4: NS, 7: NS, 8: NS, 9: NS, 14: RP, SIG: RRSIG, 25: DNSKEY, 57: DNSKEY, 58: RP,
               67: OPENPGPKEY, 68: OPENPGPKEY, 261: TXT, 262: TXT, 263: TXT}
# Types of character strings alone of which dnspython asks more, and how many these are (RFC 1035, 3.3.2; RFC 1183, 3;
# RFC 1712).
OF_STRINGS = {HINFO: (2,), X25: (1,), ISDN: (1, 2), GPOS: (3,)}
# Types of one character string or more, as TXT.
OF_TEXT = (TXT, 56, SPF, AVC, 261, 262, 263)
# The strings of other types that dnspython takes for UTF-8, as it names them.
OF_UTF8 = {NAPTR: ("flags", "service", "regexp"), URI: ("target",), CAA: ("value",)}
# Types with a digest of which dnspython checks the length, by type, scheme and algorithm: which words these are, and
# at which octets. Of UNCHECKED it checks none.
CHECKED, UNCHECKED = {DS: ((2, 3),), CDS: ((2, 3),), DLV: ((2, 3),), ZONEMD: ((1, 4), (2, 5))}, 200
# Types with bitmaps of types.
OF_BITMAPS = (NSEC, NSEC3, CSYNC)
# Types whose data is octets here, of which dnspython reads the fields.
OF_OCTETS = (11, 23, 29, 41, 42, 45, 55, 260)
# The mnemonics that dnspython doesn't have.
OTHER_TYPES = {name: number for number, name in data_rows.TYPES.items() if number not in iter(dns.rdatatype.RdataType)}
OTHER_TYPES.update({"*": 255, "NSAP-PTR": 23})
TYPE_NUMBERS = {name: number for number, name in data_rows.TYPES.items()} | {"*": 255}
# Certificates by their mnemonics (RFC 4398, 2.1).
CERTIFICATES = dict(zip("PKIX SPKI PGP IPKIX ISPKI IPGP ACPKIX IACPKIX URI OID".split(), (*range(1, 9), 253, 254)))
ALGORITHMS = {it.name: it.value for it in dns.dnssectypes.Algorithm}
# An octet by its number, or another one behind a backslash (RFC 1035, 5.1).
ESCAPES = re.compile(rb"\\(?:([0-9]{3})|([^0-9]))", re.S)
# A word, which is the group, or white space or a comment between two (RFC 1035, 5.1).
PARTS = re.compile(rb'[ \t\r\n]+|;[^\n]*|((?:\\.|"(?:\\.|[^\\"])*"|[^ \t\r\n;()\\"])+)', re.S)

# What the octets of an entry are cut into: an octet behind a backslash, a string, a comment, or another octet.
ENTRY_PARTS = re.compile(rb'\\.|"(?:\\.|[^\\"])*"|;[^\n]*|[^\\"();\n]+|[^\\"]', re.S)


@functools.lru_cache(maxsize=64)
def words_of(text):
    """The words of a text, None where it isn't words, white space and comments alone."""
    found, at = [], 0
    while at < len(text):
        part = PARTS.match(text, at)
        if not part:
            return None
        found += [part[1]] if part[1] else []
        at = part.end()
    return tuple(found)


class Text(NamedTuple):
    """A text of data as it is said to dnspython, what changes its octets afterwards, and the origin of its names."""

    rtype: int
    rclass: int
    octets: bytes
    back: tuple = ()
    encoding: str = "utf-8"
    origin: Optional[dns.name.Name] = None

    def words(self):
        """The words of the text, None where it isn't words, white space and comments alone."""
        found = words_of(self.octets)
        return None if found is None else list(found)

    def is_generic(self):
        """Whether its first word is the mark of any data."""
        return bool(re.match(rb"(?:[ \t\r\n]|;[^\n]*\n)*\\#(?=[ \t\r\n;]|\Z)", self.octets))

    def with_kinds(self):
        """The words of fields after the kinds of these."""
        if self.rtype not in data_rows.FIELDS or self.is_generic():
            return []
        return list(zip(data_rows.FIELDS[self.rtype], self.words() or []))

    def places_of_types(self):
        """Which of its words are types."""
        kinds = "*" if self.is_generic() else data_rows.FIELDS.get(self.rtype, "*")
        count = len(self.words() or [])
        if kinds[0] == "R":
            return range(min(count, 1))
        return range(len(kinds) - 1, count) if kinds[-1] in "BO" else range(0)

    def with_words(self, words):
        """The same text with other words, None where they are the same ones."""
        text = b" ".join(words)
        return self._replace(octets=text) if text != self.octets else None

    def answer(self):
        """The octets that dnspython makes of it, None where it refuses it. Octets after the mark have no origin: with
        one dnspython refuses names below it."""
        try:
            text, origin = self.octets.decode(self.encoding, "surrogateescape"), None if self.is_generic() else self.origin
            rdata = dns.rdata.from_text(self.rclass, self.rtype, text, origin, relativize=False)
            if self.encoding == "latin-1":
                values = {it: getattr(rdata, it).decode().encode("latin-1") for it in OF_UTF8[self.rtype]}
                rdata = rdata.replace(**values)
            octets = rdata.to_wire()
        except Exception:  # of many kinds
            return None
        for change in self.back:
            octets = change(octets)
        return octets


class Data(NamedTuple):
    """Data in a message as it is said to dnspython, and what changes its text afterwards."""

    rtype: int
    rclass: int
    message: bytes
    begin: int
    is_generic: bool = False
    back: tuple = ()

    def answer(self):
        """The text that dnspython shows of it, None where it refuses it."""
        try:
            size = len(self.message) - self.begin
            rdata = dns.rdata.from_wire(self.rclass, self.rtype, self.message, self.begin, size)
            rdata = rdata.to_generic() if self.is_generic else rdata
            # The text of OPENPGPKEY has no chunks, and takes no size of them.
            text = (rdata.to_text() if self.rtype in (OPENPGPKEY, 67, 68) else rdata.to_text(chunksize=0)).encode("ascii")
        except Exception:  # of many kinds
            return None
        for change in self.back:
            text = change(text)
        return text

    def changed(self, change, **fields):
        """The same data whose text is changed."""
        return self._replace(back=(*self.back, change), **fields)


def spelled(text):
    """The same words on one line."""
    words = text.words()
    return text.with_words(words) if words is not None else None


def numbered(text):
    """The same words, with a line feed and each octet past ASCII by its number."""
    def number(it):
        return b"\\%03d" % it[1][0] if it[1] else it[0]
    words = [re.sub(rb"\\?([\n\x80-\xff])|\\.", number, it, flags=re.S) for it in text.words() or []]
    return text.with_words(words) if words and words != text.words() else None


def said_as(row):
    """The same as of a type with the same fields."""
    return row._replace(rtype=SAME_FIELDS[row.rtype]) if row.rtype in SAME_FIELDS else None


def in_internet(row):
    """NAPTR in class IN."""
    return row._replace(rclass=IN) if row.rtype == NAPTR and row.rclass != IN else None


def as_octets(row):
    """The same as of a type for private use."""
    is_of_octets = row.rtype in OF_OCTETS or (row.rtype, row.rclass) == (A, CHAOS)
    is_of_octets = is_of_octets and (row.is_generic() if isinstance(row, Text) else True)
    return row._replace(rtype=PRIVATE) if is_of_octets else None


def without_zeros(text):
    """The numbers of addresses and times without zeros before them."""
    def plain(kind, word):
        if kind == "T" and len(word) != 14:
            return re.sub(rb"^0+(?=[0-9])", b"", word)
        return re.sub(rb"(?<![0-9a-fA-F])0+(?=[0-9]+(?:\.|\Z))", b"", word) if kind in "aA" and b"." in word else word
    fields = text.with_kinds()
    words = [plain(*it) for it in fields] + (text.words() or [])[len(fields):]
    return text.with_words(words) if fields and words != text.words() else None


def types_by_number(text):
    """Types by their numbers, where dnspython doesn't have their mnemonics."""
    words = text.words() or []
    for place in text.places_of_types():
        number = OTHER_TYPES.get(words[place].decode("latin-1").upper())
        words[place] = b"TYPE%d" % number if number is not None else words[place]
    return text.with_words(words) if words != (text.words() or []) else None


def without_type_0(text):
    """Bitmaps without type 0, and the octets with it."""
    words, places = text.words() or [], text.places_of_types()
    kept = [it for place, it in enumerate(words) if place not in places or type_of(it) != 0]
    if text.rtype not in OF_BITMAPS or kept == words:
        return None
    front = text._replace(octets=b" ".join(words[:places.start]))
    def put_back(octets):
        at = len(front.answer())
        if octets[at:at + 1] != b"\0":
            return octets[:at] + b"\0\x01\x80" + octets[at:]
        return octets[:at + 2] + bytes([octets[at + 2] | 0x80]) + octets[at + 3:]
    return text._replace(octets=b" ".join(kept), back=(*text.back, put_back))


def with_padding(text):
    """A hash with padding."""
    words = [it + b"=" * (-len(it) % 8) if kind == "X" and b"=" not in it else it for kind, it in text.with_kinds()]
    words += (text.words() or [])[len(words):]
    return text.with_words(words) if text.rtype == NSEC3 and words != (text.words() or []) else None


def octets_after_mark(text):
    """The octets after the mark of any data, None where they aren't ones."""
    digits = b"".join((text.words() or [])[2:])
    return bytes.fromhex(digits.decode()) if re.fullmatch(rb"(?:[0-9a-fA-F]{2})*", digits) else None


def put_in(at, number):
    """A change of the octet there, if there is one, to this number."""
    return lambda octets: octets[:at] + bytes([number]) + octets[at + 1:] if at < len(octets) else octets


def other_digest_of_octets(text):
    """The same of octets after the mark."""
    octets, back = octets_after_mark(text), ()
    for _place, at in CHECKED.get(text.rtype, ()) if octets else ():
        if at < len(octets):
            back += (put_in(at, octets[at]),)
            octets = put_in(at, UNCHECKED)(octets)
    words = (text.words() or [])[:2] + [octets.hex().encode()] if back else []
    return text._replace(octets=b" ".join(words), back=text.back + back) if back else None


def other_digest(text):
    """The same with digest types whose length isn't checked, and the octets with those that are written."""
    if text.is_generic():
        return other_digest_of_octets(text)
    fields, words, back = text.with_kinds(), text.words(), ()
    for place, at in CHECKED.get(text.rtype, ()):
        if len(fields) <= place or not re.fullmatch(rb"[0-9]+", words[place]) or int(words[place]) > 255:
            return None
        back += (put_in(at, int(words[place])),)
        words[place] = b"%d" % UNCHECKED
    return text._replace(octets=b" ".join(words), back=text.back + back) if back else None


def strings_alone(text):
    """The same as of TXT, where the words are as many as the strings of the type."""
    if text.is_generic():
        count = count_of_strings(octets_after_mark(text) or b"")
    else:
        count = len(text.words() or [])
    return text._replace(rtype=TXT) if count in OF_STRINGS.get(text.rtype, ()) else None


def count_of_strings(octets):
    """How many strings octets are."""
    at, count = 0, 0
    while at < len(octets):
        at, count = at + 1 + octets[at], count + 1
    return count


def not_utf8(text):
    """The same with a character for each octet."""
    is_so = text.rtype in OF_UTF8 and text.with_kinds()
    return text._replace(encoding="latin-1") if is_so else None


def octets_of_string(word):
    """The octets of a string of a zone, None where the word is none."""
    word = word[1:-1] if len(word) > 1 and word[:1] == word[-1:] == b'"' else word
    numbers = [int(number) for number, _octet in ESCAPES.findall(word) if number]
    if re.search(rb'[\\"]', ESCAPES.sub(b"", word)) or any(it > 255 for it in numbers):
        return None
    return ESCAPES.sub(lambda it: bytes([int(it[1])]) if it[1] else it[2], word)


def ascii_strings(text):
    """The strings of NAPTR with an x for each octet past ASCII, and the octets with these: two octets of UTF-8 are
    one here, of 255 that a string may have."""
    strings = [octets_of_string(word) for _kind, word in text.with_kinds()[2:5]] if text.rtype == NAPTR else []
    if len(strings) < 3 or any(it is None or len(it) > 255 for it in strings):
        return None
    said = [b'"%s"' % b"".join(b"x" if it > 127 else b"\\%03d" % it for it in string) for string in strings]
    strings_in_data = b"".join(bytes([len(it)]) + it for it in strings)
    def put_back(octets):
        return octets[:4] + strings_in_data + octets[4 + len(strings_in_data):]
    words = text.words()
    return text._replace(octets=b" ".join(words[:2] + said + words[5:]), back=(*text.back, put_back))


def some_target(text):
    """A target of one octet in place of none, and the octets without it."""
    words = text.words() or []
    if text.rtype != URI or words[-1:] != [b'""']:
        return None
    return text._replace(octets=b" ".join(words[:-1] + [b"x"]), back=(*text.back, lambda octets: octets[:-1]))


def error_from_end(message, begin):
    """How many octets before the end the error of TSIG is, None where it isn't there (RFC 8945, 4.2)."""
    try:
        _name, size = dns.name.from_wire(message, begin)
    except dns.exception.DNSException:
        return None
    at = begin + size + 8
    at += 4 + int.from_bytes(message[at:at + 2], "big")
    return len(message) - at if at + 4 <= len(message) else None


def without_error_in_text(text):
    """TSIG without an error after the mark, and the octets with it."""
    octets = octets_after_mark(text) if text.rtype == TSIG and text.is_generic() else None
    place = error_from_end(octets, 0) if octets else None
    if place is None:
        return None
    at = len(octets) - place
    said = (octets[:at] + b"\0\0" + octets[at + 2:]).hex().encode()
    words = text.words()[:2] + [said]
    back = (put_in(at, octets[at]), put_in(at + 1, octets[at + 1]))
    return text._replace(octets=b" ".join(words), back=text.back + back)


def service_mode_in_text(text):
    """Parameters after a priority of 0 as after one of 1, and the octets with 0."""
    octets = octets_after_mark(text) if text.rtype in (SVCB, HTTPS) and text.is_generic() else None
    if not octets or octets[:2] != b"\0\0":
        return None
    said = (b"\0\x01" + octets[2:]).hex().encode()
    return text._replace(octets=b" ".join(text.words()[:2] + [said]), back=(*text.back, put_in(1, 0)))


# What dnspython takes otherwise in texts: what it is, the RFC by which it is so here, and how it is said to dnspython.
TEXT_TURNS = (
    ("ends of lines and carriage returns are white space", "RFC 1035, 5.1", spelled),
    ("a text is octets and not characters in UTF-8", "RFC 1035, 3.3", numbered),
    ("types that dnspython doesn't know are known", "RFC 1035, 3.3; RFC 2535, 3 and 4; RFC 9606; RFC 9886", said_as),
    ("NAPTR is of every class", "RFC 3403, 4.1", in_internet),
    ("WKS, NSAP-PTR, LOC, OPT, APL, IPSECKEY, HIP, AMTRELAY and A in CHAOS are octets", "RFC 3597, 5",
     as_octets),
    ("numbers of addresses and seconds may have zeros before them", "RFC 1035, 3.4.1; RFC 4034, 3.2", without_zeros),
    ("mnemonics of types that dnspython doesn't have", "RFC 1035, 3.2.3; RFC 6895, 3.1", types_by_number),
    ("the length of a digest isn't checked", "RFC 4034, 5.1.4; RFC 8976, 2.2.4", other_digest),
    ("strings of HINFO, X25, ISDN and GPOS are any octets", "RFC 1035, 3.3; RFC 1183, 3; RFC 1712, 3", strings_alone),
    ("strings of NAPTR, URI and CAA are octets and not characters", "RFC 3403, 4.1; RFC 7553, 4.4; RFC 8659, 4.1",
     not_utf8),
    ("strings of NAPTR have 255 octets, and not 255 of UTF-8", "RFC 1035, 3.3; RFC 3403, 4.1", ascii_strings),
    ("that a target isn't empty isn't asked", "RFC 7553, 4.4", some_target),
    ("the error of TSIG is any number", "RFC 8945, 4.2", without_error_in_text),
    ("parameters in AliasMode are ignored", "RFC 9460, 2.4.2", service_mode_in_text),
    ("a hash has no padding", "RFC 5155, 3.3", with_padding),
    ("bitmaps have any type, 0 too", "RFC 3597, 5", without_type_0),
)


def as_any_data(data):
    """As data of any type, where a field has no text, the last field is empty, or bitmaps end in zeros."""
    return data._replace(is_generic=True, back=(*data.back, bytes.rstrip)) if not data.is_generic else None


def outside_quotes(pattern, change):
    """A change of what a pattern matches outside of quotes."""
    parts = re.compile(rb'"(?:\\.|[^"\\])*"|(' + pattern + rb")|\\.", re.S)
    return lambda text: parts.sub(lambda it: change(it[1]) if it[1] else it[0], text)


def spaces_in_names(data):
    """Spaces of names behind a backslash, not by their number."""
    return data.changed(outside_quotes(rb"\\032", lambda _it: b"\\ "))


def seconds(data):
    """Times as seconds."""
    if data.rtype not in (SIG, RRSIG):
        return None
    def of_date(it):
        return b"%d" % calendar.timegm(time.strptime(it.decode(), "%Y%m%d%H%M%S"))
    return data.changed(lambda text: re.sub(rb"(?<= )[0-9]{14}(?= )", lambda it: of_date(it[0]), text))


def types_by_mnemonic(data):
    """Types by their mnemonics, where dnspython doesn't have these."""
    if data.rtype not in (SIG, RRSIG, *OF_BITMAPS):
        return None
    names = {b"TYPE%d" % number: name.encode() for name, number in OTHER_TYPES.items() if name != "*"}
    names[b"NSAP_PTR"] = b"NSAP-PTR"
    return data.changed(lambda text: re.sub(rb"(?:^|(?<= ))\S+", lambda it: names.get(it[0], it[0]), text))


def hash_without_padding(data):
    """A hash without padding."""
    return data.changed(lambda text: text.replace(b"=", b"")) if data.rtype == NSEC3 else None


def certificate_numbers(data):
    """The type and the algorithm of a certificate by their numbers."""
    def numbers(text):
        words = text.split(b" ")
        for place, names in ((0, CERTIFICATES), (2, ALGORITHMS)):
            words[place] = b"%d" % names[words[place].decode()] if words[place].decode() in names else words[place]
        return b" ".join(words)
    return data.changed(numbers) if data.rtype == CERT else None


def hexadecimal_groups(data):
    """The last octets of an address as groups."""
    def groups(it):
        octets = bytes(int(part) for part in it[0].split(b"."))
        return b"%x:%x" % (int.from_bytes(octets[:2], "big"), int.from_bytes(octets[2:], "big"))
    return data.changed(lambda text: re.sub(rb"(?:[0-9]+\.){3}[0-9]+\Z", groups, text)) if data.rtype == AAAA else None


def other_digest_of_data(data):
    """The same with digest types whose length isn't checked, and the text with those that are there."""
    message = bytearray(data.message)
    for place, at in CHECKED.get(data.rtype, ()):
        if data.begin + at >= len(message):
            return None
        number, message[data.begin + at] = message[data.begin + at], UNCHECKED
        def put_back(text, place=place, at=at, number=number):
            words = text.split(b" ")
            if data.is_generic or text.startswith(b"\\#"):
                return b" ".join(words[:2] + [words[2][:2 * at] + b"%02x" % number + words[2][2 * at + 2:]])
            return b" ".join(words[:place] + [b"%d" % number] + words[place + 1:])
        data = data.changed(put_back)
    return data._replace(message=bytes(message)) if data.rtype in CHECKED else None


def strings_alone_of_data(data):
    """The same as of TXT, where the strings are as many as those of the type."""
    count = count_of_strings(data.message[data.begin:])
    return data._replace(rtype=TXT) if count in OF_STRINGS.get(data.rtype, ()) else None


def target_as_value(data):
    """A target as the value of CAA, after its numbers."""
    octets = data.message[data.begin:]
    if data.rtype != URI or len(octets) < 4:
        return None
    numbers = b"%d %d " % (int.from_bytes(octets[:2], "big"), int.from_bytes(octets[2:4], "big"))
    message = b"\0\x01a" + octets[4:]
    return data.changed(lambda text: numbers + text.removeprefix(b"0 a "), rtype=CAA, message=message, begin=0)


def next_name(data):
    """The name of NXT without pointers, and its other octets."""
    try:
        name, size = dns.name.from_wire(data.message, data.begin)
    except dns.exception.DNSException:
        return None
    octets = name.to_wire() + data.message[data.begin + size:]
    return data._replace(message=octets, begin=0) if data.rtype == NXT else None


def service_mode(data):
    """Parameters after a priority of 0 with one of 1, and the octets with 0."""
    if data.rtype not in (SVCB, HTTPS) or data.message[data.begin:data.begin + 2] != b"\0\0":
        return None
    message = data.message[:data.begin] + b"\0\x01" + data.message[data.begin + 2:]
    put_back = functools.partial(re.sub, rb"(\\# [0-9]+ )0001", rb"\g<1>0000")
    return data.changed(put_back, message=message, is_generic=True)


def without_error(data):
    """TSIG without an error, and the octets with it."""
    place = error_from_end(data.message, data.begin) if data.rtype == TSIG else None
    if place is None:
        return None
    at = len(data.message) - place
    error, message = data.message[at:at + 2].hex().encode(), data.message[:at] + b"\0\0" + data.message[at + 2:]
    return data.changed(lambda text: text[:len(text) - 2 * place] + error + text[len(text) - 2 * place + 4:],
                        message=message, is_generic=True)


def one_pointer(data):
    """A name that begins with pointers, at most 255, with one to where they lead."""
    at, count = data.begin, 0
    while data.rtype == NS and at + 1 < len(data.message) and data.message[at] >= 0xc0 and count < 255:
        at, count = int.from_bytes(data.message[at:at + 2], "big") - 0xc000, count + 1
    if count < 2 or data.message[at:at + 1] >= b"\xc0":
        return None
    pointer = (0xc000 + at).to_bytes(2, "big")
    return data._replace(message=data.message[:data.begin] + pointer + data.message[data.begin + 2:])


# What dnspython takes or shows otherwise of octets: what it is, the RFC by which it is so here, and how it is said.
DATA_TURNS = (
    *TEXT_TURNS[2:5],
    ("data with a field without a text, an empty last field, or bitmaps that end in zeros, is octets",
     "RFC 3597, 5; RFC 4034, 4.1.2", as_any_data),
    ("a space in a name is behind a backslash", "RFC 1035, 5.1", spaces_in_names),
    ("times are shown as seconds", "RFC 4034, 3.2", seconds),
    TEXT_TURNS[6][:2] + (types_by_mnemonic,),
    ("types and algorithms of certificates are shown as numbers", "RFC 4398, 2.2", certificate_numbers),
    ("addresses are shown in groups alone", "RFC 5952, 4 and 5", hexadecimal_groups),
    TEXT_TURNS[7][:2] + (other_digest_of_data,),
    TEXT_TURNS[8][:2] + (strings_alone_of_data,),
    ("octets of the target of URI are shown as those of a string", "RFC 7553, 4.4; RFC 1035, 5.1", target_as_value),
    ("the name of NXT is read, and written without pointers", "RFC 2535, 5.2; RFC 3597, 4", next_name),
    ("a name is read through at most 255 pointers, there through at most 16", "RFC 1035, 4.1.4", one_pointer),
    ("parameters in AliasMode are ignored", "RFC 9460, 2.4.2", service_mode),
    ("the error of TSIG is any number", "RFC 8945, 4.2", without_error),
    ("a hash has no padding", "RFC 5155, 3.3", hash_without_padding),
)


def turned(row, turns, wanted):
    """The fewest turns after which dnspython answers what is wanted, None where there are none."""
    if row.answer() == wanted:
        return ()
    there = [it for it in turns if it[2](row)]
    for count in range(1, len(there) + 1):
        for chosen in itertools.combinations(there, count):
            if all_turned(row, chosen).answer() == wanted:
                return chosen
    return None


def all_turned(row, turns):
    """The row after all turns that there are for it."""
    for _what, _rfc, turn in turns:
        row = turn(row) or row
    return row


class Refusal(NamedTuple):
    """A row that is refused here alone: why, the word at fault, the text from there on, and what is due there."""

    row: NamedTuple
    reason: str
    word: bytes = b""
    rest: bytes = b""
    due: str = ""

    def is_of_digits(self):
        """Whether a field is due that isn't a name and not a string, and the word isn't one."""
        return self.reason == self.due and self.reason in OF_DIGITS


OF_DIGITS = ("Number", "Time", "Rtype", "Ipv4", "Ipv6", "Tag", "Base16", "CountedBase16", "CountedBase32", "Base64")


def refusal_of(row, answer):
    """The row with what is told of its fault."""
    words = answer.decode().split()
    if len(words) == 2:
        return Refusal(row, words[1])
    rest = row.octets[int(words[1]):]
    found = PARTS.match(rest)
    place = len(row._replace(octets=row.octets[:int(words[1])]).words() or [])
    if row.is_generic():
        due = ("", "Number", "Base16")[min(place, 2)]
    else:
        kinds = data_rows.FIELDS.get(row.rtype, "*")
        due = data_rows.KINDS[kinds[min(place, len(kinds) - 1)]][1]
    return Refusal(row, words[2], found[1] or b"" if found else b"", rest, due)


def has_no_string(row):
    """Whether dnspython makes no octet of it, where words have a space between."""
    row = said_as(row) or row
    return ((spelled(row) if isinstance(row, Text) else None) or row).answer() == b""


def needs_mark(refusal):
    """Whether data of its type is read after the mark of any data alone, and has no mark. Of SVCB and HTTPS these are
    the parameters, none too."""
    row = refusal.row
    is_of_octets = row.rtype in (*data_rows.OF_OCTETS, *OF_OCTETS) or (row.rtype, row.rclass) == (A, CHAOS)
    if not isinstance(row, Text) or row.is_generic() or not is_of_octets:
        return False
    is_empty = row.rtype in (SVCB, HTTPS) or not row.words()
    return refusal.reason == "OnlyGeneric" or refusal.reason == "MissingWord" and is_empty


def is_canonical(text):
    """Whether a text is that of octets in base64."""
    words = b"".join(Text(OPENPGPKEY, IN, text).words() or [b"!"])
    try:
        return base64.b64encode(base64.b64decode(words)) == words
    except ValueError:
        return False


def is_hash(word):
    """Whether a word is that of octets in base32hex without padding, in either case."""
    upper = word.upper()
    try:
        return base64.b32hexencode(base64.b32hexdecode(upper + b"=" * (-len(upper) % 8))).rstrip(b"=") == upper
    except ValueError:
        return False


def has_empty_hash(row):
    """Whether data of NSEC3 has a hash without octets."""
    data = in_message(row)
    octets = data.message[data.begin:]
    return row.rtype == NSEC3 and len(octets) > 4 and octets[5 + octets[4]:][:1] == b"\0"


def is_date(word):
    """Whether a word is a date and a time of day."""
    try:
        return bool(time.strptime(word.decode(), "%Y%m%d%H%M%S")) and word[-2:] < b"60"
    except ValueError:
        return False


def is_refused_on_one_line(row):
    """Whether a text has several lines, and is refused when it has one."""
    joined = re.sub(rb"(?:;[^\n]*)?\n", b" ", row.octets)
    return joined != row.octets and row._replace(octets=joined).answer() is None


def in_message(row):
    """The data of a row, as in a message where it is after the mark."""
    return row if isinstance(row, Data) else Data(row.rtype, row.rclass, octets_after_mark(row) or b"", 0)


def has_no_bitmap(row):
    """Whether data is without the bitmap that is its last field."""
    fields = {NSEC: 1}.get(row.rtype, 0)
    return fields > 0 and len((in_message(row).answer() or b"").split()) == fields


def has_no_name(row):
    """Whether data of NXT doesn't begin with a name, or after the mark with one that has a pointer."""
    data = in_message(row)
    try:
        name, size = dns.name.from_wire(data.message, data.begin)
    except dns.exception.DNSException:
        return row.rtype == NXT
    return row.rtype == NXT and isinstance(row, Text) and len(name.to_wire()) != size


# Why dnspython alone takes a row: what it is, the RFC by which it is so here, and when.
ONE_SIDED = (
    ("the lines of an entry are joined before: a parenthesis is refused", "RFC 1035, 5.1",
     lambda it: it.reason == "Parenthesis" and it.rest[:1] in (b"(", b")")),
    ("a text is read past the ends of its lines", "RFC 1035, 5.1",
     lambda it: it.reason in ("OpenQuote", "LoneBackslash") and is_refused_on_one_line(it.row)),
    ("data of this type is read after \\# alone", "RFC 3597, 5",
     lambda it: needs_mark(it)),
    ("each word of hexadecimal digits has whole octets", "RFC 3597, 5",
     lambda it: it.reason == it.due == "Base16" and len(it.word) % 2),
    ("numbers, types, tags and digits have no quotes and no escapes", "RFC 1035, 5.1",
     lambda it: it.is_of_digits() and re.search(rb'["\\]', it.word)),
    ("a number has no sign", "RFC 1035, 5.1",
     lambda it: it.reason == it.due == "Number" and it.word[:1] in (b"+", b"-")),
    ("a TTL with units has at most 2^31 - 1 seconds", "RFC 2181, 8",
     lambda it: it.reason == it.due == "Number" and re.fullmatch(rb"(?:[0-9]+[wdhmsWDHMS])+", it.word)),
    ("algorithms and certificates are numbers, not mnemonics", "RFC 4034, 2.2 and RFC 4398, 2.2 allow these",
     lambda it: it.reason == it.due == "Number" and it.word.decode("latin-1").upper() in (*ALGORITHMS, *CERTIFICATES)),
    ("the mnemonics of types are those of the registry", "RFC 6895, 3.1",
     lambda it: it.reason == it.due == "Rtype" and it.word in (b"NSAP_PTR", b"NONE")),
    ("a date is of the calendar, and a time of day has no leap second", "RFC 4034, 3.2",
     lambda it: it.reason == it.due == "Time" and len(it.word) == 14 and not is_date(it.word)),
    ("a string is a word, with both quotes or without", "RFC 1035, 5.1",
     lambda it: it.reason == it.due == "CharString"
     and not re.fullmatch(rb'"[^"]*"|[^"]+', re.sub(rb"\\.", b"..", it.word, flags=re.S))),
    ("base64 has its padding, no other octets, and zeros after the last bit", "RFC 4648, 3.2, 3.3 and 3.5",
     lambda it: it.reason == it.due == "Base64" and not is_canonical(it.rest)),
    ("data has at most 65,535 octets", "RFC 1035, 3.2.1",
     lambda it: it.reason == "LongData" and len(it.row.answer()) > 65535),
    ("there is one string or more", "RFC 1035, 3.3.14; RFC 7208, 3.1; RFC 9606, 4",
     lambda it: it.reason in ("NotData", "ShortInput") and it.row.rtype in OF_TEXT and has_no_string(it.row)),
    ("there is one block of a bitmap or more", "RFC 4034, 4.1.2",
     lambda it: it.reason in ("NotData", "ShortInput") and has_no_bitmap(it.row)
     or it.reason == "MissingWord" and it.row.rtype == NSEC),
    ("a hash has one octet or more", "RFC 5155, 3.2",
     lambda it: it.reason in ("NotData", "EmptyHash") and has_empty_hash(it.row)),
    ("base32hex has no padding, no other octets, and zeros after the last bit",
     "RFC 4648, 3.3, 3.5 and 7; RFC 5155, 3.3",
     lambda it: it.reason == it.due == "CountedBase32" and not is_hash(it.word)),
    ("the name of NXT is read", "RFC 2535, 5.2",
     lambda it: it.reason.split("/")[0] in ("NotData", "Name") and has_no_name(it.row)),
)


def difference(row, turns, answer):
    """The turns after which dnspython agrees, or why it alone takes the row; None where there is no such thing. A row
    that is refused here has to be refused there after all turns."""
    if not answer.startswith(b"err "):
        return turned(row, turns, octets_of(answer) if isinstance(row, Text) else answer)
    if all_turned(row, turns).answer() is None:
        return ()
    refusal = refusal_of(row, answer)
    return [it for it in ONE_SIDED if it[2](refusal)][:1] or None


def octets_of(digits):
    """The octets that an answer has in digits."""
    return b"" if digits == b"-" else bytes.fromhex(digits.decode()) if len(digits) % 2 == 0 else digits


def text_of(rest):
    """The text that the rest of a line is."""
    return octets_of(rest[4:]) if rest.startswith(b"hex:") else rest


class Records:
    """What dnspython's reader of zones writes records to: a list of them, as they are in answers."""

    def __init__(self):
        self.manager, self.told = self, []

    def origin_information(self):
        return dns.name.root, False, dns.name.root

    def check_put_rdataset(self, _check):
        """Nothing is checked of the records of a zone beside each other."""

    def _set_origin(self, origin):
        """The origin is that of the reader alone."""

    def add(self, owner, ttl, rdata):
        data = rdata.to_wire().hex() or "-"
        self.told.append(f"{owner.to_wire().hex()}/{ttl}/{int(rdata.rdclass)}/{int(rdata.rdtype)}/{data}".encode())


class Zone:
    """A reader of dnspython, of a text or of its entries one by one."""

    def __init__(self, origin):
        self.records = Records()
        self.reader = dns.zonefile.Reader(None, IN, self.records, allow_directives=("$ORIGIN", "$TTL"))
        self.reader.current_origin, _size = dns.name.from_wire(origin, 0)
        self.reader.last_name = None

    def read(self, text, rclass=IN):
        """The records of the text. None where it is refused: then the reader is as it was."""
        before, self.records.told = dict(vars(self.reader)), []
        try:
            self.reader.tok = dns.tokenizer.Tokenizer(text.decode("utf-8", "surrogateescape"))
            self.reader.zone_rdclass = rclass
            self.reader.read()
        except Exception:  # of many kinds
            vars(self.reader).update(before)
            return None
        return self.records.told


class Entry(NamedTuple):
    """An entry of a zone: its offset, its octets, these with spaces for its parentheses, and its words."""

    begin: int
    octets: bytes
    joined: bytes
    words: list

    def is_indented(self):
        """Whether its owner is omitted."""
        return self.octets[:1] in (b" ", b"\t")

    def is_directive(self):
        """Whether it begins with a dollar sign."""
        return bool(self.words) and self.words[0][1][:1] == b"$" and not self.is_indented()

    def head(self):
        """The word of the owner, those of TTL and class in their order, that of the type, and the offset after it."""
        rest = list(self.words)
        owner = b"" if self.is_indented() else rest.pop(0)[1]
        between = []
        while rest and len(between) < 2 and (rest[0][1][:1].isdigit() or class_of(rest[0][1]) is not None):
            between.append(rest.pop(0)[1])
        rtype = rest[0][1] if rest else b""
        return owner, between, rtype, rest[0][0] + len(rtype) if rest else len(self.joined)


def class_of(word):
    """The class that a word is, None where it is none."""
    try:
        return int(dns.rdataclass.from_text("ANY" if word == b"*" else word.decode("latin-1")))
    except Exception:  # of several kinds
        return None


def type_of(word):
    """The type that a word is by the registry or by its number (RFC 3597, 5), None where it is none."""
    found = re.fullmatch(rb"TYPE([0-9]{1,9})", word.upper())
    number = int(found[1]) if found else TYPE_NUMBERS.get(word.decode("latin-1").upper(), 65536)
    return number if number < 65536 else None


def entries_of(text):
    """The entries of a text, up to one with a quote, a backslash or a parenthesis without what follows it."""
    begin = at = depth = 0
    joined = b""
    while at < len(text) or begin < at:
        found = ENTRY_PARTS.match(text, at)
        if at == len(text) and depth:
            return
        if at == len(text) or (found and found[0] == b"\n" and not depth):
            words = [(it.start(), it[1]) for it in PARTS.finditer(joined) if it[1]]
            yield Entry(begin, text[begin:at], joined, words)
            begin, joined, at = at + 1, b"", at + 1
            continue
        depth += {b"(": 1, b")": -1}.get(found[0], 0) if found else 0
        if not found or depth < 0:
            return
        joined += b" " if found[0] in (b"(", b")") else found[0]
        at = found.end()


# The faults of a text that isn't entries.
SHAPES = ("OpenQuote", "LoneBackslash", "OpenParenthesis", "ClosingParenthesis")
# Why dnspython takes or refuses an entry otherwise: what it is, and the RFC by which it is so here.
ONE_LINE = ("an entry is read as its words on one line", "RFC 1035, 5.1")
TTL_LATER = ("a class may be before the TTL", "RFC 1035, 5.1")
CLASSES = ("records are of any class, and without one of that of the record before", "RFC 1035, 5.1")
INCLUDES = ("a file is left to who reads the zone", "RFC 1035, 5.1")
RELATIVE = ("a relative origin goes on with the one before", "RFC 1035, 5.1")
SOA_MINIMUM = ("the minimum of SOA isn't the TTL of records", "RFC 2308, 4")


def is_relative(words):
    """Whether a directive has a relative origin."""
    return words[0].upper() == b"$ORIGIN" and len(words) > 1 and not re.fullmatch(rb"(?:\\.|[^\\])*\.", words[1], re.S)


class Comparison:
    """Compares the text of a zone entry by entry: heads with the reader of zones, data as in a row `read`."""

    def __init__(self, origin, text, parts):
        self.zone, self.text, self.rclass = Zone(origin), text, IN
        self.parts, self.found = parts, set()

    def head(self, entry):
        """The owner, the TTL, the class and the type that dnspython reads, None where it refuses them."""
        owner, between, rtype, _end = entry.head()
        ttls = [it for it in between if class_of(it) is None]
        classes = [class_of(it) for it in between if class_of(it) is not None]
        rclass = (classes or [self.rclass])[0]
        said = numbered(Text(0, IN, owner)) if owner else None
        owner = said.octets if said else owner
        number = type_of(rtype)
        if number is None or len(ttls) > 1 or len(classes) > 1:
            return None
        told = self.read(b" ".join([owner, *ttls, b"TYPE65280 \\# 0"]), rclass)
        if not told:
            return None
        self.rclass = rclass
        self.found |= {TTL_LATER} if between and class_of(between[0]) is not None and ttls else set()
        self.found |= {CLASSES} if rclass != IN else set()
        return b"/".join([*told[0].split(b"/")[:3], b"%d" % number])

    def read(self, text, rclass=IN):
        """The records of an entry. A TTL that dnspython takes from SOA for those after it is forgotten."""
        reader = self.zone.reader
        is_known = reader.default_ttl_known
        told = self.zone.read(text, rclass)
        if told and reader.default_ttl_known and not is_known:
            reader.default_ttl_known = False
            self.found.add(SOA_MINIMUM)
        return told

    def record(self, entry, wanted):
        """Whether the record is so there."""
        before = dict(vars(self.zone.reader))
        if self.rclass == IN and self.read(entry.octets) == [wanted]:
            return True
        vars(self.zone.reader).update(before)
        if wanted.startswith(b"$"):
            return False
        head, data = wanted.rsplit(b"/", 1)
        rclass, rtype = (int(it) for it in head.split(b"/")[2:])
        if self.head(entry) != head:
            return False
        row = Text(rtype, rclass, entry.joined[entry.head()[3]:], origin=self.zone.reader.current_origin)
        found = difference(row, TEXT_TURNS, data)
        self.found |= {ONE_LINE, *(it[:2] for it in found or ())}
        return found is not None

    def said_of_directive(self, entry):
        """A directive on one line: $ORIGIN with its whole name, $INCLUDE as $ORIGIN with its name."""
        said = Text(0, IN, b" ".join(it for _at, it in entry.words))
        words = (numbered(said) or said).words()
        if words[0].upper() == b"$INCLUDE":
            words = [b"$ORIGIN", *(words[2:] or [b"@"])] if len(words) > 1 else words
        if words[0].upper() == b"$ORIGIN" and len(words) > 1:
            try:
                words[1] = dns.name.from_text(words[1].decode(), self.zone.reader.current_origin).to_text().encode()
            except Exception:  # of several kinds
                words[1] = b".."
        return b" ".join(words)

    def directive(self, entry, parts):
        """Whether a directive is so there."""
        words = [it for _at, it in entry.words]
        said, before = self.said_of_directive(entry), dict(vars(self.zone.reader))
        if said != entry.octets:
            self.found.add(RELATIVE if is_relative(words) else ONE_LINE)
        if self.zone.read(said) != []:
            return False
        if words[0].upper() != b"$INCLUDE":
            return True
        self.found.add(INCLUDES)
        origin = self.zone.reader.current_origin.to_wire().hex().encode() if len(words) > 2 else b"."
        vars(self.zone.reader).update(before)
        return bool(parts) and parts.pop(0) == b"$INCLUDE/%s/%s" % (words[1].hex().encode(), origin)

    def is_taken(self, entry, at, reason):
        """Whether dnspython takes the part of an entry that is at fault here, or has a reason for its data."""
        if entry.is_directive():
            return self.zone.read(self.said_of_directive(entry)) is not None
        if not reason.startswith("Data/"):
            return self.head(entry) is not None
        _owner, between, word, begin = entry.head()
        classes = [class_of(it) for it in between if class_of(it) is not None]
        rclass, origin = (classes or [self.rclass])[0], self.zone.reader.current_origin
        row = Text(type_of(word) or 0, rclass, entry.joined[begin:], origin=origin)
        found = difference(row, TEXT_TURNS, b"err %d %s" % (at - entry.begin - begin, reason[5:].encode()))
        self.found |= {it[:2] for it in found or ()}
        return found is None

    def refusal(self, entry, at, reason):
        """Whether an entry is refused there, too, or for a reason here alone."""
        if not self.is_taken(entry, at, reason):
            return True
        word = next((it for begin, it in entry.words if entry.begin + begin == at), b"")
        found = [it[:2] for it in ENTRY_REASONS if it[2] == reason and it[3](word, entry)][:1]
        self.found.update(found)
        return bool(found)

    def agrees(self, fault):
        """Whether all entries are so there, and the first that isn't read here."""
        parts, end = list(self.parts), 0
        for entry in entries_of(self.text):
            end = entry.begin + len(entry.octets) + 1
            if fault and entry.begin <= fault[0] < end:
                return not parts and bool(entry.words) and fault[1] not in SHAPES and self.refusal(entry, *fault)
            if entry.is_directive() and not self.directive(entry, parts):
                return False
            if entry.words and not entry.is_directive() and not (parts and self.record(entry, parts.pop(0))):
                return False
        if not fault:
            return not parts and end >= len(self.text)
        return not parts and fault[1] in SHAPES and self.zone.read(self.text[end:], self.rclass) is None


def seconds_of(word):
    """The seconds that a TTL has there, 0 where it is none."""
    try:
        return dns.ttl.from_text(word.decode("latin-1"))
    except dns.exception.DNSException:
        return 0


# Why an entry is refused here alone: what it is, the RFC by which it is so, the reason and when.
ENTRY_REASONS = (
    ("a name has no quotes", "RFC 1035, 5.1", "Name", lambda word, _entry: word[:1] == b'"'),
    ("the minimum of SOA isn't its TTL", "RFC 2308, 4", "NoTtl", lambda word, _entry: word.upper() == b"SOA"),
    ("a TTL has at most 2^31 - 1 seconds", "RFC 2181, 8", "Ttl", lambda word, _entry: seconds_of(word) >= 2**31),
)


def offset_of(text, line, column):
    """The offset of a place that is counted from 1."""
    return sum(len(it) + 1 for it in text.split(b"\n")[:line - 1]) + column - 1


def compared_zone(line, answer):
    """The turns and reasons of a text of a zone, None where it is different; and the row."""
    _call, origin, rest = line.split(b" ", 2)
    origin, text = bytes.fromhex(origin.decode()), text_of(rest)
    told, _err, fault = (b" " + answer).partition(b" err ")
    parts = [it for it in told.split(b" ") if it not in (b"", b"none")]
    whole = Zone(origin)
    read = whole.read(text)
    if whole.records.told == parts and read is not None and not fault and b"$ORIGIN" not in text.upper():
        return [], whole
    place = fault.decode().split()
    comparison = Comparison(origin, text, parts)
    agrees = comparison.agrees((offset_of(text, *map(int, place[:2])), place[2]) if fault else None)
    return (sorted(comparison.found) if agrees else None), whole


def compared(line, answer):
    """The turns and reasons of a row, None where it is different; and the row."""
    if line.startswith(b"entries "):
        return compared_zone(line, answer)
    call, rtype, rclass, rest = line.split(b" ", 3)
    if call == b"read":
        row, turns = Text(int(rtype), int(rclass), text_of(rest)), TEXT_TURNS
    else:
        octets, begin = rest.split()
        row, turns = Data(int(rtype), int(rclass), octets_of(octets), int(begin)), DATA_TURNS
    return difference(row, turns, answer), row


def main():
    """Compares each row, and prints the counts and the first rows that are different."""
    counts, passed, failed = collections.Counter(), 0, 0
    with open(sys.argv[1], "rb") as lines, open(sys.argv[2], "rb") as answers:
        for line, answer in zip(lines, answers, strict=True):
            line, answer = line.rstrip(b"\n"), answer.rstrip(b"\n")
            if not line.startswith((b"read ", b"show ", b"entries ")) or answer == b"bad":
                continue
            found, row = compared(line, answer)
            if found is None:
                failed += 1
                if failed <= 40:
                    there = str(row.records.told if isinstance(row, Zone) else row.answer())
                    print("different:", "\n  ".join((line[:300].decode(), answer[:300].decode(), there[:300])))
                continue
            passed += 1
            counts.update([it[:2] for it in found] or [("the same", "")])
    for (what, rfc), count in counts.most_common():
        print(f"{count:6} {what}" + (f" ({rfc})" if rfc else ""))
    print(f"{passed} passed, {failed} failed")
    sys.exit(failed > 0)


if __name__ == "__main__":
    main()
