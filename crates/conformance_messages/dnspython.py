#!/usr/bin/env python3
"""Compares answers of the conformance table of messages with dnspython 2.3, word by word.

    dnspython.py LINES ANSWERS

LINES and ANSWERS are files such as `stdin` and `stdout`. Octets, names, numbers and texts are compared octet by octet,
spaces included. A row passes where both read the same; where both refuse it; or where they agree once the row is read,
or its text written, as the reasons below have it. A message, data or a text that only one of the two takes fails where
it has no such reason. Which error a row has isn't compared. Each reason is printed with the count of its rows and with
the RFC by which it is so. The last line is 'N passed, N failed', and the status 1 where one failed. It needs Debian's
python3-dnspython.
"""
import collections
import itertools
import re
import sys

import dns.dnssec
import dns.exception
import dns.flags
import dns.message
import dns.name
import dns.opcode
import dns.rcode
import dns.rdata
import dns.rdataclass
import dns.rdtypes.ANY.CERT
import dns.rdtypes.svcbbase
import dns.wire

IN, PRIVATE = 1, 65280
A, NS, TXT, RP, AAAA, SRV, CERT, OPT, DS, RRSIG, NSEC, DNSKEY = 1, 2, 16, 17, 28, 33, 37, 41, 43, 46, 47, 48
GPOS, NXT, NSEC3, NINFO, TALINK, CDS, OPENPGPKEY, ZONEMD, SVCB, HTTPS = 27, 30, 50, 56, 58, 59, 61, 63, 64, 65
SPF, LP, EUI48, EUI64, TSIG, URI, DLV = 99, 107, 108, 109, 250, 256, 32769
CLASSES = {1: "IN", 3: "CH", 4: "HS", 254: "NONE", 255: "ANY"}
# The types of `data`, of `typed` and of `any`.
KNOWN = (1, 2, 5, 6, 12, 15, 28, 33, 39)
TYPED = (13, 35, 43, 44, 46, 47, 48, 52, 257)
ANY = (1, 2, 5, 6, 12, 15, 16, 17, 18, 21, 26, 28, 33, 36, 39, 64, 65) + TYPED
# Types that dnspython doesn't know, and one with the same fields that it knows.
SAME_FIELDS = {3: NS, 4: NS, 7: NS, 8: NS, 9: NS, 14: RP, 24: RRSIG, 25: DNSKEY, 57: DNSKEY, TALINK: RP,
               67: OPENPGPKEY, 68: OPENPGPKEY, 258: TXT, 261: TXT, 262: TXT, 263: TXT}
# Types of digests, and the place of the octet that tells which digest it is.
OF_DIGESTS = {DS: 3, CDS: 3, ZONEMD: 5, DLV: 3}
# Types whose data dnspython reads by its fields in class IN alone.
OF_IN = (A, AAAA, SRV)
# OPT and TSIG under numbers without a meaning, by which dnspython leaves their records where they are.
OTHER_NUMBER = {OPT: 61234, TSIG: 61235}
TYPES_THERE = {number: rtype for rtype, number in OTHER_NUMBER.items()}
# A type of digest of which dnspython checks no length.
UNCHECKED = 200

# Reasons of messages: the octets that both read are the same.
OPCODES = ("an opcode is any number of four bits, and all have the same sections", "RFC 6895, 2.2; RFC 8490, 5.4")
UPDATES = ("the sections of an update are read as those of a query", "RFC 2136, 2")
SPECIAL = ("OPT and TSIG are records of their section", "RFC 6891, 6.1.1; RFC 8945, 5.1")
UNREAD = ("a section gives data as octets, which its type need not allow", "RFC 1035, 3.2.1 and 4.1.3")
TTLS = ("a TTL is the number of 32 bits that the record has", "RFC 1035, 3.2.1; RFC 2181, 8 is of caches")
POINTERS = ("a pointer leads to what is before it, an earlier label of its name too", "RFC 1035, 4.1.4")
# Reasons of data.
IN_CLASSES = ("A, AAAA and SRV are read by their fields in classes other than IN, too", "RFC 3597, 4")
SAME = ("types that dnspython doesn't know are known by their fields, as MINFO and SIG", "RFC 1035, 3.3; RFC 2535")
DIGESTS = ("a digest is the rest of the data, whatever its type", "RFC 4034, 5.1.4")
VALUES = ("the values of service parameters are octets, which clients judge", "RFC 9460, 2.2")
NO_FORM = ("data with a field that has no form here, or no octet for its word, is written as octets", "RFC 3597, 5")
CASE = ("names in TALINK and LP keep their case in the canonical form", "RFC 4034, 6.2; RFC 3597, 7")
TARGET = ("that a target isn't empty isn't asked", "RFC 7553, 4.4")
NOT_THERE = ("dnspython doesn't know NXT, nor a type with such fields", "RFC 2535, 5.2")
# What dnspython alone takes: why it is refused here, and of which data, uncompressed and as in the message.
REFUSED = (
    ("record data has at most 65,535 octets", "RFC 1035, 3.2.1", lambda rtype, plain, octets: len(octets) > 65535),
    ("TXT and types like it have at least one string", "RFC 1035, 3.3.14; RFC 4408, 3.1.1; RFC 9606, 4",
     lambda rtype, plain, octets: rtype in (TXT, NINFO, SPF, 261, 262, 263) and not octets),
    ("the hash of NSEC3 has at least one octet", "RFC 5155, 3.2", lambda rtype, plain, octets: rtype == NSEC3),
    ("NSEC has at least one block of types", "RFC 4034, 4.1.2",
     lambda rtype, plain, octets: rtype == NSEC and name_end(plain) == len(plain)),
    ("the keys of service parameters increase", "RFC 9460, 2.2",
     lambda rtype, plain, octets: rtype in (SVCB, HTTPS) and not is_increasing(keys_of(octets))),
)

noted, ttls = set(), []
counts = collections.Counter()
passed, failed = 0, 0


def octets_of(field):
    parts = [] if field == "-" else field.split("+")
    return b"".join(bytes(int(part[6:])) if part.startswith("zeros:") else bytes.fromhex(part) for part in parts)


def judge(line, is_same, wanted, answer, reasons=()):
    """Counts a row, and prints one that differs."""
    global passed, failed
    if is_same:
        passed += 1
        counts.update({*noted, *reasons} or [("the same", "")])
        return
    failed += 1
    if failed <= 20:
        print("different:", line[:400], "\n  dnspython:", str(wanted)[:400], "\n  answer:   ", answer[:400])


def both_refuse():
    global passed
    passed += 1
    counts["refused by both", ""] += 1


# What dnspython is made to read.


def name_end(octets):
    """Where an uncompressed name at the start ends."""
    at = 0
    while octets[at]:
        at += 1 + octets[at]
    return at + 1


def keys_of(octets):
    """The keys of the parameters of SVCB data, None where these aren't a key, a length and so many octets each."""
    try:
        at, keys = 2 + name_end(octets[2:]), []
        while at < len(octets):
            keys.append(int.from_bytes(octets[at:at + 2], "big"))
            at += 4 + int.from_bytes(octets[at + 2:at + 4], "big")
        return keys if at == len(octets) else None
    except IndexError:
        return None


def is_increasing(keys):
    return keys is not None and all(a < b for a, b in itertools.pairwise(keys))


def read_name(parser, of_dnspython=dns.name.from_wire_parser):
    """A name, by dnspython's own function, or with pointers that lead to an earlier label of the same name."""
    begin = parser.current
    try:
        return of_dnspython(parser)
    except dns.name.BadPointer:
        pass
    parser.current, labels = begin, []
    with parser.restore_furthest():
        while True:
            at, count = parser.current, parser.get_uint8()
            if count >= 192:
                to = (count & 63) << 8 | parser.get_uint8()
                if to >= at:
                    raise dns.name.BadPointer
                parser.seek(to)
            elif count >= 64:
                raise dns.name.BadLabelType
            else:
                labels.append(parser.get_bytes(count))
                if not count:
                    break
                if sum(len(it) + 1 for it in labels) > 254:
                    raise dns.name.NameTooLong
    noted.add(POINTERS)
    return dns.name.Name(labels)


def generic(rclass, rtype, octets):
    return dns.rdata.GenericRdata(rclass, rtype, octets)


def read_data(rclass, rtype, parser, origin=None, of_dnspython=dns.rdata.from_wire_parser):
    """Data by its type, which dnspython reads, or octets where a reason has it so."""
    begin, octets = parser.current, parser.wire[parser.current:parser.end]
    read_as = SAME_FIELDS.get(rtype, rtype)
    if read_as != rtype:
        noted.add(SAME)
    if rclass != IN and rtype in OF_IN:
        noted.add(IN_CLASSES)
    try:
        data = of_dnspython(IN if rtype in OF_IN else rclass, read_as, parser, origin)
        if parser.current != parser.end:
            raise dns.exception.FormError
        return data
    except Exception:  # of many kinds
        if len(octets) > OF_DIGESTS.get(rtype, len(octets)):
            noted.add(DIGESTS)
        elif rtype in (SVCB, HTTPS) and is_increasing(keys_of(octets)):
            noted.add(VALUES)
        else:
            raise
    parser.current = begin
    return generic(rclass, rtype, parser.get_remaining())


def read_canonical(rclass, rtype, parser, origin=None):
    """The canonical form of data of a type of `data`; the octets of other data."""
    data = read_data(rclass, rtype, parser).to_digestable() if rtype in KNOWN else parser.get_remaining()
    return generic(rclass, rtype, data)


def read_octets(rclass, rtype, parser, origin=None):
    """Data as octets, as sections give it: what dnspython doesn't read is noted."""
    begin = parser.current
    before = set(noted)
    try:
        read_data(rclass, rtype, parser)
        noted.intersection_update(before)
    except Exception:  # of many kinds
        noted.add(UNREAD)
    parser.current = begin
    return generic(rclass, rtype, parser.get_remaining())


def read_struct(parser, form, of_dnspython=dns.wire.Parser.get_struct):
    """Numbers; of a record's header the TTL is kept, and OPT and TSIG get another number."""
    found = of_dnspython(parser, form)
    if form != "!HHIH":
        return found
    ttls.append(found[2])
    if found[2] >= 2**31:
        noted.add(TTLS)
    if found[0] in OTHER_NUMBER:
        noted.add(SPECIAL)
    return (OTHER_NUMBER.get(found[0], found[0]), *found[1:])


def read_opcode(flags):
    """The opcode by which dnspython reads sections."""
    number = flags >> 11 & 15
    if number in (0, 1, 2, 4):
        return dns.opcode.Opcode(number)
    noted.add(UPDATES if number == 5 else OPCODES)
    return dns.opcode.QUERY


def read(octets, data=read_canonical):
    """The message and the TTLs of its records, `None` where dnspython doesn't read it."""
    noted.clear()
    ttls.clear()
    dns.rdata.from_wire_parser = data
    try:
        return dns.message.from_wire(octets, ignore_trailing=True, one_rr_per_rrset=True), list(ttls)
    except Exception:  # of many kinds
        return None


def read_alone(rtype, octets, begin, size):
    """Data that is in a message at an offset, `None` where dnspython doesn't read it."""
    noted.clear()
    dns.rdata.from_wire_parser = read_data
    try:
        parser = dns.wire.Parser(octets, begin)
        with parser.restrict_to(size):
            return read_data(IN, rtype, parser)
    except Exception:  # of many kinds
        return None


# The rows.


def shown(name):
    """A name in presentation format (RFC 1035, 5.1), with its final dot."""
    text = ""
    for label in name.labels[:-1]:
        for octet in label:
            special = octet in b" .\\"
            text += "\\" + chr(octet) if special else chr(octet) if 32 < octet < 127 else "\\%03d" % octet
        text += "."
    return text or "."


def mnemonic(number):
    return CLASSES.get(number, "CLASS%d" % number)


def sections_of(message):
    return ("answer", message.answer), ("authority", message.authority), ("additional", message.additional)


def entries(message, its_ttls):
    """All entries without case, and the numbers of the header."""
    res = [(message.id, int(message.flags))]
    res += [(it.name.to_digestable(), it.rdtype, it.rdclass) for it in message.question]
    its_ttls = iter(its_ttls)
    for _word, section in sections_of(message):
        res.append(len(section))
        for it in section:
            res.append((it.name.to_digestable(), it.rdtype, it.rdclass, next(its_ttls), it[0].to_wire()))
    return res


def is_read_so(message, its_ttls, octets, answer):
    """Whether the answer to a line `message` is what dnspython reads."""
    ask = [f"{shown(it.name)}/{int(it.rdtype)}/{mnemonic(it.rdclass)}" for it in message.question]
    at = len("question=") + sum(len(it) + 1 for it in ask)
    if not answer.startswith("question=" + "".join(it + ";" for it in ask) + "@"):
        return False
    its_ttls = iter(its_ttls)
    for word, section in sections_of(message):
        found = re.compile(r"@\d+ %s=" % word).match(answer, at)
        if not found:
            return False
        at = found.end()
        for it in section:
            rtype = TYPES_THERE.get(it.rdtype, int(it.rdtype))
            start = f"{shown(it.name)}/{rtype}/{mnemonic(it.rdclass)}/{next(its_ttls)}/"
            found = re.compile(r"(\d+)\+(\d+);").match(answer, at + len(start))
            if not answer.startswith(start, at) or not found:
                return False
            begin, size = (int(number) for number in found.groups())
            if it[0].to_wire() != octets[begin:begin + size]:
                return False
            at = found.end()
    sole = " sole=" + (ask[0] if len(ask) == 1 else "err multiple questions" if ask else "err no question")
    rest = sole + " first=" + (ask[0] if ask else "none") + " canonical="
    return re.compile(r"@\d+" + re.escape(rest)).match(answer, at) is not None


def compare_message(line, octets, answer):
    found = read(octets, read_octets)
    accepted = answer.startswith("question=") and not re.search(r"[;=]err (?!no q|mult)", answer)
    if found is None and not accepted:
        return both_refuse()
    return judge(line, found and accepted and is_read_so(*found, octets, answer), found and entries(*found), answer)


def compare_composed(line, octets, answer):
    found, (word, *composed) = read(octets), answer.split(" ")
    if found is None and word != "ok":
        return both_refuse()
    if found is None or word != "ok":
        return judge(line, False, found and entries(*found), answer)
    reasons, wanted = set(noted), entries(*found)
    again = [read(bytes.fromhex(digits)) for digits in composed]
    others = [entries(*it) if it else [None] for it in again]
    different = [it for other in others for it in itertools.zip_longest(wanted, other) if it[0] != it[1]]
    return judge(line, len(again) == 2 and not different, different, answer, reasons)


def certificate_numbers(text):
    kind, tag, algorithm, octets = text.split(" ")
    kinds = dns.rdtypes.ANY.CERT
    return f"{kinds._ctype_from_text(kind)} {tag} {int(dns.dnssec.algorithm_from_text(algorithm))} {octets}"


# Texts: which of dnspython's differs from that here, of which data, and how that one is made of it.
TEXTS = (
    ("a space in a name stands behind a backslash", "RFC 1035, 5.1", lambda rtype: rtype not in (SVCB, HTTPS),
     lambda text: re.sub(r"\\032|\\\d{3}|\\.", lambda it: "\\ " if it[0] == "\\032" else it[0], text)),
    ("`@` is special only where it is a name alone", "RFC 1035, 5.1", lambda rtype: rtype not in (SVCB, HTTPS),
     lambda text: re.sub(r"\\.", lambda it: "@" if it[0] == "\\@" else it[0], text)),
    ("a block without types has no word", "RFC 4034, 4.1.2 and 4.3", lambda rtype: rtype == NSEC,
     lambda text: re.sub(r"(?<!\\) +(?= |$)", "", text)),
    ("each octet behind \\# is a word, and no space follows the last", "RFC 3597, 5", lambda rtype: rtype not in ANY,
     lambda text: re.sub(r"(?<= )[0-9a-f]{4,}$", lambda it: bytes.fromhex(it[0]).hex(" "), text).rstrip(" ")),
    ("strings of GPOS are between quotes", "RFC 1035, 5.1", lambda rtype: rtype == GPOS,
     lambda text: " ".join(f'"{it}"' for it in text.split(" "))),
    ("base32hex has no padding", "RFC 5155, 3.3", lambda rtype: rtype == NSEC3, lambda text: text.replace("=", "")),
    ("what isn't printed in a target is three digits", "RFC 1035, 5.1", lambda rtype: rtype == URI,
     lambda text: re.sub(r"[^ -~]", lambda it: "\\%03d" % ord(it[0]), text)),
    ("types of certificates and algorithms are numbers", "RFC 4398, 2.2", lambda rtype: rtype == CERT, certificate_numbers),
    ("the keys dohpath and ohttp have names", "RFC 9461, 5; RFC 9540, 4", lambda rtype: rtype in (SVCB, HTTPS),
     lambda text: re.sub(r"(?<= )key8(?= |$)", "ohttp", re.sub(r"(?<= )key7(?==)", "dohpath", text))),
    ("a key without the value that it needs is written by its number", "RFC 9460, 2.1",
     lambda rtype: rtype in (SVCB, HTTPS), lambda text: re.sub(r'(?<= )([a-z]+[0-9]?[a-z]*)=""', by_number, text)),
    ("in a list commas and backslashes alone have one backslash more", "RFC 9460, A.1",
     lambda rtype: rtype in (SVCB, HTTPS), lambda text: re.sub(r'(?<=alpn=)"(?:\\.|[^\\"])*"', escaped_once, text)),
)


def escaped_once(found):
    return re.sub(r'\\\\(?:(\\")|(?=[0-9]{3}))', lambda it: it[1] or "\\", found[0])


def by_number(found):
    return f"key{int(dns.rdtypes.svcbbase.ParamKey[found[1].upper()])}"


def text_of_services(octets):
    """The text of SVCB data of which dnspython refuses a value: this one by the number of its key."""
    base = dns.rdtypes.svcbbase
    end = 2 + name_end(octets[2:])
    words, at = [str(int.from_bytes(octets[:2], "big")), shown(dns.name.from_wire(octets, 2)[0])], end
    while at < len(octets):
        key, size = (int.from_bytes(octets[it:it + 2], "big") for it in (at, at + 2))
        value, at = octets[at + 4:at + 4 + size], at + 4 + size
        parser, name = dns.wire.Parser(value), base.key_to_text(key)
        try:
            found = base._class_for_key.get(key, base.GenericParam).from_wire_parser(parser)
            if parser.remaining():
                raise dns.exception.FormError
        except Exception:  # of many kinds
            found, name = base.GenericParam(value) if value else None, f"key{key}"
        words.append(name + (f"={found.to_text()}" if found else ""))
    return " ".join(words)


def text_there(rtype, data):
    """The text that dnspython writes of data."""
    octets = data.to_wire()
    if DIGESTS in noted:
        at = OF_DIGESTS[rtype]
        unchecked = octets[:at] + bytes([UNCHECKED]) + octets[at + 1:]
        words = dns.rdata.from_wire(IN, rtype, unchecked, 0, len(octets)).to_text(chunksize=0).split(" ")
        return " ".join(words[:2] + [str(octets[at])] + words[3:])
    if VALUES in noted:
        return text_of_services(octets)
    # Asked for words of another size, dnspython 2.3 fails of these types, whose words have one size.
    return data.to_text() if rtype in (OPENPGPKEY, 67, 68, EUI48, EUI64) else data.to_text(chunksize=0)


def text_reasons(rtype, data, wanted):
    """The fewest reasons by which the text that dnspython writes of data is the one here, None where it isn't."""
    octets = data.to_wire()
    if wanted == " ".join(["\\#", str(len(octets)), *(f"{it:02x}" for it in octets)]):
        return [] if type(data) is dns.rdata.GenericRdata else [NO_FORM]
    there = [it for it in TEXTS if it[2](rtype)]
    for count in range(len(there) + 1):
        for turns in itertools.combinations(there, count):
            text = text_there(rtype, data)
            for _what, _rfc, _is_so, turned in turns:
                text = turned(text)
            if text == wanted:
                return [it[:2] for it in turns]
    return None


def canonical_there(rtype, data):
    """The canonical form of data: dnspython has names of two types in lowercase that keep their case."""
    if rtype in (TALINK, LP):
        noted.add(CASE)
        return data.to_wire()
    return data.to_digestable()


def compare_data(line, answer, types, has_text=True):
    """Data: the same octets, the same canonical form and the same text."""
    rtype, octets, begin, size = line.split(" ")[1:]
    rtype, octets, begin, size = int(rtype), octets_of(octets), int(begin), int(size)
    if rtype not in types:
        if answer != "none":
            judge(line, False, "another type", answer)
        return
    if rtype == NXT:
        judge(line, True, None, answer, [NOT_THERE])
        return
    data, is_read = read_alone(rtype, octets, begin, size), answer.startswith("ok ")
    if data is None and not is_read:
        both_refuse()
    elif data is None:
        judge(line, rtype == URI and size == 4, None, answer, [TARGET])
    elif not is_read:
        why = [it[:2] for it in REFUSED if it[2](rtype, data.to_wire(), octets[begin:begin + size])]
        judge(line, bool(why), data, answer, why[:1])
    else:
        _ok, composed, canonical, _length, text = answer.split(" ", 4)
        why = text_reasons(rtype, data, text) if has_text else []
        form = canonical_there(rtype, data)
        same = data.to_wire() == octets_of(composed) and form == octets_of(canonical)
        wanted = (data.to_wire().hex(), form.hex(), text_there(rtype, data))
        judge(line, same and why is not None, wanted, answer, why or ())


def compare_order(line, answer):
    """Two data of one type: the order of their canonical forms."""
    types, both = [int(it) for it in line.split(" ")[1::2]], [octets_of(field) for field in line.split(" ")[2::2]]
    if types[0] != types[1] or types[0] == NXT:
        return  # RFC 4034, 6.3 has no order of data of two types.
    data, reasons = [], set()
    for octets in both:
        data.append(read_alone(types[0], octets, 0, len(octets)))
        reasons |= noted
    noted.clear()
    if answer.startswith("err "):
        if None in data:
            both_refuse()
            return
        why = [it[:2] for it, octets in itertools.product(REFUSED, both) if it[2](types[0], octets, octets)]
        judge(line, bool(why), data, answer, why[:1])
        return
    forms = [it and canonical_there(types[0], it) for it in data]
    order = None if None in forms else "less" if forms[0] < forms[1] else "greater" if forms[0] > forms[1] else "equal"
    judge(line, answer.split(" ")[0] == order, forms, answer, reasons)


def compare_header(line, octets, answer):
    """The numbers of a header alone, which dnspython reads as a message without entries where its counts are zero."""
    if len(octets) < 12:
        both_refuse() if answer == "err short message" else judge(line, False, None, answer)
        return
    found = read(octets[:4] + bytes(8))
    message, fields = found[0], answer.split(" ")
    counted = [str(int.from_bytes(octets[it:it + 2], "big")) for it in (4, 6, 8, 10)]
    opcode = octets[2] >> 3 & 15
    name = dns.opcode.to_text(opcode) if opcode in (0, 1, 2, 4, 5) else "DSO" if opcode == 6 else f"OPCODE{opcode}"
    rcode = dns.rcode.to_text(message.rcode())
    bits = {it: 0x40 if it == "z" else dns.flags.from_text(it.upper()) for it in "qr aa tc rd ra z ad cd".split()}
    words = [it for it, bit in bits.items() if message.flags & bit]
    wanted = [str(message.id), name, "RCODE" + rcode if rcode.isdigit() else rcode, *counted, *words]
    judge(line, fields == wanted, wanted, answer)


def compare(line, answer):
    word, *fields = line.split(" ")
    noted.clear()
    if word == "message":
        compare_message(line, octets_of(fields[0]), answer)
    elif word == "compose":
        compare_composed(line, octets_of(fields[0]), answer)
    elif word == "data":
        compare_data(line, answer, KNOWN, has_text=False)
    elif word == "any":
        compare_data(line, answer, range(65536))
    elif word == "typed":
        compare_data(line, answer, TYPED)
    elif word == "order":
        compare_order(line, answer)
    elif word == "header":
        compare_header(line, octets_of(fields[0]), answer)


def main():
    for rtype in (*KNOWN, *ANY, *SAME_FIELDS.values()):
        # Asked first for class ANY, dnspython would take some of these for data of an unknown type in class IN, too.
        dns.rdata.get_rdata_class(IN, rtype)
    dns.name.from_wire_parser = read_name
    dns.wire.Parser.get_struct = read_struct
    dns.opcode.from_flags = read_opcode
    with open(sys.argv[1], encoding="ascii") as lines, open(sys.argv[2], encoding="ascii") as answers:
        for line, answer in zip(lines, answers, strict=True):
            line, answer = line.rstrip("\n"), answer.rstrip("\n")
            if answer != "bad":
                compare(line, answer)
    for (what, rfc), count in counts.most_common():
        print(f"{count:6} {what}" + (f" ({rfc})" if rfc else ""))
    print(f"{passed} passed, {failed} failed")
    sys.exit(failed > 0)


main()
