"""A second writer of responses, from RFC 1034 (4.3.2), 1035 (4.1), 2181 (9), 2308 (2.1), 2930 (4), 3225, 4034 (3),
4035 (2.2, 3.1, 3.1.1, 3.1.3, 3.1.4, 3.1.6), 4592 (3.3.1, 4.8), 6604 (3), 6672 (3.2), 6891, 6895 (3.1) and 9471. The
sections of each question are those of the second reader of zones, and so is what denies for it; here aliases are
followed, the records of DNSSEC are added where a query asks for them, and the sections become octets."""

import struct

import second_denial as denials
import second_zone as zones

FORMERR, NOTIMP, REFUSED, BADVERS = 1, 4, 5, 16
LEAST, STREAM = 512, 65535
ALIASES = 16  # That many are followed: the library's choice.
DO = 0x8000  # RFC 3225, 3: a bit of the TTL of an OPT record.


class Short(Exception):
    """An entry is missing."""


def read_name(octets, at):
    """The labels of a name, and where its encoding ends (RFC 1035, 4.1.4)."""
    labels, end, jumps = [], None, 0
    while True:
        if at >= len(octets):
            raise Short
        size = octets[at]
        if size >= 192:
            if at + 1 >= len(octets) or jumps > 255:
                raise Short
            end = end or at + 2
            at, jumps = (size & 63) << 8 | octets[at + 1], jumps + 1
        elif size >= 64:
            raise Short
        else:
            at += 1
            if size == 0:
                return labels, end or at
            if at + size > len(octets):
                raise Short
            labels.append(octets[at : at + size].decode("latin-1"))
            if sum(len(it) + 1 for it in labels) > 254:
                raise Short
            at += size


class Query:
    """What is read of a query: the questions, and the OPT records of its additional section."""

    def __init__(self, octets):
        self.octets = octets
        self.id, self.flags, *self.counts = struct.unpack(">HHHHHH", octets[:12])
        self.questions, self.opts, self.is_whole = [], [], True
        at = 12
        try:
            for _ in range(self.counts[0]):
                name, at = read_name(octets, at)
                if at + 4 > len(octets):
                    raise Short
                self.questions.append((name, *struct.unpack(">HH", octets[at : at + 4])))
                at += 4
            for section in (1, 2, 3):
                for _ in range(self.counts[section]):
                    at = self.record(section, at)
        except Short:
            self.is_whole = False

    def record(self, section, at):
        owner, at = read_name(self.octets, at)
        if at + 10 > len(self.octets):
            raise Short
        rtype, rclass, ttl, size = struct.unpack(">HHIH", self.octets[at : at + 10])
        if at + 10 + size > len(self.octets):
            raise Short
        if section == 3 and rtype == zones.OPT:
            self.opts.append((owner, rclass, ttl))
        return at + 10 + size


class Writer:
    """Octets after a header, with the names of questions and owners compressed (RFC 1035, 4.1.4)."""

    def __init__(self):
        self.octets, self.places = bytearray(12), {}

    def copy(self):
        it = Writer()
        it.octets, it.places = bytearray(self.octets), dict(self.places)
        return it

    def name(self, labels):
        for at in range(len(labels)):
            key = tuple(it.lower() for it in labels[at:])
            if key in self.places:
                self.octets += struct.pack(">H", 0xC000 | self.places[key])
                return
            if len(self.octets) < 0x4000:
                self.places[key] = len(self.octets)
            self.octets += bytes([len(labels[at])]) + labels[at].encode("latin-1")
        self.octets += b"\0"

    def question(self, name, rtype, rclass):
        self.name(name)
        self.octets += struct.pack(">HH", rtype, rclass)

    def rrset(self, owner, rtype, records):
        for ttl, data in records:
            self.name(zones.labels_of(owner))
            self.octets += struct.pack(">HHIH", rtype, 1, ttl, len(data)) + data


def refusal(query):
    """The response code of a query that isn't answered from the zone, whose class is IN, or None."""
    if is_edns(query) and query.opts[0][2] >> 16 & 255:
        return BADVERS
    if query.flags >> 11 & 15:
        return NOTIMP
    if not query.is_whole or query.opts and not is_edns(query) or query.counts[0] != 1:
        return FORMERR
    _, rtype, rclass = query.questions[0]
    if rclass != 1:
        return REFUSED
    if rtype == 249 or 251 <= rtype <= 254:
        return NOTIMP
    if rtype in (0, zones.OPT, 65535) or 128 <= rtype <= 250:
        return FORMERR
    return None


def is_edns(query):
    """All is there, and there is one OPT record, of the root (RFC 6891, 6.1.1 and 6.1.2)."""
    return query.is_whole and len(query.opts) == 1 and not query.opts[0][0]


def has_opt(query):
    """The response has an OPT record. An OPT record of another owner is one; nothing is said of what isn't whole."""
    return query.is_whole and bool(query.opts)


def in_domain(owner, cut):
    """The name is at or below the other (RFC 9471, 1)."""
    low, top = ([it.lower() for it in zones.labels_of(name)] for name in (owner, cut))
    return not top or low[-len(top) :] == top


def is_required(section, sections, rrset):
    """Whether TC is set where the RRset is left out: of the additional section those that are at or below the cut (RFC
    9471, 3.1), and no signatures (RFC 4035, 3.1.1)."""
    owner, rtype, _ = rrset
    return section < 2 or rtype != zones.RRSIG and in_domain(owner, sections[1][0][0])


def fill(writer, sections, room):
    """The octets and counts of sections, as many RRsets of each as fit, those that are required before others, and
    whether a required one is left out."""
    counts = [0, 0, 0]
    for section, sets in enumerate(sections):
        needed = [it for it in sets if is_required(section, sections, it)]
        for it in needed + [it for it in sets if it not in needed]:
            more = writer.copy()
            more.rrset(*it)
            if len(more.octets) > room:
                if it in needed:
                    return writer, counts, True
                break
            writer = more
            counts[section] += len(it[2])
    return writer, counts, False


def followed(zone, name, rtype):
    """The names of a chain of questions, each with the answer of a zone and its sections (RFC 1034, 4.3.2, step 3a; RFC
    6672, 3.2). The last owner of an answer section is the alias, whose one record is its target. No name is asked
    about twice, and none out of the zone."""
    said, asked = [], []
    while True:
        answer, section, *rest = zone.answer(name, rtype)
        said.append((name, answer, section, *rest))
        asked.append([it.lower() for it in zones.labels_of(name)])
        is_alias = answer.removeprefix("synthesized ").startswith("alias ") or answer.startswith("redirect ")
        if not is_alias or rtype in (zones.CNAME, zones.ANY) or len(asked) > ALIASES:
            return said
        target = zones.name_in(section[-1][2][0][1])
        if zone.inside(target) is None or [it.lower() for it in target] in asked:
            return said
        name = zones.text_of(target) if target else "."


def sections_of(steps):
    """The sections of a chain: all answers, and of the last question the rest. A record isn't repeated (RFC 2181, 5): a
    DNAME can redirect twice."""
    answers = []
    for _, _, section, _, _ in steps:
        answers += [it for it in section if it not in answers]
    return [answers, *steps[-1][3:]]


def holder(zone, owner):
    """The node with the records of a name: its own if it exists, and else the source of synthesis (RFC 4592, 3.3.1), or
    None."""
    node = zone.top
    for label in zone.inside(zones.labels_of(owner)):
        if label not in node.below:
            return node.below.get("*")
        node = node.below[label]
    return node


def signatures(zone, owner, rtype, records):
    """The RRSIG records that cover an RRset of a section, as a list of one RRset, or of none (RFC 4035, 3.1.1; RFC
    4592, 4.8). They have the owner and the TTL that it has there (RFC 4034, 3). Data begin with the type they cover. An
    RRSIG has none (RFC 4035, 2.2), whatever the zone has."""
    if rtype == zones.RRSIG:
        return []
    node = holder(zone, owner)
    kept = node.sets[zones.RRSIG].records if node and zones.RRSIG in node.sets else []
    covering = [(records[0][0], data) for _, data in kept if data[:2] == struct.pack(">H", rtype)]
    return [(owner, zones.RRSIG, covering)] if covering else []


def signed(zone, section):
    """A section in which each RRset has its signatures after it."""
    return [it for rrset in section for it in (rrset, *signatures(zone, *rrset))]


def denied(zone, steps, rtype):
    """The RRsets that deny for the questions of a chain (RFC 4035, 3.1.3 and 3.1.4), each once."""
    sets = {}
    for name, *_ in steps:
        for it in denials.denial(zone, name, rtype):
            sets.setdefault((it[0].lower(), it[1]), it)
    return list(sets.values())


def with_dnssec(zone, steps, rtype, sections):
    """The sections of a chain with what a query with DO gets: after the authority section what denies, and after each
    RRset its signatures."""
    answers, authority, additional = sections
    return [signed(zone, it) for it in (answers, authority + denied(zone, steps, rtype), additional)]


def response(zone, octets, stream, size):
    """The octets of the response to a query from a zone, by a server that states this size, or None."""
    if len(octets) < 12 or octets[2] & 128:
        return None
    query = Query(octets)
    code = refusal(query)
    edns = query.opts[0] if is_edns(query) else None
    own = max(size, LEAST)
    limit = STREAM if stream else min(max(edns[1], LEAST), own) if edns else LEAST
    room = limit - 11 * has_opt(query)
    writer, counts, aa, cut = Writer(), [0, 0, 0], False, False
    if query.questions:
        writer.question(*query.questions[0])
    asked = int(bool(query.questions))
    if code is None:
        name, rtype, _ = query.questions[0]
        steps = followed(zone, zones.text_of(name) if name else ".", rtype)
        # AA is of the first owner (RFC 1035, 4.1.1), the response code of the last question (RFC 6604, 3).
        first, last = (zones.header_of(it[1]) for it in (steps[0], steps[-1]))
        aa, code = "aa=1" in first, int(last.split("rcode=")[1])
        sections = sections_of(steps)
        if edns and edns[2] & DO:
            sections = with_dnssec(zone, steps, rtype, sections)
        writer, counts, cut = fill(writer, sections, room)
    if has_opt(query):
        ttl = code >> 4 << 24 | (edns[2] & DO if edns else 0)
        writer.octets += b"\0" + struct.pack(">HHIH", zones.OPT, own, ttl, 0)
        counts[2] += 1
    flags = 0x8000 | query.flags & 0x7900 | aa << 10 | cut << 9 | code & 15
    writer.octets[:12] = struct.pack(">HHHHHH", query.id, flags, asked, *counts)
    return bytes(writer.octets)
