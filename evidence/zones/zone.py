"""A zone of beside_servers.py, the queries to it, and responses as values that can be compared."""

import dataclasses
import re
import struct

import dns.flags
import dns.message
import dns.name
import dns.rcode
import dns.rdataclass
import dns.tokenizer
import dns.zonefile
from dns.rdatatype import DNSKEY, NS, NSEC, OPT, RRSIG
from name_servers import SIZE

RD, CD, DO, LEAST, MOST = 0x0100, 0x0010, 0x8000, 512, 65535
PARTS = "rcode header tc question answer authority additional opt".split()
SECTIONS = PARTS[4:7]


@dataclasses.dataclass(frozen=True)
class Form:
    """How a question is sent: over a stream or in a datagram, with these flags, and with an OPT record or without."""

    title: str
    is_stream: bool
    flags: int
    payload: int = 0
    has_do: bool = False
    swaps_case: bool = False

    @property
    def limit(self):
        """The most octets of a response (RFC 1035, 4.2.1; RFC 6891, 6.2.5)."""
        return MOST if self.is_stream else min(max(self.payload, LEAST), SIZE)

    def query(self, number, name, rtype):
        said = struct.pack(">HHHHHH", number, self.flags, 1, 0, 0, int(self.payload > 0))
        octets = name.to_wire().swapcase() if self.swaps_case else name.to_wire()
        said += octets + struct.pack(">HH", rtype, 1)
        opt = struct.pack(">BHHIH", 0, OPT, self.payload, DO if self.has_do else 0, 0)
        return Query(self, name, rtype, said + (opt if self.payload else b""))


FORMS = [
    Form("a stream, without EDNS", True, 0),
    Form("a datagram, without EDNS, with RD", False, RD),
    Form("a datagram, with EDNS of 4,096 octets, CD, and letters of the other case", False, CD, 4096, swaps_case=True),
    Form("a datagram, with EDNS of 800 octets and DO", False, RD, 800, True),
]
WHOLE = FORMS[0]
SIGNED_WHOLE = Form("a stream, with EDNS and DO", True, 0, 1232, True)
SIGNED_FORMS = [
    WHOLE,
    SIGNED_WHOLE,
    Form("a datagram, with EDNS of 1,232 octets, DO, and letters of the other case", False, 0, 1232, True, True),
    FORMS[3],
]


@dataclasses.dataclass(frozen=True)
class Query:
    """The octets of a query: a question in a form."""

    form: Form
    name: object
    rtype: int
    octets: bytes


@dataclasses.dataclass(frozen=True)
class Response:
    """Names have no case (RFC 4343, 3) except that of the question, and sections are sets of owner, TTL, type and
    data. The header is the identifier, the opcode and the flags without TC."""

    rcode: str
    header: tuple
    tc: bool
    question: tuple
    answer: frozenset
    authority: frozenset
    additional: frozenset
    opt: tuple
    size: int

    @property
    def aa(self):
        return bool(self.header[2] & dns.flags.AA)


def response_of(octets):
    """What a message says. Octets that are no message raise an exception of dnspython."""
    it = dns.message.from_wire(octets, one_rr_per_rrset=True, ignore_trailing=False)
    flags = struct.unpack(">H", octets[2:4])[0]
    header = it.id, flags >> 11 & 15, flags & 0x85F0
    question = tuple((one.name.labels, int(one.rdtype), int(one.rdclass)) for one in it.question)
    sections = {part: frozenset(records_in(getattr(it, part))) for part in SECTIONS}
    opt = (it.payload, it.ednsflags & 0xFFFFFF, tuple(map(str, it.options))) if it.opt is not None else ()
    code = dns.rcode.to_text(it.rcode())
    return Response(code, header, bool(flags & dns.flags.TC), question, **sections, opt=opt, size=len(octets))


def records_in(rrsets):
    return ((it.name, it.ttl, it.rdtype, data) for it in rrsets for data in it)


def records_of(text, apex):
    """The records of a zone. dnspython reads a TTL before the class alone (RFC 1035, 5.1, has both orders)."""
    text = re.sub(r"^(\S+) IN (\d\S*) ", r"\1 \2 IN ", text, flags=re.M)
    manager = dns.zonefile.RRSetsReaderManager(origin=apex, relativize=False)
    with manager.writer(True) as it:
        dns.zonefile.Reader(dns.tokenizer.Tokenizer(text), dns.rdataclass.IN, it).read()
    return frozenset(records_in(manager.rrsets))


def target_of(data):
    """The name in data that leads to another owner, if any."""
    found = (getattr(data, it, None) for it in ("target", "exchange", "hostname", "subtype"))
    return next((it for it in found if isinstance(it, dns.name.Name)), None)


class Zone:
    """A zone: its name, apex and text, the records in it (if they aren't to be read), the questions, and the queries
    with them."""

    def __init__(self, name, apex, text, questions, records=None):
        self.name, self.apex, self.text, self.is_text = name, dns.name.from_text(apex), text, records is None
        self.ttls, self.owners, self.names = {}, {}, {self.apex}
        records = records_of(text, self.apex) if self.is_text else records
        self.names.update(above for it in records for above in self.names_from(it[0]))
        self.records = self.lowered(records)
        for it in self.records:
            self.owners.setdefault(it[0], set()).add(it)
        self.asked = list(dict.fromkeys(questions(self) if callable(questions) else questions))
        self.is_signed = {DNSKEY, NSEC, RRSIG} <= {it[2] for it in self.owners.get(self.apex, ())}
        self.forms = SIGNED_FORMS if self.is_signed else FORMS
        numbered = ((form, *it) for form in self.forms for it in self.asked)
        self.by_question = {it: it[0].query(number % 65536, *it[1:]) for number, it in enumerate(numbered)}
        self.queries = [*self.by_question.values()]
        self.ours = {}

    def whole(self, query):
        """The query of the same question over a stream."""
        has_do = query.form.has_do and self.is_signed
        return self.by_question[SIGNED_WHOLE if has_do else WHOLE, query.name, query.rtype]

    def names_from(self, name):
        """The name and those above it in the zone."""
        while name.is_subdomain(self.apex):
            yield name
            if name == self.apex:
                return
            name = name.parent()

    def lowered(self, records):
        """The records with the lowest TTL of each RRset (RFC 2181, 5.2). The RRSIGs of an owner are one RRset for each
        type that they cover (RFC 4034, 3)."""
        for owner, ttl, rtype, data in records:
            self.ttls.setdefault((owner, rtype, data.covers()), set()).add(ttl)
        return frozenset(map(self.with_lowest, records))

    def with_lowest(self, record):
        """The record with the lowest TTL of its RRset, if it has one of those in the text."""
        name, ttl, rtype, data = record
        ttls = self.ttls.get((self.source(name), rtype, data.covers()), ())
        return (name, min(ttls), rtype, data) if ttl in ttls else record

    def source(self, name):
        """The name, or the wildcard that makes its records (RFC 4592, 3.3.1)."""
        encloser = next((it for it in self.names_from(name) if it in self.names), None)
        return name if encloser in (None, name) else dns.name.Name((b"*", *encloser.labels))

    def owned(self, name):
        """The records that a name owns, or that a wildcard makes for it."""
        return frozenset((name, *it[1:]) for it in self.owners.get(self.source(name), ()))

    def has_authority(self, name):
        """Whether the name is in the zone, and neither at nor below a cut."""
        return name.is_subdomain(self.apex) and not any(
            it != self.apex and NS in {one[2] for one in self.owners.get(it, ())} for it in self.names_from(name)
        )

    def rrset(self, name, rtype):
        return frozenset(it for it in self.owned(name) if it[2] == rtype)

    def denying(self, name):
        """The NSEC at a name or before it in canonical order (RFC 4034, 6.1), with its signatures."""
        last = max((it for it in self.owners if it <= name and self.rrset(it, NSEC)), default=self.apex)
        return frozenset(it for it in self.owners[last] if NSEC in (it[2], it[3].covers()))

    def has(self, records):
        """Whether the zone has each of these records, or a wildcard in it makes them."""
        return all(it in self.owned(it[0]) for it in records)
