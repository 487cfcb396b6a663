"""The classes of differences between `dnszone` and name servers, each with its reason and RFC, and the counts of each.

A difference that no class claims fails in beside_servers.py."""

import collections
import dataclasses

import dns.flags
import dns.rdatatype
from dns.rdatatype import A, AAAA, ANY, CNAME, DNAME, DS, NSEC, RRSIG
from zone import PARTS, SECTIONS, Query, Response, response_of, target_of

ALL, ALIASES = "nsd knotd named", 16
SIGNING = {RRSIG, NSEC, DS}


@dataclasses.dataclass
class Difference:
    """A query to a server, two responses, and those without a limit: to the question over a stream."""

    server: str
    zone: object
    query: Query
    ours: Response
    theirs: Response
    our_whole: Response
    their_whole: Response

    @property
    def rtype(self):
        return self.query.rtype

    def __post_init__(self):
        theirs, self.theirs = self.theirs, with_lowest(self.theirs, self.zone)
        self.their_whole = with_lowest(self.their_whole, self.zone)
        # No RFC says what holds of RRSIGs that cover one type and have different TTLs.
        self.ours, self.our_whole = (with_lowest(it, self.zone, {RRSIG}) for it in (self.ours, self.our_whole))
        self.is_mixed = theirs != self.theirs
        self.is_half = self.query.form.has_do and not self.zone.is_signed and self.drop_signing()

    def drop_signing(self):
        """Takes the records of DNSSEC that weren't asked for away, and tells whether they differed."""
        parts = self.parts()
        self.ours, self.theirs = (without_signing(it, self.rtype) for it in (self.ours, self.theirs))
        return self.parts() != parts

    def parts(self):
        return {it for it in PARTS if getattr(self.ours, it) != getattr(self.theirs, it)}

    def more(self, part):
        return getattr(self.theirs, part) - getattr(self.ours, part)

    def less(self, part):
        return getattr(self.ours, part) - getattr(self.theirs, part)

    def adds(self, names):
        """Whether the server's additional section has more, and that is addresses of the zone at these names, or
        signatures of addresses."""
        more = self.more("additional")
        types = {data.covers() if rtype == RRSIG else rtype for *_, rtype, data in more}
        is_so = {it[0] for it in more} <= names and types <= {A, AAAA} and self.zone.has(more)
        return is_so and not self.less("additional")


def records(response):
    return frozenset().union(*(getattr(response, it) for it in SECTIONS))


def with_lowest(response, zone, types=None):
    """The response with the lowest TTL of each RRset, of these types or of all."""
    parts = {}
    for part in SECTIONS:
        section = getattr(response, part)
        parts[part] = frozenset(it if types and it[2] not in types else zone.with_lowest(it) for it in section)
    return dataclasses.replace(response, **parts)


def without_signing(response, rtype):
    """The response without the records of DNSSEC that weren't asked for."""
    answer = frozenset(it for it in response.answer if it[2] not in SIGNING - {rtype} or rtype == ANY)
    rest = (frozenset(it for it in part if it[2] not in SIGNING) for part in (response.authority, response.additional))
    return dataclasses.replace(response, **dict(zip(SECTIONS, (answer, *rest), strict=True)))


def names_in(records):
    return {target_of(data) for *_, data in records}


def links(answer):
    """The CNAMEs: owners with targets."""
    return {owner: data.target for owner, _, rtype, data in answer if rtype == CNAME}


def is_any(it):
    """Other RRsets, each of them whole, and with signatures or without."""
    sets = {(owner, rtype) for owner, _, rtype, _ in it.theirs.answer if rtype != RRSIG}
    whole = frozenset().union(*(it.zone.rrset(*one) for one in sets))
    rest = it.theirs.answer - whole
    is_whole = sets and whole <= it.theirs.answer and {one[2] for one in rest} <= {RRSIG} and it.zone.has(rest)
    return it.rtype == ANY and is_whole


def names_along(it):
    """The names of a chain of aliases, from the one that is asked for."""
    targets, names = links(it.our_whole.answer), [it.query.name]
    while targets.get(names[-1], names[-1]) not in names:
        names.append(targets[names[-1]])
    return names


def end_of(it):
    """The last name of a chain of aliases, or the name that is asked for."""
    return names_along(it)[-1]


def differs_in(it, less, more=frozenset()):
    """Whether the server's authority section has these records in place of those."""
    ours = it.our_whole if it.ours.tc else it.ours
    is_alike = ours.authority - it.theirs.authority <= less and it.theirs.authority - ours.authority <= more
    return it.query.form.has_do and is_alike


def is_empty_wildcard(it):
    """Whether the server leaves out what shows that an asterisk label owns nothing."""
    source = it.zone.source(end_of(it))
    is_empty = source in it.zone.names and source not in it.zone.owners
    return is_empty and source.is_wild() and differs_in(it, it.zone.denying(source))


def is_wild_nsec(it):
    """Whether the server leaves out the NSEC that shows that a wildcard made an NSEC."""
    end = end_of(it)
    return it.rtype == NSEC and end not in it.zone.names and differs_in(it, it.zone.denying(end))


def is_asterisk(it):
    """Whether the server leaves out the NSEC for a name that doesn't exist and begins with an asterisk."""
    names = (one for one in names_along(it) if one.is_wild() and one not in it.zone.names)
    return any(differs_in(it, it.zone.denying(one)) for one in names)


def is_for_target(it):
    """Whether the server has the NSEC for the target of a DNAME in place of the one for the name below it."""
    targets = [data.target for *_, rtype, data in it.ours.answer if rtype == DNAME]
    return any(differs_in(it, it.zone.denying(end_of(it)), it.zone.denying(one)) for one in targets)


def is_hidden_any(it):
    """No data where the name owns records of DNSSEC alone."""
    types = {one[2] for one in it.zone.owned(it.query.name)}
    return it.rtype == ANY and types and types <= SIGNING and not it.theirs.answer


def is_hidden_nsec(it):
    """No data at a name that has a CNAME and no NSEC."""
    types = {one[2] for one in it.ours.answer}
    return it.rtype == NSEC and CNAME in types and NSEC not in types and not it.theirs.answer


def is_loop(it):
    cnames = links(it.ours.answer)
    return it.theirs.rcode == "SERVFAIL" and cnames and set(cnames.values()) <= set(cnames)


def is_long_chain(it):
    is_cut = it.theirs.answer < it.our_whole.answer or it.theirs.rcode == "SERVFAIL"
    return len(links(it.theirs.answer)) >= 5 and it.theirs.answer <= it.our_whole.answer and is_cut


def is_second_turn(it):
    is_redirected = DNAME in {rtype for *_, rtype, _ in it.theirs.answer}
    is_longer = len(links(it.our_whole.answer)) > 1 and it.theirs.answer < it.our_whole.answer
    return is_redirected and (is_longer or it.our_whole.rcode == "YXDOMAIN")


def is_longer_chain(it):
    """Whether the server follows more aliases than the program."""
    return len(links(it.our_whole.answer)) > ALIASES and it.theirs.answer > it.our_whole.answer


def is_any_past_dname(it):
    """Whether the server goes on after the CNAME that a DNAME makes."""
    is_redirected = DNAME in {rtype for *_, rtype, _ in it.ours.answer}
    return it.rtype == ANY and is_redirected and it.theirs.answer >= it.ours.answer


def exceeds(response, form):
    """Whether the response, with an OPT record where there is one, is longer than may be."""
    return response.size + 11 * (form.payload > 0 and not response.opt) > form.limit


def is_cut_twice(it):
    is_cut = it.ours.tc and it.theirs.tc and exceeds(it.our_whole, it.query.form)
    is_known = it.theirs.rcode in ("NOERROR", it.ours.rcode, it.our_whole.rcode, it.their_whole.rcode)
    return is_cut and is_known and it.zone.has(records(it.theirs) - records(it.their_whole))


def is_cut_there(it):
    is_longer = it.theirs.tc and not it.ours.tc and exceeds(it.their_whole, it.query.form)
    return is_longer and records(it.theirs) <= records(it.their_whole)


def is_cut_here(it):
    """Whether the server sends the whole response, and more addresses of the zone at most."""
    is_whole = all(getattr(it.theirs, part) == getattr(it.our_whole, part) for part in ("rcode", *SECTIONS[:2]))
    is_cut = it.ours.tc and not it.theirs.tc and exceeds(it.our_whole, it.query.form)
    return is_cut and is_whole and it.zone.has(it.theirs.additional)


def lacks_room(it):
    """Whether both leave out addresses of their whole responses, with TC clear."""
    is_long = exceeds(it.our_whole, it.query.form) or exceeds(it.their_whole, it.query.form)
    ours, theirs = it.our_whole.additional >= it.ours.additional, it.their_whole.additional >= it.theirs.additional
    return is_long and not it.ours.tc and not it.theirs.tc and ours and theirs


def copies_cd(it):
    (number, opcode, ours), (*its, theirs) = it.ours.header, it.theirs.header
    return [number, opcode] == its and ours ^ theirs == dns.flags.CD and theirs & dns.flags.CD


def is_authentic(it):
    """Whether AD is set in a response without records."""
    (number, opcode, ours), (*its, theirs) = it.ours.header, it.theirs.header
    return [number, opcode] == its and theirs ^ ours == dns.flags.AD and theirs & dns.flags.AD and not records(it.theirs)


def explains(it):
    """Whether the OPT record differs in extended errors alone."""
    (size, flags, ours), (*its, theirs) = it.ours.opt or (0, 0, ()), it.theirs.opt or (0, 0, ())
    return it.ours.opt and [size, flags] == its and not ours and all(one.startswith("EDE ") for one in theirs)


def is_one_cover(it):
    """Whether the server answers with the RRSIGs that cover one type, each with the TTL of that RRset or the original
    one in its data. Those of the program must be the zone's."""
    end, answer = end_of(it), it.our_whole.answer if it.ours.tc else it.ours.answer
    ours, theirs = ({one for one in said if one[0] == end and one[2] == RRSIG} for said in (answer, it.theirs.answer))
    types = {data.covers() for *_, data in theirs}
    ttls = {data: ttl for _, ttl, _, data in ours if data.covers() in types}
    is_same = ttls.keys() == {one[3] for one in theirs} and answer - ours == it.theirs.answer - theirs
    is_same = is_same and all(ttl in (ttls[data], data.original_ttl) for _, ttl, _, data in theirs)
    return it.rtype == RRSIG and len(types) == 1 and is_same and it.zone.has(ours)


# A class of differences: the servers, the parts of a response, a test of the difference, and the reason.
CLASSES = [
    (
        ALL,
        "additional",
        lambda it: it.ours.answer and it.adds(names_in(it.theirs.answer)),
        "A server may add addresses of the names in an answer (RFC 1034, 4.3.2, step 6). `dnszone` adds none to an "
        "answer; a client can ask for them.",
    ),
    (
        "nsd knotd",
        "additional",
        lambda it: not it.ours.aa and it.adds(names_in(it.theirs.authority) - it.zone.owners.keys()),
        "The server adds an address that a wildcard gives to a name server of a referral. RFC 9471, 3, demands the "
        "glue that the zone has at that name, and `dnszone` adds no other addresses.",
    ),
    (
        "named",
        "additional",
        lambda it: not it.more("additional") and all(it.zone.has_authority(one[0]) for one in it.less("additional")),
        "With minimal responses BIND adds glue to a referral, but no addresses for which the zone has authority. RFC "
        "9471, 3, demands glue alone. `dnszone` adds all addresses that the zone has (RFC 1034, 4.3.2, step 3b).",
    ),
    (
        "nsd knotd",
        "rcode answer authority additional",
        is_any_past_dname,
        "A question for ANY is answered by the CNAME that a DNAME makes (RFC 8482, 4.1), and `dnszone` and BIND stop "
        "there. NSD and Knot DNS start again with the new name (RFC 6672, 3.2, step 3c).",
    ),
    (
        ALL,
        "answer",
        is_any,
        "A question for ANY may be answered with one RRset or more, at the server's choice (RFC 8482, 4.1). "
        "`dnszone` returns the RRset of the lowest type, the server another one or all of them.",
    ),
    (
        "knotd",
        "tc answer",
        is_one_cover,
        "The RRSIGs of an owner belong to the RRsets that they cover (RFC 4034, 3). Knot DNS answers a question for "
        "RRSIG with those of one RRset, `dnszone` and the others with all. Where the TTLs of an RRset differ, it takes "
        "the original TTL in the RRSIG.",
    ),
    (
        "named",
        "answer authority",
        is_hidden_any,
        "A question for ANY is answered with one RRset or more (RFC 8482, 4.1). BIND leaves DS, RRSIG and NSEC out "
        "where the zone isn't signed, and these names own no others.",
    ),
    (
        "named",
        "header tc answer authority additional",
        lambda it: it.rtype == NSEC and not it.ours.aa and it.theirs.answer and it.zone.has(it.theirs.answer),
        "A question for the NSEC of a cut gets a referral: only DS is excepted (RFC 4035, 3.1.4.1). BIND answers it "
        "with the NSEC that the zone has there.",
    ),
    (
        "knotd named",
        "rcode answer authority",
        is_hidden_nsec,
        "A CNAME is the answer to a question for any other type (RFC 1034, 4.3.2, step 3a). These servers answer a "
        "question for NSEC, which may be beside a CNAME (RFC 4035, 2.5), with no data.",
    ),
    (
        "knotd named",
        "tc authority",
        is_empty_wildcard,
        "A source of synthesis that owns no records, since it is only above others, gives no data (RFC 4592, 2.2.2 and "
        "3.3.1), and the response must have the NSEC that shows that nothing is there (RFC 4035, 3.1.3.4). `dnszone` "
        "and NSD have it, Knot DNS and BIND the one that covers the name alone.",
    ),
    (
        "knotd",
        "authority",
        is_wild_nsec,
        "A wildcard makes the NSEC that a question asks for (RFC 4592, 4.7), and the response must have the NSEC that "
        "covers the name, too (RFC 4035, 3.1.3.3). Knot DNS leaves it out.",
    ),
    (
        "knotd",
        "authority",
        is_asterisk,
        "A name with an asterisk label is no special one in a question (RFC 4592, 2.3): where a wildcard makes its "
        "records, the response must have the NSEC that covers it (RFC 4035, 3.1.3.3). Knot DNS leaves it out.",
    ),
    (
        "nsd",
        "authority",
        is_for_target,
        "Where a DNAME leads to a name that doesn't exist, the response must have the NSEC that covers this name (RFC "
        "4035, 3.1.3). NSD has the one at or before the target of the DNAME in its place.",
    ),
    (
        "named",
        "rcode",
        is_loop,
        "A loop of CNAMEs should be reported as an error (RFC 1034, 3.6.2). BIND returns SERVFAIL. `dnszone` "
        "returns each CNAME of the loop once with NOERROR, as NSD and Knot DNS do.",
    ),
    (
        "knotd named",
        "rcode tc answer authority additional",
        is_long_chain,
        "A chain of CNAMEs should be followed (RFC 1034, 3.6.2). These servers stop after some of them, BIND with "
        "SERVFAIL where nothing but the end is missing, and the client asks for the rest. `dnszone` follows 16.",
    ),
    (
        "nsd",
        "rcode tc answer authority additional",
        is_longer_chain,
        "`dnszone` follows 16 CNAMEs of a chain, and the client asks for the rest. NSD follows more.",
    ),
    (
        "nsd",
        "rcode tc answer authority additional",
        is_second_turn,
        "Each DNAME on the way makes a name (RFC 6672, 3.2, step 3c), and a name that becomes too long gives "
        "YXDOMAIN (2.2). NSD uses no DNAME twice in a response, so it stops earlier.",
    ),
    (
        "knotd",
        "rcode authority",
        lambda it: (it.ours.rcode, it.theirs.rcode) == ("YXDOMAIN", "NXDOMAIN"),
        "Where a DNAME makes a name too long, the response code is YXDOMAIN (RFC 6672, 2.2). Knot DNS returns "
        "NXDOMAIN.",
    ),
    (
        "named",
        "header",
        copies_cd,
        "A security-aware server should clear CD in an authoritative response (RFC 4035, 3.1.6). BIND copies it, as a "
        "recursive server must (RFC 4035, 3.2.2).",
    ),
    (
        "named",
        "header",
        is_authentic,
        "AD says that all records of the answer and authority sections are authentic (RFC 4035, 3.1.6). BIND sets it "
        "where there are none.",
    ),
    (
        ALL,
        "rcode header answer authority additional opt",
        lambda it: it.rtype == 65535 and it.ours.rcode == "FORMERR" and it.theirs.rcode != "FORMERR",
        "The type 65,535 is reserved (RFC 6895, 3.1). `dnszone` returns FORMERR, and the servers answer as for a type "
        "that no name owns.",
    ),
    (
        ALL,
        "opt",
        explains,
        "A server may add an extended error to the OPT record (RFC 8914, 2 and 4.21). `dnszone` sends no options.",
    ),
    (
        ALL,
        "rcode answer authority additional",
        is_cut_twice,
        "With TC set, a client ignores the response and asks again over a stream (RFC 2181, 9), so which of its "
        "records are there is the server's choice, and the response code doesn't count.",
    ),
    (
        ALL,
        "rcode tc answer authority additional",
        is_cut_there,
        "The server's response has more, all RRsets for ANY or more aliases, and a datagram has no room for them, so "
        "TC is set (RFC 1035, 4.2.1). That of `dnszone` fits.",
    ),
    (
        ALL,
        "rcode tc answer authority additional",
        is_cut_here,
        "The response fits a datagram only with the names in data compressed, which no sender must do (RFC 1035, "
        "4.1.4). `dnszone` doesn't, and sets TC.",
    ),
    (
        ALL,
        "additional",
        lacks_room,
        "Addresses that aren't required glue (RFC 9471, 3.2) are left out where they don't fit, and TC stays clear "
        "(RFC 2181, 9). Which of them is the server's choice.",
    ),
]
HALF = (
    "With DO set, `dnszone` adds the RRSIG, NSEC and DS records that a zone has (RFC 4035, 3.1), whatever it lacks of "
    "a signed one (RFC 4035, 2). The servers add them, or some of them, where they take the zone for a signed one."
)
MIXED = (
    "Different TTLs in an RRset are an error, and the lowest should hold (RFC 2181, 5.2). `dnszone` sends the lowest, "
    "the servers others of those in the text."
)
KEY_BESIDE_CNAME = "A KEY may be beside a CNAME (RFC 4035, 2.5). NSD and Knot DNS load no zone with one."
REASONS = [*(why for *_, why in CLASSES), HALF, MIXED, KEY_BESIDE_CNAME]


def classes_of(it):
    """The reasons of the classes that claim a part of a difference, and the parts that none claims."""
    rest, claimed = it.parts(), []
    for servers, parts, test, why in CLASSES:
        if it.server in servers.split() and rest & {*parts.split()} and test(it):
            rest -= {*parts.split()}
            claimed.append(why)
    return claimed + [HALF] * it.is_half + [MIXED] * it.is_mixed, rest


def shown(section):
    if not isinstance(section, frozenset):
        return str(section)
    return "; ".join(sorted(f"{owner} {ttl} {dns.rdatatype.to_text(rtype)} {it}" for owner, ttl, rtype, it in section))


class Trial:
    """The counts of each server, over the zones that are signed, and over the others."""

    def __init__(self):
        self.counts = collections.defaultdict(collections.Counter)
        self.examples, self.unlisted = {}, []

    def refuse(self, server, zone, is_known):
        """A zone that the server doesn't load."""
        self.counts[server, zone.is_signed]["zones listed" if is_known else "zones unlisted"] += 1
        if is_known:
            self.note(server, zone, KEY_BESIDE_CNAME, f"{server}, {zone.name}")
        else:
            self.unlisted.append(f"{server}, {zone.name}: not loaded: {zone.text!r}")

    def note(self, server, zone, why, example):
        self.counts[server, zone.is_signed][why] += 1
        self.examples.setdefault(why, example)

    def take(self, server, zone, octets):
        """The responses of a server to the queries of a zone."""
        theirs = {it: response_of(said) for it, said in octets.items()}
        for it in zone.queries:
            whole = zone.whole(it)
            self.compare(Difference(server, zone, it, zone.ours[it], theirs[it], zone.ours[whole], theirs[whole]))

    def compare(self, it):
        claimed, rest = classes_of(it)
        self.counts[it.server, it.zone.is_signed]["unlisted" if rest else "listed" if claimed else "equal"] += 1
        question = f"{it.query.name} {dns.rdatatype.to_text(it.rtype)}, {it.query.form.title}"
        example = f"{it.server}, {it.zone.name}: {question}"
        for why in claimed:
            self.note(it.server, it.zone, why, example)
        for part in sorted(rest):
            said = [shown(getattr(one, part, one)) for one in (it.ours, it.theirs)]
            self.unlisted.append(f"{example}: {part}: here '{said[0]}', there '{said[1]}'")
