"""The 300 messages of the comparison of writers, always the same: what each is to say, and no octet of how.

`all_messages()` gives them. A name is a tuple of labels without the root, and data a list of octets and names, so that
each writer may write a name in it shorter.
"""
import ipaddress
import random
from dataclasses import dataclass, field

A, NS, CNAME, SOA, NULL, PTR, HINFO, MX, TXT, RP, AFSDB, RT = 1, 2, 5, 6, 10, 12, 13, 15, 16, 17, 18, 21
PX, AAAA, SRV, NAPTR, KX, DNAME, OPT, DS, SSHFP, RRSIG = 26, 28, 33, 35, 36, 39, 41, 43, 44, 46
DNSKEY, TLSA, SVCB, CAA, PRIVATE = 48, 52, 64, 257, 65280
IN, CH, HS, ANY = 1, 3, 4, 255
QR, AA, TC, RD, RA, AD, CD = 0x8000, 0x400, 0x200, 0x100, 0x80, 0x20, 0x10
NOTIFY = 4 << 11
NXDOMAIN = 3
ANSWER, AUTHORITY, ADDITIONAL = range(3)


@dataclass
class Record:
    owner: tuple
    rtype: int
    data: list
    ttl: int = 3600
    rclass: int = IN


@dataclass
class Message:
    kind: str
    ident: int
    flags: int
    questions: list = field(default_factory=list)  # (name, type, class)
    sections: tuple = field(default_factory=lambda: ([], [], []))

    def ask(self, name, rtype, rclass=IN):
        self.questions.append((name, rtype, rclass))
        return self

    def add(self, section, *records):
        self.sections[section].extend(records)
        return self


def name(text):
    """The labels of a name, of ASCII without escapes."""
    return tuple(label.encode("ascii") for label in text.split(".") if label)


def wire_length(labels):
    return sum(len(label) + 1 for label in labels) + 1


def u8(number):
    return bytes([number])


def u16(number):
    return number.to_bytes(2, "big")


def u32(number):
    return number.to_bytes(4, "big")


def string(octets):
    return u8(len(octets)) + octets


def of_name(rtype):
    def make(owner, target, ttl=3600):
        return Record(owner, rtype, [target], ttl)
    return make


ns, cname, ptr, dname = of_name(NS), of_name(CNAME), of_name(PTR), of_name(DNAME)


def mx(owner, preference, exchange):
    return Record(owner, MX, [u16(preference), exchange])


def srv(owner, numbers, target):
    return Record(owner, SRV, [b"".join(map(u16, numbers)), target], 600)


def naptr(owner, order, service, regexp, target):
    return Record(owner, NAPTR, [u16(order) + u16(10) + string(b"u") + string(service) + string(regexp), target])


class Generator:
    """Draws messages. Each draw is of one generator of random numbers, begun with one number."""

    ZONES = ("example.com", "example.net", "example.org", "sub.example.com", "a.b.c.example.com", "invalid", "test",
             "xn--bcher-kva.example", "dept.univ.example.edu", "co.example.uk")
    HOSTS = ("www", "mail", "ns1", "ns2", "ftp", "mx1", "mx2", "cdn", "api", "host-17", "dev", "x", "imap", "vpn", "a")

    def __init__(self, seed):
        self.random = random.Random(seed)

    # Parts

    def word(self, size):
        return bytes(self.random.choice(b"abcdefghijklmnopqrstuvwxyz0123456789") for _octet in range(size))

    def zone(self):
        return name(self.random.choice(self.ZONES))

    def host(self, zone=None):
        return name(self.random.choice(self.HOSTS)) + (self.zone() if zone is None else zone)

    def hosts(self, count, zone):
        """Hosts of a zone with different names."""
        words = self.random.sample(self.HOSTS, min(count, len(self.HOSTS)))
        words += [f"h{number}" for number in range(count - len(words))]
        return [name(word) + zone for word in words]

    def mixed(self, labels):
        """The name with each letter in one case or the other."""
        return tuple(
            bytes(octet ^ 0x20 if chr(octet).isalpha() and self.random.random() < 0.5 else octet for octet in label)
            for label in labels)

    def long_name(self, suffix, length=255):
        """A name of so many octets that ends in a suffix, its labels as long as they can be."""
        labels = tuple(suffix)
        while wire_length(labels) < length:
            room = length - wire_length(labels)
            size = room - 1 if room <= 64 else 63 if room != 65 else 62
            labels = (self.word(size),) + labels
        return labels

    def ttl(self):
        return self.random.choice((0, 1, 60, 300, 3600, 86400, 172800, 2**31 - 1))

    def a(self, owner, ttl=None):
        address = b"\xc0\x00\x02" + u8(self.random.randrange(256))
        return Record(owner, A, [address], self.ttl() if ttl is None else ttl)

    def aaaa(self, owner, ttl=None):
        address = ipaddress.IPv6Address("2001:db8::").packed[:8] + self.random.randbytes(8)
        return Record(owner, AAAA, [address], self.ttl() if ttl is None else ttl)

    def soa(self, zone, mname=None, rname=None):
        numbers = (2026112600 + self.random.randrange(100), 7200, 3600, 1209600, 300)
        rname = rname or (b"hostmaster",) + zone
        return Record(zone, SOA, [mname or (b"ns1",) + zone, rname, b"".join(map(u32, numbers))], 900)

    def txt(self, owner, strings):
        return Record(owner, TXT, [b"".join(map(string, strings))], 300)

    def opt(self, options=(), size=1232, extended=0, dnssec_ok=False):
        octets = b"".join(u16(code) + u16(len(data)) + data for code, data in options)
        return Record((), OPT, [octets] if octets else [], extended << 24 | (0x8000 if dnssec_ok else 0), size)

    def options(self):
        """Options of an OPT record: NSID, a client's network, a cookie, padding, one that isn't assigned."""
        every = ((3, b""), (8, u16(1) + u8(24) + u8(0) + b"\xc6\x33\x64"), (10, self.random.randbytes(8)),
                 (12, bytes(self.random.randrange(12))), (65001, self.random.randbytes(5)))
        return sorted(self.random.sample(every, self.random.randrange(4)))

    def message(self, kind, flags):
        return Message(kind, self.random.randrange(65536), flags)

    def response(self, kind, flags=0):
        bits = self.random.choice((AA, RD | RA, AA | RD, RD | RA | AD, 0, AA | RD | RA | CD))
        return self.message(kind, QR | bits | flags)

    def may_have_opt(self, message):
        if self.random.random() < 0.4:
            message.add(ADDITIONAL, self.opt(size=self.random.choice((512, 1232, 4096))))
        return message

    # Kinds

    def query(self):
        bits = self.random.choice((RD, RD | AD, RD | CD, 0))
        rtype = self.random.choice((A, AAAA, MX, NS, SOA, TXT, SRV, PTR, DNSKEY, CAA, 255, 252, 65, PRIVATE))
        return self.message("query", bits).ask(self.host(), rtype)

    def query_with_opt(self):
        message = self.query()
        message.kind = "query with options"
        size = self.random.choice((512, 1232, 4096, 65535))
        return message.add(ADDITIONAL, self.opt(self.options(), size, dnssec_ok=self.random.random() < 0.5))

    def addresses(self):
        host = self.host()
        message = self.response("addresses").ask(host, A)
        make = self.random.choice((self.a, self.aaaa))
        message.questions[0] = (host, A if make == self.a else AAAA, IN)
        message.add(ANSWER, *(make(host, 300) for _address in range(self.random.randrange(1, 6))))
        return self.may_have_opt(message)

    def chain(self):
        """CNAME records one after the other, into zones that share more or less of their names."""
        links = [self.host()]
        message = self.response("CNAME chain").ask(links[0], A)
        for number in range(self.random.randrange(1, 6)):
            into = self.random.choice((self.zone(), links[-1], links[-1][1:], links[0][1:], name("cdn.example.net")))
            links.append((b"c%d" % number,) + into)
            message.add(ANSWER, cname(links[-2], links[-1], self.ttl()))
        message.add(ANSWER, self.a(links[-1]))
        return self.may_have_opt(message)

    def mail(self):
        zone = self.zone()
        hosts = self.hosts(self.random.randrange(1, 5), self.random.choice((zone, zone, name("example.net"))))
        message = self.response("MX").ask(zone, MX)
        message.add(ANSWER, *(mx(zone, 10 * number, host) for number, host in enumerate(hosts)))
        message.add(ADDITIONAL, *(self.random.choice((self.a, self.aaaa))(host) for host in hosts))
        return self.may_have_opt(message)

    def servers(self):
        zone = self.zone()
        hosts = self.hosts(self.random.randrange(1, 5), zone)
        message = self.response("NS").ask(zone, NS)
        message.add(ANSWER, *(ns(zone, host) for host in hosts))
        message.add(ADDITIONAL, *(self.a(host) for host in hosts[:3]))
        return self.may_have_opt(message)

    def start_of_zone(self):
        zone = self.zone()
        message = self.response("SOA").ask(zone, SOA)
        return message.add(ANSWER, self.soa(zone, self.random.choice((None, self.host())), self.random.choice((None, zone))))

    def reverse(self):
        if self.random.random() < 0.6:
            owner = name(ipaddress.IPv4Address(0xC0000200 + self.random.randrange(256)).reverse_pointer)
        else:
            owner = name(ipaddress.IPv6Address(0x20010DB8 << 96 | self.random.getrandbits(20)).reverse_pointer)
        message = self.response("PTR").ask(owner, PTR)
        for number in range(self.random.randrange(1, 4)):
            message.add(ANSWER, ptr(owner, (b"p%d" % number,) + self.zone()))
        return message.add(AUTHORITY, ns(owner[1:], self.host()))

    def texts(self):
        host = self.host()
        message = self.response("TXT").ask(host, TXT)
        for _record in range(self.random.randrange(1, 4)):
            strings = [self.random.randbytes(self.random.choice((0, 1, 20, 40))) for _s in range(self.random.randrange(1, 4))]
            message.add(ANSWER, self.txt(host, strings))
        return message

    def services(self):
        zone = self.zone()
        owner = name(self.random.choice(("_sip._tcp", "_ldap._tcp", "_xmpp-client._udp"))) + zone
        hosts = self.hosts(self.random.randrange(1, 4), self.random.choice((zone, name("example.org"))))
        message = self.response("SRV").ask(owner, SRV)
        message.add(ANSWER, *(srv(owner, (10, number, 5060), host) for number, host in enumerate(hosts)))
        message.add(ADDITIONAL, *(self.a(host) for host in hosts))
        return self.may_have_opt(message)

    def replaced(self):
        """A DNAME record, and the CNAME record that is made of it."""
        old, new = self.zone(), self.zone()
        host = (b"www", b"x") + old
        message = self.response("DNAME").ask(host, A)
        message.add(ANSWER, dname(old, new), cname(host, host[:2] + new, 0))
        return message.add(ANSWER, self.a(host[:2] + new))

    def host_data(self):
        host = self.host()
        message = self.response("HINFO").ask(host, HINFO)
        return message.add(ANSWER, Record(host, HINFO, [string(self.word(5)) + string(self.word(3))]))

    def unknown(self):
        host = self.host()
        rtype = self.random.choice((PRIVATE, 65281, 1000, NULL))
        message = self.response("unknown type").ask(host, rtype)
        for _record in range(self.random.randrange(1, 3)):
            message.add(ANSWER, Record(host, rtype, [self.random.randbytes(self.random.randrange(1, 40))]))
        return message.add(AUTHORITY, ns(host[1:], host))

    def keys(self):
        """Data whose octets are taken as they are: keys, digests, signatures, tags."""
        zone = self.zone()
        message = self.response("keys and digests").ask(zone, 255)
        octets = self.random.randbytes
        every = ((DS, u16(12345) + u8(13) + u8(2) + octets(32)), (SSHFP, u8(4) + u8(2) + octets(32)),
                 (DNSKEY, u16(257) + u8(3) + u8(15) + octets(32)), (TLSA, u8(3) + u8(1) + u8(1) + octets(32)),
                 (CAA, u8(0) + string(b"issue") + b"ca.example.net"))
        for rtype, data in self.random.sample(every, self.random.randrange(1, 4)):
            message.add(ANSWER, Record(zone, rtype, [data]))
        signed = u16(SOA) + u8(13) + u8(len(zone)) + b"".join(map(u32, (3600, 1790000000, 1780000000))) + u16(12345)
        signer = b"".join(map(string, zone)) + b"\0"
        if self.random.random() < 0.5:
            message.add(ANSWER, Record(zone, RRSIG, [signed + signer + octets(64)]))
        return message.add(AUTHORITY, ns(zone, (b"ns1",) + zone))

    def referral(self):
        zone = self.zone()
        child = (self.word(self.random.randrange(1, 9)),) + zone
        message = self.message("referral", QR | self.random.choice((0, RD))).ask((b"www",) + child, A)
        hosts = self.hosts(self.random.randrange(2, 6), self.random.choice((child, child, zone, name("example.net"))))
        message.add(AUTHORITY, *(ns(child, host, 172800) for host in hosts))
        for host in hosts:
            message.add(ADDITIONAL, self.a(host, 172800))
            if self.random.random() < 0.5:
                message.add(ADDITIONAL, self.aaaa(host, 172800))
        return self.may_have_opt(message)

    def no_name(self):
        zone = self.zone()
        missing = (self.word(8),) + self.random.choice(((), (b"a",), (b"b", b"c"))) + zone
        message = self.response("NXDOMAIN", NXDOMAIN).ask(missing, self.random.choice((A, AAAA, MX)))
        return self.may_have_opt(message.add(AUTHORITY, self.soa(zone)))

    def no_data(self):
        zone = self.zone()
        message = self.response("no data").ask(self.host(zone), AAAA)
        return self.may_have_opt(message.add(AUTHORITY, self.soa(zone)))

    def mixed_case(self):
        """The same names again and again, each time in other case."""
        zone, host = self.zone(), self.host()
        message = self.response("mixed case").ask(self.mixed(host), A)
        for _record in range(self.random.randrange(1, 4)):
            message.add(ANSWER, cname(self.mixed(host), self.mixed((b"alias",) + zone)))
            message.add(ANSWER, self.a(self.mixed((b"alias",) + zone)))
        message.add(AUTHORITY, ns(self.mixed(zone), self.mixed((b"ns1",) + zone)))
        message.add(AUTHORITY, mx(self.mixed(zone), 5, self.mixed((b"mail",) + zone)))
        return message.add(ADDITIONAL, self.a(self.mixed((b"ns1",) + zone)))

    def suffixes(self):
        """Names of few labels put together at random, so that they share suffixes in every way."""
        labels = (b"a", b"b", b"A", b"aa", b"example", b"com")

        def drawn():
            return tuple(self.random.choice(labels) for _label in range(self.random.randrange(0, 6)))

        message = self.response("shared suffixes").ask(drawn(), A)
        for section in range(3):
            for _record in range(self.random.randrange(0, 5)):
                owner = drawn()
                message.add(section, self.random.choice((
                    self.a(owner), ns(owner, drawn()), ptr(owner, drawn()), cname(owner, drawn()),
                    mx(owner, 1, drawn()), self.soa(owner, drawn(), drawn()))))
        return message

    def of_root(self):
        """Names with no label, or one."""
        message = self.response("the root").ask((), NS)
        servers = [name(f"{letter}.root-servers.net") for letter in "abcdefghijklm"]
        some = self.random.sample(servers, self.random.randrange(1, 5))
        message.add(ANSWER, *(ns((), server, 518400) for server in some))
        message.add(self.random.choice((ANSWER, AUTHORITY)), self.random.choice((
            mx((), 0, ()), ns((), ()), self.soa((), (), name("nstld.verisign-grs.com")), ns(name("com"), ()))))
        return message.add(ADDITIONAL, *(self.a(server) for server in some[:2]))

    def priming(self):
        """What the root is asked first (RFC 8109)."""
        servers = [name(f"{letter}.root-servers.net") for letter in "abcdefghijklm"]
        message = self.message("priming", QR | AA).ask((), NS)
        message.add(ANSWER, *(ns((), server, 518400) for server in servers))
        for server in servers:
            message.add(ADDITIONAL, self.a(server, 518400), self.aaaa(server, 518400))
        return message.add(ADDITIONAL, self.opt(size=4096))

    def long_labels(self):
        zone = (self.word(63),) + self.zone()
        host = (self.word(63),) + zone
        message = self.response("labels of 63 octets").ask(host, NS)
        message.add(ANSWER, ns(host, (b"ns",) + zone), ns(zone, host))
        return message.add(ADDITIONAL, self.a((b"ns",) + zone), self.a(zone[1:]))

    def long_names(self):
        """Names of 255 octets, that share all, most or little."""
        host = self.long_name(self.zone())
        again = self.long_name(host[self.random.randrange(1, len(host)):])
        message = self.response("names of 255 octets").ask(host, CNAME)
        message.add(ANSWER, self.random.choice((cname, ptr, ns, dname))(host, again))
        return message.add(ADDITIONAL, self.a(again), self.a(again[1:]))

    def many_labels(self):
        """A name of 127 labels, and those above it."""
        host = tuple(bytes([97 + number % 26]) for number in range(127))
        message = self.response("127 labels").ask(host, PTR)
        for cut in sorted(self.random.sample(range(1, 127), 4)):
            message.add(ANSWER, ptr(host[cut:], host[cut // 2:]))
        return message

    def bare(self):
        """Sections without an entry."""
        message = self.message("empty sections", self.random.choice((0, QR, QR | TC, QR | 1, QR | 5, RD, 0x7FF0)))
        message.flags &= ~0x7800  # QUERY
        drawn = self.random.randrange(6)
        if drawn == 1:
            message.ask(self.host(), A)
        elif drawn == 2:
            message.add(ADDITIONAL, self.opt(self.options(), extended=1))
        elif drawn == 3:
            message.add(ANSWER, self.a(self.host()), self.soa(self.zone()))
        elif drawn == 4:
            message.add(AUTHORITY, ns(self.zone(), self.host()))
        elif drawn == 5:
            message.add(ADDITIONAL, self.aaaa(self.host()))
        return message

    def empty_data(self):
        """Data without an octet, and data that is the root."""
        host = self.host()
        message = self.response("empty data").ask(host, PRIVATE)
        message.add(ANSWER, Record(host, PRIVATE, []))
        return message.add(AUTHORITY, self.random.choice((ptr, ns, cname))(host, ()))

    def later_types(self):
        """Names that no writer may write shorter, though they are in data (RFC 3597, 4)."""
        zone = self.zone()
        host, other = (b"h",) + zone, (b"box",) + zone
        every = (Record(host, RP, [other, (b"txt",) + zone]), Record(zone, AFSDB, [u16(1), host]),
                 Record(zone, RT, [u16(10), host]), Record(zone, PX, [u16(10), other, host]),
                 Record(zone, KX, [u16(2), host]), dname(zone, host))
        message = self.response("names never compressed").ask(host, 255)
        message.add(ANSWER, *self.random.sample(every, self.random.randrange(1, 5)))
        return message.add(ADDITIONAL, self.a(host), self.a(other))

    def naptrs(self):
        zone = self.zone()
        message = self.response("NAPTR").ask(zone, NAPTR)
        message.add(ANSWER, naptr(zone, 100, b"E2U+sip", b"!^.*$!sip:info@example.com!", ()))
        if self.random.random() < 0.7:
            message.add(ANSWER, naptr(zone, 50, b"SIP+D2U", b"", name("_sip._udp") + zone))
        return message

    def chaos(self):
        host = name(self.random.choice(("version.bind", "id.server", "hostname.bind")))
        rclass = self.random.choice((CH, HS))
        message = self.response("other classes").ask(host, TXT, rclass)
        record = self.txt(host, [self.word(9)])
        record.rclass = rclass
        return message.add(ANSWER, record)

    def notice(self):
        zone = self.zone()
        message = self.message("NOTIFY", NOTIFY | self.random.choice((AA, QR | AA))).ask(zone, SOA)
        if self.random.random() < 0.6:
            message.add(ANSWER, self.soa(zone))
        return message

    def many_addresses(self):
        zone = self.zone()
        message = self.response("many records").ask(zone, 255)
        count = self.random.randrange(30, 101)
        return message.add(ANSWER, *(self.a((b"h%d" % number,) + zone, 300) for number in range(count)))

    def many_servers(self):
        zone = self.zone()
        hosts = self.hosts(self.random.randrange(15, 40), zone)
        message = self.response("many records").ask(zone, NS)
        message.add(ANSWER, *(ns(zone, host) for host in hosts))
        return message.add(ADDITIONAL, *(self.a(host, 60) for host in hosts))

    def transfer(self):
        """A part of a zone transfer: records of many types."""
        zone = self.zone()
        message = self.response("many records").ask(zone, 252).add(ANSWER, self.soa(zone))
        hosts = self.hosts(self.random.randrange(10, 24), zone)
        for host in hosts:
            message.add(ANSWER, *self.random.sample((
                self.a(host), self.aaaa(host), self.txt(host, [self.word(4)]), mx(host, 10, self.random.choice(hosts)),
                ns((b"d",) + host, self.random.choice(hosts)), cname((b"w",) + host, host)), 2))
        return message.add(ANSWER, self.soa(zone))

    def far(self):
        """Names before and after the octet 16,384, to which the last pointer leads (RFC 1035, 4.1.4)."""
        zone, other = name("example.com"), name("late.example.net")
        message = self.response("beyond 16,383 octets").ask(zone, NULL)
        message.add(ANSWER, Record(zone, NULL, [bytes(16_300)]))
        for number in range(6):
            message.add(ANSWER, ns((b"n%d" % number,) + other, (b"m%d" % number,) + zone))
        return message.add(ADDITIONAL, *(self.a((b"n%d" % number,) + other) for number in range(6)))


    # What stands beside the 300

    def many_names(self):
        """More labels than are remembered, each in a name that comes twice."""
        message = self.response("180 names, each twice").ask((), NS)
        hosts = [(b"n%d" % number, b"example") for number in range(180)]
        message.add(ANSWER, *(ns((), host) for host in hosts))
        return message.add(ADDITIONAL, *(self.a(host) for host in hosts))

    def empty_null(self):
        host = self.host()
        message = self.response("NULL without an octet").ask(host, NULL)
        return message.add(ANSWER, Record(host, NULL, []))

    def two_questions(self):
        host = self.host()
        return self.message("two questions", RD).ask(host, A).ask(host, AAAA)

    def mailboxes(self):
        """Types of RFC 1035 whose names may be compressed, though few use them."""
        zone = self.zone()
        message = self.response("MB, MG, MR, MINFO, MD, MF").ask(zone, 253)
        for rtype in (7, 8, 9, 3, 4):
            message.add(ANSWER, Record(zone, rtype, [(b"box",) + zone]))
        return message.add(ANSWER, Record(zone, 14, [(b"box",) + zone, (b"err",) + zone]))

    def opt_first(self):
        message = self.referral()
        message.kind = "OPT before other records"
        message.sections[ADDITIONAL].insert(0, self.opt())
        return message


# How many of each kind
KINDS = (
    ("query", 8), ("query_with_opt", 14), ("addresses", 16), ("chain", 24), ("mail", 16), ("servers", 8),
    ("start_of_zone", 6), ("reverse", 10), ("texts", 8), ("services", 12), ("replaced", 8), ("host_data", 4),
    ("unknown", 8), ("keys", 8), ("referral", 20), ("no_name", 10), ("no_data", 8), ("mixed_case", 16),
    ("suffixes", 24), ("of_root", 8), ("long_labels", 4), ("long_names", 8), ("many_labels", 2), ("bare", 10),
    ("empty_data", 4), ("later_types", 10), ("naptrs", 4), ("chaos", 4), ("notice", 4), ("priming", 1),
    ("many_addresses", 4), ("many_servers", 4), ("transfer", 4), ("far", 1),
)
BESIDE = ("many_names", "opt_first", "two_questions", "mailboxes", "empty_null")
SEED = 20261126


def all_messages():
    """The messages, in the order of their kinds."""
    generator = Generator(SEED)
    messages = [getattr(generator, kind)() for kind, count in KINDS for _message in range(count)]
    assert len(messages) == 300, len(messages)
    return messages


def random_messages(count, seed):
    """So many messages of all kinds, always the same for a seed."""
    generator = Generator(seed)
    kinds, weights = zip(*KINDS)
    return [getattr(generator, kind)() for kind in generator.random.choices(kinds, weights, k=count)]


def messages_beside():
    """Messages that one of the writers, or both, can't be compared on as the 300 are."""
    generator = Generator(SEED + 1)
    return [getattr(generator, kind)() for kind in BESIDE]
