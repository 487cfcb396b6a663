"""The zones of the conformance table (crates/conformance_zones) as texts, with the questions there."""

import contextlib
import hashlib
import pathlib

import dns.exception
import dns.name
import dns.rdata
import dns.rdataclass
from dns.rdatatype import AAAA, CNAME, DS, KEY, NS, NSEC, RRSIG, SOA

TABLE = pathlib.Path(__file__).resolve().parents[2] / "crates" / "conformance_zones"
HIGHEST_TTL = 2**31 - 1


class Case:
    """A zone of the table: its apex, records and questions."""

    def __init__(self, line, answer):
        _, self.apex, records, questions = line.split(" ")
        records = [it.split("/") for it in records.split(";")]
        data = [(owner, int(rtype), int(ttl), bytes.fromhex(it.strip("-"))) for owner, rtype, ttl, it in records]
        apex = dns.name.from_text(self.apex)
        self.records = [
            (owner, rtype, min(ttl, HIGHEST_TTL), valid_data(rtype, it, apex))
            for (owner, rtype, ttl, it), sign in zip(data, answer.split(" ", 1)[0].rstrip(";"), strict=True)
            if sign == "."
        ]
        asked = [it.rsplit("/", 1) for it in questions.split(";")] if questions != "-" else []
        self.asked = [(dns.name.from_text(it), int(rtype)) for it, rtype in asked]

    def text(self):
        """The zone as a server reads it, the SOA first, and data as octets (RFC 3597, 5)."""
        lines = [
            f"{owner} {ttl} IN TYPE{rtype} \\# {len(data)} {data.hex()}".rstrip()
            for owner, rtype, ttl, data in sorted(self.records, key=lambda it: it[1] != SOA)
        ]
        return "\n".join(lines) + "\n"

    def read(self):
        """The records as dnspython has them."""
        data = ((*it[:3], dns.rdata.from_wire(dns.rdataclass.IN, it[1], it[3], 0, len(it[3]))) for it in self.records)
        return frozenset((dns.name.from_text(owner), ttl, rtype, it) for owner, rtype, ttl, it in data)

    def has_valid_servers(self):
        """Whether the data of NS records are names: a server loads no others, and the table has some."""
        return all(is_data(NS, data) for _, rtype, _, data in self.records if rtype == NS)


def cases(most):
    """The zones that a server can load, the first `most` of the table, and how many are left out."""
    lines, answers = ((TABLE / it).read_text().splitlines() for it in ("stdin", "stdout"))
    both = zip(lines, answers, strict=True)
    both = [it for it in both if it[0].startswith("zone ") and not it[1].endswith(" no zone")]
    read = [Case(*it) for it in both[:most]]
    kept = [it for it in read if it.has_valid_servers()]
    return kept, len(read) - len(kept)


def has_key_beside_cname(zone):
    """Whether a name owns both (RFC 2535, 2.3.5): NSD and Knot DNS load no such zone."""
    both = ({owner for owner, _, it, _ in zone.records if it == rtype} for rtype in (KEY, CNAME))
    return bool(set.intersection(*both))


def is_data(rtype, data):
    """Whether the octets are data of the type."""
    with contextlib.suppress(dns.exception.DNSException):
        dns.rdata.from_wire(dns.rdataclass.IN, rtype, data, 0, len(data))
        return True
    return False


def valid_data(rtype, data, apex):
    """Data that a server takes for the type. The table has any octets for these types; here they change a field that
    may have any value. An SOA without a MINIMUM gets the highest, so that its own TTL is the lower one."""
    some, signer, labels = hashlib.sha256(data).digest(), apex.to_wire(), len(apex.labels) - 1
    if rtype == SOA:
        names, minimum = (data[:-20], data[-4:]) if is_data(SOA, data) else (b"\0\0", b"\x7f\xff\xff\xff")
        return names + bytes.fromhex("00000001 00010000 00010000 00100000") + minimum
    if rtype == AAAA and len(data) != 16:
        return some[:16]
    if rtype == DS:
        return bytes.fromhex("0001 08 02") + some
    if rtype == KEY:
        return bytes.fromhex("0000 03 08") + some
    if rtype == RRSIG and not is_data(RRSIG, data):
        return bytes.fromhex(f"0001 08 {labels:02x} 00000000 7fffffff 00000001 0001") + signer + some
    if rtype == NSEC:
        return signer + bytes.fromhex("00 05 00000000") + bytes([1 << some[0] % 8])
    return data
