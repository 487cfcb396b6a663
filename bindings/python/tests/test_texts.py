"""That texts of records say what dnspython, a second reader, reads in the same messages."""

import ipaddress
import random
import unittest

from dnsnames import Message

try:
    import dns.message
    import dns.name
    import dns.rdata
    import dns.rdataclass
    import dns.rdatatype
    import dns.rrset
    import dns.tokenizer
except ImportError:
    dns = None

LETTERS = b"abcdefghijklmnopqrstuvwxyzABCDEFGHIJKLMNOPQRSTUVWXYZ0123456789-_"
BASE64 = "QUJD", "RGVhciByZWFkZXI=", "AQIDBAUGBwgJCgsMDQ4PEA=="
TYPES = "A", "NS", "MX", "TXT", "AAAA", "SRV", "NAPTR", "DS", "RRSIG", "NSEC", "CAA", "TYPE1234"


class Words:
    """Words of random data, as zone files have them."""

    def __init__(self, seed: int) -> None:
        self.random = random.Random(seed)
        self.pool = [self._name() for _ in range(6)]

    def _label(self) -> bytes:
        octets = range(256) if self.random.random() < 0.2 else LETTERS
        return bytes(self.random.choice(octets) for _ in range(self.random.choice((1, 2, 3, 7, 12))))

    def _name(self) -> "dns.name.Name":
        return dns.name.Name([self._label() for _ in range(self.random.randrange(4))] + [b""])

    def name(self) -> "dns.name.Name":
        """One of a few, with a label more now and then, so that some are compressed."""
        name = self.random.choice(self.pool)
        return dns.name.Name((self._label(), *name.labels)) if self.random.random() < 0.3 else name

    def number(self, bits: int) -> int:
        return self.random.choice((0, 1, 2**bits - 1, self.random.getrandbits(bits)))

    def string(self, octets: int = 128) -> str:
        """Octets below 128, since dnspython takes higher ones for letters, but in TXT."""
        octets = bytes(self.random.choice(range(octets)) for _ in range(self.random.choice((0, 1, 5, 40))))
        return '"' + "".join(f"\\{it:03}" for it in octets) + '"'

    def hexadecimal(self, octets: int) -> str:
        return self.random.randbytes(octets).hex()

    def types(self) -> str:
        return " ".join(self.random.sample(TYPES, self.random.randrange(1, 5)))

    def data(self) -> tuple:
        """A type and data of it."""
        n, name = self.number, self.name
        time = f"{self.random.randrange(1970, 2100)}0102030405"
        kinds = {
            "A": lambda: ipaddress.IPv4Address(n(32)),
            "AAAA": lambda: ipaddress.IPv6Address(n(128)),
            "NS": name, "CNAME": name, "PTR": name, "DNAME": name,
            "MX": lambda: f"{n(16)} {name()}",
            "AFSDB": lambda: f"{n(16)} {name()}",
            "KX": lambda: f"{n(16)} {name()}",
            "RT": lambda: f"{n(16)} {name()}",
            "PX": lambda: f"{n(16)} {name()} {name()}",
            "RP": lambda: f"{name()} {name()}",
            "SOA": lambda: f"{name()} {name()} {n(32)} {n(31)} {n(31)} {n(31)} {n(31)}",
            "SRV": lambda: f"{n(16)} {n(16)} {n(16)} {name()}",
            "TXT": lambda: " ".join(self.string(256) for _ in range(self.random.randrange(1, 4))),
            "HINFO": lambda: f"{self.string()} {self.string()}",
            "NAPTR": lambda: f"{n(16)} {n(16)} {self.string()} {self.string()} {self.string()} {name()}",
            "CAA": lambda: f"{n(8)} issue {self.string()}",
            "DS": lambda: f"{n(16)} {n(8)} 2 {self.hexadecimal(32)}",
            "SSHFP": lambda: f"{n(8)} 2 {self.hexadecimal(32)}",
            "TLSA": lambda: f"{n(8)} {n(8)} 1 {self.hexadecimal(32)}",
            "DNSKEY": lambda: f"{n(16)} 3 {n(8)} {self.random.choice(BASE64)}",
            "RRSIG": lambda: f"{self.random.choice(TYPES)} {n(8)} {n(8)} {n(32)} {time} {time} {n(16)} {name()} "
            + self.random.choice(BASE64),
            "NSEC": lambda: f"{name()} {self.types()}",
            "NSEC3": lambda: f"1 {n(8)} {n(16)} {self.hexadecimal(4)} 2t7b4g4vsa5smi47k61mv5bv1a22bojr {self.types()}",
            "CDNSKEY": lambda: f"{n(16)} 3 {n(8)} {self.random.choice(BASE64)}",
            "SPF": self.string,
            "HTTPS": lambda: f"{self.random.randrange(1, 65536)} {name()} alpn=h2,h3 port={n(16)} ipv4hint=192.0.2.1",
            "TYPE65280": lambda: rf"\# 5 {self.hexadecimal(5)}",
        }
        kind = self.random.choice(sorted(kinds))
        return kind, str(kinds[kind]())

    def message(self) -> bytes:
        message = dns.message.Message(id=self.number(16))
        for section in (message.answer, message.authority, message.additional):
            for _ in range(self.random.randrange(4)):
                kind, data = self.data()
                section.append(dns.rrset.from_text(self.name(), self.number(31), "IN", kind, data))
        return message.to_wire(max_size=65535)


def read(line: str) -> tuple:
    """What a line of a record says to dnspython."""
    words = dns.tokenizer.Tokenizer(line)
    owner, ttl = words.get_name(dns.name.root), int(words.get_string())
    kind = dns.rdataclass.from_text(words.get_string()), dns.rdatatype.from_text(words.get_string())
    data = dns.rdata.from_text(*kind, words, dns.name.root, relativize=False)
    return owner.labels, ttl, *kind, data.to_wire()


@unittest.skipUnless(dns, "there is no dnspython")
class Texts(unittest.TestCase):
    def test_records_say_what_a_second_reader_reads(self):
        compared = 0
        for seed in range(1500):
            octets = Words(seed).message()
            message = dns.message.from_wire(octets, one_rr_per_rrset=True)
            lines = [it.to_text() for it in Message(octets).records()]
            records = [*message.answer, *message.authority, *message.additional]
            self.assertEqual(len(lines), len(records))
            for line, it in zip(lines, records):
                with self.subTest(seed=seed, line=line):
                    self.assertEqual(read(line), (it.name.labels, it.ttl, it.rdclass, it.rdtype, it[0].to_wire()))
                    compared += 1
        self.assertGreater(compared, 5000)


if __name__ == "__main__":
    unittest.main()
