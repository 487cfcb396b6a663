"""The fields of record data: worked cases, and what dnspython, a second reader, reads in the same messages."""

import unittest
from ipaddress import IPv4Address, IPv6Address

from dnsnames import (
    BitmapLength, Class, EmptyHash, FieldKind, BadTag, KeyOrder, Message, Name, NoField, ShortInput, TooManyPointers,
    TrailingData, Type, WindowOrder,
)

from .test_texts import Words

try:
    import dns.message
    import dns.name
    import dns.rrset
except ImportError:
    dns = None

CH = Class(3)


def record(type_: Type, data: bytes, class_: Class = Class.IN):
    """A record of the root, in a message whose question is `a.`, at offset 12."""
    head = bytes.fromhex("123481800001000100000000") + b"\1a\0\0\1\0\1"
    octets = b"\0" + int(type_).to_bytes(2, "big") + int(class_).to_bytes(2, "big") + bytes(4)
    return next(Message(head + octets + len(data).to_bytes(2, "big") + data).answers())


def values(type_: Type, data: bytes, class_: Class = Class.IN) -> list:
    return [field.value for field in record(type_, data, class_).fields()]


class Cases(unittest.TestCase):
    def test_the_fields_of_a_type(self):
        a = Name("a")
        for type_, data, wanted in (
            (Type.A, b"\xc0\0\2\1", [IPv4Address("192.0.2.1")]),
            (Type.AAAA, bytes(15) + b"\1", [IPv6Address("::1")]),
            (Type.MX, b"\0\12\1m\xc0\x0c", [10, Name("m.a")]),
            (Type.SRV, b"\0\1\0\2\xff\xfe\xc0\x0c", [1, 2, 65534, a]),
            (Type.SOA, b"\xc0\x0c\xc0\x0c" + bytes(19) + b"\7", [a, a, 0, 0, 0, 0, 7]),
            (Type.TXT, b"\3abc\0", [(b"abc", b"")]),
            (Type.CAA, b"\x80\5issueca.b", [128, b"issue", b"ca.b"]),
            (Type.NAPTR, b"\0\1\0\2\1S\0\2!!\0", [1, 2, b"S", b"", b"!!", Name(".")]),
            (Type.NSEC, b"\xc0\x0c\0\2\x40\1\1\1\x40", [a, (Type.A, Type.MX, Type.CAA)]),
            (Type.NSEC3, b"\1\0\0\14\2\xaa\xbb\2xy", [1, 0, 12, b"\xaa\xbb", b"xy", ()]),
            (
                Type.RRSIG, b"\0\1\10\1\0\1\x51\x80\x7f\xff\xff\xff\x80\0\0\0\x30\x39\xc0\x0csig",
                [Type.A, 8, 1, 86400, 2147483647, 2147483648, 12345, a, b"sig"],
            ),
            (Type.SVCB, b"\0\1\0\0\1\0\3\2h2\0\3\0\2\1\xbb", [1, Name("."), ((1, b"\2h2"), (3, b"\1\xbb"))]),
            (Type(20), b"\1a", [b"a", None]),
            (Type(106), b"\0\1\0\1\2\3\4\5\6\7", [1, 0x0001020304050607]),
            (Type(65535), b"abc", [b"abc"]),
        ):
            with self.subTest(type=type_):
                self.assertEqual(values(type_, data), wanted)

    def test_the_class_is_asked(self):
        """SRV has fields in class IN alone (RFC 2782), MX in each."""
        self.assertEqual(values(Type.SRV, b"\0\1\0\2\0\3\0", CH), [b"\0\1\0\2\0\3\0"])
        self.assertEqual(values(Type.MX, b"\0\1\0", CH), [1, Name(".")])

    def test_a_field_has_its_octets_and_its_offset(self):
        number, name = record(Type.MX, b"\0\12\xc0\x0c").fields()
        self.assertEqual((number.kind, number.octets, number.offset), (FieldKind.NUMBER16, b"\0\12", 30))
        self.assertEqual((name.kind, name.octets, name.offset), (FieldKind.NAME, b"\xc0\x0c", 32))

    def test_data_is_read_whole_or_not_at_all(self):
        for type_, data, fault in (
            (Type.MX, b"", ShortInput), (Type.MX, b"\0", ShortInput), (Type.MX, b"\0\1\0\0", TrailingData),
            (Type.MX, b"\0\1\xc0\x20", TooManyPointers), (Type.CAA, b"\0\0", BadTag),
            (Type.NSEC3, b"\1\0\0\14\0\0", EmptyHash), (Type.NSEC, b"\0\1\1\1\0\1\1", WindowOrder),
            (Type.NSEC, b"\0\0\0", BitmapLength), (Type.HTTPS, b"\0\1\0\0\1\0\0\0\1\0\0", KeyOrder),
        ):
            with self.subTest(type=type_, data=data):
                self.assertRaises(fault, record(type_, data).fields)

    def test_names_and_numbers_of_more_types(self):
        it = record(Type.RRSIG, b"\0\1\10\1" + bytes(14) + b"\xc0\x0csig")
        self.assertEqual((it.number(), it.number(1), it.name_in_data()), (1, 8, Name("a")))
        self.assertRaises(NoField, it.number, 7)
        self.assertEqual(record(Type(105), b"\0\1\xc0\0\2\1").address(), IPv4Address("192.0.2.1"))


def _name(name: "dns.name.Name") -> Name:
    return Name.from_wire(name.to_wire())


def _types(data) -> tuple:
    return tuple(
        window * 256 + at * 8 + bit
        for window, bitmap in data.windows
        for at, octet in enumerate(bitmap)
        for bit in range(8)
        if octet & 128 >> bit
    )


# What dnspython reads of data of each type.
READ = {
    1: lambda it: [IPv4Address(it.address)],
    28: lambda it: [IPv6Address(it.address)],
    2: lambda it: [_name(it.target)],
    5: lambda it: [_name(it.target)],
    12: lambda it: [_name(it.target)],
    39: lambda it: [_name(it.target)],
    15: lambda it: [it.preference, _name(it.exchange)],
    18: lambda it: [it.preference, _name(it.exchange)],
    36: lambda it: [it.preference, _name(it.exchange)],
    21: lambda it: [it.preference, _name(it.exchange)],
    26: lambda it: [it.preference, _name(it.map822), _name(it.mapx400)],
    17: lambda it: [_name(it.mbox), _name(it.txt)],
    6: lambda it: [_name(it.mname), _name(it.rname), it.serial, it.refresh, it.retry, it.expire, it.minimum],
    33: lambda it: [it.priority, it.weight, it.port, _name(it.target)],
    16: lambda it: [tuple(it.strings)],
    13: lambda it: [it.cpu, it.os],
    35: lambda it: [it.order, it.preference, it.flags, it.service, it.regexp, _name(it.replacement)],
    257: lambda it: [it.flags, it.tag, it.value],
    43: lambda it: [it.key_tag, it.algorithm, it.digest_type, it.digest],
    44: lambda it: [it.algorithm, it.fp_type, it.fingerprint],
    52: lambda it: [it.usage, it.selector, it.mtype, it.cert],
    48: lambda it: [it.flags, it.protocol, it.algorithm, it.key],
    46: lambda it: [
        it.type_covered, it.algorithm, it.labels, it.original_ttl, it.expiration % 2**32, it.inception % 2**32, it.key_tag,
        _name(it.signer), it.signature,
    ],
    47: lambda it: [_name(it.next), _types(it)],
    50: lambda it: [it.algorithm, it.flags, it.iterations, it.salt, it.next, _types(it)],
    65280: lambda it: [it.data],
}
NSEC3 = "1 1 12 aabbccdd 2vptu5timamqttgl4luu9kg21e0aor3s A RRSIG TYPE1234", "1 0 0 - 2t7b4g4vsa5smi47k61mv5bv1a22bojr"


@unittest.skipUnless(dns, "there is no dnspython")
class Beside(unittest.TestCase):
    def compare(self, octets: bytes) -> int:
        message, compared = dns.message.from_wire(octets, one_rr_per_rrset=True), 0
        for it, other in zip(Message(octets).records(), [*message.answer, *message.authority, *message.additional]):
            if other.rdtype in READ:
                with self.subTest(type=it.type, data=it.data):
                    self.assertEqual([field.value for field in it.fields()], READ[other.rdtype](other[0]))
                    self.assertEqual(b"".join(field.octets for field in it.fields()), it.data)
                    compared += 1
        return compared

    def test_fields_are_those_that_a_second_reader_reads(self):
        self.assertGreater(sum(self.compare(Words(seed).message()) for seed in range(1500)), 5000)

    def test_so_are_those_of_nsec3(self):
        message = dns.message.Message()
        for text in NSEC3:
            message.answer.append(dns.rrset.from_text("a.example.", 60, "IN", "NSEC3", text))
        self.assertEqual(self.compare(message.to_wire()), len(NSEC3))


if __name__ == "__main__":
    unittest.main()
