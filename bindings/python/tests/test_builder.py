"""That messages which are built are read by dnspython as what was pushed, and which names in data are compressed."""

import copy
import io
import struct
import unittest

from dnsnames import Flags, Message, MessageBuilder, Name, NoBuilder, NoRoom, Type, WrongOrder

from .test_texts import Words

try:
    import dns.message
    import dns.name
    import dns.rdata
    import dns.rdataclass
    import dns.rdatatype
except ImportError:
    dns = None

COMPARED = 1500
IN = 1
# The types of RFC 1035 (3.3) that have names, by what stands before these, how many there are, and what comes after.
FIELDS = {
    2: (0, 1, 0), 3: (0, 1, 0), 4: (0, 1, 0), 5: (0, 1, 0), 6: (0, 2, 20), 7: (0, 1, 0), 8: (0, 1, 0), 9: (0, 1, 0),
    12: (0, 1, 0), 14: (0, 2, 0), 15: (2, 1, 0),
}
SOA = 6
# Those that are newer and have names, of which dnspython makes data.
NEWER = 17, 18, 21, 26, 33, 35, 36, 39, 46, 47, 65
SECTIONS = "answer", "authority", "additional"


def data_in(type_: int, names) -> bytes:
    """Data of a type whose names are some of these."""
    before, many, after = FIELDS[type_]
    return bytes(range(before)) + b"".join(bytes(Name(name)) for name in names[:many]) + bytes(range(after))


class Compressed(unittest.TestCase):
    """The question is www.example.com, at 12; the record's owner is example.com, and its data begin at 45."""

    def data(self, type_: int, octets: bytes) -> bytes:
        builder = MessageBuilder(512)
        builder.question(Name("www.example.com"), Type.A)
        builder.record("authority", Name("example.com"), type_, octets)
        message = builder.finish()
        record = next(Message(message).authority())
        self.assertEqual((record.type, len(record.data)), (type_, len(message) - 45))
        return message[45:]

    def test_each_type(self):
        for type_, (before, many, after) in FIELDS.items():
            with self.subTest(type=type_):
                names = (b"\2ns\xc0\x10", b"\xc0\x0c")[:many]
                written = bytes(range(before)) + b"".join(names) + bytes(range(after))
                self.assertEqual(self.data(type_, data_in(type_, ("ns.example.com", "WWW.Example.com"))), written)

    def test_what_is_left(self):
        for type_ in FIELDS:
            octets = data_in(type_, ("ns.example.com", "www.example.com"))
            for other in (b"", octets[:-1], octets + b"\0", octets[:-1] + b"\xc0\x10", b"\xc0\x10"):
                with self.subTest(type=type_, octets=other):
                    self.assertEqual(self.data(type_, other), other)
        name = bytes(Name("example.com"))
        for type_, octets in (
            (33, bytes(6) + name), (39, name), (17, name + name), (18, bytes(2) + name), (21, bytes(2) + name),
            (26, bytes(2) + name + name), (36, bytes(2) + name), (1, name), (16, name), (65280, name),
        ):
            with self.subTest(type=type_):
                self.assertEqual(self.data(type_, octets), octets)

    def test_refusals(self):
        """At each limit that is too small nothing changes, and what has room is pushed as ever."""
        name, data = Name("example.net"), bytes(Name("ns.example.net"))
        whole = MessageBuilder(512)
        whole.record("authority", name, Type.NS, data)
        size = len(whole)
        for limit in range(12, size):
            builder = MessageBuilder(512)
            builder.limit = limit
            with self.subTest(limit=limit), self.assertRaises(NoRoom):
                builder.record("authority", name, Type.NS, data)
            self.assertEqual(len(builder), 12)
            builder.limit = size
            builder.record("authority", name, Type.NS, data)
            self.assertEqual(len(builder), size)
        glue = len(whole)
        whole.record("additional", Name("ns.example.net"), Type.A, bytes(4))
        self.assertEqual(len(whole), glue + 2 + 10 + 4)


ADDRESSES = [bytes([192, 0, 2, 1]), bytes([192, 0, 2, 2])]


class Rrsets(unittest.TestCase):
    """An RRset is pushed whole, or not at all."""

    def test_what_is_written(self):
        """As the same records, one after another."""
        for type_, datas in ((Type.A, ADDRESSES), (Type.NS, [bytes(Name("ns.a.example")), bytes(Name("b.example"))])):
            with self.subTest(type=type_):
                one_by_one, whole = MessageBuilder(512), MessageBuilder(512)
                for data in datas:
                    one_by_one.record("authority", "a.example", type_, data, ttl=7)
                whole.push_rrset("authority", "a.example", type_, datas, ttl=7)
                self.assertEqual(whole.finish(), one_by_one.finish())

    def test_each_limit(self):
        whole = MessageBuilder(512)
        whole.push_rrset("answer", "a.example", Type.A, ADDRESSES)
        for limit in range(12, len(whole)):
            with self.subTest(limit=limit):
                builder = MessageBuilder(512)
                builder.limit = limit
                with self.assertRaises(NoRoom):
                    builder.push_rrset("answer", "a.example", Type.A, ADDRESSES)
                self.assertFalse(builder.push_extra("answer", "a.example", Type.A, ADDRESSES))
                self.assertEqual((len(builder), builder.flags), (12, 0))
                self.assertFalse(builder.push_required("answer", "a.example", Type.A, ADDRESSES))
                self.assertEqual((len(builder), builder.flags), (12, Flags.TC))
        builder.limit = len(whole)
        self.assertTrue(builder.push_required("answer", "a.example", Type.A, ADDRESSES))
        self.assertFalse(builder.push_extra("additional", "a.example", Type.A, ADDRESSES))
        self.assertEqual(len(builder), len(whole))

    def test_refusals(self):
        builder = MessageBuilder(512)
        builder.push_rrset("authority", "a.example", Type.A, [])
        self.assertEqual(len(builder), 12)
        builder.push_rrset("authority", "a.example", Type.A, iter(ADDRESSES))
        size = len(builder)
        for push in (builder.push_rrset, builder.push_required, builder.push_extra):
            with self.assertRaises(WrongOrder):
                push("answer", "a.example", Type.A, ADDRESSES)
            with self.assertRaises(ValueError):
                push("question", "a.example", Type.A, ADDRESSES)
            with self.assertRaises(ValueError):
                push("additional", "a.example", Type.A, [bytes(65536)])
            with self.assertRaises(TypeError):
                push("additional", "a.example", Type.A, [4])
        self.assertEqual((len(builder), builder.flags), (size, 0))


class Marks(unittest.TestCase):
    def test_back(self):
        builder = MessageBuilder(512, id=7)
        builder.question("a.example", Type.A)
        first, size = builder.mark(), len(builder)
        builder.push_rrset("answer", "a.example", Type.A, ADDRESSES)
        second, longer = builder.mark(), len(builder)
        builder.record("additional", "b.example", Type.A, ADDRESSES[0])
        builder.flags = Flags.QR
        builder.rewind(second)
        self.assertEqual((len(builder), builder.flags), (longer, Flags.QR))
        builder.rewind(first)
        self.assertEqual(len(builder), size)
        with self.assertRaises(ValueError):
            builder.rewind(second)
        builder.push_rrset("answer", "a.example", Type.A, ADDRESSES[:1])
        builder.rewind(first)
        builder.push_rrset("answer", "a.example", Type.A, ADDRESSES)
        self.assertEqual(len(builder), longer)
        self.assertEqual(Message(builder.finish()).header.answers, 2)

    def test_refusals(self):
        builder, other = MessageBuilder(512), MessageBuilder(512)
        mark = builder.mark()
        with self.assertRaises(ValueError):
            other.rewind(mark)
        with self.assertRaises(ValueError):
            copy.deepcopy(builder).rewind(mark)
        builder.finish()
        with self.assertRaises(NoBuilder):
            builder.rewind(mark)
        other_mark = other.mark()
        other.truncate()
        with self.assertRaises(ValueError):
            other.rewind(other_mark)


@unittest.skipUnless(dns, "there is no dnspython")
class ReadByDnspython(unittest.TestCase):
    def pushed(self, words: "Words") -> list:
        """Records in the order of their sections: owner, type, TTL, data."""
        records = []
        for section in SECTIONS:
            for _ in range(words.random.randrange(4)):
                kind, text = words.data()
                type_ = dns.rdatatype.from_text(kind)
                data = dns.rdata.from_text(IN, type_, text, dns.name.root, relativize=False)
                records.append((section, words.name(), int(type_), words.number(31), data))
        return records

    def built(self, asked, records: list) -> bytes:
        builder = MessageBuilder(65535, id=7)
        builder.question(Name.from_wire(asked.to_wire()), Type.A)
        for section, owner, type_, ttl, data in records:
            builder.record(section, Name.from_wire(owner.to_wire()), type_, data.to_wire(), ttl=ttl)
        return builder.finish()

    def written(self, asked, records: list) -> bytes:
        """The octets that dnspython writes of the same."""
        out, names = io.BytesIO(), {}
        out.write(bytes(12))
        asked.to_wire(out, names)
        out.write(bytes(4))
        for _, owner, type_, ttl, data in records:
            owner.to_wire(out, names)
            out.write(struct.pack("!HHIH", type_, IN, ttl, 0))
            data.to_wire(out, names)
        return out.getvalue()

    def test_it_reads_what_was_pushed(self):
        for seed in range(COMPARED):
            words = Words(seed)
            asked, records = words.name(), self.pushed(words)
            message = dns.message.from_wire(self.built(asked, records), one_rr_per_rrset=True)
            read = [
                (section, it.name, int(it.rdtype), it.ttl, it[0])
                for section, rrsets in zip(SECTIONS, message.sections[1:]) for it in rrsets
            ]
            with self.subTest(seed=seed):
                self.assertEqual(read, records)

    def test_it_is_as_long_as_that_of_dnspython(self):
        """But for pointers from a second name into the first of the same data, and into data of newer types."""
        compressed = 0
        for seed in range(COMPARED):
            words = Words(seed)
            asked, records = words.name(), self.pushed(words)
            records = [record for record in records if record[2] not in (SOA, *NEWER)]
            octets = self.built(asked, records)
            with self.subTest(seed=seed):
                self.assertEqual(len(octets), len(self.written(asked, records)))
            found = Message(octets).records()
            compressed += sum(len(it.data) < len(data.to_wire()) for it, (*_, data) in zip(found, records))
        self.assertGreater(compressed, COMPARED // 10)


if __name__ == "__main__":
    unittest.main()
