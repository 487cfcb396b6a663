"""The worked cases of RFC 1035 and RFC 4034, every fault, and that this package agrees with dnsnames.h."""

import copy
import doctest
import itertools
import os
import pathlib
import pickle
import random
import re
import subprocess
import sys
import unittest

import dnsnames
from dnsnames import Composer, Message, MessageBuilder, Name, Type, read, skip
from dnsnames import _library
from dnsnames._library import library
from dnsnames._message import Sections, _text

HEADER = pathlib.Path(__file__).parents[2] / "c" / "dnsnames.h"
# RFC 1035, 4.1.4: F.ISI.ARPA at 20, FOO.F.ISI.ARPA at 40, ARPA at 64, the root at 92.
STANDARD = (
    bytes(20) + b"\1F\3ISI\4ARPA\0" + bytes(8) + b"\3FOO\xc0\x14" + bytes(18) + b"\xc0\x1a" + bytes(26) + b"\0"
)
# RFC 4034, 6.1.
SORTED = (
    "example", "a.example", "yljkjljk.a.example", "Z.a.example", "zABC.a.EXAMPLE", "z.example", "\\001.z.example",
    "*.z.example", "\\200.z.example",
)
RESPONSE = bytes.fromhex(
    "123481800001000200000001" "03777777076578616d706c6503636f6d0000010001"
    "c00c0005000100000e10000704686f7374c010" "c02d000100010000003c0004c0000201" "0000291000000000000000"
)


class Reading(unittest.TestCase):
    def test_the_standards_message(self):
        for offset, text, end, compressed in (
            (20, "F.ISI.ARPA.", 32, False), (40, "FOO.F.ISI.ARPA.", 46, True), (64, "ARPA.", 66, False),
            (92, ".", 93, False),
        ):
            with self.subTest(offset=offset):
                name = read(STANDARD, offset)
                self.assertEqual((str(name.name), name.end, name.compressed), (text, end, compressed))
                self.assertEqual(skip(STANDARD, offset), end)
                self.assertEqual(Name.from_message(STANDARD, offset), name.name)

    def test_kinds_of_octets(self):
        for kind in (bytes, bytearray, memoryview):
            self.assertEqual(str(Name.from_message(kind(STANDARD), 40)), "FOO.F.ISI.ARPA.")
        with self.assertRaises(TypeError):
            read(93, 0)
        with self.assertRaises(TypeError):
            Name.from_wire("com")

    def test_octets_are_copied(self):
        octets = bytearray(RESPONSE)
        message, view = Message(octets), Message(memoryview(octets))
        octets[:] = bytes(len(octets))
        self.assertEqual((bytes(message), bytes(view)), (RESPONSE, RESPONSE))

    def test_each_fault(self):
        for octets, offset, fault in (
            (b"\3ww", 0, dnsnames.ShortInput), (b"", 0, dnsnames.ShortInput), (b"\0", 1, dnsnames.ShortInput),
            (b"\0", 2**64, dnsnames.ShortInput), (b"\xc0", 0, dnsnames.ShortInput),
            (b"\x40", 0, dnsnames.BadLabelType), (b"\xbf", 0, dnsnames.BadLabelType),
            (b"\xc0\0", 0, dnsnames.TooManyPointers), (b"\0\0\xc0\3", 2, dnsnames.TooManyPointers),
            (b"\1a" * 128 + b"\0", 0, dnsnames.LongName), (b"\1a\xc0\0", 0, dnsnames.LongName),
        ):
            with self.subTest(octets=octets, offset=offset), self.assertRaises(fault) as caught:
                read(octets, offset)
            self.assertEqual(caught.exception.offset, offset)
            self.assertEqual(caught.exception.status, fault.status)
        with self.assertRaises(dnsnames.ShortInput):
            skip(b"\3ww")
        with self.assertRaises(ValueError):
            read(b"\0", -1)

    def test_limit(self):
        self.assertEqual(str(read(STANDARD, 40, limit=1).name), "FOO.F.ISI.ARPA.")
        with self.assertRaises(dnsnames.TooManyPointers):
            read(STANDARD, 40, limit=0)
        for limit in (-1, 256):
            with self.assertRaises(ValueError):
                read(STANDARD, 40, limit=limit)

    def test_the_longest_message(self):
        message = bytes(65533) + b"\xff\xff"
        self.assertEqual(read(message, 65533), (Name("."), 65535, False))
        with self.assertRaises(dnsnames.ShortInput):
            read(message, 65535)


class Names(unittest.TestCase):
    def test_wire_faults(self):
        for octets, fault in (
            (b"", dnsnames.ShortInput), (b"\3ww", dnsnames.ShortInput), (b"\3www", dnsnames.RelativeName),
            (b"\0\0", dnsnames.TrailingData), (b"\xc0\0", dnsnames.CompressedName), (b"\x41\0", dnsnames.BadLabelType),
            (b"\1a" * 127 + b"\1a\0", dnsnames.LongName),
        ):
            with self.subTest(octets=octets), self.assertRaises(fault) as caught:
                Name.from_wire(octets)
            self.assertIsNone(caught.exception.offset)
        self.assertEqual(len(Name.from_wire(b"\1a" * 127 + b"\0")), 128)

    def test_text(self):
        for text, octets in (
            (".", b"\0"), ("www.", b"\3www\0"), ("a\\.b.c", b"\3a.b\1c\0"), ("\\000\\255", b"\2\0\xff\0"),
        ):
            self.assertEqual(bytes(Name(text)), octets)
        self.assertEqual(str(Name("www.example.com")), "www.example.com.")
        self.assertEqual(Name(".").to_text(final_dot=False), ".")
        self.assertEqual(repr(Name("a")), "Name('a.')")
        for text, fault in (
            ("", dnsnames.ShortInput), ("a\\", dnsnames.ShortInput), ("a\\25x", dnsnames.BadEscape),
            ("b\u00fccher", dnsnames.BadSymbol), ("a\ud800", dnsnames.BadSymbol), ("\\[x", dnsnames.BinaryLabel),
            ("a" * 64, dnsnames.LongLabel), ("a..b", dnsnames.EmptyLabel), ("a." * 128, dnsnames.LongName),
        ):
            with self.subTest(text=text), self.assertRaises(fault):
                Name(text)

    def test_canonical_order(self):
        names = [Name(text) for text in SORTED]
        shuffled = random.Random(1).sample(names, len(names))
        self.assertEqual(sorted(shuffled), names)
        self.assertTrue(names[0] < names[1] <= names[1] < names[2] and names[2] > names[1] >= names[1])
        with self.assertRaises(TypeError):
            names[0] < "a.example"

    def test_equal_names(self):
        left, right = Name("www.Example.COM"), Name("WWW.example.com.")
        self.assertEqual(left, right)
        self.assertEqual(hash(left), hash(right))
        self.assertEqual(len({left, right, Name("com")}), 2)
        self.assertEqual(bytes(left.lower()), b"\3www\7example\3com\0")
        self.assertNotEqual(left, "www.example.com.")

    def test_labels(self):
        name = Name("www.example.com")
        self.assertEqual(name.labels, (b"www", b"example", b"com", b""))
        self.assertEqual((name[0], name[-1], name[-4], len(name)), (b"www", b"", b"www", 4))
        for index in (4, -5, 2**70):
            with self.subTest(index=index), self.assertRaises(IndexError):
                name[index]
        self.assertEqual(name.parent().parent(), Name("com"))
        self.assertTrue(Name(".").is_root())
        with self.assertRaises(dnsnames.NoLabel):
            Name(".").parent()

    def test_below(self):
        zone = Name("EXAMPLE.com")
        self.assertTrue(Name("www.example.com").is_subdomain_of(zone))
        self.assertTrue(zone.is_subdomain_of(zone) and zone.is_subdomain_of(Name(".")))
        self.assertFalse(Name("badexample.com").is_subdomain_of(zone))
        self.assertFalse(Name("com").is_subdomain_of(zone))
        self.assertIn(b"example", Name("www.example.com"))
        self.assertNotIn(Name("www.example.com"), zone)

    def test_it_does_not_change(self):
        name = Name("www.example.com")
        for attribute in ("_octets", "_hash", "other"):
            with self.assertRaises(AttributeError):
                setattr(name, attribute, b"\0")
            with self.assertRaises(AttributeError):
                delattr(name, attribute)
        self.assertFalse(hasattr(name, "__dict__"))

    def test_pickled_and_copied(self):
        name = Name("www.Example.com")
        hash(name)
        for other in (pickle.loads(pickle.dumps(name)), copy.copy(name), copy.deepcopy(name)):
            self.assertEqual(bytes(other), bytes(name))
            self.assertEqual(hash(other), hash(name))
        error = pickle.loads(pickle.dumps(dnsnames.ShortInput(7)))
        self.assertEqual((type(error), error.offset), (dnsnames.ShortInput, 7))

    def test_the_hash_has_a_key(self):
        code = "from dnsnames import Name; print(hash(Name('www.example.com')))"
        hashes = {
            subprocess.run(
                [sys.executable, "-c", code], capture_output=True, check=True,
                env={**os.environ, "PYTHONHASHSEED": seed, "PYTHONPATH": str(pathlib.Path(__file__).parents[1])},
            ).stdout
            for seed in ("1", "2")
        }
        self.assertEqual(len(hashes), 2)

    def test_lower_case_as_the_library_has_it(self):
        names = random.Random(2)
        for _ in range(300):
            labels = [names.randbytes(names.randint(1, 40)) for _ in range(names.randint(0, 6))]
            octets = b"".join(bytes([len(label)]) + label for label in labels) + b"\0"
            name = Name.from_wire(octets)
            self.assertEqual(bytes(name.lower()), octets.lower())
            self.assertEqual(hash(name), hash(name.lower()))
            self.assertEqual(name, name.lower())
            self.assertEqual(name.labels, (*labels, b""))


class Messages(unittest.TestCase):
    def test_entries(self):
        message = Message(RESPONSE)
        self.assertEqual(message.header, (0x1234, 0x8180, 1, 2, 0, 1))
        self.assertTrue(message.header.is_response and not message.header.is_truncated)
        self.assertTrue(message.header.is_recursion_desired and message.header.is_recursion_available)
        self.assertEqual((message.header.opcode, message.header.is_authoritative, message.header.rcode), (0, False, 0))
        (question,) = message.questions()
        self.assertEqual((str(question.name), question.type, question.class_, question.end), ("www.example.com.", 1, 1, 33))
        alias, address, options = message.records()
        self.assertEqual((alias.section, alias.type, alias.ttl), ("answer", 5, 3600))
        self.assertEqual(message.name(alias.data_offset), Name("host.example.com"))
        self.assertEqual(alias.names_in_data(), (Name("host.example.com"),))
        self.assertEqual((address.names_in_data(), options.names_in_data()), ((), ()))
        self.assertEqual((str(address.name), address.data), ("host.example.com.", b"\xc0\0\2\1"))
        self.assertEqual((options.section, options.name, options.type, options.data), ("additional", Name("."), 41, b""))
        self.assertEqual(list(message.answers()), [alias, address])
        self.assertEqual((list(message.authority()), list(message.additional())), ([], [options]))

    def test_names_in_data(self):
        # A CNAME whose name goes on in the record behind it, an SOA, and an MX with an octet too many.
        leaving = Message(bytes.fromhex("000081800000000200000000" "00000500010000000000020162" "00000500010000000000020162"))
        with self.assertRaises(dnsnames.ShortInput) as caught:
            next(leaving.records()).name_in_data()
        self.assertEqual(caught.exception.offset, 23)
        soa = Message(bytes.fromhex("000081800000000000010000" "0000060001000000000018" "0161000162c017") + bytes(17))
        with self.assertRaises(dnsnames.ShortInput):
            next(soa.authority()).names_in_data()
        soa = Message(bytes.fromhex("000081800000000000010000" "000006000100000000001b" "0161000162c017") + bytes(20))
        self.assertEqual([str(name) for name in next(soa.authority()).names_in_data()], ["a.", "b.a."])
        with self.assertRaises(dnsnames.NoField):
            next(soa.authority()).name_in_data(2)
        trailing = Message(bytes.fromhex("000081800000000100000000" "00000f0001000000000006" "000a01610000"))
        with self.assertRaises(dnsnames.TrailingData):
            next(trailing.records()).name_in_data()

    def test_a_bad_name_stops_its_own_entry_alone(self):
        message = Message(bytes.fromhex("000081800001000200000000" "c00c00010001" "c0120001000100000000000401020304"
                                        "00000100010000000000040a020304"))
        (question,) = message.questions()
        with self.assertRaises(dnsnames.TooManyPointers):
            question.name
        bad, good = message.answers()
        with self.assertRaises(dnsnames.TooManyPointers):
            bad.name
        self.assertEqual((str(good.name), good.data), (".", b"\n\2\3\4"))

    def test_entries_after_a_bad_name(self):
        octets = bytes.fromhex("000081800001000100010001" "0161000001 0001" "c00c000100010000000000021234"
                               "c02100010001000000010000" "c00c00010001000000020000")
        message = Message(octets)
        for _ in range(2):
            first, bad, last = message.records()
            self.assertEqual([first.section, bad.section, last.section], ["answer", "authority", "additional"])
            self.assertEqual([first.name, last.name], [Name("a"), Name("a")])
            self.assertEqual([first.ttl, bad.ttl, last.ttl], [0, 1, 2])
            with self.assertRaises(dnsnames.TooManyPointers) as caught:
                bad.name
            self.assertEqual(caught.exception.offset, bad.offset)
            self.assertEqual([list(message.answers()), list(message.authority()), list(message.additional())],
                             [[first], [bad], [last]])
            self.assertEqual([str(question.name) for question in message.questions()], ["a."])
        cut = Message(octets[:-1])
        self.assertEqual([str(question.name) for question in cut.questions()], ["a."])
        self.assertEqual(list(cut.answers()), [first._replace(message=octets[:-1])])
        with self.assertRaises(dnsnames.ShortInput) as caught:
            list(cut.additional())
        self.assertEqual(caught.exception.offset, last.offset)

    def test_many_entries(self):
        label = bytes([63]) + b"x" * 63
        longest = label * 3 + bytes([61]) + b"y" * 61 + b"\0"
        for count in (63, 64, 65, 700):
            octets = bytearray(12) + longest + b"\0\1\0\1"
            octets[4:8] = b"\0\1" + count.to_bytes(2, "big")
            for k in range(count):
                octets += b"\xc0\x0c\0\1\0\1" + k.to_bytes(4, "big") + b"\0\1x"
            with self.subTest(count=count):
                records = list(Message(octets).answers())
                self.assertEqual([record.ttl for record in records], list(range(count)))
                self.assertEqual({bytes(record.name) for record in records}, {longest})
                self.assertEqual(records[-1].end, len(octets))

    def test_in_one_call_as_one_by_one(self):
        draw = random.Random(3)

        def seen(message):
            found = []
            try:
                for entry in itertools.chain(message.questions(), message.records()):
                    found.append(entry._replace(owner=None))
                    found.append(entry.name)
            except dnsnames.DnsError as error:
                found.append((type(error), error.offset))
            return found

        for _ in range(2000):
            octets = bytearray(RESPONSE[: draw.randint(0, len(RESPONSE)) if draw.random() < 0.3 else None])
            for _ in range(draw.randint(0, 3)):
                if octets:
                    octets[draw.randrange(len(octets))] = draw.choice((0, 1, 2, 12, 192, draw.randrange(256)))
            message, other = Message(octets), Message(octets)
            other._sections = Sections([], [], [], [], False)
            self.assertEqual(seen(message), seen(other), octets.hex())

    def test_copied(self):
        message = Message(RESPONSE)
        records = list(message.records())
        for other in (pickle.loads(pickle.dumps(message)), copy.deepcopy(message)):
            self.assertEqual((bytes(other), list(other.records())), (RESPONSE, records))

    def test_a_cut_message(self):
        for length in range(len(RESPONSE)):
            message = Message(RESPONSE[:length])
            with self.subTest(length=length), self.assertRaises(dnsnames.ShortInput):
                list(message.records())
        with self.assertRaises(dnsnames.ShortInput) as caught:
            list(Message(RESPONSE[:60]).records())
        self.assertEqual(caught.exception.offset, 52)

    def test_composing(self):
        composer = Composer(40)
        composer.append_octets(bytes(12))
        composer.append(Name("www.example.com"))
        composer.append(Name("mail.EXAMPLE.com"))
        self.assertEqual(bytes(composer)[29:], b"\4mail\xc0\x10")
        with self.assertRaises(dnsnames.NoRoom):
            composer.append(Name("example.org"))
        with self.assertRaises(dnsnames.NoRoom):
            composer.append_octets(bytes(5))
        self.assertEqual(len(composer), 36)
        composer.set16(4, 0x102)
        self.assertEqual(bytes(composer)[3:7], b"\0\1\2\0")
        for offset in (-1, 35, 36):
            with self.subTest(offset=offset), self.assertRaises(IndexError):
                composer.set16(offset, 0)
        self.assertEqual(read(bytes(composer), 29).name, Name("mail.example.com"))
        with self.assertRaises(dnsnames.NoRoom):
            Composer(0).append(Name("."))

    def test_a_composer_is_copied(self):
        composer = Composer(64)
        composer.append(Name("example.com"))
        other = copy.deepcopy(composer)
        other.append(Name("www.example.com"))
        self.assertEqual((len(composer), bytes(other)), (13, bytes(composer) + b"\3www\xc0\0"))
        composer.append(Name("example.com"))
        self.assertEqual(bytes(composer)[13:], b"\xc0\0")


def of_data(type_, data, class_=1, ttl=0, flags=0x8183):
    """A message of one record, of the root."""
    builder = MessageBuilder(700, flags=flags)
    builder.record("answer", Name("."), type_, data, class_=class_, ttl=ttl)
    return next(Message(builder.finish()).records())


class Data(unittest.TestCase):
    def test_numbers(self):
        # The record of RFC 1035, 5.3.
        soa = of_data(6, bytes(Name("a")) + bytes(Name("b")) + bytes.fromhex("00000014 00001c20 00000258 0036ee80 0000003c"))
        self.assertEqual([soa.number(index) for index in range(5)], [20, 7200, 600, 3600000, 60])
        with self.assertRaises(dnsnames.NoField):
            soa.number(5)
        srv = of_data(33, b"\0\1\xff\xfe\x00\x35" + bytes(Name("a")))
        self.assertEqual([srv.number(index) for index in range(3)], [1, 65534, 53])
        self.assertEqual(of_data(15, b"\0\n\1a\0").number(), 10)
        for data, error in ((b"\0\n\1a", dnsnames.ShortInput), (b"\0\n\1a\0\0", dnsnames.TrailingData),
                            (b"\0", dnsnames.ShortInput), (b"\0\n\x40\0", dnsnames.BadLabelType)):
            with self.subTest(data=data), self.assertRaises(error):
                of_data(15, data).number()

    def test_addresses(self):
        self.assertEqual(str(of_data(1, b"\xc0\0\2\1").address()), "192.0.2.1")
        self.assertEqual(str(of_data(28, bytes.fromhex("20010db8000000000000000000000001")).address()), "2001:db8::1")
        for type_, data, error in ((1, bytes(3), dnsnames.ShortInput), (28, bytes(17), dnsnames.TrailingData),
                                   (2, bytes(4), dnsnames.NoField)):
            with self.subTest(type=type_), self.assertRaises(error):
                of_data(type_, data).address()

    def test_strings(self):
        self.assertEqual(list(of_data(16, b"\3abc\0\1d").strings()), [b"abc", b"", b"d"])
        strings = of_data(16, b"\3abc\2d").strings()
        self.assertEqual(next(strings), b"abc")
        for refused, error in ((strings, dnsnames.ShortInput), (of_data(16, b"").strings(), dnsnames.ShortInput),
                               (of_data(13, b"\0").strings(), dnsnames.NoField)):
            with self.assertRaises(error):
                next(refused)

    def test_opt(self):
        opt = of_data(41, bytes.fromhex("000a00027879fde90000"), class_=1232, ttl=0x01028000)
        self.assertEqual(opt.opt(), (1232, 19, 2, True, False))
        self.assertEqual(list(opt.options()), [(10, b"xy"), (65001, b"")])
        self.assertEqual(of_data(41, b"", class_=511, ttl=0x7fff, flags=0).opt(), (512, 0, 0, False, True))
        for call in (lambda: next(of_data(41, b"\0\n\0\1").options()), lambda: next(of_data(41, b"\0").options())):
            with self.assertRaises(dnsnames.ShortInput):
                call()
        for call in (lambda: next(of_data(16, b"\0").options()), lambda: of_data(16, b"\0").opt()):
            with self.assertRaises(dnsnames.NoField):
                call()


class Mnemonics(unittest.TestCase):
    def test_numbers_and_texts(self):
        self.assertEqual((Type["MX"], Type["mx"], Type["TYPE15"], Type.MX, Type["*"]), (15, 15, 15, 15, 255))
        self.assertEqual((str(Type(65280)), repr(Type(1)), f"{Type(28):>5}|{Type(28):04x}"), ("TYPE65280", "Type['A']", " AAAA|001c"))
        self.assertEqual(({15: "mx"}[Type.MX], Type.A.name, Type(Type.A) is not None), ("mx", "A", True))
        self.assertEqual((str(dnsnames.Rcode(4095)), dnsnames.Rcode["BADVERS"], dnsnames.Opcode["opcode15"]), ("RCODE4095", 16, 15))
        for call in (lambda: Type["MXX"], lambda: Type[""], lambda: Type["\xe4"], lambda: dnsnames.Opcode["OPCODE16"]):
            with self.assertRaises(dnsnames.NoMnemonic):
                call()
        for call in (lambda: Type(65536), lambda: Type(-1), lambda: dnsnames.Rcode(4096), lambda: dnsnames.Opcode(16)):
            with self.assertRaises(ValueError):
                call()
        self.assertFalse(hasattr(Type, "MXX"))
        self.assertEqual(pickle.loads(pickle.dumps(Type.MX)), Type.MX)
        self.assertIs(type(pickle.loads(pickle.dumps(Type.MX))), Type)
        self.assertEqual(copy.copy(Type.MX), 15)

    def test_of_a_message(self):
        message = Message(RESPONSE)
        self.assertEqual(message.header.flag_names, dnsnames.Flags.QR | dnsnames.Flags.RD | dnsnames.Flags.RA)
        flags = message.header.flag_names
        self.assertEqual((str(flags), f"{flags}", f"{flags:>9}", f"{flags:x}"), ("qr rd ra", "qr rd ra", " qr rd ra", "8180"))
        self.assertEqual(str(dnsnames.Flags(0)), "")
        self.assertEqual([str(record.type) for record in message.records()], ["CNAME", "A", "OPT"])
        self.assertEqual((str(message.header.opcode), str(message.header.rcode)), ("QUERY", "NOERROR"))


class Answers(unittest.TestCase):
    QUERY = bytes.fromhex("1234 0100 0001 0000 0000 0000 0141 00 0001 0001")
    ANSWER = bytes.fromhex("1234 8180 0001 0001 0000 0000 0161 00 0001 0001 c00c 0005 0001 0000003c")

    def test_answers(self):
        query, answer = Message(self.QUERY), Message(self.ANSWER + b"\0\3\1b\0")
        self.assertIs(answer.is_answer_to(query), True)
        self.assertIs(query.is_answer_to(answer), False)
        self.assertIs(Message(b"\x12\x35" + bytes(answer)[2:]).is_answer_to(query), False)
        with self.assertRaises(dnsnames.ShortInput):
            answer.is_answer_to(Message(b""))

    def test_aliases(self):
        answer, ring = Message(self.ANSWER + b"\0\3\1b\0"), Message(self.ANSWER + b"\0\2\xc0\x0c")
        self.assertEqual(answer.canonical_name(), Name("b"))
        self.assertEqual(str(Message(self.QUERY).canonical_name(0)), "A.")
        self.assertIsNone(answer.canonical_name(0))
        self.assertIsNone(ring.canonical_name(65535))
        self.assertIsNone(Message(self.QUERY[:-1]).canonical_name())
        with self.assertRaises(ValueError):
            answer.canonical_name(65536)


class Texts(unittest.TestCase):
    OCTETS = bytes.fromhex("1234 8180 0001 0001 0000 0000 0161 00 0001 0001 c00c 0005 0001 0000003c 0002 c00c")
    LINES = [
        ";; opcode: QUERY, status: NOERROR, id: 4660",
        ";; flags: qr rd ra; QUESTION: 1, ANSWER: 1, AUTHORITY: 0, ADDITIONAL: 0",
        ";; QUESTION SECTION",
        "a. IN A",
        ";; ANSWER SECTION",
        "a. 60 IN CNAME a.",
        ";; AUTHORITY SECTION",
        ";; ADDITIONAL SECTION",
    ]

    def test_a_message(self):
        message = Message(self.OCTETS)
        self.assertEqual(message.to_text(), "".join(line + "\n" for line in self.LINES))
        self.assertEqual([record.to_text() for record in message.answers()], ["a. 60 IN CNAME a."])

    def test_more_than_a_usual_message(self):
        many = 300
        octets = b"\0\0\x80\0\0\0" + many.to_bytes(2, "big") + bytes(4)
        octets += (b"\0\0\1\0\1" + bytes(4) + b"\0\4\xc0\0\2\1") * many
        text = Message(octets).to_text()
        self.assertGreater(len(text), 4096)
        self.assertEqual(text.count(". 0 IN A 192.0.2.1\n"), many)
        self.assertEqual(self.calls_for(octets), 1)

    def test_a_text_with_long_names_is_made_again(self):
        many, name = 300, (b"\x3f" + b"a" * 63) * 3 + b"\0"
        octets = b"\0\0\x80\0\0\1" + many.to_bytes(2, "big") + bytes(4) + name + b"\0\1\0\1"
        octets += (b"\xc0\x0c\0\1\0\1" + bytes(4) + b"\0\4\xc0\0\2\1") * many
        self.assertEqual(Message(octets).to_text().count("a. 0 IN A 192.0.2.1\n"), many)
        self.assertEqual(self.calls_for(octets), 2)

    def calls_for(self, octets):
        """How many calls of the library the text of a message takes."""
        calls = []

        def counted(*arguments):
            calls.append(arguments)
            return library.dnsnames_message_text(*arguments)

        _text(counted, len(octets), octets, len(octets))
        return len(calls)

    def test_refusals(self):
        for end in range(len(self.OCTETS)):
            with self.assertRaises(dnsnames.ShortInput):
                Message(self.OCTETS[:end]).to_text()
        with self.assertRaises(dnsnames.BadForm):
            Message(self.OCTETS[:12] + b"\x80" + self.OCTETS[13:]).to_text()


class Builders(unittest.TestCase):
    def test_a_message(self):
        builder = MessageBuilder(512, id=0x1234, flags=0x8180)
        www, host = Name("www.example.com"), Name("host.example.com")
        builder.question(www, Type.A)
        builder.record("answer", www, Type.CNAME, bytes(host), ttl=3600)
        builder.record("answer", host, Type.A, b"\xc0\0\2\1", ttl=60)
        builder.opt(4096, rcode=16, dnssec_ok=True)
        message = Message(builder.finish())
        self.assertEqual(message.header, (0x1234, 0x8180, 1, 2, 0, 1))
        alias, address, opt = message.records()
        self.assertEqual((alias.name, alias.ttl, alias.names_in_data()), (www, 3600, (host,)))
        self.assertEqual((address.name, address.data), (host, b"\xc0\0\2\1"))
        self.assertEqual((opt.name, opt.type, opt.class_, opt.ttl), (Name("."), 41, 4096, 0x01008000))
        for call in (builder.truncate, builder.finish, builder.opt, lambda: builder.question(www, 1)):
            with self.assertRaises(dnsnames.NoBuilder):
                call()

    def test_refusals(self):
        builder, name = MessageBuilder(40), Name("a.example")
        builder.question(name, Type.NS)
        size, builder.limit = len(builder), len(builder) + 3
        with self.assertRaises(dnsnames.NoRoom):
            builder.record("authority", name, Type.NS, b"")
        self.assertEqual(len(builder), size)
        builder.limit = 40
        builder.record("authority", name, Type.NS, b"")
        for call in (lambda: builder.question(name, 1), lambda: builder.record("answer", name, 1, b"")):
            with self.assertRaises(dnsnames.WrongOrder):
                call()
        for call in (
            lambda: builder.record("answers", name, 1, b""), lambda: builder.question(name, 65536),
            lambda: setattr(builder, "limit", 41), lambda: setattr(builder, "flags", -1),
        ):
            with self.assertRaises(ValueError):
                call()
        builder.id, builder.flags = 7, dnsnames.Flags.QR
        builder.truncate()
        self.assertEqual(Message(builder.finish()).header, (7, 0x8200, 1, 0, 0, 0))
        with self.assertRaises(dnsnames.NoRoom):
            MessageBuilder(11)


@unittest.skipUnless(HEADER.exists(), "the header isn't beside this folder")
class TheHeader(unittest.TestCase):
    def test_statuses_and_their_texts(self):
        header = HEADER.read_text()
        statuses = header.split("typedef enum dnsnames_status {")[1].split("}")[0]
        numbers = {name: int(number) for name, number in re.findall(r"DNSNAMES_(\w+) = (\d+)", statuses)}
        texts = dict(re.findall(r'case DNSNAMES_(\w+): return "([^"]*)"', header))
        for fault in _library.FAULTS.values():
            name = {number: name for name, number in numbers.items()}[fault.status]
            self.assertEqual(fault.text, texts[name])
            self.assertIn(name.replace("_", ""), (fault.__name__.upper(), fault.__name__.upper().replace("NAME", ""),
                                                  fault.__name__.upper().replace("BAD", "")))

    def test_version(self):
        self.assertIn(f'#define DNSNAMES_VERSION "{dnsnames.__version__}"', HEADER.read_text())
        self.assertIn(f'version = "{dnsnames.__version__}"', (pathlib.Path(__file__).parents[1] / "pyproject.toml").read_text())

    def test_structs(self):
        kinds = {"uint8_t": "c_ubyte", "uint16_t": "c_ushort", "uint32_t": "c_uint", "size_t": "c_ulong"}
        header = HEADER.read_text()
        for kind in (_library.HeaderFields, _library.QuestionFields, _library.RecordFields, _library.OptFields):
            name = kind.__name__.replace("Fields", "").lower()
            body = re.search(rf"typedef struct dnsnames_{name}_fields \{{(.*?)\}}", header, re.DOTALL)[1]
            wanted = [(field, kinds[c]) for c, field in re.findall(r"(\w+) (\w+);", body)]
            self.assertEqual([(field, ours.__name__) for field, ours in kind._fields_], wanted)

    def test_the_builder(self):
        kinds = {"uint16_t": "c_ushort", "size_t": "c_ulong", "uint16_t[DNSNAMES_MAX_TABLE]": "c_ushort_Array_128"}
        body = re.search(r"typedef struct dnsnames_builder_state \{(.*?)\}", HEADER.read_text(), re.DOTALL)[1]
        wanted = [(field, kinds[c + size]) for c, field, size in re.findall(r"(\w+) (\w+)(\[\w+\])?;", body)]
        self.assertEqual([(field, ours.__name__) for field, ours in _library.BuilderState._fields_], wanted)

    def test_members(self):
        header = HEADER.read_text()
        for kind in (dnsnames.Type, dnsnames.Class, dnsnames.Opcode, dnsnames.Rcode):
            members = re.findall(rf"DNSNAMES_{kind.__name__.upper()}_(\w+) = (\d+)", header)
            self.assertGreater(len(members), 4)
            for name, number in members:
                self.assertEqual(kind[name], int(number))
        flags = re.findall(r"DNSNAMES_FLAG_(\w+) = (0x\w+)", header)
        self.assertEqual([(flag.name, flag.value) for flag in dnsnames.Flags], [(name, int(bit, 16)) for name, bit in flags])

    def test_arguments(self):
        kinds = {
            "const uint8_t *": _library._octets, "uint8_t *": _library._buffer, "size_t": _library._size,
            "size_t *": _library._to_size, "uint16_t *": _library._to_16, "uint32_t *": _library._to_32,
        }
        declared = re.findall(r"^dnsnames_status dnsnames_(\w+)\(([^)]*)\);", HEADER.read_text(), re.MULTILINE)
        self.assertGreaterEqual({name for name, _ in declared}, set(_library._ARGUMENTS))
        for name, arguments in declared:
            if name not in _library._ARGUMENTS:
                continue
            wanted = [re.fullmatch(r"\s*(.*?)\w+\s*", argument, re.DOTALL)[1].strip() for argument in arguments.split(",")]
            given = _library._ARGUMENTS[name]
            self.assertEqual(len(wanted), len(given), name)
            for text, kind in zip(wanted, given):
                if text in kinds:
                    self.assertIs(kinds[text], kind, f"{name}: {text}")


def load_tests(loader, tests, ignore):
    tests.addTests(doctest.DocTestSuite(dnsnames))
    return tests
