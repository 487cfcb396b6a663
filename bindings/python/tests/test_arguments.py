"""What a caller writes for names, types, classes and options, and what is refused."""

import copy
import os
import pathlib
import pickle
import random
import subprocess
import sys
import unittest

import dnsnames
from dnsnames import Class, Composer, EdnsOption, Message, MessageBuilder, Name, Opcode, Rcode, ShortInput, Type

FOLDER = pathlib.Path(__file__).parents[1]
NAME = Name("www.example.com")
COOKIE = bytes(range(8))
# What is no name, and no text of one: with `bytes` a number would become as many zero octets.
NO_NAMES = 1, 0, True, None, 1.5, b"\3www\0", bytearray(1), [b"www", b""], Type.A
# What is neither a type nor a class.
NO_NUMBERS = None, 1.5, b"A", ["A"], NAME, Opcode(1), Rcode(1)


def asked(name, type_, class_=Class.IN) -> tuple:
    builder = MessageBuilder(512)
    builder.question(name, type_, class_)
    (question,) = Message(builder.finish()).questions()
    return question.name, question.type, question.class_


def answered(name, type_, class_=Class.IN) -> tuple:
    builder = MessageBuilder(512)
    builder.record("answer", name, type_, b"", class_=class_)
    (record,) = Message(builder.finish()).answers()
    return record.name, record.type, record.class_


def options_of(options) -> list:
    builder = MessageBuilder(512)
    builder.opt(options=options)
    (record,) = Message(builder.finish()).additional()
    return list(record.options())


class NamesAndNumbers(unittest.TestCase):
    def test_names(self):
        for written in (NAME, "www.example.com", "www.example.com."):
            for call in (asked, answered):
                self.assertEqual(call(written, 1), (NAME, 1, 1))
            composer = Composer(64)
            composer.append(written)
            self.assertEqual(bytes(composer), bytes(NAME))
            self.assertTrue(Name("a.www.example.com").is_subdomain_of(written))
        self.assertEqual(asked(".", 1)[0], Name("."))

    def test_no_names(self):
        builder, composer = MessageBuilder(512), Composer(64)
        for call in (
            lambda name: builder.question(name, 1), lambda name: builder.record("answer", name, 1, b""),
            composer.append, NAME.is_subdomain_of,
        ):
            for written in NO_NAMES:
                with self.subTest(written=written), self.assertRaisesRegex(TypeError, "^a name is a Name or a str"):
                    call(written)
            for text, error in (("", ShortInput), ("a..b", dnsnames.EmptyLabel), ("a" * 64, dnsnames.LongLabel)):
                with self.subTest(text=text), self.assertRaises(error):
                    call(text)
        self.assertEqual((len(builder), len(composer)), (12, 0))
        for call in (Name, Name.from_text):
            for written in (*NO_NAMES, NAME):
                with self.subTest(written=written), self.assertRaisesRegex(TypeError, "^the text of a name is a str"):
                    call(written)

    def test_types_and_classes(self):
        for call in (asked, answered):
            for type_, class_ in ((Type.MX, Class.CH), (15, 3), ("MX", "CH"), ("mx", "ch"), ("TYPE15", "CLASS3")):
                self.assertEqual(call(NAME, type_, class_), (NAME, 15, 3))
            for number in (0, 65535):
                self.assertEqual(call(NAME, number, number), (NAME, number, number))

    def test_no_types_and_classes(self):
        builder = MessageBuilder(512)
        for call in (
            lambda type_, class_: builder.question(NAME, type_, class_),
            lambda type_, class_: builder.record("answer", NAME, type_, b"", class_=class_),
        ):
            for written in (*NO_NUMBERS, Class.IN):
                with self.subTest(written=written), self.assertRaisesRegex(TypeError, "^a type is a Type, an int"):
                    call(written, 1)
            for written in (*NO_NUMBERS, Type.A):
                with self.subTest(written=written), self.assertRaisesRegex(TypeError, "^a class is a Class, an int"):
                    call(1, written)
            for number in (-1, 65536):
                for words in ((number, 1), (1, number)):
                    with self.subTest(words=words), self.assertRaises(ValueError):
                        call(*words)
            for words in (("MXX", 1), ("", 1), (1, "INTERNET")):
                with self.subTest(words=words), self.assertRaises(dnsnames.NoMnemonic):
                    call(*words)
        self.assertEqual(len(builder), 12)

    def test_other_numbers(self):
        builder = MessageBuilder(512)
        for call in (
            lambda number: builder.opt(size=number), lambda number: builder.opt(rcode=number),
            lambda number: builder.opt(version=number), lambda number: MessageBuilder(512, id=number),
            lambda number: MessageBuilder(512, flags=number),
            lambda number: builder.record("answer", NAME, 1, b"", ttl=number),
        ):
            for written in (None, "1", 1.5, b"1"):
                with self.subTest(written=written), self.assertRaisesRegex(TypeError, "a number is an int, not "):
                    call(written)
            for number in (-1, 1 << 32):
                with self.subTest(number=number), self.assertRaises(ValueError):
                    call(number)
        self.assertEqual(len(builder), 12)


class Options(unittest.TestCase):
    def test_a_list(self):
        for written in (
            [(10, COOKIE)], ((10, COOKIE),), [EdnsOption(10, COOKIE)], [[10, bytearray(COOKIE)]],
            iter([(10, memoryview(COOKIE))]),
        ):
            self.assertEqual(options_of(written), [EdnsOption(10, COOKIE)])
        many = [EdnsOption(65535, b""), EdnsOption(0, b"x"), EdnsOption(3, bytes(300))]
        self.assertEqual(options_of(many), many)
        self.assertEqual((options_of([]), options_of(())), ([], []))
        # What was read is written again.
        self.assertEqual(options_of(options_of(many)), many)

    def test_octets(self):
        octets = b"\0\x0a\0\x08" + COOKIE
        for written in (octets, bytearray(octets), memoryview(octets)):
            self.assertEqual(options_of(written), [(10, COOKIE)])
        self.assertEqual(options_of(b""), [])
        self.assertEqual(options_of(octets * 2), [(10, COOKIE)] * 2)

    def test_no_options(self):
        builder = MessageBuilder(512)
        for written in (
            None, 10, "10", [10], [b"ab"], [(10,)], [(10, COOKIE, 1)], [(10, 8)], [(10, "8 octets")], [(10, NAME)],
            [("10", COOKIE)], [(None, COOKIE)], [(10, COOKIE), 3], EdnsOption(10, COOKIE), {10: COOKIE},
        ):
            with self.subTest(written=written), self.assertRaises(TypeError):
                builder.opt(options=written)
        for written in ([(65536, b"")], [(-1, b"")], [(10, bytes(65536))]):
            with self.subTest(code=written[0][0]), self.assertRaises(ValueError):
                builder.opt(options=written)
        with self.assertRaises(dnsnames.NoRoom):
            builder.opt(options=[(10, bytes(65535))])
        self.assertEqual(len(builder), 12)

    def test_octets_that_end_inside_an_option(self):
        builder = MessageBuilder(512)
        octets = b"\0\x0a\0\x08" + COOKIE + b"\0\3\0\0"
        for end in range(len(octets)):
            if end in (0, 12):
                continue
            words = f"inside the option that begins at offset {0 if end < 12 else 12}$"
            with self.subTest(end=end), self.assertRaisesRegex(ValueError, words):
                builder.opt(options=octets[:end])
        self.assertEqual(len(builder), 12)
        builder.opt(options=octets)

    def test_as_a_reader_takes_them(self):
        draw, taken = random.Random(5), 0
        for _ in range(2000):
            octets = bytes(draw.choice((0, 0, 0, 1, 2, 4, 10)) for _ in range(draw.randrange(16)))
            builder = MessageBuilder(64)
            builder.record("additional", ".", Type.OPT, octets)
            (record,) = Message(builder.finish()).additional()
            try:
                read = list(record.options())
            except ShortInput:
                with self.assertRaises(ValueError):
                    options_of(octets)
                continue
            taken += 1
            self.assertEqual((options_of(octets), options_of(read)), (read, read))
        self.assertTrue(100 < taken < 1900, taken)


class Copies(unittest.TestCase):
    def test_a_builder(self):
        builder = MessageBuilder(100, id=7, flags=0x8000)
        builder.question(NAME, Type.A)
        builder.limit = 90
        other = copy.deepcopy(builder)
        self.assertEqual((other.id, other.flags, other.limit, len(other)), (7, 0x8000, 90, len(builder)))
        # Each goes on alone, with names compressed by what both had.
        other.id, other.limit = 8, 100
        other.record("answer", NAME, Type.A, bytes(4))
        builder.record("answer", "example.com", Type.NS, bytes(NAME))
        self.assertEqual((builder.id, builder.limit), (7, 90))
        first, second = Message(builder.finish()), Message(other.finish())
        self.assertEqual([(it.name, it.names_in_data()) for it in first.answers()], [(Name("example.com"), (NAME,))])
        self.assertEqual([(it.name, it.data) for it in second.answers()], [(NAME, bytes(4))])
        self.assertEqual(bytes(second)[33:35], b"\xc0\x0c")

    def test_a_finished_builder(self):
        builder = MessageBuilder(64)
        octets = builder.finish()
        other = copy.deepcopy(builder)
        self.assertEqual(len(other), len(octets))
        with self.assertRaises(dnsnames.NoBuilder):
            other.opt()

    def test_the_smallest_builder(self):
        with self.assertRaises(dnsnames.NoRoom):
            copy.deepcopy(MessageBuilder(12)).opt()


class Shown(unittest.TestCase):
    OCTETS = bytes.fromhex("1234 8180 0001 0001 0000 0000 0161 00 0001 0001 c00c 0005 0001 0000003c 0002 c00c")

    def shown(self, octets: bytes, error=ShortInput):
        with self.assertRaises(error) as caught:
            Message(octets).to_text()
        return caught.exception.shown

    def test_a_cut_message(self):
        whole = Message(self.OCTETS).to_text()
        question, record = whole.index("a. IN A\n"), whole.index("a. 60 IN CNAME")
        for end in range(len(self.OCTETS)):
            # The question begins behind the header of 12 octets, and the record at 19.
            before = 0 if end < 12 else question if end < 19 else record
            with self.subTest(end=end):
                self.assertEqual(self.shown(self.OCTETS[:end]), whole[:before])

    def test_an_entry_without_the_form_of_one(self):
        octets = self.OCTETS[:19] + b"\x80" + self.OCTETS[20:]
        self.assertTrue(self.shown(octets, dnsnames.BadForm).endswith("a. IN A\n;; ANSWER SECTION\n"))

    def test_a_long_text(self):
        many = 300
        octets = b"\0\0\x80\0\0\0" + (many + 1).to_bytes(2, "big") + bytes(4)
        octets += (b"\0\0\1\0\1" + bytes(4) + b"\0\4\xc0\0\2\1") * many
        self.assertEqual(self.shown(octets).count(". 0 IN A 192.0.2.1\n"), many)

    def test_other_errors(self):
        for call in (lambda: Name("a..b"), lambda: next(Message(self.OCTETS).answers()).name_in_data(1)):
            with self.assertRaises(dnsnames.DnsError) as caught:
                call()
            self.assertIsNone(caught.exception.shown)

    def test_pickled(self):
        with self.assertRaises(ShortInput) as caught:
            Message(self.OCTETS[:-1]).to_text()
        other = pickle.loads(pickle.dumps(caught.exception))
        self.assertEqual((type(other), other.offset, other.shown), (ShortInput, 0, caught.exception.shown))
        self.assertEqual(str(other), str(caught.exception))


class WithoutTheLibrary(unittest.TestCase):
    def test_what_makes_it(self):
        run = subprocess.run(
            [sys.executable, "-c", "import dnsnames"], capture_output=True, text=True, check=False,
            env={**os.environ, "DNSNAMES_LIBRARY": "/no/libdnsnames.so", "PYTHONPATH": str(FOLDER)},
        )
        self.assertRegex(run.stderr, "ImportError: the library isn't there.*bindings/build makes it, DNSNAMES_LIBRARY")


if __name__ == "__main__":
    unittest.main()
