"""What threads share: each call on a builder or a composer waits until that of another thread has ended."""

import collections
import contextlib
import copy
import sys
import threading
import unittest
from concurrent.futures import ThreadPoolExecutor, wait
from unittest import mock

from dnsnames import Composer, Message, MessageBuilder, Name, NoBuilder, Type, read
from dnsnames._library import library

NAME = Name("www.example.com")
THREADS, PUSHED = 4, 200
# For how many seconds a call is watched that must not end, and one that must begin.
WATCHED, PATIENCE = 0.05, 60


def builder_of(capacity: int = 512) -> MessageBuilder:
    builder = MessageBuilder(capacity)
    builder.question(NAME, Type.A)
    return builder


def composer_of() -> Composer:
    composer = Composer(512)
    composer.append_octets(bytes(12))
    return composer


# Calls on a builder, and what each has the library do.
CALLS = {
    "question": lambda builder: builder.question(NAME, Type.MX),
    "record": lambda builder: builder.record("answer", NAME, Type.A, bytes(4)),
    "rrset": lambda builder: builder.push_rrset("answer", NAME, Type.A, [bytes(4)]),
    "required": lambda builder: builder.push_required("answer", NAME, Type.A, [bytes(4)]),
    "extra": lambda builder: builder.push_extra("answer", NAME, Type.A, [bytes(4)]),
    "rewind": lambda builder: builder.rewind(builder.mark()),
    "opt_flags": lambda builder: builder.opt(),
    "truncate": lambda builder: builder.truncate(),
    "finish": lambda builder: builder.finish(),
}
# What else reads or writes a builder, and what does so with a composer.
FIELDS = {
    "id": lambda builder: builder.id,
    "id set": lambda builder: setattr(builder, "id", 7),
    "flags": lambda builder: builder.flags,
    "flags set": lambda builder: setattr(builder, "flags", 0x8000),
    "limit": lambda builder: builder.limit,
    "limit set": lambda builder: setattr(builder, "limit", 500),
    "len": len,
    "mark": lambda builder: builder.mark(),
    "deepcopy": copy.deepcopy,
}
COMPOSING = {
    "append": lambda composer: composer.append(NAME),
    "append_octets": lambda composer: composer.append_octets(b"abc"),
    "set16": lambda composer: composer.set16(4, 1),
    "len": len,
    "bytes": bytes,
    "deepcopy": copy.deepcopy,
}


class Held:
    """Stands in for a call of the library, which goes on once it is let go."""

    def __init__(self, call):
        self.call, self.begun, self.let_go = call, threading.Event(), threading.Event()

    def __call__(self, *arguments):
        self.begun.set()
        self.let_go.wait(PATIENCE)
        return self.call(*arguments)


@contextlib.contextmanager
def during(library_call, call):
    """Threads for what goes on while the library is in this call, which the other makes; then that ends."""
    held = Held(getattr(library, library_call))
    with ThreadPoolExecutor(2) as threads:
        # What follows has the library's own call.
        with mock.patch.object(library, library_call, held):
            first = threads.submit(call)
            if not held.begun.wait(PATIENCE):
                raise AssertionError(f"{library_call} wasn't called")
        try:
            yield threads
        finally:
            held.let_go.set()
        first.result()


class OneAtATime(unittest.TestCase):
    def check(self, library_call, first, second):
        """While the library is in the call that the first makes, the second doesn't end; then both do."""
        with during(library_call, first) as threads:
            other = threads.submit(second)
            wait([other], WATCHED)
            has_ended = other.done()
        other.result()
        self.assertFalse(has_ended)

    def test_calls_on_a_builder(self):
        for name, call in CALLS.items():
            with self.subTest(call=name):
                builder = builder_of()
                self.check(f"dnsnames_builder_{name}", lambda: call(builder), lambda: len(builder))

    def test_beside_a_call_on_a_builder(self):
        for name, call in {**CALLS, **FIELDS}.items():
            with self.subTest(call=name):
                builder = builder_of()
                self.check("dnsnames_builder_truncate", builder.truncate, lambda: call(builder))

    def test_beside_a_call_on_a_composer(self):
        for name, call in COMPOSING.items():
            with self.subTest(call=name):
                composer = composer_of()
                self.check("dnsnames_append", lambda: composer.append(NAME), lambda: call(composer))

    def test_two_builders(self):
        """What isn't shared waits for nothing."""
        with during("dnsnames_builder_truncate", builder_of().truncate) as threads:
            self.assertEqual(len(threads.submit(builder_of().finish).result(PATIENCE)), 33)

    def test_after_an_error(self):
        builder, composer = builder_of(), composer_of()
        for call in (
            lambda: setattr(builder, "limit", 1), lambda: setattr(builder, "id", None),
            lambda: builder.record("answer", NAME, Type.A, bytes(600)), lambda: composer.append_octets(bytes(600)),
            lambda: composer.set16(12, 1), lambda: composer.set16(0, 65536),
        ):
            with self.assertRaises((ValueError, TypeError, LookupError, OverflowError)):
                call()
        self.assertEqual((len(builder), len(composer)), (33, 12))


class Together(unittest.TestCase):
    """Many threads, each as often as it can."""

    def setUp(self):
        self.addCleanup(sys.setswitchinterval, sys.getswitchinterval())
        sys.setswitchinterval(1e-6)

    def all_at_once(self, call):
        """What the call gives for each thread's number."""
        with ThreadPoolExecutor(THREADS) as pool:
            return list(pool.map(call, range(THREADS)))

    def test_records(self):
        builder = builder_of(65535)
        names = [Name(f"n{i}.example.com") for i in range(PUSHED)]

        def push(thread):
            for i, name in enumerate(names):
                builder.record("answer", name, Type.A, bytes([192, 0, thread, i]))

        self.all_at_once(push)
        records = list(Message(builder.finish()).answers())
        self.assertEqual(len(records), THREADS * PUSHED)
        for thread in range(THREADS):
            own = [(record.name, record.data[3]) for record in records if record.data[2] == thread]
            self.assertEqual(own, list(zip(names, range(PUSHED))))

    def test_names(self):
        composer = Composer()
        names = [Name(f"n{i}.example.com") for i in range(PUSHED)]
        self.all_at_once(lambda _: [composer.append(name) for name in names])
        octets, offset, found = bytes(composer), 0, collections.Counter()
        while offset < len(octets):
            name, offset, _ = read(octets, offset)
            found[name] += 1
        self.assertEqual(found, {name: THREADS for name in names})

    def test_one_finishes(self):
        def finish(builder):
            try:
                return builder.finish()
            except NoBuilder:
                return None

        for _ in range(PUSHED):
            builder = builder_of()
            finished = self.all_at_once(lambda _: finish(builder))
            self.assertEqual([finished.count(None), len(set(finished))], [THREADS - 1, 2])

    def test_one_message(self):
        octets = builder_of().finish()
        questions = list(Message(octets).questions())
        for _ in range(PUSHED):
            message = Message(octets)
            self.assertEqual(self.all_at_once(lambda _: list(message.questions())), [questions] * THREADS)


if __name__ == "__main__":
    unittest.main()
