"""Zones: what they answer, and why a text is that of none."""

import copy
import importlib.util
import os
import pathlib
import pickle
import struct
import sys
import threading
import unittest

from dnsnames import Type

FOLDER = pathlib.Path(__file__).parents[1]
TEXT = """$TTL 3600
@ SOA ns.example. admin.example. 1 7200 900 1209600 86400
@ NS ns.example.
ns A 192.0.2.1
www A 192.0.2.2
"""
WILDCARDS = """$TTL 3600
@ SOA ns.example.com. admin.example. 1 7200 900 1209600 86400
@ NS ns.example.com.
@ NS ns.example.net.
* TXT "this is a wildcard"
* MX 10 host1.example.
sub.* TXT "this is not a wildcard"
host1 A 192.0.2.1
_ssh._tcp.host1 SRV 0 0 22 host1.example.
_ssh._tcp.host2 SRV 0 0 22 host2.example.
subdel NS ns.example.com.
subdel NS ns.example.net.
"""


def query(name, rtype, identifier=0x1234, more=b""):
    labels = b"".join(bytes([len(it)]) + it.encode() for it in name.rstrip(".").split("."))
    head = struct.pack("!6H", identifier, 0x0100, 1, 0, 0, int(bool(more)))
    return head + labels + b"\0" + struct.pack("!2H", rtype, 1) + more


@unittest.skipUnless(os.environ.get("DNSNAMES_ZONE_LIBRARY"), "DNSNAMES_ZONE_LIBRARY names no library")
class Zones(unittest.TestCase):
    def setUp(self):
        from dnsnames.zone import Zone, ZoneError

        self.Zone, self.ZoneError = Zone, ZoneError
        self.zone = Zone.from_text(TEXT, "example")

    def test_answers(self):
        self.assertEqual(
            self.zone.answer(query("www.example", 1)).hex(),
            "123485000001000100000000" "03777777076578616d706c650000010001" "c00c00010001" "00000e100004c0000202",
        )
        response = self.zone.answer(query("none.example", 1))
        self.assertEqual(struct.unpack("!6H", response[:12]), (0x1234, 0x8503, 1, 0, 1, 0))
        self.assertEqual(self.zone.answer(query("www.example.org", 1))[3] & 15, 5)

    def test_no_response(self):
        self.assertIsNone(self.zone.answer(b""))
        self.assertIsNone(self.zone.answer(query("www.example", 1)[:11]))
        self.assertIsNone(self.zone.answer(self.zone.answer(query("www.example", 1))))

    def test_limits(self):
        texts = "".join(f'big TXT "{number:0200}"\n' for number in range(9))
        zone = self.Zone.from_text(TEXT + texts, "example")
        opt = b"\0" + struct.pack("!2HIH", 41, 4096, 0, 0)
        asked = query("big.example", 16, more=opt)
        self.assertTrue(zone.answer(query("big.example", 16))[2] & 2)
        self.assertTrue(zone.answer(asked)[2] & 2)
        self.assertEqual(struct.unpack("!H", zone.answer(asked, 4096)[6:8]), (9,))
        self.assertEqual(struct.unpack("!H", zone.answer(query("big.example", 16), None)[6:8]), (9,))
        for limit in (511, 65536):
            with self.assertRaises(ValueError):
                zone.answer(asked, limit)

    def test_wildcards(self):
        """The zone of RFC 4592, 2.2.1, and what it says of each question."""
        from dnsnames import Message

        zone = self.Zone.from_text(WILDCARDS, "example", "IN")
        for name, rtype, code, answers in (
            ("host3.example", "MX", 0, ["host3.example. 3600 IN MX 10 host1.example."]),
            ("host3.example", "A", 0, []),
            ("foo.bar.example", "TXT", 0, ['foo.bar.example. 3600 IN TXT "this is a wildcard"']),
            ("host1.example", "MX", 0, []),
            ("sub.*.example", "MX", 0, []),
            ("_telnet._tcp.host1.example", "SRV", 3, []),
            ("ghost.*.example", "MX", 3, []),
        ):
            with self.subTest(name=name, rtype=rtype):
                response = Message(zone.answer(query(name, Type[rtype])))
                self.assertEqual((response.header.rcode, response.header.is_authoritative), (code, True))
                self.assertEqual([it.to_text().split() for it in response.answers()], [it.split() for it in answers])
                if not answers:
                    self.assertEqual([(str(it.owner), it.type) for it in response.authority()], [("example.", Type.SOA)])
        response = Message(zone.answer(query("host.subdel.example", 1)))
        self.assertEqual((response.header.rcode, response.header.is_authoritative, list(response.answers())), (0, False, []))
        self.assertEqual(
            [it.to_text().split() for it in response.authority()],
            [f"subdel.example. 3600 IN NS ns.example.{it}.".split() for it in ("com", "net")],
        )

    def test_relative_names(self):
        """In data names go on with the origin, too, and `@` is the origin (RFC 1035, 5.1)."""
        from dnsnames import Message

        text = TEXT.replace("ns.example. admin.example.", "ns admin").replace("NS ns.example.", "NS ns")
        zone = self.Zone.from_text(text + "a MX 10 @\n$ORIGIN sub\na MX 10 b\n@ MX 10 b.\n", "example")
        for name, answer in (
            ("example", "example. 3600 IN NS ns.example."),
            ("a.example", "a.example. 3600 IN MX 10 example."),
            ("a.sub.example", "a.sub.example. 3600 IN MX 10 b.sub.example."),
            ("sub.example", "sub.example. 3600 IN MX 10 b."),
        ):
            rtype = Type.NS if name == "example" else Type.MX
            with self.subTest(name=name):
                response = Message(zone.answer(query(name, rtype)))
                self.assertEqual([it.to_text().split() for it in response.answers()], [answer.split()])

    def test_refusals(self):
        for text, line, column, index, reason in (
            ("$TTL 1h\n@ SOA a. b. 1 2 3 4 x\n", 2, 21, None, "not a number of this field"),
            ("$TTL 1h\n\n$INCLUDE other\n", 3, 1, None, "$INCLUDE isn't taken"),
            (TEXT + "a.org. A 192.0.2.1\n", 6, 1, None, "owner not at or below the apex"),
            (TEXT + "@ CH TXT x\n", 6, 1, None, "class other than that of the zone"),
            ("$TTL 1h\na A 192.0.2.1\n", None, None, None, "no SOA at the apex"),
            (TEXT.replace("@ NS ns.example.\n", ""), None, None, None, "no name servers at the apex"),
            (TEXT + "www CNAME a.example.\n", None, None, 3, "type that cannot be beside a CNAME"),
        ):
            with self.subTest(text=text), self.assertRaises(self.ZoneError) as raised:
                self.Zone.from_text(text, "example")
            error = raised.exception
            self.assertEqual((error.line, error.column, error.index, error.reason), (line, column, index, reason))
            self.assertEqual(str(pickle.loads(pickle.dumps(error))), str(error))
        for wrong in (lambda: self.Zone(), lambda: self.Zone.from_text(TEXT), lambda: self.Zone.from_text(TEXT, 7),
                      lambda: self.Zone.from_text(7, "example"), lambda: copy.copy(self.zone)):
            with self.assertRaises(TypeError):
                wrong()

    def test_class(self):
        zone = self.Zone.from_text(TEXT[: TEXT.index("ns A")], "example", "CH")
        self.assertEqual(zone.answer(query("www.example", 1))[3] & 15, 5)

    def test_threads(self):
        wanted = self.zone.answer(query("www.example", 1))
        wrong = []

        def ask():
            wrong.extend(1 for _ in range(200) if self.zone.answer(query("www.example", 1)) != wanted)

        threads = [threading.Thread(target=ask) for _ in range(4)]
        for thread in threads:
            thread.start()
        for thread in threads:
            thread.join()
        self.assertEqual(wrong, [])

    def test_example(self):
        spec = importlib.util.spec_from_file_location("serve", FOLDER.parent / "zone" / "check" / "serve.py")
        client = importlib.util.module_from_spec(spec)
        spec.loader.exec_module(client)
        os.environ["PYTHONPATH"] = str(FOLDER)
        client.main([sys.executable, str(FOLDER / "examples" / "serve.py")])
