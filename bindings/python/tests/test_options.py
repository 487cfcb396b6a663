"""EDNS options by name, and the bits DO and CO. The octets are those of the standards' own examples where they have one."""

import unittest
from ipaddress import IPv4Network, IPv6Network

from dnsnames import (
    BadForm, BadSymbol, EdnsOption, ExtendedError, Message, MessageBuilder, NoRoom, OptionCode, ShortInput,
)

# RFC 9018, A.1.
CLIENT = bytes.fromhex("2464c4abcf10c957")
SERVER = bytes.fromhex("010000005cf79f111f8130c3eee29480")


def opt_of(**given):
    """The OPT record of a message that is built with this one."""
    builder = MessageBuilder(512)
    builder.opt(**given)
    return next(Message(builder.finish()).additional())


class Cookies(unittest.TestCase):
    def test_written_and_read(self):
        for server in (b"", SERVER, bytes(8), bytes(32)):
            option = EdnsOption.of_cookie(CLIENT, bytearray(server))
            self.assertEqual(option, (10, CLIENT + server))
            self.assertEqual(option.cookie(), (CLIENT, server))

    def test_wrong_lengths(self):
        for server in (1, 7, 33, 65536):
            with self.subTest(server=server), self.assertRaises(BadForm):
                EdnsOption.of_cookie(CLIENT, bytes(server))
        for client in (b"", bytes(7), bytes(9)):
            with self.assertRaises(ValueError):
                EdnsOption.of_cookie(client)
        for length in range(42):
            option = EdnsOption(10, bytes(length))
            with self.subTest(length=length):
                if length == 8 or 16 <= length <= 40:
                    self.assertEqual(option.cookie().server, bytes(length - 8))
                else:
                    self.assertRaises(ShortInput if length < 8 else BadForm, option.cookie)


class Subnets(unittest.TestCase):
    def test_written_and_read(self):
        # The second is of RFC 7871, 12.
        for network, scope, octets in (
            ("192.0.2.0/24", 0, "00011800c00002"), ("2001:db8:fd13:4200::/56", 0, "0002380020010db8fd1342"),
            ("192.0.2.254/31", 24, "00011f18c00002fe"), ("0.0.0.0/0", 0, "00010000"), ("::/0", 255, "000200ff"),
            ("::1/128", 1, "00028001" + 31 * "0" + "1"),
        ):
            with self.subTest(network=network):
                option = EdnsOption.of_client_subnet(network, scope)
                self.assertEqual(option, (8, bytes.fromhex(octets)))
                made = IPv6Network if ":" in network else IPv4Network
                self.assertEqual(option.client_subnet(), (made(network), scope))

    def test_no_address(self):
        self.assertEqual(EdnsOption(8, bytes(4)).client_subnet(), (None, 0))

    def test_refused(self):
        for network, scope in (("192.0.2.1/24", 0), ("192.0.2.0/33", 0), ("192.0.2.0/24", 256), ("a", 0)):
            with self.subTest(network=network), self.assertRaises(ValueError):
                EdnsOption.of_client_subnet(network, scope)
        for octets, refusal in (
            ("", ShortInput), ("000118", ShortInput), ("00011800c000", ShortInput), ("00011800c0000200", BadForm),
            ("00012100c000020100", BadForm), ("00030000", BadForm), ("00000100", BadForm), ("00011700c00001", BadForm),
        ):
            with self.subTest(octets=octets), self.assertRaises(refusal):
                EdnsOption(8, bytes.fromhex(octets)).client_subnet()


class Errors(unittest.TestCase):
    def test_written_and_read(self):
        for code, text, octets in ((7, "", "0007"), (22, "\u00e9", "0016c3a9"), (65535, "a\0", "ffff6100")):
            option = EdnsOption.of_extended_error(code, text)
            self.assertEqual(option, (15, bytes.fromhex(octets)))
            self.assertEqual(option.extended_error(), (code, text))
        self.assertEqual(EdnsOption(15, b"\0\1\xff").extended_error(), ExtendedError(1, "\ufffd"))

    def test_refused(self):
        self.assertRaises(BadSymbol, EdnsOption.of_extended_error, 1, "\ud800")
        self.assertRaises(NoRoom, EdnsOption.of_extended_error, 1, "a" * 65530)
        self.assertEqual(len(EdnsOption.of_extended_error(1, "a" * 65529).data), 65531)
        for code in (-1, 65536):
            self.assertRaises(ValueError, EdnsOption.of_extended_error, code)
        for octets in (b"", b"\0"):
            self.assertRaises(ShortInput, EdnsOption(15, octets).extended_error)


class InAMessage(unittest.TestCase):
    def test_options(self):
        options = [EdnsOption.of_cookie(CLIENT), EdnsOption.of_client_subnet("192.0.2.0/24"), (OptionCode.NSID, b"")]
        cookie, subnet, nsid = opt_of(options=options).options()
        self.assertEqual((cookie.cookie(), cookie.client_subnet()), ((CLIENT, b""), None))
        self.assertEqual((subnet.client_subnet(), subnet.extended_error()), ((IPv4Network("192.0.2.0/24"), 0), None))
        self.assertEqual((nsid, nsid.cookie()), ((3, b""), None))

    def test_bits(self):
        for dnssec_ok, compact_ok, bits in ((False, False, 0), (True, False, 0x8000), (False, True, 0x4000),
                                            (True, True, 0xC000)):
            record = opt_of(dnssec_ok=dnssec_ok, compact_ok=compact_ok)
            self.assertEqual(record.ttl, bits)
            self.assertEqual((record.opt().dnssec_ok, record.opt().compact_ok), (dnssec_ok, compact_ok))
