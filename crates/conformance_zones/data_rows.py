#!/usr/bin/env python3
"""The rows `read`, `show`, `words` and `place` of the table, always the same: those with their answers beside them, from the
RFCs or by the way they are made, and those that second_data.py alone answers.

`rows` gives each heading and each line, with its answer or None."""

import base64
import calendar
import datetime
import itertools
import random
import re
import struct

IN, CHAOS, NONE, ANY, PRIVATE = 1, 3, 254, 255, 65280
NS, CNAME, SOA, HINFO, MX, TXT, AAAA, SRV, RRSIG, DNSKEY, NSEC3PARAM = 2, 5, 6, 13, 15, 16, 28, 33, 46, 48, 51
DS, NSEC, NSEC3, OPENPGPKEY, CSYNC, URI, CAA = 43, 47, 50, 61, 62, 256, 257

# The signature and the key of RFC 4034, 3.3 and 2.3.
SIGNATURE = (
    b"oJB1W6WNGv+ldvQ3WDG0MQkg5IEhjRip8WTrPYGv07h108dUKGMeDPKijVCHX3DDKdfb+v6oB9wfuh3DTJXUAfI/M0zmO/zz8bW0Rznl8O3t"
    b"GNazPwQKkRN20XPXV6nwwfoXmJQbsLNrLfkGJ5D6fwFm8nN+6pBzeDQfsS3Ap3o="
)
SIGNED = b" 5 3 86400 1048354263 1045762263 2642 example.com. " + SIGNATURE
SIGNED_OCTETS = bytes.fromhex("0503000151803e7c9dd73e5510d70a52076578616d706c6503636f6d00")
SIGNED_OCTETS += base64.b64decode(SIGNATURE)
KEY = (
    b"AQPSKmynfzW4kyBv015MUG2DeIQ3Cbl+BBZH4b/0PY1kxkmvHjcZc8nokfzj31GajIQKY+5CptLr3buXA10hWqTkF7H6RfoRqXQeogmMHfpf"
    b"tf6zMv1LyBUgia7za6ZEzOJBOztyvhjL742iU/TpPSEDhm2SNKLijfUppn1UaNvv4w=="
)
KEY_OCTETS = base64.b64decode(KEY)

# Hosts (RFC 1035, 3.3, 3.4 and 5.3).
HOSTS = [
    (1, b"10.1.0.52", b"\n\x01\x004"),
    (1, b"0.0.0.0", b"\x00\x00\x00\x00"),
    (1, b"255.255.255.255", b"\xff\xff\xff\xff"),
    (2, b"A.ISI.EDU.", b"\x01A\x03ISI\x03EDU\x00"),
    (2, b".", b"\x00"),
    (3, b"VENERA.ISI.EDU.", b"\x06VENERA\x03ISI\x03EDU\x00"),
    (4, b"VAXA.ISI.EDU.", b"\x04VAXA\x03ISI\x03EDU\x00"),
    (5, b"USC-ISIC.ARPA.", b"\x08USC-ISIC\x04ARPA\x00"),
    (6, b"VENERA.ISI.EDU. Action\\.domains.ISI.EDU. 20 7200 600 3600000 60",
     b"\x06VENERA\x03ISI\x03EDU\x00\x0eAction.domains\x03ISI\x03EDU\x00\x00\x00\x00\x14\x00\x00\x1c \x00\x00"
     b"\x02X\x006\xee\x80\x00\x00\x00<"),
    (6, b". . 4294967295 0 1 2147483647 2147483648",
     b"\x00\x00\xff\xff\xff\xff\x00\x00\x00\x00\x00\x00\x00\x01\x7f\xff\xff\xff\x80\x00\x00\x00"),
    (7, b"VENERA.ISI.EDU.", b"\x06VENERA\x03ISI\x03EDU\x00"),
    (8, b"MOE.ISI.EDU.", b"\x03MOE\x03ISI\x03EDU\x00"),
    (9, b"CURLEY.ISI.EDU.", b"\x06CURLEY\x03ISI\x03EDU\x00"),
    (12, b"VAXA.ISI.EDU.", b"\x04VAXA\x03ISI\x03EDU\x00"),
    (13, b'"VAX-11/780" "UNIX"', b"\nVAX-11/780\x04UNIX"),
    (14, b"LARRY.ISI.EDU. MOE.ISI.EDU.", b"\x05LARRY\x03ISI\x03EDU\x00\x03MOE\x03ISI\x03EDU\x00"),
    (15, b"10 VENERA.ISI.EDU.", b"\x00\n\x06VENERA\x03ISI\x03EDU\x00"),
    (15, b"20 VAXA.ISI.EDU.", b"\x00\x14\x04VAXA\x03ISI\x03EDU\x00"),
    (15, b"65535 .", b"\xff\xff\x00"),
]
# Strings: their escapes (RFC 1035, 5.1), and attributes (RFC 1464, 2).
STRINGS = [
    (16, b'"printer=lpr5"', b"\x0cprinter=lpr5"),
    (16, b'"a" "b"', b"\x01a\x01b"),
    (16, b'""', b"\x00"),
    (16, b'"" "a" ""', b"\x00\x01a\x00"),
    (16, b'"\\"\\\\;()@$. "', b'\t"\\;()@$. '),
    (16, b'"\\000\\009\\031 ~\\127\\255"', b"\x07\x00\t\x1f ~\x7f\xff"),
    (99, b'"v=spf1 +mx a:colo.example.com/28 -all"', b"%v=spf1 +mx a:colo.example.com/28 -all"),
    (258, b'"app-name:WOLFGANG|app-class:OAM|business=yes"', b",app-name:WOLFGANG|app-class:OAM|business=yes"),
]
# Names with octets that have a meaning, and with octets that aren't printed (RFC 1035, 5.1; RFC 4343, 2.1).
NAMES = [
    (2, b'a\\.b\\;c\\"d.', b'\x07a.b;c"d\x00'),
    (2, b"\\\\\\(\\)\\@\\$.", b"\x05\\()@$\x00"),
    (2, b"a\\ b.c.", b"\x03a b\x01c\x00"),
    (2, b"\\000\\031\\127\\255.", b"\x04\x00\x1f\x7f\xff\x00"),
    (2, b"!#%&'*+,-/:<=>?[]^_`{|}~.", b"\x18!#%&'*+,-/:<=>?[]^_`{|}~\x00"),
]
# Services and gateways (RFC 1183, 1712, 2163, 2230, 2782, 3403 and 6672).
PLACES = [
    (17, b"louie.trantor.umd.edu. LAM1.people.umd.edu.",
     b"\x05louie\x07trantor\x03umd\x03edu\x00\x04LAM1\x06people\x03umd\x03edu\x00"),
    (18, b"1 bigbird.toaster.com.", b"\x00\x01\x07bigbird\x07toaster\x03com\x00"),
    (19, b'"311061700956"', b"\x0c311061700956"),
    (20, b'"150862028003217" "004"', b"\x0f150862028003217\x03004"),
    (20, b'"150862028003217"', b"\x0f150862028003217"),
    (20, b'"" ""', b"\x00\x00"),
    (21, b"10 NET.Prime.COM.", b"\x00\n\x03NET\x05Prime\x03COM\x00"),
    (26, b"50 ab.net2.it. O-ab.PRMD-net2.ADMDb.C-it.",
     b"\x002\x02ab\x04net2\x02it\x00\x04O-ab\tPRMD-net2\x05ADMDb\x04C-it\x00"),
    (27, b'"-32.6882" "116.8652" "10.0"', b"\x08-32.6882\x08116.8652\x0410.0"),
    (33, b"0 1 9 old-slow-box.example.com.", b"\x00\x00\x00\x01\x00\t\x0cold-slow-box\x07example\x03com\x00"),
    (33, b"0 0 0 .", b"\x00\x00\x00\x00\x00\x00\x00"),
    (35, b'100 50 "s" "z3950+N2L+N2C" "" cidserver.example.com.',
     b"\x00d\x002\x01s\rz3950+N2L+N2C\x00\tcidserver\x07example\x03com\x00"),
    (35, b'100 10 "" "" "!^urn:cid:.+@([^\\\\.]+\\\\.)(.*)$!\\\\2!i" .',
     b"\x00d\x00\n\x00\x00!!^urn:cid:.+@([^\\.]+\\.)(.*)$!\\2!i\x00"),
    (36, b"10 rkx.example.", b"\x00\n\x03rkx\x07example\x00"),
    (39, b"frobozz-division.acme.example.", b"\x10frobozz-division\x04acme\x07example\x00"),
    (58, b"h0.example. h1.example.", b"\x02h0\x07example\x00\x02h1\x07example\x00"),
    (105, b"10 10.1.2.0", b"\x00\n\n\x01\x02\x00"),
    (107, b"10 l64-subnet1.example.com.", b"\x00\n\x0bl64-subnet1\x07example\x03com\x00"),
    (256, b'10 1 "ftp://ftp1.example.com/public"', b"\x00\n\x00\x01ftp://ftp1.example.com/public"),
    (257, b'0 issue "ca1.example.net; account=230123"', b"\x00\x05issueca1.example.net; account=230123"),
    (257, b'128 tbs "Unknown"', b"\x80\x03tbsUnknown"),
    (257, b'0 issue ""', b"\x00\x05issue"),
]
# Digests (RFC 4034, 5.4; RFC 4255, 3.2; RFC 6698, 2.3; RFC 8078, 4; RFC 8976, A.1). Octets are in hexadecimal.
DIGESTS = [
    (43, b"60485 5 1 2bb183af5f22588179a53b0a98631fad1a292118", "ec4505012bb183af5f22588179a53b0a98631fad1a292118"),
    (44, b"2 1 123456789abcdef67890123456789abcdef67890", "0201123456789abcdef67890123456789abcdef67890"),
    (52, b"0 0 1 d2abde240d7cd3ee6b4b28c54df034b97983a1d16e8a410e4561cb106618e971",
     "000001d2abde240d7cd3ee6b4b28c54df034b97983a1d16e8a410e4561cb106618e971"),
    (53, b"3 1 1 d2abde240d7cd3ee6b4b28c54df034b97983a1d16e8a410e4561cb106618e971",
     "030101d2abde240d7cd3ee6b4b28c54df034b97983a1d16e8a410e4561cb106618e971"),
    (59, b"0 0 0 00", "0000000000"),
    (63, b"2018031900 1 1 c68090d90a7aed716bc459f9340e3d7c1370d4d24b7e2fc3a1ddc0b9a87153b9a9713b3c9ae5cc27777f98b8e"
     b"730044c",
     "7848b91c0101c68090d90a7aed716bc459f9340e3d7c1370d4d24b7e2fc3a1ddc0b9a87153b9a9713b3c9ae5cc27777f98b8e730"
     "044c"),
    (32769, b"60485 5 1 2bb183af5f22588179a53b0a98631fad1a292118",
     "ec4505012bb183af5f22588179a53b0a98631fad1a292118"),
]
# Octets in base64 (RFC 4034, 2.3; RFC 4648, 10; RFC 4701, 3.6; RFC 8078, 4).
KEYS = [
    (25, b"256 3 5 " + KEY, b"\x01\x00\x03\x05" + KEY_OCTETS),
    (37, b"1 12345 8 Zm9vYmFy", b"\x00\x0109\x08foobar"),
    (48, b"256 3 5 " + KEY, b"\x01\x00\x03\x05" + KEY_OCTETS),
    (49, b"AAIBY2/AuCccgoJbsaxcQc9TUapptP69lOjxfNuVAA2kjEA=",
     b"\x00\x02\x01co\xc0\xb8'\x1c\x82\x82[\xb1\xac\\A\xcfSQ\xaai\xb4\xfe\xbd\x94\xe8\xf1|\xdb\x95\x00\r\xa4"
     b"\x8c@"),
    (60, b"0 3 0 AA==", b"\x00\x00\x03\x00\x00"),
    (61, b"Zg==", b"f"),
    (61, b"Zm8=", b"fo"),
    (61, b"Zm9v", b"foo"),
    (61, b"Zm9vYg==", b"foob"),
    (61, b"Zm9vYmE=", b"fooba"),
    (61, b"Zm9vYmFy", b"foobar"),
    (61, base64.b64encode(bytes(range(256))), bytes(range(256))),
]
# Salts (RFC 5155, 3.3 and 4.3).
SALTS = [
    (51, b"1 0 12 aabbccdd", b"\x01\x00\x00\x0c\x04\xaa\xbb\xcc\xdd"),
    (51, b"1 0 0 -", b"\x01\x00\x00\x00\x00"),
    (51, b"1 1 65535 " + bytes(range(1, 256)).hex().encode(),
     b"\x01\x01\xff\xff\xff" + bytes(range(1, 256))),
]
# Bitmaps of types (RFC 4034, 4.3; RFC 5155, A; RFC 7477, 2.2), in the first window and the last, and none.
HASHED = b"1 1 12 aabbccdd 2t7b4g4vsa5smi47k61mv5bv1a22bojr"
HASHED_OCTETS = bytes.fromhex("0101000c04aabbccdd14174eb2409fe28bcb4887a1836f957f0a8425e27b")
BITMAPS = [
    (47, b"host.example.com. A MX RRSIG NSEC TYPE1234",
     b"\x04host\x07example\x03com\x00" + bytes.fromhex("0006400100000003041b" + 26 * "00" + "20")),
    (47, b". A", b"\x00\x00\x01@"),
    (47, b". TYPE0 A CAA TA", b"\x00\x00\x01\xc0\x01\x01@\x80\x01\x80"),
    (47, b". TYPE65535", b"\x00\xff\x20" + bytes(31) + b"\x01"),
    (47, b". ANY URI", b"\x00\x00\x20" + bytes(31) + b"\x01\x01\x01\x80"),
    (50, HASHED + b" NS SOA MX RRSIG DNSKEY NSEC3PARAM", HASHED_OCTETS + bytes.fromhex("000722010000000290")),
    (50, HASHED, HASHED_OCTETS),
    (62, b"66 3 A NS AAAA", bytes.fromhex("000000420003000460000008")),
    (62, b"66 3", b"\x00\x00\x00B\x00\x03"),
]
# Octets in base32hex (RFC 4648, 10, in lower case), after an empty salt.
HASHES = [
    (50, b"1 0 0 - co", b"\x01\x00\x00\x00\x00\x01f"),
    (50, b"1 0 0 - cpng", b"\x01\x00\x00\x00\x00\x02fo"),
    (50, b"1 0 0 - cpnmu", b"\x01\x00\x00\x00\x00\x03foo"),
    (50, b"1 0 0 - cpnmuog", b"\x01\x00\x00\x00\x00\x04foob"),
    (50, b"1 0 0 - cpnmuoj1", b"\x01\x00\x00\x00\x00\x05fooba"),
    (50, b"1 0 0 - cpnmuoj1e8", b"\x01\x00\x00\x00\x00\x06foobar"),
]
# Signatures (RFC 4034, 3.2 and 3.3; RFC 3597, 5).
SIGNATURES = [
    (46, b"A" + SIGNED, b"\x00\x01" + SIGNED_OCTETS),
    (46, b"NSEC3PARAM" + SIGNED, b"\x003" + SIGNED_OCTETS),
    (46, b"ANY" + SIGNED, b"\x00\xff" + SIGNED_OCTETS),
    (46, b"TYPE65280" + SIGNED, b"\xff\x00" + SIGNED_OCTETS),
    (46, b"TYPE0" + SIGNED, b"\x00\x00" + SIGNED_OCTETS),
    (24, b"NSAP-PTR" + SIGNED, b"\x00\x17" + SIGNED_OCTETS),
    (46, b"DLV" + SIGNED, b"\x80\x01" + SIGNED_OCTETS),
]
# Data with a field without a form of its own, data whose last field is empty, and unknown data (RFC 3597, 5).
GENERIC = [
    (10, b"\\# 0", b""),
    (10, b"\\# 3 000aff", b"\x00\n\xff"),
    (43, b"\\# 4 ec450501", b"\xecE\x05\x01"),
    (44, b"\\# 2 0201", b"\x02\x01"),
    (52, b"\\# 3 000001", b"\x00\x00\x01"),
    (48, b"\\# 4 01000305", b"\x01\x00\x03\x05"),
    (49, b"\\# 0", b""),
    (47, b"\\# 4 00000100", b"\x00\x00\x01\x00"),
    (47, b"\\# 5 0000024000", b"\x00\x00\x02@\x00"),
    (47, b"\\# 7 00000140010100", b"\x00\x00\x01@\x01\x01\x00"),
    (50, b"\\# 10 01000000000166000100", b"\x01\x00\x00\x00\x00\x01f\x00\x01\x00"),
    (62, b"\\# 10 00000042000300026000", b"\x00\x00\x00B\x00\x03\x00\x02\x60\x00"),
    (731, b"\\# 6 abcdef012345", b"\xab\xcd\xef\x01#E"),
    (62347, b"\\# 0", b""),
]
BOTH_WAYS = HOSTS + STRINGS + NAMES + PLACES + KEYS + SALTS + BITMAPS + HASHES + SIGNATURES + GENERIC
# Addresses as they are shown (RFC 4291, 2.2; RFC 5952, 4), and other texts of addresses.
ADDRESSES = [
    (b"2001:db8::1", "20010db8000000000000000000000001"),
    (b"2001:db8::8:800:200c:417a", "20010db80000000000080800200c417a"),
    (b"ff01::101", "ff010000000000000000000000000101"),
    (b"::1", "00000000000000000000000000000001"),
    (b"::", "00000000000000000000000000000000"),
    (b"2001:db8::1:0:0:1", "20010db8000000000001000000000001"),
    (b"2001:0:0:1::1", "20010000000000010000000000000001"),
    (b"2001:db8:0:1:1:1:1:1", "20010db8000000010001000100010001"),
    (b"2001:db8:1:2:3:4:5:0", "20010db8000100020003000400050000"),
    (b"1::", "00010000000000000000000000000000"),
    (b"::1:0:0:1:0:0", "00000000000100000000000100000000"),
    (b"0:1:0:1:0:1:0:1", "00000001000000010000000100000001"),
    (b"abcd:ef01:2345:6789:abcd:ef01:2345:6789", "abcdef0123456789abcdef0123456789"),
    (b"10:200:3000:f:ff:fff:ffff:0", "001002003000000f00ff0fffffff0000"),
    (b"1:2:3:4:5:6::", "00010002000300040005000600000000"),
    (b"::3:4:5:6:7:8", "00000000000300040005000600070008"),
    (b"1:0:0:4::8", "00010000000000040000000000000008"),
]
ADDRESS_READINGS = [
    (b"2001:DB8:0:0:8:800:200C:417A", "20010db80000000000080800200c417a"),
    (b"2001:0DB8:0000:0000:0008:0800:200C:417A", "20010db80000000000080800200c417a"),
    (b"FF01::101", "ff010000000000000000000000000101"),
    (b"::13.1.68.3", "0000000000000000000000000d014403"),
    (b"0:0:0:0:0:FFFF:129.144.52.38", "00000000000000000000ffff81903426"),
    (b"::FFFF:129.144.52.38", "00000000000000000000ffff81903426"),
    (b"1:2:3:4:5:6:7::", "00010002000300040005000600070000"),
    (b"::2:3:4:5:6:7:8", "00000002000300040005000600070008"),
    (b"1::3:4:5:6:7:8", "00010000000300040005000600070008"),
    (b"1:2:3:4:5::10.1.2.3", "0001000200030004000500000a010203"),
    (b"2001:db8::0:1", "20010db8000000000000000000000001"),
    (b"aBcD::Ef", "abcd00000000000000000000000000ef"),
    (b"\\# 16 20010db8000000000000000000000001", "20010db8000000000000000000000001"),
]
# Texts with white space, ends of lines and comments; words without quotes; escapes; digits of either case and in
# several words (RFC 1035, 5.1; RFC 3597, 5).
READINGS = [
    (1, b"10.0.0.52 ; VENERA", b"\n\x00\x004"),
    (1, b"\t010.000.000.052\r\n", b"\n\x00\x004"),
    (1, b"\\# 4 0A000001", b"\n\x00\x00\x01"),
    (2, b"A\\.B.\\065\\066.", b"\x03A.B\x02AB\x00"),
    (2, b"\\a\\b.", b"\x02ab\x00"),
    (13, b"VAX-11/780 UNIX", b"\nVAX-11/780\x04UNIX"),
    (13, b'\\"a\\032b\\" c;d', b'\x05"a b"\x01c'),
    (16, b'a "b c"  \t d', b"\x01a\x03b c\x01d"),
    (16, b'"a;b" ; c\n"(d)"', b"\x03a;b\x03(d)"),
    (16, b'"a\nb"', b"\x03a\nb"),
    (16, b'"\\a\\098\\"" \\;\\(', b'\x03ab"\x02;('),
    (20, b"150862028003217 004", b"\x0f150862028003217\x03004"),
    (20, b"150862028003217 ; no subaddress", b"\x0f150862028003217"),
    (20, b"\\# 20 0f31353038363230323830303332313703303034", b"\x0f150862028003217\x03004"),
    (15, b"00010\n\tmail. ; first\n", b"\x00\n\x04mail\x00"),
    (6, b"a. b. ; names\n 1 ; serial\n 2\r\n3\t4 5",
     b"\x01a\x00\x01b\x00\x00\x00\x00\x01\x00\x00\x00\x02\x00\x00\x00\x03\x00\x00\x00\x04\x00\x00\x00\x05"),
    (6, b"a. b. 1 1h 15M 2w 1d", b"\x01a\x00\x01b\x00" + struct.pack(">5I", 1, 3600, 900, 1209600, 86400)),
    (6, b"a. b. 1 1h30m 0s 1W2d3H4m5s 4294967295",
     b"\x01a\x00\x01b\x00" + struct.pack(">5I", 1, 5400, 0, 788645, 4294967295)),
    (6, b"a. b. 1 2147483647s 35791394m7s 2147483648 00s",
     b"\x01a\x00\x01b\x00" + struct.pack(">5I", 1, 2147483647, 2147483647, 2147483648, 0)),
    (46, b"A 5 3 24h 20030322173103 20030220173103 2642 example.com. " + SIGNATURE, b"\x00\x01" + SIGNED_OCTETS),
    (43, b"60485 5 1 2BB183AF5F22588179A53B0A 98631FAD1A292118",
     b'\xecE\x05\x01+\xb1\x83\xaf_"X\x81y\xa5;\n\x98c\x1f\xad\x1a)!\x18'),
    (44, b"2 1 aB Cd ; digits\n eF", b"\x02\x01\xab\xcd\xef"),
    (257, b"128 tbs Unknown", b"\x80\x03tbsUnknown"),
    (257, b"0 ISSUE ca1.example.net", b"\x00\x05ISSUEca1.example.net"),
    (731, b"\\# 6 abcdef 01 23 45", b"\xab\xcd\xef\x01#E"),
    (15, b"\\# 3 000a00", b"\x00\n\x00"),
    (48, b"256 3 5 AQPSKmynfzW4kyBv015MUG2DeIQ3\n Cbl+BBZH4b/0PY1kxkmvHjcZc8no\n kfzj31GajIQKY+5CptLr3buXA10h\n WqT"
     b"kF7H6RfoRqXQeogmMHfpftf6z\n Mv1LyBUgia7za6ZEzOJBOztyvhjL\n 742iU/TpPSEDhm2SNKLijfUppn1U\n aNvv4w==",
     b"\x01\x00\x03\x05" + KEY_OCTETS),
    (61, b"Z m9 vYm ; key\n Fy", b"foobar"),
    (61, b"Zm8 =", b"fo"),
    (48, b"\\# 7 01000305666f6f", b"\x01\x00\x03\x05foo"),
    (51, b"1 0 12 AABBccdd ; salt", b"\x01\x00\x00\x0c\x04\xaa\xbb\xcc\xdd"),
    (51, b"\\# 5 0100000000", b"\x01\x00\x00\x00\x00"),
    (47, b". TYPE1 a A nsec TYPE47", b"\x00\x00\x06@\x00\x00\x00\x00\x01"),
    (47, b". ta TYPE257 ; types\n a", b"\x00\x00\x01@\x01\x01@\x80\x01\x80"),
    (47, b". * TYPE00255", b"\x00\x00\x20" + bytes(31) + b"\x01"),
    (47, b"\\# 4 00000140", b"\x00\x00\x01@"),
    (50, b"1 0 0 - CPNMUOJ1E8", b"\x01\x00\x00\x00\x00\x06foobar"),
    (50, b"1 0 0 - cPnMuOj1E8 ; none", b"\x01\x00\x00\x00\x00\x06foobar"),
    (50, HASHED.upper() + b" MX DNSKEY NS SOA NSEC3PARAM RRSIG",
     HASHED_OCTETS + bytes.fromhex("000722010000000290")),
    (46, b"aaaa" + SIGNED, b"\x00\x1c" + SIGNED_OCTETS),
    (46, b"type1" + SIGNED, b"\x00\x01" + SIGNED_OCTETS),
    (46, b"*" + SIGNED, b"\x00\xff" + SIGNED_OCTETS),
    (46, b"TYPE00255" + SIGNED, b"\x00\xff" + SIGNED_OCTETS),
    (46, b"A 5 3 86400 20030322173103 20030220173103 2642 example.com. " + SIGNATURE, b"\x00\x01" + SIGNED_OCTETS),
    (46, b"A 5 3 86400 21060207062815 19700101000000 2642 example.com. Zm9v",
     b"\x00\x01\x05\x03\x00\x01Q\x80\xff\xff\xff\xff\x00\x00\x00\x00\nR\x07example\x03com\x00foo"),
    (46, b"A 5 3 86400 20000229235959 20000301000000 2642 example.com. Zm9v",
     b"\x00\x01\x05\x03\x00\x01Q\x808\xbc]\x7f8\xbc]\x80\nR\x07example\x03com\x00foo"),
    (46, b"A 5 3 86400 21000228235959 21000301000000 2642 example.com. Zm9v",
     b"\x00\x01\x05\x03\x00\x01Q\x80\xf4\xd4\x1f\x7f\xf4\xd4\x1f\x80\nR\x07example\x03com\x00foo"),
    (46, b"A 5 3 86400 20240229120000 20231231235959 2642 example.com. Zm9v",
     b"\x00\x01\x05\x03\x00\x01Q\x80e\xe0q\xc0e\x92\x00\x7f\nR\x07example\x03com\x00foo"),
    (46, b"A 5 3 86400 20380119031408 19991130000001 2642 example.com. Zm9v",
     b"\x00\x01\x05\x03\x00\x01Q\x80\x80\x00\x00\x008C\x13\x81\nR\x07example\x03com\x00foo"),
    (46, b"A 5 3 86400 20160731101112 20160831101112 2642 example.com. Zm9v",
     b"\x00\x01\x05\x03\x00\x01Q\x80W\x9d\xce\xc0W\xc6\xad@\nR\x07example\x03com\x00foo"),
    (62347, b"\\#  00000", b""),
]
# Texts with their first fault, and its offset.
FAULTS = [
    (1, b"", 0, "MissingWord"),
    (15, b"10", 2, "MissingWord"),
    (15, b"10 ; mail.", 10, "MissingWord"),
    (16, b" ", 1, "MissingWord"),
    (43, b"60485 5 1", 9, "MissingWord"),
    (257, b"0 issue", 7, "MissingWord"),
    (1, b"10.0.0.1 10.0.0.2", 9, "ExtraWord"),
    (15, b"10 mail. extra", 9, "ExtraWord"),
    (257, b"0 issue a b", 10, "ExtraWord"),
    (15, b"65536 mail.", 0, "Number"),
    (15, b"-1 mail.", 0, "Number"),
    (15, b"+1 mail.", 0, "Number"),
    (15, b"1h mail.", 0, "Number"),
    (15, b'"10" mail.', 0, "Number"),
    (43, b"1 256 1 00", 2, "Number"),
    (6, b". . 4294967296 0 0 0 0", 4, "Number"),
    (6, b". . 1 1 1 1 99999999999999999999", 12, "Number"),
    (1, b"10.0.0.256", 0, "Ipv4"),
    (1, b"10.0.0", 0, "Ipv4"),
    (1, b"10.0.0.0.1", 0, "Ipv4"),
    (1, b"10..0.1", 0, "Ipv4"),
    (1, b" 10.0.0.1.", 1, "Ipv4"),
    (1, b"0x0a.0.0.1", 0, "Ipv4"),
    (2, b"mail.example", 0, "Name"),
    (2, b"mail..example.", 0, "Name"),
    (2, b"..", 0, "Name"),
    (2, b".a.", 0, "Name"),
    (2, b"@", 0, "Name"),
    (2, b'"mail."', 0, "Name"),
    (15, b"10 " + b"a" * 64 + b".", 3, "Name"),
    (2, b"a\\256.", 0, "Name"),
    (2, b"a\\25.", 0, "Name"),
    (2, b"a\\.", 0, "Name"),
    (16, b'a "b"c', 2, "CharString"),
    (16, b'a b"c"', 2, "CharString"),
    (16, b'"a""b"', 0, "CharString"),
    (16, b'a "\\256"', 2, "CharString"),
    (13, b'"a" "\\2!"', 4, "CharString"),
    (35, b'100 10 "" "" "!^urn:cid:.+@([^\\.]+\\.)(.*)$!\\2!i" .', 13, "CharString"),
    (257, b'0 is-sue "a"', 2, "Tag"),
    (257, b'0 "issue" "a"', 2, "Tag"),
    (257, b'0 issue "a"b', 8, "QuotedText"),
    (256, b'0 0 "\\999"', 4, "QuotedText"),
    (43, b"1 5 1 abc", 6, "Base16"),
    (43, b"1 5 1 ab c", 9, "Base16"),
    (43, b"1 5 1 ab cg de", 9, "Base16"),
    (44, b'2 1 "ab"', 4, "Base16"),
    (43, b"60485 5 1 ( ab )", 10, "Parenthesis"),
    (16, b"a)b", 1, "Parenthesis"),
    (16, b'"abc', 4, "OpenQuote"),
    (16, b'"abc\\"', 6, "OpenQuote"),
    (16, b'"abc\\', 5, "OpenQuote"),
    (16, b"abc\\", 4, "LoneBackslash"),
    (1, b"\\#", 2, "MissingWord"),
    (1, b"\\# x 00", 3, "Number"),
    (1, b"\\# 65536 00", 3, "Number"),
    (1, b"\\# 3 0a000001", 3, "OctetCount"),
    (1, b"\\# 5 0a000001", 3, "OctetCount"),
    (1, b"\\# 4", 3, "OctetCount"),
    (1, b"\\# 4 0a00000", 5, "Base16"),
    (1, b"\\# 4 0a00 000", 10, "Base16"),
    (1, b" \\# 3 0a0000", 1, "NotData"),
    (1, b"\\# 5 0a00000102", 0, "NotData"),
    (15, b"\\# 4 000ac000", 0, "NotData"),
    (2, b"\\# 9 03636f6d00016100", 3, "OctetCount"),
    (2, b"\\# 8 03636f6d00016100", 0, "NotData"),
    (257, b"\\# 5 0003612d62", 0, "NotData"),
    (62347, b"00", 0, "OnlyGeneric"),
    (20, b"", 0, "MissingWord"),
    (20, b"150862028003217 004 5", 20, "ExtraWord"),
    (20, b'150862028003217 "00"4', 16, "CharString"),
    (108, b"00-00-5e-00-53-2a", 0, "OnlyGeneric"),
    (6, b"a. b. 1h 2 3 4 5", 6, "Number"),
    (6, b"a. b. 1 1h30 3 4 5", 8, "Number"),
    (6, b"a. b. 1 1hh 3 4 5", 8, "Number"),
    (6, b"a. b. 1 2 1y 4 5", 10, "Number"),
    (6, b"a. b. 1 2 3 2147483648s 5", 12, "Number"),
    (6, b"a. b. 1 2 3 4 35791394m8s", 14, "Number"),
    (6, b'a. b. 1 2 3 4 "5h"', 14, "Number"),
    (6, b"a. b. 1 2 3 4 5\\h", 14, "Number"),
    (15, b"65536 mail", 0, "Number"),
    (15, b"x mail. (", 8, "Parenthesis"),
    (1, b"\\# x 0", 3, "Number"),
    (1, b"\\# 1 0", 5, "Base16"),
    (43, b"1 256 x zz", 2, "Number"),
    (61, b"Zg", 0, "Base64"),
    (61, b"Zg=", 0, "Base64"),
    (61, b" Zh==", 1, "Base64"),
    (61, b"Zm9v=", 0, "Base64"),
    (61, b"Zg===", 0, "Base64"),
    (61, b"Z===", 0, "Base64"),
    (61, b"=", 0, "Base64"),
    (61, b"Zm9 v!mFy", 0, "Base64"),
    (61, b"Zg==Zg==", 0, "Base64"),
    (61, b"Zg== Zg==", 0, "Base64"),
    (61, b"_-8=", 0, "Base64"),
    (61, b'"Zm9v"', 0, "Base64"),
    (48, b"256 3 5", 7, "MissingWord"),
    (48, b"256 3 5 AQP", 8, "Base64"),
    (48, b"65536 3 5 Zm9v", 0, "Number"),
    (51, b"1 0 12", 6, "MissingWord"),
    (51, b"1 0 12 aabbccd", 7, "CountedBase16"),
    (51, b"1 0 12 --", 7, "CountedBase16"),
    (51, b"1 0 12 aa bb", 10, "ExtraWord"),
    (51, b"1 0 12 -aa", 7, "CountedBase16"),
    (51, b'1 0 12 "aa"', 7, "CountedBase16"),
    (51, b"1 0 12 " + b"00" * 256, 7, "CountedBase16"),
    (47, b"host.", 5, "MissingWord"),
    (47, b"host. A B", 8, "Rtype"),
    (47, b". TYPE65536", 2, "Rtype"),
    (47, b". A \\# 1 00", 4, "Rtype"),
    (47, b". A MX.", 4, "Rtype"),
    (50, b"1 0 1 -", 7, "MissingWord"),
    (50, b"1 0 1 - 0", 8, "CountedBase32"),
    (50, b"1 0 1 - 01", 8, "CountedBase32"),
    (50, b"1 0 1 - 000", 8, "CountedBase32"),
    (50, b"1 0 1 - co======", 8, "CountedBase32"),
    (50, b"1 0 1 - w0", 8, "CountedBase32"),
    (50, b"1 0 1 - -", 8, "CountedBase32"),
    (50, b"1 0 1 - co co", 11, "Rtype"),
    (50, b"1 0 1 - " + b"0" * 410, 8, "CountedBase32"),
    (62, b"66 3 4", 5, "Rtype"),
]
# Texts that aren't IPv6 addresses (RFC 4291, 2.2).
NO_ADDRESSES = (
    "1:2:3:4:5:6:7 1:2:3:4:5:6:7:8:9 1::2::3 ::: 1:2:3:4:5:6:7:8:: ::1:2:3:4:5:6:7:8 12345:: 1:2:3:4:5:6:7:g "
    "1:2:3:4:5:6:7: 10.0.0.1 :1:2:3:4:5:6:7:8 1.2.3.4:: ::1.2.3 ::1.2.3.4:5 1:2:3:4:5:6:7:1.2.3.4 "
    "1:2:3:4:5:6:7:8: ::256.1.1.1 : 1:2:3:4::5:6:7:8"
).split()
# Types and times of signatures (RFC 3597, 5; RFC 4034, 3.2).
SIGNATURE_FAULTS = [
    (b"TYPE65536 5 3 86400", 0, "Rtype"),
    (b"TYPE 5 3 86400", 0, "Rtype"),
    (b"TYPEA 5 3 86400", 0, "Rtype"),
    (b"1 5 3 86400", 0, "Rtype"),
    (b"AAAAA 5 3 86400", 0, "Rtype"),
    (b"CLASS1 5 3 86400", 0, "Rtype"),
    (b"\\A 5 3 86400", 0, "Rtype"),
    (b"TYPE-1 5 3 86400", 0, "Rtype"),
    (b"A 5 3 86400 20030230173103", 12, "Time"),
    (b"A 5 3 86400 20010229000000", 12, "Time"),
    (b"A 5 3 86400 21000229000000", 12, "Time"),
    (b"A 5 3 86400 19691231235959", 12, "Time"),
    (b"A 5 3 86400 21060207062816", 12, "Time"),
    (b"A 5 3 86400 20030322240000", 12, "Time"),
    (b"A 5 3 86400 20030322236000", 12, "Time"),
    (b"A 5 3 86400 20030322235960", 12, "Time"),
    (b"A 5 3 86400 20031301000000", 12, "Time"),
    (b"A 5 3 86400 20030001000000", 12, "Time"),
    (b"A 5 3 86400 20030100000000", 12, "Time"),
    (b"A 5 3 86400 20030431000000", 12, "Time"),
    (b"A 5 3 86400 00000000000000", 12, "Time"),
    (b"A 5 3 86400 99991231235959", 12, "Time"),
    (b"A 5 3 86400 2003032217310", 12, "Time"),
    (b"A 5 3 86400 200303221731030", 12, "Time"),
    (b"A 5 3 86400 4294967296", 12, "Time"),
    (b"A 5 3 86400 2003-03-221731", 12, "Time"),
    (b"A 5 3 86400 now", 12, "Time"),
    (b"A 5 3 86400 20030322173103", 26, "MissingWord"),
]

# The fields of data of each type by letters of KINDS, in class IN: all but those of OF_OCTETS have a form of text.
# RFC 1035, 3.3 and 3.4. 1183 (RP, AFSDB, X25, ISDN, RT). 2535 (SIG, KEY). 2163 (PX). 1712 (GPOS). 3596 (AAAA). 2782
# (SRV). 3403 (NAPTR). 2230 (KX). 4398 (CERT). 6672 (DNAME). 4034 (DS, RRSIG, NSEC, DNSKEY). 4255 (SSHFP). 4701 (DHCID).
# 5155 (NSEC3, NSEC3PARAM). 6698 (TLSA). 8162 (SMIMEA). 7344 (CDS, CDNSKEY). 7929 (OPENPGPKEY). 7477 (CSYNC). 8976
# (ZONEMD). 7208 (SPF). 6742 (L32, LP). 7553 (URI). 8659 (CAA). 4431 (DLV). 9886 (HHIT, BRID). 9606
# (RESINFO). NINFO, RKEY, TALINK, AVC, WALLET and CLA are of IANA's registry.
FIELDS = {
    1: "a", 2: "n", 3: "n", 4: "n", 5: "n", 6: "nn4LLLL", 7: "n", 8: "n", 9: "n", 12: "n", 13: "ss", 14: "nn",
    15: "2n", 16: "S", 17: "nn", 18: "2n", 19: "s", 20: "so", 21: "2n", 24: "R11LTT2nb", 25: "211b", 26: "2nn",
    27: "sss", 28: "A", 33: "222n", 35: "22sssn", 36: "2n", 37: "221b", 39: "n", 43: "211h", 44: "11h",
    46: "R11LTT2nb", 47: "nB", 48: "211b", 49: "b", 50: "112HXO", 51: "112H", 52: "111h", 53: "111h", 56: "S",
    57: "211b", 58: "nn", 59: "211h", 60: "211b", 61: "b", 62: "42O", 63: "411h", 67: "b", 68: "b", 99: "S",
    105: "2a", 107: "2n", 256: "22q", 257: "1tq", 258: "S", 261: "S", 262: "S", 263: "S", 32769: "211h",
}
# Types whose data is shown after \# alone. RFC 1035 (NULL, WKS), 1706 (NSAP, NSAP-PTR), 1876 (LOC). 2535
# (NXT), 3123 (APL), 4025 (IPSECKEY), 8005 (HIP), 9460 (SVCB, HTTPS), 6742 (NID, L64), 7043 (EUI48, EUI64). 2930 (TKEY),
# 8945 (TSIG), 8777 (AMTRELAY), and one for private use.
OF_OCTETS = {
    10: "*", 11: "*", 22: "*", 29: "*", 30: "n*", 42: "*", 45: "*", 55: "*", 64: "2nP", 65: "2nP", 104: "28",
    106: "28", 108: "6", 109: "8", 249: "n4422KK", 250: "n62K22K", 260: "*", 65280: "*",
}
# What a field of each kind is: a text and its octets, and texts that are none, after their fault.
KINDS = {
    "1": ((b"7", b"\x07"), "Number", (b"x", b"-1", b"256", b'"7"', b"\\055", b"1h", b"0x7")),
    "2": ((b"300", b"\x01\x2c"), "Number", (b"x", b"+1", b"65536", b'"7"', b"1d", b"3.0", b"18446744073709551616")),
    "4": ((b"70000", b"\0\x01\x11\x70"), "Number", (b"x", b"-0", b"4294967296", b'""', b"1h30m", b"7e3")),
    "L": ((b"70000", b"\0\x01\x11\x70"), "Number",
          (b"x", b"-0", b"4294967296", b'""', b"1h30", b"h", b"2147483648s", b"7e3")),
    "T": ((b"1048354263", b"\x3e\x7c\x9d\xd7"), "Time", (b"x", b"4294967296", b"20010229000000", b"now", b'"7"')),
    "R": ((b"MX", b"\0\x0f"), "Rtype", (b"TYPE65536", b"NONESUCH", b"15", b'"MX"', b"M\\088", b"TYPE", b"MX1")),
    "a": ((b"192.0.2.1", b"\xc0\0\x02\x01"), "Ipv4",
          (b"192.0.2", b"192.0.2.256", b"1.2.3.4.5", b"1.2.3.+4", b"3.4")),
    "A": ((b"2001:db8::1", b"\x20\x01\x0d\xb8" + bytes(11) + b"\x01"), "Ipv6",
          (b"1:2:3", b"::g", b"::1%2", b'"::"')),
    "n": ((b"ns.Example.", b"\x02ns\x07Example\0"), "Name",
          (b"ns", b"a..b.", b'"a."', b"@", b"..", b"\\256.", b"a\\.")),
    "s": ((b'"a b"', b"\x03a b"), "CharString", (b'"a"b', b'a"b"', b"\\256", b'"\\25"', b"a" * 256)),
    "o": ((b'"004"', b"\x03004"), "CharString", (b'"a"b', b'a"b"', b"\\256", b'"\\25"', b"a" * 256)),
    "S": ((b'"a b" "" "c"', b"\x03a b\0\x01c"), "CharString",
          (b'"a"b', b'a"b"', b"\\256", b'"\\25"', b"\\097" * 256)),
    "t": ((b"issue", b"\x05issue"), "Tag", (b"is-sue", b'"issue"', b"issu\\101", b"a" * 256, b'""')),
    "q": ((b'"x \\"y\\""', b'x "y"'), "QuotedText", (b'"a"b', b'a"b"', b"\\256", b'"\\25"')),
    "h": ((b"0a0b0c", b"\x0a\x0b\x0c"), "Base16", (b"abc", b"0g", b'"ab"', b"-", b"0x0a")),
    "b": ((b"Zm9vYg==", b"foob"), "Base64", (b"Zg", b"Zh==", b"!", b'"Zm9v"', b"Zg=", b"Zm9v====", b"-_8=")),
    "H": ((b"aabb", b"\x02\xaa\xbb"), "CountedBase16", (b"abc", b"-a", b"--", b'"aa"', b"gg", b'""')),
    "X": ((b"04106", b"\x03\x01\x02\x03"), "CountedBase32",
          (b"0", b"01", b"0411", b"000", b"w0", b'"04"', b"-", b'""', b"04======", b"0" * 410)),
    "B": ((b"A TYPE271", b"\0\x01\x40\x01\x02\0\x01"), "Rtype",
          (b"TYPE65536", b"NONESUCH", b"1", b'"A"', b"\\A", b"TYPE", b"A.", b"-")),
    "O": ((b"NS", b"\0\x01\x20"), "Rtype", (b"TYPE65536", b"NONESUCH", b"1", b'"A"', b"\\A", b"TYPE", b"A.", b"-")),
    "6": ((None, b"\x01\x02\x03\x04\x05\x06"), None, ()),
    "8": ((None, b"\x01\x02\x03\x04\x05\x06\x07\x08"), None, ()),
    "K": ((None, b"\0\x02ab"), None, ()),
    "P": ((None, b"\0\x01\0\x03\x02h2\0\x03\0\x02\x01\xbb"), None, ()),
    "*": ((None, b"\x01\x02\x03"), None, ()),
}
# How many octets a number of each kind has
SIZES_OF_NUMBERS = {"1": 1, "2": 2, "4": 4, "L": 4}
# The mnemonics of types (IANA's registry of DNS parameters).
MNEMONICS = {
    1: "A NS MD MF CNAME SOA MB MG MR NULL WKS PTR HINFO MINFO MX TXT RP AFSDB X25 ISDN RT NSAP NSAP-PTR SIG KEY PX "
       "GPOS AAAA LOC NXT EID NIMLOC SRV ATMA NAPTR KX CERT A6 DNAME SINK OPT APL DS SSHFP IPSECKEY RRSIG NSEC DNSKEY "
       "DHCID NSEC3 NSEC3PARAM TLSA SMIMEA",
    55: "HIP NINFO RKEY TALINK CDS CDNSKEY OPENPGPKEY CSYNC ZONEMD SVCB HTTPS DSYNC HHIT BRID",
    99: "SPF UINFO UID GID UNSPEC NID L32 L64 LP EUI48 EUI64",
    128: "NXNAME",
    249: "TKEY TSIG IXFR AXFR MAILB MAILA ANY URI CAA AVC DOA AMTRELAY RESINFO WALLET CLA IPN",
    32768: "TA DLV",
}
TYPES = {first + step: it for first, names in MNEMONICS.items() for step, it in enumerate(names.split())}
SEED, DRAWN = 20261129, 4000
# Types whose words have white space and marks about them.
SPACED = (1, NS, SOA, HINFO, MX, TXT, AAAA, 35, DS, RRSIG, NSEC, NSEC3, NSEC3PARAM, OPENPGPKEY, CAA)


def written(text):
    """A text as it is in a line: in digits where it has an octet that isn't printed, or may be taken for another."""
    if re.fullmatch(rb"[!-~](?:[ -~]*[!-~])?", text) and not text.startswith(b"hex:"):
        return text
    return b"hex:" + (text.hex() or "-").encode()


def read(rtype, text, octets=None, rclass=IN, fault=None):
    """A row `read`, with the octets of the text or its fault and the offset of it, where one of these is known."""
    told = digits(octets) if octets is not None else "err %d %s" % fault if fault else None
    return b"read %d %d %s" % (rtype, rclass, written(text)), told


def show(rtype, octets, text=None, rclass=IN, begin=0):
    """A row `show`, with the text of the data where it is known."""
    line = "show %d %d %s %d" % (rtype, rclass, digits(octets), begin)
    return line.encode(), text.decode() if text is not None else None


def digits(octets):
    """Octets as they are in a line."""
    return octets.hex() or "-"


def generic(octets, count=None):
    """Data of any type (RFC 3597, 5)."""
    return b"\\# %d %s" % (len(octets) if count is None else count, octets.hex().encode()) if octets else b"\\# 0"


def both(rtype, text, octets):
    """The rows of data both ways."""
    return [read(rtype, text, octets), show(rtype, octets, text)]


def worked(kinds):
    """Texts and octets of the fields."""
    return [KINDS[it][0] for it in kinds]


def octets_of(fields):
    """The octets of fields one after another."""
    return b"".join(octets for _text, octets in fields)


def text_of(fields):
    """The texts of fields with a space between two; a field may have none."""
    return b" ".join(text for text, _octets in fields if text)


def all_types():
    """Each type and the kinds of its fields."""
    return sorted((FIELDS | OF_OCTETS).items())


def shown(rtype, fields):
    """The text of data of a type in class IN."""
    is_written = all(text is not None for text, _octets in fields)
    return text_of(fields) if is_written else generic(octets_of(fields))


def example_rows():
    """The examples of the RFCs, both ways; texts that are read otherwise; and texts that are refused."""
    for rtype, text, octets in BOTH_WAYS + [(rtype, text, bytes.fromhex(it)) for rtype, text, it in DIGESTS]:
        yield from both(rtype, text, octets)
    for text, octets in ADDRESSES:
        yield from both(AAAA, text, bytes.fromhex(octets))
    yield from (read(AAAA, text, bytes.fromhex(octets)) for text, octets in ADDRESS_READINGS)
    yield from (read(rtype, text, octets) for rtype, text, octets in READINGS)
    yield from (read(rtype, text, fault=(at, reason)) for rtype, text, at, reason in FAULTS)
    yield from (read(AAAA, it.encode(), fault=(0, "Ipv6")) for it in NO_ADDRESSES)
    yield from (read(RRSIG, text, fault=(at, reason)) for text, at, reason in SIGNATURE_FAULTS)
    yield show(MX, b"\x03com\0\0\x0a\x04mail\xc0\0", b"10 mail.com.", begin=5)
    yield read(NS, b"a." * 127, b"\x01a" * 127 + b"\0")
    yield read(NS, b"a." * 128, fault=(0, "Name"))
    for rtype in (1, 33):  # of class IN alone
        yield show(rtype, b"\x0a\0\0", b"\\# 3 0a0000", rclass=3)
        yield read(rtype, b"\\# 3 0a0000", b"\x0a\0\0", rclass=3)
        yield read(rtype, b"\\# 1 00", b"\0", rclass=3)
        yield read(rtype, b"10.0.0.1", rclass=3, fault=(0, "OnlyGeneric"))


def word_rows(rtype, kinds):
    """Words of data left out, twice, replaced by others, and one more than there are."""
    fields = worked(kinds)
    texts = [text for text, _octets in fields]
    yield from both(rtype, text_of(fields), octets_of(fields))
    for place, kind in enumerate(kinds):
        before = b" ".join(texts[:place])
        at = len(before) + 1 if place else 0
        fault = (len(before), "MissingWord") if place == len(kinds) - 1 else None
        octets = octets_of(fields[:place]) if kind in "oO" else None
        yield read(rtype, b" ".join(texts[:place] + texts[place + 1:]), octets, fault=fault)
        yield read(rtype, b" ".join(texts[:place] + 2 * texts[place:place + 1] + texts[place + 1:]))
        for wrong in KINDS[kind][2]:
            changed = b" ".join(texts[:place] + [wrong] + texts[place + 1:])
            yield read(rtype, changed, fault=(at, KINDS[kind][1]))
    whole = text_of(fields)
    extra = None if kinds[-1] in "ShbBO" else (len(whole) + 1, "ExtraWord")
    yield from (read(rtype, whole + b" " + it, fault=extra) for it in (b"00", b'""', b"x.", b"\\# 0", b"AA=="))


def number_rows(rtype, kinds):
    """Numbers at and past their limits, and with zeros before their digits."""
    fields = worked(kinds)
    for place, kind in enumerate(kinds):
        if kind not in SIZES_OF_NUMBERS:
            continue
        size, before = SIZES_OF_NUMBERS[kind], text_of(fields[:place])
        limit = 256**size
        for value in (0, 1, limit // 2 - 1, limit // 2, limit - 1, limit, limit + 1, 10 * limit, 2**64, 2**64 + 1):
            for text in (b"%d" % value, b"00%d" % value):
                changed = text_of(fields[:place] + [(text, b"")] + fields[place + 1:])
                if value >= limit:
                    yield read(rtype, changed, fault=(len(before) + 1 if place else 0, "Number"))
                    continue
                octets = octets_of(fields[:place]) + value.to_bytes(size, "big") + octets_of(fields[place + 1:])
                yield read(rtype, changed, octets)
                if text == b"%d" % value:
                    yield show(rtype, octets, changed)
        yield read(rtype, text_of(fields[:place] + [(b"0" * 30 + b"7", b"")] + fields[place + 1:]))


OTHER_MARKS = (b"\\#%d %s", b"\\35 %d %s", b"\\035 %d %s", b'"\\#" %d %s', b"# %d %s", b'\\# %d "%s"', b"\\\\# %d %s")


def mark_rows(rtype, kinds):
    """Data after the mark (RFC 3597, 5): digits of either case, in several words, of another count, no such data."""
    octets = octets_of(worked(kinds))
    whole, hexed = len(octets), octets.hex().encode()
    yield read(rtype, generic(octets), octets)
    yield read(rtype, b"\\# %d %s" % (whole, hexed.upper()), octets)
    yield read(rtype, b"\\# %05d %s\t%s ; end" % (whole, hexed[:2], hexed[2:]), octets)
    yield read(rtype, b"\\# %d %s %s" % (whole, hexed[:1], hexed[1:]), fault=(4 + len(b"%d" % whole), "Base16"))
    yield from (read(rtype, generic(octets, whole + it), fault=(3, "OctetCount")) for it in (-1, 1))
    yield read(rtype, b"\\# %d" % whole, fault=(3, "OctetCount"))
    yield read(rtype, b"\\#", fault=(2, "MissingWord"))
    yield from (read(rtype, generic(it)) for it in (b"", octets[:1], octets[:-1], octets + b"\0", octets + b"\xff"))
    yield from (read(rtype, text % (whole, hexed)) for text in OTHER_MARKS)
    for count in (b"x", b"65536", b"-1", b"4294967300", b'"1"', b"\\049"):
        yield read(rtype, b"\\# %s %s" % (count, hexed), fault=(3, "Number"))
    if "n" in kinds:
        yield from compressed_mark_rows(rtype, kinds)


def compressed_mark_rows(rtype, kinds):
    """Names after `\\#` that are compressed, have labels of other kinds, or have too many octets."""
    fields, place = worked(kinds), kinds.index("n")
    names = (b"\xc0\0", b"\x01a\xc0\0", b"\xc0\x0c", b"\x40\0", b"\x80", b"\x01", b"\x40" + b"a" * 64 + b"\0")
    for name in (*names, 127 * b"\x01a" + b"\0", 127 * b"\x01a" + b"\x01\0"):
        octets = octets_of(fields[:place]) + name + octets_of(fields[place + 1:])
        is_name = name == 127 * b"\x01a" + b"\0"
        yield read(rtype, generic(octets), octets if is_name else None, fault=(0, "NotData"))


def class_rows(rtype, kinds):
    """Data in other classes: CHAOS, NONE, ANY, and one for private use."""
    octets = octets_of(worked(kinds))
    for rclass in (CHAOS, 4, NONE, ANY, PRIVATE, 65535, 0):
        if rtype in FIELDS:
            yield read(rtype, text_of(worked(kinds)), rclass=rclass)
        yield read(rtype, generic(octets), octets, rclass=rclass)
        yield read(rtype, generic(octets[:-1]), rclass=rclass)
        yield show(rtype, octets, rclass=rclass)
        yield show(rtype, octets[:-1], rclass=rclass)
        yield show(rtype, b"", rclass=rclass)


def cut_rows(rtype, kinds):
    """Data cut at each octet, an octet too many, and data behind other octets."""
    octets = octets_of(worked(kinds))
    yield show(rtype, octets, shown(rtype, worked(kinds)))
    yield show(rtype, b"\0\xff\x01" + octets, shown(rtype, worked(kinds)), begin=3)
    yield from (show(rtype, octets[:at]) for at in range(len(octets)))
    yield from (show(rtype, octets + it) for it in (b"\0", b"\x01", b"\xff"))
    yield show(rtype, octets, begin=1)
    yield show(rtype, octets, begin=len(octets))


# Names before the data: com. at 0 and ab.com. at 5; names with pointers to these, and the names that they are.
BEFORE = b"\x03com\0\x02ab\xc0\0"
POINTERS = (
    (b"\xc0\0", b"com.", b"\x03com\0"),
    (b"\xc0\x05", b"ab.com.", b"\x02ab\x03com\0"),
    (b"\xc0\x04", b".", b"\0"),
    (b"\x01x\xc0\x05", b"x.ab.com.", b"\x01x\x02ab\x03com\0"),
)


def with_name(kinds, name):
    """The octets of data, all of whose names are this one."""
    return b"".join(name if kind == "n" else KINDS[kind][0][1] for kind in kinds)


def pointer_rows(rtype, kinds):
    """Names with pointers: to names before the data, to themselves, onwards, past the end, cut (RFC 1035, 4.1.4)."""
    at = len(BEFORE)
    for pointer, text, name in POINTERS:
        fields = [(text, name) if kind == "n" else KINDS[kind][0] for kind in kinds]
        octets = with_name(kinds, pointer)
        yield show(rtype, BEFORE + octets, shown(rtype, fields), begin=at)
        yield show(rtype, BEFORE + octets + b"\0", begin=at)
    octets = with_name(kinds, b"\xc0\0")
    yield from (show(rtype, BEFORE + octets[:cut], begin=at) for cut in range(len(octets)))
    first = at + len(octets_of(worked(kinds[: kinds.index("n")])))
    for target in (first, first + 1, first + 2, first - 1, 0x3fff, at, 6, 8):
        pointer = struct.pack("!H", 0xc000 + target)
        for name in (pointer, b"\x01x" + pointer, b"\x80\0", b"\x40\x01a\0", b"\xc0"):
            yield show(rtype, BEFORE + with_name(kinds, name), begin=at)


def labels_of(size):
    """Labels of that many octets with those of their lengths."""
    lengths = [63] * (size // 64) + [size % 64 - 1] * (size % 64 > 1)
    lengths = lengths if size % 64 != 1 else lengths[1:] + [62, 1]
    return [b"abcdefgh"[it:it + 1] * length for it, length in enumerate(lengths)]


def wire(labels):
    """Labels or strings, each behind its length."""
    return b"".join(bytes([len(it)]) + it for it in labels)


def long_name_rows():
    """Names of 253 to 257 octets, written at once and by pointers, and labels of 62 to 65 octets."""
    for size in range(253, 258):
        labels = labels_of(size - 1)
        text, octets = b"".join(it + b"." for it in labels), wire(labels) + b"\0"
        assert len(octets) == size
        fits = size <= 255
        yield read(NS, text, octets if fits else None, fault=(0, "Name"))
        yield read(MX, b"7 " + text, b"\0\x07" + octets if fits else None, fault=(2, "Name"))
        yield read(SOA, b"%s %s 1 2 3 4 5" % (text, text))
        for rtype, kinds in all_types():
            if "n" in kinds:
                fields = [(text, octets) if kind == "n" else KINDS[kind][0] for kind in kinds]
                yield show(rtype, octets_of(fields), shown(rtype, fields) if fits else None)
        for count in range(1, len(labels)):
            before, after = wire(labels[count:]) + b"\0", wire(labels[:count]) + b"\xc0\0"
            yield show(NS, before + after, text if fits else None, begin=len(before))
            yield show(MX, before + b"\0\x07" + after, b"7 " + text if fits else None, begin=len(before))
    for size in range(62, 66):
        fits = size < 64
        for label in (b"a", b"\\a", b"\\097", b"\\."):
            octets = b"." if label == b"\\." else b"a"
            yield read(NS, label * size + b".", wire([octets * size]) + b"\0" if fits else None, fault=(0, "Name"))
            name = wire([b"b", octets * size, b"c"]) + b"\0" if fits else None
            yield read(NS, b"b." + label * size + b".c.", name, fault=(0, "Name"))
        yield show(NS, bytes([size]) + b"a" * size + b"\0", b"a" * size + b"." if fits else None)
    for count in (126, 127, 128):
        yield read(CNAME, b"a." * count, wire([b"a"] * count) + b"\0" if count < 128 else None, fault=(0, "Name"))


def chain_rows():
    """Chains of pointers: a name is read through at most 255, each to an offset before its own."""
    for count in (1, 2, 127, 128, 253, 254, 255, 256, 257, 300):
        chain = b"\0" + b"".join(struct.pack("!H", 0xc000 + max(0, 2 * it - 1)) for it in range(count - 1))
        last = struct.pack("!H", 0xc000 + max(0, 2 * count - 3))
        line, _told = show(NS, chain + last, begin=len(chain))
        yield line, "." if count <= 255 else "err Name/TooManyPointers"
    for labels in (1, 2, 126, 127):
        loop = b"\x01a" * labels
        yield show(NS, loop + b"\xc0\0", begin=0)
        yield show(NS, loop + b"\xc0\x02", begin=0)
        yield show(NS, loop + b"\0" + b"\xc0\0", b"a." * labels, begin=len(loop) + 1)


def octet_in_name(octet):
    """An octet as it is shown in a name."""
    it = bytes([octet])
    if it in b'.\\;"()@$ ':
        return b"\\" + it
    return it if 32 < octet < 127 else b"\\%03d" % octet


def octet_in_string(octet):
    """An octet as it is shown between quotes."""
    it = bytes([octet])
    if it in b'"\\':
        return b"\\" + it
    return it if 32 <= octet < 127 else b"\\%03d" % octet


# Numbers of octets that are none, or have other digits after them (RFC 1035, 5.1).
BAD_NUMBERS = (
    b"\\256", b"\\299", b"\\300", b"\\999", b"\\1", b"\\12", b"\\0", b"\\1a", b"\\12a", b"\\1a2", b"\\2 5",
    b"\\\\255", b"\\+12",
)


# Texts with an octet in a name, in a string with and without quotes, and in octets to the end.
PLACES_OF_OCTETS = (
    (NS, b"%s."), (CNAME, b"a%sb.c."), (TXT, b"%s"), (TXT, b'"%s"'), (TXT, b"a%sb"), (URI, b'1 2 "%s"'),
)


def octet_rows():
    """Each octet in names, strings and the octets to the end: itself, after a backslash and by its number."""
    for octet in range(256):
        it = bytes([octet])
        in_name, in_string = octet_in_name(octet), octet_in_string(octet)
        yield from both(NS, in_name + b".", b"\x01" + it + b"\0")
        yield show(CNAME, b"\x03a" + it + b"b\x01c\0", b"a" + in_name + b"b.c.")
        yield from both(TXT, b'"' + in_string + b'"', b"\x01" + it)
        yield show(HINFO, b"\x03a" + it + b"b\0", b'"a' + in_string + b'b" ""')
        yield from both(CAA, b'0 a "' + in_string + b'"', b"\0\x01a" + it)
        for word in (it, b"\\" + it):
            yield from (read(rtype, text % word) for rtype, text in PLACES_OF_OCTETS)
        word = b"\\%03d" % octet
        yield read(NS, word + b".", b"\x01" + it + b"\0")
        yield read(CNAME, b"a%sb.c." % word, b"\x03a" + it + b"b\x01c\0")
        yield read(TXT, word, b"\x01" + it)
        yield read(TXT, b'"a%sb"' % word, b"\x03a" + it + b"b")
        yield read(URI, b'1 2 "%s"' % word, b"\0\x01\0\x02" + it)
        yield read(MX, b"1" + it + b"2 a.")
        yield read(OPENPGPKEY, b"Zm" + it + b"9v")
        yield read(DS, b"1 2 3 0" + it + b"a0")
        yield show(CAA, b"\0\x01" + it + b"x")
    for word in BAD_NUMBERS:
        yield read(NS, word + b".")
        yield read(NS, b"a" + word + b"b.c.")
        yield from (read(TXT, text % word) for text in (b"%s", b'"%s"', b'"a%sb"', b"a%sb"))


def length_rows():
    """Strings and tags about 255 octets, and data of 65,535 octets and of one more (RFC 1035, 3.2.1 and 3.3)."""
    for size in (0, 1, 254, 255, 256, 257):
        fits = size < 256
        for word in (b"a", b"\\a", b"\\097", b"\\\\", b"\\;"):
            octets = (b"\\" if word == b"\\\\" else b";" if word == b"\\;" else b"a") * size
            told = bytes([size]) + octets if fits else None
            yield read(TXT, b'"' + word * size + b'"', told, fault=(0, "CharString"))
            yield read(HINFO, b'"" "' + word * size + b'"', b"\0" + told if fits else None, fault=(3, "CharString"))
            yield read(URI, b'0 0 "' + word * size + b'"', bytes(4) + octets)
        if size:
            told = bytes([size]) + b"a" * size if fits else None
            yield read(CAA, b"0 " + b"a" * size + b' ""', b"\0" + told if fits else None, fault=(2, "Tag"))
            yield read(TXT, b"a" * size, told, fault=(0, "CharString"))
    strings = [b"a" * 255] * 255
    yield read(TXT, b" ".join(strings + [b"b" * 254]), (b"\xff" + b"a" * 255) * 255 + b"\xfe" + b"b" * 254)
    yield read(TXT, b" ".join(strings + [b"b" * 255]))


def address_text(groups):
    """An IPv6 address as it is shown (RFC 5952, 4)."""
    runs = [(end - begin, -begin) for begin in range(8) for end in range(begin + 2, 9) if not any(groups[begin:end])]
    words = [b"%x" % it for it in groups]
    if not runs:
        return b":".join(words)
    length, begin = max(runs)
    return b":".join(words[:-begin]) + b"::" + b":".join(words[-begin + length:])


def address_rows():
    """IPv6 addresses with all positions of zeros, and texts of addresses (RFC 4291, 2.2; RFC 5952, 2 and 4)."""
    for shape in range(256):
        for group in (1, 0x10, 0xabc, 0xffff):
            groups = [group if shape & 128 >> it else 0 for it in range(8)]
            octets = struct.pack("!8H", *groups)
            text = address_text(groups)
            yield from both(AAAA, text, octets) if group == 1 else [show(AAAA, octets, text)]
    for before in range(8):
        for after in range(8 - before):
            front, back = range(1, before + 1), range(1, after + 1)
            text = b":".join(b"%x" % it for it in front) + b"::" + b":".join(b"%x" % it for it in back)
            yield read(AAAA, text, struct.pack("!8H", *front, *[0] * (8 - before - after), *back))
            text += (b":" if after else b"") + b"1.2.3.4"
            fits = before + after < 6
            octets = struct.pack("!6H", *front, *[0] * (6 - before - after), *back) if fits else b""
            yield read(AAAA, text, octets + b"\x01\x02\x03\x04" if fits else None, fault=(0, "Ipv6"))
    whole = b"1:2:3:4:5:6:7:8"
    for at in range(len(whole) + 1):
        for it in (b":", b"::", b"0", b".", b"g", b"\\", b"%", b"-", b"+", b" "):
            yield read(AAAA, whole[:at] + it + whole[at:])
        yield read(AAAA, whole[:at] + whole[at + 1:])
        yield read(AAAA, whole[:at] + b"9" * 4 + whole[at:])
    for text in ADDRESS_TEXTS.split():
        yield read(AAAA, text)
    for text in IPV4_TEXTS.split():
        yield read(1, text)
        yield read(AAAA, b"::" + text)
        yield read(105, b"1 " + text)
    for octet in range(256):
        yield from both(1, b"%d.0.%d.7" % (octet, 255 - octet), bytes([octet, 0, 255 - octet, 7]))


ADDRESS_TEXTS = (
    b"ABCD:EF01:2345:6789:ABCD:EF01:2345:6789 2001:DB8:0:0:8:800:200C:417A FF01:0:0:0:0:0:0:101 0:0:0:0:0:0:0:1 "
    b"0:0:0:0:0:0:0:0 FF01::101 ::1 :: 0:0:0:0:0:0:13.1.68.3 ::13.1.68.3 2001:0DB8:0000:CD30:0000:0000:0000:0000 "
    b"2001:0DB8:0:CD3/60 2001:0DB8::CD30/60 2001:db8::1 2001:db8:0:0:1:0:0:1 2001:0db8:0:0:1:0:0:1 "
    b"2001:db8::0:1:0:0:1 2001:db8::aaaa:0:0:1 2001:db8:0:0:0::1 2001:db8:0:0::1 2001:db8:0::1 2001:db8::aaaa "
    b"2001:DB8::AAAA 2001:dB8::aAaA [2001:db8::1] 2001:db8::1:80 fe80::1%eth0 fe80::1%1 64:ff9b::192.0.2.33 "
    b"::ffff:192.0.2.1 ::ffff:c000:201 1::1.2.3.4 1:2:3:4:5:6:1.2.3.4 1:2:3:4:5:1.2.3.4 1:2:3:4:5:6:7:1.2.3.4 "
    b"::1.2.3.4.5 ::1.2.3 ::01.2.3.4 ::1.2.3.04 ::001.002.003.004 ::1.2.3.256 ::1.2.3.-4 ::.1.2.3 ::1..2.3 "
    b"1.2.3.4:: 1.2.3.4::1 1:1.2.3.4:2 ::1.2.3.4: :1.2.3.4 1.2.3.4 00000:: ::00000 ::0000 "
    b"0000:0000:0000:0000:0000:0000:0000:0000 ::fffff ::FfFf :::1 1::: 1:::2 ::: :::: : :1 1: 1 1:2 "
    b"1::2:3:4:5:6:7:8 1:2:3:4:5:6:7::8 1:2:3:4:5:6:7:8:: ::1:2:3:4:5:6:7:8 1:2:3:4::5:6:7:8 1:2:3::4:5:6:7:8:9 "
    b"::- \"::1\" \\::1 0x1::"
)
IPV4_TEXTS = (
    b"0.0.0.0 255.255.255.255 256.0.0.0 0.0.0.256 1.2.3.4 01.02.03.04 001.002.003.004 0001.2.3.4 0000000001.2.3.4 "
    b"1.2.3 1.2.3. 1.2.3.4. .1.2.3.4 1..3.4 1.2.3.4.5 1 16909060 0x1.2.3.4 1.2.3.x -1.2.3.4 +1.2.3.4 1.2.3.4/8 "
    b"1.2.3,4 1:2.3.4 \"1.2.3.4\" \\1.2.3.4 \\049.2.3.4 1.2.3.999 1.2.3.18446744073709551617 1.2.3.4%1 a.b.c.d "
    b"1.2.3.4h 300.1.1.1 08.09.010.0377"
)


YEARS = (1970, 1972, 1999, 2000, 2004, 2024, 2038, 2096, 2099, 2100, 2104, 2105)
SECONDS = (0, 1, 59, 86399, 951782399, 951782400, 951868800, 2**31 - 1, 2**31, 4107542399, 4107542400, 2**32 - 1)


def time_rows():
    """Points in time (RFC 4034, 3.2): about leap days, ends of months, 1970, 2038 and 2106."""
    line = b"A 5 3 86400 %s 0 2642 . Zm9v"
    octets = b"\0\x01\x05\x03\0\x01\x51\x80%s\0\0\0\0\x0a\x52\0foo"
    for year, month, day in itertools.product(YEARS, range(1, 13), (1, 28, 29, 30, 31)):
        is_day = day <= calendar.monthrange(year, month)[1]
        text = b"%04d%02d%02d235959" % (year, month, day)
        seconds = calendar.timegm((year, month, day, 23, 59, 59)) if is_day else None
        yield read(RRSIG, line % text, octets % struct.pack("!I", seconds) if is_day else None, fault=(12, "Time"))
    for text in TIMES.split():
        yield read(RRSIG, line % text)
        yield read(24, b"A 5 3 86400 0 %s 2642 . Zm9v" % text)
    for seconds in SECONDS:
        yield from both(RRSIG, line % b"%d" % seconds, octets % struct.pack("!I", seconds))


TIMES = (
    b"19700101000000 19691231235959 19700101000001 20380119031407 20380119031408 21060207062815 21060207062816 "
    b"21060207062914 21060207072815 21060208000000 21060301000000 21070101000000 99991231235959 00000101000000 "
    b"00010101000000 20240229000000 20230229000000 20240230000000 20240001000000 20241301000000 20240100000000 "
    b"20240132000000 20240431000000 20240101240000 20240101236000 20240101235960 20161231235960 20240101235961 "
    b"2024010100000 202401010000000 2024-01-01000 0 00 0000000000 4294967295 4294967296 04294967295 "
    b"00004294967295 00000000000000 00000000000001 10000000000 1234567890123 -1 +1 1h 20240101T00000 "
    b"\"20240101000000\" \\20240101000000 2024010100000x 20240101-00000 18446744073709551616 20241231235959 "
    b"20000229235959 20000301000000 21000228235959 21000301000000"
)


TYPE_TEXTS = (
    b"TYPE65536", b"TYPE4294967297", b"TYPE00001", b"type1", b"tYpE1", b"TYPE", b"TYPE-1", b"TYPE+1", b"TYPE1x",
    b"TYPE 1", b"1", b"*", b"**", b"CLASS1", b"IN", b"TYPEA", b"NSAP_PTR", b"NSAPPTR", b"NSAP-PTR", b"RESERVED0",
    b"NONE", b"A\0", b"A\x80", b"\\A", b'"A"', b"TYPE\\049", b"TYPE", b"0", b"1", b"NSEC-3", b"UNKNOWN", b"XXXX",
    b"NB", b"NBSTAT",
)


def type_rows():
    """Types by mnemonic and by number, in any case (RFC 3597, 5)."""
    tail, octets = b" 5 3 86400 1 0 2642 . Zm9v", b"\x05\x03\0\x01\x51\x80\0\0\0\x01\0\0\0\0\x0a\x52\0foo"
    for rtype in [*range(301), *range(32766, 32772), *range(65279, 65282), 65534, 65535]:
        text = (TYPES.get(rtype) or "TYPE%d" % rtype).encode()
        start = struct.pack("!H", rtype)
        yield show(RRSIG, start + octets, text + tail)
        yield read(RRSIG, b"TYPE%d" % rtype + tail, start + octets)
        if rtype in TYPES:
            yield from (read(RRSIG, it + tail, start + octets) for it in (text, text.lower(), text.swapcase().title()))
            yield read(24, text + b"x" + tail)
    for text in TYPE_TEXTS:
        yield read(RRSIG, text + tail)


BASE64_TEXTS = (
    b"", b"=", b"==", b"===", b"====", b"A", b"AA", b"AAA", b"A===", b"AA=A", b"AA==AA==", b"AA== AA==", b"AAA=A",
    b"AAAA=", b"AAAA==", b"AAAA====", b"AB==", b"AAB=", b"AA =\t=", b"A A\nA\r\nA", b"AAAA ; c\nAAAA", b"AAAA;AAAA",
    b"AAAA;=", b"AA;==\n==", b"\\065AAA", b"\\AAAA", b'"AAAA"', b'AAAA "AAAA"', b"(AAAA)", b"AA\x80A", b"AA\0A",
)


HASH_TEXTS = (
    b"0", b"1", b"00", b"01", b"02", b"03", b"04", b"08", b"0g", b"000", b"0000", b"0001", b"0008", b"000g", b"00000",
    b"00001", b"00002", b"000000", b"0000000", b"0000001", b"0000004", b"0000008", b"00000000", b"000000000",
    b"0000000000", b"0000000001", b"vvvvvvvv", b"VVVVVVVV", b"vs", b"vv", b"vvvg", b"vvvu", b"vvvvu", b"vvvvv",
    b"vvvvvvo", b"vvvvvvs", b"wwwwwwww", b"W0", b"z0", b"Z0", b"/0", b":0", b"@0", b"[0", b"`0", b"{0", b"-0", b"--",
    b"00==", b"00======", b"==", b"co======", b'""', b'"00"', b"\\00", b"\\0480", b"0\x800", b"0\0", b"00;", b"00 ;00",
    b"0x00", b"CO", b"Co", b"cO",
)


SALT_TEXTS = (
    b"-", b"--", b"a", b"aa", b"aA", b"aab", b"aabb", b"aa bb", b"-aa", b"aa-", b"- -", b"", b'""', b'"-"', b"\\-",
    b"\\045", b"0x", b"gg", b"aa;bb", b"aa ;bb",
)


def encoded_rows():
    """Octets in base64 and in hexadecimal, salts, and words of these (RFC 4648, 3, 4 and 8; RFC 5155, 3.3)."""
    for size in range(9):
        octets = bytes(range(250, 250 + 6)) + bytes([0, 1, 2])
        text = base64.b64encode(octets[:size])
        if size:
            yield from both(OPENPGPKEY, text, octets[:size])
            yield from (read(OPENPGPKEY, text[:at] + b" " + text[at:], octets[:size]) for at in range(1, len(text)))
            for at, it in itertools.product(range(len(text) + 1), (b"=", b"A", b"-", b"\\", b'"', b"\n")):
                yield read(OPENPGPKEY, text[:at] + it + text[at:])
            yield from (read(OPENPGPKEY, text[:at] + text[at + 1:]) for at in range(len(text)))
            yield read(OPENPGPKEY, text.rstrip(b"="))
    for letter in b"ABCDEFGHIJKLMNOPQRSTUVWXYZabcdefghijklmnopqrstuvwxyz0123456789+/":
        yield from (read(49, text % letter) for text in (b"Z%c==", b"Zm%c=", b"Zm9%c", b"Z%c= ="))
    for text in BASE64_TEXTS:
        yield from (read(rtype, front + text) for rtype, front in ((OPENPGPKEY, b""), (49, b""), (DNSKEY, b"1 2 3 ")))
    for text in SALT_TEXTS:
        yield from (read(rtype, b"1 2 3 " + text) for rtype in (NSEC3PARAM, DS, 63))
    for size in (0, 1, 2, 254, 255):
        salt = bytes(range(size))
        yield from both(NSEC3PARAM, b"1 0 9 " + (salt.hex().encode() or b"-"), b"\x01\0\0\x09" + bytes([size]) + salt)
        yield read(NSEC3PARAM, b"1 0 9 " + salt.hex().upper().encode())
    yield read(NSEC3PARAM, b"1 0 9 " + b"aa" * 256, fault=(6, "CountedBase16"))


def hash_text(octets):
    """Octets as they are shown in base32hex (RFC 4648, 7; RFC 5155, 3.3)."""
    return base64.b32hexencode(octets).rstrip(b"=").lower()


def hash_rows():
    """Octets in base32hex, each digit in each place, and words that have none (RFC 4648, 7; RFC 5155, 3.3)."""
    front, before = b"1 0 9 - ", b"\x01\0\0\x09\0"
    for text in HASH_TEXTS:
        yield read(NSEC3, front + text)
        yield read(NSEC3, front + text + b" NS")
    for size in (*range(1, 22), 32, 63, 64, 128, 253, 254, 255):
        for octets in (bytes(range(size)), bytes(range(251, 251 - size, -1)) if size < 252 else b"\xff" * size):
            text = hash_text(octets)
            whole = before + bytes([size]) + octets
            yield from both(NSEC3, front + text, whole)
            yield read(NSEC3, front + text.upper() + b" A", whole + b"\0\x01\x40")
            yield from (read(NSEC3, front + text[:-1] + it) for it in (b"", b"1", b"v", b"=", b"w"))
            yield read(NSEC3, front + text + b"0")
    yield from (read(NSEC3, front + b"0" * it, fault=(8, "CountedBase32")) for it in (409, 410, 411, 416))
    for octet in range(256):
        word = bytes([octet])
        yield from both(NSEC3, front + hash_text(word), before + b"\x01" + word)
        for at in range(5):
            octets = bytes(at) + word + bytes(4 - at)
            yield show(NSEC3, before + b"\x05" + octets, front + hash_text(octets))
        yield from (read(NSEC3, front + it) for it in (word + b"0000000", b"000" + word + b"0000", b"0000000" + word))
    yield from (show(NSEC3, before + it) for it in (b"", b"\0", b"\0\0\x01\x40", b"\x02a", b"\xff" + bytes(254)))


def bitmaps_of(types):
    """The bitmaps of types (RFC 4034, 4.1.2)."""
    windows = {}
    for rtype in types:
        bitmap = windows.setdefault(rtype // 256, bytearray(32))
        bitmap[rtype % 256 // 8] |= 128 >> rtype % 8
    shown = [(window, bytes(bitmap).rstrip(b"\0")) for window, bitmap in sorted(windows.items())]
    return b"".join(bytes([window, len(bitmap)]) + bitmap for window, bitmap in shown)


def types_text(types):
    """Types as they are shown."""
    return b" ".join((TYPES.get(it) or "TYPE%d" % it).encode() for it in sorted(types))


# Sets of types: at the limits of octets, bitmaps and windows, and of several windows.
TYPE_SETS = (
    (0,), (1,), (7,), (8,), (15, 16), (0, 7, 8), (255,), (256,), (255, 256), (0, 255, 256, 511), (1, 46, 47),
    (1, 2, 6, 15, 16, 28, 46, 47, 48), (257, 32768, 32769), (65280,), (65535,), (0, 65535), (32767, 32768),
    (511, 512, 1023, 1024), tuple(range(256)), tuple(range(8, 16)), tuple(range(1, 65536, 255)), (248, 249, 250, 251),
    (1, 513, 1025), tuple(256 * it for it in range(256)), tuple(range(240, 272)), (41, 249, 250, 251, 252, 253, 254),
)
# Blocks that no types have: empty, with zeros at the end, in another order, twice, too long, and cut (RFC 4034, 4.1.2).
NO_BITMAPS = (
    b"\0", b"\0\0", b"\0\x01", b"\0\x01\0", b"\0\x02\x40\0", b"\0\x02\0\0", b"\0\x02\x40", b"\0\x01\x40\0",
    b"\0\x01\x40\0\x01\x20", b"\x01\x01\x40\0\x01\x40", b"\0\x21" + bytes(32) + b"\x01", b"\xff\x01\0",
    b"\0\x20" + bytes(32), b"\0\x20\x40" + bytes(31), b"\0\x01\x40\x01\x01\0", b"\0\x01\0\x01\x01\x40",
    b"\0\x01\x40\x01\0", b"\0\0\x01\x01\x40", b"\0\xff" + bytes(255), b"\0\x01\x40\x02\x02\x80\0",
)


def bitmap_rows():
    """Types in bitmaps: each type alone, at limits, in any order, twice, by number, and blocks of no types (RFC 4034,
    4.1.2 and 4.2)."""
    hashed = (NSEC3, b"1 0 9 - 00", b"\x01\0\0\x09\0\x01\0")
    fronts = ((NSEC, b".", b"\0"), hashed, (CSYNC, b"1 2", b"\0\0\0\x01\0\x02"))
    for types in (*TYPE_SETS, *((it,) for it in (*range(300), *range(32760, 32776), *range(65272, 65290)))):
        octets, text = bitmaps_of(types), types_text(types)
        for rtype, front, before in fronts if types in TYPE_SETS else fronts[:1]:
            yield from both(rtype, front + b" " + text, before + octets)
        turned = b" ".join(reversed(text.split()))
        yield read(NSEC, b". " + turned.lower(), b"\0" + octets)
        yield read(NSEC, b". %s\t%s\n" % (text, turned), b"\0" + octets)
        yield read(CSYNC, b"1 2 " + b" ".join(b"TYPE%d" % it for it in types), fronts[2][2] + octets)
    for octets in NO_BITMAPS:
        yield from (show(rtype, before + octets) for rtype, _front, before in fronts)
        yield from (read(rtype, generic(before + octets)) for rtype, _front, before in fronts)
    for at, octet in itertools.product((0, 5, 31), range(256)):
        types = [8 * at + bit for bit in range(8) if octet & 128 >> bit]
        octets = b"\0" + bytes([at + 1]) + bytes(at) + bytes([octet])
        yield show(NSEC, b"\0" + octets, b". " + types_text(types) if octet else generic(b"\0" + octets))
    for text in TYPE_TEXTS:
        yield from (read(rtype, front + b" " + text) for rtype, front, _before in fronts)
        yield read(NSEC, b". A " + text + b" MX")
    yield from (show(rtype, before, front if rtype != NSEC else None) for rtype, front, before in fronts)


def mnemonic_rows():
    """Numbers by mnemonics, which RFC 4034, 2.2 and 5.3, and RFC 4398, 2.2, allow."""
    for text in (b"RSASHA1", b"rsasha256", b"ECDSAP256SHA256", b"ED25519", b"PRIVATEDNS"):
        yield read(DNSKEY, b"256 3 %s Zm9v" % text)
        yield read(DS, b"1 %s 2 00" % text)
        yield read(RRSIG, b"A %s 3 86400 1 0 2642 . Zm9v" % text)
    for text in (b"PKIX", b"SPKI", b"PGP", b"URI", b"OID"):
        yield read(37, b"%s 2 3 Zm9v" % text)
    yield read(DNSKEY, b"ZONE|SEP DNSSEC RSASHA256 Zm9v")


AROUND = (
    b" %s", b"%s ", b"\t%s\t", b"%s\r\n", b"\n%s\n", b"\r\n%s", b"%s\r", b"%s ;", b"%s ; a comment",
    b"; one\n%s ;two\n;three", b"%s ; \" ( \\",
)
MARKS = (b";", b"(", b")", b'"', b"\\", b"\0", b"\x0b", b"\x0c", b"\x7f", b"\x80", b"@", b"$", b"#", b",")
NO_WORDS = (b"", b" ", b"\t\r\n", b";", b"; a comment", b"\n\n", b"\0", b'"', b'""')
SPACES = (
    b"  ", b"\t", b"\n", b"\r\n", b" ; c\n", b" ;\n\t;\n ", b"\r", b"\0", b"\x0b", b"\x0c", b"\xa0", b"", b"\\ ",
    b"()", b" ( ", b"( )",
)


def space_rows(rtype, kinds):
    """White space, comments, quotes and ends of lines about and between the words of data, and texts without words."""
    fields = worked(kinds)
    text, octets = text_of(fields), octets_of(fields)
    for around in AROUND:
        yield read(rtype, around % text, octets)
    for between in SPACES:
        yield read(rtype, between.join(it for it, _octets in fields))
    for mark in MARKS:
        yield from (read(rtype, it) for it in (mark + text, text + mark, mark + b" " + text, text + b" " + mark))
    yield from (read(rtype, it) for it in (b"( " + text + b" )", b'"' + text + b'"', *NO_WORDS))


STRING_TEXTS = (
    b'"', b'""', b'"""', b'""""', b'"a', b'a"', b'a"b', b'"a"b', b'a"b"', b'a"b c"d', b'"a""b"', b'"a" "b"',
    b'"a"\t"b"', b'"\\""', b'"\\"', b'"\\\\"', b'"\\\\\\"', b"\\", b"\\\\", b"\\\\\\", b"a\\", b'a "b\\', b'"b" a\\',
    b'"a;b"', b"a;b", b"a ;b", b"a\\ b", b"\\ ", b"\\\t", b"\\\n", b"\\\r", b'"a\\\nb"', b"a\\\tb", b'"a\tb"',
    b'"a\rb"', b'"a\r\nb"', b'"a\nb"', b"a\nb", b"\\;a", b"\\;", b"\\;;", b"\\034", b"\\034a b\\034", b'"a\\032b"',
    b"\\#", b"\\\\#", b'"\\#"', b"\\035 0", b"a \\# 0", b"\\#0", b"\\# 0;", b"\\# 0 ;", b"\\# 1 00", b"(", b")",
    b"()", b'("a")', b'( "a" )', b"\\(a\\)", b'"(a)"', b"; \"", b"a;\"", b"a ; (", b"$ORIGIN", b"@", b"a\0b", b"\0",
    b"\x80", b'"\x80"', b"\xc3\xa9", b'"\xc3\xa9"', b"\\\xc3\xa9", b"'a b'", b"\\a\\b", b'"a" ; "b"\n"c"', b'";" ;"',
    b'"a"(', b'a "b" (c', b"hex:00", b"hex:", b"hex", b" a", b"a ", b"-", b"a\x7f", b"a\x1b[0m", b"'", b"a'b",
)


NAME_TEXTS = (
    b".", b"..", b"a..", b".a.", b"a..b.", b"a", b"a.b", b"a\\.", b"a\\\\.", b"a\\\\\\.", b"\\..", b"\\.", b"a\\046.",
    b"a\\046", b"*.a.", b"\\*.a.", b"_sip._udp.a.", b"-.", b"A-b.C.", b"@", b"@.", b"\\@.", b"1.2.", b"a.b\\",
    b"\\[.", b"\\[x1/4].", b"a\\[.", b"[.", b"\\091.", b'"a."', b'"a".', b'a".', b"xn--nxasmq6b.", b"a.;b.", b"a;b.",
    b"\\059.", b"a.\\;.", b"a. ;b.", b"\\#.", b"\\# 1 00", b"\xc3\xa9.", b"a\\000b.", b"a\0b.",
)


def string_rows():
    """Texts of strings: quotes, backslashes and comments."""
    for text in STRING_TEXTS:
        yield read(TXT, text)
        yield read(HINFO, text + b" b")
        yield read(HINFO, b"a " + text)
        yield read(URI, b"1 2 " + text)
        yield read(CAA, b"1 a " + text)
        yield read(NS, text + b".")
        yield read(65280, text)
    for text in NAME_TEXTS:
        yield from (read(rtype, front + text) for rtype, front in ((NS, b""), (MX, b"0 "), (SRV, b"1 2 3 ")))


# A text, an offset, and the line and the column there.
PLACES = (
    (b"", 0, 1, 1), (b"10 mail.", 0, 1, 1), (b"10 mail.", 3, 1, 4), (b"10\n mail.", 2, 1, 3), (b"10\n mail.", 3, 2, 1),
    (b"10\r\n\n mail.", 6, 3, 2), (b"\n\n\n", 3, 4, 1), (b"10\nmail.", 8, 2, 6), (b"10\nmail.", 800, 2, 6),
)
# A text and its words, each after its offset.
WORDS = (
    (b" \\#\t\"a b;\\\"c\" \r\n d\\ e;(f) \n f\"g\"",
     "1/5c23 4/226120623b5c226322 17/645c2065 28/66226722"),
    (b"", "none"), (b" ; a", "none"), (b"a", "0/61"), (b"a b", "0/61 2/62"), (b"a;b\nc", "0/61 4/63"),
    (b"a(b", "err 1 Parenthesis"), (b"a \\", "err 3 LoneBackslash"), (b"a \"b", "err 4 OpenQuote"),
    (b"\"a\\", "err 3 OpenQuote"), (b"a) \"", "err 1 Parenthesis"), (b"\\)\"(\"", "0/5c29222822"),
)


def word_and_place_rows():
    """Texts with their words, and offsets with their lines and columns."""
    for text, at, line, column in PLACES:
        yield b"place %d %s" % (at, written(text)), f"{line} {column}"
    for text, words in WORDS:
        yield b"words " + written(text), words
    for text in STRING_TEXTS:
        yield b"words " + written(text), None
        for at in (0, len(text) // 2, len(text)):
            yield b"place %d %s" % (at, written(text)), None


BAD_LINES = (
    b"words", b"words hex:0", b"place", b"place 1", b"place x a", b"place -1 a",
    b"read", b"read 1", b"read 1 1", b"read x 1 1.2.3.4", b"read 65536 1 1.2.3.4", b"read 1 65536 1.2.3.4",
    b"read 1 -1 1.2.3.4", b"read 1 1 hex:0", b"read 1 1 hex:0g", b"show", b"show 1 1 00", b"show 1 1 0 0",
    b"show 1 1 0g 0", b"show 1 1 00 2", b"show 1 1 - 1", b"show 1 1 00 x", b"show 65536 1 00 0", b"show 1 1 00 0 0",
    b"reads 1 1 1.2.3.4", b"1 1 1.2.3.4",
)


def bad_rows():
    """Lines that aren't of the table."""
    yield from ((line, "bad") for line in BAD_LINES)


def drawn_octets(draw, most):
    """Octets, most of them letters."""
    letters = b"abcXYZ019-_ .;\"\\()@$\0\x1f\x7f\x80\xff"
    size = draw.randrange(most + 1)
    return bytes(draw.choice(letters) if draw.random() < 0.8 else draw.randrange(256) for _ in range(size))


def drawn_number(draw, size):
    """A number of that many octets, often at a limit."""
    limit = 256**size
    return draw.choice([0, 1, limit - 1, limit // 2, draw.randrange(limit), draw.randrange(300) % limit])


def drawn_name(draw):
    """A name of up to three labels."""
    labels = [drawn_octets(draw, draw.choice([3, 3, 8, 63])) or b"a" for _ in range(draw.choice([0, 1, 1, 2, 2, 3]))]
    text = b"".join(b"".join(map(octet_in_name, it)) + b"." for it in labels)
    return text or b".", wire(labels) + b"\0"


def string_field(octets):
    """Octets as they are shown between quotes."""
    return b'"' + b"".join(map(octet_in_string, octets)) + b'"'


def drawn_plain(draw, kind):
    """A field of a kind without a text."""
    if kind in "68":
        return draw.randbytes(int(kind))
    if kind == "K":
        octets = draw.randbytes(draw.choice([0, 1, 16]))
        return struct.pack("!H", len(octets)) + octets
    if kind == "P":
        keys = sorted(draw.sample(range(10, 65536), draw.choice([0, 1, 2, 3])))
        values = [(key, draw.randbytes(draw.choice([0, 1, 2, 7]))) for key in keys]
        return b"".join(struct.pack("!HH", key, len(value)) + value for key, value in values)
    return draw.randbytes(draw.choice([0, 1, 2, 4, 15]))


def drawn_field(draw, kind):
    """A text of a field and its octets."""
    if kind == "T" or kind in SIZES_OF_NUMBERS:
        size = SIZES_OF_NUMBERS.get(kind, 4)
        value = drawn_number(draw, size)
        return b"%d" % value, value.to_bytes(size, "big")
    if kind == "R":
        value = draw.choice([*TYPES, drawn_number(draw, 2)])
        return (TYPES.get(value) or "TYPE%d" % value).encode(), struct.pack("!H", value)
    if kind == "a":
        octets = draw.randbytes(4)
        return b"%d.%d.%d.%d" % tuple(octets), octets
    if kind == "A":
        groups = [draw.choice([0, 0, draw.randrange(65536), draw.randrange(256)]) for _ in range(8)]
        return address_text(groups), struct.pack("!8H", *groups)
    if kind == "n":
        return drawn_name(draw)
    if kind == "o" and draw.random() < 0.3:
        return b"", b""
    if kind in "soS":
        count = 1 if kind in "so" else draw.choice([1, 1, 2, 3])
        strings = [drawn_octets(draw, draw.choice([4, 12, 40])) for _ in range(count)]
        return b" ".join(map(string_field, strings)), wire(strings)
    if kind == "t":
        tag = bytes(draw.choice(b"abzAZ09") for _ in range(draw.choice([1, 5, 9])))
        return tag, bytes([len(tag)]) + tag
    if kind == "q":
        octets = drawn_octets(draw, 20) or b"x"
        return string_field(octets), octets
    if kind in "hbH":
        octets = draw.randbytes(draw.choice([1, 2, 3, 8, 20, 32]))
        text = base64.b64encode(octets) if kind == "b" else octets.hex().encode()
        return text, (bytes([len(octets)]) if kind == "H" else b"") + octets
    if kind == "X":
        octets = draw.randbytes(draw.choice([1, 2, 3, 4, 5, 20, 20]))
        return hash_text(octets), bytes([len(octets)]) + octets
    if kind in "BO":
        return drawn_types(draw, kind)
    return None, drawn_plain(draw, kind)


def drawn_types(draw, kind):
    """Types and their bitmaps, or bitmaps of which some have a zero at the end."""
    if draw.random() < 0.2:
        windows = sorted(draw.sample(range(256), draw.choice([1, 1, 2, 3])))
        blocks = [(it, draw.randbytes(draw.choice([1, 2, 8, 31])) + draw.choice([b"\0", b"\x01"])) for it in windows]
        octets = b"".join(bytes([window, len(bits)]) + bits for window, bits in blocks)
        if not all(bits[-1] for _window, bits in blocks):
            return None, octets
        return types_text(types_in(blocks)), octets
    count = draw.choice([1, 1, 2, 3, 8, 20] if kind == "B" else [0, 1, 1, 2, 3, 8])
    types = {draw.choice([*TYPES, drawn_number(draw, 2)]) for _ in range(count)}
    return types_text(types), bitmaps_of(types)


def types_in(blocks):
    """The types of blocks."""
    return [256 * window + bit for window, bits in blocks for bit in range(8 * len(bits))
            if bits[bit // 8] & 128 >> bit % 8]


def spelled_octet(draw, octet, is_free):
    """An octet of a name or a string in one of its spellings, as it is where that is free of a meaning."""
    ways = [b"\\%03d" % octet]
    if octet not in b"0123456789":
        ways.append(b"\\" + bytes([octet]))
    if is_free:
        ways += 4 * [bytes([octet])]
    return draw.choice(ways)


def spelled(draw, kind, text, octets):
    """A field in another spelling."""
    if kind in SIZES_OF_NUMBERS and draw.random() < 0.2:
        return b"0" * draw.randrange(1, 4) + text
    if kind == "T" and draw.random() < 0.5:
        moment = datetime.datetime(1970, 1, 1) + datetime.timedelta(seconds=int(text))
        return moment.strftime("%Y%m%d%H%M%S").encode()
    if kind == "R":
        return draw.choice([text.lower(), b"TYPE%d" % struct.unpack("!H", octets)[0], text])
    if kind == "A":
        return draw.choice([text.upper(), b":".join(b"%04x" % it for it in struct.unpack("!8H", octets)), text])
    if kind in "hHX" and draw.random() < 0.5:
        return text.upper()
    if kind in "BO" and text:
        return spelled_types(draw, text)
    if kind == "b" and draw.random() < 0.5:
        at = draw.randrange(len(text))
        return (text[:at] + b" " + text[at:]).strip()
    if kind == "h" and draw.random() < 0.3:
        at = 2 * draw.randrange(len(text) // 2)
        return (text[:at] + b" " + text[at:]).strip()
    if kind == "n" and octets != b"\0" and draw.random() < 0.6:
        return spelled_name(draw, octets)
    if kind in "so" and octets and draw.random() < 0.6:
        return spelled_string(draw, octets[1:])
    return text


def spelled_types(draw, text):
    """Types in another order, some by number, in lower case or twice."""
    numbers = {name.encode(): rtype for rtype, name in TYPES.items()}
    words = text.split()
    draw.shuffle(words)
    words += [draw.choice(words)] * draw.choice([0, 0, 1])
    ways = [(it, it.lower(), b"TYPE%d" % numbers[it] if it in numbers else it) for it in words]
    return b" ".join(draw.choice(it) for it in ways)


def spelled_name(draw, octets):
    """A name in another spelling."""
    text, at = b"", 0
    while octets[at]:
        for octet in octets[at + 1:at + 1 + octets[at]]:
            text += spelled_octet(draw, octet, octet not in b'.\\;"()@$ \t\r\n')
        text, at = text + b".", at + 1 + octets[at]
    return text


def spelled_string(draw, octets):
    """A string in another spelling, with quotes or without."""
    if octets and draw.random() < 0.5:
        return b"".join(spelled_octet(draw, it, it not in b'\\;"() \t\r\n') for it in octets)
    return b'"' + b"".join(spelled_octet(draw, it, it not in b'"\\') for it in octets) + b'"'


def changed(draw, octets):
    """Octets with one of them changed, left out or put in."""
    at = draw.randrange(len(octets) + 1)
    new = bytes([draw.choice([draw.randrange(256), draw.choice(b' "\\.0\0\xc0;a')])])
    return octets[:at] + draw.choice([new, b""]) + octets[at + draw.choice([0, 1]):]


def drawn_rows():
    """Data of all types, drawn from a seed: a third of the rows with an octet changed."""
    draw = random.Random(SEED)
    for number in range(DRAWN):
        rtype, kinds = draw.choice(all_types() if draw.random() < 0.2 else sorted(FIELDS.items()))
        fields = [drawn_field(draw, kind) for kind in kinds]
        octets, is_changed = octets_of(fields), draw.random() < 1 / 3
        if number % 2:
            yield show(rtype, changed(draw, octets)) if is_changed else show(rtype, octets, shown(rtype, fields))
            continue
        if all(text is not None for text, _octets in fields) and draw.random() < 0.9:
            spaces = draw.choice([[b" "], [b" "], [b" ", b"\t", b"  "], [b" ", b"\n", b"\r\n", b" ; c\n"]])
            words = [spelled(draw, kind, *field) for kind, field in zip(kinds, fields)]
            text = b"".join(word + draw.choice(spaces) for word in words if word).strip(b" ")
        else:
            text = generic(octets)
        yield read(rtype, changed(draw, text)) if is_changed else read(rtype, text, octets)


def rows():
    """Each heading and each line, with its answer or None."""
    yield b"# data of the RFCs, both ways, texts that are read otherwise, and texts that are refused", None
    yield from example_rows()
    for heading, of_type, has in (
        ("words left out, twice, replaced, and one too many", word_rows, FIELDS),
        ("numbers at and past their limits", number_rows, FIELDS),
        ("data after the mark of any data", mark_rows, FIELDS | OF_OCTETS),
        ("data in other classes", class_rows, FIELDS | OF_OCTETS),
        ("data cut at each octet, and an octet too many", cut_rows, FIELDS | OF_OCTETS),
        ("names with pointers", pointer_rows, {it: kinds for it, kinds in all_types() if "n" in kinds}),
        ("white space, comments and marks", space_rows, {it: FIELDS[it] for it in SPACED}),
    ):
        yield b"# " + heading.encode(), None
        for rtype, kinds in sorted(has.items()):
            yield from of_type(rtype, kinds)
    for heading, made in (
        ("names and labels at their limits", long_name_rows),
        ("chains of pointers", chain_rows),
        ("each octet in names and strings", octet_rows),
        ("strings, tags and data at their limits", length_rows),
        ("IPv6 and IPv4 addresses", address_rows),
        ("points in time", time_rows),
        ("types by mnemonic and number", type_rows),
        ("base64, hexadecimal digits and salts", encoded_rows),
        ("hashes in base32hex", hash_rows),
        ("types in bitmaps", bitmap_rows),
        ("numbers by mnemonics", mnemonic_rows),
        ("quotes, backslashes and comments", string_rows),
        ("words, lines and columns", word_and_place_rows),
        ("lines that aren't understood", bad_rows),
        ("data that is drawn", drawn_rows),
    ):
        yield b"# " + heading.encode(), None
        yield from made()
