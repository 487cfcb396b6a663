#!/usr/bin/env python3
"""Writes a query with a client cookie (RFC 7873), as hexadecimal digits, and reads the cookie back.

    ask.py NAME TYPE COOKIE

TYPE is a mnemonic, as MX, and COOKIE has sixteen hexadecimal digits. A client draws a cookie at random for each server,
as by `openssl rand -hex 8`. Status 1 where NAME is no name, TYPE no type, or COOKIE no cookie.
"""

import sys

from dnsnames import EdnsOption, Flags, Message, MessageBuilder

# A program that sends it draws the identifier at random.
ID = 0x1234


def query(name: str, type_: str, cookie: bytes) -> bytes:
    """The octets of the query (RFC 1035, 4.1).

    >>> query("a", "MX", b"8 octets").hex(" ", -2)
    '1234 0100 0001 0000 0000 0001 0161 0000 0f00 0100 0029 04d0 0000 0000 000c 000a 0008 3820 6f63 7465 7473'
    """
    builder = MessageBuilder(512, id=ID, flags=Flags.RD)
    builder.question(name, type_)
    builder.opt(size=1232, options=[EdnsOption.of_cookie(cookie)])
    return builder.finish()


def main() -> int:
    name, type_, cookie = sys.argv[1:]
    try:
        octets = query(name, type_, bytes.fromhex(cookie))
    except ValueError as fault:
        print(fault, file=sys.stderr)
        return 1
    print(octets.hex())
    for record in Message(octets).additional():
        for option in record.options():
            print(f"option {option.code}: {option.data.hex()}")
    return 0


if __name__ == "__main__":
    sys.exit(main())
