#!/usr/bin/env python3
"""Writes a response with one MX record, and reads it back.

    answer.py

The zone's name is compressed where it is repeated, in the data too, since names in those of MX may be (RFC 1035).
"""

from dnsnames import Flags, Message, MessageBuilder, Name, Type


def response(zone: Name, ttl: int, preference: int, exchange: Name) -> bytes:
    """The octets of the response (RFC 1035, 4.1).

    >>> response(Name("a"), 60, 10, Name("b.a")).hex(" ", -2)
    '1234 8180 0001 0001 0000 0000 0161 0000 0f00 01c0 0c00 0f00 0100 0000 3c00 0700 0a01 6201 6100'
    """
    builder = MessageBuilder(512, id=0x1234, flags=Flags.QR | Flags.RD | Flags.RA)
    builder.question(zone, Type.MX)
    builder.record("answer", zone, Type.MX, preference.to_bytes(2, "big") + bytes(exchange), ttl)
    return builder.finish()


def main() -> None:
    octets = response(Name("example.com"), 3600, 10, Name("mail.example.com"))
    print(octets.hex())
    for record in Message(octets).answers():
        print(record.name, record.ttl, record.class_, record.type, *record.names_in_data())


if __name__ == "__main__":
    main()
