#!/usr/bin/env python3
"""Writes a referral of at most so many octets.

    referral.py LIMIT

The name servers, and the address of the one below the zone cut (glue), are required: the first of these RRsets that has
no room sets the flag TC and ends the message (RFC 2181, 9; RFC 9471, 3). The address of the other server is left out
without it.
"""

import sys

from dnsnames import Flags, MessageBuilder, Name, Type


def referral(limit: int) -> bytes:
    """The octets of the referral (RFC 1034, 4.3.2).

    >>> [len(referral(limit)) for limit in (115, 114, 98, 82)]
    [115, 99, 83, 37]
    """
    inside, outside = Name("ns1.sub.example.com"), Name("ns.example.net")
    builder = MessageBuilder(limit, id=0x1234, flags=Flags.QR)
    builder.question("www.sub.example.com", Type.A)
    servers = [bytes(inside), bytes(outside)]
    if builder.push_required("authority", "sub.example.com", Type.NS, servers, ttl=3600) and builder.push_required(
        "additional", inside, Type.A, [bytes([192, 0, 2, 1])], ttl=3600
    ):
        builder.push_extra("additional", outside, Type.A, [bytes([192, 0, 2, 2])], ttl=3600)
    return builder.finish()


def main() -> None:
    print(referral(int(sys.argv[1])).hex())


if __name__ == "__main__":
    main()
