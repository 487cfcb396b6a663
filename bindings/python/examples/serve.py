"""Serves a zone over UDP and TCP on 127.0.0.1: serve.py APEX FILE PORT COUNT.

APEX is the name of the zone, and FILE has its text. With PORT 0 the system chooses one. The first line printed is the port. The server ends
after COUNT queries, or at SIGINT or SIGTERM. Each TCP connection carries any number of queries (RFC 7766), one connection
after another.
"""

import pathlib
import select
import signal
import socket
import struct
import sys

from dnsnames.zone import Zone, ZoneError

HOST = "127.0.0.1"
MAX_MESSAGE = 65535


class Ended(Exception):
    """A signal came."""


def end(number, frame):
    raise Ended


def take(stream, count):
    """That many octets, or None where the connection ends before."""
    octets = b""
    while len(octets) < count:
        got = stream.recv(count - len(octets))
        if not got:
            return None
        octets += got
    return octets


def answer_datagram(zone, udp):
    query, peer = udp.recvfrom(MAX_MESSAGE)
    response = zone.answer(query)
    if response is not None:
        udp.sendto(response, peer)


def answer_stream(zone, tcp, most):
    """Answers the queries of a connection, each behind its two octets of length, and returns how many there were."""
    count = 0
    stream, _ = tcp.accept()
    with stream:
        stream.settimeout(2)
        try:
            while count < most and (size := take(stream, 2)) is not None:
                query = take(stream, struct.unpack("!H", size)[0])
                if query is None:
                    break
                count += 1
                response = zone.answer(query, None)
                if response is None:
                    break
                stream.sendall(struct.pack("!H", len(response)) + response)
        except OSError:
            pass
    return count


def serve(zone, udp, tcp, left):
    while left > 0:
        ready, _, _ = select.select([udp, tcp], [], [])
        if udp in ready:
            answer_datagram(zone, udp)
            left -= 1
        elif tcp in ready:
            left -= answer_stream(zone, tcp, left)


def main(apex, path, port, count):
    try:
        zone = Zone.from_text(pathlib.Path(path).read_bytes(), apex)
    except ZoneError as error:
        sys.exit(f"{path}: {error}")
    signal.signal(signal.SIGINT, end)
    signal.signal(signal.SIGTERM, end)
    with socket.socket(socket.AF_INET, socket.SOCK_DGRAM) as udp, socket.socket() as tcp:
        udp.bind((HOST, int(port)))
        tcp.setsockopt(socket.SOL_SOCKET, socket.SO_REUSEADDR, 1)
        tcp.bind(udp.getsockname())
        tcp.listen()
        print(udp.getsockname()[1], flush=True)
        try:
            serve(zone, udp, tcp, int(count))
        except Ended:
            pass


if __name__ == "__main__":
    main(*sys.argv[1:])
