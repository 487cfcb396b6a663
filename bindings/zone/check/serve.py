"""Asks a server of the example zone over UDP and TCP, as dig does: serve.py COMMAND.. is started with APEX FILE PORT COUNT."""

import pathlib
import signal
import socket
import struct
import subprocess
import sys
import tempfile

TEXT = """$TTL 3600
@ SOA ns.example. admin.example. 1 7200 900 1209600 86400
@ NS ns.example.
ns A 192.0.2.1
www A 192.0.2.2
"""


def query(identifier, name, rtype):
    labels = b"".join(bytes([len(it)]) + it.encode() for it in name.rstrip(".").split("."))
    return struct.pack("!6H", identifier, 0x0100, 1, 0, 0, 0) + labels + b"\0" + struct.pack("!2H", rtype, 1)


def head(message):
    return struct.unpack("!6H", message[:12])


def by_udp(port, message):
    with socket.socket(socket.AF_INET, socket.SOCK_DGRAM) as udp:
        udp.settimeout(10)
        udp.sendto(message, ("127.0.0.1", port))
        return udp.recv(65535)


def take(stream, count):
    octets = b""
    while len(octets) < count:
        got = stream.recv(count - len(octets))
        assert got, "the server closed the connection"
        octets += got
    return octets


def by_tcp(port, messages):
    with socket.create_connection(("127.0.0.1", port), 10) as stream:
        for message in messages:
            stream.sendall(struct.pack("!H", len(message)) + message)
            yield take(stream, struct.unpack("!H", take(stream, 2))[0])


def check(told, identifier, rcode, answers, end):
    ident, flags, _, count, _, _ = head(told)
    assert (ident, flags & 0x8400, flags & 15, count) == (identifier, 0x8400, rcode, answers), told.hex()
    assert told.endswith(end), told.hex()


def serve(command, count, ask):
    with tempfile.TemporaryDirectory() as folder:
        path = pathlib.Path(folder, "example.zone")
        path.write_text(TEXT)
        with subprocess.Popen([*command, "example", str(path), "0", str(count)], stdout=subprocess.PIPE, text=True) as server:
            try:
                ask(server, int(server.stdout.readline()))
                return server.wait(20)
            finally:
                server.kill()


def ask_all(server, port):
    check(by_udp(port, query(1, "www.example", 1)), 1, 0, 1, bytes([192, 0, 2, 2]))
    check(by_udp(port, query(2, "none.example", 1)), 2, 3, 0, b"")
    one, two = by_tcp(port, [query(3, "ns.example", 1), query(4, "WWW.Example", 1)])
    check(one, 3, 0, 1, bytes([192, 0, 2, 1]))
    check(two, 4, 0, 1, bytes([192, 0, 2, 2]))


def ask_once(server, port):
    check(by_udp(port, query(5, "www.example", 1)), 5, 0, 1, bytes([192, 0, 2, 2]))
    server.send_signal(signal.SIGTERM)


def main(command):
    assert serve(command, 4, ask_all) == 0
    assert serve(command, 99, ask_once) == 0
    print("4 queries, and an end by a signal")


if __name__ == "__main__":
    main(sys.argv[1:])
