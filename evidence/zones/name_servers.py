"""The name servers of beside_servers.py: how each is set, started and asked. They use one port of loopback.

All are set alike where they let it: the fewest records, 1,232 octets in a datagram, no limit of rate, no cookies."""

import contextlib
import dataclasses
import os
import pathlib
import re
import signal
import socket
import struct
import subprocess
import tempfile
import time

import dns.exception
import dns.flags
import dns.message
import dns.query
import dns.rcode
from dns.rdatatype import SOA

PORT, TRIES, LOADS, ASKS, AT_ONCE = 25300, 3, 60.0, 10.0, 50
SIZE = 1232

NSD = """server:
  ip-address: 127.0.0.1@{port}
  server-count: 1
  username: ""
  zonesdir: "{folder}"
  pidfile: "{folder}/pid"
  xfrdfile: "{folder}/xfrd"
  xfrdir: "{folder}"
  zonelistfile: "{folder}/zones"
  database: ""
  refuse-any: no
  minimal-responses: yes
  confine-to-zone: yes
  ipv4-edns-size: {size}
  rrl-ratelimit: 0
remote-control:
  control-enable: no
"""
NSD_ZONE = """zone:
  name: "{apex}"
  zonefile: "{folder}/{number}"
"""
KNOT = """server:
  listen: 127.0.0.1@{port}
  rundir: {folder}
  udp-workers: 1
  tcp-workers: 1
  background-workers: 1
  udp-max-payload: {size}
database:
  storage: {folder}/database
log:
  - target: stderr
    any: error
template:
  - id: default
    storage: {folder}
    zonefile-load: whole
    zonefile-sync: -1
    journal-content: none
    semantic-checks: off
zone:
"""
KNOT_ZONE = """  - domain: {apex}
    file: "{number}"
"""
# As a secondary it takes name servers in the zone that have no address.
BIND = """options {{
  directory "{folder}";
  listen-on port {port} {{ 127.0.0.1; }};
  listen-on-v6 {{ none; }};
  recursion no;
  minimal-responses yes;
  minimal-any no;
  empty-zones-enable no;
  zero-no-soa-ttl no;
  dnssec-validation no;
  edns-udp-size {size};
  max-udp-size {size};
  nocookie-udp-size {size};
  answer-cookie no;
  notify no;
  pid-file none;
  session-keyfile none;
}};
controls {{ }};
logging {{ category default {{ null; }}; }};
"""
BIND_ZONE = """zone "{apex}" {{
  type secondary;
  primaries {{ 127.0.0.1 port 9; }};
  file "{number}";
  masterfile-format text;
  check-names ignore;
}};
"""


@dataclasses.dataclass
class Server:
    title: str
    config: str
    zone: str
    command: list
    asks_version: list

    def version(self):
        said = subprocess.run(self.asks_version, capture_output=True, text=True, check=False)
        number = re.search(r"\d+(?:\.\d+)+", said.stdout + said.stderr)
        return f"{self.title} {number[0] if number else ''}".strip()


SERVERS = {
    "nsd": Server("NSD", NSD, NSD_ZONE, ["nsd", "-d", "-c", "config"], ["nsd", "-v"]),
    "knotd": Server("Knot DNS", KNOT, KNOT_ZONE, ["knotd", "-c", "config"], ["knotd", "-V"]),
    "named": Server("BIND", BIND, BIND_ZONE, ["named", "-f", "-n", "1", "-c", "config"], ["named", "-v"]),
}


@contextlib.contextmanager
def serving(name, zones):
    """The server with these zones while it runs. It has its own session, so that all its processes end with it."""
    server, quiet = SERVERS[name], subprocess.DEVNULL
    with tempfile.TemporaryDirectory(prefix="servers-", ignore_cleanup_errors=True) as folder:
        pathlib.Path(folder, "database").mkdir()
        config = server.config.format(folder=folder, port=PORT, size=SIZE)
        for number, zone in enumerate(zones):
            pathlib.Path(folder, str(number)).write_text(zone.text)
            config += server.zone.format(folder=folder, apex=zone.apex, number=number)
        pathlib.Path(folder, "config").write_text(config)
        how = {"stdin": quiet, "stdout": quiet, "stderr": quiet, "start_new_session": True}
        process = subprocess.Popen(server.command, cwd=folder, **how)
        try:
            yield process
        finally:
            with contextlib.suppress(ProcessLookupError):
                os.killpg(process.pid, signal.SIGKILL)
            process.wait()


def has_loaded(zone, process):
    """Whether the server answers for the zone in time. One that can't read a zone ends, or never has authority."""
    query, until = dns.message.make_query(zone.apex, SOA), time.monotonic() + LOADS
    refused = 0
    while time.monotonic() < until and process.poll() is None and refused < 50:
        with contextlib.suppress(dns.exception.DNSException, OSError):
            came = dns.query.udp(query, "127.0.0.1", 1.0, PORT)
            if came.rcode() == dns.rcode.NOERROR and came.flags & dns.flags.AA:
                return True
            refused += 1
        time.sleep(0.02)
    return False


def responses(name, zones):
    """The responses of a server to the queries of each zone, or None for a zone that it doesn't load. A port that is
    still held, or a slow start, is tried again."""
    came = {}
    for _ in range(TRIES):
        rest = [it for it in zones if came.get(it.name) is None]
        if rest:
            with serving(name, rest) as process:
                for zone in rest:
                    came[zone.name] = answered(zone) if has_loaded(zone, process) else None
    return [came[it.name] for it in zones]


def answered(zone):
    """The octets of each response."""
    streamed = [it for it in zone.queries if it.form.is_stream]
    return by_stream(streamed) | by_datagram([it for it in zone.queries if not it.form.is_stream])


def by_datagram(queries):
    """The responses to datagrams, several of them sent before the first response is read. What is lost is sent
    again."""
    said = {}
    for _ in range(TRIES):
        rest = [it for it in queries if it not in said]
        for at in range(0, len(rest), AT_ONCE):
            said |= some_by_datagram({it.octets[:2]: it for it in rest[at : at + AT_ONCE]})
    if len(said) < len(queries):
        raise TimeoutError(f"{len(queries) - len(said)} queries without a response")
    return said


def some_by_datagram(queries):
    said = {}
    with socket.socket(socket.AF_INET, socket.SOCK_DGRAM) as it, contextlib.suppress(OSError):
        it.settimeout(ASKS)
        it.connect(("127.0.0.1", PORT))
        for one in queries.values():
            it.send(one.octets)
        while len(said) < len(queries):
            octets = it.recv(65535)
            said[queries[octets[:2]]] = octets
    return said


def by_stream(queries):
    """The responses to queries through one connection, several of them sent before the first response is read."""
    said = {}
    for at in range(0, len(queries), AT_ONCE):
        some = {it.octets[:2]: it for it in queries[at : at + AT_ONCE]}
        with socket.create_connection(("127.0.0.1", PORT), ASKS) as it, it.makefile("rb") as reader:
            it.sendall(b"".join(struct.pack(">H", len(one.octets)) + one.octets for one in some.values()))
            for _ in some:
                octets = reader.read(int.from_bytes(reader.read(2), "big"))
                said[some[octets[:2]]] = octets
    return said
