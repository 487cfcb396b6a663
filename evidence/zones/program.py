"""How beside_servers.py runs `dnszone`: built, or its sources without a proof; and what answers in its place."""

import pathlib
import re
import subprocess
import sys
import tempfile

import dns.name
import dns.rdata
import dns.rdataclass
import dns.rdatatype
from name_servers import SIZE
from zone import SECTIONS, WHOLE, response_of

CRATE = pathlib.Path(__file__).resolve().parents[2] / "crates" / "dnszone"
sys.path.insert(0, str(CRATE.parent / "conformance_zones"))
BUILT = CRATE / "out" / "dnszone"
LINE = re.compile(r"((?:[^\s\\]|\\.)+) (\d+) IN (\S+) (.*)")


class Failed(Exception):
    """The program gave no answer."""


def built(program, jobs):
    """What a built program prints for each text and words."""
    for text, words in jobs:
        said = subprocess.run([program, *words], input=text, capture_output=True, text=True, check=False)
        if said.returncode:
            raise Failed(f"{words[0]}: {said.stderr.strip()}")
        yield said.stdout


def unproved(jobs):
    """The same of the sources, which `rt try` builds once for all."""
    with tempfile.TemporaryDirectory(prefix="servers-") as room:
        for number, (text, words) in enumerate(jobs):
            pathlib.Path(room, f"{number:06}").write_text(text)
            pathlib.Path(room, f"{number:06}.args").write_text("".join(f"{it}\n" for it in words))
        command = ["rt", "try", "--steps", "20000000000", "--seconds", "600", "--cases", room]
        how = {"stdin": subprocess.DEVNULL, "capture_output": True, "text": True, "check": False}
        said = subprocess.run(command, cwd=CRATE, **how)
    parts = re.split(r"^== (\d{6})\n", said.stdout, flags=re.M)[1:]
    ended = said.stderr.count(" run=ended status=0 ")
    if parts[::2] != [f"{number:06}" for number in range(len(jobs))] or ended != len(jobs):
        raise Failed(said.stderr[-2000:])
    return parts[1::2]


def jobs_of(zone):
    """What the program is run for: the words, and the queries that they have, or the question to `ask`."""
    for word in ((), ("--stream",)):
        queries = [it for it in zone.queries if it.form.is_stream == bool(word)]
        if queries:
            yield ["answer", *word, *(it.octets.hex() for it in queries)], queries
    for name, rtype in zone.asked if zone.is_text and not zone.is_signed else []:
        yield ["ask", name.to_text(), dns.rdatatype.to_text(rtype)], (name, rtype)


def fill(zones, program):
    """Gives each zone what the program answers to its queries. Yields each response of `ask` that isn't that of
    `answer --stream`."""
    jobs = [(zone, *job) for zone in zones for job in jobs_of(zone)]
    texts = [(zone.text, words) for zone, words, _ in jobs]
    printed = built(program, texts) if program else unproved(texts)
    for (zone, words, asked), said in zip(jobs, printed, strict=True):
        if words[0] == "answer":
            lines = zip(asked, said.split("\n"), strict=False)
            zone.ours |= {it: response_of(bytes.fromhex(line)) for it, line in lines}
        elif (fault := fault_of(zone, asked, asked_of(said))) is not None:
            yield fault


def fault_of(zone, question, asked):
    """What `ask` says otherwise than `answer --stream`."""
    answer = zone.ours[zone.by_question[WHOLE, *question]]
    said = answer.rcode, answer.aa, *(getattr(answer, it) for it in SECTIONS)
    name, rtype = question
    where = f"{zone.name}: {name} {dns.rdatatype.to_text(rtype)}"
    return None if asked == said else f"{where}: `ask` prints {asked}, `answer` {said}"


def has_escapes(zone):
    """Whether the text of a name has a backslash, which the second writer doesn't know."""
    return any("\\" in it.to_text() for it in (*zone.owners, *(one.name for one in zone.queries)))


def fill_second(zones):
    """Gives each zone what the second writer of responses answers in place of the program. It has no `ask`."""
    import second_writer as writer

    for zone in zones:
        tree = writer.zones.Zone(zone.apex.to_text())
        for owner, ttl, rtype, data in sorted(zone.records, key=lambda it: it[::2]):
            tree.insert(owner.to_text(), int(rtype), ttl, data.to_wire())
        for it in zone.queries:
            zone.ours[it] = response_of(writer.response(tree, it.octets, it.form.is_stream, SIZE))


def asked_of(text):
    """What `ask` printed: the response code, AA, and the sections."""
    head, *parts = re.split(r"^;; (\w+) SECTION\n", text, flags=re.M)
    rcode, flags = re.fullmatch(r";; opcode: QUERY, status: (\w+), id: 0\n;; flags:([^;]*); .*\n", head).groups()
    parts = dict(zip(parts[::2], parts[1::2], strict=True))
    sections = (frozenset(map(record, parts[it.upper()].splitlines())) for it in SECTIONS)
    return rcode, "aa" in flags.split(), *sections


def record(line):
    owner, ttl, rtype, data = LINE.fullmatch(line).groups()
    rtype = dns.rdatatype.from_text(rtype)
    return dns.name.from_text(owner), int(ttl), rtype, dns.rdata.from_text(dns.rdataclass.IN, rtype, data)
