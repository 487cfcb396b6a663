#!/usr/bin/python3 -B
"""Loads large zones by the library of zones for C and by other programs, asks them, and writes down what it costs.

    evidence/zones/large.py WORK [PART ..] [--archive FILE] [--program FILE] [--counts N,N] [--rounds N]
        [--only NAME,NAME] [--write]

WORK is a folder for zones, queries, programs and results, kept for the next run. PART is load, answers, instructions
or servers; by default, all; or page, which measures nothing. What earlier runs measured of other parts is kept.
--only measures these programs and servers alone. --archive is the archive that bindings/archive builds, and --program
what `./build dnszone` makes. --counts are the numbers of records, and each figure is the least of --rounds. --write
writes size.md beside this script; else the page is printed. All that is measured runs on one processor, one after
another.

Needs cc, make, valgrind and /usr/bin/time, and dnspython, for the servers. The other programs are of Debian's packages
bind9, bind9-utils, knot, knot-dnssecutils, nsd and ldnsutils. Those that aren't installed are left out, and the
library where its archive isn't built. It uses one port of loopback, 25300."""

import argparse
import contextlib
import hashlib
import json
import os
import pathlib
import re
import shutil
import subprocess
import sys
import time

import large_page
import large_zones
import name_servers

HERE = pathlib.Path(__file__).resolve().parent
TOP = HERE.parents[1]
BINDING = TOP / "bindings" / "zone"
ARCHIVE = TOP / "crates" / "dnsnames_zone_c" / "out" / "libdnsnames_zone_c.a"
PROGRAM = TOP / "crates" / "dnszone" / "out" / "dnszone"
FLAGS = "-std=c99 -D_GNU_SOURCE -Wall -Wextra -Wpedantic -Werror -O2".split()
APEX = large_zones.APEX.rstrip(".")
ANSWERS, COUNTED, ASKED, WINDOW, PATIENCE = 1_000_000, 10_000, 100_000, 32, 300.0
TICK = os.sysconf("SC_CLK_TCK")


class Failed(Exception):
    """A program ended otherwise than it must."""


class Room:
    """The folder with zones, queries, programs and results, and what is to be measured."""

    def __init__(self, words):
        self.folder, self.words = words.work.resolve(), words
        self.folder.mkdir(parents=True, exist_ok=True)
        kept = self.folder / "results.json"
        self.results = json.loads(kept.read_text()) if kept.is_file() else {}

    def path(self, name):
        return str(self.folder / name)

    def zone(self, count):
        return self.path(f"{count}.zone")

    def queries(self, count):
        return self.path(f"{count}.queries")

    def keep(self, part, count, name, numbers):
        """Keeps what was measured, with the load of the machine at that time."""
        print(f"{part}, {count:,}, {name}: {numbers}", file=sys.stderr, flush=True)
        self.results.setdefault(part, {}).setdefault(str(count), {})[name] = numbers
        self.results.setdefault("loads", []).append(os.getloadavg()[0])
        pathlib.Path(self.path("results.json")).write_text(json.dumps(self.results, indent=1))

    def takes(self, name):
        return not self.words.only or name in self.words.only.split(",")


def run(command, **how):
    said = subprocess.run(command, capture_output=True, text=True, check=False, **how)
    if said.returncode:
        raise Failed(f"{command[0]}: {said.returncode}: {(said.stdout + said.stderr)[-2000:]}")
    return said.stdout


def numbers_of(text):
    """The numbers of lines that have words and a number."""
    lines = (it.rsplit(" ", 1) for it in text.splitlines())
    return {words: float(number) if "." in number else int(number) for words, number in lines}


def make_inputs(room):
    """Writes the zones and the queries, where they aren't there from the same script."""
    source = hashlib.sha256(pathlib.Path(large_zones.__file__).read_bytes()).hexdigest()
    for count in room.words.counts:
        if room.results.get("inputs", {}).get(str(count), {}).get("source") != source:
            large_zones.write_zone(pathlib.Path(room.zone(count)), count)
            comes = large_zones.write_queries(pathlib.Path(room.queries(count)), count, [ASKED, ANSWERS])
            room.keep("inputs", count, "comes", comes)
            room.keep("inputs", count, "octets", os.path.getsize(room.zone(count)))
            room.keep("inputs", count, "source", source)


def build(room):
    """Builds the programs over the library of zones, and the client."""
    run(["cc", *FLAGS, "-o", room.path("ask"), str(HERE / "ask.c")])
    if has_library(room):
        archive = f"ARCHIVE={room.words.archive.resolve()}"
        run(["make", "-C", str(BINDING), archive, "out/libdnsnames_zone.a", "out/serve"])
        words = ["-I", str(BINDING), "-o", room.path("large"), str(HERE / "large.c")]
        run(["cc", *FLAGS, *words, str(BINDING / "out" / "libdnsnames_zone.a")])


def has_library(room):
    return room.words.archive.is_file() and room.takes("library")


def large(room, count, asked, word="none"):
    return [room.path("large"), APEX, room.zone(count), room.queries(count), str(asked), word]


def loaders(room, count):
    """The programs that load a zone: the name, the words, and how many lines each prints, if it prints the records."""
    zone = room.zone(count)
    yield "library", large(room, count, 0), None
    yield "dnszone", [str(room.words.program), "check"], count
    yield "named-checkzone", ["named-checkzone", "-i", "none", APEX, zone], None
    yield "kzonecheck", ["kzonecheck", "-o", large_zones.APEX, zone], None
    yield "nsd-checkzone", ["nsd-checkzone", APEX, zone], None
    yield "ldns-read-zone", ["ldns-read-zone", zone], count


def timed(room, command, zone, lines):
    """What a program takes: seconds by the clock and of the processor, and the most memory in kilobytes."""
    out, said = room.path("out"), room.path("time")
    with open(out, "w") as file, open(zone) as text:
        words = ["/usr/bin/time", "-o", said, "-f", "%e %U %S %M", *command]
        ended = subprocess.run(words, stdin=text, stdout=file, stderr=subprocess.STDOUT, check=False)
    if ended.returncode or lines and len(pathlib.Path(out).read_text().splitlines()) != lines:
        raise Failed(f"{command[0]}: {ended.returncode}: {pathlib.Path(out).read_text()[-1000:]}")
    clock, user, system, most = pathlib.Path(said).read_text().split()
    numbers = {"clock": float(clock), "processor": round(float(user) + float(system), 2), "peak": int(most)}
    return numbers | (numbers_of(pathlib.Path(out).read_text()) if command[0] == room.path("large") else {})


def least(rounds):
    """The least of each number."""
    return {it: min(one[it] for one in rounds) for it in rounds[0]}


def measure_load(room, count):
    for name, command, lines in loaders(room, count):
        is_there = has_library(room) if name == "library" else shutil.which(command[0])
        if room.takes(name) and is_there:
            zone = room.zone(count)
            rounds = [timed(room, command, zone, lines) for _ in range(room.words.rounds)]
            room.keep("load", count, name, least(rounds))


def check_kinds(room, count, numbers):
    """Fails where the responses aren't of the kinds that they must be."""
    comes = room.results["inputs"][str(count)]["comes"][str(numbers["answers"])]
    if {it: numbers[it] for it in comes} != comes:
        raise Failed(f"not the responses that must come, {comes}: {numbers}")


def measure_answers(room, count):
    if not has_library(room):
        return
    rounds = [numbers_of(run(large(room, count, ANSWERS))) for _ in range(room.words.rounds)]
    for it in rounds:
        check_kinds(room, count, it)
    room.keep("answers", count, "library", least(rounds))


def instructions(room, count, word):
    """How many instructions the calls take that a word names, as callgrind counts them."""
    out = room.path("callgrind")
    command = ["valgrind", "--tool=callgrind", "--instr-atstart=no", "--collect-atstart=no"]
    run([*command, f"--callgrind-out-file={out}", *large(room, count, COUNTED if word == "answer" else 0, word)])
    return int(re.search(r"^totals: (\d+)", pathlib.Path(out).read_text(), re.M)[1])


def measure_instructions(room, count):
    """Counts the instructions of answers, and of the smallest load: the others take callgrind too long."""
    if has_library(room) and shutil.which("valgrind"):
        parts = ["answer"] + ["load"] * (count == min(room.words.counts))
        numbers = {it: instructions(room, count, it) for it in parts}
        room.keep("instructions", count, "library", numbers | {"answers": COUNTED})


class Served:
    """A zone as name_servers.py takes it."""

    def __init__(self, room, count):
        self.apex, self.text = large_zones.APEX, pathlib.Path(room.zone(count)).read_text()


@contextlib.contextmanager
def library_serving(room, count):
    """The example server of the library of zones with the zone."""
    port = name_servers.PORT
    command = [str(BINDING / "out" / "serve"), APEX, room.zone(count), str(port), str(10**9)]
    process = subprocess.Popen(command, stdout=subprocess.DEVNULL, start_new_session=True)
    try:
        yield process
    finally:
        process.kill()
        process.wait()


def processes_of(session):
    """The processes of a session."""
    for it in pathlib.Path("/proc").glob("[0-9]*/stat"):
        with contextlib.suppress(OSError):
            fields = it.read_text().rpartition(")")[2].split()
            if int(fields[3]) == session:
                yield it.parent, fields


def used_by(session):
    """The seconds of the processor that a server has used: its own, and the system's for it."""
    fields = [it for _, it in processes_of(session)]
    return tuple(sum(int(it[at]) for it in fields) / TICK for at in (11, 12))


def memory_of(session):
    """The memory of a server's processes in kilobytes. What they share is counted once."""
    folders = [it for it, _ in processes_of(session)]
    texts = ((it / "smaps_rollup").read_text() for it in folders)
    return sum(int(re.search(r"^Pss: +(\d+) kB", it, re.M)[1]) for it in texts)


def ask(room, count, asked):
    words = [room.path("ask"), str(name_servers.PORT), room.queries(count), str(asked), str(WINDOW)]
    return numbers_of(run(words))


def wait_for(room, count, process):
    """Waits until the server answers for the zone: a query for a name in it gets an answer."""
    until = time.monotonic() + PATIENCE
    while time.monotonic() < until and process.poll() is None:
        with contextlib.suppress(Failed):
            said = ask(room, count, 1)
            if said["answers"] and not said["other"]:
                return
        time.sleep(0.1)
    raise Failed("a server didn't load the zone")


def asked_round(room, count, session):
    """One round of queries: what came, and what the server used for it, in microseconds for a response."""
    before = used_by(session)
    said = ask(room, count, ASKED)
    check_kinds(room, count, said)
    used = [(it - was) * 1e6 / ASKED for it, was in zip(used_by(session), before, strict=True)]
    return said | {"user": round(used[0], 2), "system": round(used[1], 2), "both": round(sum(used), 2)}


def measure_server(room, count, name, serving):
    with serving as process:
        wait_for(room, count, process)
        loaded = round(sum(used_by(process.pid)), 2)
        rounds = [asked_round(room, count, process.pid) for _ in range(room.words.rounds)]
        numbers = min(rounds, key=lambda it: it["both"]) | {"clock": min(it["clock"] for it in rounds)}
        numbers |= {"loaded": loaded, "memory": memory_of(process.pid), "window": WINDOW}
        room.keep("servers", count, name, numbers)


def measure_servers(room, count):
    zone = Served(room, count)
    for name in ("library", *name_servers.SERVERS):
        is_there = has_library(room) if name == "library" else shutil.which(name)
        if room.takes(name) and is_there:
            serving = library_serving(room, count) if name == "library" else name_servers.serving(name, [zone])
            measure_server(room, count, name, serving)


PARTS = {
    "load": measure_load,
    "answers": measure_answers,
    "instructions": measure_instructions,
    "servers": measure_servers,
}


def read_words():
    words = argparse.ArgumentParser("large.py", description=__doc__, allow_abbrev=False)
    words.formatter_class = argparse.RawDescriptionHelpFormatter
    words.add_argument("work", metavar="WORK", type=pathlib.Path)
    words.add_argument("--archive", metavar="FILE", type=pathlib.Path, default=ARCHIVE)
    words.add_argument("--program", metavar="FILE", type=pathlib.Path, default=PROGRAM)
    words.add_argument("--counts", metavar="N,N", default="100000,1000000")
    words.add_argument("--rounds", type=int, default=3, metavar="N")
    words.add_argument("--only", default="", metavar="NAME,NAME")
    words.add_argument("--write", action="store_true")
    words.add_argument("parts", nargs="*", metavar="PART", default=[*PARTS])
    said = words.parse_intermixed_args()
    if not {*said.parts} <= {*PARTS, "page"}:
        words.error("no such part")
    said.counts = [int(it) for it in said.counts.split(",")]
    return said


def main():
    words = read_words()
    os.sched_setaffinity(0, {max(os.sched_getaffinity(0))})
    room = Room(words)
    make_inputs(room)
    parts = [it for it in words.parts if it in PARTS]
    if parts:
        build(room)
        room.results["rounds"] = sorted({*room.results.get("rounds", []), words.rounds})
    for part in parts:
        for count in words.counts:
            PARTS[part](room, count)
    text = "\n".join(large_page.page(room.results, words.counts)) + "\n"
    if words.write:
        (HERE / "size.md").write_text(text)
    else:
        print(text)
    return 0


if __name__ == "__main__":
    sys.exit(main())
