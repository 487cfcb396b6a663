#!/usr/bin/python3 -B
"""Asks name servers on loopback and `dnszone` the same queries about the same zones, and compares the responses.

    evidence/zones/beside_servers.py [--try | --program FILE | --second] [--most N] [--zones N] [--only WORDS]
        [--write] [SERVER ..]

SERVER is nsd, knotd or named; by default, each that is installed. The program is the one that `./build dnszone` makes.
--try builds its sources without a proof instead, once for all queries, and --program takes another file. With --second
the second writer of crates/conformance_zones answers in place of the program. --most N asks at most N questions
about each zone of texts.py, and four times as many about each signed one. --zones N takes only the first N zones of
the conformance table, and --only takes only the zones with these words in their names. --write writes last-run.md
beside this script; else the page is printed. What differs and isn't in differences.py fails. The last line is 'N
passed, N failed'.

Needs dnspython 2.3, and nsd, knot or bind9 of Debian 12; ldns-signzone (ldnsutils) for the signed zones, which are
left out without it. It uses one port of loopback, 25300."""

import argparse
import pathlib
import shutil
import sys

import differences
import name_servers
import page
import program
import signing
import tabled
import texts
from dns.rdatatype import DNAME
from zone import Zone, target_of

HERE = pathlib.Path(__file__).resolve().parent


def all_zones(words):
    """The zones of texts.py and of the table, and how many of the table are left out."""
    zones = []
    for name, apex, text in texts.zones():
        if words.only in name:
            zones.append(Zone(name, apex, text, lambda it: texts.questions(it, words.most)))
    for name, apex, text, algorithms in signing.zones() if signing.can_sign() else []:
        if words.only in name:
            text = signing.signed(text, apex, algorithms)
            text = signing.with_lower_minimum(text) if name == signing.HIGH_NSEC else text
            zones.append(Zone(name, apex, text, lambda it: texts.questions(it, 4 * words.most)))
    cases, left = tabled.cases(words.zones)
    for number, it in enumerate(cases):
        if words.only in f"table {number}":
            zones.append(Zone(f"table {number}", it.apex, it.text(), it.asked, it.read()))
    return zones, left


def may_share(zone, other):
    """Whether a server of both answers for the one as without the other."""
    names = {it[0] for it in zone.asked} | {target_of(it[3]) for it in zone.records} - {None}
    dnames = {target_of(it[3]) for it in zone.records if it[2] == DNAME}
    return not any(it.is_subdomain(other.apex) for it in names) and not any(map(other.apex.is_subdomain, dnames))


def groups(zones):
    """The zones that one server has at the same time."""
    made = []
    for zone in zones:
        for group in made[-3:]:
            if all(may_share(zone, it) and may_share(it, zone) for it in group):
                group.append(zone)
                break
        else:
            made.append([zone])
    return made


def run(words, servers):
    """Asks all."""
    trial = differences.Trial()
    zones, left = all_zones(words)
    if words.second:
        zones = [it for it in zones if not program.has_escapes(it)]
        program.fill_second(zones)
    else:
        trial.unlisted += program.fill(zones, None if words.unproved else words.program.resolve())
    for number, group in enumerate(groups(zones)):
        print(f"group {number}: {len(group)} zones", file=sys.stderr, flush=True)
        for server in servers:
            for zone, said in zip(group, name_servers.responses(server, group), strict=True):
                if said is None:
                    trial.refuse(server, zone, server in ("nsd", "knotd") and tabled.has_key_beside_cname(zone))
                else:
                    trial.take(server, zone, said)
    return trial, zones, left


def has_program(words):
    return words.second or words.unproved or words.program.is_file()


def main():
    words = argparse.ArgumentParser("beside_servers.py", description=__doc__, allow_abbrev=False)
    words.formatter_class = argparse.RawDescriptionHelpFormatter
    words.add_argument("--try", action="store_true", dest="unproved")
    words.add_argument("--second", action="store_true")
    words.add_argument("--program", metavar="FILE", type=pathlib.Path, default=program.BUILT)
    words.add_argument("--most", type=int, default=45, metavar="N")
    words.add_argument("--zones", type=int, metavar="N")
    words.add_argument("--only", default="", metavar="WORDS")
    words.add_argument("--write", action="store_true")
    words.add_argument("servers", nargs="*", metavar="SERVER")
    words = words.parse_args()
    known = name_servers.SERVERS
    servers = words.servers or [it for it in known if shutil.which(it)]
    if not servers or not {*servers} <= {*known} or not has_program(words):
        print("beside_servers.py: no server, or no program: see --help, and ./build dnszone", file=sys.stderr)
        return 2
    versions = {it: known[it].version() for it in servers}
    trial, zones, left = run(words, servers)
    is_built = not words.unproved and words.program == program.BUILT
    kind = "second" if words.second else "built" if is_built else "unproved"
    text = "\n".join(page.page(trial, zones, left, versions, kind)) + "\n"
    if words.write:
        (HERE / "last-run.md").write_text(text)
    else:
        print(text)
    for it in trial.unlisted:
        print(it)
    passed = sum(it["equal"] + it["listed"] + it["zones listed"] for it in trial.counts.values())
    print(f"{passed} passed, {len(trial.unlisted)} failed")
    return int(bool(trial.unlisted))


if __name__ == "__main__":
    sys.exit(main())
