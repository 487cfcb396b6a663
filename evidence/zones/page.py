"""The page of a run of beside_servers.py."""

import datetime
import itertools
import textwrap

import signing
from differences import REASONS
from zone import FORMS, SIGNED_FORMS

INTRO = [
    "`evidence/zones/beside_servers.py` loads zones into name servers on loopback, and sends them and `dnszone` the "
    "same queries. It wrote this page on {day}. {program}",
    "The zones are {texts} texts ([texts.py](texts.py)): those of RFC 4592, 2.2.1, and RFC 1034, 6.1, some for each "
    "rule of a lookup, and four that are drawn from fixed seeds. To these come the first {cases:,} zones of the "
    "conformance table ([conformance_zones](../../crates/conformance_zones/README.md)), with the questions there. "
    "Of these the run left out {left}: the data of an NS record there is no name, and no server loads them.",
    "{signing}",
    "Each of the {questions:,} questions about zones that aren't signed is sent in {forms} forms: {titles}. "
    "{signed_forms}",
    "Compared are the response code of twelve bits, the identifier, the opcode and all flags, TC, the question with "
    "the case of its letters, the OPT record, and the answer, authority and additional sections as sets of records: "
    "owner, TTL, type and data. Case is ignored in names of records (RFC 4343, 3). A response is equal, or differs in "
    "ways that are listed below with their reasons, or fails.",
    "{ask}",
    "The servers are set alike where they let it: the fewest records in a response, 1,232 octets in a datagram as "
    "`dnszone` has it, no limit of rate and no cookies.",
]
SIGNING = (
    "{count} more zones are signed by ldns-signzone {version} with NSEC ([signing.py](signing.py)): most of these "
    "texts, {drawn} more that are drawn, and some for the rules of RFC 4035, 3.1. These have wildcards at several "
    "depths, also ones that own nothing, empty non-terminals, cuts with DS and without it, with glue and without it, "
    "DNAMEs, and CNAMEs that lead to all of these and out of the zone. Most have a key of ECDSAP256SHA256, some one "
    "of ED25519, too, so that each RRset has two signatures. The keys are new in each run."
)
SIGNED_QUESTIONS = (
    "Each of the {count:,} questions about signed zones is sent in {forms}: {titles}. They ask for the types in the "
    "zone, so also for RRSIG, NSEC and DNSKEY, for DS, ANY and others, at names that exist, above, below and beside "
    "them."
)
ASK = (
    "What `dnszone ask` prints for the {asks:,} questions about the texts that aren't signed must be the sections, the "
    "response code and AA of `dnszone answer --stream`."
)
KINDS = {
    "built": "",
    "unproved": "The program was a build of these sources without their proofs (`rt try`).",
    "second": "In this run the second writer of responses "
    "([conformance_zones](../../crates/conformance_zones/README.md)) answered in place of the program: "
    "`evidence/responses/check.py` compares the two octet by octet. It knows no backslash in names, so the zone of "
    "special characters was left out.",
}
LIMITS = [
    "Zones with NSEC3 records: `dnszone` refuses that type "
    "([domain_zone](../../crates/domain_zone/README.md#faults)). The signed zones have NSEC.",
    "Wildcards that own NS or DNAME, which `dnszone` refuses (RFC 4592, 4.2 and 4.4).",
    "Text that one of the four refuses: `$INCLUDE`, mnemonics of algorithms, and fields without a text of their own, "
    "as those of SVCB and LOC (`dnszone`, by [domain_rdata_text](../../crates/domain_rdata_text/README.md#what-is-read)"
    "), the end of a line between quotes (BIND), a name that ends in `\\\\` (NSD).",
    "Queries that aren't a question of class IN to a zone: what comes of these is in "
    "[conformance_zones](../../crates/conformance_zones/README.md).",
    "The order of records and RRsets, and which names are compressed.",
]


def wrapped(text, mark=""):
    return textwrap.wrap(text, 118, initial_indent=mark, subsequent_indent=" " * len(mark), break_on_hyphens=False)


def titles(forms):
    return "; ".join(it.title for it in forms)


def of_signed(zones):
    """What the page says of the signed zones, and of the questions about them."""
    if not zones:
        return {"signing": "No zone was signed.", "signed_forms": ""}
    count, drawn = sum(len(it.asked) for it in zones), len(signing.DRAWN)
    return {
        "signing": SIGNING.format(count=len(zones), version=signing.version(), drawn=drawn),
        "signed_forms": SIGNED_QUESTIONS.format(
            count=count, forms=len(SIGNED_FORMS), titles=titles(SIGNED_FORMS)
        ),
    }


def intro(zones, left, kind):
    plain = [it for it in zones if not it.is_signed]
    texts, asks = sum(it.is_text for it in plain), sum(len(it.asked) for it in plain if it.is_text)
    said = {
        "day": datetime.date.today(),
        "program": KINDS[kind],
        "texts": texts,
        "cases": len(plain) - texts + left,
        "left": left,
        "questions": sum(len(it.asked) for it in plain),
        "ask": "" if kind == "second" else ASK.format(asks=asks),
        "forms": len(FORMS),
        "titles": titles(FORMS),
        **of_signed([it for it in zones if it.is_signed]),
    }
    for it in filter(None, (it.format(**said) for it in INTRO)):
        yield ""
        yield from wrapped(it)


def table(trial, versions):
    yield from ["", "| Server | Zones | Responses | Equal | Listed differences | Not listed | Zones not loaded |"]
    yield "|---|---|--:|--:|--:|--:|--:|"
    for is_signed, server in itertools.product((False, True), versions):
        it = trial.counts[server, is_signed]
        counts = [it[one] for one in ("equal", "listed", "unlisted")]
        counts = [sum(counts), *counts, it["zones listed"] + it["zones unlisted"]]
        zones = "signed" if is_signed else "not signed"
        yield f"| {versions[server]} (`{server}`) | {zones} | {' | '.join(f'{count:,}' for count in counts)} |"


def counted(trial, why, servers):
    """How often each server differs for a reason."""
    counts = {it: sum(trial.counts[it, is_signed][why] for is_signed in (False, True)) for it in servers}
    return ", ".join(f"{server} {count:,}" for server, count in counts.items() if count)


def page(trial, zones, left, versions, kind):
    yield "# dnszone beside name servers"
    yield from intro(zones, left, kind)
    yield from table(trial, versions)
    yield from ["", "## Differences", ""]
    for why in filter(trial.examples.get, REASONS):
        yield from wrapped(f"{why} ({counted(trial, why, versions)}; for example {trial.examples[why]})", "- ")
    if trial.unlisted:
        yield from ["", "## Not listed, so the run failed", ""]
    for it in trial.unlisted[:50]:
        yield from wrapped(f"`{it}`", "- ")
    yield from ["", "## What isn't compared", ""]
    for it in LIMITS:
        yield from wrapped(it, "- ")
