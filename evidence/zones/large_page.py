"""The page of what large.py measured."""

import datetime
import os
import pathlib
import re
import subprocess
import textwrap

import large_zones

INTRO = [
    "`evidence/zones/large.py` loads zones of {counts} records by the library of zones for C "
    "([dnsnames_zone.h](../../bindings/zone/dnsnames_zone.h)) and by other programs, and asks them the same "
    "questions. It wrote this page on {day}, on a machine of {processors} processors ({model}).",
    "All of this ran on one processor, one after another, while other work kept all {processors} busy: the load "
    "average was {low} to {high}, and the programs didn't all meet the same load. So times by the clock are a "
    "multiple of what a quiet machine needs, and vary. Processor times leave the waiting out, but the other work "
    "takes room in the caches, which zones of this size need. Each figure is the least of {rounds} rounds, and a "
    "difference of a third says nothing.",
    "[large_zones.py](large_zones.py) makes the zones, always the same, of {texts} MB of text. They have hosts with "
    "A, AAAA and an alias; names with MX and TXT; zone cuts with three NS records and glue; and names of up to eight "
    "labels, with empty non-terminals between. Their names are in no order, and owners and names in data are relative "
    "to many `$ORIGIN`s.",
    "It draws the questions from a fixed seed. Of 100, {kinds}. Every other query has an OPT record. A run fails "
    "where a program prints another number of records, or answers by other kinds of responses.",
]
KINDS = {
    large_zones.FOUND: "ask for records that exist, some of them through an alias",
    large_zones.EMPTY: "for a type that a name doesn't own",
    large_zones.NONE: "for a name that doesn't exist",
    large_zones.REFERRAL: "for a name at or below a cut",
}
LOADING = [
    "'Peak' is the most memory that the process had, in millions of octets, as `/usr/bin/time` reports it, and 'a "
    "record' is that in octets by the number of records. The programs do different things with a zone:",
]
PROGRAMS = {
    "library": (
        "`dnsnames_zone_load`",
        "[large.c](large.c) reads the file into memory, loads the zone, and frees it. The call sorts the records, "
        "and tests that they are a zone (`IsZone`). The peak has the text, too, which can be freed then. {kept}",
    ),
    "dnszone": ("`dnszone check`", "It does the same with the text from standard input, and prints each record."),
    "named-checkzone": (
        "`named-checkzone -i none` of BIND {bind9-utils}",
        "It loads the zone into BIND's database. With `-i none` it doesn't look for the names in data.",
    ),
    "kzonecheck": (
        "`kzonecheck` of Knot DNS {knot-dnssecutils}",
        "It loads the zone into the tree of Knot DNS, and tests what a zone must have that isn't signed.",
    ),
    "nsd-checkzone": ("`nsd-checkzone` of NSD {nsd}", "It loads the zone into NSD's tree."),
    "ldns-read-zone": (
        "`ldns-read-zone` of ldns {ldnsutils}",
        "It keeps the records in the order of the text, doesn't test the zone, and prints each record.",
    ),
}
ANSWERS = [
    "[large.c](large.c) calls `dnsnames_zone_answer` {answers:,} times, each time with another query and the same "
    "buffer. A call reads the query, looks the answer up, and writes the whole message with compressed owners, of "
    "{octets} octets on average. No socket is part of it. Instructions are those of the calls alone, as callgrind "
    "counts them over the first 10,000 of these answers, and over a load of the smaller zone. Most of those of an "
    "answer compare names: a lookup finds its RRsets by halves.",
]
NOTHING_BESIDE = [
    "No other library here has a call for this. libknot has no public call that looks a name up in a zone: that is a "
    "part of `knotd`. ldns can find an RRset in a zone, but makes no response. So servers are compared.",
]
SERVING = [
    "`serve` is the [example in C](../../bindings/zone/examples/serve.c) of the library of zones. The servers of the "
    "packages have the same zone, one process or thread that answers datagrams, and the settings of "
    "[beside_servers.py](last-run.md). [ask.c](ask.c) sends each {asked:,} queries from one socket on loopback, and "
    "at most {window} wait for a response at a time. Client and server share the processor.",
]
SERVERS = {
    "library": "`serve`",
    "nsd": "NSD {nsd}",
    "knotd": "Knot DNS {knot}",
    "named": "BIND {bind9}",
}
SERVED = [
    "'Answers a second' are by the clock, for client and server together. The other columns are of the server alone: "
    "microseconds of the processor for an answer; the part of them that is in its own code and libraries, and not in "
    "the system, as the system samples it at each of its ticks; and its memory after the answers, in millions of "
    "octets, where pages that its processes share count once. The client uses {client} microseconds for each answer.",
]
SHARE = [
    "Of the processor time of client and `serve` together, {share} in 100 are outside the server's own code: sockets. "
    "`serve` makes three system calls for each answer: `poll`, `recvfrom` and `sendto`. NSD and Knot DNS receive and "
    "send several datagrams by one call. 'Own code' comes closest to a comparison of the work on zones. But these "
    "servers do more there than `serve` does: limits, statistics and access lists, and BIND has its event loop. They "
    "also compress names in data, which `serve` doesn't.",
]


def wrapped(text, mark=""):
    return textwrap.wrap(text, 118, initial_indent=mark, subsequent_indent=" " * len(mark), break_on_hyphens=False)


def paragraphs(texts, said):
    for it in texts:
        yield ""
        yield from wrapped(it.format_map(said))


def table(heads, rows):
    """A table: the first column has words, and the others numbers."""
    yield ""
    yield f"| {' | '.join(heads)} |"
    yield "|" + "|".join(["---"] + ["--:"] * (len(heads) - 1)) + "|"
    for it in rows:
        yield f"| {' | '.join(it)} |"


class Versions(dict):
    """The versions of Debian packages, without what Debian adds."""

    def __missing__(self, package):
        command = ["dpkg-query", "-W", "-f", "${Version}", package]
        said = subprocess.run(command, capture_output=True, text=True, check=False).stdout
        return re.match(r"(?:\d+:)?([\d.]*)", said)[1]


def megabytes(kilobytes):
    return f"{kilobytes * 1024 / 1e6:,.1f}"


def rows_of(measured, counts, titles, cells_of):
    """A row for each program: its title, and its cells for each number of records."""
    for name, title in titles.items():
        cells = []
        for count in counts:
            it = measured[str(count)].get(name)
            cells += cells_of(it, count) if it else []
        if cells:
            yield [title.format_map(Versions()), *cells]


def heads_of(first, counts, heads):
    """The heads of a table with these columns for each number of records, which the first of them names."""
    return [first, *(f"{count:,}: {it}" if it == heads[0] else it for count in counts for it in heads)]


def load_cells(it, count):
    each = it["peak"] * 1024 / count
    return [f"{it['clock']:.2f}", f"{it['processor']:.2f}", megabytes(it["peak"]), f"{each:,.0f}"]


def kept(measured, counts):
    """What malloc had given after a load."""
    ours = [(it, measured[str(it)]["library"]["kept"]) for it in counts]
    said = (f"{octets / 1e6:,.1f} MB of {it:,} records, {octets / it:,.0f} octets each" for it, octets in ours)
    return f"The zone alone keeps {', and '.join(said)}."


def loading(results, counts):
    measured = results["load"]
    yield from ["", "## Loading"]
    yield from paragraphs(LOADING, {})
    titles = {name: title for name, (title, _) in PROGRAMS.items()}
    heads = heads_of("Program", counts, ["clock, s", "processor, s", "peak, MB", "a record"])
    yield from table(heads, rows_of(measured, counts, titles, load_cells))
    yield ""
    said = {"kept": kept(measured, counts)} if "library" in measured[str(counts[0])] else {}
    for name, (title, does) in PROGRAMS.items():
        if name in measured[str(counts[0])]:
            yield from wrapped(f"{title.split(' of ')[0]}: {does.format_map(said)}", "- ")


def answer_row(results, count):
    it = results["answers"][str(count)]["library"]
    counted = results.get("instructions", {}).get(str(count), {}).get("library", {})
    each = it["answer-processor"] / it["answers"]
    times = [f"{1 / each:,.0f}", f"{each * 1e6:.2f}", f"{1e6 * it['answer-clock'] / it['answers']:.2f}"]
    loaded = f"{counted['load'] / count:,.0f}" if "load" in counted else "not counted"
    answered = f"{counted['answer'] / counted['answers']:,.0f}" if "answer" in counted else "not counted"
    return [f"{count:,}", *times, answered, loaded, f"{it['free-processor']:.2f}"]


def answering(results, counts):
    one = results["answers"][str(counts[-1])]["library"]
    said = {"answers": one["answers"], "octets": round(one["octets"] / one["answers"])}
    yield from ["", "## Answers by a call"]
    yield from paragraphs(ANSWERS, said)
    heads = ["Records", "answers a second of the processor", "processor, µs", "clock, µs", "instructions an answer"]
    heads += ["instructions a record loaded", "freed in s"]
    yield from table(heads, (answer_row(results, it) for it in counts))
    yield from paragraphs(NOTHING_BESIDE, {})


def server_cells(it, _):
    return [f"{it['answers'] / it['clock']:,.0f}", f"{it['both']:.1f}", f"{it['user']:.1f}", megabytes(it["memory"])]


def client_use(it):
    """Microseconds of the processor for an answer."""
    return 1e6 * it["client-processor"] / it["answers"]


def share_of_sockets(ours):
    """The part of the processor time of client and server that isn't in the server's own code, in 100."""
    return round(100 * (1 - sum(it["user"] for it in ours) / sum(it["both"] + client_use(it) for it in ours)))


def serving(results, counts):
    servers = [it for count in counts for it in results["servers"][str(count)].values()]
    ours = [results["servers"][str(it)]["library"] for it in counts if "library" in results["servers"][str(it)]]
    said = {
        "asked": servers[0]["answers"],
        "window": servers[0]["window"],
        "client": f"{min(map(client_use, servers)):.1f} to {max(map(client_use, servers)):.1f}",
    }
    yield from ["", "## Answers over UDP"]
    yield from paragraphs(SERVING, said)
    heads = heads_of("Server", counts, ["answers a second", "processor, µs", "own code, µs", "memory, MB"])
    yield from table(heads, rows_of(results["servers"], counts, SERVERS, server_cells))
    yield from paragraphs(SERVED, said)
    if ours:
        yield from paragraphs(SHARE, {"share": share_of_sockets(ours)})


def model():
    found = re.search(r"^model name\s*: (.*)$", pathlib.Path("/proc/cpuinfo").read_text(), re.M)
    return found[1] if found else "of no known model"


def said_of(results, counts):
    asked = list(results["inputs"][str(counts[-1])]["comes"].values())[-1]
    kinds = [f"{round(100 * asked[it] / sum(asked.values()))} {words}" for it, words in KINDS.items()]
    return {
        "counts": " and ".join(f"{it:,}" for it in counts),
        "day": datetime.date.today(),
        "processors": os.cpu_count(),
        "model": model(),
        "low": f"{min(results['loads']):.0f}",
        "high": f"{max(results['loads']):.0f}",
        "rounds": " to ".join(dict.fromkeys(str(it(results["rounds"])) for it in (min, max))),
        "texts": " and ".join(f"{results['inputs'][str(it)]['octets'] / 1e6:.1f}" for it in counts),
        "kinds": f"{', '.join(kinds[:-1])}, and {kinds[-1]}",
    }


def page(results, counts):
    yield "# Large zones beside other programs"
    yield from paragraphs(INTRO, said_of(results, counts))
    if "library" not in results["load"][str(counts[0])]:
        yield from ["", "The archive of the library wasn't built in this run, so the library is left out."]
    for part, make in (("load", loading), ("answers", answering), ("servers", serving)):
        if part in results:
            yield from make(results, counts)
