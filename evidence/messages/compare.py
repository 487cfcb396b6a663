#!/usr/bin/env python3
"""Compares the messages that this project writes with those of dnspython and libknot: run.sh beside this file runs it.

    compare.py KNOT PROGRAM             prints the page
    compare.py KNOT PROGRAM --write     writes it, last-run.md beside this file, and the rows of the table of messages
    compare.py KNOT PROGRAM --random COUNT SEED    compares so many other messages, always the same for a SEED

KNOT is the program of knot.c. PROGRAM answers the lines of the table of messages (crates/conformance_messages).

The octets of one half of the messages are dnspython's, of the other half libknot's. Both read them; this project reads
them, too, and writes what it read; and both read what it wrote: header, counts, questions and records must be the same.
"""
import collections
import datetime
import pathlib
import platform
import subprocess
import sys
import textwrap

import messages
import writers

HERE = pathlib.Path(__file__).resolve().parent
ROWS = HERE.parent.parent / "crates" / "conformance_messages" / "rebuild.rows"
# Types whose names dnspython writes shorter, which their standards forbid (RFC 2782; RFC 3597, 4).
TARGETS = {messages.SRV, messages.NAPTR}


class Compared:
    """A message, as each wrote and read it."""

    def __init__(self, message, source, octets, knot):
        self.message, self.source, self.octets, self.knot = message, source, octets, knot
        self.ours = self.ours_error = self.ours_knot_list = self.knot_list = None
        self.dnspython_list = writers.dnspython_list(octets)
        self.dnspython = writers.dnspython_again(octets)
        self.whole = writers.dnspython_again_whole(octets)

    def took(self, answer):
        if answer.startswith("err "):
            self.ours_error = answer
        else:
            self.ours = octets_of(answer)

    def has_targets(self):
        return any(it.rtype in TARGETS for section in self.message.sections for it in section)

    def readings(self):
        """What dnspython and libknot read of our octets, beside what they read of those that were given."""
        ours = writers.dnspython_list(self.ours) if self.ours is not None else "err"
        return (self.dnspython_list, ours), (self.knot_list, self.ours_knot_list)


def reading(before, after):
    return "refused" if before.startswith("err") else "the same" if before == after else "other"


def octets_of(answer):
    return b"" if answer == "-" else bytes.fromhex(answer)


def compared(drawn, knot, program):
    """The messages, the first, third and so on in the octets of dnspython, the others in those of libknot."""
    by_knot = [bytes.fromhex(it) for it in writers.ask([knot], ["write " + writers.spec(it) for it in drawn])]
    by_dnspython = [writers.dnspython_write(it) for it in drawn]
    made = []
    for number, message in enumerate(drawn):
        source, octets = ("libknot", by_knot[number]) if number % 2 else ("dnspython", by_dnspython[number])
        made.append(Compared(message, source, octets, by_knot[number]))
    for it, answer in zip(made, writers.ask(program, ["rebuild " + it.octets.hex() for it in made])):
        it.took(answer)
    for it, answer in zip(made, writers.ask([knot], ["read " + it.octets.hex() for it in made])):
        it.knot_list = answer
    for it, answer in zip(made, writers.ask([knot], ["read " + (it.ours or b"").hex() for it in made])):
        it.ours_knot_list = answer
    return made


def package(name):
    made = subprocess.run(["dpkg-query", "-W", "-f", "${Version}", name], capture_output=True, text=True)
    return f" ({name} {made.stdout})" if made.returncode == 0 else ""


def versions(knot):
    version = subprocess.run([knot, "version"], stdout=subprocess.PIPE, text=True, check=True).stdout.strip()
    return (f"dnspython {writers.VERSION}{package('python3-dnspython')}, libknot {version}{package('libknot-dev')}, "
            f"Python {platform.python_version()}, {platform.system()} {platform.machine()}")


def table_of_kinds(made):
    lines = ["| Kind | Messages | Records | Octets: dnspython | libknot | this | Same octets: dnspython | libknot | Longer |",
             "|---|--:|--:|--:|--:|--:|--:|--:|--:|"]
    kinds = collections.defaultdict(list)
    for it in made:
        kinds[it.message.kind].append(it)
    for kind, some in list(kinds.items()) + [("all", made)]:
        figures = (len(some), sum(len(section) for it in some for section in it.message.sections),
                   sum(len(it.dnspython) for it in some), sum(len(it.knot) for it in some),
                   sum(len(it.ours or b"") for it in some), sum(it.ours == it.dnspython for it in some),
                   sum(it.ours == it.knot for it in some), sum(len(it.ours or b"") > len(it.dnspython) for it in some))
        lines.append(f"| {kind} | " + " | ".join(f"{figure:,}" for figure in figures) + " |")
    return lines


def figures(made):
    """What was found of all messages, and how many are not as they must be."""
    count = collections.Counter()
    for it in made:
        for reader, pair in zip(("dnspython", "libknot"), it.readings()):
            count[reader] += reading(*pair) == "the same"
        is_longer = it.ours is None or len(it.ours) > len(it.dnspython)
        count["agree"] += it.dnspython_list == it.knot_list
        count["longer"] += is_longer
        count["longer, with targets"] += is_longer and it.has_targets()
        count["targets"] += it.has_targets()
        count['by dnspython'] += it.ours == it.dnspython
        count['by libknot'] += it.ours == it.knot
        count["targets of knot"] += it.has_targets() and it.ours == it.knot
        count["whole"] += it.ours == it.whole
        count["longer than whole"] += it.ours is None or len(it.ours) > len(it.whole)
        count["of dnspython"] += it.source == "dnspython"
        count["as given"] += it.ours == it.octets
    right = count["dnspython"] + count["libknot"] + count["agree"] + count["whole"]
    lines = [
        f"- {len(made)} messages, {count['of dnspython']} in the octets of dnspython's writer, "
        f"{len(made) - count['of dnspython']} in those of libknot's.",
        f"- Both read the same of {count['agree']}: header, counts, questions and records.",
        f"- Of what this project wrote, dnspython reads the same as of what was given in {count['dnspython']}, libknot in "
        f"{count['libknot']}.",
        f"- The very octets that dnspython writes: {count['by dnspython']}; that libknot writes: {count['by libknot']}; that were "
        f"given: {count['as given']}.",
        f"- Longer than dnspython's: {count['longer']}, of them with SRV or NAPTR {count['longer, with targets']}, of "
        f"{count['targets']} that have one. dnspython writes the names in their data shorter, which is forbidden (RFC 2782; "
        f"RFC 3597, 4). libknot doesn't: the very octets that it writes are {count['targets of knot']} of these.",
        f"- With these names written whole, dnspython writes the same octets as this project in {count['whole']}, and "
        f"fewer in {count['longer than whole']}.",
    ]
    return lines, 4 * len(made) - right


def table_beside(made):
    lines = ["| Message | Octets of dnspython | of this | Of the latter reads dnspython | libknot |",
             "|---|--:|--:|---|---|"]
    for it in made:
        by_dnspython, by_knot = (reading(*pair) for pair in it.readings())
        lines.append(f"| {it.message.kind} | {len(it.dnspython)} | {len(it.ours or b'')} | {by_dnspython} | {by_knot} |")
    return lines


def filled(text):
    return textwrap.fill(text, 118, subsequent_indent="  " if text.startswith("- ") else "")


def page(made, beside, knot):
    found, bad = figures(made)
    run = f"`evidence/messages/run.sh WORK --write` of {datetime.date.today().isoformat()}: {versions(knot)}."
    lines = ["# The last run of the comparison of writers", "", filled(run), ""] + [filled(it) for it in found]
    lines += [f"- {bad} differences.", "", "## By kind", ""] + table_of_kinds(made)
    lines += ["", "## Beside the 300", "", "What the readers or the types of one of the others don't have, and more names than "
              "are remembered.", ""] + table_beside(beside)
    return "\n".join(lines) + "\n", bad


def spelled(octets):
    """Octets as a field of the table, many zeros in a row by their number."""
    parts, digits, zeros = [], octets.hex(), "00" * 64
    while zeros in digits:
        at = digits.index(zeros)
        at += at % 2
        end = at
        while digits[end:end + 2] == "00":
            end += 2
        if end - at < 120:
            break
        parts += [digits[:at]] * (at > 0) + [f"zeros:{(end - at) // 2}"]
        digits = digits[end:]
    return "+".join(parts + [digits] * (digits != "" or not parts))


def rows(made):
    """A line for each message: its octets, and those that dnspython writes, `=` for the same. The names that it may not
    write shorter are whole."""
    for it in made:
        yield f"{spelled(it.octets)}\t{'=' if it.whole == it.octets else spelled(it.whole)}\n"


def tell_differences(made):
    """Prints the messages that aren't written as dnspython does, or that a reader doesn't read as before."""
    for it in made:
        if it.ours != it.whole or any(reading(*pair) != "the same" for pair in it.readings()):
            print("different:", it.message.kind, it.octets.hex(), it.ours_error or it.ours.hex(), file=sys.stderr)


def main():
    knot, program, *options = sys.argv[1:]
    if options[:1] == ["--random"]:
        made = compared(messages.random_messages(int(options[1]), int(options[2])), knot, [program])
        found, bad = figures(made)
        print("\n".join(found))
    else:
        made = compared(messages.all_messages(), knot, [program])
        text, bad = page(made, compared(messages.messages_beside(), knot, [program]), knot)
        if options == ["--write"]:
            (HERE / "last-run.md").write_text(text, encoding="ascii")
            ROWS.write_text("".join(rows(made)), encoding="ascii")
        else:
            print(text)
    tell_differences(made)
    print(f"{len(made)} messages, {bad} differences")
    sys.exit(bad > 0)


main()
