#!/usr/bin/python3 -B
"""Asks all drivers all cases, and makes the two pages of the comparison: report.py WORK [FOLDER]

WORK is the folder of evidence/compare/build.sh. COMPARISON.md is written into FOLDER, and all cases into cases.md
beside this script; with no FOLDER both are printed."""

import datetime
import platform
import subprocess
import sys
import textwrap
from collections import Counter
from pathlib import Path

import corpus
from ask import DIED, HUNG, ask, libraries
from corpus import ACCEPT, REFUSE, RULES, UNSAID

PAGE, CASES = "COMPARISON.md", "cases.md"
RANDOM_MESSAGES = 100_000
MOST_FAILURES = 40  # a driver that died or hung at so many cases isn't asked the rest
CHAIN = 1100  # the longest row of pointers that is tried

# Where this project's own pages say that it refuses what the standard's text allows.
STATED = {
    "256 pointers in a row": "it follows at most 255 pointers",
    "1000 pointers in a row": "it follows at most 255 pointers",
    r"\[x.com.": r"it refuses `\[` at the start of a label, as the Rust crate does, since that started a label of "
                 "bits (RFC 2673, historic)",
}
YES, OTHER, NO, NONE, UNASKED = "yes", "other", "no", "-", "?"
# The groups of cases: where a name stands, the tables' titles, and what a table's cells say.
WHERE = {"read": "in a message", "text": "text to wire", "show": "wire to text", "order": "in order"}
TITLES = {"read": "Names in messages", "text": "Text to wire format", "show": "Wire format to text",
          "order": "Canonical order"}
LEGENDS = {
    "read": "yes: accepted, with the labels of the case and the offset after the name, where it has any; other: with "
            "others; no: refused. The message of each case ends where memory that can't be read begins, so that a "
            "library in C which reads past its end dies.",
    "text": "yes: accepted, as the name of the case; other: as another name; no: refused. The text is given as one "
            "word, without an origin.",
    "show": "yes: a text that RFC 1035, 5.1 reads as the same labels, with or without a dot at its end; other: "
            "another text.",
    "order": "yes: sorted as RFC 4034, 6.1 has it. libknot was given the names in lower case, as it wants them.",
}


def shown(labels):
    return ".".join(label.hex() for label in labels) or "."


def outcome(case, answer):
    """What a cell of a table says."""
    if answer is None:
        return UNASKED
    if answer in (DIED, HUNG):
        return answer
    word, *rest = answer.split(" ")
    if word in ("no", "none"):
        return NO if word == "no" else NONE
    if case.expect == REFUSE:
        return YES
    if case.group == "read":
        wanted = [shown(case.labels), str(case.end)]
    elif case.group == "show":
        text = b"" if rest == ["-"] else bytes.fromhex(rest[0])
        return YES if corpus.standard_text(text) == case.labels else OTHER
    elif case.group == "order":
        wanted = [shown(labels) for labels in case.labels]
    else:
        wanted = [shown(case.labels)]
    return YES if rest == wanted else OTHER


def is_right(case, cell):
    """Whether a cell is what the standard's text says; None where it says nothing, or the call wasn't asked."""
    if case.expect == UNSAID or cell in (NONE, UNASKED):
        return None
    return cell == (YES if case.expect == ACCEPT else NO)


def standard(case):
    """What the standard says of a case, as a part of a sentence."""
    says = {ACCEPT: "accepts" if case.group in ("read", "text") else "requires it", REFUSE: "refuses",
            UNSAID: "doesn't say"}
    return f"the standard {says[case.expect]} (RFC {RULES[case.rule][0].replace(' ', ', ')})"


def verb(group, cell, many):
    """What a library, or many, do with a case."""
    s = "" if many else "s"
    return {YES: {"show": f"show{s} a text of it", "order": f"sort{s} so"}.get(group, f"accept{s}"),
            OTHER: {"read": f"read{s} other labels or another end", "text": f"read{s} another name",
                    "show": f"show{s} a text of another name", "order": f"sort{s} differently"}[group],
            NO: f"refuse{s}", DIED: "died", HUNG: "gave no answer in 5 seconds",
            NONE: "have no such call" if many else "has no such call",
            UNASKED: "weren't asked" if many else "wasn't asked"}[cell]


def code(case):
    """A case's name for the page; what is text of a name is code."""
    return f"`{case.name}`" if "\\" in case.name or case.name.endswith(".") and "," not in case.name else case.name


def wrapped(line):
    """The lines of an item, of at most 119 characters; the second one and those after it begin under its text."""
    return "\n".join(textwrap.wrap(line, 119, subsequent_indent="  ", break_long_words=False, break_on_hyphens=False))


def filled(*sentences):
    return textwrap.fill(" ".join(sentences), 119, break_long_words=False, break_on_hyphens=False)


def package(name):
    """A Debian package with its version, which can have more mended than the library's own version tells."""
    if not name:
        return ""
    query = subprocess.run(["dpkg-query", "-W", "-f", "${Version}", name], capture_output=True, text=True, check=False)
    return f"{name} {query.stdout}"


class Report:
    def __init__(self, work):
        self.all = libraries(work)
        self.libraries = [library for library in self.all if library.driver]
        self.keys = [library.key for library in self.libraries]
        self.cases = list(corpus.cases())
        self.cells = {}
        self.answers = {}
        for library in self.libraries:
            answers = ask(library, [case.line for case in self.cases], failures=MOST_FAILURES)
            for case, answer in zip(self.cases, answers):
                self.answers[case.group, case.name, library.key] = answer
                self.cells[case.group, case.name, library.key] = outcome(case, answer)
        self.chains = {library.key: longest_chain(library) for library in self.libraries}
        self.random = RandomMessages(self.libraries)
        self.pages = {PAGE: [], CASES: []}
        self.page = self.pages[PAGE]

    def say(self, *lines):
        self.page.extend(lines)

    def row(self, case):
        return {key: self.cells[case.group, case.name, key] for key in self.keys}

    def has(self, key, group):
        return any(self.row(case)[key] != NONE for case in self.cases if case.group == group)

    # What is said of a case.

    def sentence(self, cases):
        """Who does what with cases that all libraries answer alike."""
        row, case = self.row(cases[0]), cases[0]
        # Those that do what most do, or what the standard says, aren't named.
        most = Counter(row.values()).most_common(1)[0][0]
        unnamed = {UNSAID: most, ACCEPT: YES, REFUSE: NO}[case.expect]
        parts = []
        for cell in (YES, OTHER, NO, DIED, HUNG, UNASKED):
            keys = [key for key in row if row[key] == cell]
            if keys and cell != unnamed:
                parts.append(f"{', '.join(keys)} {verb(case.group, cell, len(keys) > 1)}")
        if case.expect == UNSAID:
            said = f"{standard(case)}; {'; '.join(parts)}, the others {verb(case.group, unnamed, True)}"
        else:
            said = f"{standard(case)}, and {'; '.join(parts)}"
        return wrapped(f"- {' / '.join(map(code, cases))}: {said}.")

    def majority(self, case):
        """What more than half of the other libraries that have the call do, and how many those are."""
        others = [cell for key, cell in self.row(case).items() if key != "this" and cell not in (NONE, UNASKED)]
        cell, count = Counter(others).most_common(1)[0]
        return cell if 2 * count > len(others) else None, count, len(others)

    def wrong(self):
        """The cases where this project differs from the standard's text: those that no page states, and the rest."""
        wrong = [case for case in self.cases if is_right(case, self.row(case).get("this", NONE)) is False]
        return [case for case in wrong if case.name not in STATED], [case for case in wrong if case.name in STATED]

    # The page.

    def head(self):
        self.say("# Comparison with other libraries", "", filled(
            "What DNS libraries accept as a name in a message and as a name's text, how they order names, and what "
            "the standard says. `evidence/compare/run.sh WORK docs` builds a driver for each library that is "
            f"installed, and asks all of them the same {len(self.cases)} cases (`evidence/compare/corpus.py`, whose "
            "expected answers come from the standard's text alone). It writes this page and [the table of all "
            f"cases](../evidence/compare/{CASES}): here on {datetime.date.today().isoformat()}, {platform.system()} "
            f"{platform.machine()}. The page reports only what that run saw of the versions below."), "", filled(
            "What hostile messages cost in each: [COST.md](COST.md). How 300 messages of dnspython and libknot come "
            "out when this project reads and writes them: [CONFORMANCE.md](CONFORMANCE.md#messages-of-other-writers). "
            "`evidence/compare/registries` checks whether the types, classes, codes and options here have IANA's "
            "numbers and words. It compares each with the copy of the registry that Net::DNS has, and prints what is "
            "later than that copy. What `dnszone` and name servers answer to the same queries: "
            "[last run](../evidence/zones/last-run.md). What large zones cost here and in other programs: "
            "[size.md](../evidence/zones/size.md)."), "")

    def differences(self):
        self.say("## Where this project differs", "")
        if "this" not in self.keys:
            self.say("Its library for C wasn't built, so this run doesn't say.", "")
            return
        lines = []
        for case in self.cases:
            cell, (most, count, among) = self.row(case)["this"], self.majority(case)
            if most not in (None, cell):
                lines.append(wrapped(f"- {code(case)} ({WHERE[case.group]}): here '{cell}', in {count} of {among} "
                                     f"others '{most}'; {standard(case)}."))
        self.say("From most of the others, in " + (f"{len(lines)} cases:" if lines else "no case."), "")
        if lines:
            self.say(*lines, "")
        wrong, stated = self.wrong()
        self.say(f"From the standard's text, in {len(wrong + stated)} cases" + (":" if wrong + stated else "."), "")
        if wrong + stated:
            self.say(*(wrapped(f"- {code(case)} ({WHERE[case.group]}): {STATED.get(case.name, 'no page states it')}; "
                               f"{standard(case)}.") for case in wrong + stated), "")

    def list_libraries(self):
        self.say("## The libraries", "", "| Column | Library | Version | Debian package |", "|---|---|---|---|")
        for library in self.all:
            version = library.version if library.driver else "not built: " + library.missing
            self.say(f"| {library.key} | {library.name} | {version} | {package(library.package)} |")
        self.say("")

    def counts(self):
        """For each library, in how many cases it differs from the standard's text."""
        told = {group: [case for case in self.cases if case.group == group and case.expect != UNSAID]
                for group in WHERE}
        self.say("## How often each differs from the standard's text", "", filled(
            "Of the cases that the standard decides. The random messages are compared with a reader of twenty lines "
            f"([its rules](../evidence/compare/{CASES}#random-messages)). The last column is how many pointers in a "
            f"row a library follows, of up to {CHAIN:,}."), "",
            "| | " + " | ".join(f"{WHERE[group]}, {len(cases)}" for group, cases in told.items())
            + f" | random messages, {RANDOM_MESSAGES:,} | pointers |", "|---|" + "--:|" * (len(told) + 2))
        for key in self.keys:
            cells = []
            for group, cases in told.items():
                found = [self.row(case)[key] for case in cases]
                failed = sum(cell in (DIED, HUNG, UNASKED) for cell in found)
                wrong = sum(is_right(case, cell) is False for case, cell in zip(cases, found))
                said = f"{wrong} ({failed} died or hung)" if failed else f"{wrong}"
                cells.append(said if self.has(key, group) else "-")
            chain = self.chains[key]
            cells += [f"{self.random.wrong(key):,}", "all" if chain is None else f"{chain}"]
            self.say(f"| {key} | " + " | ".join(cells) + " |")
        self.say("")

    def sentences(self):
        self.say("## Where they differ", "", filled(
            "Libraries that aren't named do what the standard says. cares, libc and both of Go's return names as "
            "text, which their drivers split into labels. The call of cares that makes a name from text makes a query "
            "of it, and that of gonet knows no escapes: neither claims to read texts of zone files."), "")
        for group, title in TITLES.items():
            alike = {}
            for _, cases in self.rows(group):
                if len(set(self.row(cases[0]).values()) - {NONE}) > 1:
                    key = (cases[0].rule, cases[0].expect, *self.row(cases[0]).values())
                    alike.setdefault(key, []).append(cases[0])
            self.say(f"{title}:", "", *map(self.sentence, alike.values()), "")

    # The page of all cases.

    def rows(self, group):
        """The cases of a table, those of a name that is cut, which all have the same answers, in one row."""
        rows = []
        for case in self.cases:
            kind = case.name.split(" after ")[0] if " cut after " in case.name and " of " in case.name else case.name
            if case.group == group and rows and rows[-1][0] == kind and self.row(rows[-1][1][0]) == self.row(case):
                rows[-1][1].append(case)
            elif case.group == group:
                rows.append((kind, [case]))
        return rows

    def table(self, group):
        keys = [key for key in self.keys if self.has(key, group)]
        self.say(f"## {TITLES[group]}", "", filled(LEGENDS[group]), "",
                 "| Case | Standard | " + " | ".join(keys) + " |", "|---|---|" + "---|" * len(keys))
        for kind, cases in self.rows(group):
            row, case = self.row(cases[0]), cases[0]
            name = code(case) if len(cases) == 1 else f"{kind}, {len(cases)} cases"
            cells = [f"**{row[key]}**" if is_right(case, row[key]) is False else row[key] for key in keys]
            says = f"{case.expect}, {RULES[case.rule][0]} [{list(RULES).index(case.rule) + 1}]"
            self.say(f"| {name} | {says} | " + " | ".join(cells) + " |")
        self.say("")
        lacking = [key for key in self.keys if key not in keys]
        if lacking:
            self.say(f"No such call: {', '.join(lacking)}.", "")

    def texts_read_here(self):
        """Which texts that the other libraries wrote of a name this project reads otherwise, or not at all."""
        this = next((library for library in self.libraries if library.key == "this"), None)
        shown_texts = [(key, case, self.answers["show", case.name, key].split(" ")[1])
                       for key in self.keys if key != "this"
                       for case in self.cases if case.group == "show" and self.row(case)[key] == YES]
        if this is None:
            return
        answers = ask(this, [f"text {text}" for _, _, text in shown_texts])
        other = [f"{key}'s " + ("text without any character" if text == "-" else f"`{bytes.fromhex(text).decode()}`")
                 + f" for '{case.name}'"
                 for (key, case, text), answer in zip(shown_texts, answers) if answer != f"ok {shown(case.labels)}"]
        self.say(filled(f"The other libraries wrote {len(shown_texts)} texts so. This project reads all of them as "
                        "the same name" + (f", with these exceptions: {', '.join(other)}." if other else ".")), "")

    def list_rules(self):
        self.say("## What the standard says", "", "By the numbers in the tables, in other words than its own:", "")
        for number, (section, text) in enumerate(RULES.values(), 1):
            self.say(wrapped(f"{number}. RFC {section.replace(' ', ', ')}: {text}"))

    def all_cases(self):
        self.page = self.pages[CASES]
        self.say("# Every case of the comparison", "", filled(
            f"What docs/{PAGE} sums up, as `evidence/compare/run.sh WORK docs` wrote it on "
            f"{datetime.date.today().isoformat()}. Bold is what the standard's text contradicts. Where it says "
            "nothing ('unsaid'), 'yes' is the name that one would read. died, hung: what the driver did at this "
            f"case, in 5 seconds; ?: not asked, after {MOST_FAILURES} such cases; -: no such call."), "")
        for group in TITLES:
            self.table(group)
            if group == "show":
                self.texts_read_here()
        self.random.tell(self.say)
        self.list_rules()

    def make(self):
        self.head()
        self.differences()
        self.list_libraries()
        self.counts()
        self.sentences()
        self.all_cases()

    def last_line(self):
        wrong, stated = self.wrong()
        here = f"this project differs from the standard's text in {len(wrong)} cases"
        if stated:
            here += f", beside the {len(stated)} that its pages state"
        if "this" not in self.keys:
            here = "this project wasn't asked, since its library isn't built"
        asked = f"{len(self.cases)} cases and {RANDOM_MESSAGES:,} random messages, {len(self.libraries)} libraries"
        return f"{asked}; {here}"


def longest_chain(library):
    """The most pointers in a row that a library follows; None if it follows all that are tried."""
    messages = [corpus.pointers_in_a_row(count) for count in range(1, CHAIN + 1)]
    answers = ask(library, [f"read {message.hex()} {offset}" for message, offset in messages])
    return next((i for i, answer in enumerate(answers) if not (answer or "").startswith("ok")), None)


class RandomMessages:
    """How often each library does with random messages what `standard_name` does, and what each other does."""

    def __init__(self, all_libraries):
        messages = list(corpus.random_messages(RANDOM_MESSAGES))
        self.lines = [f"read {message.hex()} {offset}" for message, offset in messages]
        found = [corpus.standard_name(message, offset) for message, offset in messages]
        self.wanted = [f"ok {shown(pair[0])} {pair[1]}" if pair else "no" for pair in found]
        self.answers = {library.key: ask(library, self.lines) for library in all_libraries}

    def wrong(self, key):
        return sum(answer != want for answer, want in zip(self.answers[key], self.wanted))

    def kinds(self, key):
        """The lines where a library differs from `standard_name`, by how."""
        kinds = {"accepted": [], "refused": [], "read otherwise": [], "died or hung at": []}
        for line, answer, want in zip(self.lines, self.answers[key], self.wanted):
            if answer in (DIED, HUNG, None):
                kinds["died or hung at"].append(line)
            elif answer != want:
                kinds["accepted" if want == "no" else "refused" if answer == "no" else "read otherwise"].append(line)
        return kinds

    def tell(self, say):
        accepted = sum(word != "no" for word in self.wanted)
        say("## Random messages", "", filled(
            f"{len(self.lines):,} messages of 1 to 40 octets, each made of one of {len(corpus.ALPHABETS)} small "
            "alphabets, with an offset in each. They are compared with a reader of some twenty lines (`standard_name` "
            "in `evidence/compare/corpus.py`), written from RFC 1035, 3.1 and 4.1.4. It takes 'prior' for an "
            "offset before "
            f"the pointer's own, and doesn't ask whether a name began there. It accepts {accepted:,} of them."), "",
            "| Library | as that reader | only it accepts | only the reader accepts | other labels or end | died or "
            "hung |",
            "|---|--:|--:|--:|--:|--:|")
        examples = []
        for key in self.answers:
            kinds = self.kinds(key)
            counts = [len(found) for found in kinds.values()]
            cells = [f"{count:,}" for count in [len(self.lines) - sum(counts), *counts]]
            say(f"| {key} | " + " | ".join(cells) + " |")
            shortest = {kind: min(found, key=len).split(" ") for kind, found in kinds.items() if found}
            if shortest:
                examples.append(wrapped(f"- {key}: " + "; ".join(
                    f"{kind} `{message}` at {offset}" for kind, (_, message, offset) in shortest.items())))
        say("", "The shortest message of each kind:", "", *examples, "")
        self.tell_pairs(say)

    def tell_pairs(self, say):
        say("How many of the messages two libraries answer alike:", "",
            "| | " + " | ".join(self.answers) + " |", "|---|" + "--:|" * len(self.answers))
        for left in self.answers:
            counts = {right: sum(a == b for a, b in zip(self.answers[left], self.answers[right]))
                      for right in self.answers}
            cells = ["" if right == left else f"{count:,}" for right, count in counts.items()]
            say(f"| {left} | " + " | ".join(cells) + " |")
        say("")


def main():
    corpus.check()
    report = Report(sys.argv[1])
    report.make()
    if len(sys.argv) > 2:
        Path(sys.argv[2]).mkdir(parents=True, exist_ok=True)
    for name, lines in report.pages.items():
        text = "\n".join(lines).rstrip("\n") + "\n"
        if len(sys.argv) > 2:
            folder = Path(__file__).resolve().parent if name == CASES else Path(sys.argv[2])
            Path(folder, name).write_text(text, encoding="utf-8")
        else:
            print(text)
    print(report.last_line())
    return 1 if report.wrong()[0] else 0


if __name__ == "__main__":
    sys.exit(main())
