#!/usr/bin/env python3
"""Puts the lines of several runs of the benchmark side by side: table.py [--write] FILE..

Prints tables in Markdown: nanoseconds of one call, the best of all runs, and the port's time as a part of the
Rust crate's. With --write they go into rows.md beside this script, after how many rows are ahead and behind, and
two pictures into parts.svg and growth.svg. Where the two have other results for the same operation and file, the line
ends in DIFFERENT and the status is 1.
"""

import collections
import math
import pathlib
import re
import sys

CRATE, PORT, PEERS = "rust-domain", "port", ["libknot", "ldns", "trust-dns"]
INPUTS = {
    "typical": "typical",
    "pointer": "one pointer",
    "short": "short",
    "long": "long message",
    "deep": "127 labels",
    "worst": "worst",
    "escaped": "escapes",
    "records-4": "4 records",
    "records-100": "100 records",
    "records-1000": "1,000 records",
}
GROUPS = {
    "Reading a name in a message": {
        "parse": "Reading a name",
        "kept": "Reading it by a call that isn't inlined",
        "skip": "Skipping a name",
        "labels": "Reading it, and its labels from the front",
        "labels_back": "Reading it, and its labels from the back",
        "parents": "Reading it, and its suffixes",
        "label_count": "Reading it, and counting its labels",
    },
    "Handing on a name in a message": {
        "flatten": "Reading it, and `compose`",
        "flatten_canonical": "Reading it, and `compose_canonical`",
        "to_name": "Reading it, and `to_name` over a `Vec`",
        "to_name_array": "Reading it, and `to_name` over an array of 255",
        "parse_show": "Reading it, and showing it",
    },
    "Comparing a name in a message": {
        "parse_eq": "Reading it, and `name_eq` with a `Name`",
        "parse_cmp": "Reading it, and `name_cmp` with a `Name`",
        "parse_ends": "Reading it, and `ends_with` a `Name`",
        "parse_hash": "Reading it, and hashing it",
    },
    "Uncompressed names": {
        "check": "`Name::from_slice`",
        "name_parse": "`Name::parse`",
        "check_labels": "With `from_slice` its labels from the front",
        "check_back": "With it its labels from the back",
        "check_suffixes": "With it its suffixes",
        "check_split": "With it `split` in the middle",
        "check_compose": "With it `compose`",
        "check_canonical": "With it `compose_canonical`",
        "check_to_vec": "With it `to_vec`",
        "chained": "With it a chain with the root, `compose`",
        "check_hash": "With it hashing",
        "check_show": "With it showing, with a final dot",
        "check_show_fixed": "The same into an array of 1,024",
        "check_display": "With it showing, without",
    },
    "Two uncompressed names": {
        "check_eq": "With `from_slice` of both `name_eq`",
        "check_cmp": "With it `name_cmp`",
        "check_composed": "With it `composed_cmp`",
        "check_lower_composed": "With it `lowercase_composed_cmp`",
        "check_starts": "With it `starts_with`",
        "check_ends": "With it `ends_with`",
        "check_strip": "With it `strip_suffix`",
    },
    "Making names": {
        "append_labels": "A name's labels, to a builder over a `Vec`",
        "push_octets": "A name's octets, to a builder over an array",
        "from_chars": "`from_chars`, over a `Vec`",
        "from_chars_array": "`from_chars`, over an array of 255",
        "vec_from_str": "`vec_from_str`",
        "from_str_array": "`FromStr`, over an array of 255",
    },
    "Messages": {
        "records": "The type, class, TTL and length of all records",
        "record_data": "All records with their data",
        "records_of_type": "The IPv4 addresses among them",
    },
}
GROWING = {
    "parse": "reading",
    "skip": "skipping",
    "flatten": "reading and composing",
    "parse_eq": "reading and equality",
    "parse_cmp": "reading and order",
}
STREAMS = {
    "mixed": "names of eight zones",
    "hosts": "`host000.example.com` and on",
    "middles": "`h000x.example.com` and on",
}
WRITES = {
    "query": "A query with an OPT record",
    "answer": "An answer of 10 addresses",
    "referral": "A referral to 4 servers, with their addresses",
}
WRITERS = {
    "domain-scanning": "domain, offsets in turn",
    "domain-tree": "domain, a tree",
    "domain-hashed": "domain, a hash table",
    PORT: PORT,
    **{peer: peer for peer in PEERS},
}
ROWS_HEAD = """# Measured rows

What `evidence/bench/run.sh --write` wrote of its last run; docs/PERFORMANCE.md says how it was measured and what it
means. Times are nanoseconds of one call, the part is the port's time as a part of the crate's. For messages that are
written the times are those of one message, and the part is that of the quickest other. The two tables of these are of
their own last run, `run.sh --writing --write`, if that was later.
"""
COLOURS = ["#1b6ca8", "#c0392b", "#27864a", "#8e44ad", "#b9770e", "#444444", "#16a0a0"]


def read(paths):
    """The best time and the result of each peer, by operation and file."""
    rows = collections.defaultdict(dict)
    for path in paths:
        for line in pathlib.Path(path).read_text().splitlines():
            peer, operation, file, time, result = line.split("\t")
            row = rows[operation, file]
            if peer not in row or float(time) < row[peer][0]:
                row[peer] = (float(time), result)
    return rows


def time(value):
    return f"{value:,.0f}" if value >= 100 else f"{value:.1f}"


def input_of(file):
    return INPUTS.get(file.split(".")[0], file)


class Row:
    """A row of the table of parts."""

    def __init__(self, group, label, file, theirs, ours, same):
        self.group, self.label, self.input = group, label, input_of(file)
        self.theirs, self.ours, self.same = theirs, ours, same
        self.part = ours / theirs

    def mark(self):
        return ("**behind**" if self.part > 1.05 else "") + ("" if self.same else " DIFFERENT")


def parts(rows):
    """The rows of both the crate and the port, sorted by what they are."""
    found = []
    for group, operations in GROUPS.items():
        for operation, label in operations.items():
            for key in INPUTS:
                for end in ("msg", "names", "texts", "whole"):
                    row = rows.get((operation, f"{key}.{end}"), {})
                    if CRATE in row and PORT in row:
                        (theirs, wanted), (ours, result) = row[CRATE], row[PORT]
                        found.append(Row(group, label, f"{key}.{end}", theirs, ours, wanted == result))
    return found


def summary(found):
    """How many rows are ahead, even and behind."""
    behind = [row for row in found if row.part > 1.05]
    far = sum(row.part > 1.5 for row in found)
    ahead = sum(row.part < 0.95 for row in found)
    return (
        f"{len(found)} rows: {ahead} ahead by more than 5 in 100, {len(found) - ahead - len(behind)} even, "
        f"{len(behind)} behind by more than 5 in 100, {far} of them by more than 50."
    )


def parts_table(found):
    group = None
    for row in found:
        if row.group != group:
            if group:
                yield ""
            group = row.group
            yield f"| {group} | input | domain 0.12.3 | port | part | |"
            yield "|---|---|--:|--:|--:|---|"
        yield f"| {row.label} | {row.input} | {time(row.theirs)} | {time(row.ours)} | {row.part:.2f} | {row.mark()} |"


def peers_table(rows):
    yield f"| Beside other libraries | input | domain 0.12.3 | port | {' | '.join(PEERS)} |"
    yield "|---|---|--:|--:|" + "--:|" * len(PEERS)
    for operations in GROUPS.values():
        for operation, label in operations.items():
            for (other, file), row in rows.items():
                if other == operation and any(peer in row for peer in PEERS) and PORT in row:
                    cells = [time(row[peer][0]) if peer in row else "" for peer in [CRATE, PORT] + PEERS]
                    yield f"| {label} | {input_of(file)} | {' | '.join(cells)} |"


def growth(rows, operation):
    """The times by labels and pointers: {(labels, pointers): row}."""
    found = {}
    for (other, file), row in rows.items():
        match = re.fullmatch(r"grow-(\d+)-(\d+)\.msg", file)
        if match and other == operation and CRATE in row and PORT in row:
            found[int(match[1]), int(match[2])] = row
    return found


def growth_table(rows):
    pointers = sorted({key[1] for operation in GROWING for key in growth(rows, operation)})
    if not pointers:
        return
    heads = " | ".join(f"{p} pointers" for p in pointers)
    yield f"| Labels of one octet; domain 0.12.3 / port | labels | {heads} |"
    yield "|---|--:|" + "--:|" * len(pointers)
    for operation, label in GROWING.items():
        found = growth(rows, operation)
        for labels in sorted({key[0] for key in found}):
            cells = []
            for p in pointers:
                row = found.get((labels, p))
                cells.append(f"{time(row[CRATE][0])} / {time(row[PORT][0])}" if row else "")
            yield f"| {label} | {labels} | {' | '.join(cells)} |"


def streams(rows):
    """The times of composing with compression: {(kind, names): row}."""
    found = {}
    for (operation, file), row in rows.items():
        match = re.fullmatch(r"(\w+)-(\d+)\.stream", file)
        if match and operation == "compress":
            found[match[1], int(match[2])] = row
    return found


def streams_table(rows):
    found = streams(rows)
    if not found:
        return
    yield f"| Composing with compression, a name | names | port | {' | '.join(PEERS)} |"
    yield "|---|--:|--:|" + "--:|" * len(PEERS)
    for kind, label in STREAMS.items():
        for other, names in sorted(found):
            if other == kind:
                row = found[other, names]
                cells = [time(row[peer][0]) if peer in row else "" for peer in [PORT] + PEERS]
                yield f"| {label} | {names:,} | {' | '.join(cells)} |"


def writes(rows, prefix):
    """The rows of the kinds of messages that are written."""
    keys = {kind: (f"{prefix}write_{kind}", f"{kind}.writes") for kind in WRITES}
    return {kind: rows[key] for kind, key in keys.items() if PORT in rows.get(key, {})}


def writes_table(rows, head, prefix, has_mark):
    """A row for each kind of message that is written: what each library takes."""
    found = writes(rows, prefix)
    if not found:
        return
    yield f"| {head} | {' | '.join(WRITERS.values())} | part | |"
    yield "|---|" + "--:|" * (len(WRITERS) + 1) + "---|"
    for kind, row in found.items():
        cells = [time(row[peer][0]) if peer in row else "" for peer in WRITERS]
        part = row[PORT][0] / min(value for peer, (value, _) in row.items() if peer != PORT)
        mark = "" if is_written_same(row) or not has_mark else "DIFFERENT"
        yield f"| {WRITES[kind]} | {' | '.join(cells)} | {part:.2f} | {mark} |"


def is_written_same(row):
    """Whether the port's messages have the octets of those with the crate's names."""
    return all(row[peer][1] == row[PORT][1] for peer in WRITERS if peer.startswith("domain") and peer in row)


# ---- plots


def text(x, y, words, size=10, anchor="start", colour="#333", more=""):
    words = words.replace("&", "&amp;").replace("<", "&lt;").replace("`", "")
    return f'<text x="{x:.1f}" y="{y:.1f}" font-size="{size}" text-anchor="{anchor}" fill="{colour}" {more}>{words}</text>'


def picture(width, height, inside):
    return "\n".join(
        [f'<svg xmlns="http://www.w3.org/2000/svg" width="{width}" height="{height}" font-family="sans-serif">']
        + [f'<rect width="{width}" height="{height}" fill="white"/>']
        + inside
        + ["</svg>", ""]
    )


def plot_parts(found):
    """A bar for each row, from the crate's time down to the port's where it is ahead, or up where it is behind."""
    step, left, top, height = 7, 60, 40, 320
    low, high = 0.01, 4.0

    def y_of(part):
        return top + height * (math.log(high / min(max(part, low), high)) / math.log(high / low))

    gap, x, lines = 14, left, []
    group = None
    for row in found:
        if row.group != group:
            x += gap if group else 0
            group = row.group
            lines.append(text(x, top + height + 16, group, 10, more=f'transform="rotate(12 {x:.0f} {top + height + 16})"'))
        y, one = y_of(row.part), y_of(1)
        colour = COLOURS[1] if row.part > 1.05 else "#999999" if row.part > 0.95 else COLOURS[0]
        words = f"{row.label}, {row.input}: {row.part:.2f}".replace("`", "")
        lines.append(
            f'<rect x="{x}" y="{min(y, one):.1f}" width="{step - 2}" height="{max(abs(y - one), 1):.1f}" '
            f'fill="{colour}"><title>{words}</title></rect>'
        )
        x += step
    width = x + 140
    grid = [text(left, 20, "The port's time as a part of the crate's, a bar for each row; red: behind", 13)]
    for part in (0.01, 0.02, 0.05, 0.1, 0.2, 0.5, 1, 2, 4):
        y = y_of(part)
        colour = "#333" if part == 1 else "#ddd"
        grid.append(f'<line x1="{left}" x2="{x}" y1="{y:.1f}" y2="{y:.1f}" stroke="{colour}"/>')
        grid.append(text(left - 6, y + 3, f"{part:g}", 10, "end"))
    return picture(width, top + height + 70, grid + lines)


class Panel:
    """Lines over axes that both are logarithmic."""

    def __init__(self, x, y, title, across):
        self.x, self.y, self.title, self.across = x, y, title, across
        self.width, self.height, self.lines = 270, 200, []

    def add(self, name, points, colour, dashed):
        if points:
            self.lines.append((name, sorted(points), colour, dashed))

    def draw(self):
        xs = [x for _, points, _, _ in self.lines for x, _ in points]
        ys = [y for _, points, _, _ in self.lines for _, y in points]
        if not xs:
            return []
        low, high = 10 ** math.floor(math.log10(min(ys))), 10 ** math.ceil(math.log10(max(ys)))

        def place(x, y):
            across = math.log(x / min(xs)) / max(math.log(max(xs) / min(xs)), 1)
            up = math.log(y / low) / math.log(high / low)
            return self.x + across * self.width, self.y + self.height * (1 - up)

        out = [text(self.x, self.y - 10, self.title, 12)]
        decade = low
        while decade <= high:
            _, y = place(min(xs), decade)
            out.append(f'<line x1="{self.x}" x2="{self.x + self.width}" y1="{y:.1f}" y2="{y:.1f}" stroke="#ddd"/>')
            out.append(text(self.x - 5, y + 3, f"{decade:g}", 9, "end"))
            decade *= 10
        for x in sorted(set(xs)):
            at, _ = place(x, low)
            out.append(text(at, self.y + self.height + 12, f"{x:g}", 9, "middle"))
        out.append(text(self.x + self.width / 2, self.y + self.height + 26, self.across, 10, "middle"))
        labelled = []
        for name, points, colour, dashed in self.lines:
            places = [place(x, y) for x, y in points]
            path = " ".join(f"{x:.1f},{y:.1f}" for x, y in places)
            dash = ' stroke-dasharray="4 3"' if dashed else ""
            out.append(
                f'<polyline points="{path}" fill="none" stroke="{colour}" stroke-width="1.5"{dash}>'
                f"<title>{name.replace('`', '')}</title></polyline>"
            )
            if not dashed:
                labelled.append((*places[-1], name, colour))
        free = self.y
        for end, y, name, colour in sorted(labelled, key=lambda label: label[1]):
            free = max(free, y)
            out.append(text(end + 4, free + 3, name, 9, colour=colour))
            free += 10
        return out


def plot_growth(rows):
    inside = [text(60, 22, "Nanoseconds of a call as names and messages grow; both axes are logarithmic", 13)]
    inside.append(text(60, 38, "Names of labels of one octet: whole lines are the port's, dashed the crate's", 11))
    panels = []

    def panel(title, across):
        at = len(panels)
        panels.append(Panel(60 + (at % 3) * 400, 80 + (at // 3) * 280, title, across))
        return panels[-1]

    for operation, label in GROWING.items():
        here = panel(label, "labels")
        found = growth(rows, operation)
        for colour, pointers in zip(COLOURS, sorted({key[1] for key in found})):
            for peer, dashed in ((PORT, False), (CRATE, True)):
                points = [(labels, row[peer][0]) for (labels, p), row in found.items() if p == pointers]
                here.add(f"{pointers} pointers", points, colour, dashed)
    here = panel("composing with compression, a name", "names in the message")
    found = streams(rows)
    lines = [(PORT, kind) for kind in STREAMS] + [(peer, "mixed") for peer in PEERS]
    for colour, (peer, kind) in zip(COLOURS, lines):
        points = [(names, row[peer][0]) for (other, names), row in found.items() if other == kind and peer in row]
        here.add(f"port, {kind}" if peer == PORT else peer, points, colour, False)
    for one in panels:
        inside += one.draw()
    return picture(1270, 620, inside)


def replaced(old, new):
    """The blocks of an earlier page, those of the same head as a new one replaced, and then the other new ones."""

    def head(block):
        return block.split("|")[1] if block.startswith("|") else block

    fresh = {head(block): block for block in new}
    blocks = [fresh.pop(head(block), block) for block in old]
    return blocks + list(fresh.values())


def write(rows, found, body):
    """Writes the page and the two pictures, or of written messages alone their tables."""
    here = pathlib.Path(__file__).resolve().parent
    page = here / "rows.md"
    if found:
        page.write_text(f"{ROWS_HEAD}\n{summary(found)}\n\n{body}")
        (here / "parts.svg").write_text(plot_parts(found))
        (here / "growth.svg").write_text(plot_growth(rows))
    else:
        # (without the title and the words below it)
        old = page.read_text().strip().split("\n\n")[2:]
        page.write_text("\n\n".join([ROWS_HEAD.strip(), *replaced(old, body.strip().split("\n\n"))]) + "\n")


def main():
    args = sys.argv[1:]
    is_written = args[:1] == ["--write"]
    rows = read(args[1:] if is_written else args)
    found = parts(rows)
    written = (
        writes_table(rows, "Writing a message", "", True),
        writes_table(rows, "The instructions of that", "count_", False),
    )
    made = (parts_table(found), peers_table(rows), growth_table(rows), streams_table(rows), *written)
    tables = [list(table) for table in made]
    body = "\n\n".join("\n".join(table) for table in tables if len(table) > 2) + "\n"
    print(f"{summary(found)}\n\n{body}" if found else body)
    if is_written:
        write(rows, found, body)
    return 0 if all(row.same for row in found) and all(map(is_written_same, writes(rows, "").values())) else 1


if __name__ == "__main__":
    sys.exit(main())
