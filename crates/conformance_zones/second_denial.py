"""A second reader of the RRsets that show what a zone lacks, written from RFC 4034 (4.1.1, 6.1), 4035 (2.3, 3.1.3,
3.1.4) and 4592 (3.3.1). It lists all names that should own an NSEC RRset, in canonical order, and finds the last one up
to a name."""

import bisect

from second_zone import DS, NS, NSEC, Zone, in_section, labels_of, shown


def canonical(labels):
    """What the canonical order compares (RFC 4034, 6.1): the labels in lower case, the top one first."""
    return [it.lower().encode("latin-1") for it in reversed(labels)]


def chain(zone):
    """The names that should own an NSEC RRset, in order, each with its node: what owns records, down to the first cut
    (RFC 4035, 2.3)."""
    names, stack = [], [(canonical(zone.apex), zone.top)]
    while stack:
        name, node = stack.pop()
        if node.sets:
            names.append((name, node))
        if node is zone.top or NS not in node.sets:
            stack += (([*name, label.encode("latin-1")], it) for label, it in node.below.items())
    return sorted(names, key=lambda it: it[0])


def nsec_for(names, labels):
    """The NSEC RRset at a name, or the one that covers it, as a list of it or of none."""
    place = bisect.bisect_right([it for it, _ in names], canonical(labels))
    sets = names[place - 1][1].sets
    return [in_section(NSEC, sets[NSEC])] if NSEC in sets else []


def closest_encloser(zone, labels):
    """The labels of the name above that exists and has the most of them."""
    node, path = zone.top, zone.inside(labels)
    depth = 0
    while depth < len(path) and path[depth] in node.below:
        node = node.below[path[depth]]
        depth += 1
    return labels[len(path) - depth :]


def denial(zone, name, rtype):
    """The RRsets for a question (RFC 4035, 3.1.3 and 3.1.4)."""
    answer, labels = zone.answer(name, rtype)[0], labels_of(name)
    if answer.startswith("referral"):
        sets = zone.owned(labels_of(answer.split(" ")[1]))
        return [in_section(it, sets[it]) for it in (DS, NSEC) if it in sets][:1]
    if not (answer in ("no data", "name error") or answer.startswith("synthesized")):
        return []
    names = chain(zone)
    sets = nsec_for(names, labels)
    if answer in ("name error", "synthesized no data"):
        source = nsec_for(names, ["*", *closest_encloser(zone, labels)])
        sets += [it for it in source if it not in sets]
    return sets


def answers(apex, records, questions):
    """The line of answers to a line of the table."""
    zone = Zone(apex)
    said = "".join(zone.insert(*it) for it in records)
    if not (zone.is_zone() and zone.wildcards_fit()):
        return f"{said} no zone"
    return "; ".join([said, *(",".join(shown(*one) for one in denial(zone, *it)) or "-" for it in questions)])
