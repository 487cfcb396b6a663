#!/usr/bin/python3 -B
"""What following the CNAME records of messages costs, counted, and which messages cost most.

For each message it has its octets, its records, how often `canonical_name` with a limit of 16 reads the answers and
their records, and how many labels and pointers the owners of these have. It makes messages of two kinds, of each with
all its parameters, and takes those that cost most, in records and in labels and pointers.

- A chain leads from the question's name along names of a few octets, in order or backwards. Its names end in the root
  or in a base, and the base is read through no or many pointers.
- A ring of records leads back to the question's name. Behind it nothing counts, and before it are others: CNAME
  records or not, of the root or of a name that is read through many pointers, without data or with a name.

By itself it prints them. `cost` puts them into its page. Nothing is measured: the counts are of the octets of each
message, as domain_message follows them. Each look goes up to the record that it finds, or to the end. There is one
look more than the limit at most. So no message can cost more than that many looks at all records, of eleven octets
each. The worst that is found comes within one in a hundred of that.
"""
import functools
import itertools
from typing import NamedTuple

from corpus import pointer

FAR = 16384  # a pointer leads before this offset
SIZES = 1232, 65535
LIMIT = 16
OWNER, TARGET = b"\x01a\0", b"\x01b\0"
CNAME, OTHER = b"\0\5", b"\0\0"
# A record that isn't followed has as its type, its data, and whether its owner is read through many pointers.
FILLERS = tuple(itertools.product((CNAME, OTHER), (b"", b"\0"), (False, True)))


class Cost(NamedTuple):
    """What following the aliases of a message costs."""

    octets: int
    records: int
    looks: int
    read: int
    heads: int


def header(answers):
    return bytes.fromhex("1234 8180 0001") + answers.to_bytes(2, "big") + bytes(4)


def record(owner, rtype, data):
    return owner + rtype + bytes.fromhex("0001 00000000") + len(data).to_bytes(2, "big") + data


def deep(at, labels):
    """Octets for this offset: so many labels of one octet, each behind a pointer, and pointers that lead from one to
    another, the last of them to all of these: 253 pointers in all, with one that leads to it 254."""
    octets, target = b"\x01x\0", 0
    for _ in range(labels - 1):
        octets, target = octets + b"\x01x" + pointer(at + target), len(octets)
    for _ in range(254 - labels):
        octets, target = octets + pointer(at + target), len(octets)
    return octets


def based(question, labels):
    """The octets of a message up to a record whose data is such a name, and where the name begins."""
    start = header(0) + question + bytes.fromhex("0001 0001")
    base = deep(len(start) + 11, labels)
    start += record(b"\0", OTHER, base)
    return start, len(start) - 2


def ring(size, length, rtype, data, is_deep):
    """Records that aren't followed, and behind them a ring of so many CNAME records back to the question's name."""
    start, owner = header(0) + OWNER + bytes.fromhex("0001 0001"), b"\0"
    if is_deep:
        start, base = based(OWNER, 127)
        start += record(pointer(base), rtype, data)
        owner = pointer(len(start) - len(record(pointer(base), rtype, data)))
    names = [pointer(12), *(bytes([1, 98 + it, 0]) for it in range(length - 1)), pointer(12)]
    end = b"".join(record(one, CNAME, next_one) for one, next_one in itertools.pairwise(names))
    filler = record(owner, rtype, data)
    count = (size - len(start) - len(end)) // len(filler)
    return start + count * filler + end, count + length + 2 * is_deep


def chain(size, links, letters, is_deep, is_backwards):
    """A chain of so many CNAME records, whose names are a label of so many octets before a base; None if it is too
    long."""
    base = 0
    start = header(0) + bytes([letters]) + letters * b"\0" + b"\0" + bytes.fromhex("0001 0001")
    if is_deep:
        start, base = based(bytes([letters]) + letters * b"\0" + 126 * b"\x01x" + b"\0", 126)
    message, at = [start], {0: 12}
    length = len(start)
    for i in range(links - 1, -1, -1) if is_backwards else range(links):
        names = []
        for j in (i, i + 1):
            if at.get(j, FAR) < FAR:
                names.append(pointer(at[j]))
            else:
                # Without the octets of letters, so that no two are the same without case.
                digits = (j // 190 ** k % 190 for k in range(letters))
                label = bytes([letters, *(it if it < 65 else it + 66 for it in digits)])
                names.append(label + (pointer(base) if base else b"\0"))
                at[j] = length + (len(names[0]) + 10) * (j > i)
        message.append(record(names[0], CNAME, names[1]))
        length += len(message[-1])
        if length > size:
            return None
    return b"".join(message), links + (base > 0)


def longest(size, *parameters):
    low, high = 1, 6000
    while high - low > 1:
        middle = (low + high) // 2
        low, high = (middle, high) if chain(size, middle, *parameters) else (low, middle)
    return chain(size, low, *parameters)


def cost(made):
    """The cost of a message whose records, and how many it has, are these."""
    message, count = made
    known = {}

    def name(at):
        """The labels of the name there, and its labels and pointers."""
        path, begin = [], at
        while begin not in known:
            size = message[begin]
            path.append(begin)
            if size == 0:
                known[begin] = (), 1
            else:
                begin = (size & 63) << 8 | message[begin + 1] if size >= 192 else begin + 1 + size
        for step in reversed(path):
            if step not in known:
                size = message[step]
                labels, heads = known[(size & 63) << 8 | message[step + 1] if size >= 192 else step + 1 + size]
                label = () if size >= 192 else (message[step + 1:step + 1 + size].lower(),)
                known[step] = (*label, *labels), heads + 1
        return known[at]

    def name_end(at):
        while 0 < message[at] < 192:
            at += 1 + message[at]
        return at + 1 + (message[at] >= 192)

    found, heads, at = {}, [0], name_end(12) + 4
    for place in range(1, count + 1):
        end = name_end(at)
        owner, data = name(at), end + 10
        heads.append(heads[-1] + owner[1])
        at = data + int.from_bytes(message[end + 8:data], "big")
        if message[end:end + 2] == CNAME and at > data and name_end(data) == at:
            found.setdefault(owner[0], (place, name(data)[0]))
    assert at == len(message), (at, len(message))

    labels, places = name(12)[0], []
    while labels is not None and len(places) <= LIMIT:
        place, labels = found.get(labels, (count, None))
        places.append(place)
    return Cost(len(message), count, len(places), sum(places), sum(heads[it] for it in places))


def messages(size):
    """Each message of this size, with what it is."""
    rings = {1: "one record", 2: "two records", 3: "three records"}
    kinds = {CNAME: "CNAME records", OTHER: "other records"}
    for length, (rtype, data, is_deep) in itertools.product(rings, FILLERS):
        its_data = "whose data is the root" if data else "without data"
        text = f"a ring of {rings[length]} behind {kinds[rtype]} {its_data}"
        yield text + is_deep * ", of names through 255 pointers", ring(size, length, rtype, data, is_deep)
    for letters, is_deep, is_backwards in itertools.product((2, 3), (False, True), (False, True)):
        text = f"a chain {'backwards' if is_backwards else 'in order'}, with labels of {letters} octets"
        yield text + is_deep * ", of names through 255 pointers", longest(size, letters, is_deep, is_backwards)


@functools.lru_cache(maxsize=None)
def worst(size):
    """Of the messages of this size those that make most records and most labels read, and the chain that makes most
    records read. Each is what it is, and its cost."""
    costs = [(text, cost(made)) for text, made in messages(size)]
    chains = [it for it in costs if it[0].startswith("a chain")]
    return (max(costs, key=lambda it: it[1].read), max(costs, key=lambda it: it[1].heads),
            max(chains, key=lambda it: it[1].read))


def counted():
    """The rows: what the message is, and its cost."""
    return [("a chain of 12 in order", cost(chain(SIZES[0], 12, 3, False, False))),
            *(row for size in SIZES for row in dict.fromkeys(worst(size)))]


def line(text, numbers):
    return f"| {text} | " + " | ".join(f"{number:,}" for number in numbers) + " |"


if __name__ == "__main__":
    print(*(line(*row) for row in counted()), sep="\n")
