#!/usr/bin/env python3
"""Sorts the names of a zone in canonical order (RFC 4034, 6.1) and prints them as a tree.

    zone_tree.py ORIGIN < NAMES

NAMES has a name a line. A name that isn't below the origin, or that is none, is told on standard error, and the
status is 1 then.
"""

import sys
from typing import Iterable, List

from dnsnames import DnsError, Name


def tree(origin: Name, names: Iterable[Name]) -> List[str]:
    """A line for each name, and for each name between it and the origin, once, indented by its depth.

    >>> print(*tree(Name("example"), map(Name, ["z.example", "b.a.example", "Z.example"])), sep="\\n")
    example.
      a
        b
      z
    """
    lines, seen = [], set()
    for name in sorted({origin, *names}):
        above = []
        while name not in seen and name.is_subdomain_of(origin):
            above.append(name)
            seen.add(name)
            if name == origin:
                break
            name = name.parent()
        for one in reversed(above):
            depth = len(one) - len(origin)
            label = Name.from_wire(bytes([len(one[0])]) + one[0] + b"\0").to_text(final_dot=False) if depth else str(one)
            lines.append("  " * depth + label)
    return lines


def main() -> int:
    origin, names, status = Name(sys.argv[1]), [], 0
    for line in map(str.strip, sys.stdin):
        try:
            name = Name(line)
        except DnsError as fault:
            print(f"{line}: {fault}", file=sys.stderr)
            status = 1
            continue
        if name.is_subdomain_of(origin):
            names.append(name)
        else:
            print(f"{line}: not in {origin}", file=sys.stderr)
            status = 1
    print(*tree(origin, names), sep="\n")
    return status


if __name__ == "__main__":
    sys.exit(main())
