"""Where the repository and the passes of this machine are, its crates, and how a run that can't go on ends."""

import graphlib
import os
import pathlib
import re
import sys

TOP = pathlib.Path(__file__).resolve().parents[2]
STORE = pathlib.Path(os.environ.get("XDG_CACHE_HOME") or pathlib.Path.home() / ".cache") / "wrong-bodies"
# What passed under other rules counts for nothing: raise it when they change.
RULES = 8
NAME = re.compile("[a-z][a-z0-9_]*")


def stop(why):
    print(f"{pathlib.Path(sys.argv[0]).name}: {why}", file=sys.stderr)
    raise SystemExit(2)


def read_crates():
    """The crates of crates.txt, each with what is before the colon, and with what it uses."""
    listed = {}
    try:
        lines = (TOP / "crates.txt").read_bytes().decode().split("\n")
    except (OSError, UnicodeDecodeError) as why:
        stop(f"crates.txt can't be read: {why}")
    for number, line in enumerate(lines, 1):
        head, colon, uses = line.partition("#")[0].partition(":")
        name = (head.split() or [""])[0]
        if colon or name:
            if not colon or not all(NAME.fullmatch(it) for it in [name, *uses.split()]):
                stop(f"crates.txt:{number} is no line 'NAME: DEP ..': {line.strip()[:60]}")
            if name in listed:
                stop(f"crates.txt:{number} lists {name} again")
            listed[name] = head, uses.split()
    try:
        graphlib.TopologicalSorter({name: uses for name, (_, uses) in listed.items()}).prepare()
    except graphlib.CycleError as why:
        stop(f"crates.txt has a crate that stands on itself: {' '.join(why.args[1])}")
    return listed


def below(name, listed):
    """The repository's crates that this one stands on, each after those that it stands on itself."""
    deps = [it for it in listed[name][1] if it in listed]
    return [*dict.fromkeys(it for dep in deps for it in [*below(dep, listed), dep])]
