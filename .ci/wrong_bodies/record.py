"""The sums under which a pass is kept, the record of a crate's passes that is committed, and the crates that a run
tries although the record has them."""

import contextlib
import functools
import hashlib
import os
import re
import shutil
import subprocess

from .common import RULES, TOP, stop

# What a check reads of a library below: what callers see of it, and what is stated and proved beside it.
CALLED = ("interface", "lang/antt/specs", "lang/antt/specs.antt", "lang/antt/proofs", "lang/antt/proofs.antt")
MADE = "lang/antt/made.json"
# How a function there is proved: a proof above cites that it is, and nothing of these files.
ANSWERS = ("Answers.antt", "Invariants.antt")
# The lines of MADE that a body alone changes: itself, its proof, and what it calls, by which the links have their
# order. No proof in a crate above rests on them.
KINDS = "Mir|Lts|MadeProof|Close|Code|LinkOfFunction|LinkOfCrate"
OF_A_BODY = re.compile(rf'^\{{"({KINDS})":.*\n|^".*TheLinks"\n.*\n'.encode(), re.M)
# Lines of sources that say nothing to the prover: comments, and empty ones.
SAYS_NOTHING = {"rt": re.compile(rb"^[ \t]*(//.*)?\n", re.M), "antt": re.compile(rb"^[ \t]*(--.*)?\n", re.M)}
LINE = re.compile(r"([0-9a-f]{64})  (\S+\.edit)")
DRAWN = 3


def sum_of(files):
    """The sum of files, given by their names, with the names."""
    made = hashlib.sha256()
    for name, octets in sorted(files.items()):
        made.update(repr((name, len(octets))).encode())
        made.update(octets)
    return made.hexdigest()


def without_comments(files):
    """The files, less the lines of sources that say nothing."""
    says_nothing = {it: SAYS_NOTHING.get(it.rpartition(".")[2]) for it in files}
    return {it: says_nothing[it].sub(b"", octets) if says_nothing[it] else octets for it, octets in files.items()}


@functools.cache
def sum_of_file(path):
    return sum_of({"": path.read_bytes()})


@functools.cache
def contracts_of(rlib):
    """The sum of what a check reads of a built library, which stays the same where only a body has changed."""
    is_known = (rlib / MADE).is_file() and (rlib / CALLED[0]).is_dir()
    # Of a library that is laid out otherwise it isn't known what a check leaves out.
    parts = [rlib / it for it in (*CALLED, MADE)] if is_known else [rlib]
    paths = [it for part in parts for it in [part, *part.rglob("*")] if it.is_file()]
    files = {str(it.relative_to(rlib)): it.read_bytes() for it in paths if not is_known or it.name not in ANSWERS}
    if is_known:
        files[MADE] = OF_A_BODY.sub(b"", files[MADE])
    return sum_of(without_comments(files))


def key_of(version, prover, line, files, rlibs):
    """The part of a pass's name that all edits of a crate have in common. It is the same on each machine, whatever the
    sources' comments are."""
    below = sorted((name, contracts_of(rlib)) for name, rlib in rlibs.items())
    head, uses = line
    own = sum_of(without_comments(files))
    return repr((RULES, version, sum_of_file(prover), head.split(), uses, own, below)).encode()


class Record:
    """The passes of a crate's edits that are committed: for each edit the key under which it was refused."""

    def __init__(self, folder):
        self.path, self.keys = folder / "wrong-bodies.lock", {}
        text = self.path.read_text(errors="replace") if self.path.is_file() else ""
        for number, line in enumerate(text.splitlines(), 1):
            fits, place = LINE.fullmatch(line), f"{self.path.relative_to(TOP)}:{number}"
            if not fits:
                stop(f"{place} is no line of a key, two spaces and the name of an edit")
            key, name = fits.groups()
            if name in self.keys:
                stop(f"{place} is a second key of {name}")
            if not (folder / "wrong-bodies" / name).is_file():
                stop(f"{place} has a key of {name}, which isn't in wrong-bodies/")
            self.keys[name] = key

    def write(self, keys):
        """Puts these keys in place of all that were there, at once or not at all."""
        if keys == self.keys:
            return
        new = self.path.with_name(f".{self.path.name}.{os.getpid()}")
        try:
            new.write_text("".join(f"{key}  {name}\n" for name, key in sorted(keys.items())))
            new.replace(self.path)
        finally:
            with contextlib.suppress(FileNotFoundError):
                new.unlink()


def drawn(names):
    """Some of these crates, and what they were drawn by: the commit, or where there is none crates.txt."""
    seed = f"the sum of crates.txt, {sum_of_file(TOP / 'crates.txt')}"
    if (TOP / ".git").exists() and shutil.which("git"):
        said = subprocess.run(["git", "rev-parse", "HEAD"], cwd=TOP, capture_output=True, text=True)
        seed = f"the commit {said.stdout.strip()}" if said.returncode == 0 else seed
    return sorted(sorted(names, key=lambda it: sum_of({it: seed.encode()}))[:DRAWN]), seed
