"""A crate with wrong bodies."""

import collections

from .common import TOP, below, stop
from .edit import Edit
from .record import Record, key_of
from .trial import Trial

# The edits of more are tried in several trials, at once where there are processors.
MOST = 40


class Crate:
    """A crate, its edits, and the trials that try them."""

    def __init__(self, name, listed, kit, version):
        self.name, self.kit, self.made = name, kit, []
        self.head, self.uses = listed[name]
        crates, own = [*below(name, listed), name], f"crates/{name}/"
        folders = [TOP / "crates" / it / part for it in crates for part in ("src", "specs", "proofs")]
        paths = [path for it in folders if it.is_dir() for path in (it, *sorted(it.rglob("*")))]
        files = {str(it.relative_to(TOP)): it for it in paths if it.is_file()}
        files = {it.removeprefix(own): path.read_bytes() for it, path in files.items() if it.startswith(own)}
        self.texts = {it: octets.decode() for it, octets in files.items()}
        self.rlibs = {it: TOP / f"crates/{it}/out/rlib/{it}.rlib" for it in crates[:-1]}
        lacking = [it for it, rlib in self.rlibs.items() if not rlib.is_dir()]
        if lacking:
            stop(f"{name}: the library {lacking[0]} isn't built: run rt check in crates/{name} first")
        if not {"src/main.rt", "src/lib.rt"} & self.texts.keys():
            stop(f"crates/{name} has no src/main.rt or src/lib.rt")
        key = key_of(version, kit / "bin/rattle", listed[name], files, self.rlibs)
        self.record = Record(TOP / own)
        self.edits = [Edit(it, key) for it in sorted((TOP / own / "wrong-bodies").glob("*.edit"))]
        # The crate is proved where it was built, last of these, and no source has changed since the first of them was.
        built = TOP / own / "out" / (f"lib{name}.a" if "staticlib" in self.head else f"rlib/{name}.rlib")
        made = [it.stat().st_mtime_ns if it.exists() else 0 for it in [*self.rlibs.values(), built]]
        changed = max(it.stat().st_ctime_ns for it in [kit / "bin/rattle", *paths])
        self.is_proved = changed < min(made) and made[-1] == max(made)

    def pass_over(self):
        """Takes what the record has under today's keys for tried."""
        for it in self.left():
            if self.record.keys.get(it.file_name) == it.kept.name:
                it.came = "refused", "by the record"

    def write_record(self):
        """Records the edits that are refused, and no others."""
        self.record.write({it.file_name: it.kept.name for it in self.edits if it.came[0] == "refused"})

    def left(self):
        return [it for it in self.edits if not it.came]

    def trials(self):
        """What is left to try, in trials of some MOST edits each. Those of one function are together."""
        functions = collections.defaultdict(list)
        for it in self.left():
            functions[it.function].append(it)
        made = [Trial(self, []) for _ in range(-(-len(self.left()) // MOST))]
        for its in sorted(functions.values(), key=len, reverse=True):
            min(made, key=lambda it: len(it.edits)).edits += its
        self.made = [it for it in made if it.edits]
        return self.made

    def tell(self, is_told):
        """Prints what the edits came to, and returns how many failed."""
        for edit in self.edits:
            kind, why = edit.came
            if kind != "refused" or is_told:
                print(f"{edit.name}: {kind}: {' '.join(why.split())[:200]}")
        failed = sum(it.came[0] != "refused" for it in self.edits)
        kept = [sum(it.came[1] == f"by {by}" for it in self.edits) for by in ("an earlier run", "the record")]
        checks = sum(it.checks for it in self.made)
        how = f"{checks} checks, {kept[0]} refused by an earlier run, {kept[1]} by the record"
        print(f"{self.name}: {len(self.edits)} wrong bodies, {how}, {failed} failed", flush=True)
        return failed
