"""A trial of some wrong bodies of a crate, by checks one after another."""

import contextlib
import pathlib
import re
import shutil
import subprocess
import tempfile

from .common import TOP, stop
from .copies import Copies
from .said import UNKNOWN, Said, ends

# What the copy of a crate has more. It calls nothing that has an edit, and any check that proves something proves it.
WITNESS = "\nfn wrong_bodies_witness(number: u64) -> u64 { number / 2 + 1 }\n"


class Trial:
    """Some edits of a crate, and the check of them that runs."""

    def __init__(self, crate, edits):
        self.crate, self.edits, self.checks, self.running, self.has_ended = crate, edits, 0, None, False

    def left(self):
        return [it for it in self.edits if not it.came]

    def check(self, texts, edits):
        """What the prover says, by the words that rt gives it, of these edits' functions and of the witness."""
        crate, root = self.crate, "src/main.rt" if "src/main.rt" in texts else "src/lib.rt"
        kit = crate.kit
        more = {root: WITNESS}
        for it in edits:
            more[it.file] = more.get(it.file, "") + it.law
        for file, text in texts.items():
            path = self.room / "crate" / file
            path.parent.mkdir(parents=True, exist_ok=True)
            path.write_text(text + more.get(file, ""))
        words = [kit / "bin/rattle", "check", "--crate-name", crate.name, root, "--jobs", "1"]
        words += ["--antt-project", kit / "rattle/logic/antt-project.json", "--logic-built", kit / "logic_built"]
        words += ["--incremental", self.room / "kept"] + ["--crate-type", "staticlib"] * ("staticlib" in crate.head)
        words += [f"--extern={it}={crate.rlibs.get(it, kit / f'rlibs/{it}.rlib')}" for it in ["std", *crate.uses]]
        words += [f"-Ldependency={it}" for it in [kit / "rlibs", *(it.parent for it in crate.rlibs.values())]]
        words += [f"--only={it}" for it in sorted({"wrong_bodies_witness", *(it.function for it in edits)})]
        self.checks += 1
        how = {"stdin": subprocess.DEVNULL, "stdout": subprocess.PIPE, "stderr": subprocess.STDOUT, "errors": "replace"}
        if not self.has_ended:
            self.running = subprocess.Popen(words, cwd=self.room / "crate", **how)
            output = self.running.communicate()[0].rstrip("\n")
        if self.has_ended:
            raise SystemExit(1)
        # What a line says goes on in the lines below it that begin with two spaces.
        said = Said(self.running.returncode, re.split("\n(?!  )", output))
        if said.status == 2 and UNKNOWN.search(said.first):
            stop(f"{crate.name}: {said.first}")
        return said

    def end(self):
        """Ends the check that runs, and the trial with it. A check that just begins is the last one."""
        self.has_ended = True
        if self.running:
            self.running.kill()

    def run(self):
        """Tries the edits in as few checks as may be."""
        for edit in self.left():
            try:
                edit.bodies = edit.applied(self.crate.texts)[1]
            except ValueError as why:
                edit.came = "BAD EDIT", str(why)
        with tempfile.TemporaryDirectory(prefix="wrong-bodies-") as room:
            self.room = pathlib.Path(room)
            # What `rt check` kept is taken where nothing has changed, and else checked anew.
            with contextlib.suppress(OSError):
                shutil.copytree(TOP / f"crates/{self.crate.name}/out/incremental", self.room / "kept")
            if self.left() and not self.crate.is_proved:
                said = self.check(self.crate.texts, self.left())
                for edit in self.left() if said.status else ():
                    edit.came = "NOT TRIED", f"not proved as it stands: {said.first}"
            while self.left():
                self.try_batch()

    def try_batch(self):
        """Checks all edits of each function that has several, in copies, and one of each other body, or one alone."""
        copies = Copies(self.crate.texts, [it for it in self.left() if it.is_copied])
        batch, bodies, texts = [], set(), self.crate.texts
        for edit in (it for it in self.left() if it not in copies.edits):
            is_alone = None in edit.bodies or edit.tries > 1
            is_same = any(ends(it.function, edit.function) or ends(edit.function, it.function) for it in batch)
            if (batch or copies.edits) and (is_alone or is_same or edit.bodies & bodies):
                continue
            with contextlib.suppress(ValueError):
                texts = edit.applied(texts)[0]
                batch.append(edit)
                bodies |= edit.bodies
            if is_alone:
                break
        tried = [*batch, *copies.all()]
        said = self.check(copies.put(texts), tried)
        if said.unread and copies.edits:
            # Where a copy can't be read, all are tried in their functions' places.
            for edit in copies.edits:
                edit.is_copied = False
            return
        for it in tried if said.functions else ():
            fits = [name for name in said.functions if ends(name, it.function)]
            if not fits and it in batch:
                stop(f"{it.name}: '{it.function}' is no function")
            # Where several names end in these words, the prover takes the one that is these words. A copy that it
            # doesn't tell of settles nothing.
            it.function = min(fits, key=len, default=it.function)
        came = {it: said.of(it, {other.function for other in tried}) for it in tried}
        copies.settle(came, said)
        for edit in batch:
            if came[edit][0] == "refused" or len(tried) == 1:
                edit.take(*came[edit])
            # One that waits for the proof of another edit's function is tried again in the next batch.
            edit.tries += 1 if any(it == "refused" for it, _ in came.values()) else 2
