"""Copies of a function, each with an edit of its own, which one check tries beside the function."""

import collections
import re

from .edit import BODY
from .said import ends

# What the name of a copy has more. The first copy of a function has no edit: it shows that a copy is proved.
MORE = "_wrong_body_"
BLOCK = re.compile(r"^(?:unsafe )?(?P<word>impl|trait|mod|macro_rules!)\b(?P<head>[^{;]*)\{", re.MULTILINE)
PROOFS = ("Answers.antt", "Invariants.antt", "Proof.antt")
WAITS = re.compile(r"it calls `\S+`, which is not proved")


def place_of(edit, texts):
    """The function that the edit changes, if a copy can stand beside it: it is free, or a method of a type itself, and
    C can't call it."""
    text = texts[edit.file]
    lines = {(edit.file, text.count("\n", 0, it.start()) + 1): it for it in BODY.finditer(text)}
    place = lines.get(next(iter(edit.bodies))) if len(edit.bodies) == 1 else None
    if not place or place["name"] != edit.function.rpartition("::")[2]:
        return None
    if 'extern "C"' in text[place.start() : place.start("name")]:
        return None
    around = [*BLOCK.finditer(text, 0, place.start())]
    is_method = around and around[-1]["word"] == "impl" and " for " not in " ".join(around[-1]["head"].split())
    return place if place[1] == "" or place[1] == "    " and is_method else None


def changed(place, changes):
    """The function's text with these changes of its body, or None if they change something else."""
    body = place["body"]
    for old, new in changes:
        if body.count(old) != 1:
            return None
        body = body.replace(old, new)
    whole, first = place[0], place.start("body") - place.start()
    return whole[:first] + body + whole[first + len(place["body"]) :]


def proofs_of(function, texts):
    """The folders of proofs of the functions whose names end in these words."""
    end = f"/{function.replace('::', '/')}"
    folders = {it.rpartition("/")[0] for it in texts if it.startswith("proofs/") and it.rpartition("/")[2] in PROOFS}
    return [it for it in sorted(folders) if it.endswith(end)]


class Copy:
    """A copy of a function, with an edit or none, as the check sees it."""

    def __init__(self, of, number, edit):
        self.name, self.file, self.law, self.block = of.name, of.file, "", None
        self.edit, self.more = edit, f"{MORE}{number}"
        self.function = of.function + self.more


class Copies:
    """The copies that a check has: of each function with several of these edits, where there can be one."""

    def __init__(self, texts, edits):
        self.texts, self.places, groups = texts, {}, collections.defaultdict(list)
        for edit in edits:
            place = place_of(edit, texts)
            if place and changed(place, edit.changes) and len(proofs_of(edit.function, texts)) < 2:
                groups[edit.file, place.start()].append(edit)
                self.places[edit.file, place.start()] = place
        groups = {key: its for key, its in groups.items() if len(its) > 1}
        self.made = {
            key: [Copy(its[0], number, it) for number, it in enumerate([None, *its])] for key, its in groups.items()
        }
        self.edits = {it for its in groups.values() for it in its}

    def all(self):
        return [it for made in self.made.values() for it in made]

    def copied_proofs(self, copy):
        """The files of the function's proof, for its copy."""
        function, files = copy.function.removesuffix(copy.more), {}
        for folder in proofs_of(function, self.texts):
            name, path = folder.rpartition("/")[2], folder.partition("/")[2].replace("/", ".")
            known = re.compile(rf"\b((?:proofs|contracts)\.{re.escape(path)}(?!\w)|{name}(?=_spec\b))")
            for it in (it for it in self.texts if it.startswith(f"{folder}/")):
                text = known.sub(rf"\g<1>{copy.more}", self.texts[it])
                files[folder + copy.more + it.removeprefix(folder)] = text
        return files

    def put(self, texts):
        """The texts with the copies, each below its function."""
        texts = dict(texts)
        # From the last place of a file to the first, so that those before it stay where they are.
        for key in sorted(self.made, reverse=True):
            file, place = key[0], self.places[key]
            index = [it.start() for it in BODY.finditer(self.texts[file])].index(place.start())
            end = [*BODY.finditer(texts[file])][index].end()
            for it in self.made[key]:
                head = place[0][: place.start("name") - place.start()] + place["name"] + it.more
                text = changed(place, it.edit.changes if it.edit else [])
                text = head + text[place.end("name") - place.start() :]
                texts[file] = f"{texts[file][:end]}\n\n{text}{texts[file][end:]}"
                texts |= self.copied_proofs(it)
        return texts

    def settle(self, came, said):
        """Takes for refused the edits whose copies are, where the copy without an edit is proved. The others are tried
        in their function's place, and copies that wait for the proof of what they call once more as copies."""
        for made in self.made.values():
            own = next((own for it, own in said.functions.items() if ends(it, made[0].function)), "")
            for it in made[1:]:
                if own == "proved" and came[it][0] == "refused":
                    it.edit.take(*came[it])
                it.edit.is_copied = bool(WAITS.search(own)) and not it.edit.tries
                it.edit.tries += 1
