"""Reads edits, crates/*/must-fail and crates/*/wrong-bodies, and says which of them can't show what they are for.

An edit has a line 'file:', in wrong-bodies a line 'function:' behind it, and then pairs of lines 'old:' and 'new:'; in
must-fail a further line 'file:' may stand before a pair. Each pair applies to what those before it made, and its old
text is once in the file. An edit with other lines can't be read."""

import re

from wrong_bodies.edit import EDIT

FORMS = {
    "must-fail": (r"(?:file: .*\n(?:old: .*\nnew:.*\n?)+)+\s*", "'file:', 'old:' and 'new:'"),
    "wrong-bodies": (EDIT.pattern, "'file:', 'function:', 'old:' and 'new:'"),
}
KIND = re.compile(r"^(?:pub(?:\([^)]*\))? )?(?:struct|enum|trait) (\w+)", re.MULTILINE)
IMPL = re.compile(r"^(?:unsafe )?impl\b([^{;]*)", re.MULTILINE)


class Unreadable(Exception):
    """An edit that has no meaning, and why."""


class Edit:
    """The lines of an edit: the function that it names, and what it changes in which file."""

    def __init__(self, path):
        self.crate = path.parent.parent
        self.name = f"{self.crate.name}/{path.parent.name}/{path.name}"
        form, lines = FORMS[path.parent.name]
        try:
            text = path.read_bytes().decode()
        except (OSError, UnicodeDecodeError) as why:
            raise Unreadable(f"{self.name} can't be read: {why}") from why
        if path.suffix != ".edit" or not re.fullmatch(form, text):
            raise Unreadable(f"{self.name} is no .edit file with lines {lines} in this order")
        self.function = (re.findall("^function: (.*)", text, re.MULTILINE) or [""])[0].strip()
        self.changes, file = [], None
        for named, old, new in re.findall("^file: (.*)|^old: (.*)\nnew: ?(.*)", text, re.MULTILINE):
            file = named.strip() or file
            self.changes += [] if named else [(file, old, new)]

    def faults(self):
        """What keeps it from being tried as it is meant."""
        texts = {}
        for file, old, new in self.changes:
            path = self.crate / file
            if not path.is_file():
                return [f"the crate has no file {file}"]
            text = texts.get(file) or path.read_text()
            if text.count(old) != 1:
                return [f"its old text is in {file} {text.count(old)} times, and not once: {old.strip()[:60]}"]
            texts[file] = text.replace(old, new)
        is_change = any((self.crate / it).read_text() != text for it, text in texts.items())
        found = [] if is_change else ["it changes nothing"]
        if self.function and not is_there(self.crate, self.function):
            what = "" if self.function.startswith("impl ") else "function "
            found.append(f"the crate has no {what}{self.function}")
        return found


def owners(text):
    """What a check calls the types, the traits and the impls of a text, as patterns: the parameters of a type, and of
    a trait behind the type, stand between the names."""
    yield from (rf"{name}\b" for name in KIND.findall(text))
    for head in IMPL.findall(text):
        head = head.replace("->", "")
        while head != (head := re.sub(r"<[^<>]*>", "", head)):
            pass
        *what, target = (it.split() for it in re.sub(r"\bwhere\b(?s:.*)", "", head).split(" for "))
        name = target[-1].rpartition("::")[2]
        kind = name[0].upper() + name[1:] if len(name) > 1 else "Any"
        if target[0].startswith("&"):
            kind = "RefMut" if "mut" in target or "&mut" in target else "Ref"
        yield f"{re.escape(kind)}.*{re.escape(what[0][-1].rpartition('::')[2])}" if what else rf"{re.escape(kind)}\b"


def is_there(crate, function):
    """Whether the sources have the function, or the impl, that a path as a check prints it ends in. A method of a type
    is printed in the module of the type, and all else in that of its file."""
    *above, name = function.removeprefix("impl ").split("::")
    is_impl = function.startswith("impl ")
    owner = name if is_impl else above.pop() if above and above[-1][:1].isupper() else ""
    folder = crate / "src"
    texts = {it.relative_to(folder): re.sub(r"//.*", "", it.read_text()) for it in sorted(folder.rglob("*.rt"))}
    homes = [path for path, text in texts.items() if owner in KIND.findall(text)]
    for path, text in texts.items():
        is_named = is_impl or re.search(rf"\b(?:fn|const) {re.escape(name)}\b", text)
        is_owned = not owner or any(re.match(it, owner) for it in owners(text))
        modules = [it.with_suffix("").parts for it in homes or [path]]
        if is_named and is_owned and any([*it[len(it) - len(above) :]] == above for it in modules):
            return True
    return False
