"""A wrong body: the text of an edit, the bodies that it is in, and the function that shows whether laws are proved."""

import hashlib
import re

from .common import STORE, TOP, stop

EDIT = re.compile(r"file: (.*)\nfunction: (impl )?(\S+)\n((?:old: .*\nnew:.*\n?)+)\s*")
# A function in the layout of `rt fmt`: its name, its head up to the brace that opens the body, and the body.
BODY = re.compile(
    r'^( *)(?:pub(?:\([^)]*\))? )?(?:(?:const|unsafe|final|extern "C") )*fn (?P<name>\w+)'
    r"(?P<head>.*\{|.*[^;\n]\n(?:.+\n)*?\1(?:\S.*)?\{)\n(?P<body>(?s:.*?))^\1\}$",
    re.MULTILINE,
)
# An impl of a trait: its head, less the word `impl`, and what it holds.
IMPL = re.compile(r"^impl\b(?P<head>[^{;]* for [^{;]*)\{(?s:.*?)^\}$", re.MULTILINE)


def body_at(text, at):
    """The line of the function in whose body this character is, or None."""
    for it in BODY.finditer(text):
        # A head of one line has no contract, so a parameter that becomes `mut` is the body's own matter.
        if (it.start("body") if "\n" in it["head"] else it.start()) <= at < it.end():
            return text.count("\n", 0, it.start()) + 1
    return None


def depths(text):
    """How many brackets are open after each character."""
    open_now = 0
    for before, it in zip(" " + text, text):
        open_now += (it in "<([") - (it in ")]" or it == ">" and before != "-")
        yield open_now


def passes(head, name):
    """A function of this name that passes the impl of this head for a bound, which is proved where its laws are."""
    head, _, where = " ".join(head.split()).partition(" where ")
    end = [*depths(head)].index(0) if head[0] == "<" else 0
    bound, kind = re.split(" for (?!<)", head[end + 1 :].strip() if end else head, maxsplit=1)
    inner = head[1:end]
    ends = [it for it, (letter, depth) in enumerate(zip(inner, depths(inner))) if letter == "," and not depth]
    given = [inner[first:last].strip(" ,") for first, last in zip([0, *ends], [*ends, len(inner)])]
    given = [it for it in given if it]
    names = [re.sub("^const |:.*", "", it) for it in given if it[0] != "'"]
    where = f" where {where} " if where else " "
    call = f"{name}_bound::<{', '.join([*names, kind])}>()"
    generics = f"<{', '.join(given)}>" if given else ""
    return (
        f"\nfn {name}_bound<{', '.join([*given, f'Passed: {bound}'])}>(){where}{{}}\n"
        f"\nfn {name}{generics}(){where}{{ {call} }}\n"
    )


class Edit:
    """A wrong body, and what it came to."""

    def __init__(self, path, key):
        octets = path.read_bytes()
        fits = EDIT.fullmatch(octets.decode(errors="replace"))
        if not fits:
            stop(f"{path.relative_to(TOP)} hasn't lines 'file:', 'function:', 'old:' and 'new:' in this order")
        self.name, self.file_name = f"{path.parts[-3]}/{path.name}", path.name
        self.file, self.function = fits[1].strip(), fits[3]
        # The laws of an impl are proved for what passes it for a bound, so the copy has a function that does.
        self.block, self.law, self.lines = fits[2] and fits[3], "", set()
        if self.block:
            self.function = "wrong_bodies_law_" + re.sub(r"\W", "_", path.stem)
        self.changes = re.findall("old: (.*)\nnew: ?(.*)", fits[4])
        self.kept = STORE / hashlib.sha256(key + octets).hexdigest()
        self.came, self.tries = ("refused", "by an earlier run") if self.kept.exists() else None, 0
        self.is_copied = True

    def take(self, kind, why):
        """Takes what a check said for what the edit comes to. A pass is kept on this machine."""
        self.came = kind, why
        if kind == "refused":
            self.kept.touch()

    def applied(self, texts):
        """The texts with the edit, and the bodies that it is in, with a None for what is in none."""
        text, bodies = texts.get(self.file, ""), set()
        for old, new in self.changes:
            if text.count(old) != 1:
                raise ValueError(f"an 'old:' text is in {self.file} {text.count(old)} times, and not once")
            at = text.index(old)
            line = body_at(text, at)
            bodies.add(line and (self.file, line))
            self.lines.add(text.count("\n", 0, at) + 1)
            block = next((it for it in IMPL.finditer(text) if it.start() < at + len(old) <= it.end()), None)
            if self.block and block and not self.law:
                self.law = passes(block["head"], self.function)
            text = text.replace(old, new)
        if text == texts.get(self.file, ""):
            raise ValueError("it changes nothing")
        if self.block and (not self.law or None not in bodies):
            raise ValueError("it changes no ghost member of an impl")
        return {**texts, self.file: text}, bodies
