"""What a check of a crate with edits said, and what each edit comes to by it."""

import collections
import re

ITEM = re.compile(r"([a-z]+) \w+::(\S+): (.*)")
CLAUSE = re.compile(r"note: (\./)?src/\S+:\d+:\d+: .*(not proved that|found no proof)")
GOAL = re.compile(r"(?:\./)?proofs/(\S+)/(?:Answers|Invariants|Proof)\.antt:\d+:\d+: error: ((?s:.*))")
GONE = re.compile(r"has no field|has no `|is not in scope|is no name|was not admitted")
UNKNOWN = re.compile(r"has no function `|several functions are named `")
UNREAD = re.compile(r"\berror\[[\w-]+\]|^(\./)?(src|specs)/\S+:\d+:\d+: error")
# A law of an impl that the prover refuses, where it stands, and the impl that is refused for it.
LAW = re.compile(r"(?:\./)?(src/\S+):(\d+):\d+: error: ")
BLOCK = re.compile(r"no proof: .*\bit passes the block `\w+::(\S+)`, which is not proved")


def ends(name, end):
    """Whether a function's name ends in these words, or is these."""
    return f"::{name}".endswith(f"::{end}")


class Said:
    """What a check said of each function, and why it refuses it."""

    def __init__(self, status, lines):
        self.status, self.functions, notes = status, {}, []
        self.refused, self.gone = collections.defaultdict(list), collections.defaultdict(list)
        for line in lines:
            goal, item = GOAL.match(line), ITEM.match(line)
            if goal:
                (self.gone if GONE.search(goal[2]) else self.refused)[goal[1].replace("/", "::")].append(line)
            elif CLAUSE.match(line):
                notes.append(line)
            elif item:
                if item[1] == "fn":
                    self.functions[item[2]] = item[3]
                    self.refused[item[2]] += notes
                notes = []
        self.unread = next((it for it in lines if UNREAD.search(it)), None)
        self.first = next((it for it in lines if "error" in it or CLAUSE.match(it)), lines[-1])
        self.laws = [(law[1], int(law[2]), it) for it in lines if (law := LAW.match(it))]
        self.blocks = {it: block[1] for it, own in self.functions.items() if (block := BLOCK.match(own))}

    def of_laws(self, edit):
        """What the edit of an impl comes to, which is tried alone, and why: a law is refused that it didn't write."""
        own = self.functions.get(edit.function, "")
        written = [it for file, line, it in self.laws if file == edit.file and line in edit.lines]
        laws = [it for _, _, it in self.laws if it not in written]
        laws += [it for function, lines in self.refused.items() for it in lines if ends(function, edit.block)]
        if coded := next((it for it in [*written, self.unread or ""] if "error[" in it or it in written), None):
            return "BAD EDIT", coded
        if self.status == 0 or self.status == 1 and own == "proved":
            return "NOT REFUSED", "its laws are still proved"
        if self.status != 1 or self.functions.get("wrong_bodies_witness") != "proved":
            return "NO VERDICT" if self.status == 3 else "NOT TRIED", self.first
        if not ends(self.blocks.get(edit.function, ""), edit.block) or not laws:
            return "NOT TRIED", own or self.first
        return "refused", laws[0]

    def of(self, edit, edited):
        """What the edit of one of these functions comes to, and why. Words but 'refused' say so of one alone."""
        if edit.block:
            return self.of_laws(edit)
        function = edit.function
        others = [it for it, lines in self.refused.items() if lines and it not in edited]
        proves_one = self.functions.get("wrong_bodies_witness") == "proved"
        own = self.functions.get(function, "")
        if self.unread:
            return "BAD EDIT", self.unread
        if self.status == 0 or self.status == 1 and own == "proved":
            return "NOT REFUSED", f"its function is still proved, and refused is {' '.join(others) or 'none'}"
        if self.status != 1 or not proves_one or not own.startswith(("not proved", "no proof")):
            return "NO VERDICT" if self.status == 3 else "NOT TRIED", self.first
        if others and len(edited) > 1:
            return "NOT TRIED", own
        if self.refused[function]:
            return "refused", self.refused[function][0]
        if self.gone[function]:
            return "NAMES ONLY", self.gone[function][0]
        # Where there is no answer to fall short, the search that stands for one ends without a proof.
        return "refused" if "did not prove" in own else "NOT TRIED", own
