"""What makes docs/DEFINITIONS.md: the order, headings and links in docs/definitions.txt, and the comments at the
definitions. docs/check-definitions runs it.

A line of definitions.txt that begins with a hyphen is an entry. It has words, each in backquotes and as a contract has
it, and the text of the entry is the comments above their definitions, in the files that the line with links above it
names. Where a text comes after a colon, that is the entry's, and the mark at its end tells the comments that it was
compared with. Other lines are the page's as they are."""
import hashlib
import re
import textwrap
from pathlib import Path

TOP = Path(__file__).resolve().parent.parent
PAGE = TOP / "docs" / "DEFINITIONS.md"
ORDER = TOP / "docs" / "definitions.txt"
DEFINITION = re.compile(r"(?:(?:abbrev|unfoldable|opaque) )?pub (?:(?:record|data) )?(?!mod |use )([A-Za-z_]\w*)")
MEMBER = re.compile(r"\s*(?:pub )?ghost (\w+):")
LINK = re.compile(r"\]\(\.\./(crates/[^)#]*)")
ENTRY = re.compile(r"- (`[^`]*`(?:(?:, and|,| and) `[^`]*`)*)(?:: (.*?))?(?: \{([0-9a-f]*)\})?$")


def words_of(path):
    """The definitions of a file in `specs/` with their comments, or the ghost members of one in `src/`."""
    pattern, sign = (MEMBER, "///") if path.suffix == ".rt" else (DEFINITION, "--")
    found, comment = {}, []
    for line in path.read_text().splitlines():
        match = pattern.match(line)
        if match:
            found[match[1]] = " ".join(comment)
        line = line.strip() if path.suffix == ".rt" else line
        comment = comment + [line[len(sign):].strip()] if line.startswith(sign) else []
    return found


def names_in(words):
    """The words of an entry, without what they are applied to."""
    return [re.search(r"\w+", word)[0] for word in re.findall(r"`([^`]*)`", words)]


def entries(text):
    """The parts of a page: its lines as they are, and for an entry what ENTRY finds, and the files of its words."""
    files, is_new = [], True
    for line in re.sub(r"(?m)(?<=\S)\n  (?=\S)", " ", text).splitlines():
        links = LINK.findall(line)
        if line.startswith("- `"):
            is_new = True
            yield line, ENTRY.match(line), files
            continue
        if links:
            files = links if is_new else files + links
            is_new = False
        yield line, None, files


def comments_of(words, files, known):
    """The comment at each word of an entry: in the first of the files that defines it."""
    for file in files:
        if file not in known:
            known[file] = words_of(TOP / file) if (TOP / file).is_file() else {}
    return [next((known[file][name] for file in files if name in known[file]), "") for name in names_in(words)]


# The most words of a sentence that is made of several comments.
LONG = 25


def joined(comments):
    """Comments as the text of one entry: in one sentence if they are short, and else each in its own."""
    texts = [comment.removesuffix(".") for comment in comments]
    if any(re.search(r"[.?;] ", text) for text in texts[:-1]) or sum(len(text.split()) for text in texts) > LONG:
        return small(". ".join(large(text) for text in texts)) + "."
    return "; ".join(small(text) for text in texts) + "."


def large(text):
    """The text with a large first letter, except where that is a variable."""
    return text if re.match(r"[b-z]\b", text) else text[:1].upper() + text[1:]


def small(text):
    """The text with a small first letter, but where that is a name: of an octet, or in capitals."""
    return text if re.match(r"[A-Z][A-Z]|A to Z|[B-Z]\b", text) else text[:1].lower() + text[1:]


def mark(comments):
    return hashlib.sha256("\n".join(comments).encode()).hexdigest()[:6]


def wrapped(text):
    return "\n".join(textwrap.wrap(text, 118, subsequent_indent="  ", break_long_words=False, break_on_hyphens=False))


def page():
    """The page that the order and the comments make, and the faults of the order."""
    lines, faults, known = [], [], {}
    for line, entry, files in entries(ORDER.read_text()):
        if not entry:
            lines.append(line)
            faults += [f"definitions.txt: not an entry: {line}"] * line.startswith("- `")
            continue
        words, text, seen = entry.groups()
        comments = comments_of(words, files, known)
        if text is None and not all(comments):
            faults.append(f"{words}: no comment in {' and '.join(files)}")
        elif text is not None and seen != mark(comments):
            faults.append(f"{words}: its text by hand isn't marked as compared with the comments: compare them, and run "
                          "docs/check-definitions --seen")
        lines.append(wrapped(f"- {words}: {joined(comments) if text is None else text}"))
    return "\n".join(lines) + "\n", faults


def write_marks():
    """Marks each text by hand as one that was compared with the comments."""
    lines, known = [], {}
    for line, entry, files in entries(ORDER.read_text()):
        if entry and entry[2] is not None:
            line = f"- {entry[1]}: {entry[2]} {{{mark(comments_of(entry[1], files, known))}}}"
        lines.append(wrapped(line) if entry else line)
    ORDER.write_text("\n".join(lines) + "\n")
