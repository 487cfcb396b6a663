#!/usr/bin/env python3
"""Compares the answers to the lines `text` of the conformance table of messages with dnspython 2.3.

    dnspython_text.py LINES ANSWERS

LINES and ANSWERS are files such as `stdin` and `stdout`. Each row is said as a row `read` of the table of zones, and
dnspython.py there compares it: crates/conformance_zones has when one passes. The last line is 'N passed, N failed', and
the status 1 where one failed. It needs Debian's python3-dnspython.
"""
import os
import subprocess
import sys
import tempfile

import second_text


def said(line):
    """The same row of the table of zones."""
    rclass, rtype, text = second_text.asked(line)
    return f"read {rtype} {rclass} hex:{text.hex() or '-'}"


def main():
    rows = []
    with open(sys.argv[1], encoding="ascii") as lines, open(sys.argv[2], encoding="ascii") as answers:
        for line, answer in zip(lines, answers, strict=True):
            line, answer = line.rstrip("\n"), answer.rstrip("\n")
            if line.startswith("text ") and answer != "bad":
                rows.append((said(line), answer.removeprefix("ok ")))
    with tempfile.TemporaryDirectory(prefix="texts-") as room:
        files = [os.path.join(room, name) for name in ("stdin", "stdout")]
        for file, kept in zip(files, zip(*rows)):
            with open(file, "w", encoding="ascii") as opened:
                opened.write("".join(it + "\n" for it in kept))
        script = os.path.join(second_text.FOLDER, "dnspython.py")
        sys.exit(subprocess.run([sys.executable, script, *files], check=False).returncode)


main()
