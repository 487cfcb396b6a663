#!/usr/bin/env python3
"""Answers the lines `text` of the conformance table of messages by the reader of data in the table of zones, which
is written from the standards: second_data.py of crates/conformance_zones.

    second_text.py < LINES

An offset is counted from 0, and reasons are as that page has them. Another line is answered by `bad`.
"""
import os
import sys

import second

FOLDER = os.path.join(os.path.dirname(os.path.abspath(__file__)), os.pardir, "conformance_zones")
sys.path.append(FOLDER)
import second_data as texts


def words_of(text):
    """The words of a text, each after its offset."""
    return texts.split_words(text)


def asked(line):
    """The class, the type and the text of a line, or None where it isn't one."""
    word, *fields = line.split(" ")
    try:
        rclass, rtype = (int(it) for it in fields[:2])
        text = second.octets_of(fields[2])
    except (IndexError, ValueError):
        return None
    if word != "text" or len(fields) != 3 or not fields[2] or rclass > 65535 or rtype > 65535:
        return None
    return rclass, rtype, text


def answer(line):
    """The answer to a line."""
    found = asked(line)
    if not found:
        return "bad"
    rclass, rtype, text = found
    try:
        return "ok " + (texts.read(rtype, rclass, text).hex() or "-")
    except texts.Refused as refused:
        return f"err {refused.at} {refused.reason}"


def main():
    for line in sys.stdin:
        print(answer(line.rstrip("\n")))


if __name__ == "__main__":
    main()
