#!/usr/bin/env python3
"""A reference for code sheets: the codes by the recursion on whole lists.

As a program it answers the words of a key:

    python3 reference/code_sheet.py KIND KERNEL [DELAY:CODE]...

It writes what `codes` writes, and ends with its status.
"""

import sys

from definitions import HALL, Refusal, Result, check_key, codes, end, energy_of, key_of_words

USAGE = "usage: codes KIND KERNEL [DELAY:CODE]... with KIND hall or radio, the rest decimal numbers"


def code_line(name, kind, code):
    """The name of a code and its entries."""
    entries = [f"{x}" if kind == HALL else f"{x},{y}" for x, y in code]
    return " ".join([name, *entries])


def code_sheet(words):
    """What codes answers to its words."""
    key = key_of_words(words)
    if key is None:
        return Result(1, b"", USAGE)
    try:
        check_key(*key)
    except Refusal as refusal:
        return Result(1, f"{refusal}\n".encode())
    kind = key[0]
    pair = codes(*key)
    lines = [f"span {len(pair[0])}", f"energy {energy_of(pair)}",
             code_line("A", kind, pair[0]), code_line("B", kind, pair[1])]
    return Result(0, "".join(f"{line}\n" for line in lines).encode())


if __name__ == "__main__":
    sys.exit(end(code_sheet(sys.argv[1:])))
