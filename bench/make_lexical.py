#!/usr/bin/env python3
"""Writes a text of about SIZE bytes that is nearly all of one lexical kind: make_lexical.py KIND SIZE.

The kinds are those of KINDS. All but the unclosed comments stand in a module that is read; those fail to match, or are
nested too deep.
"""

import sys

MODULE = "M DEFINITIONS ::= BEGIN END\n"


def filled(piece, size):
    """The piece, as often as it fits into so many bytes."""
    return piece * (size // len(piece))


def identifier(size):
    """A module whose name has so many bytes."""
    return "M" + "a" * (size - 1) + MODULE[1:]


KINDS = {
    "blanks": lambda size: filled(" \t\n", size) + MODULE,
    "block comments": lambda size: filled("/* a */\n", size) + MODULE,
    "empty comments": lambda size: filled("/**/", size) + MODULE,
    "line comments": lambda size: filled("-- a line\n", size) + MODULE,
    "one identifier": identifier,
    "one comment": lambda size: "/*" + "a" * size + "*/" + MODULE,
    "one unclosed comment": lambda size: MODULE + "/*" + "a" * size,
    "100 unclosed comments": lambda size: MODULE + "/* " * 100 + "a" * size,
    "unclosed comments": lambda size: MODULE + filled("/*", size),
}


def main():
    if len(sys.argv) != 3 or sys.argv[1] not in KINDS or not sys.argv[2].isdecimal():
        sys.exit("usage: make_lexical.py KIND SIZE, with one of the kinds: " + ", ".join(KINDS))
    sys.stdout.write(KINDS[sys.argv[1]](int(sys.argv[2])))


if __name__ == "__main__":
    main()
