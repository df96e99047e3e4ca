#!/usr/bin/env python3
"""Writes a text of about SIZE bytes to standard output: make_text.py SIZE.

The text is a row of modules of types that use those before them. Each name is defined once, and the same SIZE gives
the same text.
"""

import sys

DEFINITIONS_IN_MODULE = 12


def sequence(number, previous):
    """A type of three components, the last of the type before it."""
    return (
        f"Name{number} ::= SEQUENCE {{\n"
        f"    first BOOLEAN,\n"
        f"    second INTEGER (0..{100 + number % 1000}),\n"
        f"    third {previous}\n"
        f"}}\n"
    )


def integer(number):
    """A type of whole numbers within a range."""
    return f"Name{number} ::= INTEGER ({-1 - number % 9}..{number % 500})\n"


def boolean(number):
    """A type of truth values."""
    return f"Name{number} ::= BOOLEAN\n"


def definition(number, place):
    """The definition of a name, the place-th of its module."""
    if place % 3 == 0:
        return integer(number)
    if place % 10 == 7:
        return boolean(number)
    return sequence(number, f"Name{number - 1}")


def module(index):
    """The module of a number."""
    first = index * DEFINITIONS_IN_MODULE
    lines = [f"M{index} DEFINITIONS AUTOMATIC TAGS ::= BEGIN\n\n"]
    lines += [definition(first + place, place) + "\n" for place in range(DEFINITIONS_IN_MODULE)]
    lines.append("END\n\n")
    return "".join(lines)


def text(size):
    """Whole modules, as many as fit into SIZE bytes, and one at least."""
    modules = [module(0)]
    length = len(modules[0])
    while True:
        following = module(len(modules))
        length += len(following)
        if length > size:
            return "".join(modules)
        modules.append(following)


def main():
    if len(sys.argv) != 2 or not sys.argv[1].isdecimal():
        sys.exit("usage: make_text.py SIZE")
    sys.stdout.write(text(int(sys.argv[1])))


if __name__ == "__main__":
    main()
