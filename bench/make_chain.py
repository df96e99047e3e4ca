#!/usr/bin/env python3
"""A chain of definitions, each of which names the next, as one module: make_chain.py COUNT.

The names are as short as can be, so that 100,000 definitions are no longer than a text may be.
"""

import itertools
import string
import sys

FIRST = string.ascii_uppercase
LATER = string.ascii_letters + string.digits


def names():
    """All type references, the shorter ones first; those that a reserved word takes are left out."""
    for length in itertools.count(1):
        for letters in itertools.product(FIRST, *[LATER] * (length - 1)):
            name = "".join(letters)
            if name not in ("ALL", "BIT", "END", "MAX", "MIN", "OF", "SET"):
                yield name


def chain(count):
    """The module; its last definition is a BOOLEAN."""
    taken = list(itertools.islice(names(), count))
    links = [f"{name}::=SEQUENCE{{a {following}}}" for name, following in zip(taken, taken[1:])]
    return "M DEFINITIONS::=BEGIN " + "".join(links) + f" {taken[-1]}::=BOOLEAN END\n"


if __name__ == "__main__":
    if len(sys.argv) != 2:
        sys.exit("usage: make_chain.py COUNT")
    sys.stdout.write(chain(int(sys.argv[1])))
