#!/usr/bin/env python3
"""Times heads, values and judgements on growing texts, and prints a table: judged.py [PROGRAM].

PROGRAM is the built program `figures_judge`; with none it is crates/figures_judge/out/figures_judge, as 'rt run' in that folder
leaves it. It asks about the first type and the first value of a text. Each family grows by a number: names that lead to names, values
that name values, templates in each other, members of a struct with all of them given, constraints behind each other. A text is read
twice, once with a first type and a first value before it that lead nowhere, and the difference of the processor times is what its
questions took, the best of five runs each. Nothing is asserted.
"""

import os
import sys
import tempfile

from tables import HERE, best_run, usable

HEAD, TAIL = "M DEFINITIONS ::= BEGIN\n", "END\n"
NOTHING = "Nothing ::= NULL\nnothing NULL ::= NULL\n"


def names(number, behind=""):
    """Types that each are the next one's name, and a number for the last."""
    chain = "".join(f"T{i} ::= T{i + 1}{behind}\n" for i in range(number))
    return f"{chain}T{number} ::= INTEGER\nv INTEGER ::= 5\n"


def circle(number):
    """The same, but the last is the first one's name."""
    chain = "".join(f"T{i} ::= T{(i + 1) % number}\n" for i in range(number))
    return f"{chain}v INTEGER ::= 5\n"


def ranges(number):
    """The same with a range behind each name."""
    return names(number, " (0..9)")


def values(number):
    """Values that each are the next one's name."""
    chain = "".join(f"v{i} INTEGER ::= v{i + 1}\n" for i in range(number))
    return f"T ::= INTEGER\n{chain}v{number} INTEGER ::= 5\n"


def templates(number):
    """Templates of two dummies in each other."""
    chain = "".join(f"T{i} {{X, Y}} ::= T{i + 1} {{X, Y}}\n" for i in range(number))
    return f"A ::= T0 {{NULL, BOOLEAN}}\n{chain}T{number} {{X, Y}} ::= SEQUENCE {{ a X, b Y }}\nv SEQUENCE {{ a NULL, b BOOLEAN }} ::= {{a NULL, b TRUE}}\n"


def members(number, constraint=""):
    """A struct of members, and a value of it that gives them all."""
    fields = ", ".join(f"a{i} INTEGER{constraint}" for i in range(number))
    given = ", ".join(f"a{i} {i % 10}" for i in range(number))
    return f"S ::= SEQUENCE {{ {fields} }}\nv SEQUENCE {{ {fields} }} ::= {{ {given} }}\n"


def ranged(number):
    """The same with a range for each member."""
    return members(number, " (0..9)")


def constraints(number):
    """A type with constraints behind each other."""
    return f"A ::= INTEGER {'(0..9)' * number}\nv INTEGER ::= 5\n"


FAMILIES = {
    "names": (names, (1_000, 10_000, 100_000)),
    "names in a circle": (circle, (1_000, 10_000, 100_000)),
    "names with ranges": (ranges, (100, 1_000)),
    "values that name values": (values, (1_000, 10_000)),
    "templates in each other": (templates, (30, 300, 3_000)),
    "members, all given": (members, (1_000, 10_000)),
    "members with ranges, all given": (ranged, (1_000, 10_000)),
    "constraints behind each other": (constraints, (100, 1_000)),
}


def main(arguments):
    """Prints the table."""
    program = usable(arguments, "figures_judge")
    if program is None:
        return 2
    print(f"{'family':<32}{'number':>8}{'ms to read':>12}{'ms to answer':>14}{'us each':>9}  answer")
    with tempfile.TemporaryDirectory() as folder:
        source = os.path.join(folder, "text.asn1")
        for name, (make, numbers) in FAMILIES.items():
            for number in numbers:
                read, _ = best_run(program, source, HEAD + NOTHING + make(number) + TAIL)
                both, words = best_run(program, source, HEAD + make(number) + TAIL)
                asked = max(both - read, 0)
                print(f"{name:<32}{number:>8}{read * 1e3:>12.1f}{asked * 1e3:>14.1f}{asked * 1e6 / number:>9.2f}  {' '.join(words)}", flush=True)
    return 0


if __name__ == "__main__":
    sys.exit(main(sys.argv[1:]))
