#!/usr/bin/env python3
"""Times the packrat table on growing texts, and prints a table: tables.py [PROGRAM].

PROGRAM is the built program `figures_table`; with none it is crates/figures_table/out/figures_table, as 'rt run' in that folder
leaves it. It takes a text on standard input, makes the table of the whole text by the whole of ASN.1, and tells how many
entries that has. Each row is a family of texts at a size: entries a byte, nanoseconds of processor time a byte, the best of
five runs, and bytes of memory a byte beyond those of the smallest text. The usual modules are those of examples/, with their
definitions repeated; the nested ones repeat a definition that nests so deep. Nothing is asserted.
"""

import os
import resource
import subprocess
import sys
import tempfile

from make_lexical import KINDS
from make_text import text as small_forms
from measure import peak_memory

HERE = os.path.dirname(os.path.abspath(__file__))
SIZES = (10_000, 100_000, 1_000_000, 2_000_000)
RUNS = 5
# a module of examples/: the bytes before its first definition and behind its last one
MODULES = {"certificates": (539, 4), "directory": (427, 4), "mobile": (137, 94)}
HEAD, TAIL = "M DEFINITIONS ::= BEGIN\n", "END\n"


def filled(front, piece, back, size):
    """The piece, as often as it fits, between the others."""
    return front + piece * max(1, (size - len(front) - len(back)) // len(piece)) + back


def usual(name):
    """A module of examples/ with its definitions repeated."""
    before, behind = MODULES[name]
    with open(os.path.join(HERE, "..", "examples", f"{name}.asn1"), encoding="ascii") as file:
        whole = file.read()
    return lambda size: filled(whole[:before], whole[before:-behind], whole[-behind:], size)


def nested(front, opened, inner, closed, back, deep):
    """A module of one definition, repeated, in which a piece stands so deep in itself."""
    one = front + opened * deep + inner + closed * deep + back + "\n"
    return lambda size: filled(HEAD, one, TAIL, size)


FAMILIES = {
    "all forms of the first part": small_forms,
    **{name: usual(name) for name in MODULES},
    **{name: make for name, make in KINDS.items() if "unclosed" not in name},
    "SIZE in SIZE, 30 deep": nested("A ::= INTEGER (", "SIZE(", "1", ")", ")", 30),
    "components, 30 deep": nested("A ::= B (", "WITH COMPONENTS {a (", "1", ")}", ")", 30),
    "braces in braces, 60 deep": nested("a A ::= ", "{a ", "1", "}", "", 60),
    "SEQUENCE in SEQUENCE, 60 deep": nested("A ::= ", "SEQUENCE {a ", "NULL", "}", "", 60),
}


def seconds_used():
    """The processor seconds of all programs that were run so far."""
    used = resource.getrusage(resource.RUSAGE_CHILDREN)
    return used.ru_utime + used.ru_stime


def run(program, source):
    """Processor seconds of a run on a file, and the words that it wrote."""
    with open(source, "rb") as given:
        start = seconds_used()
        told = subprocess.run([program], stdin=given, stdout=subprocess.PIPE, check=False).stdout
        return seconds_used() - start, told.decode().split()


def usable(named, crate):
    """The program that is named, else the built one of the crate; None, told on standard error, where there is none."""
    program = named[0] if named else os.path.join(HERE, "..", "crates", crate, "out", crate)
    if not os.access(program, os.X_OK):
        print(f"no program at {program}: build it with 'rt run' in crates/{crate}, or name it", file=sys.stderr)
        return None
    return program


def best_run(program, source, text):
    """The processor seconds of the best of some runs on a text, and the words that the program wrote."""
    with open(source, "w", encoding="ascii") as out:
        out.write(text)
    runs = [run(program, source) for _ in range(RUNS)]
    return min(seconds for seconds, _ in runs), runs[0][1]


def main(arguments):
    """Prints the table."""
    program = usable(arguments, "figures_table")
    if program is None:
        return 2
    print(f"{'family':<32}{'bytes':>9}{'entries a byte':>16}{'ns a byte':>11}{'memory a byte':>15}")
    with tempfile.TemporaryDirectory() as folder:
        source = os.path.join(folder, "text.asn1")
        for name, make in FAMILIES.items():
            least = None
            for size in SIZES:
                best, words = best_run(program, source, make(size))
                length = os.path.getsize(source)
                peak = peak_memory([program], source)
                least = least or (length, peak)
                more = length - least[0]
                entries = f"{int(words[2]) / length:.1f}" if words[1:2] == ["bytes,"] else " ".join(words)
                memory = f"{(peak - least[1]) * 1024 / more:.0f}" if more else "-"
                print(f"{name:<32}{length:>9}{entries:>16}{best * 1e9 / length:>11.0f}{memory:>15}")
    return 0


if __name__ == "__main__":
    sys.exit(main(sys.argv[1:]))
