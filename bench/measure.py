#!/usr/bin/env python3
"""Times a program on growing texts, and prints tables: measure.py PROGRAM.

The first table is over texts of 10 KB, 100 KB and 1 MB of small types, the second over chains of 1,000, 10,000 and
100,000 definitions, each of which names the next: looking names up takes the most time there. The third is over texts of
100 KB and 1 MB that are nearly all blanks, comments, one name, or comments that are not closed. The fourth is over the shapes
of usual modules of the whole notation at 100 KB, 1 MB and 2 MB, and the last ones over long forms, nests and stars that linking follows, and
constraints, components and types in each other.

run.sh calls it. Times are processor seconds, which other work on the machine changes less than the clock, and the best of five runs
counts. Peak memory is that of one further run, as GNU time tells it.
"""

import os
import subprocess
import sys
import tempfile

from make_chain import chain
from make_lexical import KINDS
from make_shapes import DEFINITIONS, text as shape_text
from make_text import text

SIZES = (10_000, 100_000, 1_000_000)
NAMES = (1_000, 10_000, 100_000)
LEXICAL_SIZES = (100_000, 1_000_000)
SHAPE_SIZES = (100_000, 1_000_000, 2_000_000)
DEPTHS = (16, 60, 200)
RUNS = 5
GNU_TIME = "/usr/bin/time"
# Clean, and with warnings: the two statuses of a text that was read and linked.
READ_STATUSES = (0, 1)


def run(command, source):
    """One run on a file: its processor seconds, its status, and its peak memory in KB, or this interpreter's where that is more."""
    with open(source, "rb") as given:
        child = subprocess.Popen(command, stdin=given, stdout=subprocess.DEVNULL)
        _, status, usage = os.wait4(child.pid, 0)
    child.returncode = os.waitstatus_to_exitcode(status)
    return usage.ru_utime + usage.ru_stime, child.returncode, usage.ru_maxrss


def peak_memory(command, source):
    """The peak memory of a run on a file, in KB.

    A child begins with its parent's peak. GNU time is small, where this interpreter takes some 10 MB.
    """
    if not os.access(GNU_TIME, os.X_OK):
        return run(command, source)[2]
    with tempfile.NamedTemporaryFile("r") as told:
        run([GNU_TIME, "-f", "%M", "-o", told.name] + command, source)
        return int(told.read().split()[-1])


def row(command, content, folder):
    """Bytes, status, best seconds and peak memory in KB on a text."""
    source = os.path.join(folder, "text.asn1")
    with open(source, "w", encoding="ascii") as out:
        out.write(content)
    runs = [run(command, source) for _ in range(RUNS)]
    best = min(seconds for seconds, _, _ in runs)
    return os.path.getsize(source), runs[-1][1], best, peak_memory(command, source)


def print_table(rows):
    """The rows, with the memory that a byte takes beyond the smallest text."""
    print(f"{'bytes':>9} {'status':>6} {'best ms':>9} {'ns a byte':>9} {'peak KB':>9} {'bytes of memory a byte':>22}")
    least_size, _, _, least_peak = rows[0]
    for size, status, best, peak in rows:
        more = size - least_size
        slope = f"{(peak - least_peak) * 1024 / more:.1f}" if more else "-"
        print(f"{size:>9} {status:>6} {best * 1e3:>9.2f} {best * 1e9 / size:>9.1f} {peak:>9} {slope:>22}")
    if any(status not in READ_STATUSES for _, status, _, _ in rows):
        print("a status beside 0 and 1: the text was not read, and the row says nothing of its linking")


def print_lexical_table(command, folder):
    """Two rows for each lexical kind. A status of 2 or 3 is that of comments which are not closed."""
    print(f"{'kind':>22} {'bytes':>9} {'status':>6} {'best ms':>9} {'ns a byte':>9}")
    for kind, make in KINDS.items():
        for size in LEXICAL_SIZES:
            length, status, best, _ = row(command, make(size), folder)
            print(f"{kind:>22} {length:>9} {status:>6} {best * 1e3:>9.2f} {best * 1e9 / length:>9.1f}")


def print_shapes(command, folder):
    """Three rows for each shape of usual modules."""
    for shape in DEFINITIONS:
        print()
        print(shape)
        print_table([row(command, shape_text(shape, size), folder) for size in SHAPE_SIZES])


NESTED = {
    "SIZE in SIZE": lambda depth: "A ::= INTEGER (" + "SIZE(" * depth + "1" + ")" * depth + ")",
    "SIZE in SIZE, not closed": lambda depth: "A ::= INTEGER (" + "SIZE(" * depth,
    "WITH COMPONENT": lambda depth: "A ::= B (" + "WITH COMPONENT (" * depth + "1" + ")" * depth + ")",
    "braces": lambda depth: "a B ::= " + "{" * depth + "}" * depth,
    "SEQUENCE in SEQUENCE": lambda depth: "A ::= " + "SEQUENCE { a " * depth + "NULL" + " }" * depth,
    "arguments": lambda depth: "A ::= " + "T {" * depth + "NULL" + "}" * depth,
}


def print_nested(command, folder):
    """A row for each form in itself and each depth. A status of 2 or 3 is that of a text that does not match, or is too deep."""
    print()
    print(f"{'nested':>25} {'depth':>6} {'bytes':>7} {'status':>6} {'best ms':>9} {'peak KB':>9}")
    for kind, make in NESTED.items():
        for depth in DEPTHS:
            content = f"M DEFINITIONS ::= BEGIN {make(depth)} END\n"
            length, status, best, peak = row(command, content, folder)
            print(f"{kind:>25} {depth:>6} {length:>7} {status:>6} {best * 1e3:>9.2f} {peak:>9}")


def nest(depth, lists):
    """Templates, each of which takes as many lists of the next; the first is used once."""
    parts = ["A ::= T0 {NULL}"]
    for place in range(depth):
        held = ", ".join(f"a{number} T{place + 1} {{X}}" for number in range(lists))
        parts.append(f"T{place} {{X}} ::= SEQUENCE {{ {held} }}")
    return " ".join(parts) + f" T{depth} {{X}} ::= SET OF X"


def star(count):
    """Types that each take the components of one."""
    rays = " ".join(f"A{place} ::= SEQUENCE {{ COMPONENTS OF B }}" for place in range(count))
    return f"B ::= SEQUENCE {{ a NULL, b BOOLEAN }} {rays}"


def print_linked(command, folder):
    """Nests of templates, and types with one type's components. A status of 9 is want of memory."""
    texts = {
        "a nest, one list a level": nest(30, 1),
        "a nest, two lists a level": nest(30, 2),
        "a star of 10,000": star(10_000),
    }
    print()
    print(f"{'linked':>25} {'bytes':>9} {'status':>6} {'best ms':>9} {'peak KB':>9}")
    for kind, content in texts.items():
        length, status, best, peak = row(command, f"M DEFINITIONS ::= BEGIN {content} END\n", folder)
        print(f"{kind:>25} {length:>9} {status:>6} {best * 1e3:>9.2f} {peak:>9}")


def print_long(command, folder):
    """One enumeration of 40,000 items, and 50,000 definitions of one name."""
    items = ", ".join(f"item-{place}" for place in range(40_000))
    texts = {
        "40,000 items": f"A ::= ENUMERATED {{ {items} }}",
        "50,000 of one name": "A ::= NULL " * 50_000,
    }
    print()
    print(f"{'long':>25} {'bytes':>9} {'status':>6} {'best ms':>9} {'peak KB':>9}")
    for kind, content in texts.items():
        length, status, best, peak = row(command, f"M DEFINITIONS ::= BEGIN {content} END\n", folder)
        print(f"{kind:>25} {length:>9} {status:>6} {best * 1e3:>9.2f} {peak:>9}")


def main():
    if len(sys.argv) != 2:
        sys.exit("usage: measure.py PROGRAM")
    command = [sys.argv[1], "link"]
    with tempfile.TemporaryDirectory() as folder:
        print_table([row(command, text(size), folder) for size in SIZES])
        print()
        print("chains of", ", ".join(f"{count:,}" for count in NAMES), "definitions")
        print_table([row(command, chain(count), folder) for count in NAMES])
        print()
        print_lexical_table(command, folder)
        print_shapes(command, folder)
        print_long(command, folder)
        print_linked(command, folder)
        print_nested([sys.argv[1], "link", "--depth", "2000"], folder)


if __name__ == "__main__":
    main()
