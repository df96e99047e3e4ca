#!/usr/bin/env python3
"""Counts the looks that the packrat table takes at texts, and prints a table: looks.py [SIZE..] [PROGRAM].

The counter of looks that contracts speak of runs nowhere, so looks are counted from outside: valgrind's tool lackey (Debian's package
valgrind) tells each load of the built program `figures_table`, and those of one byte within the memory of the text are counted, after
the text was read. The check that a text is UTF-8 loads eight bytes at once, so it counts for nothing but a few bytes at the end. The
families are those of `tables.py`; sizes are 10,000 bytes where none is named. A hundred kilobytes take minutes a row. PROGRAM is the
built program; with none it is crates/figures_table/out/figures_table, as 'rt run' in that folder leaves it. Nothing is asserted.
"""

import collections
import os
import shutil
import subprocess
import sys
import tempfile

from tables import FAMILIES, usable

KEPT = r"^ L [0-9a-f]*,1$|sys_read \( 0,"


def loads(program, source):
    """How often each address was read by a load of one byte, after the last read of standard input."""
    with open(source, "rb") as given:
        traced = subprocess.Popen(
            ["valgrind", "--tool=lackey", "--trace-mem=yes", "--trace-syscalls=yes", program],
            stdin=given, stdout=subprocess.DEVNULL, stderr=subprocess.PIPE,
        )
        kept = subprocess.Popen(["grep", "-E", KEPT], stdin=traced.stderr, stdout=subprocess.PIPE, text=True, env={"LC_ALL": "C"})
        counts = collections.Counter()
        for line in kept.stdout:
            if line.startswith(" L "):
                counts[int(line[3:-3], 16)] += 1
            else:
                counts.clear()
        kept.wait()
        traced.wait()
    return counts


def of_text(counts, length):
    """The loads within the memory of the text: the addresses in a row that are as many as it has bytes."""
    row = []
    for address in sorted(counts) + [None]:
        if row and (address is None or address != row[-1] + 1):
            if length <= len(row) < length + 16:
                return sum(counts[place] for place in row[:length])
            row = []
        row.append(address)
    return None


def main(arguments):
    """Prints the table."""
    sizes = [int(word) for word in arguments if word.isdigit()] or [10_000]
    named = [word for word in arguments if not word.isdigit()]
    program = usable(named, "figures_table")
    if program is None or shutil.which("valgrind") is None:
        print("looks.py: it wants such a program, and valgrind", file=sys.stderr)
        return 2
    print(f"{'family':<32}{'bytes':>9}{'looks':>10}{'looks a byte':>14}")
    with tempfile.TemporaryDirectory() as folder:
        source = os.path.join(folder, "text.asn1")
        for name, make in FAMILIES.items():
            for size in sizes:
                with open(source, "w", encoding="ascii") as out:
                    out.write(make(size))
                length = os.path.getsize(source)
                found = of_text(loads(program, source), length)
                looks, each = ("-", "-") if found is None else (found, f"{found / length:.2f}")
                print(f"{name:<32}{length:>9}{looks:>10}{each:>14}", flush=True)
    return 0


if __name__ == "__main__":
    sys.exit(main(sys.argv[1:]))
