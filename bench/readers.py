#!/usr/bin/env python3
"""Times readers and rules on large texts and prints a table: readers.py [rows_readers|rows_grammar] [PROGRAM].

The large texts are the rows with a repetition in `stdin` of the programs of rows, crates/rows_readers and crates/rows_grammar:
a kind of value or part a hundred thousand times through its reader, and through its rule alone, and a usual module with its
definitions 30, 300 and 600 times, of a hundred kilobytes, of one and of two megabytes. Each row is run by itself. PROGRAM is
the built program; with none it is out/NAME in its crate's folder, as 'rt run' there leaves it, and with no word both are
timed. Making the text is part of the time. Times are processor seconds, which other work on the machine changes little, and
the best of five runs counts; what the program writes is not looked at, and nothing is asserted here.
"""

import os
import re
import resource
import subprocess
import sys

PROGRAMS = ("rows_readers", "rows_grammar")
REPETITION = re.compile(r"\\\{(\d+):(.*?)\\\}")
LEAST = 100_000
RUNS = 5
HERE = os.path.dirname(os.path.abspath(__file__))


def written_out(field):
    """The text of a field: its repetitions and its marks."""
    text = REPETITION.sub(lambda found: found.group(2) * int(found.group(1)), field)
    return text.replace("\\n", "\n").replace("\\t", "\t").replace("\\b", "\\")


def large_rows(folder):
    """The rows of a program whose text is large: each with its text."""
    with open(os.path.join(folder, "stdin"), encoding="utf-8") as file:
        rows = [row.rstrip("\n") for row in file if REPETITION.search(row) and not row.startswith("#")]
    texts = [(row, written_out(row.split("\t")[-1])) for row in rows]
    return [(row, text) for row, text in texts if len(text) >= LEAST]


def seconds_used():
    """The processor seconds of all programs that were run so far."""
    used = resource.getrusage(resource.RUSAGE_CHILDREN)
    return used.ru_utime + used.ru_stime


def seconds_of(program, row):
    """The best processor time of a program on one row; None where it does not end well."""
    best = None
    for _ in range(RUNS):
        start = seconds_used()
        run = subprocess.run([program], input=(row + "\n").encode(), stdout=subprocess.DEVNULL, check=False)
        seconds = seconds_used() - start
        if run.returncode != 0:
            return None
        best = seconds if best is None else min(best, seconds)
    return best


def timed(name, program):
    """Prints the table of a program; whether it is there."""
    folder = os.path.join(HERE, "..", "crates", name)
    if not os.access(program, os.X_OK):
        print(f"no program at {program}: build it with 'rt run' in crates/{name}", file=sys.stderr)
        return False
    print(f"{name:<28}{'begins':<26}{'bytes':>10}{'seconds':>10}{'us a byte':>11}")
    for row, text in large_rows(folder):
        words = " ".join(row.split("\t")[:-1])
        seconds = seconds_of(program, row)
        begins = text[:22].replace("\n", " ")
        if seconds is None:
            print(f"{words:<28}{begins:<26}{len(text):>10}{'failed':>10}")
        else:
            print(f"{words:<28}{begins:<26}{len(text):>10}{seconds:>10.3f}{seconds / len(text) * 1e6:>11.2f}")
    return True


def main(arguments):
    """Prints the tables."""
    names = [arguments[0]] if arguments else list(PROGRAMS)
    there = True
    for name in names:
        program = arguments[1] if len(arguments) > 1 else os.path.join(HERE, "..", "crates", name, "out", name)
        there = timed(name, program) and there
    return 0 if there else 2


if __name__ == "__main__":
    sys.exit(main(sys.argv[1:]))
