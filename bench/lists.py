#!/usr/bin/env python3
"""Compares the two lists of crates with each other and with crates/: lists.py [REPOSITORY] (none: the one it stands in).

crates.txt has a heading for each wing, a comment line `# Wing: what it holds`, and below it a line `NAME: DEPENDENCIES` for each crate.
docs/ARCHITECTURE.md has a heading `### Wing` and below it a row of a table, `| NAME | ..`, for each. Both are to have the same headings
with the same crates in the same order, one line for each folder of crates/, and no crate is to use one that is listed behind it.

It prints a line for each fault and ends with 1; where there is none it says how many crates stand under how many headings, and ends
with 0.
"""

import collections
import os
import re
import sys

LIST, PAGE = "crates.txt", "docs/ARCHITECTURE.md"


def read_list(text):
    """The crates under each heading of crates.txt, and what each crate uses."""
    wings, uses, crates = [], {}, None
    for line in text.splitlines():
        heading = re.match(r"# *([^:]+): ", line)
        if heading:
            crates = []
            wings.append((heading[1].strip(), crates))
        name, colon, below = line.partition("#")[0].partition(":")
        if colon:
            if crates is None:
                crates = []
                wings.append(("(no heading)", crates))
            crates.append(name.split()[0])
            uses.setdefault(name.split()[0], below.split())
    return wings, uses


def read_page(text):
    """The crates under each heading of docs/ARCHITECTURE.md. A heading of another level ends a wing."""
    wings, crates = [], None
    for line in text.splitlines():
        heading = re.match(r"(#+) +(.*\S)", line)
        row = re.match(r"\| *([a-z][a-z0-9_]*) *\|", line)
        if heading:
            crates = [] if heading[1] == "###" else None
            if crates is not None:
                wings.append((heading[2], crates))
        elif row and crates is not None:
            crates.append(row[1])
    return wings


def faults_of_lines(where, wings, folders):
    """Crates without a line or with several, lines without a crate, and headings that stand twice."""
    lines = collections.Counter(name for _, crates in wings for name in crates)
    headings = collections.Counter(heading for heading, _ in wings)
    yield from (f"{where}: {name} has no line" for name in sorted(folders - set(lines)))
    yield from (f"{where}: {name} has {count} lines" for name, count in lines.items() if count > 1)
    yield from (f"{where}: {name} is no crate of crates/" for name in lines if name not in folders)
    yield from (f"{where}: the heading {name} stands {count} times" for name, count in headings.items() if count > 1)


def faults_of_wings(listed, paged):
    """Headings that stand in one list alone, or in another order, and crates that differ under one."""
    first, second = dict(listed), dict(paged)
    yield from (f"{PAGE} lacks the heading {name}" for name in first if name not in second)
    yield from (f"{LIST} lacks the heading {name}" for name in second if name not in first)
    shared = [name for name in first if name in second]
    if shared != [name for name in second if name in first]:
        yield "the headings stand in another order in each list"
    for name in shared:
        here, there = first[name], second[name]
        only = [(LIST, it) for it in here if it not in there] + [(PAGE, it) for it in there if it not in here]
        yield from (f"under {name}, {it} stands in {where} alone" for where, it in only)
        if not only and here != there:
            at = next((i for i, (a, b) in enumerate(zip(here, there)) if a != b), min(len(here), len(there)))
            yield f"under {name}, the order differs from crate {at + 1} on"


def faults_of_order(wings, uses):
    """Crates that use one which is not listed before them."""
    names = [name for _, crates in wings for name in crates]
    seen = set()
    for name in names:
        behind = [it for it in uses[name] if it in names and it not in seen]
        yield from (f"{LIST}: {name} uses {it}, which is not listed before it" for it in behind)
        seen.add(name)


def main():
    root = sys.argv[1] if len(sys.argv) > 1 else os.path.dirname(os.path.dirname(os.path.abspath(__file__)))
    with open(os.path.join(root, LIST), encoding="utf-8") as file:
        listed, uses = read_list(file.read())
    with open(os.path.join(root, PAGE), encoding="utf-8") as file:
        paged = read_page(file.read())
    with os.scandir(os.path.join(root, "crates")) as entries:
        folders = {it.name for it in entries if it.is_dir()}
    faults = [*faults_of_lines(LIST, listed, folders), *faults_of_lines(PAGE, paged, folders)]
    faults += [*faults_of_wings(listed, paged), *faults_of_order(listed, uses)]
    for fault in faults:
        print(fault)
    if not faults:
        print(f"{len(folders)} crates under {len(listed)} headings agree")
    return 1 if faults else 0


if __name__ == "__main__":
    sys.exit(main())
