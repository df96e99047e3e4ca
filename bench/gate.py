#!/usr/bin/env python3
"""Runs the gate and prints what each crate took: gate.py [NAME..], with the words of `rt ci`; or gate.py --watch PID.

`rt ci` tells no times, so they are read off /proc, four times a second: of each process of the gate that names a crate, the processor
time of it and of all that it started. A check in the crate's own folder is its proof, one with --test its tests, and one in another
folder an edit or what the edits begin with. The table has processor seconds, dearest first. What the kernel tells of the whole run
besides is rt itself, the programs that were run, and what ended between two looks.

With --watch it runs nothing: it watches the `rt ci` of that process till it ends. What ended before is not in the table. A crate that
is kept from an earlier run takes nothing, so a gate from nothing is `gate.py --anew`. It ends with the status of `rt ci`, watching
with 0.
"""

import collections
import os
import resource
import subprocess
import sys
import time

from lists import LIST, read_list

PAUSE = 0.25
TICKS = os.sysconf("SC_CLK_TCK")
KINDS = ("proof", "tests", "edits")
ROOT = os.path.dirname(os.path.dirname(os.path.abspath(__file__)))

Process = collections.namedtuple("Process", "parent started seconds")


def processes():
    """Each process by its number: its parent, when it started, and its seconds with those of all that it started and waited for."""
    found = {}
    for name in filter(str.isdecimal, os.listdir("/proc")):
        try:
            with open(f"/proc/{name}/stat", encoding="utf-8", errors="replace") as file:
                words = file.read().rpartition(")")[2].split()
        except OSError:
            continue
        found[int(name)] = Process(int(words[1]), int(words[19]), sum(map(int, words[11:15])) / TICKS)
    return found


def job_of(pid):
    """The crate that a process checks, and which of its checks this is; None where its words name no crate."""
    try:
        with open(f"/proc/{pid}/cmdline", encoding="utf-8", errors="replace") as file:
            words = file.read().split("\0")
        folder = os.path.basename(os.readlink(f"/proc/{pid}/cwd"))
    except OSError:
        return None
    if "--crate-name" not in words[:-1]:
        return None
    crate = words[words.index("--crate-name") + 1]
    return crate, "edits" if folder != crate else "tests" if "--test" in words else "proof"


class Gate:
    """What was seen of the processes that stand below one."""

    def __init__(self, top):
        self.top = top
        self.jobs = {}
        self.seconds = {}

    def look(self):
        """Takes the times of all processes that live, and says whether the topmost does."""
        found = processes()
        children = collections.defaultdict(list)
        for pid, it in found.items():
            children[it.parent].append(pid)

        def below(pid):
            return found[pid].seconds + sum(map(below, children[pid]))

        left = list(children[self.top])
        while left:
            pid = left.pop()
            key = pid, found[pid].started
            # (a process names its crate only once its own words have replaced those of its parent, and no more when it has ended)
            job = self.jobs.get(key) or job_of(pid)
            if job:
                self.jobs[key] = job
                self.seconds[key] = max(below(pid), self.seconds.get(key, 0.0))
            else:
                left += children[pid]
        return self.top in found

    def by_crate(self):
        """The seconds of each crate's proof, tests and edits."""
        sums = collections.defaultdict(lambda: dict.fromkeys(KINDS, 0.0))
        for key, (crate, kind) in self.jobs.items():
            sums[crate][kind] += self.seconds[key]
        return sums


def table(sums, whole):
    """Prints the crates, dearest first, their sum, that of the wing Rows, and the rest of the whole where that is known."""
    with open(os.path.join(ROOT, LIST), encoding="utf-8") as file:
        wings, uses = read_list(file.read())
    tests = {name for heading, crates in wings if heading == "Rows" for name in crates}

    def row(name, crates):
        each = [sum(sums[it][kind] for it in crates) for kind in KINDS]
        print(f"{name:<28}" + "".join(f"{it:>10,.1f}" for it in (*each, sum(each))))

    print(f"{'crate':<28}" + "".join(f"{it:>10}" for it in (*KINDS, "all")))
    for name in sorted(sums, key=lambda it: -sum(sums[it].values())):
        row(name, [name])
    row("sum", list(sums))
    row("of it, rows and tests", [it for it in sums if it in tests])
    seen = sum(sum(it.values()) for it in sums.values())
    if whole is not None:
        print(f"{'beside these':<28}{max(whole - seen, 0):>40,.1f}")
    print(f"{(seen if whole is None else whole) / 60:,.1f} processor minutes; {len(set(uses) - set(sums))} crates of {len(uses)} are not in the table")


def main():
    words = sys.argv[1:]
    watched = int(words[1]) if words[:1] == ["--watch"] else None
    ran = None if watched else subprocess.Popen(["rt", "ci", *words], cwd=ROOT)
    gate = Gate(watched or ran.pid)
    try:
        while gate.look() and (watched or ran.poll() is None):
            time.sleep(PAUSE)
    except KeyboardInterrupt:
        print("interrupted: the table has what was seen until then")
    status, whole = 0, None
    if ran:
        status = ran.wait()
        used = resource.getrusage(resource.RUSAGE_CHILDREN)
        whole = used.ru_utime + used.ru_stime
    table(gate.by_crate(), whole)
    return status


if __name__ == "__main__":
    sys.exit(main())
