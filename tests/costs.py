#!/usr/bin/env python3
"""Runs the gate from nothing, and prints what each crate cost in processor seconds.

    python3 tests/costs.py [FOLDER [CRATE ..]]

The gate is `rt ci --anew` at FOLDER, this repository where none is given; with names of crates it
is the gate of these and of the crates below them. What it says goes to standard error. A line for
each crate tells the seconds of its proof, with its tests and programs, and those of its wrong
bodies, with the proof that they begin with. Interrupted, it prints what was taken until then.

The compiler's processes are looked at four times a second, so the last moments of each are missed.
"""
import os
import re
import signal
import subprocess
import sys
import time

TOP = os.path.dirname(os.path.dirname(os.path.abspath(__file__)))
TICKS = os.sysconf("SC_CLK_TCK")
PAUSE = 0.25


def read(process, name):
    with open(f"/proc/{process}/{name}", encoding="utf-8", errors="replace") as it:
        return it.read()


def stat_of(process):
    """Returns its parent, its start, and the processor seconds of it and of its ended children."""
    text = read(process, "stat")
    fields = text[text.rindex(")") + 2 :].split()
    return fields[1], fields[19], sum(map(int, fields[11:15])) / TICKS


class Costs:
    """The processor seconds of the compiler at the crates of a folder."""

    def __init__(self, folder, gate):
        self.folder, self.gate = folder, gate
        # by process and start: the crate, and whether a wrong body is tried
        self.works, self.seconds = {}, {}

    def work_of(self, process, parent):
        """A copy that the compiler makes of itself counts with the process that waits for it."""
        if any(at == parent for at, _ in self.works):
            return None
        if not os.readlink(f"/proc/{process}/exe").endswith("/rattle"):
            return None
        name = re.search(r"\0--crate-name\0([^\0]+)", read(process, "cmdline"))
        where = os.readlink(f"/proc/{process}/cwd")
        # (a folder of the gate's own has its process in its name)
        room = re.search(rf"/rt-([a-z]+)-{self.gate}-", where)
        ours = room or where.startswith(f"{self.folder}/")
        return (name[1], room is not None and room[1].startswith("edit")) if name and ours else None

    def look(self):
        for process in filter(str.isdigit, os.listdir("/proc")):
            try:
                parent, start, seconds = stat_of(process)
                key = process, start
                work = self.works.get(key) or self.work_of(process, parent)
                if work:
                    self.works[key], self.seconds[key] = work, seconds
            except (OSError, ValueError):
                # (it has ended)
                continue

    def rows(self):
        """Returns, for each crate, the seconds of its proof and of its wrong bodies."""
        rows = {}
        for key, seconds in self.seconds.items():
            name, tries = self.works[key]
            rows.setdefault(name, [0.0, 0.0])[tries] += seconds
        return rows


def show(rows):
    line = "{:22}{:>8}{:>14}".format
    print(line("crate", "proof", "wrong bodies"))
    for name, row in sorted(rows.items(), key=lambda it: -sum(it[1])):
        print(line(name, *map(round, row)))
    sums = [sum(column) for column in zip(*rows.values())] or [0, 0]
    print(line(f"{len(rows)} crates", *map(round, sums)), f" {sum(sums) / 60:.0f} minutes")


def main(folder=TOP, *crates):
    signal.signal(signal.SIGTERM, signal.default_int_handler)
    words = ["rt", "ci", "--anew", *crates]
    gate = subprocess.Popen(words, cwd=folder, stdout=sys.stderr, start_new_session=True)
    costs = Costs(os.path.realpath(folder), gate.pid)
    try:
        while gate.poll() is None:
            costs.look()
            time.sleep(PAUSE)
    except KeyboardInterrupt:
        os.killpg(gate.pid, signal.SIGTERM)
    show(costs.rows())
    return gate.wait()


if __name__ == "__main__":
    sys.exit(main(*sys.argv[1:]))
