#!/usr/bin/env python3
"""Runs a command, and prints what it took behind it: processor and wall minutes, whole and by crate.

    python3 .ci/cost.py COMMAND..

Its output and its status are the command's. A check is a process of the prover with those that it started. What it has used is read
twice a second, so of each check up to half a second is missing; the whole is the system's own count.
"""

import os
import re
import resource
import subprocess
import sys
import threading
import time

TICKS = os.sysconf("SC_CLK_TCK")
SECONDS = 0.5
PARTS = ("proof", "tests", "edits")


def text_of(path):
    try:
        with open(path, "rb") as file:
            return file.read().decode(errors="replace")
    except OSError:
        return ""


def processes():
    """Of each process: its parent, and the ticks that it and those of its children that have ended took."""
    found = {}
    for pid in filter(str.isdigit, os.listdir("/proc")):
        fields = text_of(f"/proc/{pid}/stat").rpartition(")")[2].split()
        if fields:
            found[int(pid)] = int(fields[1]), sum(map(int, fields[11:15])), fields[19]
    return found


def part_of(pid):
    """The crate and the part of its work that a process of the prover is, or None for any other."""
    words = text_of(f"/proc/{pid}/cmdline").split("\0")
    if not re.search(r"(^|/)rattle$", words[0]) or "--crate-name" not in words:
        return None
    crate = words[words.index("--crate-name") + 1]
    try:
        is_edit = "/rt-edit" in os.readlink(f"/proc/{pid}/cwd")
    except OSError:
        is_edit = False
    return crate, "edits" if is_edit else "tests" if "--test" in words else "proof"


class Meter:
    """What the prover's processes below this one took, by crate and part."""

    def __init__(self):
        self.of_check, self.parts, self.has_ended = {}, {}, threading.Event()

    def read(self):
        alive = processes()

        def line_of(pid):
            while pid in alive:
                yield pid
                pid = alive[pid][0]

        sums = {}
        for pid, (_, ticks, _) in alive.items():
            line = list(line_of(pid))
            if os.getpid() not in line:
                continue
            # the highest of the prover's processes on the way up is the check that this one belongs to
            for above in reversed(line):
                key = above, alive[above][2]
                # (a process that has not begun its command yet may become one of the prover's)
                self.parts[key] = self.parts.get(key) or part_of(above)
                if self.parts[key]:
                    sums[key] = sums.get(key, 0) + ticks
                    break
        for key, ticks in sums.items():
            self.of_check[key] = max(ticks, self.of_check.get(key, 0))

    def run(self):
        while not self.has_ended.wait(SECONDS):
            self.read()

    def table(self):
        rows = {}
        for key, ticks in self.of_check.items():
            crate, part = self.parts[key]
            row = rows.setdefault(crate, dict.fromkeys(PARTS, 0.0))
            row[part] += ticks / TICKS / 60
        return rows


def print_table(rows, processor, wall):
    print(f"\n{'processor minutes':24}{'all':>8}" + "".join(f"{part:>8}" for part in PARTS))
    for crate, row in sorted(rows.items(), key=lambda it: -sum(it[1].values())):
        print(f"{crate:24}{sum(row.values()):8.1f}" + "".join(f"{row[part]:8.1f}" for part in PARTS))
    sums = [sum(row[part] for row in rows.values()) for part in PARTS]
    print(f"{'checks':24}{sum(sums):8.1f}" + "".join(f"{each:8.1f}" for each in sums))
    print(f"{'the whole':24}{processor:8.1f}   in {wall:.1f} minutes of wall time, on {os.cpu_count()} cores", flush=True)


def main():
    meter, start = Meter(), time.monotonic()
    reader = threading.Thread(target=meter.run)
    command = subprocess.Popen(sys.argv[1:])
    reader.start()
    status = command.wait()
    meter.has_ended.set()
    reader.join()
    used = resource.getrusage(resource.RUSAGE_CHILDREN)
    print_table(meter.table(), (used.ru_utime + used.ru_stime) / 60, (time.monotonic() - start) / 60)
    return status if status >= 0 else 128 - status


if __name__ == "__main__":
    sys.exit(main())
