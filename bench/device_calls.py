#!/usr/bin/env python3
"""Counts the device calls of sends and of receives in few frames over a large store, whose senders are drawn. The nth device call is
made to fail, and the greatest n whose failure is told is how many there are. Each operation is a transaction of its own. Of the counts
those of forces are left out, two for each.

    python3 bench/device_calls.py [--program PROGRAM] [--frames F] [--operations N]
"""
import random
import subprocess
import sys

from program import built, parser

DIRECTORY, CELLS = 1024, 65536
SENDERS = 15 * DIRECTORY
BETWEEN_FORCES = 8
FAILED = (b"refused 3 DiskRead", b"refused 15 DiskWrite")


class Course:
    """Transactions of one operation each, and forces between them."""

    def __init__(self):
        self.lines, self.transactions, self.forces = ["restart"], 0, 0

    def add(self, start):
        self.transactions += 1
        txn = f"1.{self.transactions}"
        self.lines += ["begin", start.replace("TXN", txn), *[f"step {txn} 1"] * 3, f"finish {txn} 1", f"commit {txn}"]
        if self.transactions % BETWEEN_FORCES == 0:
            self.lines.append("force")
            self.forces += 1


def told(program, frames, lines, failing=0):
    """What the happenings come to, where this device call behind the opening fails; 0 for none."""
    given = "".join(f"{line}\n" for line in [lines[0], f"fail {failing}", *lines[1:]])
    words = [program, "happenings", str(DIRECTORY), str(CELLS), "0", str(frames)]
    return subprocess.run(words, input=given.encode(), capture_output=True, check=True).stdout.split(b"\n")


def device_calls(program, frames, lines):
    low, high = 0, 20 * len(lines)
    while low < high:
        middle = (low + high + 1) // 2
        if any(line in FAILED for line in told(program, frames, lines, middle)):
            low = middle
        else:
            high = middle - 1
    return low


def main():
    words = parser(__doc__)
    words.add_argument("--frames", type=int, default=64)
    words.add_argument("--operations", type=int, default=400)
    chosen = words.parse_args()
    program, course, before, forces = built(chosen.program), Course(), 0, 0
    senders = random.Random(1).choices(range(SENDERS), k=chosen.operations)
    for kind, start, said in (("send", "start-send TXN {} 1 m", b"sent"), ("receive", "start-receive-from TXN {}", b"message")):
        random.Random(2).shuffle(senders)
        for sender in senders:
            course.add(start.format(sender))
        done = sum(line.startswith(said) for line in told(program, chosen.frames, course.lines))
        if done != chosen.operations:
            sys.exit(f"{done} of {chosen.operations} operations are done")
        calls = device_calls(program, chosen.frames, course.lines)
        beside_forces = calls - before - 2 * (course.forces - forces)
        print(f"{beside_forces / chosen.operations:.2f} device calls a {kind}, in {chosen.frames} frames of {DIRECTORY + CELLS} pages")
        before, forces = calls, course.forces


if __name__ == "__main__":
    main()
