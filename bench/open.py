#!/usr/bin/env python3
"""Times transactions beside 4,095 others that stay open, and beside one; a receive in a store of 15,000 groups; and a
send and a receive in the greatest store, nearly empty and nearly full.

Each of the others has begun and done nothing, or has sent, or has received, each for a group of its own. What is timed
begins, makes one operation for the last group, and commits or aborts it. A run goes through few transactions, and one
through many; what both have in common is taken off, so that nothing of a store's opening is counted. The ways run by
turns. The aim is that the many take at most 1.3 times as long as the one, in the middle of the runs. With
`--instructions` valgrind counts instructions instead, in one run of each: they are the same whatever else the machine
does.

    python3 bench/open.py [--program PROGRAM] [--runs 9 | --instructions] [ROW..]
"""
import re
import statistics
import subprocess
import sys
import time

from program import built, parser

MOST_OPEN = 4095
AIM = 1.3
# More than what is open, in whole pages.
DIRECTORY = 280
CELLS = 1024
FEW = 500
# Where instructions are counted.
COUNTED_FEW = 100
COUNTED_MANY = 600


class Row:
    """The words of two cases, but for how many transactions: `many` in the longer run of each."""

    def __init__(self, name, base, other, many):
        self.name = name
        self.cases = (base, other)
        self.many = many


def beside(kind, other, many):
    """A kind of transaction beside one other, and beside as many as there may be."""
    messages = many if kind == "receive" else 0
    one, most = ([kind, DIRECTORY, CELLS, other, n, messages] for n in (1, MOST_OPEN))
    return Row(f"{kind} beside 1 that has {other}, and beside {MOST_OPEN}", one, most, many)


def rows():
    """All that is compared."""
    for kind, many in (("send", 6500), ("receive", 6500), ("commit", 50500), ("abort", 6500)):
        for other in ("begun", "sent", "received"):
            yield beside(kind, other, many)
    # The same number of pages; all messages are of the last group.
    small, large = (["receive", pages, 2000 - pages, "begun", 0, 6500] for pages in (1, 1000))
    yield Row("receive in 15 groups, and in 15,000 of which one has messages", small, large, 6500)
    # The greatest store, with few cells used and with most.
    for kind, few in (("send", 0), ("receive", 20500)):
        empty, full = ([kind, 1, 65536, "begun", 0, messages] for messages in (few, 900000))
        yield Row(f"{kind} with {few} of 983,040 cells used, and with 900,000", empty, full, 20500)


def run(program, case, transactions):
    """Seconds of one run."""
    words = [str(word) for word in (*case, transactions)]
    start = time.monotonic()
    ended = subprocess.run([program, "beside", *words], capture_output=True, text=True)
    seconds = time.monotonic() - start
    if ended.returncode != 0 or ended.stdout != f"{transactions} transactions\n":
        sys.exit(f"{program} {words}: status {ended.returncode}, {ended.stdout!r}, {ended.stderr!r}")
    return seconds


def each(program, case, many):
    """Microseconds a transaction, without what a run of few takes too."""
    few = run(program, case, FEW)
    return (run(program, case, many) - few) / (many - FEW) * 1e6


def counted(program, case):
    """Instructions a transaction, without what a run of few takes too."""
    return (count(program, case, COUNTED_MANY) - count(program, case, COUNTED_FEW)) / (COUNTED_MANY - COUNTED_FEW)


def count(program, case, transactions):
    """Instructions of one run."""
    words = [str(word) for word in (*case, transactions)]
    tool = ["valgrind", "--tool=callgrind", "--callgrind-out-file=/dev/null"]
    ended = subprocess.run([*tool, program, "beside", *words], capture_output=True, text=True)
    told = re.search(r"Collected : (\d+)", ended.stderr)
    if ended.returncode != 0 or ended.stdout != f"{transactions} transactions\n" or not told:
        sys.exit(f"{program} {words}: status {ended.returncode}, {ended.stdout!r}, {ended.stderr!r}")
    return int(told[1])


def timed(program, row, runs):
    """The times of both cases, by turns."""
    times = ([], [])
    for turn in range(runs):
        for place in (0, 1) if turn % 2 == 0 else (1, 0):
            times[place].append(each(program, row.cases[place], row.many))
    return times


def main():
    chosen = parser(__doc__)
    chosen.add_argument("--runs", type=int, default=9)
    chosen.add_argument("--instructions", action="store_true")
    chosen.add_argument("row", nargs="*", help="words of the rows to be timed; all where there are none")
    words = chosen.parse_args()
    program = built(words.program)
    for row in rows():
        if words.row and not all(word in row.name.split() for word in words.row):
            continue
        if words.instructions:
            base, other = (counted(program, case) for case in row.cases)
            print(f"{row.name}: {base:.0f} and {other:.0f} instructions, {other / base:.2f} times as many", flush=True)
            continue
        base, other = timed(program, row, words.runs)
        middle, best = (f(other) / f(base) for f in (statistics.median, min))
        print(
            f"{row.name}: {statistics.median(base):.2f} and {statistics.median(other):.2f} us in the middle of "
            f"{words.runs} runs, {middle:.2f} times as long, {best:.2f} at best; the aim is {AIM}",
            flush=True,
        )


if __name__ == "__main__":
    main()
