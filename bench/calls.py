#!/usr/bin/env python3
"""Times calls through a kept engine on one thread, and the same calls through a shared one on four with a pass each.

Each of four senders goes through 19,200 rounds of two transactions, one that sends and one that receives what it sent:
begin, start, three steps, finish, commit. Each sender has a directory page of its own, and operations of all of them are
under way at once; a receive may find its cell's page latched by another's send. A start that is Latched is tried again;
Latched ones are not counted as calls. The audit is taken after every 64 rounds of a sender, in both ways. The
ways run by turns, and what a way takes with no round is taken off. The aim is that the shared way takes at most 1.5
times as long a call, in the middle of the runs: the best of them is one in which threads hardly met.

    python3 bench/calls.py [--program PROGRAM]
"""
import os
import re
import statistics
import subprocess
import sys
import time

from program import built, parser

SENDERS = 4
ROUNDS_A_BATCH = 64
CALLS_A_ROUND = 14
BATCHES = 300
CALLS = SENDERS * BATCHES * ROUNDS_A_BATCH * CALLS_A_ROUND
RUNS = 12
AIM = 1.5


def run(program, threads, batches):
    """Seconds of one run, in which every call has to be answered, and how many starts were Latched."""
    start = time.monotonic()
    ended = subprocess.run([program, "calls", str(threads), str(batches)], capture_output=True, text=True)
    seconds = time.monotonic() - start
    calls = CALLS * batches // BATCHES
    latched = re.fullmatch(r"(\d+) latched\n", ended.stderr)
    if ended.returncode != 0 or ended.stdout != f"{calls} calls\n" or not latched:
        sys.exit(f"{program}: status {ended.returncode}, {ended.stdout!r}, {ended.stderr!r}")
    return seconds, int(latched[1])


def timed(program):
    """For each number of threads the microseconds a call of each run, and the Latched starts of each run."""
    empty, full, latched = ({1: [], 4: []} for _ in range(3))
    for turn in range(RUNS):
        for threads in (1, 4) if turn % 2 == 0 else (4, 1):
            empty[threads].append(run(program, threads, 0)[0])
            seconds, starts = run(program, threads, BATCHES)
            full[threads].append(seconds)
            latched[threads].append(starts)
    each = {threads: [(s - min(empty[threads])) / CALLS * 1e6 for s in full[threads]] for threads in full}
    return each, latched


def main():
    words = parser(__doc__).parse_args()
    each, latched = timed(built(words.program))
    for threads, way in ((1, "kept, 1 thread"), (4, "shared, 4 threads")):
        times, starts = each[threads], latched[threads]
        print(
            f"{way}: {statistics.median(times):.3f} us a call in the middle of {RUNS} runs, {min(times):.3f} at best, "
            f"{max(times):.3f} at worst; {min(starts)} to {max(starts)} Latched beside {CALLS} calls"
        )
    best = min(each[4]) / min(each[1])
    middle = statistics.median(each[4]) / statistics.median(each[1])
    print(f"{middle:.2f} times as long in the middle, {best:.2f} at best, on {os.cpu_count()} cores; the aim is {AIM}")


if __name__ == "__main__":
    main()
