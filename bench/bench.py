#!/usr/bin/env python3
"""Times `rqm run`: N transactions of one send and as many of one receive, over 64 cell pages, each page in a frame, with a force every
100 commits.

Runs N and 2N transactions of each kind, and prints for both the time, the peak memory, and what a transaction took. Build the
program first (`rt run` in crates/rqm).

    python3 bench/bench.py [--program crates/rqm/out/rqm] [--transactions 10000]
"""
import argparse
import os
import subprocess
import sys
import tempfile
import time

CELL_PAGES = 64
COMMITS_A_FORCE = 100


def write_script(path, count):
    """One send and one receive, each in a transaction of its own, count times."""
    commits = 0
    with open(path, "w") as script:
        for place in range(count):
            send, receive = 2 * place + 1, 2 * place + 2
            lines = [
                "begin",
                f"send 1.{send} {place % 15} {place} message {place}",
                f"commit 1.{send}",
                "begin",
                f"recv 1.{receive}",
                f"commit 1.{receive}",
            ]
            script.write("\n".join(lines) + "\n")
            commits += 2
            if commits % COMMITS_A_FORCE == 0:
                script.write("force\n")


def run(program, count, folder):
    """Seconds, and kilobytes at the peak."""
    script = os.path.join(folder, f"script-{count}")
    output = os.path.join(folder, f"output-{count}")
    write_script(script, count)
    words = [program, "run", "--directory", "1", "--cells", str(CELL_PAGES), "--frames", str(1 + CELL_PAGES)]
    with open(script) as stdin, open(output, "w") as stdout:
        start = time.monotonic()
        child = subprocess.Popen(words, stdin=stdin, stdout=stdout)
        _, status, usage = os.wait4(child.pid, 0)
        seconds = time.monotonic() - start
    if status != 0:
        sys.exit(f"{program} ended with status {status}")
    with open(output) as lines:
        received = sum(line.startswith("msg ") for line in lines)
    if received != count:
        sys.exit(f"{received} of {count} messages were received")
    return seconds, usage.ru_maxrss


def main():
    words = argparse.ArgumentParser(description="Times rqm run.")
    words.add_argument("--program", default="crates/rqm/out/rqm")
    words.add_argument("--transactions", type=int, default=10_000)
    chosen = words.parse_args()
    with tempfile.TemporaryDirectory() as folder:
        results = []
        for count in (chosen.transactions, 2 * chosen.transactions):
            seconds, peak = run(chosen.program, count, folder)
            results.append((seconds, peak))
            each = seconds / (2 * count) * 1e6
            print(f"n {count}: {seconds:.2f} s, {each:.1f} us a transaction, peak {peak / 1024:.1f} MB")
    (first, first_peak), (second, second_peak) = results
    print(f"2n takes {second / first:.2f} times as long as n, and {second_peak / first_peak:.2f} times its memory")


if __name__ == "__main__":
    main()
