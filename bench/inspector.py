#!/usr/bin/env python3
"""Times `rqm inspect` of a log of 64 MB into a file against `cat` of the same log into a file. Both run by turns, with the log in
memory; the aim is a fifth of the speed of `cat`, in the middle of the runs. Two logs: one whose transactions have all ended, which
is read once, and the same without its last record, a Commit, which is read twice.

    python3 bench/inspector.py [--program PROGRAM] [--inspector PROGRAM] [--folder FOLDER] [--runs 11]
"""
import os
import statistics
import subprocess
import sys
import tempfile
import time

from program import TOP, built, parser

AIM = 5.0
# directory pages, cell pages, messages
STORE = (4, 64, 24_600)


def seconds_of(command, output, status=0):
    """Seconds of one run, into a file."""
    with open(output, "wb") as file:
        start = time.monotonic()
        ended = subprocess.run(command, stdout=file)
        seconds = time.monotonic() - start
    if ended.returncode != status:
        sys.exit(f"{command}: status {ended.returncode}")
    return seconds


def whole_records(log, most):
    """How many of the first bytes of a log are whole records, at most so many."""
    at = 0
    while at < most:
        end = at + 4 + int.from_bytes(log[at : at + 4], "big")
        if end > most:
            break
        at = end
    return at


def main():
    chosen = parser(__doc__)
    chosen.add_argument("--inspector", help="an rqm that was built elsewhere")
    chosen.add_argument("--folder")
    chosen.add_argument("--runs", type=int, default=11)
    words = chosen.parse_args()
    rqm = os.path.abspath(words.inspector) if words.inspector else str(TOP / "crates" / "rqm" / "out" / "rqm")
    with tempfile.TemporaryDirectory(dir=words.folder) as top:
        whole, cut = os.path.join(top, "whole"), os.path.join(top, "cut")
        os.mkdir(whole)
        os.mkdir(cut)
        subprocess.run([built(words.program), "make", whole, *map(str, STORE)], check=True, stdout=subprocess.DEVNULL)
        with open(os.path.join(whole, "log"), "rb") as file:
            log = file.read()
        with open(os.path.join(cut, "log"), "wb") as file:
            file.write(log[: whole_records(log, len(log) - 1)])
        for name, folder in (("all ended", whole), ("one lost", cut)):
            path, output = os.path.join(folder, "log"), os.path.join(top, "output")
            mine, cat = [], []
            for _ in range(words.runs):
                mine.append(seconds_of([rqm, "inspect", folder], output))
                cat.append(seconds_of(["cat", path], output))
            size = os.path.getsize(path)
            inspected, read = statistics.median(mine), statistics.median(cat)
            print(
                f"{name}: {size / 1e6:.0f} MB, inspected in {inspected * 1e3:.0f} ms ({size / inspected / 1e6:.0f} MB/s), cat in "
                f"{read * 1e3:.0f} ms ({size / read / 1e6:.0f} MB/s): {inspected / read:.2f} times as long, aim {AIM:.0f}"
            )


if __name__ == "__main__":
    main()
