#!/usr/bin/env python3
"""Times what a checkpoint costs and what it saves, of stores in files.

The opening of a store whose log had 64 MB of committed work until a checkpoint made it one record, against that of a store that was
just formatted and holds the same, which is no message: by turns, each of a copy, since an opening adds a record. The aim is that it
takes at most 1.1 times as long, in the middle of the runs.

A checkpoint of a store of 65,536 cell pages, each of which has a change to be written, against `dd` with a sync of as many bytes over
a file that is there. It also drops the log of those changes, 113 MB. The aim is at least half of its speed.

    python3 bench/checkpoint.py [--program PROGRAM] [--folder FOLDER] [--runs 31] [--cells 65536]
"""
import os
import re
import shutil
import statistics
import subprocess
import sys
import tempfile
import time

from program import built, parser

OPENING_AIM = 1.1
SPEED_AIM = 0.5
MESSAGES = 24_600  # that come to 64 MB of log
SLOTS = 15  # of a page
PAGE = 4096


def ran(command, expected):
    """Seconds of one run, and what it printed to standard error."""
    start = time.monotonic()
    ended = subprocess.run(command, capture_output=True)
    seconds = time.monotonic() - start
    if ended.returncode != 0 or not ended.stdout.decode().startswith(expected):
        sys.exit(f"{command}: status {ended.returncode}, {ended.stdout}, {ended.stderr}")
    return seconds, ended.stderr.decode()


def made(program, folder, directory, cells, messages):
    """A store in a folder."""
    os.mkdir(folder)
    ran([program, "make", folder, str(directory), str(cells), str(messages)], f"{messages} messages")


def opening(program, folder, copy):
    """Seconds of one opening, of a copy."""
    shutil.rmtree(copy, ignore_errors=True)
    shutil.copytree(folder, copy)
    ran(["sync"], "")
    return ran([program, "open", copy], "restarted ")[0]


def time_openings(program, top, runs):
    """Prints how long the opening takes behind a checkpoint, and without any history."""
    behind, fresh = os.path.join(top, "behind"), os.path.join(top, "fresh")
    made(program, behind, 4, 64, MESSAGES)
    history = os.path.getsize(os.path.join(behind, "log"))
    ran([program, "checkpoint", behind, "0", "0"], "checkpoint ")
    made(program, fresh, 4, 64, 0)
    seconds = {folder: [] for folder in (behind, fresh)}
    for _ in range(runs):
        for folder in seconds:
            seconds[folder].append(opening(program, folder, folder + ".copy"))
    ours, theirs = (statistics.median(seconds[folder]) for folder in (behind, fresh))
    print(
        f"opening behind a checkpoint, of a store with {history / 1e6:.0f} MB of history: {ours * 1e3:.2f} ms, freshly formatted "
        f"{theirs * 1e3:.2f} ms: {ours / theirs:.2f} times as long, aim {OPENING_AIM}"
    )


def dd(path, size):
    """Seconds in which `dd` writes as many bytes over a file that is there, and syncs them."""
    command = ["dd", "if=/dev/zero", f"of={path}", "bs=1M", f"count={size}", "iflag=count_bytes", "conv=fdatasync,notrunc"]
    ran(["sync"], "")
    return ran(command, "")[0]


def time_checkpoint(program, top, cells):
    """Prints how fast a checkpoint writes all pages of a store, and `dd` beside it."""
    store = os.path.join(top, "changed")
    made(program, store, 1, cells, 0)
    ran([program, "checkpoint", store, str(cells * SLOTS), "0"], "checkpoint ")
    # each page has a message of the first sender
    _, told = ran([program, "checkpoint", store, "0", str(cells)], "checkpoint ")
    seconds = int(re.fullmatch(r"(\d+) microseconds\n", told).group(1)) / 1e6
    size = (cells + 1) * PAGE
    pages = os.path.join(store, "pages")
    beside = statistics.median(dd(pages, size) for _ in range(3))
    print(
        f"a checkpoint of {cells:,} changed cell pages: {size / 1e6:.0f} MB in {seconds:.2f} s ({size / seconds / 1e6:.0f} MB/s), "
        f"dd in {beside:.2f} s ({size / beside / 1e6:.0f} MB/s): {beside / seconds:.2f} of its speed, aim {SPEED_AIM}"
    )


def main():
    chosen = parser(__doc__)
    chosen.add_argument("--folder")
    chosen.add_argument("--runs", type=int, default=31)
    chosen.add_argument("--cells", type=int, default=65_536)
    words = chosen.parse_args()
    program = built(words.program)
    with tempfile.TemporaryDirectory(dir=words.folder) as top:
        time_openings(program, top, words.runs)
        time_checkpoint(program, top, words.cells)


if __name__ == "__main__":
    main()
