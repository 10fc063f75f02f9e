#!/usr/bin/env python3
"""Times the opening of a store in files against reading both files by `cat`.

What is opened, each in as many frames as its row says:

- A log of 64 MB of committed work, and pages that are all as they were formatted, so that all of it is repeated.
- As much, over 1,024 cell pages that are nearly full, and the same log over pages as they were when they last gave way in a store of
  64 frames. Each message stands on another page than the one before it, and 255 others are wanted until it is again.
- The latter with an eighth of the messages waiting.
- An empty log, and as many cell pages as there may be.

The opening and `cat` run by turns, both with the files in memory; each opening is of a copy, since it adds a record. What a program
takes that opens a store of three pages is taken off the opening, and what `cat` takes of that store's files off the other. The aim is
that an opening takes at most three times as long as `cat`, in the middle of the runs. The same is told of processor time, which a busy
machine disturbs less. Each line ends with the greatest memory that the program had, and how much more that is than with three pages.

    python3 bench/restart.py [--program PROGRAM] [--folder FOLDER] [--runs 11]
"""
import os
import resource
import shutil
import statistics
import subprocess
import sys
import tempfile
import time

from program import built, parser

AIM = 3.0
FEW, ALL = 64, 67_585
# Each store: directory pages, cell pages, messages; in how many frames it is made, and how many messages wait.
SMALL = (1, 1, 0, ALL, 0)
OLD = (4, 64, 24_600, ALL, 0)
FORMATTED = (4, 1024, 9_900, ALL, 15_300)
WRITTEN = (4, 1024, 9_900, FEW, 15_300)
EMPTIER = (1, 1024, 16_600, FEW, 1_920)
LARGE = (1, 65_536, 0, ALL, 0)
# What is opened, and in how many frames.
ROWS = [
    ("three pages, an empty log", SMALL, ALL),
    ("64 MB of committed work, old pages", OLD, ALL),
    ("64 MB, 1,024 cell pages as they were written last, 15,300 messages wait", WRITTEN, FEW),
    ("64 MB, 1,024 cell pages as they were written last, 1,920 messages wait", EMPTIER, FEW),
    ("64 MB, 1,024 old cell pages, 15,300 messages wait", FORMATTED, FEW),
    ("64 MB, 1,024 old cell pages, 15,300 messages wait", FORMATTED, ALL),
    ("65,536 clean cell pages", LARGE, ALL),
    ("65,536 clean cell pages", LARGE, FEW),
]


def times_of(command, expected=""):
    """Seconds of one run, and of the processor."""
    start, before = time.monotonic(), resource.getrusage(resource.RUSAGE_CHILDREN)
    ended = subprocess.run(command, stdout=subprocess.PIPE if expected else subprocess.DEVNULL)
    seconds, after = time.monotonic() - start, resource.getrusage(resource.RUSAGE_CHILDREN)
    if ended.returncode != 0 or (expected and not ended.stdout.decode().startswith(expected)):
        sys.exit(f"{command}: status {ended.returncode}, {ended.stdout}")
    return seconds, after.ru_utime + after.ru_stime - before.ru_utime - before.ru_stime


def files_in(folder):
    """Both files."""
    return [os.path.join(folder, name) for name in ("pages", "log")]


def copied(folder, copy):
    """Has a copy be as the store is. An opening with a frame for each page leaves the pages as they are."""
    os.makedirs(copy, exist_ok=True)
    pages, log = files_in(copy)
    os.replace(shutil.copy(files_in(folder)[1], copy + ".log"), log)
    if not os.path.exists(pages) or os.path.getmtime(pages) > os.path.getmtime(copy + ".made"):
        shutil.copy(files_in(folder)[0], pages)
        with open(copy + ".made", "w"):
            pass
    times_of(["sync"])


def opening(program, folder, copy, frames):
    """The times of one opening of a copy, which has nothing to undo."""
    copied(folder, copy)
    return times_of([program, "open", copy, str(frames)], "restarted 2 unfinished 0 lost 0, ")


def peak(program, folder, copy, frames):
    """The most memory that an opening has, in KB. Another program than this one starts it, since what starts it counts as well."""
    copied(folder, copy)
    told = subprocess.run(["/usr/bin/time", "-f", "%M", program, "open", copy, str(frames)], capture_output=True, check=True)
    return int(told.stderr)


def beyond_small(times, place, kind):
    """The middle of a row's times of one kind, without that of the first row's."""
    row, small = (statistics.median(run[kind] for run in times[at]) for at in (place, 0))
    return row - small


def main():
    chosen = parser(__doc__)
    chosen.add_argument("--folder")
    chosen.add_argument("--runs", type=int, default=11)
    words = chosen.parse_args()
    program = built(words.program)
    with tempfile.TemporaryDirectory(dir=words.folder) as top:
        folders = {}
        for _, store, _ in ROWS:
            if store not in folders:
                folders[store] = os.path.join(top, str(len(folders)))
                os.mkdir(folders[store])
                times_of([program, "make", folders[store], *map(str, store)], f"{store[2]} messages")
        opened = [[] for _ in ROWS]
        read = [[] for _ in ROWS]
        for _ in range(words.runs):
            for place, (_, store, frames) in enumerate(ROWS):
                folder = folders[store]
                opened[place].append(opening(program, folder, f"{folder}.copy", frames))
                read[place].append(times_of(["cat", *files_in(folder)]))
        kilobytes = [peak(program, folders[store], f"{folders[store]}.copy", frames) for _, store, frames in ROWS]
        for place, (name, store, frames) in enumerate(ROWS):
            if store == SMALL:
                continue
            size = sum(map(os.path.getsize, files_in(folders[store])))
            (mine, cat), (mine_busy, cat_busy) = ([beyond_small(each, place, kind) for each in (opened, read)] for kind in (0, 1))
            print(
                f"{name}, {'a frame for each page' if frames == ALL else f'{frames} frames'}: {size / 1e6:.0f} MB, opened in "
                f"{mine * 1e3:.0f} ms ({size / mine / 1e6:.0f} MB/s), read by cat in {cat * 1e3:.0f} ms ({size / cat / 1e6:.0f} MB/s): "
                f"{mine / cat:.2f} times as long, aim {AIM:.0f}; processor {mine_busy * 1e3:.0f} and {cat_busy * 1e3:.0f} ms, "
                f"{mine_busy / cat_busy:.2f} times; {kilobytes[place]:,} KB at most, {kilobytes[place] - kilobytes[0]:,} more than with "
                f"three pages"
            )


if __name__ == "__main__":
    main()
