#!/usr/bin/env python3
"""Times 10,000 appends of 600 bytes to a log in a file, forced every 64, against a C program that makes the same calls.

Both programs run by turns, each on a new file; each time is the best of some runs, and what a program takes with no appends is
taken off. The C program is built here, by `cc -O2`.

    python3 bench/files.py [--program PROGRAM] [--folder FOLDER]

FOLDER is where the files are written: on another disk, or in memory, other figures come out.
"""
import os
import subprocess
import sys
import tempfile
import time

from program import built, parser

APPENDS = 10_000
RUNS = 24

PLAIN = r"""
#include <fcntl.h>
#include <stdio.h>
#include <stdlib.h>
#include <unistd.h>

static const char records[600];

int main(int argc, char **argv) {
    if (argc < 3) return 1;
    long count = atol(argv[2]);
    int file = open(argv[1], O_RDWR | O_CREAT | O_TRUNC, 0666);
    if (file < 0 || fsync(file)) return 1;
    for (long n = 0; n < count; n++) {
        long size = sizeof records;
        if (pwrite(file, records, size, n * size) != size) return 1;
        if (n % 64 == 63 && fdatasync(file)) return 1;
    }
    if (fdatasync(file)) return 1;
    printf("%ld appends\n", count);
    return 0;
}
"""


def build(folder):
    """The C program."""
    source = os.path.join(folder, "plain.c")
    program = os.path.join(folder, "plain")
    with open(source, "w") as text:
        text.write(PLAIN)
    subprocess.run(["cc", "-O2", "-o", program, source], check=True)
    return program


def run(command, path, count):
    """Seconds of one run, which has to make a file of as many bytes as were appended."""
    if os.path.exists(path):
        os.remove(path)
    start = time.monotonic()
    ended = subprocess.run([*command, path, str(count)], stdout=subprocess.PIPE)
    seconds = time.monotonic() - start
    if ended.returncode != 0 or ended.stdout.decode() != f"{count} appends\n":
        sys.exit(f"{command}: status {ended.returncode}, {ended.stdout}")
    if os.path.getsize(path) != 600 * count:
        sys.exit(f"{command} left {os.path.getsize(path)} bytes")
    return seconds


def main():
    chosen = parser(__doc__)
    chosen.add_argument("--folder")
    words = chosen.parse_args()
    with tempfile.TemporaryDirectory(dir=words.folder) as folder:
        programs = {"a proved log": [built(words.program), "append"], "plain C": [build(folder)]}
        path = os.path.join(folder, "log")
        times = {name: {0: [], APPENDS: []} for name in programs}
        for turn in range(RUNS):
            for name in sorted(programs, reverse=turn % 2 == 1):
                for count in (0, APPENDS):
                    times[name][count].append(run(programs[name], path, count))
    best = {name: min(taken[APPENDS]) - min(taken[0]) for name, taken in times.items()}
    for name, seconds in best.items():
        print(f"{name}: {seconds * 1e3:.1f} ms, {seconds / APPENDS * 1e6:.2f} us an append")
    print(f"{best['a proved log'] / best['plain C']:.2f} times the time of plain C")


if __name__ == "__main__":
    main()
