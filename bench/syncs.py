#!/usr/bin/env python3
"""Shows that `rqm format` syncs what it makes: reads the system's calls under strace, and compares them with what is wanted.

    python3 bench/syncs.py

It needs strace. On a clone that is not proved the program is built first, which takes a minute.
"""
import os
import re
import subprocess
import sys
import tempfile

WANTED = [
    ("flock", "pages"),
    ("ftruncate", "pages"),
    ("flock", "pages"),
    ("fsync", "pages"),
    ("pwrite64", "pages"),
    ("pwrite64", "pages"),
    ("fdatasync", "pages"),
    ("pwrite64", "pages"),
    ("fdatasync", "pages"),
    ("fsync", "log"),
    ("fsync", ""),
]


def calls_of(trace, folder):
    """The calls that were made on the folder and its files, in order."""
    call = re.compile(r"(\w+)\(\d+<" + re.escape(folder) + r"/?([^>]*)>.* = 0?\d")
    found = []
    for line in trace:
        match = call.search(line)
        if match:
            found.append((match.group(1), match.group(2)))
    return found


def main():
    root = os.path.dirname(os.path.dirname(os.path.abspath(__file__)))
    with tempfile.TemporaryDirectory() as where:
        folder = os.path.join(where, "store")
        trace = os.path.join(where, "trace")
        os.mkdir(folder)
        subprocess.run(
            ["strace", "-f", "-y", "-s", "1", "-o", trace, "-e", "trace=flock,ftruncate,fsync,fdatasync,pwrite64",
             os.path.join(root, "rqm"), "format", folder, "--directory", "1", "--cells", "1"],
            check=True, stdout=subprocess.DEVNULL)
        with open(trace) as lines:
            found = calls_of(lines, folder)
    for call, name in found:
        print(call, name or "the folder")
    if found != WANTED:
        print("these are not the calls that were wanted")
        sys.exit(1)


if __name__ == "__main__":
    main()
