#!/usr/bin/env python3
"""Counts what a transaction allocates and copies that sends a byte, sends the longest body (long), receives, or aborts beside one
other: by valgrind, in a run of few and one of many, of which the one is taken off the other.

    python3 bench/copies.py [--program PROGRAM] [send|long|receive|commit|abort ..]
"""
import collections
import json
import os
import re
import subprocess
import sys
import tempfile

from program import built, parser

KINDS = ("send", "long", "receive", "commit", "abort")
# Directory and cell pages.
STORE = ("280", "1024")
FEW = 100
MANY = 600
# A slot has so many bytes, and what holds a deed has more than a body.
SLOT = 256
BODY = 200


def ran(words, program, kind, transactions):
    """Has valgrind run them."""
    messages = str(MANY) if kind == "receive" else "0"
    case = ["beside", kind, *STORE, "begun", "1", messages, str(transactions)]
    ended = subprocess.run(["valgrind", *words, program, *case], capture_output=True, text=True)
    if ended.returncode != 0 or ended.stdout != f"{transactions} transactions\n":
        sys.exit(f"{program} {case}: status {ended.returncode}, {ended.stdout!r}, {ended.stderr!r}")
    return ended.stderr


def allocated(program, kind, transactions, folder):
    """How often memory was asked for."""
    told = ran(["--tool=dhat", f"--dhat-out-file={folder}/blocks"], program, kind, transactions)
    return int(re.search(r"Total:\s+[\d,]+ bytes in ([\d,]+) blocks", told)[1].replace(",", ""))


def copied(program, kind, transactions, folder):
    """How many copies were made, by their bytes."""
    ran(["--tool=dhat", "--mode=copy", f"--dhat-out-file={folder}/copies"], program, kind, transactions)
    with open(f"{folder}/copies", encoding="utf-8") as file:
        points = json.load(file)["pps"]
    sizes = collections.Counter()
    for point in points:
        sizes[point["tb"] // max(1, point["tbk"])] += point["tbk"]
    return sizes


def main():
    chosen = parser(__doc__)
    chosen.add_argument("kind", nargs="*", help="what each transaction does; all where there are none")
    words = chosen.parse_args()
    program = built(words.program)
    for kind in words.kind or KINDS:
        with tempfile.TemporaryDirectory() as folder:
            blocks = [allocated(program, kind, n, folder) for n in (FEW, MANY)]
            copies = [copied(program, kind, n, folder) for n in (FEW, MANY)]
        each = {size: (copies[1][size] - copies[0][size]) / (MANY - FEW) for size in copies[1]}
        slots = each.get(SLOT, 0)
        deeds = sum(count for size, count in each.items() if size > BODY) - slots
        print(
            f"{kind}: {(blocks[1] - blocks[0]) / (MANY - FEW):.2f} allocations; {sum(each.values()):.1f} copies of "
            f"{sum(size * count for size, count in each.items()):.0f} bytes, {slots:.1f} of slots and {deeds:.1f} of what holds a deed",
            flush=True,
        )


if __name__ == "__main__":
    main()
