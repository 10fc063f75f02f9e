#!/usr/bin/env python3
"""Has each word of the program of crates/bench do a little, and compares what it prints with what it has to. Where `rt ci`
left the program as Rattle's own compiler builds it too, that one runs them all as well.

    python3 bench/words.py [--program PROGRAM]
"""
import os
import subprocess
import sys
import tempfile

from program import built_twice, parser

# A restart of incarnation 1, and the commit of the transaction 1.1.
LOG = b"\0\0\0\x09\x07" + (1).to_bytes(8, "big") + b"\0\0\0\x11\x06" + (1).to_bytes(8, "big") * 2
# A begin, a send of sender 3 with the tag 7 and seven bytes, and a commit.
STREAM = b"\0\1\1" + b"\0\x14\2" + (3).to_bytes(4, "big") + (7).to_bytes(8, "big") + b"hello!!" + b"\0\1\6"

FEW, EMPTY = "few", "empty"

# The words, standard input, and what is printed, in this order and in one folder, which has two empty ones. Two batches of 64 rounds of
# four senders make 14 calls a round; a message that is sent makes two writes, an end and a commit, one that is received as many, each
# a write more beside others of its sender; a restart and a checkpoint make one record.
ROWS = [
    (["decode", "3"], LOG, "2 records\n"),
    (["feed", "3"], STREAM, "3 requests, tags 7, bytes 7\n"),
    (["append", "appended", "100"], b"", "100 appends\n"),
    (["beside", "receive", "2", "4", "received", "8", "10", "10"], b"", "10 transactions\n"),
    (["beside", "abort", "2", "4", "sent", "8", "0", "10"], b"", "10 transactions\n"),
    (["beside", "long", "2", "4", "begun", "8", "0", "10"], b"", "10 transactions\n"),
    (["beside", "commit", "2", "4", "begun", "8", "0", "10"], b"", "10 transactions\n"),
    (["make", ".", "1", "1", "10"], b"", "10 messages\n"),
    (["open", "."], b"", "restarted 2 unfinished 0 lost 0, 82 records\n"),
    (["checkpoint", ".", "3", "1"], b"", "checkpoint 100\n"),
    (["open", "."], b"", "restarted 4 unfinished 0 lost 0, 101 records\n"),
    (["make", FEW, "1", "20", "10", "8", "200"], b"", "10 messages\n"),
    (["open", FEW, "8"], b"", "restarted 2 unfinished 0 lost 0, 1087 records\n"),
    (["open", FEW], b"", "restarted 3 unfinished 0 lost 0, 1088 records\n"),
    (["replace", "."], b"\n\n", "600 zeros\n" * 2),
    (["calls", "1", "2"], b"", "7168 calls\n"),
    (["calls", "4", "2"], b"", "7168 calls\n"),
    (["happenings", "1", "1"], b"restart\n", "restarted 1 0 0 1\n"),
    (["happenings", "1", "1", "1"], b"restart\ntag 14\n", "restarted 1 0 0 1\ntag 0 0\n"),
    (["happenings", "1", "1", "0", "8"], b"restart\n", "restarted 1 0 0 1\n"),
]

MOST_SECONDS = 60  # of one run of the program

# What is no word, or lacks one, or is at fault: nothing is printed, and the status is 1. An opening says why, and so does a list.
REFUSED = [
    (["decode"], LOG[:-1]),
    (["feed"], b"\0\0"),
    (["append", "appended"], b""),
    (["replace", "none"], b"\n"),
    (["beside", "sent", "1", "1", "begun", "0", "0", "1"], b""),
    (["make", "none", "1", "1", "1"], b""),
    (["make", EMPTY, "1", "1", "1", "7"], b""),
    (["make", EMPTY, "1", "1", "1", "8", "-1"], b""),
    (["make", EMPTY, "1", "1", "1", "8", "15"], b""),
    (["open", ".", "7"], b""),
    (["open", ".", "67586"], b""),
    (["checkpoint", "none", "1", "1"], b""),
    (["checkpoint", ".", "1"], b""),
    (["calls", "2", "1"], b""),
    (["happenings", "0", "1"], b"restart\n"),
    (["happenings", "1", "1", "0.5"], b"restart\n"),
    (["happenings", "1", "1", "1", "7"], b"restart\n"),
    (["happenings", "1", "1", "1", "8", "8"], b"restart\n"),
    (["other"], b""),
    ([], b""),
]


def ended(program, words, stdin, folder):
    """The status, or that it did not end, and what was printed."""
    try:
        run = subprocess.run([program, *words], input=stdin, capture_output=True, cwd=folder, timeout=MOST_SECONDS)
    except subprocess.TimeoutExpired:
        return f"no end in {MOST_SECONDS} seconds", ""
    return run.returncode, run.stdout.decode(errors="backslashreplace")


def check(program):
    """Runs all rows by a program, in a folder of their own. Ends at the first that comes to something else."""
    wanted = [(*row[:2], 0, row[2]) for row in ROWS] + [(*row, 1, "") for row in REFUSED]
    wanted.append((["open", "none"], b"", 1, "fault open\n"))
    wanted.append((["happenings", "1", "1"], b"restart\nnone\n", 1, "fault line 2\n"))
    with tempfile.TemporaryDirectory() as folder:
        for name in (FEW, EMPTY):
            os.mkdir(os.path.join(folder, name))
        for words, stdin, status, output in wanted:
            came = ended(program, words, stdin, folder)
            if came != (status, output):
                sys.exit(f"{program} {' '.join(words)}: {came}, and not {(status, output)}")
    print(f"{len(wanted)} runs of {os.path.basename(program)} print what they have to")


def main():
    for program in built_twice(parser(__doc__).parse_args().program):
        check(program)


if __name__ == "__main__":
    main()
