#!/usr/bin/env python3
"""Times the decoding of a log of 64 MB of page records against `cat` of the same file into nothing.

The program reads the log and decodes it a number of times over; what more rounds take is the decoding. Each time is the best of
some runs.

    python3 bench/decode.py [--program PROGRAM]
"""
import os
import subprocess
import sys
import tempfile
import time

from program import built, parser

LOG_BYTES = 64 << 20
MORE_ROUNDS = 10
RUNS = 5


def page_record(operation):
    """The change of one slot, of an operation of the transaction 1.1."""
    fields = [1, 1, operation]
    body = b"\1" + b"".join(field.to_bytes(8, "big") for field in fields)
    body += (2).to_bytes(4, "big") + b"\1" + bytes(256) + bytes(range(256))
    return len(body).to_bytes(4, "big") + body


def write_log(path):
    """The log, and how many records it has."""
    records = LOG_BYTES // len(page_record(1))
    with open(path, "wb") as log:
        for operation in range(1, records + 1):
            log.write(page_record(operation))
    return records


def best(command, path, wanted):
    """The shortest time of a command that reads the log, in seconds."""
    seconds = []
    for _ in range(RUNS):
        with open(path, "rb") as stdin:
            start = time.monotonic()
            ended = subprocess.run(command, stdin=stdin, stdout=subprocess.PIPE if wanted else subprocess.DEVNULL)
            seconds.append(time.monotonic() - start)
        if ended.returncode != 0 or (wanted and ended.stdout.decode() != wanted):
            sys.exit(f"{command[0]}: status {ended.returncode}, {ended.stdout}")
    return min(seconds)


def main():
    program = built(parser(__doc__).parse_args().program)
    with tempfile.TemporaryDirectory() as folder:
        path = os.path.join(folder, "log")
        wanted = f"{write_log(path)} records\n"
        cat = best(["cat"], path, None)
        one = best([program, "decode", "1"], path, wanted)
        more = best([program, "decode", str(1 + MORE_ROUNDS)], path, wanted)
    decode = (more - one) / MORE_ROUNDS
    print(f"cat {cat * 1e3:.1f} ms, decode {decode * 1e3:.1f} ms, {LOG_BYTES / decode / 1e9:.2f} GB/s")
    print(f"decoding runs at {cat / decode:.2f} of the speed of cat; the program with its reading takes {one * 1e3:.1f} ms")


if __name__ == "__main__":
    main()
