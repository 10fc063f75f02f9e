#!/usr/bin/env python3
"""Times the reading of requests: 64 MB of sends, fed in pieces of 4 KB.

The program reads the stream and feeds it a number of times over; what more rounds take is the feeding. Each time is the best of some
runs.

    python3 bench/feed.py [--program PROGRAM] [--bodies 5 100 216 499]
"""
import os
import subprocess
import sys
import tempfile
import time

from program import built, parser

STREAM_BYTES = 64 << 20
MORE_ROUNDS = 5
RUNS = 3


def send(tag, body_bytes):
    """A send of sender 3 with this tag."""
    fields = b"\2" + (3).to_bytes(4, "big") + tag.to_bytes(8, "big") + bytes(b % 256 for b in range(body_bytes))
    return len(fields).to_bytes(2, "big") + fields


def write_stream(path, body_bytes):
    """The stream, and what the program says of it."""
    sends = STREAM_BYTES // len(send(1, body_bytes))
    with open(path, "wb") as stream:
        for tag in range(1, sends + 1):
            stream.write(send(tag, body_bytes))
    return f"{sends} requests, tags {sends * (sends + 1) // 2}, bytes {sends * body_bytes}\n"


def best(program, rounds, path, wanted):
    """The shortest time of the program with so many rounds, in seconds."""
    seconds = []
    for _ in range(RUNS):
        with open(path, "rb") as stdin:
            start = time.monotonic()
            ended = subprocess.run([program, "feed", str(rounds)], stdin=stdin, stdout=subprocess.PIPE)
            seconds.append(time.monotonic() - start)
        if ended.returncode != 0 or ended.stdout.decode() != wanted:
            sys.exit(f"{program}: status {ended.returncode}, {ended.stdout}")
    return min(seconds)


def main():
    chosen = parser(__doc__)
    chosen.add_argument("--bodies", type=int, nargs="+", default=[5, 100, 216, 499])
    words = chosen.parse_args()
    program = built(words.program)
    with tempfile.TemporaryDirectory() as folder:
        path = os.path.join(folder, "stream")
        for body_bytes in words.bodies:
            wanted = write_stream(path, body_bytes)
            one = best(program, 1, path, wanted)
            more = best(program, 1 + MORE_ROUNDS, path, wanted)
            feed = (more - one) / MORE_ROUNDS
            print(f"bodies of {body_bytes} bytes: {feed * 1e3:.1f} ms, {STREAM_BYTES / feed / 1e6:.0f} MB/s")


if __name__ == "__main__":
    main()
