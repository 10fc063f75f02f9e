#!/usr/bin/env python3
"""Has `rqm inspect` look at logs: those whose lines stand in tests/scripts, one for each kind of damage, folders that are no
store, and logs that are damaged by seeds. What it prints is compared with what the bytes say, read here by the table in
docs/FORMATS.md. Where `rt ci` left the program as Rattle's own compiler builds it too, that one looks at them as well.

    python3 tests/inspector.py [--program PROGRAM] [--first SEED] [--logs N]
"""
import argparse
import fcntl
import os
import pathlib
import random
import re
import subprocess
import sys
import tempfile
from concurrent.futures import ThreadPoolExecutor

from cases import built_twice, first_difference, shown
from scripts import SCRIPTS

MOST_SECONDS = 60  # of one run of a program

# The kinds of records by their numbers: the name, the widths of the numbers behind it (a transaction is two of eight bytes),
# and how many bytes follow those. An OpEnd has its deed there, of 1 to 256 bytes.
KINDS = {
    1: ("page-op", (8, 8, 8, 4, 1), 512),
    2: ("page-undo", (8, 8, 8, 8, 4, 1), 256),
    3: ("op-end", (8, 8, 8, 1), None),
    4: ("op-void", (8, 8, 8), 0),
    5: ("comp-end", (8, 8, 8, 8), 0),
    6: ("commit", (8, 8), 0),
    7: ("restart", (8,), 0),
    8: ("abort-end", (8, 8), 0),
    9: ("base", (8, 8), 0),
}

# How each line goes on, by the numbers of its record in the order of its bytes.
LINES = {
    "page-op": "{0}.{1}/{2} {3}:{4}",
    "page-undo": "{0}.{1}/{2} {4}:{5} of {3}",
    "op-end": "{0}.{1}/{2} level {3} deed {bytes} bytes",
    "op-void": "{0}.{1}/{2}",
    "comp-end": "{0}.{1}/{2} of {3}",
    "commit": "{0}.{1}",
    "restart": "{0}",
    "abort-end": "{0}.{1}",
    "base": "{0} {1}",
}

# The line of the first record of a log.
FRONT = re.compile("1 restart 1|[0-9]+ base [0-9]+ [0-9]+")


# ---- bytes


def record(kind, numbers, rest=None):
    """The bytes of a record; of zeros where no rest is given."""
    _, widths, room = KINDS[kind]
    fields = b"".join(number.to_bytes(width, "big") for number, width in zip(numbers, widths, strict=True))
    body = bytes([kind]) + fields + (bytes(room) if rest is None else rest)
    return len(body).to_bytes(4, "big") + body


def of_line(line):
    """The bytes of a record with this line; those of a torn end, of whatever record."""
    if line.startswith("torn "):
        return record(1, [1] * 5)[: int(line.split(" ")[1])]
    _, name, *words = line.split(" ")
    kind = next(kind for kind, (known, *_) in KINDS.items() if known == name)
    numbers = [int(number) for number in re.findall(r"\d+", " ".join(words))]
    if name == "page-undo":
        numbers.insert(3, numbers.pop())
    if name == "op-end":
        return record(kind, numbers[:4], bytes(numbers[4]))
    return record(kind, numbers)


def is_in_range(name, numbers):
    """Pages may be any; slots are 1 to 15, all other numbers at least 1. A base is of fewer than 2^50 records, and of no more incarnations."""
    if name == "base" and not numbers[1] <= numbers[0] < 2**50:
        return False
    page = {"page-op": 3, "page-undo": 4}.get(name)
    if page is not None and not 1 <= numbers[-1] <= 15:
        return False
    return all(number >= 1 for at, number in enumerate(numbers) if at != page)


def front(log, at):
    """The record that stands at a place: its name, its numbers, and where it ends; None where none does."""
    size = int.from_bytes(log[at : at + 4], "big")
    end = at + 4 + size
    if len(log) < at + 5 or len(log) < end or log[at + 4] not in KINDS:
        return None
    name, widths, room = KINDS[log[at + 4]]
    least = 1 + sum(widths)
    if (not least < size <= least + 256) if room is None else size != least + room:
        return None
    numbers, place = [], at + 5
    for width in widths:
        numbers.append(int.from_bytes(log[place : place + width], "big"))
        place += width
    return (name, numbers, end) if is_in_range(name, numbers) else None


def is_torn(end):
    """Whether bytes are a proper beginning of a record: with ones behind they are a whole one, of some kind and length. A base is one
    also with the least numbers behind: what lacks of a number is 0, but for a 1 at the end of one that would be none."""
    for kind, (_, widths, room) in KINDS.items():
        least = 1 + sum(widths)
        for size in range(least + 1, least + 257) if room is None else (least + room,):
            head = size.to_bytes(4, "big") + bytes([kind])
            begun = end + head[len(end) :]
            wholes = [begun.ljust(4 + size, b"\1")] if kind != 9 else least_bases(begun)
            if len(end) < 4 + size and any(whole[:5] == head and front(whole, 0) for whole in wholes):
                return True
    return False


def least_bases(begun):
    """A base that begins so, with the least numbers."""
    if len(begun) < 13:
        begun = begun.ljust(13, b"\0")
        begun = begun if any(begun[5:13]) else begun[:12] + b"\1"
    whole = begun.ljust(21, b"\0")
    return [whole if any(whole[13:21]) else whole[:20] + b"\1"]


# ---- what is to be printed


def report_of(records, count):
    """The four lines behind those of the records, by what each operation and each transaction has."""
    of = {name: [tuple(numbers) for known, numbers in records if known == name] for name, *_ in KINDS.values()}
    begun = {numbers[:3] for numbers in of["page-op"]}
    ended = {numbers[:3] for name in ("op-end", "op-void", "comp-end") for numbers in of[name]}
    worked = {numbers[:2] for numbers in of["op-end"]}
    over = {numbers[:2] for name in ("commit", "abort-end") for numbers in of[name]}
    yield f"records {count}"
    yield counted("unfinished", [f"{i}.{c}/{n}" for i, c, n in sorted(begun - ended)])
    yield counted("lost", [f"{i}.{c}" for i, c in sorted(worked - over)])
    yield counted("committed", [f"{i}.{c}" for i, c in of["commit"]])


def counted(word, names):
    return " ".join([word, str(len(names)), *names])


def wanted(log):
    """The lines that a log has, and the exit status."""
    lines, records, at, count = [], [], 0, 0
    while at < len(log):
        if count == 2**50:
            return [*lines, "fault 19 LogFull"], 1
        found = front(log, at)
        if found is None and is_torn(log[at:]):
            return [*lines, f"torn {len(log) - at} bytes", *report_of(records, count)], 0
        if found is None or found[0] == "base" and records:
            return [*lines, f"damaged record {count + 1}"], 1
        name, numbers, end = found
        # a base is of as many records as it says
        count = numbers[0] + 1 if name == "base" else count + 1
        records.append((name, numbers))
        lines.append(f"{count} {name} " + LINES[name].format(*numbers, bytes=end - at - 30))
        at = end
    return [*lines, *report_of(records, count)], 0


# ---- runs


class Looks:
    """Runs of `rqm inspect` by a program, each over a folder of its own."""

    def __init__(self, program, top):
        self.program, self.top, self.faults, self.looks = program, pathlib.Path(top), [], 0

    def folder(self, log):
        folder = pathlib.Path(tempfile.mkdtemp(dir=self.top))
        (folder / "log").write_bytes(log)
        return folder

    def ended(self, *words):
        ran = subprocess.run([self.program, *map(str, words)], capture_output=True, timeout=MOST_SECONDS)
        return ran.stdout.decode(), ran.stderr.decode(), ran.returncode

    def look(self, what, folder, lines, status):
        """One run; a fault is noted where it comes to something else."""
        self.looks += 1
        printed, errors, ended = self.ended("inspect", folder)
        differs = first_difference(printed.encode().split(b"\n"), [line.encode() for line in [*lines, ""]])
        if differs:
            line, expected, came = differs
            self.faults.append(f"{what}: line {line}: wanted {shown(expected)}, printed {shown(came)}")
        elif (errors, ended) != ("", status):
            self.faults.append(f"{what}: wanted exit status {status}, ended with {ended}; errors {errors!r}")

    def look_at(self, what, log, lines=None, status=None):
        """One run over a log of these bytes, which stay as they are. What is to be printed is read from them, if not given."""
        if lines is None:
            lines, status = wanted(log)
        folder = self.folder(log)
        self.look(what, folder, lines, status)
        if sorted(os.listdir(folder)) != ["log"] or (folder / "log").read_bytes() != log:
            self.faults.append(f"{what}: its files have changed")
        (folder / "log").unlink()
        folder.rmdir()


# ---- whole logs


def scripts_with_logs():
    """The lines that scripts print of their logs, by the script and where it asked."""
    for name in SCRIPTS.names():
        lines, _ = SCRIPTS.lines_of(name)
        printed = SCRIPTS.expected(name).decode(errors="surrogateescape").splitlines()
        if b"log" not in lines:
            continue
        while any(map(FRONT.fullmatch, printed)):
            first = next(at for at, line in enumerate(printed) if FRONT.fullmatch(line))
            last = next(at for at in range(first, len(printed)) if printed[at].startswith("committed "))
            yield f"{name}, line {first + 1}", printed[first : last + 1]
            printed[: last + 1] = [""] * (last + 1)


def look_at_scripts(looks):
    for what, lines in scripts_with_logs():
        looks.look_at(what, b"".join(map(of_line, lines[:-4])), lines, 0)


def look_at_worked_bytes(looks):
    """The records that docs/FORMATS.md shows, and others whose bytes are written out."""
    one, two = (1).to_bytes(8, "big"), (2).to_bytes(8, "big")
    restart, commit = b"\0\0\0\x09\x07" + one, b"\0\0\0\x11\x06" + one + one
    end = b"\0\0\0\x3c\x03" + one + one + one + b"\1\1" + bytes(4) + one + (7).to_bytes(8, "big") + bytes(8) + b"hello"
    void = b"\0\0\0\x19\x04" + one + one + one
    undone = b"\0\0\0\x21\x05" + one + two + (5).to_bytes(8, "big") + (13).to_bytes(8, "big")
    lines = ["1 restart 1", "2 op-end 1.1/1 level 1 deed 34 bytes", "3 commit 1.1", "4 op-void 1.1/1", "5 comp-end 1.2/5 of 13",
             "6 abort-end 1.2", "records 6", "unfinished 0", "lost 0", "committed 1 1.1"]  # fmt: skip
    looks.look_at("worked bytes", restart + end + commit + void + undone + b"\0\0\0\x11\x08" + one + two, lines, 0)
    base = bytes.fromhex("00000011" "09" "0000000000000005" "0000000000000001")
    looks.look_at("a base after five records", base, ["6 base 5 1", "records 6", "unfinished 0", "lost 0", "committed 0"], 0)
    looks.look_at("a base, and more", base + b"\0\0\0\x09\x07" + two + commit[:5] + two + one,
                  ["6 base 5 1", "7 restart 2", "8 commit 2.1", "records 8", "unfinished 0", "lost 0", "committed 1 2.1"], 0)  # fmt: skip
    looks.look_at("a base behind a record", restart + base, ["1 restart 1", "damaged record 2"], 1)
    most = b"\0\0\0\x11\x09" + (2**50 - 1).to_bytes(8, "big") + one
    looks.look_at("a base of all records but one", most, [f"{2**50} base {2**50 - 1} 1", f"records {2**50}", "unfinished 0", "lost 0", "committed 0"], 0)
    looks.look_at("more behind it", most + restart, [f"{2**50} base {2**50 - 1} 1", "fault 19 LogFull"], 1)
    looks.look_at("no bytes", b"", ["records 0", "unfinished 0", "lost 0", "committed 0"], 0)
    looks.look_at("another kind than the length says", restart + b"\0\0\0\x09\x06", ["1 restart 1", "damaged record 2"], 1)
    looks.look_at("a record that is cut", restart + commit[:20],
                  ["1 restart 1", "torn 20 bytes", "records 1", "unfinished 0", "lost 0", "committed 0"], 0)


def look_at_order(looks):
    """Rising number, an end that stands before what it ends, and a transaction that commits twice."""
    greatest = 2**64 - 1
    log = [record(1, [2, 1, 1, 0, 1]), record(1, [1, 10, 1, 0, 1]), record(1, [1, 9, 2, 0, 1]), record(1, [1, 9, 1, 0, 1]),
           record(4, [1, 3, 1]), record(1, [1, 3, 1, 0, 1]), record(3, [greatest, 1, 1, 255], b"x"), record(3, [2, 7, 1, 1], b"x"),
           record(6, [2, 7]), record(6, [2, 7]), record(8, [1, 1]), record(3, [1, 1, 1, 1], b"x"), record(3, [1, 2, 1, 1], b"x")]  # fmt: skip
    looks.look_at("an order", b"".join(log), [*wanted(b"".join(log))[0][:-4], "records 13", "unfinished 4 1.9/1 1.9/2 1.10/1 2.1/1",
                  f"lost 2 1.2 {greatest}.1", "committed 2 2.7 2.7"], 0)  # fmt: skip


# ---- damage


def good_records():
    """A record of each kind, by its number."""
    for kind, (_, widths, room) in KINDS.items():
        yield kind, record(kind, [1] * len(widths), b"x" * 3 if room is None else None)


def damaged_records():
    """A record of each kind of damage, by what is wrong with it."""
    for kind, good in good_records():
        name, widths, room = KINDS[kind]
        for more in (-1, 1):
            size = len(good) - 4 + more
            if room is not None:
                yield f"{name} of the length {size}", size.to_bytes(4, "big") + good[4:] + bytes(1)
        page = {"page-op": 3, "page-undo": 4}.get(name)
        for at in range(len(widths)):
            if at != page:
                numbers = [0 if at == it else 1 for it in range(len(widths))]
                yield f"{name} with number {at} 0", record(kind, numbers, b"x" if room is None else None)
        if page is not None:
            yield f"{name} of slot 16", record(kind, [1] * (len(widths) - 1) + [16])
    yield "an op-end of no deed", record(3, [1] * 4, b"")
    yield "an op-end of too long a deed", record(3, [1] * 4, bytes(257))
    for kind in (0, 10, 128, 255):
        yield f"kind {kind}", b"\0\0\0\x11" + bytes([kind]) + b"\0\0\0\0\0\0\0\1" * 2
    for size in (0, 1, 2**31, 2**32 - 1):
        yield f"a length of {size}", size.to_bytes(4, "big") + b"\x06" + b"\0\0\0\0\0\0\0\1" * 2


def whole_logs():
    """The bytes and the lines of no, one and three records, and the lines behind them."""
    records = [record(7, [1]), record(6, [1, 1]), record(8, [1, 2])]
    lines = ["1 restart 1", "2 commit 1.1", "3 abort-end 1.2"]
    for count, committed in ((0, "0"), (1, "0"), (3, "1 1.1")):
        report = [f"records {count}", "unfinished 0", "lost 0", f"committed {committed}"]
        yield b"".join(records[:count]), lines[:count], report


def look_at_damage(looks):
    for what, damage in damaged_records():
        for whole, lines, _ in whole_logs():
            told = [*lines, f"damaged record {len(lines) + 1}"]
            looks.look_at(f"{what} behind {len(lines)} records", whole + damage, told, 1)


def look_at_torn_ends(looks):
    for kind, good in good_records():
        for cut in {1, 2, 3, 4, 5, 6, len(good) // 2, len(good) - 1}:
            for whole, lines, report in whole_logs():
                told = [*lines, f"torn {cut} bytes", *report]
                looks.look_at(f"{KINDS[kind][0]} cut to {cut} bytes behind {len(lines)} records", whole + good[:cut], told, 0)


def drawn_log(draw):
    """The records of a log, most of them as a store would write them."""
    records, incarnation, counts = [record(7, [1])], 1, {}
    for _ in range(draw.randrange(1, 30)):
        count = draw.randrange(1, 6)
        number = counts[count] = counts.get(count, 0) + draw.randrange(2)
        txn, number = [incarnation, count], max(1, number)
        page, slot = draw.choice([0, 1, 2, 70000]), draw.randrange(1, 16)
        lsn = draw.randrange(1, len(records) + 1)
        records.append(draw.choice([
            lambda: record(1, [*txn, number, page, slot], draw.randbytes(512)),
            lambda: record(1, [*txn, number, page, slot]),
            lambda: record(2, [*txn, number, lsn, page, slot]),
            lambda: record(3, [*txn, number, 1], draw.randbytes(draw.choice([1, 5, 34, 256]))),
            lambda: record(4, [*txn, number]),
            lambda: record(5, [*txn, number, lsn]),
            lambda: record(6, txn),
            lambda: record(8, txn),
            lambda: record(7, [incarnation + 1]),
        ])())  # fmt: skip
        if records[-1][4] == 7:
            incarnation, counts = incarnation + 1, {}
    return records


def drawn(seed):
    """A log that is damaged in a place or two, or in none."""
    draw = random.Random(seed)
    records = drawn_log(draw)
    for _ in range(draw.randrange(2)):
        draw.shuffle(records)
    log = bytearray(b"".join(records))
    for _ in range(draw.randrange(1, 3)):
        at = draw.randrange(len(log) + 1)
        end = min(len(log), at + draw.randrange(1, 40))
        head = at + draw.randrange(min(30, len(log) - at + 1))
        kind = draw.randrange(8)
        if kind == 0:
            del log[at:]
        elif kind == 1:
            del log[at:end]
        elif kind == 2:
            log[at:at] = draw.randbytes(draw.randrange(1, 40))
        elif kind == 3:
            log[at:end] = bytes(end - at)
        elif kind == 4:
            log += log[at:end]
        elif kind == 5 and head < len(log):
            log[head] = draw.randrange(256)
        elif head < len(log):
            log[head] ^= 1 << draw.randrange(8)
    return bytes(log)


def look_at_drawn(looks, first, count):
    with ThreadPoolExecutor(os.cpu_count()) as pool:
        list(pool.map(lambda seed: looks.look_at(f"the log of seed {seed}", drawn(seed)), range(first, first + count)))


# ---- folders


def look_at_folders(looks):
    nothing = looks.top / "nothing"
    looks.look("no folder", nothing, ["fault open"], 1)
    nothing.mkdir()
    looks.look("no log", nothing, ["fault open"], 1)
    looks.look("a folder without a name", "", ["fault open"], 1)
    (nothing / "log").mkdir()
    looks.look("a log that is a folder", nothing, ["fault open"], 1)
    held = looks.folder(record(7, [1]))
    looks.look("a log for a folder", held / "log", ["fault open"], 1)
    with open(held / "log", "rb") as log:
        fcntl.flock(log, fcntl.LOCK_EX)
        looks.look("a log that is locked", held, ["1 restart 1", "records 1", "unfinished 0", "lost 0", "committed 0"], 0)
    if os.geteuid() != 0:
        os.chmod(held / "log", 0)
        looks.look("a log that may not be read", held, ["fault open"], 1)


def look_at_words(looks):
    for words, status in ((["inspect"], 2), (["inspect", "a", "b"], 2), (["inspect", "--frames", "8", "a"], 2)):
        printed, errors, ended = looks.ended(*words)
        if printed or not errors or ended != status:
            looks.faults.append(f"{words}: {printed!r}, {errors!r}, {ended}")
    printed, errors, ended = looks.ended("--version")
    if not re.fullmatch(r"rqm \d+\.\d+\.\d+\n", printed) or errors or ended:
        looks.faults.append(f"--version: {printed!r}, {errors!r}, {ended}")


def run(program, first, count):
    """All looks by a program; whether none comes to something else."""
    with tempfile.TemporaryDirectory() as top:
        looks = Looks(program, top)
        look_at_words(looks)
        look_at_folders(looks)
        look_at_worked_bytes(looks)
        look_at_order(looks)
        look_at_scripts(looks)
        look_at_damage(looks)
        look_at_torn_ends(looks)
        look_at_drawn(looks, first, count)
    print("".join(f"{fault}\n" for fault in looks.faults[:20]), end="")
    right = looks.looks - len(looks.faults)
    print(f"{right} of {looks.looks} logs are shown as they are ({os.path.basename(program)})")
    return not looks.faults


def main():
    words = argparse.ArgumentParser(description="Has rqm inspect look at logs.")
    words.add_argument("--program", help="a program that was built elsewhere")
    words.add_argument("--first", type=int, default=0, metavar="SEED")
    words.add_argument("--logs", type=int, default=10_000, metavar="N", help="how many are drawn")
    chosen = words.parse_args()
    ran = [run(program, chosen.first, chosen.logs) for program in built_twice(chosen.program, "rqm")]
    sys.exit(0 if all(ran) else 1)


if __name__ == "__main__":
    main()
