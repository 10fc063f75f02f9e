"""Runs what seeds draw by a program, and compares what it prints with what the reference does.

A door to the reference (tests/courses.py, tests/worlds.py) says how lines are drawn and what they have to print. One whose lines
print something else is cut down to the fewest lines that still do, and shown so that it can be run again by hand. Where `rt ci` left
the program as Rattle's own compiler builds it too, that one runs what is not drawn as well.
"""
import argparse
import multiprocessing
import os
import pathlib
import re
import subprocess
import sys
import tempfile
from collections import Counter

from cases import MOST_SECONDS, built_twice


class Door:
    """What is drawn for a program. The reference has to print what stands beside each of the `cases` in files, but for those with a
    line that it does not know (`unknown`), and where they are run here (`runs_cases`), so has the program. `name` is the kind of
    file; `crate` that of the program, and `subcommand` its first words; `wanted` says what has to be met how often in so many
    (`courses`) of the seeds from 0."""

    cases, unknown, runs_cases = None, None, False
    name, crate, subcommand, courses, wanted = "script", "rqm", [], 1000, {}

    def words(self, sizes):
        """The words behind those, for a store of so many directory pages, cell pages and tag pages, in so many frames."""
        raise NotImplementedError

    def draw(self, seed, met):
        """The sizes of the store of a seed (directory pages, cell pages, tag pages, and frames, 0 for enough), its lines, and what they
        print by the reference."""
        raise NotImplementedError

    def without(self, lines, at, end):
        """The lines without those from one place to another."""
        return lines[:at] + lines[end:]

    def replay(self, lines, sizes, told):
        """What lines print by the reference, and the exit status, where the program told this: where it may choose, it chose."""
        raise NotImplementedError

    def runs_more(self, program):
        """Runs what is neither a case nor drawn; whether all of it prints what it should."""
        return True


def run(door, program, lines, sizes):
    """The lines that the program prints, and its exit status. What stands behind the last newline is a line too, which the
    reference never has."""
    try:
        given = b"".join(line + b"\n" for line in lines)
        ran = subprocess.run([program, *door.subcommand, *door.words(sizes)], input=given, capture_output=True, timeout=MOST_SECONDS)
    except subprocess.TimeoutExpired:
        return [b"(no end)"], None
    *printed, rest = ran.stdout.split(b"\n")
    return printed + ([b"(no newline) " + rest] if rest else []), ran.returncode


def is_wrong(door, program, lines, sizes):
    """Whether the program prints what the reference does not."""
    told = run(door, program, lines, sizes)
    return told != door.replay(lines, sizes, told[0])


def shrunk(lines, without, fails):
    """The lines without all that can be left out, so that it still fails: none of those that are left can."""
    size = max(1, len(lines) // 2)
    while True:
        at, is_shorter = 0, False
        while at < len(lines):
            fewer = without(lines, at, at + size)
            if not fails(fewer) and size == 1 and lines[at] == b"begin":
                fewer = counted_again(fewer, at)
            if fails(fewer):
                lines, is_shorter = fewer, True
            else:
                at += size
        if size == 1 and not is_shorter:
            return lines
        size = max(1, size // 2)


def counted_again(lines, at):
    """The lines where a begin at this place was left out: later transactions of its incarnation have smaller numbers."""
    crashes = [place for place, line in enumerate(lines) if line.startswith((b"crash", b"restart"))]
    first = max((place for place in crashes if place < at), default=0)
    end = min((place for place in crashes if place >= at), default=len(lines))
    gone = 1 + sum(line == b"begin" for line in lines[first:at])

    def smaller(found):
        count = int(found[2])
        return b"%s.%d" % (found[1], count - (count > gone))

    return lines[:at] + [re.sub(rb"(?<= )(\d+)\.(\d+)", smaller, line, count=1) for line in lines[at:end]] + lines[end:]


def text(line):
    return line.decode(errors="backslashreplace")


def show(door, program, seed, lines, sizes, folder):
    """Prints what goes wrong with lines that were cut down, and writes them down."""
    file = folder / f"{seed}-short.{door.name}"
    file.write_bytes(b"".join(line + b"\n" for line in lines))
    told, status = run(door, program, lines, sizes)
    wanted, wanted_status = door.replay(lines, sizes, told)
    print(f"  cut down to {len(lines)} lines: {' '.join([program, *door.subcommand, *door.words(sizes)])} < {file}")
    print("".join(f"    {text(line)}\n" for line in lines), end="")
    for at in range(max(len(told), len(wanted))):
        printed = text(told[at]) if at < len(told) else "(nothing)"
        should = text(wanted[at]) if at < len(wanted) else "(nothing)"
        print(f"  {'  ' if printed == should else '->'} {printed}" + ("" if printed == should else f"    wanted: {should}"))
    if status != wanted_status:
        print(f"  -> exit status {status}    wanted: {wanted_status}")


def course(job):
    """What a seed's course met, and whether it is wrong."""
    door, program, seed, keep = job
    met = Counter()
    sizes, lines, expected, status = door.draw(seed, met)
    if keep:
        (keep / f"{seed}.{door.name}").write_bytes(b"".join(line + b"\n" for line in lines))
        (keep / f"{seed}.expected").write_bytes(b"".join(line + b"\n" for line in expected))
        (keep / f"{seed}.words").write_text(" ".join(door.words(sizes)) + "\n")
    told = run(door, program, lines, sizes)
    met["lines"] = len(lines)
    return seed, met, told != (expected, status) and told != door.replay(lines, sizes, told[0])


def agrees(door):
    """Whether the reference prints what stands beside each case that it knows all lines of."""
    is_right = True
    for name in door.cases.names():
        lines, expected = door.cases.lines_of(name)
        if door.unknown in lines:
            continue
        if door.replay(lines, door.cases.sizes_of(name), ())[0] != expected:
            print(f"the reference does not print what stands beside {name}")
            is_right = False
    return is_right


def few(door, met, first, count):
    """What was met too seldom, where all the usual courses were drawn."""
    if first > 0 or count < door.courses:
        return []
    return [(kind, met[kind], least) for kind, least in door.wanted.items() if met[kind] < least]


def chosen_words(door, description):
    words = argparse.ArgumentParser(description=description)
    words.add_argument("--program", help="a program that was built elsewhere")
    words.add_argument("--first", type=int, default=0, metavar="SEED", help="the first seed (default: 0)")
    words.add_argument("--courses", type=int, default=door.courses, metavar="N", help=f"how many (default: {door.courses})")
    words.add_argument("--keep", type=pathlib.Path, metavar="FOLDER", help="write each one down there")
    words.add_argument("--counts", action="store_true", help="print how often each kind was met")
    return words.parse_args()


def main(door, description):
    chosen = chosen_words(door, description)
    programs = built_twice(chosen.program, door.crate)
    program = programs[0]
    is_right = agrees(door)
    for each in programs:
        if door.runs_cases:
            is_right = door.cases.run(each) and is_right
        is_right = door.runs_more(each) and is_right
    if chosen.keep:
        chosen.keep.mkdir(parents=True, exist_ok=True)
    jobs = [(door, program, seed, chosen.keep) for seed in range(chosen.first, chosen.first + chosen.courses)]
    met, wrong = Counter(), []
    with multiprocessing.Pool(os.cpu_count()) as pool:
        for seed, found, is_bad in pool.imap_unordered(course, jobs, chunksize=8):
            met.update(found)
            wrong += [seed] if is_bad else []
    for seed in sorted(wrong)[:1]:
        sizes, lines, _, _ = door.draw(seed, Counter())
        print(f"what seed {seed} draws goes wrong, and so do {len(wrong) - 1} others: {sorted(wrong)[1:20]}")
        short = shrunk(lines, door.without, lambda fewer: is_wrong(door, program, fewer, sizes))
        show(door, program, seed, short, sizes, chosen.keep or pathlib.Path(tempfile.mkdtemp()))
    seldom = few(door, met, chosen.first, chosen.courses)
    for kind, count, least in seldom:
        print(f"{kind} was met {count} times, and not {least}")
    if chosen.counts:
        print("".join(f"  {kind} {count}\n" for kind, count in sorted(met.items())), end="")
    last = chosen.first + chosen.courses - 1
    right = chosen.courses - len(wrong)
    of = f"drawn ({door.name}), seeds {chosen.first} to {last}, {met['lines']} lines"
    print(f"{right} of {chosen.courses} {of}, print what they should")
    sys.exit(0 if is_right and not wrong and not seldom else 1)
