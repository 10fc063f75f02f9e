#!/usr/bin/env python3
"""Stops the machine at each device call of some lists of happenings. Then it stops at each device call of the restart behind that, and so
on to a depth of three restarts. Then comes a whole one. What the store then holds is compared with the reference, and with what was
acknowledged. A stop leaves none of the records that are not forced, all, or a torn one. Of each page it leaves the synced image or the
newest.

    python3 tests/stops.py [--program PROGRAM] [--drawn N] [--first SEED] [NAME..]

A name is one of `BASES`, lists of tests/worlds. One that commits and acknowledges nothing is tried again, with a force and a receipt
behind each commit. One that writes no page is tried again with its pages written, so that their images differ. Where two ways lead to
the same store, one is gone on with. Beside these, so many ways are drawn. Their stops leave any number of records and bytes, and any
image of each page.
"""
import argparse
import itertools
import os
import random
import re
import subprocess
import sys
from collections import Counter
from concurrent.futures import ThreadPoolExecutor

from cases import MOST_SECONDS, built
from reference import ALL, Deed
from world_reference import World, picked_at
from worlds import Worlds

BASES = [
    "restarts-that-are-stopped-go-on", "a-lost-receive-from-a-full-store-is-undone",
    "five-senders-on-five-directory-pages-and-a-forced-send", "commits-are-acknowledged-and-pages-written-amid-what-is-lost",
    "checkpoints-amid-commits-and-what-is-lost", "a-mark-is-under-way-beside-others", "a-store-is-given-tag-pages",
]  # fmt: skip

# Lists with more in them: receipts of their commits, and these with writes of their pages.
ACKNOWLEDGED, WRITTEN = "acknowledged", "written"

# How many restarts are stopped one after the other, and what a stop leaves of the records and of the images.
DEPTH, KEEPS, IMAGES = 3, ("0", str(ALL), "0+20"), (",".join("0" * 16), "-")

# In frames enough a restart writes no page: of each, one image is left before and behind it.
RESTART_IMAGES = ("-",)


class Base:
    """A list, as far as it goes by itself. It may be given receipts, and its pages may be written. `places` has each of its device calls, by
    the line and the number of the call there. `last` comes behind a way: it asks for the clients that were marked."""

    def __init__(self, program, name, more=""):
        self.name, self.sizes = name, Worlds.cases.sizes_of(name)
        self.lines, self.printed = Worlds.cases.lines_of(name)
        if more:
            self.name, self.lines = f"{name}, {more}", with_receipts(self.lines, sum(self.sizes) if more == WRITTEN else 0)
            self.printed = printed_by(program, self.sizes, self.lines)[0]
        world, self.places = World(*self.sizes), []
        for at, line in enumerate(self.lines):
            before = world.store.devices.calls
            world.happen(line, picked_at(self.lines, self.printed, at))
            self.places += [(at, call) for call in range(1, world.store.devices.calls - before + 1)]
        clients = sorted({int(line.split(b" ")[2]) for line in self.lines if line.startswith(b"start-mark ")})
        self.last = [b"restart", *(b"tag %d" % client for client in clients), b"content"]
        assert world.printed == self.printed, self.name
        assert more != ACKNOWLEDGED or acknowledged(self.lines, self.printed), name

    def stopped_at(self, place, kept):
        """The list up to a device call, in which the machine stops and leaves this."""
        at, call = place
        return self.lines[:at] + [stopped(self.lines[at], call, kept)]

    def writes(self):
        """Whether it writes a page."""
        return b"written" in self.printed

    def with_other_images(self):
        """How many stops leave another store with synced images than with the newest."""
        left = [[key(self.told(self.stopped_at(place, f"{keep} {image}"))) for image in IMAGES] for place in self.places for keep in KEEPS]
        return sum(synced != newest for synced, newest in left)

    def told(self, lines):
        """The reference behind these lines. Of a receive it tells which group the list's own took."""
        world = World(*self.sizes)
        for at, line in enumerate(lines):
            is_own = at < len(self.lines) and line == self.lines[at]
            world.happen(line, picked_at(self.lines, self.printed, at) if is_own else None)
        return world


def with_receipts(lines, pages):
    """The lines with a force and a receipt behind each commit. So many pages are written behind each receipt, and behind a force in front
    of each crash."""
    made, writes = [], [b"write %d" % page for page in range(1, pages + 1)]
    for line in lines:
        if line.startswith(b"crash ") and writes:
            made += [b"force", *writes]
        made.append(line)
        if line.startswith(b"commit "):
            made += [b"force", b"ack %d" % len(made), *writes]
    return made


def variants(name):
    """What a list is tried with beside itself: the receipts of its commits, where it gives none, and writes, where it makes none."""
    kinds = {line.split(b" ")[0] for line in Worlds.cases.lines_of(name)[0]}
    return [ACKNOWLEDGED] * (b"commit" in kinds and b"ack" not in kinds) + [WRITTEN] * (b"write" not in kinds)


def printed_by(program, sizes, lines):
    """What the program prints for these lines, and its status."""
    given = b"".join(line + b"\n" for line in lines)
    ran = subprocess.run([program, "happenings", *map(str, sizes)], input=given, capture_output=True, timeout=MOST_SECONDS)
    return ran.stdout.split(b"\n")[:-1], ran.returncode


def choices(images):
    return [f"{keep} {image}" for keep in KEEPS for image in images]


def stopped(line, call, kept):
    """A happening in whose device call of this number the machine stops."""
    if line.startswith(b"restart"):
        return f"restart-stop {call} {kept}".encode()
    return f"stop-in {call} {kept} ".encode() + line


def key(world):
    """What there is to know of a store that has crashed: its records, a torn one, and the images of its pages."""
    devices = world.store.devices
    records = tuple(tuple(spelled(field) for field in record) for record in devices.records)
    return records, devices.torn, tuple(tuple(page.images) for page in devices.pages)


def spelled(field):
    return (field.kind, field.sender, field.tag, field.body, field.cell) if isinstance(field, Deed) else field


def ways(base):
    """Lists that stop in the base and in the restarts behind it, and never open the store. Of each depth, from none to three stopped
    restarts."""
    seen, level = set(), [base.stopped_at(place, kept) for place in base.places for kept in choices(IMAGES)]
    for depth in range(DEPTH + 1):
        further = []
        for lines in level:
            world = base.told(lines)
            yield depth, lines
            state = key(world)
            if depth < DEPTH and state not in seen:
                seen.add(state)
                further.append((lines, calls_of_restart(world)))
        level = [lines + [stopped(b"restart", call, kept)] for lines, calls in further
                 for call in range(1, calls + 1) for kept in choices(RESTART_IMAGES)]  # fmt: skip


def drawn_way(base, seed):
    """A stop in the base, and then in each of three restarts."""
    draw = random.Random(seed)
    images = ",".join(str(draw.choice([0, 1, ALL])) for _ in range(1 + sum(base.sizes)))
    lines = base.stopped_at(draw.choice(base.places), f"{drawn_keep(draw)} {images}")
    for _ in range(DEPTH):
        calls = calls_of_restart(base.told(lines))
        # most times in its append, which may leave any of its records
        call = calls - 1 if draw.randrange(2) else draw.randrange(1, calls + 1)
        lines = lines + [stopped(b"restart", call, f"{drawn_keep(draw)} -")]
    return lines


def drawn_keep(draw):
    """How many records a stop leaves, and how many bytes of the next one."""
    return f"{draw.choice([0, draw.randrange(20), ALL])}+{draw.choice([0, draw.randrange(546), ALL])}"


def calls_of_restart(world):
    """How many device calls a restart makes: its reads, a cut where a torn end is left, an append and a force."""
    return world.store.reads_of_restart() + (1 if world.store.devices.torn else 0) + 2


def fault(program, base, lines):
    """What is wrong with what a list comes to with a whole restart behind it; None where nothing is."""
    lines = lines + base.last
    (printed, status), world = printed_by(program, base.sizes, lines), base.told(lines)
    given = b"".join(line + b"\n" for line in lines).decode()
    replay = f"{base.name}: {program} happenings {' '.join(map(str, base.sizes))} < the list\n{given}"
    if (printed, status) != (world.printed, 0):
        return f"{replay}  printed {printed[-3:]}, status {status}, wanted {world.printed[-3:]}"
    opened = printed[-len(base.last)]
    if not opened.startswith(b"restarted "):
        return f"{replay}  is not open: {opened}"
    told = dict(zip(base.last, printed[-len(base.last) :]))
    lost = [whose for whose, count in acknowledged(lines, printed).items() if told_in(told, whose) < count]
    return f"{replay}  lacks what was acknowledged of the senders, or told by {lost}" if lost else None


def acknowledged(lines, printed):
    """By sender, and by the line that asks for a client's marks, how many sends and marks are committed of which a receipt was given, by
    what was printed alone."""
    sends, commits, given = {}, {}, Counter()
    for line, said in zip(lines, printed):
        words = line.split(b" ")
        if words[0] in (b"start-send", b"start-mark") and said.startswith(b"started "):
            sends[said.removeprefix(b"started ")] = int(words[2]) if words[0] == b"start-send" else b"tag " + words[2]
        if words[0] == b"finish" and said in (b"sent", b"marked"):
            commits.setdefault(words[1], []).append(sends[b" ".join(words[1:])])
        receipt = re.fullmatch(rb"receipt ([0-9.]+) [0-9]+", said)
        if receipt:
            given.update(commits.pop(receipt[1], []))
    return given


def told_in(told, whose):
    """How many committed sends of a sender the line of content tells, or marks of a client the answer to this line."""
    if whose in told:
        found = re.fullmatch(rb"tag ([0-9]+) [0-9]+", told[whose])
    else:
        found = re.search(rb" / %d ([0-9]+) " % whose, told[b"content"])
    return int(found[1]) if found else 0


def run(program, base, seeds):
    """Tries a base in all ways, and in those of these seeds; whether each came to what it should."""
    counts, faults, others = Counter(), [], base.with_other_images()
    with ThreadPoolExecutor(os.cpu_count()) as pool:
        tried = [pool.map(lambda way: (way[0], fault(program, base, way[1])), ways(base))]
        tried.append(pool.map(lambda seed: ("drawn", fault(program, base, drawn_way(base, seed))), seeds))
        for depth, wrong in itertools.chain(*tried):
            counts[depth] += 1
            faults += [wrong] if wrong else []
    print("".join(f"{wrong}\n" for wrong in faults[:3]), end="")
    depths = ", ".join(str(counts[depth]) for depth in [*range(DEPTH + 1), "drawn"])
    right = sum(counts.values()) - len(faults)
    print(f"{right} of {depths} ways with 0 to {DEPTH} stopped restarts, and drawn, hold what they should ({base.name})")
    print(f"    {others} of {len(base.places) * len(KEEPS)} stops leave another store with synced images than with the newest")
    is_all = all(counts[depth] for depth in range(DEPTH + 1)) and (others or not base.writes())
    return not faults and is_all


def main():
    words = argparse.ArgumentParser(description="Stops the machine at each device call, and in the restarts behind it.")
    words.add_argument("--program", help="a program that was built elsewhere")
    words.add_argument("--drawn", type=int, default=200, metavar="N", help="how many ways are drawn for each list")
    words.add_argument("--first", type=int, default=0, metavar="SEED", help="the first of their seeds")
    words.add_argument("names", nargs="*", metavar="NAME", help="these lists alone")
    chosen = words.parse_args()
    program = built(chosen.program, "bench")
    seeds = range(chosen.first, chosen.first + chosen.drawn)
    bases = [Base(program, name, more) for name in chosen.names or BASES for more in ["", *variants(name)]]
    ran = [run(program, base, seeds) for base in bases]
    sys.exit(0 if all(ran) else 1)


if __name__ == "__main__":
    main()
