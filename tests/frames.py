#!/usr/bin/env python3
"""Runs stores in fewer frames than pages. Lists of happenings are drawn from seeds, run by the proved program in 8, 9 and 64 frames,
and compared with the reference. Then each device call of the running store fails in turn, also those that read a page or make way for
one. A call that is refused as DiskRead has changed nothing: made again, it and all behind it answer as if nothing had failed. One that
is refused as DiskWrite stops the store, which a crash and a restart open again, as it was in front of that call. So they do where the
machine stops at a device call of a start, of an inverse or of a content. A crash that leaves old images of all pages has the restart
change more pages than it has frames for, so that pages make way for others and are read again. Each of its device calls fails in turn.
The machine stops at each, and then in the two restarts behind that. Every second list leaves an operation and a transaction without an
end, so that pages also make way for what is undone by pages, and by inverses. How often something is met amid that is counted apart.
So it goes with a list in which frames are wanting for a start.

The device calls of that restart are counted as they fail. `Ways` says by docs/RECOVERY.md and docs/DECISIONS.md how many pages it brings
in and writes out, and how often it forces. There have to be so many, neither more nor fewer. Beside these it reads what any opening does
(tests/reference.py), and pages that it looks at. It may look three times at each page in no frame: for what is taken back, for the
chains, and for what waits (4, 5 and 6 of docs/RECOVERY.md). It may look once more for each write that takes something back. For each
message that waits it may look twice: at its cell, and again at its sender's page. Where a force of new records fails, the next restart
stops at some calls behind its first force. All that the log read as is left then, though these stops keep nothing that is not forced.

    python3 tests/frames.py [--program PROGRAM] [--first SEED] [--lists N]
"""
import argparse
import itertools
import multiprocessing
import os
import random
import subprocess
import sys
from collections import Counter

from cases import MOST_SECONDS, built, first_difference, shown
from reference import ALL, Mending
from world_reference import World

FRAMES = (8, 9, 64)

# In so few of them pages make way, and each device call fails in turn.
FEW = 9

# Directory pages, cell pages and tag pages of the stores: each has more of them than the fewest frames.
SIZES = ((20, 2, 0), (7, 3, 0), (40, 2, 2))

TRANSACTIONS = 20

# How many operations a transaction finishes that is left without its end.
FINISHED = 8

# A list over ten pages, in 8 frames: two starts are PoolFull. It stands for a seed.
ROW = "five-senders"
ROW_SIZES = (5, 5, 0)
ROW_LINES = [
    b"restart", *5 * [b"begin"], b"start-send 1.1 0 1 a", b"start-send 1.2 15 1 b", b"start-send 1.3 30 1 c", b"start-send 1.4 45 1 d",
    b"start-send 1.5 60 1 e", *3 * [b"step 1.1 1"], b"finish 1.1 1", b"start-send 1.5 60 1 e", b"force", b"start-send 1.5 60 1 e", b"force",
]  # fmt: skip

# A seed whose pages would be ahead of the log, if a restart in 8 frames did not force what it reads.
AHEAD = 15

# What shows the store behind its last crash.
LAST = [b"crash 0 -", b"restart", b"content"]

# What is kept of the records of a restart that stops again.
KEEPS = b"0", b"%d" % ALL, b"0+20", b"1+20"

# At how many calls the restart behind a force that failed stops.
STOPS = 8

# Of each page the newest image is left, or the synced one.
NEWEST, SYNCED = b"-", b",".join([b"0"] * 64)

# A crash that leaves what is forced, and of each page the synced image.
OLD = b"crash 0 " + SYNCED

# What has to be met, the usual lists taken together, and how often at least.
WANTED = {
    "DiskRead": 2200, "DiskWrite": 3000, "ContentRead": 1900, "StartRead": 350, "StartWrite": 250, "UndoRead": 2, "UndoWrite": 2,
    "OpeningRead": 1850, "OpeningWrite": 420, "OpeningStopped": 4500, "OpeningStoppedThrice": 4300, "Stopped": 4900, "PoolFull": 2,
    "OpeningUndoesBoth": 27, "UndoingPagesRead": 150, "UndoingPagesWrite": 16, "UndoingPagesStopped": 340,
    "UndoingPagesStoppedThrice": 330, "UndoingDeedsRead": 55, "UndoingDeedsWrite": 45, "UndoingDeedsStopped": 200,
    "UndoingDeedsStoppedThrice": 180, "WayMade": 400, "WayWritten": 330, "WayForced": 80, "Looked": 850, "UnforcedStopped": 250,
    "WouldBeAhead": 1,
}  # fmt: skip


class Drawing:
    """A list that is being drawn, beside the reference. What an operation wrote is forced before the next one begins, so frames for its
    pages can always be had."""

    def __init__(self, seed):
        self.random = random.Random(seed)
        self.sizes = SIZES[seed % len(SIZES)]
        self.world = World(*self.sizes)
        self.lines = []
        self.happen("restart")
        for _ in range(TRANSACTIONS):
            self.transaction()
            if self.random.randrange(3) == 0:
                self.happen("content")
        if seed % 2:
            self.leave()

    def happen(self, *words):
        line = b" ".join(word if isinstance(word, bytes) else str(word).encode() for word in words)
        self.lines.append(line)
        return self.world.happen(line).decode(errors="replace")

    def transaction(self):
        txn = self.happen("begin").split()[1]
        for _ in range(self.random.randrange(1, 4)):
            self.operation(txn)
        if self.random.randrange(3):
            self.happen("commit", txn)
        else:
            self.abort(txn)
        self.happen("force")

    def operation(self, txn):
        sender, kind = self.random.randrange(self.sizes[0] * 15), self.random.randrange(10)
        holding = [number for number, sends in enumerate(self.world.store.sends) if len(sends) > self.world.store.takes[number]]
        if kind < 4 and holding:
            self.carry("start-receive-from", txn, self.random.choice(holding))
        elif kind == 4 and self.sizes[2]:
            self.carry("start-mark", txn, self.random.randrange(self.sizes[2] * 15), self.random.randrange(99))
        elif kind == 5:
            self.carry("start-close", txn, sender)
        else:
            body = bytes(self.random.choices(b"abcdef", k=self.random.randrange(217)))
            self.carry("start-send", txn, sender, self.random.randrange(99), body)

    def carry(self, *start):
        """An operation, from its start to its end; whether it began."""
        said = self.happen(*start)
        if not said.startswith("started"):
            return False
        sub = said.split()[1:]
        while self.happen("step", *sub) != "ready":
            pass
        self.happen("finish", *sub)
        self.happen("force")
        return True

    def leave(self):
        """An operation that is left without its end, and behind it a transaction without one that finishes some, by senders of one
        directory page after the other. All is forced. What is undone by pages, and then by inverses, was written long before."""
        unfinished, lost = (self.happen("begin").split()[1] for _ in range(2))
        while not (said := self.happen("start-send", unfinished, self.sender_of(), 7, b"left")).startswith("started"):
            pass
        for _ in range(2):
            self.happen("step", *said.split()[1:])
        self.happen("force")
        finished, pages = 0, itertools.cycle(self.random.sample(range(self.sizes[0]), self.sizes[0]))
        while finished < FINISHED:
            finished += self.carry("start-send", lost, self.sender_of(next(pages)), finished, b"lost")

    def sender_of(self, page=None):
        """A sender, of this directory page or of any."""
        return self.random.randrange(15) + 15 * (self.random.randrange(self.sizes[0]) if page is None else page)

    def abort(self, txn):
        self.happen("start-abort", txn)
        while self.carry("undo-next", txn):
            pass
        self.happen("end-abort", txn)


def printed_by(lines, sizes, frames):
    world = World(*sizes, frames)
    for line in lines:
        world.happen(line)
    return world.printed


def told_by(program, lines, sizes, frames):
    """What the program prints of these happenings in so many frames."""
    words = [program, "happenings", *map(str, sizes), str(frames)]
    given = b"".join(line + b"\n" for line in lines)
    ran = subprocess.run(words, input=given, capture_output=True, timeout=MOST_SECONDS, check=True)
    return ran.stdout.split(b"\n")[:-1]


def differs(told, wanted, what):
    """Says where the program prints something else; None where it does not."""
    found = first_difference(told, wanted)
    return found and f"{what}\n    line {found[0]}: wanted {shown(found[1])}, printed {shown(found[2])}"


def kind_of(line, is_read):
    """What was met: the start of an operation, of an inverse, or a content, that reads or that writes."""
    name = line.split(b" ")[0]
    part = "Content" if name == b"content" else "Undo" if name == b"undo-next" else "Start" if name.startswith(b"start-") else "Other"
    return part + ("Read" if is_read else "Write")


def kinds_of_opening(restarts):
    """What the first of these restarts met, if anything: a read or a write that failed, or a stop, which the next ones may meet too."""
    if restarts[0].startswith(b"crashed"):
        return ["Stopped", "StoppedThrice"] if all(said.startswith(b"crashed") for said in restarts) else ["Stopped"]
    return {b"not-opened 3 DiskRead": ["Read"], b"not-opened 15 DiskWrite": ["Write"]}.get(restarts[0], [])


class Ways:
    """The device calls of a restart in few frames, by the documents, from the LSNs of the pages and the length of the log on. The first
    pages stand in frames, and what the log reads as is forced. A page that a record writes, and that lacks it, is brought in. The next
    behind the frame that was filled last gives way, all round, and is written out where it has a change. Amid what is undone that goes
    behind a force of all records. `others` has each call that is no read, by how many records are handed over where it fails."""

    def __init__(self, frames, lsns, log, forced):
        self.frames, self.next, self.changed = list(range(1, frames + 1)), 0, set()
        self.lsns, self.images, self.log, self.handed, self.forced = list(lsns), list(lsns), log, log, forced
        self.others, self.met = [log], Counter(WayForced=1)
        self.forces = []  # of new records: how many are forced before and behind it, and the LSNs of the pages as they are stored

    def repeat(self, records):
        for lsn, record in enumerate(records, 1):
            if record[0] in ("write", "back") and self.lsns[record[2]] < lsn:
                self.bring_in(record[2], lsn)
        return self

    def force(self, last):
        """All records up to this one are handed over, if any is not, and forced."""
        if self.handed < last:
            self.others.append(self.handed)
            self.forces.append((self.forced, last, list(self.images)))
        self.others.append(last)
        self.handed = self.forced = last
        self.met["WayForced"] += 1

    def bring_in(self, page, lsn):
        if page not in self.frames:
            if lsn > self.log:
                self.force(lsn - 1)
            gone, self.frames[self.next] = self.frames[self.next], page
            if gone in self.changed:
                self.others.append(self.handed)
                self.met.update(WayWritten=1, WayAhead=self.lsns[gone] > self.forced)
                self.images[gone] = self.lsns[gone]
                self.changed.remove(gone)
            self.next = (self.next + 1) % len(self.frames)
            self.met["WayMade"] += 1
        self.lsns[page] = lsn
        self.changed.add(page)

    def ahead(self, records):
        """How many pages would be ahead of the log if a restart behind a force that failed did not force what it reads."""
        again = [Ways(len(self.frames), images, last, forced).repeat(records[:last]) for forced, last, images in self.forces]
        return sum(ways.met["WayAhead"] for ways in again)


class Failing:
    """A list whose device calls fail in turn."""

    def __init__(self, program, seed, frames):
        self.program, self.sizes, self.lines, self.frames = program, ROW_SIZES, ROW_LINES, frames
        if seed != ROW:
            drawing = Drawing(seed)
            self.sizes, self.lines = drawing.sizes, drawing.lines
        self.wanted = self.printed_by(self.lines + LAST)
        self.random, self.drawn = random.Random(seed), random.Random(seed)
        self.met = Counter({"PoolFull": self.wanted.count(b"refused 14 PoolFull")})
        self.goes_on = False  # some call of the list met the last failure
        self.fronts = {}  # what the list prints up to a line, by its place
        self.left = {}  # how many records a stop at a device call of the restart leaves, by its number
        self.stood = []  # the numbers of these calls, and the kinds of what was met there
        self.name = f"seed {seed}, {frames} frames"

    def printed_by(self, lines):
        return printed_by(lines, self.sizes, self.frames)

    def before(self, at):
        """What is printed where the list goes up to this line, with what shows the store behind it."""
        if at not in self.fronts:
            self.fronts[at] = self.printed_by(self.lines[:at] + LAST)
        return self.fronts[at]

    def told(self, lines):
        return told_by(self.program, lines, self.sizes, self.frames)

    def fault(self):
        """What is wrong; None where nothing is."""
        wrong = differs(self.told(self.lines + LAST), self.wanted, self.name)
        number = 1
        self.goes_on = self.frames <= FEW
        while not wrong and self.goes_on:
            wrong = self.fault_of(number)
            number += 1
        return wrong or (self.frames <= FEW and (self.fault_of_stops() or self.fault_of_opening())) or None

    def fault_of_stops(self):
        """What is wrong where the machine stops at a device call that makes pages be read, or make way; None where nothing is."""
        for at, line in enumerate(self.lines):
            if line.startswith((b"start-", b"undo-next", b"content")):
                wanted = self.before(at)[-1]
                wrong = self.fault_of_stop(at, NEWEST, wanted) or self.fault_of_stop(at, SYNCED, wanted)
                if wrong:
                    return wrong
        return None

    def fault_of_stop(self, at, images, wanted):
        for number in itertools.count(1):
            stopping = b"stop-in %d 0 %s " % (number, images) + self.lines[at]
            told = self.told(self.lines[:at] + [stopping, b"restart", b"content"])
            if not told[at].startswith(b"crashed"):
                return None
            self.met["Stopped"] += 1
            wrong = differs(told[-1:], [wanted], f"{self.name}, {shown(stopping)}")
            if wrong:
                return wrong

    def fault_of_opening(self):
        """What is wrong where a device call of the restart behind the list fails, or the machine stops there; None where nothing is."""
        for name, images in (("stop", NEWEST), ("stop", SYNCED), ("fail", b"")):
            number, wrong, self.goes_on = 1, None, True
            while self.goes_on:
                wrong = self.fault_at(name, images, number)
                if wrong:
                    return wrong
                number += 1
        self.count_undoing()
        return self.fault_of_calls()

    def fault_of_calls(self):
        """What is wrong with how many device calls the restart makes, or with what they left for the next one; None where nothing is."""
        world = World(*self.sizes)
        for line in self.lines + [OLD]:
            world.happen(line)
        store, records = world.store, world.store.devices.records
        lsns, log, read = [page.images[-1] for page in store.devices.pages], len(records), store.reads_of_restart()
        world.happen(b"restart")
        ways = Ways(self.frames, lsns, log, log).repeat(records)
        ways.force(len(records))
        looks = 3 * (len(lsns) - 1 - self.frames) + 2 * sum(map(store.left, range(store.senders)))
        looks += sum(record[0] == "write" for record in records[log:])
        looked = sum(kinds == ["Read"] for _, kinds in self.stood) - read - ways.met["WayMade"]
        others = [number for number, kinds in self.stood if kinds == ["Write"]]
        if len(others) != len(ways.others) or not 0 <= looked <= looks:
            counts = f"{len(others)} of its device calls are no reads, and not {len(ways.others)}"
            return f"{self.name}, a restart: {counts}; it looks at {looked} pages, of {looks} at most"
        self.met.update(ways.met, Looked=looked, MayLook=looks, WouldBeAhead=ways.ahead(records))
        came = zip(others, ways.others, [log, *ways.others])
        return next(filter(None, (self.fault_behind(number, handed) for number, handed, before in came if handed > before)), None)

    def fault_behind(self, number, handed):
        """What is wrong where this force of the restart fails, and the machine stops in the next one, behind its first force. That comes
        as the pages are read, and leaves what was handed over."""
        first, failed = sum(self.sizes) + 2, self.lines + [OLD, b"fail %d" % number, b"restart"]
        for call in self.drawn.sample(range(first + 1, first + 31), STOPS):
            stop = b"restart-stop %d 0 " % call + NEWEST
            stopped, opened, content = self.told(failed + [stop, b"restart", b"content"])[-3:]
            what = f"{self.name}, device call {number} of the restart fails, then {shown(stop)}"
            is_open = stopped.startswith(b"restarted")
            self.met["UnforcedStopped"] += not is_open
            if not is_open and (not stopped.startswith(b"crashed ") or int(stopped.split(b" ")[1]) < handed):
                return f"{what}: {shown(stopped)}, and not {handed} records"
            wrong = differs([opened.split(b" ")[0], content], [b"running" if is_open else b"restarted", self.wanted[-1]], what)
            if wrong:
                return wrong
        return None

    def count_undoing(self):
        """Counts what was met at the calls amid what the restart undoes. They come behind a force of records that it made, and before one
        but the last, by how many the log held behind a stop there that kept what is forced."""
        world = World(*self.sizes)
        for line in self.lines + [OLD]:
            world.happen(line)
        by_pages = sum(len(writes) + 1 for writes in Mending(world.store).open_writes.values())
        before, most = len(world.store.devices.records), max(self.left.values())
        for number, kinds in self.stood:
            made = self.left[number] - before
            if 0 < made < most - before:
                self.met.update(("UndoingPages" if made < by_pages else "UndoingDeeds") + kind for kind in kinds)

    def fault_at(self, name, images, number):
        """The same of one device call. Behind the last one the store opens at once. Where the machine stops, it does so again at calls of
        the two restarts behind that, which are drawn, with what is kept of their records."""
        calls = [number, *(self.random.randrange(1, number + 1) for _ in range(2))]
        keeps = [b"0", *(self.random.choice(KEEPS) for _ in range(2))]
        stops = [b"restart-stop %d %s " % each + images for each in zip(calls, keeps)]
        spoiled = [b"fail %d" % number, b"restart"] if name == "fail" else stops
        told = self.told(self.lines + [OLD] + spoiled + [b"fail 0", b"restart", b"content"])
        restarts = told[-4:-3] if name == "fail" else told[-6:-3]
        before, (opened, content) = restarts[0], told[-2:]
        self.goes_on = not before.startswith(b"restarted")
        is_open = any(said.startswith(b"restarted") for said in restarts)
        wanted = (b"running" if is_open else b"restarted", self.wanted[-1])
        what = f"{self.name}, {name} {' '.join(map(str, calls))} of the restart"
        kinds = kinds_of_opening(restarts)
        if self.goes_on and not kinds:
            return differs([before], [b"restarted"], what)
        self.met.update("Opening" + kind for kind in kinds)
        self.met["OpeningUndoesBoth"] += before.startswith(b"restarted 2 1 1 ")
        if kinds:
            self.stood.append((number, kinds))
        if "Stopped" in kinds:
            self.left[number] = int(before.split(b" ")[1])
        return differs([opened.split(b" ")[0], content], list(wanted), what)

    def fault_of(self, number):
        """What is wrong where this device call behind the opening fails. It is the last one where no call of the list meets it."""
        failing = b"fail %d" % number
        lines = [self.lines[0], failing] + self.lines[1:]
        wanted = [self.wanted[0], b"nothing"] + self.wanted[1:]
        found = first_difference(self.told(lines + LAST), wanted)
        self.goes_on = found is not None and found[0] <= len(lines)
        if not self.goes_on:
            return None
        at, said = found[0] - 1, found[2]
        what = f"{self.name}, device call {number}, in {shown(lines[at])}"
        if said == b"refused 3 DiskRead":
            self.met.update(["DiskRead", kind_of(lines[at], True)])
            return differs(self.told(lines[: at + 1] + lines[at:] + LAST), wanted[:at] + [said] + wanted[at:], what)
        if said != b"refused 15 DiskWrite":
            return differs([said], [wanted[at]], what)
        self.met.update(["DiskWrite", kind_of(lines[at], False)])
        before = self.before(at - 1)
        behind = [b"refused 2 Failed"]
        lines = lines[: at + 1] + [b"force"] + LAST
        return differs(self.told(lines), [wanted[0], b"nothing"] + before[1 : at - 1] + [said] + behind + before[at - 1 :], what)


def tried(job):
    failing = Failing(*job)
    return failing.fault(), failing.met


def main():
    words = argparse.ArgumentParser(description="Runs stores in fewer frames than pages.")
    words.add_argument("--program", help="a program that was built elsewhere")
    words.add_argument("--first", type=int, default=0, metavar="SEED", help="the first seed")
    words.add_argument("--lists", type=int, default=12, metavar="N", help="how many seeds")
    chosen = words.parse_args()
    program, seeds = built(chosen.program, "bench"), range(chosen.first, chosen.first + chosen.lists)
    with multiprocessing.Pool(os.cpu_count()) as pool:
        jobs = [(program, ROW, FRAMES[0]), (program, AHEAD, FRAMES[0]), *((program, seed, frames) for seed in seeds for frames in FRAMES)]
        came = pool.map(tried, jobs, chunksize=1)
    faults, met = [fault for fault, _ in came if fault], sum((met for _, met in came), Counter())
    print("".join(f"{fault}\n" for fault in faults), end="")
    print(f"{len(came) - len(faults)} of {len(came)} runs in few frames go as they should; {dict(sorted(met.items()))}")
    usual = chosen.first == 0 and chosen.lists == 12
    lacking = {kind: met[kind] for kind in WANTED if usual and met[kind] < WANTED[kind]}
    if lacking:
        print(f"too seldom met: {lacking}")
    sys.exit(1 if faults or lacking else 0)


if __name__ == "__main__":
    main()
