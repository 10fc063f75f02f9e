#!/usr/bin/env python3
"""Has each allocation of lists of happenings, and of scripts, fail in turn. The call is refused for it and nothing has changed:
made again, it answers as where no allocation fails, and so does all behind it. A device in memory that cannot grow fails. That is a
failure of its call, or of the handing over as the store crashes. A restart that it stopped is made again. A store is opened with as
many allocations over a log in which many transactions ended as over one in which few did. In few frames each allocation fails of a
restart that undoes both by pages and by inverses. It is refused for memory, or for a device that cannot grow. The next one holds what
the reference does, with a stop between that leaves nothing unforced, or without. It reports less, where the first made some durable.

    python3 tests/memory.py [--rqm PROGRAM] [--bench PROGRAM]

A library that the loader puts in front of the C library's has the allocation fail; it is built with `cc`.
"""
import argparse
import os
import pathlib
import re
import subprocess
import sys
import tempfile
from collections import Counter
from concurrent.futures import ThreadPoolExecutor
from types import SimpleNamespace

from cases import MOST_SECONDS, built
from damaged import BEGUN, base, formatted
from frames import NEWEST, OLD, SYNCED, Drawing, printed_by
from inspector import record
from script_reference import Script
from scripts import SCRIPTS
from stops import BASES
from world_reference import World, picked_at
from worlds import Worlds, is_plain

SHIM = """#define _GNU_SOURCE
#include <dlfcn.h>
#include <errno.h>
#include <stddef.h>
#include <stdio.h>
#include <stdlib.h>

/* Has the allocation fail whose number is FAIL_AT, from 1. */
static long made;

static int fails(void) {
    static long at = -1;
    if (at < 0) { const char *word = getenv("FAIL_AT"); at = word ? atol(word) : 0; }
    return ++made == at;
}

void *malloc(size_t size) {
    static void *(*next)(size_t);
    if (!next) next = (void *(*)(size_t)) dlsym(RTLD_NEXT, "malloc");
    if (fails()) { errno = ENOMEM; return NULL; }
    return next(size);
}

void *realloc(void *old, size_t size) {
    static void *(*next)(void *, size_t);
    if (!next) next = (void *(*)(void *, size_t)) dlsym(RTLD_NEXT, "realloc");
    if (fails()) { errno = ENOMEM; return NULL; }
    return next(old, size);
}

/* Tells how many there were, once: as the program ends, or as it ends at once. */
__attribute__((destructor)) static void tell(void) {
    static int told;
    if (!told++) fprintf(stderr, "%ld\\n", made);
}

__attribute__((noreturn)) void _exit(int status) {
    static void (*next)(int);
    tell();
    next = (void (*)(int)) dlsym(RTLD_NEXT, "_exit");
    next(status);
    abort();
}
"""

WANTING = b"refused 1 NoMemory", b"not-opened 1 NoMemory"

# How a program ends where memory is wanting for something that is no call: its status, what it prints, and what it says beside that.
# Memory is wanting as the program starts, or for what a list comes to, which is printed as a whole. Then it is wanting for words, for
# lines, and for the store. At last a device in memory cannot grow before the store is open.
UNABLE = [
    (1, b"", []), (2, b"", [b"error: out of memory"]), (1, b"fault input\n", []), (1, b"fault 1 NoMemory\n", []),
    (1, b"fault 15 DiskWrite\n", []),
]  # fmt: skip

# So many allocations of a list or a script at most are for that. Lists have up to 47: some 40 to be read, 7 to print what they come
# to, and one where a crash names images. What `more_others` counts comes beside. Scripts have up to 138, all before their first line is
# run, 82 of them for words.
MOST_OF_LIST, MOST_OF_SCRIPT = 48, 139

# More than the allocations by which a program reads one line more.
MORE = 12

# Scripts each of whose lines is one call.
STEP_BY_STEP = [
    "a-send-is-aborted-and-one-is-committed-step-by-step", "two-sends-go-on-at-once-on-pages-of-their-own",
    "checkpoints-between-sends-step-by-step", "a-migration-waits-step-by-step",
]  # fmt: skip


class Lists:
    """What runs lines, happenings or scripts, under these names. In each, so many allocations at most (`most_others`) are no call's."""

    def __init__(self, program, library, door, names, most_others):
        self.program, self.library, self.door, self.names, self.most_others = program, library, door, names, most_others

    def run(self, name, lines, number):
        """What lines print where this allocation fails (none of 0), or None where it was no call's; and how many allocations there
        were."""
        words = [self.program, *self.door.subcommand, *self.door.words_of(name)]
        given = b"".join(line + b"\n" for line in lines)
        environment = dict(os.environ, LD_PRELOAD=self.library, FAIL_AT=str(number))
        ran = subprocess.run(words, input=given, env=environment, capture_output=True, timeout=MOST_SECONDS)
        *said, made = ran.stderr.splitlines() or [b"0"]
        if (ran.returncode, ran.stdout, said) in UNABLE:
            return None, int(made)
        assert ran.returncode == 0 and not said, f"{name}, allocation {number}: ended with {ran.returncode}, {ran.stdout}, {said}"
        return ran.stdout.split(b"\n")[:-1], int(made)

    def fault(self, name):
        """What is wrong with a list; and how many of its allocations were a call's."""
        lines = self.door.lines_of(name)[0]
        base, made = self.run(name, lines, 0)
        if base != self.door.lines_of(name)[1]:
            return f"{name}: {base}", 0
        first = 1 if self.door is SCRIPTS else 0  # their first line tells of their opening
        crashes = [place for place, line in enumerate(lines) if line.startswith(b"crash")]
        wanting, unopened, grown, others = {}, {}, 0, 0
        for number in range(1, made + 1):
            told, _ = self.run(name, lines, number)
            if told is None:
                others += 1
                continue
            at = next((at for at, (one, other) in enumerate(zip(told, base)) if one != other), None)
            # where nothing shows it, it was the handing over as the store crashes, of which the crash leaves nothing
            places = crashes if at is None else [at - first]
            if at is not None and told[at] in WANTING:
                if self.door is not SCRIPTS and writes_all(lines[at]):  # a script keeps an account of its calls
                    return f"{name}: allocation {number} of {made} is a checkpoint's or a migration's", 0
                wanting.setdefault(at, []).append(number)
            elif any(told == self.where_a_device_fails(name, lines, place, told) for place in places):
                grown += 1
                if at is not None and told[at].startswith(b"not-opened "):
                    unopened.setdefault(at, []).append(number)
            else:
                return f"{name}: allocation {number} of {made} comes to {told}", 0
        if others > self.most_others + self.more_others(name, lines):
            return f"{name}: {others} allocations of {made} are no call's", 0
        again = [self.made_again(name, lines, base, at, at - first, numbers) for at, numbers in wanting.items()]
        again += [self.opened_again(name, lines, at, at - first, numbers) for at, numbers in unopened.items()]
        if any(again):
            return next(filter(None, again)), 0
        return None, grown + sum(map(len, wanting.values()))

    def more_others(self, name, lines):
        """One for each body, one for each page behind the third, seven for the levels of each restart behind the second, and two for
        each crash behind the first that names images: the line is read, and the images are taken."""
        pages = 1 + sum(int(word) for word in self.door.words_of(name) if word.isdigit())
        bodies, restarts = (sum(line.startswith(kind) for line in lines) for kind in (b"start-send", b"restart"))
        named = sum(line.startswith(b"crash") and not line.endswith(b" -") for line in lines)
        return bodies + pages - 3 + 7 * max(0, restarts - 2) + 2 * max(0, named - 1)

    def made_again(self, name, lines, base, at, place, numbers):
        """What is wrong where the line at a place, in which these allocations fail, stands twice."""
        twice, met = doubled(lines, place), 0
        for number in range(numbers[0], numbers[-1] + MORE):
            told, _ = self.run(name, twice, number)
            if told and told[at] in WANTING:
                met += 1
                if told[:at] + told[at + 1 :] != base:
                    return f"{name}: {lines[place]}, made again behind allocation {number}, comes to {told[at + 1:]}"
        return None if met >= len(numbers) else f"{name}: {lines[place]} has {met} allocations, and not {len(numbers)}"

    def opened_again(self, name, lines, at, place, numbers):
        """What is wrong where the restart at a place, in which a device cannot grow at these allocations, stands twice."""
        twice, met = doubled(lines, place), 0
        for number in range(numbers[0], numbers[-1] + MORE):
            told, _ = self.run(name, twice, number)
            if told and told[at].startswith(b"not-opened ") and told[at] not in WANTING:
                met += 1
                if told != self.where_a_device_fails(name, twice, place, told) or not told[at + 1].startswith(b"restarted "):
                    return f"{name}: a restart behind allocation {number}, in which a device cannot grow, comes to {told[at + 1:]}"
        return None if met >= len(numbers) else f"{name}: a device grows {met} times in a restart, and not {len(numbers)}"

    def where_a_device_fails(self, name, lines, place, told):
        """What lines print by the reference where the call at a place meets a failing device: its first write. At a crash that is the
        handing over of what is buffered. In a checkpoint or a migration it is the device call behind which they print what was told, if
        one is."""
        most = 6 + sum(int(word) for word in [*self.door.words_of(name), *lines[place].split(b" ")] if word.isdigit())
        calls = range(1, most + 1) if writes_all(lines[place]) else [1]
        came = [self.where_it_fails(name, lines, place, call, told) for call in calls]
        return told if told in came else came[0]

    def where_it_fails(self, name, lines, place, call, told):
        """What they print where it is this device call of the call at the place."""
        if self.door is SCRIPTS:
            script = Script(*self.door.sizes_of(name))
            for at, line in enumerate(lines):
                if at == place:
                    script.store.devices.fail(call)
                script.run(line, told[at + 1] if at + 1 < len(told) else b"")
            return b"\n".join(script.printed).split(b"\n")
        world = World(*self.door.sizes_of(name))
        for at, line in enumerate(lines):
            if at == place and line.startswith(b"crash"):
                world.store.failed = True
            elif at == place and line.startswith(b"restart-stop"):
                line = re.sub(rb"(?<=restart-stop )([0-9]+) [0-9+]+", rb"\1 0", line)  # the append is not made, and the machine stops
            elif at == place:
                world.happen(b"fail %d" % (world.store.reads_of_restart() + 1 if line == b"restart" else call))
                world.printed.pop()
            world.happen(line, picked_at(lines, told, at))
        return world.printed


def writes_all(line):
    """Whether it is a checkpoint or a migration."""
    return line == b"checkpoint" or line.startswith(b"migrate ")


def doubled(lines, place):
    """The lines with one of them twice. Acknowledgements behind it name their commits by the numbers that they have then."""
    made = []
    for at, line in enumerate(lines):
        if line.startswith(b"ack ") and b"." not in line and int(line[4:]) > place:
            line = b"ack %d" % (int(line[4:]) + 1)
        made += [line, line] if at == place else [line]
    return made


def is_calm(lines):
    """Whether nothing stops, and the list ends with what the store holds behind a crash."""
    return is_plain(lines) and lines[-1] == b"content" and not any(line.startswith(b"restart-stop") for line in lines)


# In which order transactions end that began one after the other, by their numbers. Of two the second may end first, or the first of
# all may stay open.
ENDS = {
    "in order": lambda first, many: range(first, first + many),
    "two by two": lambda first, many: [first + (number ^ 1) for number in range(many)],
    "beside one that is open": lambda first, many: range(first + 1, first + many),
}

FEW, MANY = 100, 20000


def opening(program, library, records):
    """How many allocations an opening of a store takes over this log."""
    with tempfile.TemporaryDirectory() as folder:
        for name, held in (("pages", formatted()), ("log", b"".join(records))):
            (pathlib.Path(folder) / name).write_bytes(held)
        environment = dict(os.environ, LD_PRELOAD=library)
        ran = subprocess.run([program, "open", folder], env=environment, capture_output=True, timeout=MOST_SECONDS)
    assert ran.stdout.startswith(b"restarted 2 unfinished 0 lost 0, "), ran
    return int(ran.stderr)


def check_openings(program, library):
    """Whether openings take no more memory where more transactions have ended, from the beginning of a log and behind a base."""
    right = 0
    for name, ends in ENDS.items():
        for begins, first in ((BEGUN, 1), (base(5), 3)):
            few, many = (opening(program, library, [begins, *(record(6, [1, number]) for number in ends(first, count))])
                         for count in (FEW, MANY))  # fmt: skip
            right += few == many
            if few != many:
                print(f"{MANY} transactions that ended {name}, from {first} on: {many} allocations, and {few} for {FEW}")
    print(f"{right} of {2 * len(ENDS)} openings take as many allocations for {MANY} transactions that ended as for {FEW} ({os.path.basename(program)})")
    return right == 2 * len(ENDS)


# Seeds of lists that leave something to be undone by pages and by inverses, and in how many frames they run.
SEEDS, FRAMES = (1, 3, 5), 8

# What comes between a restart that is refused and the next one: nothing, or a stop that leaves nothing unforced.
BETWEEN = [], [b"restart-stop 1 0 " + SYNCED], [b"restart-stop 1 0 " + NEWEST]

# What has to be met, and how often at least: the refusals, and how many operations and transactions the next restart undoes.
MET = {"NoMemory": 430, "DiskWrite": 270, "1 1": 650, "0 1": 70}


class Restarting:
    """A drawn list that crashes, a restart in which an allocation fails, and what comes between it and the next one."""

    def __init__(self, program, library, seed, between):
        drawing = Drawing(seed)
        words = [*map(str, drawing.sizes), str(FRAMES)]
        door = SimpleNamespace(subcommand=["happenings"], words_of=lambda _: words)
        self.name, self.lists = f"seed {seed}, then {between}", Lists(program, library, door, [], MOST_OF_LIST)
        marks = {int(line.split(b" ")[2]) for line in drawing.lines if line.startswith(b"start-mark ")}
        front, shown = [*drawing.lines, OLD], [*(b"tag %d" % client for client in sorted(marks)), b"content"]
        self.lines = [*front, b"restart", *between, b"restart", *shown]
        printed = printed_by([*front, b"restart", *shown], drawing.sizes, FRAMES)
        self.front, self.opened, self.shown = printed[: len(front)], printed[len(front)], printed[len(front) + 1 :]
        self.met = Counter()

    def fault(self):
        """What is wrong where each allocation fails in turn, from the last one on up to the list's own; None where nothing is."""
        told, made = self.lists.run(self.name, self.lines, 0)
        at, wrong, others = len(self.front), None, 0
        if told[: at + 1] != [*self.front, self.opened] or told[-len(self.shown) :] != self.shown:
            return f"{self.name}: {told[at:]}"
        while not wrong and made and (told is None or told[:at] == self.front):
            told, _ = self.lists.run(self.name, self.lines, made)
            others += told is None
            if told and told[:at] == self.front:
                is_whole = told[at] == self.opened and told[-1] in (self.shown[-1], WANTING[0])
                wrong = None if is_whole else self.fault_behind(told[at:], made)
            made -= 1
        return wrong or (f"{self.name}: {others} allocations are no call's" if others > MOST_OF_LIST else None)

    def fault_behind(self, told, number):
        """The same of what is told from a restart on that is refused: for memory, or for a device that cannot grow."""
        shown = told[-len(self.shown) :]
        refused, *stops, opened = told[: -len(shown)]
        least = int(self.front[-1].removeprefix(b"crashed "))
        is_left = all(said.startswith(b"crashed ") and int(said.split(b" ")[1]) >= least for said in stops)
        is_refused = refused in (WANTING[1], b"not-opened 15 DiskWrite")
        if not is_refused or not is_left or not opened.startswith(b"restarted ") or shown != self.shown:
            return f"{self.name}, allocation {number}: the restart comes to {told}, and wanted is {self.shown}"
        _, _, unfinished, lost, _ = opened.decode().split(" ")
        self.met.update([refused.decode().split(" ")[2], f"{unfinished} {lost}"])
        return None


def check_few_frames(program, library):
    """Whether restarts in few frames come to what they should where each of their allocations fails."""
    lists = [Restarting(program, library, seed, between) for seed in SEEDS for between in BETWEEN]
    with ThreadPoolExecutor(os.cpu_count()) as pool:
        faults = [wrong for wrong in pool.map(Restarting.fault, lists) if wrong]
    met = sum((each.met for each in lists), Counter())
    print("".join(f"{wrong}\n" for wrong in faults), end="")
    print(f"{len(lists) - len(faults)} of {len(lists)} restarts in {FRAMES} frames come to what they should; {dict(sorted(met.items()))}")
    return not faults and all(met[kind] >= least for kind, least in MET.items())


def check(lists):
    with ThreadPoolExecutor(os.cpu_count()) as pool:
        came = list(pool.map(lists.fault, lists.names))
    print("".join(f"{wrong}\n" for wrong, _ in came if wrong), end="")
    right, count = sum(not wrong for wrong, _ in came), sum(count for _, count in came)
    print(f"{right} of {len(came)} come to what they should where each of {count} allocations fails ({os.path.basename(lists.program)})")
    return right == len(came) and count > 20 * len(came)


def main():
    words = argparse.ArgumentParser(description="Has each allocation of lists and of scripts fail in turn.")
    words.add_argument("--rqm", help="a program that was built elsewhere")
    words.add_argument("--bench", help="a program that was built elsewhere")
    chosen = words.parse_args()
    with tempfile.TemporaryDirectory() as folder:
        source, library = pathlib.Path(folder) / "shim.c", str(pathlib.Path(folder) / "shim.so")
        source.write_text(SHIM)
        subprocess.run(["cc", "-O2", "-shared", "-fPIC", "-o", library, str(source), "-ldl"], check=True)
        bench, happenings = built(chosen.bench, "bench"), Worlds.cases
        lists = [name for name in happenings.names() if name in BASES or is_calm(happenings.lines_of(name)[0])]
        ran = [
            check(Lists(bench, library, happenings, lists, MOST_OF_LIST)),
            check(Lists(built(chosen.rqm, "rqm"), library, SCRIPTS, STEP_BY_STEP, MOST_OF_SCRIPT)),
            check_openings(bench, library),
            check_few_frames(bench, library),
        ]
    sys.exit(0 if all(ran) else 1)


if __name__ == "__main__":
    main()
