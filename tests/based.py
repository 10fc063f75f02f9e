#!/usr/bin/env python3
"""Opens stores whose log begins with a Base, with a part of a record behind its last one or without. Each call on their files fails in
turn. The machine stops in each, and so in up to three openings one after the other. Each allocation of an opening fails in turn. The same
is done to checkpoints and migrations, also of a log without a Base. What opens then is what tests/opening.py reads from the bytes, and
holds what it held.

    python3 tests/based.py [--bench PROGRAM] [--rqm PROGRAM] [NAME..]

A name is one of the tests below, as `stops`; without one all are run. Stores and parts are those of tests/damaged.py.
"""
import argparse
import itertools
import os
import signal
import subprocess
import tempfile
import time
from collections import namedtuple
from concurrent.futures import ThreadPoolExecutor

import memory
import opening
from cases import built
from damaged import FILL, base, restarts_behind_a_base
from files import BASED, SHIM, WHOLE, files_of, folder_of
from inspector import record
from mutated import MIGRATE, TAGS, Looks
from server import LONGEST, without_progress
from shim import failing

# What stands behind the last record.
ENDS = b"", FILL[:545], base(5)[:20]

# How many openings are stopped one after the other.
DEPTH = 3

# What an opening answers one of whose calls fails, and how a checkpoint ends then.
REFUSED = b"fault open\n", b"fault 3 DiskRead\n", b"fault 15 DiskWrite\n"

# How a program ended: its status, what it printed and said beside that, and whether one of its calls met what was meant for it. The store's
# files follow, what stands where a new log is made, and how much of the log is on the disk for sure.
Ended = namedtuple("Ended", "status printed said is_met pages log fresh synced")


class Opens:
    """Openings by `bench` over a library, and checkpoints and migrations by `rqm`, which shows what a store holds."""

    def __init__(self, bench, rqm, library):
        self.opening, self.checkpoint, self.library = [bench, "open"], [rqm, "checkpoint"], library
        self.migration = [rqm, *MIGRATE]
        self.looks = Looks(rqm, None, tempfile.gettempdir())

    def run(self, command, pages, log, fresh=None, **words):
        """Runs a command on a store of these files, with these words in the environment."""
        files = {"pages": pages, "log": log, **({} if fresh is None else {"log.new": fresh})}
        with folder_of(**files) as folder, folder_of(synced=log) as beside:
            told, synced = beside / "told", beside / "synced"
            more = {"FAILED": str(told), "LOG": str(folder / "log"), "SYNCED": str(synced)}
            environment = {**os.environ, **self.library, **more, **words}
            ran = subprocess.run([*command, str(folder)], capture_output=True, env=environment, timeout=LONGEST)
            files = files_of(folder)
            came = ran.returncode, ran.stdout, without_progress(ran.stderr), told.exists()
            return Ended(*came, files["pages"], files["log"], files.get("log.new"), synced.stat().st_size)

    def each(self, command, pages, log, **words):
        """The runs whose first, second, .. call meets what is meant for it, in part and whole."""
        for in_part in ({}, {"IN_PART": "1"}):
            for number in itertools.count(1):
                ended = self.run(command, pages, log, FAIL_AT=str(number), **in_part, **words)
                if not ended.is_met:
                    assert ended.status == 0 and number > 6, (ended[:4], number)
                    break
                yield ended

    def check(self, pages, log, content):
        """A store of these files is opened, and holds this."""
        said, made, left = opening.said_of(pages, log)
        assert made and made.pages.content() == content, said
        with folder_of(pages=pages, log=log) as folder:
            wrong = list(self.looks.serves(folder, said, made, left))
        assert not wrong, (wrong, log.hex())

    def check_checkpoint(self, pages, log, **more):
        """A checkpoint of these files is made, whatever else is there."""
        with folder_of(pages=pages, log=log, **more) as folder:
            wrong = list(self.looks.checkpoints(folder, pages, log))
            assert not wrong and {*files_of(folder)} == {"pages", "log"}, (wrong, log.hex())


    def check_migration(self, pages, log, **more):
        """A store of these files is given tag pages, or refused for those that it has, whatever else is there."""
        with folder_of(pages=pages, log=log, **more) as folder:
            wrong = list(self.looks.migrations(folder, pages, log))
            left = {"pages", "log", *(more if has_tags(pages) else ())}
            assert not wrong and {*files_of(folder)} == left, (wrong, log.hex())


def has_tags(pages):
    return opening.Pages(pages).tags > 0


def content_of(pages, log):
    return opening.Opening(pages, log).pages.content()


# ---- tests: each is given a store, and answers how many runs it tried


def failures(opens, pages, log):
    """An opening one of whose calls fails is refused. The next one opens the store."""
    count, left, content = 0, {log}, content_of(pages, log)
    for ended in opens.each(opens.opening, pages, log, NAMES="1"):
        assert ended.status == 1 and ended.printed in REFUSED and ended.pages == pages, ended[:4]
        count += 1
        left.add(ended.log)
    for each in left:
        opens.check(pages, each, content)
    return count


def stops(opens, pages, log):
    """The machine stops in any call of an opening, and of the next ones. A whole one opens the store."""
    return stops_of(opens, {(pages, log)}, content_of(pages, log))


def stops_of(opens, left, content):
    """The same of each of these stores, which hold this."""
    count, level, seen = 0, sorted(left), {*left}
    for _ in range(DEPTH):
        further = set()
        for pages, log in level:
            for ended in opens.each(opens.opening, pages, log, STOPS="1"):
                assert ended.status == -signal.SIGKILL and ended.pages == pages, ended[:4]
                count += 1
                further |= {(pages, each) for each in left_by(ended)}
        level = sorted(further - seen)
        seen |= further
    for pages, log in seen:
        opens.check(pages, log, content)
    return count


def left_by(ended):
    """What a crash may leave of a log: what is on the disk for sure, some bytes of the rest, or all."""
    return [ended.log[: ended.synced], ended.log[: ended.synced + 20], ended.log]


def allocations(opens, pages, log):
    """An opening one of whose allocations fails is refused and leaves the files as they are, or it has opened the store by then."""
    count, left, content = 0, {log}, content_of(pages, log)
    whole = opens.run(opens.opening, pages, log, FAIL_AT="0")
    for number in range(1, 1 + int(whole.said)):
        ended = opens.run(opens.opening, pages, log, FAIL_AT=str(number))
        is_refused = ended.printed == b"fault 1 NoMemory\n"
        assert (ended.status, ended.printed) in [unable[:2] for unable in memory.UNABLE] and ended.pages == pages, ended[:4]
        assert ended.log == log or not is_refused and ended.log == whole.log, ended[:4]
        count += is_refused
        left.add(ended.log)
    for each in left:
        opens.check(pages, each, content)
    return count


def checkpoints(opens, pages, log):
    """A checkpoint makes the log one record, and the store holds what it held."""
    opens.check_checkpoint(pages, log)
    return 1


def checkpoints_that_fail(opens, pages, log):
    """A call of a checkpoint fails, or the program is killed in it. The log is the old one, with any of what a restart adds, or the new one
    where it is told. The next checkpoint is made. So it is where up to three openings are stopped before."""
    count, left, came, content = 0, set(), set(), content_of(pages, log)
    (_, made, old), (_, new, _) = opening.said_of(pages, log), opening.checkpointed(pages, log)
    added = b"".join(made.added)
    whole = old.removesuffix(added)
    for stops in ({}, {"STOPS": "1"}):
        for ended in opens.each(opens.checkpoint, pages, log, NAMES="1", **stops):
            count += 1
            assert ended.log in (log, whole, whole + added[: len(added) // 2], old, new), ended
            if ended.status == 0:
                assert ended.log == new and ended.printed.endswith(b"\ncheckpoint %d\n" % (made.records + 1)), ended[:4]
                came.add("a stream was not looked at")
            else:
                assert ended.status == (-signal.SIGKILL if stops else 1) and b"checkpoint" not in ended.printed, ended[:4]
                assert stops or ended.printed.endswith(REFUSED), ended[:4]
                came.add((bool(stops), ended.log == new))
            left.add((ended.pages, ended.log, ended.fresh))
    assert len(came) == 5, came
    for pages, log, fresh in left:
        opens.check_checkpoint(pages, log, **({} if fresh is None else {"log.new": fresh}))
    return count + stops_of(opens, {each[:2] for each in left}, content)


def migrations(opens, pages, log):
    """A migration makes the log one record, and the store holds what it held, with tag pages."""
    opens.check_migration(pages, log)
    return 1


def migrations_that_fail(opens, pages, log):
    """A call of a migration fails, or the program is killed in it. The log is the old one, with any of what a restart adds, or the new one
    where it is told. Over the new one the store has its tag pages or not. Where it has none the next migration is made. So it is where up
    to three openings are stopped before."""
    count, left, came, content = 0, set(), set(), content_of(pages, log)
    (_, made, old), (_, new, _) = opening.said_of(pages, log), opening.migrated(pages, log, TAGS)
    added = b"".join(made.added)
    whole = old.removesuffix(added)
    for stops in ({}, {"STOPS": "1"}):
        for ended in opens.each(opens.migration, pages, log, NAMES="1", **stops):
            count += 1
            assert ended.log in (log, whole, whole + added[: len(added) // 2], old, new), ended
            if ended.status == 0:
                assert ended.log == new and ended.printed.endswith(b"\nmigrated %d\n" % (made.records + 1)), ended[:4]
                came.add("a stream was not looked at")
            else:
                assert ended.status == (-signal.SIGKILL if stops else 1) and b"migrated" not in ended.printed, ended[:4]
                assert stops or ended.printed.endswith(REFUSED), ended[:4]
                assert ended.log == new or not has_tags(ended.pages), ended[:4]
                came.add((bool(stops), ended.log == new, has_tags(ended.pages)))
            left.add((ended.pages, ended.log, ended.fresh))
    assert len(came) == 7, came
    for pages, log, fresh in left:
        opens.check_migration(pages, log, **({} if fresh is None else {"log.new": fresh}))
    return count + stops_of(opens, {each[:2] for each in left}, content)


def migration_allocations(opens, pages, log):
    """A migration one of whose allocations fails is refused, and the log is the old one, or it is made. The next one is made, or refused for
    the tag pages."""
    count, left, content = 0, set(), content_of(pages, log)
    old, new = opening.said_of(pages, log)[2], opening.migrated(pages, log, TAGS)[1]
    for number in range(1, 1 + int(opens.run(opens.migration, pages, log, FAIL_AT="0").said)):
        ended = opens.run(opens.migration, pages, log, FAIL_AT=str(number))
        if ended.status == 0:
            assert ended.log == new and has_tags(ended.pages), ended[:4]
        else:
            *_, last = ended.printed.splitlines(keepends=True) or [b""]
            assert (ended.status, last) in [unable[:2] for unable in memory.UNABLE] and ended.log in (log, old), ended[:4]
            assert not has_tags(ended.pages), ended[:4]
            count += 1
        left.add((ended.pages, ended.log))
    for each in left:
        opens.check(*each, content)
        opens.check_migration(*each)
    return count


def checkpoint_allocations(opens, pages, log):
    """A checkpoint one of whose allocations fails is refused, and the log is the old one, or it is made. The next one is made."""
    count, left, content = 0, set(), content_of(pages, log)
    old, new = opening.said_of(pages, log)[2], opening.checkpointed(pages, log)[1]
    for number in range(1, 1 + int(opens.run(opens.checkpoint, pages, log, FAIL_AT="0").said)):
        ended = opens.run(opens.checkpoint, pages, log, FAIL_AT=str(number))
        if ended.status == 0:
            assert ended.log == new, ended[:4]
        else:
            *_, last = ended.printed.splitlines(keepends=True) or [b""]
            assert (ended.status, last) in [unable[:2] for unable in memory.UNABLE] and ended.log in (log, old), ended[:4]
            count += 1
        left.add((ended.pages, ended.log))
    for each in left:
        opens.check(*each, content)
        opens.check_checkpoint(*each)
    return count


def stores():
    """The pages and the log of each store that begins with a Base."""
    for pages, records, _ in restarts_behind_a_base():
        for end in ENDS:
            yield bytes(pages), b"".join([*records, end])


def unended():
    """A store with a transaction that has no end, from its first record on and behind a Base. A record may be torn off."""
    for store in (WHOLE, BASED):
        for end in (b"", record(6, [1, 2])[:20]):
            yield store["pages"], store["log"] + end


# Each test with its library and its stores, and more than how many runs it has to try on each of these.
TESTS = {
    failures: (SHIM, stores, 10), stops: (SHIM, stores, 10), allocations: (memory.SHIM, stores, 10), checkpoints: ("", stores, 0),
    checkpoints_that_fail: (SHIM, unended, 100), checkpoint_allocations: (memory.SHIM, unended, 10), migrations: ("", stores, 0),
    migrations_that_fail: (SHIM, unended, 100), migration_allocations: (memory.SHIM, unended, 10),
}  # fmt: skip


def main():
    words = argparse.ArgumentParser(description="Opens stores whose log begins with a Base, while something fails.")
    words.add_argument("--bench", help="a program that was built elsewhere")
    words.add_argument("--rqm", help="a program that was built elsewhere")
    words.add_argument("names", nargs="*", metavar="NAME", help="these tests alone")
    chosen = words.parse_args()
    bench, rqm, known = built(chosen.bench, "bench"), built(chosen.rqm, "rqm"), {test.__name__: test for test in TESTS}
    for name in chosen.names or known:
        before, (source, given, least) = time.monotonic(), TESTS[known[name]]
        with failing(source) as (_, library), ThreadPoolExecutor(os.cpu_count()) as pool:
            opens = Opens(bench, rqm, library)
            counts = list(pool.map(lambda store, test=known[name]: test(opens, *store), given()))
        assert min(counts) > least, counts
        print(f"{name}: {sum(counts)} in {len(counts)} stores, {time.monotonic() - before:.1f} s", flush=True)


if __name__ == "__main__":
    main()
