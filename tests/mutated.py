#!/usr/bin/env python3
"""Changes the bytes of stores that runs of `rqm serve` left, by seeds. Their logs are cut, spliced, shuffled, or have other fields and
lengths that fit again, and pages change too. Of some logs a Base stands for the beginning. An inspection and an opening have to come to
what tests/opening.py reads from the bytes, in time. A store that is opened holds that, also behind a checkpoint or a migration. One that is refused
stays as it is.

    python3 tests/mutated.py [--rqm PROGRAM] [--bench PROGRAM] [--first SEED] [--stores N] [--counts]

What goes wrong is written down in a folder, whose name is printed.
"""
import argparse
import os
import pathlib
import random
import re
import subprocess
import sys
import tempfile
import threading
from collections import Counter
from concurrent.futures import ThreadPoolExecutor

import opening
from cases import built
from damaged import formatted
from inspector import KINDS, front, record, wanted
from server import LONGEST, Connection, store, without_progress

sys.dont_write_bytecode = True
from rqm import Closed, Refused  # noqa: E402, where `server` finds it

# Directory pages, cell pages and tag pages.
SIZES = [(1, 1, 0), (1, 2, 1), (2, 2, 0)]

# How many tag pages a store is given, and the words that give them.
TAGS = 2
MIGRATE = ["migrate", "--tags", str(TAGS)]

# What has to be met among the usual stores, those of the seeds from 0, and how often at least.
USUAL = 1500
WANTED = {"opened": 300, "opened with undoing": 100, "opened with marks undone": 10, "opened behind a base": 60,
          "undoing behind a base": 30, "migrated": 100, "not migrated for its tags": 50, "damaged behind a base": 150,
          "damaged record": 300, "damaged page": 100, "torn": 50, "fault 3 DiskRead": 5}  # fmt: skip


# ---- what runs leave


def left_by_runs(program):
    """By size of store: the records of its log, behind two runs of drawn transactions by one connection each."""
    logs = {}
    for sizes in SIZES:
        with store(program, *sizes) as folder:
            for run in range(2):
                served(program, folder, lambda connection: transact(connection, sizes, random.Random(f"{sizes}.{run}")))
            logs[sizes] = records_of((folder / "log").read_bytes())
    return logs


def served(program, folder, work):
    """Serves a store until this work with a connection is done, and then ends cleanly: what was printed, and the exit status."""
    command = [program, "serve", str(folder), "--port", "0", "--workers", "1", "--until-input-ends"]
    server = subprocess.Popen(command, stdin=subprocess.PIPE, stdout=subprocess.PIPE, stderr=subprocess.PIPE)
    slow = threading.Timer(LONGEST, server.kill)
    slow.start()
    try:
        line = server.stdout.readline()
        if line.startswith(b"listening ") and work:
            with Connection(int(line.split(b":")[1]), timeout=LONGEST) as connection:
                work(connection)
        printed, told = server.communicate(timeout=LONGEST)
        return line + printed, without_progress(told), server.returncode
    finally:
        slow.cancel()
        server.kill()
        server.wait()


def transact(connection, sizes, draw):
    connection.patience = 0
    for tag in range(1, 25):
        transaction = connection.transaction()
        for _ in range(draw.randrange(1, 4)):
            sender = draw.randrange(3) + 15 * draw.randrange(sizes[0])
            try:
                if sizes[2] and draw.randrange(4) == 0:
                    transaction.mark(draw.randrange(3), tag)
                    continue
                kind = draw.randrange(9)
                if kind < 5:
                    transaction.send(sender, tag, draw.randbytes(draw.choice([0, 3, 40])))
                elif kind < 8:
                    transaction.receive_from(sender)
                elif tag > 18:
                    transaction.close_sender(sender)
            except Refused:
                pass
        transaction.abort() if draw.randrange(4) == 0 else transaction.commit()


def records_of(log):
    records, at = [], 0
    while at < len(log):
        end = front(log, at)[2]
        records.append(log[at:end])
        at = end
    return records


def with_base(records, count):
    """The records, with a Base in place of the first of them. It has the LSN of the last of these, which ends a transaction."""
    if count < 2:
        return records
    return [record(9, [count - 1, sum(each[4] == 7 for each in records[:count])]), *records[count:]]


def quiet_counts(records):
    """Behind how many records no transaction is without an end. A restart ends what its crash left."""
    active, counts = set(), []
    for count, each in enumerate(records, 1):
        name, numbers, _ = front(each, 0)
        if name == "restart":
            active.clear()
        elif name in ("commit", "abort-end"):
            active.discard(tuple(numbers))
        else:
            active.add(tuple(numbers[:2]))
        if not active and name != "restart":
            counts.append(count)
    return counts


# ---- changes


class Mutation:
    """The store of a seed."""

    def __init__(self, logs, seed):
        self.random, self.logs = random.Random(seed), logs
        self.sizes = self.random.choice(SIZES)
        self.records = list(logs[self.sizes])
        if self.random.randrange(3):
            del self.records[self.random.randrange(1, len(self.records)) :]
        gone = 0 if self.random.randrange(4) else self.random.choice([0, *quiet_counts(self.records)])
        self.pages = self.pages_behind(self.records, gone)
        self.records = with_base(self.records, gone)
        whole = b"".join(self.records)
        kind = self.random.randrange(8)
        for _ in range(self.random.choice([0, 1, 1, 1, 2, 3])):
            if kind < 6:
                self.change_log()
        self.log = b"".join(self.records)
        if kind == 5:
            self.log = self.log[: self.random.randrange(len(self.log) + 1)]
        if kind == 6:
            self.log = whole[: self.random.randrange(len(whole) + 1)]  # as a crash may leave it, but for the pages
        if kind > 5:
            for _ in range(self.random.choice([1, 1, 2])):
                self.change_pages()
        if self.random.randrange(60) == 0:
            self.log += self.random.randbytes(self.random.randrange(1, 9))

    def pages_behind(self, records, least):
        """The pages as a crash may leave them: each as some beginning of the log has it, which is at least so long."""
        pages, lsn = formatted(*self.sizes), 0
        behind = [0 if self.random.randrange(2) else self.random.randrange(len(records) + 1) for _ in range(1 + sum(self.sizes))]
        behind = [max(least, each) for each in behind]
        for lsn, each in enumerate(records, 1):
            name, numbers, _ = front(each, 0)
            if name in ("page-op", "page-undo"):
                page, slot = numbers[-2:]
                if lsn <= behind[page]:
                    at = page * opening.PAGE
                    pages[at : at + 8] = lsn.to_bytes(8, "big")
                    pages[at + slot * 256 : at + slot * 256 + 256] = each[-256:]
        return bytes(pages)

    def place(self):
        return self.random.randrange(len(self.records))

    def change_log(self):
        """One of the changes of records."""
        if not self.records:
            return
        name = self.random.choice(["cut_out", "double", "swap", "shuffle", "splice", "field", "field", "field", "image", "image_twice",
                                   "image_twice", "deed", "kind", "bit", "restart", "end"])  # fmt: skip
        getattr(self, name)()

    def cut_out(self):
        at = self.place()
        del self.records[at : at + self.random.choice([1, 1, 2, 5])]

    def double(self):
        at = self.place()
        self.records.insert(self.random.choice([at, self.place()]), self.records[at])

    def swap(self):
        at, other = self.place(), self.place()
        other = self.random.choice([other, min(at + 1, len(self.records) - 1)])
        self.records[at], self.records[other] = self.records[other], self.records[at]

    def shuffle(self):
        at = self.place()
        part = self.records[at : at + 6]
        self.random.shuffle(part)
        self.records[at : at + 6] = part

    def splice(self):
        """Records of another store, or of another place, in place of some or between them."""
        other = self.logs[self.random.choice(SIZES)]
        at, of = self.place(), self.random.randrange(len(other))
        self.records[at : at + self.random.randrange(4)] = other[of : of + self.random.randrange(1, 8)]

    def field(self):
        """Another number in a record."""
        at = self.place()
        each = bytearray(self.records[at])
        widths, place = KINDS.get(each[4], KINDS[6])[1], 5
        if len(each) < 5 + sum(widths):
            return
        chosen = self.random.randrange(len(widths))
        place += sum(widths[:chosen])
        old = int.from_bytes(each[place : place + widths[chosen]], "big")
        most = 2 ** (8 * widths[chosen]) - 1
        new = self.random.choice([old + 1, max(old - 1, 0), 0, 1, 2, most, 2**50 - 1, self.random.randrange(1, 40)])
        each[place : place + widths[chosen]] = min(new, most).to_bytes(widths[chosen], "big")
        self.records[at] = bytes(each)

    def writes(self):
        return [at for at, each in enumerate(self.records) if each[4] == 1 and len(each) == 546]

    def image_field(self):
        """A place in a slot and what comes there: mostly the last byte of a number."""
        place = self.random.choice([0, 0, 3, 7, 15, 15, 23, 23, 31, 31, 39, 39, 47, 40, self.random.randrange(256)])
        return place, self.random.choice([0, 1, 2, 3, 17, 33, 34, 35, 49, 65, self.random.randrange(256)])

    def image(self):
        writes = self.writes()
        if writes:
            at = self.random.choice(writes)
            place, byte = self.image_field()
            self.put(at, -256 * self.random.randrange(1, 3) + place, byte)

    def image_twice(self):
        """What a write leaves, and what the next one finds there, changed alike."""
        writes = self.writes()
        if not writes:
            return
        at = self.random.choice(writes)
        place, byte = self.image_field()
        where = self.records[at][29:34]  # its page and slot
        self.put(at, place - 256, byte)
        for later in writes[writes.index(at) + 1 :]:
            if self.records[later][29:34] == where:
                self.put(later, place - 512, byte)
                if self.random.randrange(3):
                    return  # else the same byte stays changed from now on
                self.put(later, place - 256, byte)

    def put(self, at, place, byte):
        each = bytearray(self.records[at])
        each[len(each) + place] = byte
        self.records[at] = bytes(each)

    def deed(self):
        """Another deed, shorter, longer or of another number, with the length that it has then."""
        ends = [at for at, each in enumerate(self.records) if each[4] == 3]
        if not ends:
            return
        at = self.random.choice(ends)
        held = bytearray(self.records[at][30:])
        kind = self.random.randrange(4)
        if kind == 0:
            held = held[: self.random.randrange(len(held) + 1)]
        elif kind == 1:
            held += self.random.randbytes(self.random.choice([1, 3, 200, 240]))
        elif held:
            held[self.random.choice([0, 4, 12, 20, 28]) % len(held)] = self.random.choice([0, 1, 2, 3, 15, self.random.randrange(256)])
        self.records[at] = (26 + len(held)).to_bytes(4, "big") + self.records[at][4:30] + bytes(held)

    def kind(self):
        """Another kind, cut or filled to its length."""
        at, kind = self.place(), self.random.choice([1, 2, 3, 4, 5, 6, 7, 8, 9])
        _, widths, room = KINDS[kind]
        fields = self.records[at][5:].ljust(600, b"\0")[: sum(widths) + (34 if room is None else room)]
        self.records[at] = (1 + len(fields)).to_bytes(4, "big") + bytes([kind]) + fields

    def bit(self):
        at = self.place()
        each = bytearray(self.records[at])
        each[self.random.randrange(min(len(each), 60))] ^= 1 << self.random.randrange(8)
        self.records[at] = bytes(each)

    def restart(self):
        """The next incarnation, anywhere."""
        at = self.place()
        before = sum(each[4] == 7 for each in self.records[:at])
        self.records.insert(at, b"\0\0\0\x09\x07" + (before + 1).to_bytes(8, "big"))

    def end(self):
        """A transaction has no end, or the other one."""
        ends = [at for at, each in enumerate(self.records) if each[4] in (6, 8)]
        if ends:
            at = self.random.choice(ends[-3:])
            if self.random.randrange(2):
                self.records[at] = self.records[at][:4] + bytes([14 - self.records[at][4]]) + self.records[at][5:]
            else:
                del self.records[at]

    def change_pages(self):
        pages = bytearray(self.pages)
        if len(pages) < opening.PAGE:
            return
        page = self.random.randrange(len(pages) // 4096)
        at, slot = page * 4096, self.random.randrange(16) * 256
        other = self.random.randrange(len(pages) // 4096) * 4096
        kind = self.random.randrange(9)
        if kind == 0:
            pages[at + self.random.randrange(16)] = self.random.randrange(256)
        elif kind == 1:
            pages[at + 7] = self.random.choice([0, self.random.randrange(256)])
        elif kind < 5:
            place, byte = self.image_field()
            pages[at + slot + place] = byte
        elif kind == 5:
            pages[at : at + 4096], pages[other : other + 4096] = pages[other : other + 4096], pages[at : at + 4096]
        elif kind == 6:
            pages[at + slot : at + slot + 256] = pages[other + slot : other + slot + 256]
        elif kind == 7:
            pages[at + slot : at + slot + 256] = bytes(256)
        else:
            size = self.random.choice([0, len(pages) - 1, len(pages) - 4096, at, self.random.randrange(len(pages)), len(pages) + 9])
            pages = pages[:size].ljust(size, b"x")
        self.pages = bytes(pages)


# ---- runs


class Looks:
    def __init__(self, rqm, bench, top):
        self.rqm, self.bench, self.top, self.counting = rqm, bench, pathlib.Path(top), threading.Lock()

    def faults(self, pages, log, met):
        """What is wrong with what the programs say of these files."""
        said, made, left = opening.said_of(pages, log)
        lines, status = wanted(log)
        with self.counting:
            met[" ".join(said.split(" ")[:2]) if said.startswith("damaged") else "opened" if made else said] += 1
            met["opened with undoing"] += bool(made and made.unfinished + made.lost)
            met["opened with marks undone"] += bool(made and made.marks_undone)
            if front(log, 0) and log[4] == 9:
                met["opened behind a base" if made else "damaged behind a base"] += 1
                met["undoing behind a base"] += bool(made and made.unfinished + made.lost)
            met["torn"] += any(line.startswith("torn ") for line in lines)
        with tempfile.TemporaryDirectory(dir=self.top) as held:
            folder = pathlib.Path(held)
            put_files(folder, pages, log)
            ran = subprocess.run([self.rqm, "inspect", held], capture_output=True, timeout=LONGEST)
            if (ran.stdout.decode().splitlines(), ran.stderr, ran.returncode) != (lines, b"", status):
                yield f"inspect says {ran.stdout[-200:]}, {ran.stderr}, {ran.returncode}, and not {lines[-5:]}"
            if self.bench:
                ran = subprocess.run([self.bench, "open", held], capture_output=True, timeout=LONGEST)
                if ran.stdout.decode().split(", ")[0].rstrip("\n") != said or ran.returncode != (0 if made else 1):
                    yield f"bench open says {ran.stdout}, {ran.stderr}, {ran.returncode}, and not {said}"
                if (folder / "log").read_bytes() != left or (folder / "pages").read_bytes() != pages:
                    yield "it left other files"
                put_files(folder, pages, log)
            yield from self.serves(folder, said, made, left)
            if not made and files_in(folder) != (pages, log):
                yield "it is refused, and its files have changed"
            put_files(folder, pages, log)
            yield from self.checkpoints(folder, pages, log)
            put_files(folder, pages, log)
            yield from self.migrations(folder, pages, log)
        with self.counting:
            met["migrated"] += bool(made and not made.pages.tags)
            met["not migrated for its tags"] += bool(made and made.pages.tags)

    def checkpoints(self, folder, pages, log):
        """What is wrong with a checkpoint of this store, which is there."""
        printed, left, made = opening.checkpointed(pages, log)
        ran = subprocess.run([self.rqm, "checkpoint", folder], capture_output=True, timeout=LONGEST)
        if (ran.stdout.decode(), without_progress(ran.stderr), ran.returncode) != (printed, b"", int("fault " in printed)):
            yield f"checkpoint says {ran.stdout}, {ran.stderr}, {ran.returncode}, and not {printed}"
        left_pages, left_log = files_in(folder)
        if left_log != left:
            yield f"checkpoint leaves the log {left_log[:100]}, and not {left[:100]}"
        elif "fault " in printed and left_pages != pages:
            yield "no checkpoint is made, and the pages have changed"
        elif "fault " not in printed and not is_held(left_pages, left_log, held_in(made)):
            yield "it holds something else behind a checkpoint"

    def migrations(self, folder, pages, log):
        """What is wrong with a migration of this store, which is there."""
        ran = subprocess.run([self.rqm, *MIGRATE, folder], capture_output=True, timeout=LONGEST)
        yield from faults_of_migration((ran.returncode, ran.stdout, ran.stderr), files_in(folder), pages, log)

    def serves(self, folder, said, made, left):
        held, marks = {}, {}

        def work(connection):
            marks.update((client, tuple(connection.client_tag(client))) for client in range(made.pages.clients))
            held.update(read_all(connection, made))

        printed, told, status = served(self.rqm, folder, work if made else None)
        if not made:
            fault = b"fault 16 Damaged\n" if said.startswith("damaged") else f"{said}\n".encode()
            if (printed, told, status) != (fault, b"", 1):
                yield f"serve says {printed}, {told}, {status}, and not {fault}"
            return
        found = f"incarnation {made.incarnation}, unfinished {made.unfinished}, lost {made.lost}, records {made.records}\n"
        if not re.fullmatch(rb"opened in [0-9]+ ms: " + found.encode(), told) or status != 0:
            yield f"serve says {printed}, {told}, {status}, and not {found}"
        elif (held, marks) != held_in(made):
            yield f"it holds {held}, {marks}, and not {held_in(made)}"
        elif not (folder / "log").read_bytes().startswith(left):
            yield "its log goes on otherwise"


def faults_of_migration(came, left, pages, log):
    """What is wrong with a migration of these files that came to this and left those. One that is refused may leave zeros behind the
    pages."""
    (status, said, told), (left_pages, left_log) = came, left
    printed, left_by_it, made = opening.migrated(pages, log, TAGS)
    if (said.decode(), without_progress(told), status) != (printed, b"", int("fault " in printed)):
        yield f"migrate says {said}, {told}, {status}, and not {printed}"
    if left_log != left_by_it:
        yield f"migrate leaves the log {left_log[:100]}, and not {left_by_it[:100]}"
    elif "fault " in printed:
        more = left_pages[len(pages) :]
        if not left_pages.startswith(pages) or more.strip(b"\0") or len(more) > TAGS * opening.PAGE:
            yield "no migration is made, and the pages have changed"
    else:
        whole, first = bytes(formatted(made.pages.directory, made.pages.cells, TAGS)), made.pages.count * opening.PAGE
        now = left_pages[: opening.PAGE], left_pages[first : len(whole)], left_pages[len(whole) :]
        if now != (whole[: opening.PAGE], whole[first:], pages[len(whole) :]):
            yield "behind a migration its superblock, its tag pages, or what is behind them are not as they should"
        elif not is_held(left_pages, left_log, (made.pages.content(), dict.fromkeys(range(15 * TAGS), (0, 0)))):
            yield "it holds something else behind a migration"


def put_files(folder, pages, log):
    (folder / "pages").write_bytes(pages)
    (folder / "log").write_bytes(log)


def held_in(made):
    """What an opened store holds, by senders and by clients."""
    return made.pages.content(), made.pages.marks()


def is_held(pages, log, held):
    """Whether a store of these files holds this. One whose log has as many records as there may be is opened no more."""
    said, made, _ = opening.said_of(pages, log)
    return held_in(made) == held if made else said == opening.FULL


def files_in(folder):
    return (folder / "pages").read_bytes(), (folder / "log").read_bytes()


def read_all(connection, made):
    """Of each sender what the server tells, by a transaction that is aborted."""
    connection.patience = 0
    held, transaction = {}, connection.transaction()
    for sender in range(made.pages.senders):
        last, left = connection.last_tag(sender), []
        while message := transaction.receive_from(sender):
            left.append((message.tag, message.body))
        held[sender] = last.sent, last.tag, last.sent - len(left), is_closed(transaction, sender), left
    transaction.abort()
    return held


def is_closed(transaction, sender):
    try:
        transaction.send(sender, 0, b"")
    except Closed:
        return True
    except Refused:
        pass  # no cell is free
    return False


def main():
    words = argparse.ArgumentParser(description="Has rqm look at stores whose bytes were changed.")
    words.add_argument("--rqm", help="a program that was built elsewhere")
    words.add_argument("--bench", help="a program that was built elsewhere, or `none`")
    words.add_argument("--first", type=int, default=0, metavar="SEED")
    words.add_argument("--stores", type=int, default=USUAL, metavar="N", help="how many are drawn")
    words.add_argument("--counts", action="store_true", help="print how often each kind was met")
    chosen = words.parse_args()
    rqm, bench = built(chosen.rqm, "rqm"), None if chosen.bench == "none" else built(chosen.bench, "bench")
    logs, met, wrong = left_by_runs(rqm), Counter(), []
    with tempfile.TemporaryDirectory(prefix="rqm-mutated-") as top:
        looks = Looks(rqm, bench, top)

        def look(seed):
            mutation = Mutation(logs, seed)
            return seed, mutation, list(looks.faults(mutation.pages, mutation.log, met))

        with ThreadPoolExecutor(min(4, os.cpu_count())) as pool:
            for seed, mutation, faults in pool.map(look, range(chosen.first, chosen.first + chosen.stores)):
                if faults:
                    wrong.append(seed)
                if faults and len(wrong) < 6:
                    folder = pathlib.Path(tempfile.mkdtemp(prefix=f"rqm-mutated-{seed}-"))
                    put_files(folder, mutation.pages, mutation.log)
                    print(f"seed {seed} ({folder}): " + "; ".join(faults))
    is_usual = (chosen.first, chosen.stores) == (0, USUAL)
    few = {kind: (met[kind], least) for kind, least in WANTED.items() if met[kind] < least and is_usual}
    for kind, (count, least) in few.items():
        print(f"{kind} was met {count} times, and not {least}")
    if chosen.counts:
        print("".join(f"  {kind} {count}\n" for kind, count in sorted(met.items())), end="")
    last = chosen.first + chosen.stores - 1
    print(f"{chosen.stores - len(wrong)} of {chosen.stores} stores with other bytes, seeds {chosen.first} to {last}, come to what they say")
    sys.exit(1 if wrong or few else 0)


if __name__ == "__main__":
    main()
