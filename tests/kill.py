#!/usr/bin/env python3
"""Kills `rqm serve` by SIGKILL in the midst of load, again and again, on one store in a temporary folder. In every third round it makes
checkpoints all the while. Between the rounds `rqm checkpoint` is run, and every other time killed. Each time it looks what the store holds
once it is open again. Nothing that was acknowledged is lost, nothing comes twice, and each group is in order. What each client was
marked with tells exactly its commits.

Then stores without tag pages are given some by `rqm migrate`, which is killed again and again. Each holds what it held, with tag pages or
without. It has them once `migrated` is printed.

    python3 tests/kill.py [--program PROGRAM] [--seed N] [--rounds N] [--frames F]

A write that the system cuts off leaves a part of a record at the log's end. It was acknowledged to nobody, and the next server cuts
it off. How often that came is said. With few frames it is also said how often a request found too few of them.
"""
import argparse
import itertools
import random
import signal
import subprocess
import sys
import time
from concurrent.futures import ThreadPoolExecutor
from contextlib import contextmanager

from cases import built
from server import LONGEST, Connection, Server, UnknownClient, base_of, everything, first_line, has_base, raises, serving, store, torn_end

sys.dont_write_bytecode = True
from rqm import REFUSED, Full, PoolFull  # noqa: E402, where `server` finds them

GROUPS = 4


class Counting(Connection):
    """A connection that notes each request that found too few frames, and is made again."""

    def __init__(self, port, without_frames):
        super().__init__(port, timeout=LONGEST)
        self.without_frames = without_frames

    def asked(self, kind, fields):
        answer, told = super().asked(kind, fields)
        if answer == REFUSED and told[:1] == bytes([PoolFull.number]):
            self.without_frames.append(kind)
        return answer, told


class Load:
    """Each group has one sender, whose messages come in order, tagged 1 and on. It has one mover, which receives them and sends them again
    for another group, in one transaction. Both mark a client of their own with the tag, in the same transaction. Senders, and clients,
    that follow one another stand so many numbers apart: from 15 on, each on a page of its own."""

    def __init__(self, apart=1):
        self.apart = apart
        # the last tag of each sender that is known to be committed, the last of each group that is known to be moved, and the next that has
        # to come out behind that
        self.sent, self.moved, self.next_out = [0] * GROUPS, [0] * GROUPS, [1] * GROUPS
        self.lost = []  # connections that ended before their work
        self.without_frames = []  # kinds of requests that found too few
        self.rest = 0  # for how many seconds each rests behind a transaction

    def connected(self, server):
        return Counting(server.port, self.without_frames)

    def send(self, server, group):
        with self.connected(server) as connection:
            while True:
                tag = self.sent[group] + 1
                try:
                    with connection.transaction() as transaction:
                        transaction.mark(self.apart * group, tag)
                        transaction.send(self.apart * group, tag, body_of(group, tag))
                    self.sent[group] = tag
                    time.sleep(self.rest)
                except Full:
                    time.sleep(0.001)

    def move(self, server, group):
        with self.connected(server) as connection:
            while True:
                try:
                    with connection.transaction() as transaction:
                        message = transaction.receive_from(self.apart * group)
                        if message:
                            transaction.send(self.apart * (GROUPS + group), message.tag, message.body)
                            transaction.mark(self.apart * (GROUPS + group), message.tag)
                    if message:
                        self.moved[group] = message.tag
                except Full:
                    message = None
                time.sleep(self.rest if message else 0.001)

    def until_killed(self, work, *words):
        try:
            work(*words)
        except ConnectionError as error:
            self.lost.append(error)

    def round(self, server, seconds, end, is_light=False):
        """Runs until the server ends, after so many seconds. Where it is light, one group alone is at work, and mostly none has a
        transaction."""
        self.rest = 0.003 if is_light else 0
        works = [(work, server, group) for group in range(1 if is_light else GROUPS) for work in (self.send, self.move)]
        with ThreadPoolExecutor(len(works)) as pool:
            running = [pool.submit(self.until_killed, *work) for work in works]
            time.sleep(seconds)
            end()
            for done in running:
                done.result()

    def look(self, server, is_last=False):
        """Looks what the store holds: nothing acknowledged is missing, and the one commit of each sender and each mover that was not
        answered is there or not. Their clients tell the same. What was moved comes out in order and once; at last, all does."""
        with self.connected(server) as connection:
            for group in range(GROUPS):
                last, marked = connection.last_tag(self.apart * group), connection.client_tag(self.apart * group)
                assert last.tag == last.sent and last.tag in (self.sent[group], self.sent[group] + 1), (last, self.sent)
                self.sent[group] = last.tag
                assert marked == (last.tag, last.tag), (marked, last)
                moved = connection.client_tag(self.apart * (GROUPS + group))
                assert moved.tag == moved.count and moved.tag in (self.moved[group], self.moved[group] + 1), (moved, self.moved)
                self.moved[group] = moved.tag
                self.drain(connection, self.apart * (GROUPS + group), group)
                assert self.next_out[group] == moved.tag + 1, (self.next_out, moved)
                if is_last:
                    self.drain(connection, self.apart * group, group)
                    assert self.next_out[group] == last.tag + 1, (self.next_out[group], last)
            if is_last:
                assert everything(connection) == {}

    def drain(self, connection, sender, group):
        while True:
            with connection.transaction() as transaction:
                for _ in range(100):
                    message = transaction.receive_from(sender)
                    if message is None:
                        return
                    tag = self.next_out[group]
                    assert message == (sender, tag, body_of(group, tag)), (message, tag)
                    self.next_out[group] += 1


def body_of(group, tag):
    return b"%d of %d" % (tag, group)


class Kills:
    """A store, and how often a server on it was killed."""

    def __init__(self, program, folder, seed, apart=1):
        self.program, self.folder = program, folder
        self.random = random.Random(seed)
        self.load = Load(apart)
        self.kills = self.torn = self.checkpoints = self.cut_off = self.based = self.beside = 0

    @contextmanager
    def running(self, *words):
        server = self.started(*words)
        try:
            yield server
        finally:
            server.kill()

    def started(self, *words):
        self.torn += torn_end(self.folder) > 0
        self.based += has_base(self.folder)
        server = Server(self.program, self.folder, "--workers", self.random.choice((1, 3)), *words)
        assert not torn_end(self.folder)
        return server

    def round(self, number):
        if self.random.random() < 0.2:
            self.kill_at_start()
        if number % 4 == 3:
            self.checkpoint(is_cut_off=number % 8 == 7)
        if number % 3 == 2:
            self.beside_checkpoints()
        else:
            with self.running() as server:
                self.load.look(server)
                self.load.round(server, self.random.uniform(0.02, 0.3), server.kill)
        self.kills += 1

    def beside_checkpoints(self):
        """A round whose server makes a checkpoint whenever no transaction is open."""
        with self.running("--checkpoint-after", 1) as server:
            self.load.look(server)
            before = base_of(self.folder)
            self.load.round(server, self.random.uniform(0.02, 0.3), server.kill, is_light=True)
        self.beside += base_of(self.folder) > before

    def checkpoint(self, is_cut_off):
        """Has the log made one record; that may be cut off anywhere."""
        command = [self.program, "checkpoint", str(self.folder)]
        with subprocess.Popen(command, stdout=subprocess.PIPE, stderr=subprocess.DEVNULL) as process:
            if is_cut_off:
                time.sleep(self.random.uniform(0, 0.05))
                process.kill()
            printed, _ = process.communicate(timeout=LONGEST)
        is_made = process.returncode == 0
        assert is_made or is_cut_off and process.returncode == -signal.SIGKILL, (process.returncode, printed)
        assert (b"\ncheckpoint " in printed) or not is_made, printed
        assert has_base(self.folder) or not is_made
        self.checkpoints += is_made
        self.cut_off += not is_made

    def kill_at_start(self, number=signal.SIGKILL):
        """Ends a server that has hardly begun to open the store."""
        command = [self.program, "serve", str(self.folder), "--port", "0", *Server.frames]
        opening = subprocess.Popen(command, stdout=subprocess.DEVNULL, stderr=subprocess.DEVNULL)
        time.sleep(self.random.uniform(0, 0.05))
        opening.send_signal(number)
        assert opening.wait(LONGEST) == -number, (number, opening.returncode)
        self.kills += 1


class Migrations:
    """Stores without tag pages, and how often a migration of one was killed and left them so, made the log one record alone, or left tag
    pages. Between, each is served."""

    def __init__(self, program, seed):
        self.program, self.random = program, random.Random(f"migrations {seed}")
        self.made = self.cut_off = self.based = self.grown = 0

    def life(self):
        """A store, from its format until it has tag pages and a client was marked."""
        with store(self.program, 1, 20) as folder:
            held = {}
            for tag in itertools.count(1):
                with serving(self.program, folder, "--workers", 1) as server, server.connect() as connection:
                    self.look(connection, held, tags_of(folder))
                    if tags_of(folder):
                        return
                    with connection.transaction() as transaction:
                        sender = self.random.randrange(15)
                        transaction.send(sender, tag, body_of(sender, tag))
                    held[sender] = [*held.get(sender, []), tag]
                    self.take(connection, held)
                self.migrate(folder, is_cut_off=tag < 50)

    def is_all_met(self):
        return self.cut_off > 0 and self.based > 0 and self.grown > 0

    def migrate(self, folder, is_cut_off):
        """Gives a store two tag pages; that may be cut off anywhere."""
        before, command = base_of(folder), [self.program, "migrate", str(folder), "--tags", "2"]
        with subprocess.Popen(command, stdout=subprocess.PIPE, stderr=subprocess.DEVNULL) as process:
            line = b""
            if is_cut_off:
                # mostly behind the line that stands in front of the migration
                if self.random.randrange(4):
                    line = first_line(process)
                    time.sleep(self.random.uniform(0, self.random.choice((0.001, 0.004, 0.015, 0.06))))
                else:
                    time.sleep(self.random.uniform(0, 0.05))
                process.kill()
            printed, _ = process.communicate(timeout=LONGEST)
        printed = line + printed
        is_made = b"\nmigrated " in printed
        is_killed = process.returncode == -signal.SIGKILL
        assert process.returncode == 0 and is_made or is_cut_off and is_killed, (process.returncode, printed)
        tags, is_based = tags_of(folder), base_of(folder) > before
        assert tags in (0, 2) and is_based >= (tags > 0) >= is_made, (tags, is_based, printed)
        self.made += is_made
        self.cut_off += not is_made
        self.based += is_based and not tags
        self.grown += tags > 0 and not is_made

    def take(self, connection, held):
        """Takes messages where many stand there, so that there is room for more."""
        while sum(map(len, held.values())) > 40:
            sender = max(held, key=lambda each: len(held[each]))
            with connection.transaction() as transaction:
                message = transaction.receive_from(sender)
            assert message == (sender, held[sender][0], body_of(sender, held[sender][0])), (message, held)
            del held[sender][0]

    def look(self, connection, held, tags):
        """Looks what the store holds. Where it has tag pages, clients may be marked; no other client is known."""
        transaction = connection.transaction()
        for sender, left in held.items():
            assert connection.last_tag(sender).tag == left[-1], (connection.last_tag(sender), held)
            messages = [transaction.receive_from(sender) for _ in range(len(left) + 1)]
            assert messages == [*((sender, tag, body_of(sender, tag)) for tag in left), None], (messages, held)
        transaction.abort()
        if tags:
            assert connection.client_tag(15 * tags - 1) == (0, 0)
            with connection.transaction() as transaction:
                transaction.mark(15 * tags - 1, 7)
            assert connection.client_tag(15 * tags - 1) == (1, 7)
        raises(UnknownClient, lambda: connection.client_tag(15 * tags))


def tags_of(folder):
    """How many tag pages page 0 of a store tells."""
    with open(folder / "pages", "rb") as pages:
        return int.from_bytes(pages.read(280)[276:], "big")


def main():
    words = argparse.ArgumentParser(description="Kills `rqm serve` in the midst of load, and looks what its store then holds.")
    words.add_argument("--program", help="a program that was built elsewhere")
    words.add_argument("--seed", type=int, default=0, help="from which the moments are drawn")
    words.add_argument("--rounds", type=int, default=20, help="how often the server is killed")
    words.add_argument("--frames", help="in how many frames servers run")
    chosen = words.parse_args()
    Server.frames = ("--frames", chosen.frames) if chosen.frames else ()
    program = built(chosen.program, "rqm")
    before = time.monotonic()
    apart, pages = (15, 2 * GROUPS) if chosen.frames else (1, 1)
    with store(program, pages, 400, pages) as folder:
        kills = Kills(program, folder, chosen.seed, apart)
        for number in range(chosen.rounds):
            kills.round(number)
        with kills.running() as server:
            kills.load.look(server, is_last=True)
    sent, refused = sum(kills.load.sent), len(kills.load.without_frames)
    assert sent > (2 if chosen.frames else 10) * chosen.rounds, sent
    assert refused or chosen.frames != "8" or chosen.rounds < 20, "8 frames were enough"
    assert kills.checkpoints and kills.cut_off and kills.based and kills.beside or chosen.rounds < 100, vars(kills)
    migrations, lives = Migrations(program, chosen.seed), 0
    # (few are killed in the last sync: where none was, there are more lives)
    while lives < chosen.rounds // 2 or chosen.rounds >= 100 and not migrations.is_all_met() and lives < 10 * chosen.rounds:
        migrations.life()
        lives += 1
    assert migrations.made + migrations.grown == lives, vars(migrations)
    assert migrations.is_all_met() or chosen.rounds < 100, vars(migrations)
    seconds = time.monotonic() - before
    made = f"{kills.checkpoints} checkpoints, {kills.cut_off} cut off, {kills.beside} servers that made some, {kills.based} starts behind a Base"
    cut = f"{migrations.cut_off} cut off, {migrations.based} of these behind their Base, {migrations.grown} behind the tag pages"
    few = f" in {chosen.frames} frames, which were too few {refused} times" if chosen.frames else ""
    print(f"killed {kills.kills} times among {sent} sends{few}, {kills.torn} torn ends cut, {made}: {seconds:.0f} s")
    print(f"{migrations.made} migrations made, {cut}")


if __name__ == "__main__":
    main()
