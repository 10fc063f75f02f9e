#!/usr/bin/env python3
"""Draws scripts from seeds, runs them by the proved program, and compares each line with what the reference prints.

    python3 tests/courses.py [--program PROGRAM] [--first SEED] [--courses N] [--keep FOLDER] [--counts]

A course that goes wrong is cut down to the fewest lines that still do, and shown so that it can be run again by hand. Among the
usual courses, those of the seeds from 0, each kind of thing that may happen has to be met as often as `WANTED` says.
"""
import random

import drawn
from reference import ALL, bytes_of
from script_reference import Script, printed_by
from scripts import SCRIPTS

# What has to be met, the usual courses taken together, and how often at least.
WANTED = {
    "Beside": 4000, "HigherCell": 2000, "OtherGroup": 440, "SendDirectory": 4200, "SendTail": 2200, "SendCells": 190,
    "TakeDirectory": 680, "TakeHead": 400, "TakeNext": 79, "TakeNextOpen": 11, "TakeAny": 2400, "CloseDirectory": 200,
    "Close": 94, "CloseEmpty": 480, "SendUndone": 1700, "TakeUndone": 720, "CloseUndone": 180, "HigherBack": 84,
    "UnsendDirectory": 1300, "UnsendTail": 920, "UnsendBefore": 32, "BackDirectory": 510, "BackHead": 140, "BackCells": 9,
    "ReopenDirectory": 100, "EarlyEnd": 460, "NotAborting": 1000, "Shorter": 4100, "SendCut": 980, "TakeCut": 150,
    "CloseCut": 14, "UnsendCut": 640, "BackCut": 200, "ReopenCut": 10, "TwoCut": 130, "BetweenSteps": 74, "OneLost": 1000,
    "MoreLost": 410, "CutBesideLost": 470, "SendLost": 2600, "TakeLost": 700, "CloseLost": 110, "EndWanting": 35,
    "StoppedOnce": 570, "StoppedTwice": 350, "StoppedThrice": 240, "StoppedInInverse": 420, "StoppedBeforeVoid": 210,
    "StoppedBeforeEnd": 270, "Begun": 18000, "SendStarted": 12000, "TakeStarted": 940, "AnyTakeStarted": 2600,
    "CloseStarted": 570, "UndoStarted": 2600, "NoneFrom": 7400, "NoneOfAny": 5400, "Stepped": 42000, "Ready": 7700,
    "Sent": 10000, "Received": 3600, "GroupClosed": 570, "Undone": 2300, "Committed": 8800, "Aborting": 3800,
    "NothingLeft": 270, "Aborted": 3200, "Given": 1800, "NotGiven": 3000, "Forced": 3200, "Written": 3300, "NotWritten": 3800,
    "LastTag": 1800, "Content": 1200, "Opened": 3400, "UnknownTransaction": 4800, "NotOpen": 2100, "Unfinished": 7300,
    "ContentUnfinished": 1200, "UnknownSender": 51, "TooLong": 550, "SenderBusy": 9000, "Closed": 500, "ReceiverBusy": 710,
    "Full": 1300, "NotForced": 1600, "UnknownOperation": 1000, "Armed": 260, "DiskWrite": 110, "Failed": 1200,
    "NotOpened": 110, "OldImages": 1500, "Running": 490, "Torn": 820, "TornCut": 810, "Checkpointed": 710,
    "CheckpointedTwice": 100, "NotQuiet": 220, "CheckpointFailedInForce": 53, "CheckpointFailedInWrite": 16, "BaseAlone": 140,
    "BaseShorter": 900, "BaseTorn": 160, "BaseOld": 75, "BaseNewest": 39, "BaseLost": 300, "BaseUnfinished": 280,
    "StoppedOverBase": 450, "GivenOverBase": 490, "MarkStarted": 1300, "Marked": 1300, "MarkedAgain": 100, "MarkUndone": 180,
    "MarkLost": 350, "MarkCut": 32, "UnmarkCut": 46, "MarkPage": 10, "UnmarkPage": 6, "ClientTag": 190, "NoClientTag": 500,
    "ClientBusy": 240, "UnknownClient": 66, "Migrated": 72, "AnsweredGrown": 72, "OpenedGrown": 280, "BadTags": 72,
    "OddTags": 23, "HasTags": 48, "MigrationNotQuiet": 25, "MigrationOfNone": 7, "CutOffAsItWas": 7,
    "MigrationFailedInTags": 5, "MigrationFailedInForce": 2,
    "PoolFull": 3000,
}  # fmt: skip


class Shape:
    """What a course is full of: how many lines it has, how many of these come first in which nothing is received, aborted or
    closed, the weights of what a transaction does, how many senders of each directory page there are, and one line of how many
    is a crash (0: none). Where the store has tag pages, one start of eight is a mark."""

    def __init__(self, length, filling, sends, takes, commits, aborts, closes, senders, crashes):
        self.length, self.filling, self.senders, self.crashes = length, filling, senders, crashes
        self.weights = {"send": sends, "commit": commits, "take": takes, "abort": aborts, "close": closes}


FILLING = Shape(1400, 600, 30, 10, 4, 2, 0, 4, 0)
FULL = Shape(1200, 0, 24, 9, 5, 2, 0, 3, 300)
CLOSING = Shape(900, 0, 24, 24, 4, 6, 4, 7, 0)
NEARLY_EMPTY = Shape(160, 0, 4, 6, 2, 1, 0, 3, 40)
FEW_GROUPS = Shape(180, 0, 9, 6, 2, 0, 0, 1, 50)
ABORTING = Shape(200, 0, 24, 24, 8, 8, 3, 5, 50)

# Directory pages, cell pages and tag pages.
USUAL, TAGGED, SMALL, LARGE = (2, 3, 0), (2, 3, 1), (1, 2, 0), (7, 4, 2)

# Lines that are no command. One may end a course.
FAULTS = [b"", b"begin ", b"send 1.1 0", b"send 1.1 0 +1 x", b"recv 1", b"step 1.1  1", b"crash", b"crash 1 new", b"restart -1",
          b"dump\r", b"write 4294967296", b"last 0x1", b"fail sync", b"commit 1.18446744073709551616", b"undo",
          b"mark 1.1 0", b"mark 1.1 4294967296 1", b"tag", b"tag 0 1", b"migrate", b"migrate 4294967296", b"BEGIN"]  # fmt: skip

# How many tag pages a store is to be given, and how many none can be given.
MAY_GROW, BAD_TAGS = (1, 1, 1, 2, 3), (0, 0, 1025, 2**32 - 1)


def shape_of(seed):
    if seed % 33 < 3:
        return (FILLING, FULL, CLOSING)[seed % 33]
    return (NEARLY_EMPTY, FEW_GROUPS, ABORTING)[seed % 3]


# In how many frames the large store is opened, which has thirteen pages behind the superblock; and the others, which have eight at
# most. 0 stands for the usual number, which is enough.
LARGE_FRAMES, FRAMES = (8, 8, 9, 0), (0, 8)


def sizes_of(seed):
    """Directory pages, cell pages, tag pages and frames of the store of a seed."""
    pages = USUAL if seed % 33 < 2 else {1: TAGGED, 3: SMALL, 5: LARGE}.get(seed % 7, USUAL)
    frames = LARGE_FRAMES if pages == LARGE else FRAMES
    return *pages, frames[seed // 7 % len(frames)]


class Drawing:
    """A course that is being drawn, beside the reference, so that most of its numbers are good."""

    MOST_OPEN = 4

    def __init__(self, seed, met, door=Script):
        self.random = random.Random(seed)
        self.shape, self.sizes = shape_of(seed), self.sizes_of(seed)
        self.door = door(*self.sizes, met=met)
        self.store = self.door.store
        self.lines = []
        # which call meets a failure is told only where the program does not choose which pages it reads and writes out
        self.may_fail = self.is_first_of(3) and not self.store.lacks_frames()
        self.may_check = seed % 5 < 2  # checkpoints are drawn
        self.may_grow = seed % 5 == 3 and seed % 33 > 2  # migrations are drawn
        self.stops_left = 0  # so many restarts are to be stopped before the one that is not

    def sizes_of(self, seed):
        return sizes_of(seed)

    def is_first_of(self, count):
        return self.random.randrange(count) == 0

    def add(self, *words):
        line = b" ".join(word if isinstance(word, bytes) else str(word).encode() for word in words)
        self.lines.append(line)
        self.door.run(line)

    @property
    def ended(self):
        return self.door.status is not None

    def draw(self):
        while len(self.lines) < self.shape.length and not self.ended:
            self.next()
        for _ in range(1000):
            if self.ended or not self.end_one():
                break
        for line in self.closing_lines():
            if not self.ended:
                self.add(*line)
        if self.is_first_of(16) and not self.ended:
            self.add(self.random.choice(FAULTS))

    def closing_lines(self):
        """All is forced and written, and all that is committed is shown."""
        if not self.store.open:
            yield ("restart",)
        yield ("force",)
        for page in range(len(self.store.devices.pages)):
            yield "write", page
        yield ("dump",)
        if self.is_first_of(4):
            yield from (("crash", 0, "old"), ("restart",), ("dump",))
            for page in range(len(self.store.devices.pages)):
                yield "write", page

    def next(self):
        if not self.store.open:
            return self.of_shut()
        if self.store.failed and self.is_first_of(6):
            return self.crash()
        if self.shape.crashes and self.is_first_of(self.shape.crashes):
            return self.crash()
        if self.shape.crashes and self.lines and self.lines[-1].startswith((b"recv", b"close")) and self.is_first_of(50):
            return self.crash()
        if self.is_first_of(24):
            return self.add("ack", self.committed())
        if self.may_fail and self.is_first_of(150):
            return self.add("fail", self.random.choice(["write", "force", "write", "force", "write", "force", "read"]))
        if self.is_first_of(300):
            return self.add("restart", *([self.random.randrange(9)] if self.is_first_of(2) else []))
        if self.may_check and self.is_first_of(6 if self.lines and self.lines[-1] == b"checkpoint" else 60):
            return self.checkpoint()
        if self.may_grow and self.is_first_of(200 if self.store.tags else 40):
            return self.migrate()
        if self.may_check and self.lines and self.lines[-1].startswith((b"force", b"write")) and self.is_first_of(2):
            return self.crash() if self.shape.crashes and self.is_first_of(6) else self.write()
        self.call()

    def checkpoint(self):
        """A checkpoint, most times where each transaction was ended. It may fail, and a crash may come right behind it."""
        self.end_most()
        self.add("checkpoint")
        if self.shape.crashes and self.is_first_of(8):
            self.crash()

    def migrate(self):
        """A migration, most times where each transaction was ended, and seldom of pages that no store can be given. It may fail. A crash
        comes behind it, now and then right behind."""
        self.end_most()
        self.add("migrate", self.random.choice(BAD_TAGS if self.is_first_of(6) else MAY_GROW))
        if self.is_first_of(2):
            self.crash()

    def end_most(self):
        for _ in range(self.random.choice([0, 1000, 1000, 1000])):
            if not self.end_one():
                break
        if self.may_fail and self.is_first_of(3):
            self.add(*self.random.choice([("force",), ("last", 0)]))
            self.add("fail", self.random.choice(["write", "write", "force"]))

    def of_shut(self):
        """A store that waits for its restart: restarts that are stopped, most times, before the one that is not."""
        if self.is_first_of(12):
            return self.call()
        if self.is_first_of(20):
            return self.add("crash", self.random.randrange(4))
        if self.stops_left:
            self.stops_left -= 1
            wanted = self.store.records_wanted()
            return self.add("restart", self.random.randrange(wanted if wanted > 3 else 9))
        self.add("restart")

    def crash(self):
        """A crash that keeps some of the records that are not forced, or none or all."""
        devices = self.store.devices
        unforced = (devices.handed if self.store.failed else len(devices.records)) - devices.forced
        keep = "all" if self.is_first_of(6) else self.random.randrange(unforced + 1)
        if keep != "all" and self.is_first_of(3):
            keep = max(0, unforced - 1 - self.random.randrange(5))  # within what was done last
        if keep != "all" and keep < unforced and self.is_first_of(2):
            keep = f"{keep}+{self.random.randrange(bytes_of(devices.records[devices.forced + keep]) + self.is_first_of(60))}"
        self.add("crash", keep, *(["old"] if self.is_first_of(2) else []))
        self.stops_left = self.random.choice([0, 0, 1, 2, 3, 3, 3])

    def committed(self):
        """One of the last transactions that were committed, most times."""
        last = list(self.door.numbers)[-4:]
        return shown(self.random.choice(last)) if last else self.stray_txn()

    def stray_txn(self):
        return f"{self.random.randrange(3)}.{self.random.randrange(60)}"

    def call(self):
        rows = list(self.store.rows.values())
        if not rows or (len(rows) < self.MOST_OPEN and self.is_first_of(8)):
            return self.add("begin")
        if self.is_first_of(32):
            return self.stray()
        if self.is_first_of(12):
            return self.output()
        self.of(self.random.choice(rows))

    def of(self, row):
        """Of a transaction that has not ended."""
        if row.work is not None and not self.is_first_of(16):
            return self.go_on(row)
        if (row.aborting and not self.is_first_of(10)) or self.is_first_of(60):
            return self.abort_on(row)
        self.start(row)

    def go_on(self, row):
        """Most times what an operation under way waits for."""
        is_early = self.is_first_of(10)
        self.add("finish" if (not row.work.writes) != is_early else "step", shown(row.txn), row.work.number)

    def abort_on(self, row):
        if self.is_first_of(30):
            return self.add("abort", shown(row.txn))
        is_early = self.is_first_of(10)
        self.add("undo" if bool(row.done) != is_early else "end-abort", shown(row.txn))

    def stray(self):
        """Of a number that is most times none that is there."""
        txn, number = self.stray_txn(), self.random.randrange(4)
        if self.store.clients and self.is_first_of(12):
            return self.mark(txn)
        name = self.random.choice(["recv", "step", "step", "finish", "finish", "commit", "start-abort", "abort", "end-abort", "undo",
                                   "open-send", "send", "close", "recv-from", "ack"])  # fmt: skip
        if name in ("step", "finish"):
            return self.add(name, txn, number)
        if name in ("open-send", "send"):
            return self.send(name, txn)
        self.add(name, txn, *([self.sender()] if name in ("close", "recv-from") else []))

    def output(self):
        """A page write shows which pages have changed."""
        if self.store.clients and self.is_first_of(3):
            return self.add("tag", self.client())
        kind = self.random.randrange(12)
        if kind < 3:
            return self.add("force")
        if kind < 5:
            return self.add("dump")
        if kind < 7:
            return self.add("last", self.sender())
        self.write()

    def write(self):
        self.add("write", self.random.randrange(len(self.store.devices.pages) + 1))

    def start(self, row):
        if self.store.clients and self.is_first_of(8):
            return self.mark(shown(row.txn))
        weights = dict(self.shape.weights)
        if len(self.lines) < self.shape.filling:
            weights.update(take=0, abort=0, close=0)
        kind, txn = self.random.choices(list(weights), list(weights.values()))[0], shown(row.txn)
        if kind == "send":
            self.send("send" if self.is_first_of(6) else "open-send", txn)
        elif kind == "take":
            self.add(*(("recv", txn) if self.is_first_of(2) else ("recv-from", txn, self.group(row))))
        elif kind == "close":
            self.add("close", txn, self.sender())
        elif kind == "abort":
            self.add("abort" if self.is_first_of(12) else "start-abort", txn)
        else:
            self.add("commit", txn)

    def send(self, name, txn):
        tag = self.random.choice([0, 1, ALL, self.random.getrandbits(31), self.random.getrandbits(31), self.random.getrandbits(64)])
        self.add(name, txn, self.sender(), tag, *self.body())

    def mark(self, txn):
        self.add("mark", txn, self.client(), self.random.choice([0, 1, ALL, self.random.getrandbits(64), *[len(self.lines)] * 4]))

    def client(self):
        """Most times one of the first few of a tag page."""
        if self.is_first_of(30):
            return self.random.choice([self.store.clients, self.random.randrange(self.store.clients), 2**32 - 1])
        return self.random.randrange(3) + 15 * self.random.randrange(self.store.tags)

    def body(self):
        """No body, or one; of its bytes any but the end of a line may be."""
        kind = self.random.randrange(60)
        if kind > 2:
            letters = bytes(self.random.randrange(97, 123) for _ in range(self.random.randrange(5)))
            return [letters] if letters or self.is_first_of(2) else []
        if kind == 2:
            return [bytes(self.random.choice(b" a\x00\xff\r~") for _ in range(self.random.randrange(9)))]
        return [bytes([self.random.randrange(97, 123)]) * (216 + kind)]

    def sender(self):
        """Most times one of the few, of any directory page."""
        if self.is_first_of(30):
            return self.random.randrange(self.store.senders + 1)
        return self.random.randrange(self.shape.senders) + 15 * self.random.randrange(self.sizes[0])

    def group(self, row):
        """The sender to receive from: now and then one whose second message stands on a latched page, which is seldom so."""
        if row.work is None and not row.aborting and self.is_first_of(2):
            for sender in range(self.store.senders):
                if self.store.holds_for(row, sender) and self.store.take_latched(sender) in ("TakeNext", "TakeNextOpen"):
                    return sender
        return self.sender()

    def end_one(self):
        """The next line by which a transaction ends; False where none is open."""
        rows = sorted(self.store.rows.values(), key=lambda row: row.work is None)
        if not rows or not self.store.open or self.store.failed:
            return False
        row = rows[0]
        if row.work is not None:
            self.add("step" if row.work.writes else "finish", shown(row.txn), row.work.number)
        elif not row.aborting:
            self.add("commit", shown(row.txn))
        else:
            self.add("undo" if row.done else "end-abort", shown(row.txn))
        return True


def shown(txn):
    return f"{txn[0]}.{txn[1]}"


class Courses(drawn.Door):
    cases, unknown = SCRIPTS, b"log"  # the slots of its records are none of the reference's: tests/inspector.py reads its lines
    name, crate, subcommand, courses, wanted = "script", "rqm", ["run"], 1000, WANTED

    def words(self, sizes):
        words = zip(("--directory", "--cells", "--tags", "--frames"), sizes)
        return [word for name, size in words if size for word in (name, str(size))]

    def draw(self, seed, met):
        drawing = Drawing(seed, met)
        drawing.draw()
        return drawing.sizes, drawing.lines, b"\n".join(drawing.door.printed).split(b"\n"), drawing.door.status or 0

    def replay(self, lines, sizes, told):
        return printed_by(lines, sizes, told)


if __name__ == "__main__":
    drawn.main(Courses(), __doc__.split("\n", 1)[0])
