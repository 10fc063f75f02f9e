#!/usr/bin/env python3
"""Lets anything happen to a store: draws happenings from seeds, runs them by the proved program, and compares each entry with the
reference. The happenings of tests/worlds come first: each NAME.happenings comes to what stands in NAME.expected; and then those of
them in which each device call fails in turn. (tests/stops.py stops the machine at each.) Where `rt ci` left the program as Rattle's
own compiler builds it too, that one runs these as well.

    python3 tests/worlds.py [--program PROGRAM] [--first SEED] [--courses N] [--keep FOLDER] [--counts]

Happenings that go wrong are cut down to the fewest that still do, and shown so that they can be run again by hand. Among the usual
ones, those of the seeds from 0, each kind of thing that may happen has to be met as often as `WANTED` says.
"""
import itertools
import multiprocessing
import os
import random

import courses
import drawn
from courses import BAD_TAGS, MAY_GROW
from cases import Cases
from reference import ALL
from world_reference import World, picked_at, printed_by, shown

# What has to be met, the usual lists taken together, and how often at least.
WANTED = {
    "Beside": 4800, "HigherCell": 2400, "OtherGroup": 550, "SendDirectory": 7200, "SendTail": 2400, "SendCells": 180,
    "TakeDirectory": 870, "TakeHead": 420, "TakeNext": 160, "TakeNextOpen": 14, "TakeAny": 2700, "CloseDirectory": 270,
    "Close": 110, "CloseEmpty": 520, "SendUndone": 1600, "TakeUndone": 500, "CloseUndone": 140, "HigherBack": 97,
    "UnsendDirectory": 1600, "UnsendTail": 720, "UnsendBefore": 44, "BackDirectory": 800, "BackHead": 170, "BackCells": 18,
    "ReopenDirectory": 160, "EarlyEnd": 610, "NotAborting": 1700, "Shorter": 4400, "SendCut": 1000, "TakeCut": 180,
    "CloseCut": 17, "UnsendCut": 650, "BackCut": 110, "ReopenCut": 9, "TwoCut": 190, "BetweenSteps": 73, "OneLost": 1300,
    "MoreLost": 360, "CutBesideLost": 470, "SendLost": 2700, "TakeLost": 490, "CloseLost": 120, "EndWanting": 73,
    "StoppedOnce": 2500, "StoppedTwice": 1100, "StoppedThrice": 540, "StoppedInInverse": 360, "StoppedBeforeVoid": 200,
    "StoppedBeforeEnd": 240, "Begun": 22000, "SendStarted": 13000, "TakeStarted": 700, "AnyTakeStarted": 2300,
    "CloseStarted": 640, "UndoStarted": 2200, "NoneFrom": 8000, "NoneOfAny": 6800, "Stepped": 41000, "Ready": 2200,
    "Sent": 11000, "Received": 2600, "GroupClosed": 550, "Undone": 2000, "Committed": 10000, "Aborting": 4300,
    "NothingLeft": 390, "Aborted": 3500, "Given": 2100, "NotGiven": 6100, "HandedOver": 1900, "Forced": 4800, "Written": 4700,
    "NotWritten": 8200, "LastTag": 2800, "Content": 1700, "Opened": 4600, "UnknownTransaction": 4000, "NotOpen": 3800,
    "Unfinished": 12000, "ContentUnfinished": 1800, "UnknownSender": 100, "TooLong": 750, "SenderBusy": 11000, "Closed": 490,
    "ReceiverBusy": 840, "Full": 1300, "NotForced": 4100, "UnknownOperation": 2100, "CrashedInAbort": 580,
    "StoppedCallInAbort": 21, "OpenedBehindAbort": 2800, "UnfinishedUndone": 1000, "BothUndone": 700, "LostUndone": 1500,
    "StoppedIdle": 23, "StoppedCall": 220, "Armed": 1500, "DiskWrite": 300, "Failed": 5600, "NotOpened": 590, "Running": 1300,
    "AckOfNothing": 2800, "Torn": 1000, "TornCut": 950, "Checkpointed": 1500, "CheckpointedTwice": 530, "NotQuiet": 640,
    "CheckpointFailedInForce": 95, "CheckpointFailedInWrite": 59, "CheckpointFailedInSync": 77,
    "CheckpointFailedInReplace": 62, "CheckpointStoppedInForce": 95, "CheckpointStoppedInWrite": 82,
    "CheckpointStoppedInSync": 75, "CheckpointStoppedInReplace": 67, "BaseAlone": 480, "BaseShorter": 930, "BaseTorn": 230,
    "BaseOld": 93, "BaseNewest": 180, "BaseLost": 350, "BaseUnfinished": 330, "StoppedOverBase": 310, "GivenOverBase": 420,
    "MarkStarted": 1200, "Marked": 1000, "MarkedAgain": 68, "MarkUndone": 140, "MarkLost": 280, "MarkCut": 72, "UnmarkCut": 22,
    "MarkPage": 100, "UnmarkPage": 20, "ClientTag": 140, "NoClientTag": 800, "ClientBusy": 200, "UnknownClient": 50,
    "Migrated": 130, "AnsweredGrown": 130, "OpenedGrown": 610, "BadTags": 380, "OddTags": 49, "HasTags": 330,
    "MigrationNotQuiet": 77, "MigrationOfNone": 170, "CutOffAsItWas": 100, "CutOffNotGrown": 11, "CutOffGrown": 30,
    "MigrationFailedInTags": 21, "MigrationFailedInForce": 9, "MigrationFailedInWrite": 7, "MigrationFailedInSync": 11,
    "MigrationFailedInReplace": 8, "MigrationFailedInSuperblock": 9, "MigrationFailedInLastSync": 12,
    "MigrationStoppedInTags": 12, "MigrationStoppedInForce": 12, "MigrationStoppedInWrite": 4, "MigrationStoppedInSync": 7,
    "MigrationStoppedInReplace": 9, "MigrationStoppedInSuperblock": 10, "MigrationStoppedInLastSync": 10,
    "PoolFull": 2400, "StoppedInFew": 480,
}  # fmt: skip

LENGTH = 160


def sizes_of(seed):
    """Directory pages, cell pages, tag pages and frames of the store of a seed. There is a frame for each page here: the calls of a device
    that are made for others no reference counts."""
    pages = {0: (2, 2, 0), 5: (1, 2, 1), 7: (3, 2, 0), 8: (1, 1, 2)}.get(seed % 9 if seed % 3 else 0, (1, 1, 0))
    return *pages, (0, 8, 9, 64)[seed // 9 % 4]


class Drawing:
    """A list that is being drawn, beside the reference, so that most of its numbers are good."""

    def __init__(self, seed, met):
        self.random = random.Random(seed)
        self.sizes = sizes_of(seed)
        self.door = World(*self.sizes, met=met)
        self.store = self.door.store
        self.lines = []
        self.fills = seed % 4 == 0  # it sends and does not receive, and little else happens
        self.opened = False  # the last happening opened the store
        self.may_check = seed % 5 < 2  # checkpoints are drawn
        self.may_grow = seed % 5 > 2  # migrations are drawn
        self.failing = None  # the call that comes next, of which the last happening has a device call fail

    def is_first_of(self, count):
        return self.random.randrange(count) == 0

    def draw(self):
        for _ in range(LENGTH):
            line = " ".join(map(str, self.next())).encode()
            self.lines.append(line)
            self.opened = self.door.happen(line).startswith(b"restarted")

    def next(self):
        if not self.store.open:
            return self.of_shut()
        if self.opened and not self.is_first_of(3):
            return "write", self.page()  # it shows which image was left
        if (self.store.has_idle_beside() and self.is_first_of(4)) or (len(self.store.works()) > 1 and self.is_first_of(16)):
            return "crash", *self.choice(ALL)
        if (self.may_check or self.may_grow) and self.store.failed and self.is_first_of(4):
            return "crash", *self.choice()
        if self.failing:
            return self.whole_call(self.failing)
        if self.may_check and self.is_first_of(40 if self.store.rows else 2):
            return self.whole_call(("checkpoint",))
        if self.may_grow and self.is_first_of(60 if self.store.rows or self.store.tags else 2):
            return self.whole_call(("migrate", self.random.choice(BAD_TAGS if self.is_first_of(9) else MAY_GROW)))
        kind = self.random.randrange(400 if self.fills else 50)
        if kind == 0:
            return "ack", self.random.randrange(LENGTH)
        if kind == 1:
            return self.failure()
        if kind == 2:
            return "crash", *self.choice()
        if kind in (3, 4):
            return self.stop_in()
        if kind == 5:
            return ("restart",) if self.is_first_of(2) else ("restart-stop", self.random.randrange(4), *self.choice())
        if kind < 9:
            return self.acknowledgement()
        return ("write", self.page()) if kind < 15 else self.call()

    def whole_call(self, call):
        """A checkpoint or a migration, one that is stopped, or the failure of a device call of one that comes next."""
        number = self.random.randrange(calls_of(self.store, call) + 1)
        kind = 0 if self.failing else self.random.randrange(6 if call == ("checkpoint",) else 3)
        self.failing = call if kind == 1 else None
        if kind == 1:
            return "fail", number
        return ("stop-in", number, *self.choice(), *call) if kind == 2 else call

    def of_shut(self):
        kind = self.random.randrange(12)
        if kind < 4:
            return "restart-stop", self.call_of_restart(), *self.choice()
        if kind == 4:
            return "crash", *self.choice()
        if kind == 5:
            return self.call() if self.is_first_of(2) else self.acknowledgement()
        return self.failure() if kind == 6 else ("restart",)

    def call_of_restart(self):
        """A device call of a restart, or one behind its last: most times its append, which is cut between any two records."""
        append = self.store.reads_of_restart() + (2 if self.store.devices.torn else 1)
        return self.random.randrange(append + 3) if self.is_first_of(4) else append

    def acknowledgement(self):
        """Of one of the last commits."""
        last = list(self.door.numbers)[-4:]
        return "ack", self.random.choice(last) if last else self.random.randrange(LENGTH)

    def failure(self):
        return "fail", self.random.randrange(9)

    def choice(self, keep=None):
        """What a crash keeps."""
        if keep is None:
            keep = self.random.choice([0, ALL, self.random.randrange(5), self.random.randrange(24)])
        if self.is_first_of(3):
            keep = f"{keep}+{self.random.choice([1, 4, self.random.randrange(546), ALL])}"
        places = [self.random.choice([ALL, 0, 1, 2, 3]) for _ in range(self.random.randrange(len(self.store.devices.pages) + 2))]
        return keep, ",".join(map(str, places)) or "-"

    def stop_in(self):
        event = self.random.choice([("force",), ("force",), ("hand-over",), ("write", self.page()), ("write", self.page()), None])
        return "stop-in", self.random.randrange(4), *self.choice(), *(event or self.call())

    def work(self):
        """A row with an operation under way that goes on; None where another call is to be drawn."""
        rows = [row for row in self.store.rows.values() if row.work is not None]
        if not rows or (self.sizes != (1, 1) and len(rows) < 3 and self.is_first_of(2)):
            return None
        return self.random.choice(rows)

    def call(self):
        row = self.work()
        if row is not None and not self.is_first_of(8):
            name = "step" if row.work.writes or self.is_first_of(4) else "finish"
            return name, shown(row.txn), row.work.number
        if row is None and not self.store.rows and not self.is_first_of(3):
            return ("begin",)
        aborting = next((row for row in self.store.rows.values() if row.aborting), None)
        if row is None and aborting and not self.is_first_of(3) and not (not aborting.done and self.is_first_of(2)):
            is_early = self.is_first_of(8)
            return "undo-next" if bool(aborting.done) != is_early else "end-abort", shown(aborting.txn)
        return self.other_call()

    def other_call(self):
        if self.store.clients and not self.fills and self.is_first_of(5):
            return self.of_client()
        kind = self.random.randrange(27)
        if kind < 3:
            return ("begin",) if len(self.store.rows) < 3 else ("commit", self.txn())
        if kind < 8 or (kind < 18 and self.fills):
            return self.send()
        if kind < 12:
            return "start-receive", self.txn()
        if kind < 14:
            return "start-receive-from", self.txn(), self.sender()
        if kind < 16:
            return "step" if kind == 14 else "finish", self.txn(), self.random.randrange(4)
        if kind < 20:
            return {16: ("force",), 17: ("force",), 18: ("hand-over",)}.get(kind) or ("write", self.page())
        if kind == 20:
            return "write", self.page()
        if kind == 22 and self.is_first_of(3):
            return "start-close", self.txn(), self.sender()
        if kind == 25:
            return self.random.choice(["undo-next", "end-abort"]), self.txn()
        return {21: ("content",), 24: ("start-abort", self.txn()), 26: ("last", self.sender())}.get(kind) or ("commit", self.txn())

    def of_client(self):
        """A mark, or what a client's marks are told to be."""
        client = self.random.randrange(17 if self.is_first_of(10) else 3) + 15 * self.random.randrange(self.store.tags)
        if self.is_first_of(3):
            return "tag", client
        return "start-mark", self.txn(), client, self.random.choice([0, ALL, self.random.getrandbits(31), len(self.lines)])

    def send(self):
        length = {0: 216, 1: 217}.get(self.random.randrange(24), self.random.randrange(9))
        body = "".join(chr(self.random.randrange(97, 123)) for _ in range(length))
        return "start-send", self.txn(), self.sender(), self.random.choice([0, ALL, self.random.getrandbits(31)]), body

    def txn(self):
        rows = list(self.store.rows.values())
        if rows and not self.is_first_of(16):
            return shown(self.random.choice(rows).txn)
        return f"{self.random.randrange(4)}.{self.random.randrange(6)}"

    def sender(self):
        """Most times one of the first few of a directory page."""
        sender = self.random.randrange(17 if self.is_first_of(10) else 3)
        return sender + 15 * self.random.randrange(self.sizes[0])

    def page(self):
        """Most times one that changes."""
        count = len(self.store.devices.pages)
        return self.random.randrange(count + 2) if self.is_first_of(8) else self.random.randrange(1, count)


def calls_of(store, call):
    """How many device calls a checkpoint or a migration makes of an open store that runs."""
    return store.calls_of_checkpoint() if call == ("checkpoint",) else store.calls_of_migration(min(call[1], 3))


# In few frames a restart makes about so many device calls more than in frames enough.
WAYS = 20


class Calls(courses.Drawing):
    """A course of tests/courses.py, call by call: receives and closes are under way beside others, too. Some run in fewer frames than
    pages. There no device call fails, and the machine stops in restarts alone, since the program chooses which calls it makes."""

    NAMES = {"open-send": "start-send", "send": "start-send", "recv": "start-receive", "recv-from": "start-receive-from",
             "close": "start-close", "mark": "start-mark", "abort": "start-abort", "undo": "undo-next", "dump": "content"}  # fmt: skip

    def __init__(self, seed, met):
        super().__init__(seed, met, World)
        self.happen("restart")

    @property
    def ended(self):
        return False

    def happen(self, *words):
        line = b" ".join(word if isinstance(word, bytes) else str(word).encode() for word in words)
        self.lines.append(line)
        self.door.happen(line)

    def add(self, name, *words):
        if isinstance(name, bytes):
            return  # a line that is no command: the list ends
        if name == "ack":
            return self.happen("ack", self.committed())
        if name == "fail":
            return self.happen("fail", self.random.randrange(1, 9))
        if name == "crash":
            return self.happen("crash", *self.left(words))
        if name in ("checkpoint", "migrate") and not self.store.lacks_frames() and self.is_first_of(4):
            calls, keep = calls_of(self.store, (name, *words)), self.random.choice([0, 2, 5, "all"])
            left = self.left([keep, *["old"] * self.random.randrange(2)])
            return self.happen("stop-in", self.random.randrange(calls + 1), *left, name, *words)
        if name == "restart" and words:
            append = self.store.reads_of_restart() + (2 if self.store.devices.torn else 1)
            if self.store.lacks_frames():
                return self.happen("restart-stop", self.random.randrange(1, append + WAYS), words[0], self.images(self.is_first_of(2)))
            return self.happen("restart-stop", append + self.random.randrange(2), words[0], "-")
        if name == "force" and self.is_first_of(4):
            self.happen("hand-over")
        if name in ("send", "open-send") and len(words) < 4:
            words = (*words, "")
        self.happen(self.NAMES.get(name, name), *words)

    def left(self, words):
        """What a crash keeps: the words of the course's own, or of one that stops a call."""
        return str(words[0]).replace("all", str(ALL)), self.images(len(words) > 1)

    def images(self, is_old):
        """The synced image of each page, or the newest, or any. In few frames the program writes others between these."""
        if not self.store.lacks_frames() and self.is_first_of(3):
            return ",".join(str(self.random.choice([ALL, 0, 1, 2])) for _ in self.store.devices.pages)
        return ",".join("0" for _ in self.store.devices.pages) if is_old else "-"

    def committed(self):
        """The number of a happening that committed, most times."""
        last = list(self.door.numbers)[-4:]
        return self.random.choice(last) if last else self.random.randrange(1 + len(self.lines))

    def stray(self):
        if self.is_first_of(8):
            return self.happen("ack", self.random.randrange(2 + len(self.lines)))
        super().stray()


def renumbered(line, at, end):
    """An acknowledgement where the happenings from one place to another are left out, of one behind them."""
    if not line.startswith(b"ack ") or int(line[4:]) <= end:
        return line
    return b"ack %d" % (int(line[4:]) - (end - at))


# ---- lists of tests/worlds in which each device call fails in turn


IMAGES = b"-", b",".join([b"0"] * 16)


def is_plain(lines):
    """Whether nothing fails, nothing stops but in a restart, and the store is shown behind the last crash."""
    names = [line.split(b" ")[0] for line in lines]
    crashes = [at for at, name in enumerate(names) if name == b"crash"]
    return bool(crashes) and b"content" in names[crashes[-1] :] and not {b"fail", b"stop-in"} & set(names)


# What comes behind a list, so that it does not end at the failure.
LAST = [b"crash 0", b"restart", b"content"]


def failing(lines, n, images):
    """The lines where the nth device call fails, and of each page this image is left by a crash. What is not opened is opened at the
    second try. At last the store is crashed, opened and shown."""
    made, places = [b"fail %d" % n], {}
    for number, line in enumerate(lines + LAST, 1):
        name, *words = line.split(b" ")
        if name == b"ack":
            line = b"ack %d" % places[int(words[0])]
        if name == b"crash":
            line = b" ".join([name, words[0], images])
        made += [line, line] if name == b"restart" else [line]
        places[number] = len(made)
    return made


def comes_wrong(job):
    """How many device calls a list makes, and the first n whose failure comes to something else; 0 where none does."""
    door, program, name, images = job
    lines, sizes = door.cases.lines_of(name)[0], door.cases.sizes_of(name)
    for n in itertools.count(1):
        made, world = failing(lines, n, images), World(*sizes)
        told = drawn.run(door, program, made, sizes)
        for at, line in enumerate(made):
            world.happen(line, picked_at(made, told[0], at))
        if told != (world.printed, 0):
            return name, n, n
        if world.store.devices.calls < n:
            return name, n - 1, 0


class Worlds(drawn.Door):
    cases, runs_cases = Cases("worlds", "happenings", ["happenings"], ["1", "1"]), True
    name, crate, subcommand, courses, wanted = "happenings", "bench", ["happenings"], 1500, WANTED

    def words(self, sizes):
        """Zeros at the end are left out."""
        last = max(place for place, size in enumerate(sizes, 1) if size)
        return [str(size) for size in sizes[:last]]

    def draw(self, seed, met):
        drawing = Drawing(seed // 3, met) if seed % 3 == 0 else Calls(seed - seed // 3, met)
        drawing.draw()
        return drawing.sizes, drawing.lines, drawing.door.printed, 0

    def without(self, lines, at, end):
        """Acknowledgements of later commits name them by the numbers that they have then."""
        return lines[:at] + [renumbered(line, at, end) for line in lines[end:]]

    def replay(self, lines, sizes, told):
        return printed_by(lines, sizes, told), 0

    def runs_more(self, program):
        """Each device call of each list fails in turn, whichever images a crash leaves."""
        names = [name for name in self.cases.names() if is_plain(self.cases.lines_of(name)[0])]
        jobs = [(self, program, name, images) for name in names for images in IMAGES]
        with multiprocessing.Pool(os.cpu_count()) as pool:
            came = pool.map(comes_wrong, jobs, chunksize=1)
        for name, _, wrong in came:
            if wrong:
                print(f"{name}: where device call {wrong} fails it comes to something else")
        right = sum(not wrong for _, _, wrong in came)
        of = f"{len(came)} lists come to what they should where each of {sum(n for _, n, _ in came)} device calls fails"
        print(f"{right} of {of} ({os.path.basename(program)})")
        return right == len(came) and len(came) > 20


if __name__ == "__main__":
    drawn.main(Worlds(), __doc__.split("\n", 1)[0])
