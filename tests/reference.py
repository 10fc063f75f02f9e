"""The queue as plain lists: what each call of a store answers, what a crash leaves, and what a restart then does.

Written from what the queue promises, and not from its code: a history of committed transactions, a log of records, and of each
page the LSNs of its images. Two things are no promise, and are taken from the program. The reads of an opening are counted as
it makes them (`Devices.reads`): that decides in which of its calls a stop or a failure comes. And a receive from any sender
tries groups in the program's order, where no line that was told says which one it took (`Store.start_receive`).
Doors to it are tests/courses.py (scripts) and tests/worlds.py (happenings).

A transaction is a pair (incarnation, count), an operation a pair (transaction, number). Of a page only its LSN is kept: an image
has all changes of its page up to its LSN.
"""
from collections import Counter

SLOTS = 15  # of a page: senders of a directory page, cells of a cell page, clients of a tag page
LONGEST_BODY = 216
MOST_OPEN = 4096
MOST_TAGS = 1024  # tag pages of a store
ALL = 2**64 - 1

REFUSALS = {
    "NoMemory": 1, "Failed": 2, "DiskRead": 3, "UnknownTransaction": 4, "NotOpen": 5, "Unfinished": 6, "UnknownSender": 7,
    "TooLong": 8, "SenderBusy": 9, "Closed": 10, "ReceiverBusy": 11, "Full": 12, "Latched": 13, "PoolFull": 14, "DiskWrite": 15,
    "Damaged": 16, "TooManyTransactions": 17, "NotForced": 18, "LogFull": 19, "UnknownOperation": 20,
    "NotQuiet": 21, "UnknownClient": 22, "ClientBusy": 23, "BadTags": 24,
}  # fmt: skip

INVERSES = {"append": "unsend", "take": "put-back", "close": "reopen", "mark": "unmark"}


class Refused(Exception):
    """A call's refusal, by its name."""

    def __init__(self, name):
        super().__init__(name)
        self.name = name

    def __str__(self):
        return f"{REFUSALS[self.name]} {self.name}"


class Stopped(Exception):
    """The power failed in a device call."""


class Deed:
    """What an operation does: append, take or close at a group's chain, or a mark, whose `sender` is the client. `previous` is the tag
    that this had before."""

    __slots__ = ("kind", "sender", "tag", "body", "cell", "previous")

    def __init__(self, kind, sender, tag=0, body=b"", cell=None, previous=0):
        self.kind, self.sender, self.tag, self.body, self.cell, self.previous = kind, sender, tag, body, cell, previous


class Work:
    """An operation under way: the deed that it does or, where `undoes` has the LSN of that one's end, takes back. `writes` has
    the pages of the slot writes that are to come, `pages` all that it has latched."""

    __slots__ = ("number", "deed", "undoes", "cell", "writes", "pages")

    def __init__(self, number, deed, undoes, cell, writes):
        self.number, self.deed, self.undoes, self.cell = number, deed, undoes, cell
        self.writes, self.pages = list(writes), set(writes)


class Row:
    """A transaction that has not ended."""

    def __init__(self, txn):
        self.txn, self.aborting, self.number, self.work = txn, False, 0, None
        self.done = []  # what it did and has not undone: (LSN of the end, deed)
        self.sending, self.receiving, self.marking = set(), [], set()


class Page:
    """A page: the LSNs of the images that a crash may leave (the synced one first), and of the image of the open store."""

    def __init__(self):
        self.images, self.lsn, self.changed = [0], 0, False

    def change(self, lsn):
        if self.lsn < lsn:
            self.lsn, self.changed = lsn, True

    def crash(self, place):
        self.images = [self.images[place] if place < len(self.images) else self.images[-1]]

    def load(self):
        self.lsn, self.changed = self.images[-1], False


class Superblock(Page):
    """Page 0: of its images, how many tag pages each tells. No record changes it."""

    def __init__(self, tags):
        super().__init__()
        self.images = [tags]

    def load(self):
        pass


# The records of a log, as tuples that begin with their kind.
#   ("restart", incarnation)
#   ("write", operation, page, kind of what is done, writes to come behind it)
#   ("back", operation, page, LSN of the write that it undoes)      ("void", operation)
#   ("end", operation, deed)      ("undone", operation, LSN of the end of what it undid, cell)
#   ("commit", transaction)       ("abort", transaction)
#   ("base", incarnation): a checkpoint or a migration, of which the records before it stand on no device


def bytes_of(record):
    """The bytes of a record: a length of four, a kind, and its fields."""
    kind = record[0]
    if kind == "end":
        deed = record[2]
        return 30 + {"append": 29, "take": 21, "close": 5, "mark": 21}[deed.kind] + len(deed.body)
    return {"restart": 13, "write": 546, "undone": 37, "back": 298, "void": 29, "commit": 21, "abort": 21, "base": 21}[kind]


class Devices:
    """Both devices: which of their calls fails or stops, and what reaches them."""

    WINDOW = 65_536  # bytes of the log that are read and not taken, at most
    LONGEST = 546  # bytes of the longest record: where fewer are left of what was read, it is read on

    def __init__(self, pages, tags):
        self.records, self.handed, self.forced = [], 0, 0
        self.torn = 0  # bytes of a record behind those that were handed over, which a crash left of it
        self.pages = [Superblock(tags), *(Page() for _ in range(pages + tags))]  # those of the store
        self.calls = self.failing = self.stopping = 0
        self.armed = set()  # kinds of calls of which the next fails: read, write, force

    def fail(self, n):
        """The nth call from now fails once."""
        self.failing = self.calls + n if n else 0

    def stop(self, n):
        """The power fails in the nth call from now."""
        self.stopping = self.calls + n if n else 0

    def meet(self, kind):
        """A device call. Whether it is made; a stop in an append or a page write comes behind it."""
        self.calls += 1
        if self.calls == self.stopping:
            raise Stopped
        fails = self.calls == self.failing or kind in self.armed
        self.armed.discard(kind)
        return not fails

    def cut_end(self):
        """Cuts off what is left of a record, if there is any."""
        if not self.torn:
            return
        if not self.meet("cut"):
            raise Refused("DiskWrite")
        self.torn = 0

    def hand_over(self):
        self.cut_end()
        if self.handed == len(self.records):
            return
        try:
            made = self.meet("write")
        except Stopped:
            self.handed = len(self.records)
            raise
        if not made:
            raise Refused("DiskWrite")
        self.handed = len(self.records)

    def force(self):
        self.hand_over()
        if not self.meet("force"):
            raise Refused("DiskWrite")
        self.forced = self.handed

    def write(self, number):
        """Writes a page that was changed; whether it did."""
        page = self.pages[number] if number < len(self.pages) else None
        if page is None or not page.changed:
            return False
        if page.lsn > self.forced:
            raise Refused("NotForced")
        try:
            made = self.meet("write")
        except Stopped:
            page.images.append(page.lsn)
            raise
        if not made:
            raise Refused("DiskWrite")
        page.images.append(page.lsn)
        page.changed = False
        return True

    def write_changed(self):
        for page in range(len(self.pages)):
            self.write(page)

    def write_behind(self, count):
        """Writes so many pages behind those of the store, as they are formatted. Nobody reads them before they are synced."""
        for _ in range(count):
            if not self.meet("write"):
                raise Refused("DiskWrite")

    def write_superblock(self, tags):
        """Writes a superblock that tells so many tag pages."""
        try:
            made = self.meet("write")
        except Stopped:
            self.pages[0].images.append(tags)
            raise
        if not made:
            raise Refused("DiskWrite")
        self.pages[0].images.append(tags)

    def sync(self):
        if not self.meet("force"):
            raise Refused("DiskWrite")
        for page in self.pages:
            del page.images[:-1]

    def put_base(self, incarnation):
        """One record stands in the place of all, which are forced."""
        if not self.meet("replace"):
            raise Refused("DiskWrite")
        self.handed = self.forced = self.add(("base", incarnation))

    def base(self):
        """The LSN of the newest base, 0 where there is none."""
        return max((lsn for lsn, record in enumerate(self.records, 1) if record[0] == "base"), default=0)

    def sizes(self):
        """The bytes of each record that stands on the device: of the newest base, and of those behind it."""
        return [bytes_of(record) for record in self.records[max(0, self.base() - 1) :]]

    def reads(self):
        """How many reads an opening makes: each page, the log in windows until one comes short, and for each record of a write that
        was undone the one of that write again."""
        sizes = self.sizes()
        total, read, taken, reads, short = sum(sizes) + self.torn, 0, 0, len(self.pages), False
        for size in [*sizes, 0]:
            if not short and read - taken < self.LONGEST:
                room = self.WINDOW - (read - taken)
                short = total - read < room
                read += min(total - read, room)
                reads += 1
            taken += size
        return reads + sum(record[0] == "back" for record in self.records[max(0, self.base() - 1) :])

    def read(self):
        if not self.meet("read"):
            raise Refused("DiskRead")

    def read_all(self):
        for _ in range(self.reads()):
            self.read()

    def add(self, record):
        """Adds a record to the buffer, with its change of a page, and answers its LSN."""
        self.records.append(record)
        lsn = len(self.records)
        if record[0] in ("write", "back"):
            self.pages[record[2]].change(lsn)
        return lsn

    def crash(self, keep, torn, places):
        """So many of the records that were handed over and not forced outlive it, so many bytes of the next, all but one at most,
        and of each page the image at its place (the newest where none is said). What is left counts as forced and synced."""
        if self.forced + keep < self.handed:
            self.torn = min(torn, bytes_of(self.records[self.forced + keep]) - 1)
        del self.records[min(self.handed, self.forced + keep) :]
        self.handed = self.forced = len(self.records)
        for number, page in enumerate(self.pages):
            page.crash(places[number] if number < len(places) else ALL)

    def grow(self, tags):
        """The store has so many tag pages more, as they are formatted."""
        self.pages += [Page() for _ in range(tags)]

    def load(self):
        """Every page is read, and each record's change is made that its page lacks."""
        for page in self.pages:
            page.load()
        for lsn, record in enumerate(self.records, 1):
            if record[0] in ("write", "back"):
                self.pages[record[2]].change(lsn)


class Chains:
    """The cells that the chains of finished operations use, by number from 0, and what stands in each client's slot: how often these
    marked it, and the last tag."""

    def __init__(self, directory, cells):
        self.directory, self.count = directory, cells * SLOTS
        self.of = [[] for _ in range(directory * SLOTS)]
        self.used, self.marks = set(), {}

    def page(self, cell):
        return cell // SLOTS + self.directory + 1

    def home(self, sender):
        """The directory page of a sender."""
        return sender // SLOTS + 1

    def client_page(self, client):
        return self.page(self.count) + client // SLOTS

    def marked(self, client):
        """How often a client was marked, and the last tag."""
        return self.marks.get(client, (0, 0))

    def lowest_free(self, latched=frozenset()):
        """The lowest free cell on a page outside the set; None where there is none."""
        for cell in range(self.count):
            if cell not in self.used and self.page(cell) not in latched:
                return cell
        return None

    def reach(self, kind, sender, cell):
        """The pages of the slot writes of an operation, in order."""
        if kind in ("mark", "unmark"):
            return [self.client_page(sender)]
        chain, home = self.of[sender], self.home(sender)
        if kind in ("close", "reopen"):
            return [home]
        beside = {"append": chain[-1:], "take": chain[1:2], "unsend": chain[-2:-1], "put-back": chain[:1]}[kind]
        own = {"append": cell, "put-back": cell, "take": chain[0] if chain else None, "unsend": chain[-1] if chain else None}[kind]
        return [self.page(own), *map(self.page, beside), home]

    def do(self, kind, deed, cell):
        """The operation is finished, which did this deed or took it back."""
        if kind in ("mark", "unmark"):
            self.mark(kind, deed)
            return
        chain = self.of[deed.sender]
        if kind == "append":
            chain.append(cell)
        elif kind == "put-back":
            chain.insert(0, cell)
        elif kind == "take":
            self.used.discard(chain.pop(0))
        elif kind == "unsend":
            self.used.discard(chain.pop())
        if kind in ("append", "put-back"):
            self.used.add(cell)

    def mark(self, kind, deed):
        """A mark is one more, with its tag. Its inverse finds it to be the last, and leaves one less, with the tag before."""
        count, tag = self.marked(deed.sender)
        if kind == "mark":
            assert tag == deed.previous, "a mark tells another tag than the one before it"
            self.marks[deed.sender] = count + 1, deed.tag
        else:
            assert count > 0 and tag == deed.tag, "a mark is taken back that is not the last"
            self.marks[deed.sender] = count - 1, deed.previous

    def play(self, records):
        """All that the operations did that have their end."""
        for record in records:
            if record[0] == "end":
                self.do(record[2].kind, record[2], record[2].cell)
            elif record[0] == "undone":
                deed = records[record[2] - 1][2]
                self.do(INVERSES[deed.kind], deed, record[3])


class Mending:
    """What a restart does before the next incarnation begins, record by record. Each record by which it knows what to undo is read
    again."""

    def __init__(self, store):
        self.devices, self.chains = store.devices, store.chains
        self.met = []  # what is worth counting, with the LSN of the record by which it is so
        self.open_writes, self.numbers = {}, {}
        self.due, self.lost = [], set()
        self.look()
        self.unfinished = len(self.open_writes)
        self.lost_count = len(self.lost)

    def look(self):
        """Operations without an end, with their writes that are not undone, and transactions without one, with what they did."""
        ended = set()
        for lsn, record in enumerate(self.devices.records, 1):
            kind = record[0]
            if kind == "write":
                self.open_writes.setdefault(record[1], []).append((lsn, record))
            elif kind == "back":
                self.open_writes[record[1]].pop()
            elif kind in ("void", "end", "undone"):
                self.open_writes.pop(record[1], None)
            elif kind in ("commit", "abort"):
                ended.add(record[1])
            if kind == "end":
                self.due.append((lsn, record))
                self.lost.add(record[1][0])
            if kind == "undone":
                self.due = [due for due in self.due if due[0] != record[2]]
            if kind in ("write", "end", "undone", "back", "void"):
                txn, number = record[1]
                self.numbers[txn] = max(number, self.numbers.get(txn, 0))
        self.lost -= ended
        self.due = [due for due in self.due if due[1][1][0] not in ended]

    def run(self):
        self.undo_writes()
        self.undo_deeds()

    def note(self, kind):
        self.met.append((len(self.devices.records), kind))

    def count_before(self, met):
        """What a crash left to be undone."""
        met["OneLost"] += self.lost_count == 1
        met["MoreLost"] += self.lost_count > 1
        met["TwoCut"] += self.unfinished > 1
        met["CutBesideLost"] += any(sub[0] != txn for sub, writes in self.open_writes.items() for txn in self.lost)
        met["EndWanting"] += sum(not self.has_due(txn) for txn in self.lost)
        for writes in self.open_writes.values():
            met["BetweenSteps"] += bool(writes) and writes[-1][1][3] in INVERSES.values() and writes[-1][1][4] > 0

    def undo_writes(self):
        for sub in sorted(sub for sub, writes in self.open_writes.items() if not writes):
            self.devices.add(("void", sub))
        writes = [write for writes in self.open_writes.values() for write in writes]
        for lsn, record in sorted(writes, key=lambda write: -write[0]):
            sub = record[1]
            self.devices.read()
            self.devices.add(("back", sub, record[2], lsn))
            self.open_writes[sub].pop()
            if not self.open_writes[sub]:
                self.devices.add(("void", sub))
                self.note(CUTS[record[3]])

    def has_due(self, txn):
        return any(record[1][0] == txn for _, record in self.due)

    def undo_deeds(self):
        for txn in sorted(txn for txn in self.lost if not self.has_due(txn)):
            self.devices.add(("abort", txn))
        while self.due:
            lsn, record = self.due.pop()
            txn, deed = record[1][0], record[2]
            self.devices.read()
            self.undo(txn, lsn, deed)
            if not self.has_due(txn):
                self.devices.add(("abort", txn))

    def undo(self, txn, lsn, deed):
        """An inverse, from its first slot write to its end."""
        self.numbers[txn] += 1
        sub, kind = (txn, self.numbers[txn]), INVERSES[deed.kind]
        cell = self.chains.lowest_free() if kind == "put-back" else None
        pages = self.chains.reach(kind, deed.sender, cell)
        for at, page in enumerate(pages, 1):
            self.devices.add(("write", sub, page, kind, len(pages) - at))
        self.devices.add(("undone", sub, lsn, cell))
        self.chains.do(kind, deed, cell)
        self.note(LOSSES[deed.kind])


CUTS = {
    "append": "SendCut", "take": "TakeCut", "close": "CloseCut", "unsend": "UnsendCut", "put-back": "BackCut", "reopen": "ReopenCut",
    "mark": "MarkCut", "unmark": "UnmarkCut",
}  # fmt: skip
LOSSES = {"append": "SendLost", "take": "TakeLost", "close": "CloseLost", "mark": "MarkLost"}
UNDOINGS = {"append": "SendUndone", "take": "TakeUndone", "close": "CloseUndone", "mark": "MarkUndone"}


class Store:
    """A store of so many directory, cell and tag pages, formatted and not open yet. It is opened in so many frames, where 0 means
    enough. What is worth counting is added to `met`."""

    def __init__(self, directory, cells, tags=0, frames=0, met=None):
        self.directory, self.cells, self.tags, self.frames = directory, cells, tags, frames
        self.senders, self.room, self.clients = directory * SLOTS, cells * SLOTS, tags * SLOTS
        self.devices = Devices(directory + cells, tags)
        self.chains = Chains(directory, cells)
        self.met = Counter() if met is None else met
        self.commits = []  # (transaction, LSN, its deeds), in order
        self.rows = {}
        self.open = self.failed = False
        self.formatted_tags = tags
        self.is_cut, self.mending = False, None  # whether no restart was begun since the last crash, and what the last one did
        self.migration = None  # of the one since the last crash, whether it was answered or cut off, and the base before it
        self.incarnation = self.begins = 0
        self.recount()

    # ---- the committed content, by the list of commits

    def recount(self):
        self.sends = [[] for _ in range(self.senders)]
        self.takes = [0] * self.senders
        self.ended = set()
        self.marks = [[] for _ in range(self.clients)]
        for _, _, deeds in self.commits:
            self.count(deeds)

    def count(self, deeds):
        for deed in deeds:
            if deed.kind == "append":
                self.sends[deed.sender].append((deed.tag, deed.body))
            elif deed.kind == "take":
                self.takes[deed.sender] += 1
            elif deed.kind == "mark":
                self.marks[deed.sender].append(deed.tag)
            else:
                self.ended.add(deed.sender)

    def rest(self, sender):
        """The messages that committed transactions sent and did not receive: pairs of tag and body."""
        return self.sends[sender][self.takes[sender] :]

    def left(self, sender):
        """How many these are."""
        return len(self.sends[sender]) - self.takes[sender]

    # ---- devices: power, failures, restarts

    def crash(self, keep, torn=0, places=()):
        """A crash. A store that is not open leaves all. Answers how many records are left."""
        if not self.open:
            keep, places = ALL, ()
        elif not self.failed:
            self.devices.handed = len(self.devices.records)
        return self.lose(keep, torn, places)

    def lose(self, keep, torn, places):
        before, images = len(self.devices.records), [page.images[-1] for page in self.devices.pages]
        differ = any(page.images[0] != page.images[-1] for page in self.devices.pages)
        self.devices.crash(keep, torn, places)
        self.met["Torn"] += self.devices.torn > 0
        left, base = len(self.devices.records), self.devices.base()
        self.met["Shorter"] += left < before
        if base:
            are_newest = images == [page.images[-1] for page in self.devices.pages]
            self.met["BaseAlone"] += left == base
            self.met["BaseTorn"] += self.devices.torn > 0
            self.met["BaseShorter"] += left < before
            self.met["BaseNewest" if are_newest else "BaseOld"] += differ
        self.look_at_size()
        self.commits = [commit for commit in self.commits if commit[1] <= left]
        self.recount()
        self.rows, self.open, self.failed = {}, False, False
        self.is_cut = True
        return left

    def look_at_size(self):
        """A migration whose superblock was left gave the store its tag pages."""
        tags = self.devices.pages[0].images[-1]
        is_grown = tags > self.tags
        if self.migration:
            how, base = self.migration
            self.met[f"{how}{'Grown' if is_grown else 'NotGrown' if self.devices.base() > base else 'AsItWas'}"] += 1
            self.migration = None
        if is_grown:
            self.devices.grow(tags - self.tags)
            self.tags, self.clients = tags, tags * SLOTS

    def restart(self):
        """A whole restart: (incarnation, unfinished, lost). Its records go out in one append, and are forced."""
        devices = self.devices
        devices.read_all()
        devices.load()
        self.chains = Chains(self.directory, self.cells)
        self.chains.play(devices.records)
        mending = self.mending = Mending(self)
        if self.is_cut:
            mending.count_before(self.met)
            self.met["BaseLost"] += devices.base() > 0 and mending.lost_count > 0
            self.met["BaseUnfinished"] += devices.base() > 0 and mending.unfinished > 0
            self.is_cut = False
        try:
            mending.run()
        except Refused:
            del devices.records[devices.handed :]
            raise
        incarnation = 1 + max((record[1] for record in devices.records if record[0] == "restart"), default=0)
        devices.add(("restart", incarnation))
        torn = devices.torn
        try:
            devices.force()
        except Refused:
            del devices.records[devices.handed :]
            raise
        finally:
            self.met["TornCut"] += devices.torn < torn
        self.open, self.failed, self.rows = True, False, {}
        self.incarnation, self.begins = incarnation, 0
        self.met["Opened"] += 1
        self.met["OpenedGrown"] += self.tags > self.formatted_tags
        self.met.update(kind for _, kind in mending.met)
        assert all(len(self.chains.of[s]) == self.left(s) for s in range(self.senders)), "a chain is not the committed rest"
        assert all(self.chains.marked(c) == self.client_tag(c) for c in range(self.clients)), "a client's slot has not its committed marks"
        return incarnation, mending.unfinished, mending.lost_count

    def has_idle_beside(self):
        """Whether of the transactions in the log without an end, which finished something, one has nothing left to undo beside one
        that has."""
        mending = Mending(self)
        idle = [txn for txn in mending.lost if not mending.has_due(txn)]
        return bool(idle) and bool(mending.due)

    def reads_of_restart(self):
        """How many reads a restart makes: those of an opening, and one of each record by which it knows what to undo."""
        mending = Mending(self)
        return self.devices.reads() + sum(map(len, mending.open_writes.values())) + len(mending.due)

    def records_wanted(self):
        """How many records a restart makes of a store that is not open."""
        twin = Store(self.directory, self.cells, self.tags)
        twin.commits = self.commits
        twin.recount()
        twin.devices.records = list(self.devices.records)
        twin.devices.handed = twin.devices.forced = before = len(twin.devices.records)
        twin.restart()
        return len(twin.devices.records) - before

    def restart_stopped(self, n, keep, torn=0, places=()):
        """A restart in whose nth device call the power fails: its report, or the number of records that are left."""
        before = len(self.devices.records)
        self.devices.stop(n)
        try:
            report = self.restart()
        except Stopped:
            made, is_cut = self.devices.records[before:], self.is_cut
            left = self.lose(keep, torn, places)
            self.is_cut = is_cut
            self.count_stop(made, left - before)
            return left
        finally:
            self.devices.stopping = 0
        return report

    def restart_cut_off(self, left, places):
        """The same in fewer frames than pages, where the program chooses which device calls it makes. So many records are left, if they
        may be; else those that were there before."""
        before, met, is_cut = len(self.devices.records), Counter(self.met), self.is_cut
        self.restart()
        made = self.devices.records[before:]
        left = left if before <= left <= before + len(made) else before
        del self.devices.records[left:]
        self.devices.handed = self.devices.forced = left
        self.met.clear()
        self.met.update(met)
        self.lose(ALL, 0, places)
        self.is_cut = is_cut
        self.met["StoppedInFew"] += 1
        self.count_stop(made, left - before)
        return left

    def count_stop(self, made, kept):
        """What a restart did, and was about, when it was stopped behind so many of its records."""
        if not 0 < kept < len(made):
            return
        self.met.update(kind for lsn, kind in self.mending.met if lsn <= len(self.devices.records))
        last, following = made[kept - 1], made[kept]
        self.met["StoppedOverBase"] += self.devices.base() > 0
        self.met["StoppedInInverse"] += last[0] == "write" and last[4] > 0
        self.met["StoppedBeforeVoid"] += following[0] == "void"
        self.met["StoppedBeforeEnd"] += following[0] == "abort"

    def call(self, name, *words):
        """What a call of this name answers; a refusal is raised."""
        if not self.open or self.failed:
            self.met["MigrationOfNone"] += name == "migrate"
            raise Refused("Failed")
        try:
            return getattr(self, name)(*words)
        except (Refused, Stopped) as met:
            if isinstance(met, Stopped) or met.name == "DiskWrite":
                self.failed = True
                del self.devices.records[self.devices.handed :]
            raise

    # ---- what is so of transactions and groups

    def ready(self, txn, aborting=False):
        """The row of a transaction with no operation under way, that is aborting or is not, as asked."""
        row = self.rows.get(txn)
        if row is None:
            raise Refused("UnknownTransaction")
        if row.aborting != aborting:
            self.met["NotAborting"] += aborting
            raise Refused("NotOpen")
        if row.work is not None:
            raise Refused("Unfinished")
        return row

    def works(self):
        return [row.work for row in self.rows.values() if row.work is not None]

    def latched(self):
        """The pages that operations under way have latched."""
        return set().union(*(work.pages for work in self.works()))

    def lacks_frames(self):
        """Whether there are fewer frames than pages behind the superblock. The program then chooses which of them it writes out."""
        return 0 < self.frames < len(self.devices.pages) - 1

    def take_frames(self, pages):
        """Refused where these pages, those that are latched and those whose last change is not forced are more than the frames."""
        forced = self.devices.forced
        staying = {number for number, page in enumerate(self.devices.pages) if page.lsn > forced}
        if self.lacks_frames() and len(staying.union(pages, self.latched())) > self.frames:
            raise Refused("PoolFull")

    def has_gone_out(self, number):
        """Notes that a page, if its last change is forced, was written out by the program's own choice."""
        page = self.devices.pages[number] if number < len(self.devices.pages) else None
        if self.lacks_frames() and page is not None and page.changed and page.lsn <= self.devices.forced:
            page.images.append(page.lsn)
            page.changed = False

    def others(self, row):
        return (other for other in self.rows.values() if other is not row)

    def in_use(self):
        """Cells of messages held, taken by transactions that have not ended, and meant for sends under way."""
        own = sum(deed.kind == "append" for row in self.rows.values() for _, deed in row.done)
        appending = sum(work.undoes is None and work.deed.kind == "append" for work in self.works())
        return sum(self.left(sender) for sender in range(self.senders)) + own + appending

    def taken(self, sender):
        """Messages of this sender that transactions which have not ended took."""
        return sum(deed.kind == "take" and deed.sender == sender for row in self.rows.values() for _, deed in row.done)

    def holds_for(self, row, sender):
        """Whether the group is free for the transaction, and holds a message for it."""
        return not any(sender in other.receiving for other in self.others(row)) and self.taken(sender) < self.left(sender)

    def sending_end(self, row, sender):
        """The refusals of a send or a close for the sending end of this sender."""
        if any(sender in other.sending for other in self.others(row)):
            raise Refused("SenderBusy")
        if sender in self.ended or any(deed.kind == "close" and deed.sender == sender for _, deed in row.done):
            raise Refused("Closed")

    def begin_work(self, row, deed, undoes, cell, pages):
        self.met["Beside"] += bool(self.works())
        row.number += 1
        row.work = Work(row.number, deed, undoes, cell, pages)
        return row.txn, row.number

    # ---- the calls

    def begin(self):
        if len(self.rows) == MOST_OPEN:
            raise Refused("TooManyTransactions")
        self.begins += 1
        txn = (self.incarnation, self.begins)
        self.rows[txn] = Row(txn)
        return txn

    def start_send(self, txn, sender, tag, body):
        row = self.ready(txn)
        if sender >= self.senders:
            raise Refused("UnknownSender")
        if len(body) > LONGEST_BODY:
            raise Refused("TooLong")
        self.sending_end(row, sender)
        if self.in_use() == self.room:
            raise Refused("Full")
        latched, chain = self.latched(), self.chains.of[sender]
        if self.chains.home(sender) in latched:
            self.refuse_latched("SendDirectory")
        if chain and self.chains.page(chain[-1]) in latched:
            self.refuse_latched("SendTail")
        cell = self.chains.lowest_free(latched)
        if cell is None:
            self.refuse_latched("SendCells")
        pages = self.chains.reach("append", sender, cell)
        self.take_frames(pages)
        self.met["HigherCell"] += cell != self.chains.lowest_free()
        row.sending.add(sender)
        return self.begin_work(row, Deed("append", sender, tag, body, cell), None, cell, pages)

    def refuse_latched(self, kind):
        self.met[kind] += 1
        raise Refused("Latched")

    def start_close(self, txn, sender):
        row = self.ready(txn)
        if sender >= self.senders:
            raise Refused("UnknownSender")
        self.sending_end(row, sender)
        if self.chains.home(sender) in self.latched():
            self.refuse_latched("CloseDirectory")
        pages = self.chains.reach("close", sender, None)
        self.take_frames(pages)
        self.met["Close" if self.chains.of[sender] else "CloseEmpty"] += 1
        row.sending.add(sender)
        return self.begin_work(row, Deed("close", sender), None, None, pages)

    def start_mark(self, txn, client, tag):
        row = self.ready(txn)
        if client >= self.clients:
            raise Refused("UnknownClient")
        if any(client in other.marking for other in self.others(row)):
            raise Refused("ClientBusy")
        if self.chains.client_page(client) in self.latched():
            self.refuse_latched("MarkPage")
        pages = self.chains.reach("mark", client, None)
        self.take_frames(pages)
        self.met["MarkedAgain"] += client in row.marking
        row.marking.add(client)
        deed = Deed("mark", client, tag, previous=self.chains.marked(client)[1])
        return self.begin_work(row, deed, None, None, pages)

    def take_latched(self, sender):
        """The kind of the latched page that a receive from this sender needs; None where none is."""
        latched, chain = self.latched(), self.chains.of[sender]
        if self.chains.home(sender) in latched:
            return "TakeDirectory"
        if self.chains.page(chain[0]) in latched:
            return "TakeHead"
        if len(chain) > 1 and self.chains.page(chain[1]) in latched:
            return "TakeNext" if self.left(sender) - self.taken(sender) > 1 else "TakeNextOpen"
        return None

    def start_receive(self, txn, picked=None):
        """From the group picked, where it may give one now; else from the one that the program looks at first."""
        row = self.ready(txn)
        groups = [sender for sender in range(self.senders) if self.holds_for(row, sender)]
        if not groups:
            return None
        free = [sender for sender in groups if self.take_latched(sender) is None]
        if not free:
            self.refuse_latched("TakeAny")
        self.met["OtherGroup"] += len(free) < len(groups)
        own = row.receiving[::-1]
        order = [picked, *own[:1], *(sender for sender in free if sender not in own), *own]
        return self.start_take(row, next(sender for sender in order if sender in free))

    def start_receive_from(self, txn, sender):
        row = self.ready(txn)
        if sender >= self.senders:
            raise Refused("UnknownSender")
        if any(sender in other.receiving for other in self.others(row)):
            raise Refused("ReceiverBusy")
        if not self.holds_for(row, sender):
            return None
        kind = self.take_latched(sender)
        if kind is not None:
            self.refuse_latched(kind)
        return self.start_take(row, sender)

    def start_take(self, row, sender):
        pages = self.chains.reach("take", sender, None)
        self.take_frames(pages)
        tag, body = self.sends[sender][self.takes[sender] + self.taken(sender)]
        if sender not in row.receiving:
            row.receiving.append(sender)
        return self.begin_work(row, Deed("take", sender, tag, body), None, None, pages)

    def work_of(self, sub):
        row = self.rows.get(sub[0])
        if row is None or row.work is None or row.work.number != sub[1]:
            raise Refused("UnknownOperation")
        return row, row.work

    def step(self, sub):
        """The LSN of a slot write, None where all are made."""
        _, work = self.work_of(sub)
        if not work.writes:
            return None
        page = work.writes.pop(0)
        kind = work.deed.kind if work.undoes is None else INVERSES[work.deed.kind]
        return self.devices.add(("write", sub, page, kind, len(work.writes)))

    def finish(self, sub):
        """The deed done; None where one was undone."""
        row, work = self.work_of(sub)
        if work.writes:
            raise Refused("Unfinished")
        row.work, deed = None, work.deed
        if work.undoes is None:
            row.done.append((self.devices.add(("end", sub, deed)), deed))
            self.chains.do(deed.kind, deed, work.cell)
            return deed
        row.done.pop()
        self.devices.add(("undone", sub, work.undoes, work.cell))
        self.chains.do(INVERSES[deed.kind], deed, work.cell)
        return None

    def commit(self, txn):
        row = self.ready(txn)
        lsn = self.devices.add(("commit", txn))
        deeds = [deed for _, deed in row.done]
        self.commits.append((txn, lsn, deeds))
        self.count(deeds)
        del self.rows[txn]
        return lsn

    def acknowledged(self, txn, lsn):
        is_given = txn[0] == self.incarnation and lsn <= self.devices.forced
        self.met["GivenOverBase"] += is_given and lsn < self.devices.base()
        return is_given

    def start_abort(self, txn):
        self.ready(txn).aborting = True

    def undo_next(self, txn):
        """The inverse that is started; None where nothing is left to undo."""
        row = self.ready(txn, True)
        if not row.done:
            return None
        lsn, deed = row.done[-1]
        kind, cell = INVERSES[deed.kind], None
        if kind == "unmark":
            if self.chains.client_page(deed.sender) in self.latched():
                self.refuse_latched("UnmarkPage")
        else:
            cell = self.cell_of_inverse(kind, deed)
        pages = self.chains.reach(kind, deed.sender, cell)
        self.take_frames(pages)
        self.met[UNDOINGS[deed.kind]] += 1
        return self.begin_work(row, deed, lsn, cell, pages)

    def cell_of_inverse(self, kind, deed):
        """The cell that the inverse of what was done at a chain needs; it is refused where a page of it is latched."""
        latched, chain, cell = self.latched(), self.chains.of[deed.sender], None
        name = {"unsend": "Unsend", "put-back": "Back", "reopen": "Reopen"}[kind]
        if self.chains.home(deed.sender) in latched:
            self.refuse_latched(f"{name}Directory")
        if kind == "unsend":
            self.unsend_latched(chain, latched)
        if kind == "put-back":
            if chain and self.chains.page(chain[0]) in latched:
                self.refuse_latched("BackHead")
            cell = self.chains.lowest_free(latched)
            if cell is None:
                self.refuse_latched("BackCells")
            self.met["HigherBack"] += cell != self.chains.lowest_free()
        return cell

    def unsend_latched(self, chain, latched):
        if self.chains.page(chain[-1]) in latched:
            self.refuse_latched("UnsendTail")
        if len(chain) > 1 and self.chains.page(chain[-2]) in latched:
            self.refuse_latched("UnsendBefore")

    def end_abort(self, txn):
        row = self.ready(txn, True)
        if row.done:
            self.met["EarlyEnd"] += 1
            raise Refused("Unfinished")
        self.devices.add(("abort", txn))
        del self.rows[txn]

    def hand_over(self):
        self.devices.hand_over()

    def force(self):
        self.devices.force()
        return self.devices.forced

    def checkpoint(self):
        if self.rows:
            raise Refused("NotQuiet")
        is_second = self.devices.base() == len(self.devices.records)
        self.in_parts("Checkpoint", self.parts_of_checkpoint())
        self.met["CheckpointedTwice"] += is_second
        return self.devices.forced

    def parts_of_checkpoint(self):
        devices = self.devices
        return [
            ("Force", devices.force), ("Write", devices.write_changed), ("Sync", devices.sync),
            ("Replace", lambda: devices.put_base(self.incarnation)),
        ]  # fmt: skip

    def in_parts(self, name, parts):
        """Does the parts in turn. In which one a device failed, or the machine stopped, is counted."""
        for part, work in parts:
            try:
                work()
            except (Refused, Stopped) as met:
                self.met[f"{name}{'Stopped' if isinstance(met, Stopped) else 'Failed'}In{part}"] += 1
                raise

    def calls_of_checkpoint(self):
        """How many device calls a checkpoint makes of an open store that runs: an append, a force, page writes, a sync, and the one
        that replaces the log."""
        devices = self.devices
        return (devices.handed < len(devices.records)) + 3 + sum(page.changed for page in devices.pages)

    def migrate(self, tags):
        """Gives a store without tag pages so many. It stops then."""
        if not 1 <= tags <= MOST_TAGS or self.tags:
            self.met["HasTags" if self.tags else "OddTags"] += 1
            raise Refused("BadTags")
        if self.rows:
            self.met["MigrationNotQuiet"] += 1
            raise Refused("NotQuiet")
        devices = self.devices
        self.migration = "CutOff", devices.base()
        parts = [("Tags", lambda: devices.write_behind(tags)), *self.parts_of_checkpoint()]
        self.in_parts("Migration", [*parts, ("Superblock", lambda: devices.write_superblock(tags)), ("LastSync", devices.sync)])
        self.migration, self.failed = ("Answered", self.migration[1]), True
        return devices.forced

    def calls_of_migration(self, tags):
        """How many device calls a migration makes: those of a checkpoint, the writes of the new pages before, and the write of the
        superblock and a sync behind."""
        return tags + self.calls_of_checkpoint() + 2

    def write_page(self, page):
        return self.devices.write(page)

    def last_tag(self, sender):
        if sender >= self.senders:
            raise Refused("UnknownSender")
        sends = self.sends[sender]
        return len(sends), sends[-1][0] if sends else 0

    def client_tag(self, client):
        """How many committed marks the client has, and the last one's tag."""
        if client >= self.clients:
            raise Refused("UnknownClient")
        marks = self.marks[client]
        return len(marks), marks[-1] if marks else 0

    def content(self):
        """Of each sender: sends, last tag, receives, whether it is closed, the rest."""
        if self.works():
            raise Refused("Unfinished")
        return [
            (len(self.sends[s]), self.last_tag(s)[1], self.takes[s], s in self.ended, self.rest(s)) for s in range(self.senders)
        ]
