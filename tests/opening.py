"""What an opening comes to, read from the bytes of a store by docs/FORMATS.md and docs/RECOVERY.md alone. That is the fault that it is
refused for, or what the store holds and what is added to its log. It is written plainly, and not from the program's code."""
from inspector import front, is_torn, record

PAGE, SLOT, SLOTS = 4096, 256, 15
LONGEST, MOST_TAGS = 2**50, 1024
SHORT, FULL = "fault 3 DiskRead", "fault 19 LogFull"

# By level and first byte, the least and the greatest length of a deed: append, unlink-head and close, then mark.
DEEDS = {(1, 1): (29, 245), (1, 2): (21, 237), (1, 3): (5, 5), (2, 1): (21, 21)}


class Fault(Exception):
    """It is refused, and this is said."""


def at_record(lsn):
    return Fault(f"damaged record {lsn}")


def at_page(number):
    return Fault(f"damaged page {number}")


def number(held, at, width=8):
    return int.from_bytes(held[at : at + width], "big")


class Group:
    """A directory slot."""

    def __init__(self, slot):
        self.state, self.sender = slot[0], number(slot, 4, 4)
        self.sent, self.received, self.tag, self.head, self.tail = (number(slot, at) for at in range(8, 48, 8))

    def slot(self):
        numbers = (self.sent, self.received, self.tag, self.head, self.tail)
        fields = bytes([self.state, 0, 0, 0]) + self.sender.to_bytes(4, "big")
        return (fields + b"".join(each.to_bytes(8, "big") for each in numbers)).ljust(SLOT, b"\0")


class Cell:
    """A used cell."""

    def __init__(self, slot):
        self.sender = number(slot, 4, 4)
        self.sequence, self.tag, self.next, self.before = (number(slot, at) for at in range(8, 40, 8))
        self.body = slot[40 : 40 + number(slot, 2, 2)]

    def slot(self):
        fields = b"\1\0" + len(self.body).to_bytes(2, "big") + self.sender.to_bytes(4, "big")
        numbers = (self.sequence, self.tag, self.next, self.before)
        return (fields + b"".join(each.to_bytes(8, "big") for each in numbers) + self.body).ljust(SLOT, b"\0")


class Client:
    """A client's slot."""

    def __init__(self, slot):
        self.client, self.count, self.tag = number(slot, 4, 4), number(slot, 8), number(slot, 16)

    def slot(self):
        fields = bytes([1, 0, 0, 0]) + self.client.to_bytes(4, "big")
        return (fields + self.count.to_bytes(8, "big") + self.tag.to_bytes(8, "big")).ljust(SLOT, b"\0")


class Deed:
    """What an OpEnd tells; None of `of` where no level reads it."""

    @classmethod
    def of(cls, level, held):
        least, most = DEEDS.get((level, held[0]), (1, 0))
        if not least <= len(held) <= most or (level == 1 and held[0] < 3 and number(held, 5) == 0):
            return None
        deed = cls()
        deed.level, deed.kind, deed.sender, deed.sequence, deed.tag = level, held[0], number(held, 1, 4), number(held, 5), number(held, 13)
        deed.previous, deed.body = number(held, 21), held[21:]
        if level == 2:
            deed.client, deed.tag, deed.previous = deed.sender, number(held, 5), number(held, 13)
        return deed


class Pages:
    """The pages of a store, checked as they are read."""

    def __init__(self, held):
        if len(held) < PAGE:
            raise Fault(SHORT)
        version, self.directory, self.cells, self.tags = (number(held, SLOT + at, 4) for at in (8, 12, 16, 20))
        block = b"RQMSTORE" + held[SLOT + 8 : SLOT + 24]
        in_range = 1 <= self.directory <= 1024 and 1 <= self.cells <= 65536
        in_range = in_range and ((version, self.tags) == (1, 0) or (version == 2 and 1 <= self.tags <= 1024))
        if not in_range or held[:PAGE] != bytes(SLOT) + block.ljust(PAGE - SLOT, b"\0"):
            raise at_page(0)
        self.tags_from, self.senders, self.clients = 1 + self.directory + self.cells, SLOTS * self.directory, SLOTS * self.tags
        self.count = self.tags_from + self.tags
        self.lsn, self.slots = [0], {}
        for page in range(1, self.count):
            self.take(page, held[page * PAGE : (page + 1) * PAGE])

    def take(self, page, held):
        if len(held) < PAGE:
            raise Fault(SHORT)
        kind = 1 if page <= self.directory else 2 if page < self.tags_from else 3
        if held[8:SLOT] != (page.to_bytes(4, "big") + bytes([kind])).ljust(SLOT - 8, b"\0"):
            raise at_page(page)
        self.lsn.append(number(held, 0))
        for place in range(1, SLOTS + 1):
            self.slots[page, place] = held[place * SLOT : (place + 1) * SLOT]
            if not self.may_stand(page, place, self.slots[page, place]):
                raise at_page(page)

    def is_address(self, address):
        return address == 0 or (self.directory < address // 16 < self.tags_from and address % 16 > 0)

    def may_stand(self, page, place, slot):
        """Whether a slot of this page may hold these bytes."""
        if not 1 <= page < self.count:
            return False
        if page <= self.directory:
            group = Group(slot)
            own = group.state in (1, 2) and group.sender == SLOTS * (page - 1) + place - 1 and group.received <= group.sent
            return own and self.is_address(group.head) and self.is_address(group.tail) and slot == group.slot()
        if page >= self.tags_from:
            client = Client(slot)
            return client.client == SLOTS * (page - self.tags_from) + place - 1 and slot == client.slot()
        if slot == bytes(SLOT):
            return True
        cell = Cell(slot)
        whole = slot[0] == 1 and number(slot, 2, 2) <= 216 and cell.sender < self.senders and cell.sequence > 0
        return whole and self.is_address(cell.next) and self.is_address(cell.before) and slot == cell.slot()

    def counted(self, page, slot):
        """What a sender sent, or how often a client was marked."""
        return Group(slot).sent if page <= self.directory else 0 if page < self.tags_from else Client(slot).count

    def check_numbers(self, records):
        """Neither an LSN nor such a number is beyond the log."""
        for page in range(1, self.count):
            counts = [self.counted(page, self.slots[page, place]) for place in range(1, SLOTS + 1)]
            if max([self.lsn[page], *counts]) > records:
                raise at_page(page)

    def write(self, lsn, page, place, slot):
        if self.lsn[page] < lsn:
            self.lsn[page], self.slots[page, place] = lsn, slot

    def home(self, sender):
        return 1 + sender // SLOTS, 1 + sender % SLOTS

    def client_home(self, client):
        return self.tags_from + client // SLOTS, 1 + client % SLOTS

    def client(self, client):
        return Client(self.slots[self.client_home(client)])

    def group(self, sender):
        return Group(self.slots[self.home(sender)])

    def cell(self, address):
        """The cell at an address; None where it is free, or there is none."""
        slot = self.slots[divmod(address, 16)] if address else bytes(SLOT)
        return None if slot == bytes(SLOT) else Cell(slot)

    def addresses(self):
        return (16 * page + place for page in range(1 + self.directory, self.tags_from) for place in range(1, SLOTS + 1))

    def lowest_free(self):
        return next((address for address in self.addresses() if self.cell(address) is None), None)

    def check_chains(self):
        met = set()
        for sender in range(self.senders):
            group, before = self.group(sender), 0
            at = group.head
            for sequence in range(group.received + 1, group.sent + 1):
                cell = self.cell(at)
                if cell is None or (cell.sender, cell.sequence, cell.before) != (sender, sequence, before):
                    raise at_page(self.home(sender)[0])
                met.add(at)
                before, at = at, cell.next
            if at != 0 or before != group.tail:
                raise at_page(self.home(sender)[0])
        for address in self.addresses():
            if address not in met and self.cell(address):
                raise at_page(address // 16)

    def content(self):
        """Of each sender: sends, the last tag, receives, whether it is closed, and the messages left."""
        held = {}
        for sender in range(self.senders):
            group, left = self.group(sender), []
            at = group.head
            while at:
                cell = self.cell(at)
                left.append((cell.tag, cell.body))
                at = cell.next
            held[sender] = group.sent, group.tag, group.received, group.state == 2, left
        return held

    def marks(self):
        """Of each client: how many marks, and the last one's tag."""
        return {client: (self.client(client).count, self.client(client).tag) for client in range(self.clients)}


class Opening:
    """An opening of a store with these files. It is made, or a fault is raised."""

    def __init__(self, pages, log):
        self.pages, self.records, self.incarnation = Pages(pages), 0, 0
        self.added = []  # The bytes of the records that are made.
        self.over, self.numbers = set(), {}  # Transactions that have ended, and the greatest number of the others' operations.
        self.writes = {}  # The writes of an operation without an end that are not undone, as (LSN, page, slot, before).
        self.due = {}  # What a transaction did and has not taken back, as (LSN, deed).
        as_read = Pages(pages)
        self.read(log)
        as_read.check_numbers(self.records)
        self.pages.check_numbers(self.records)
        self.unfinished = len(self.writes)
        self.undo_writes()
        self.lost = len(self.due)
        self.marks_undone = sum(deed.level == 2 for due in self.due.values() for _, deed in due)
        self.undo_deeds()
        self.pages.check_chains()
        self.add("restart", 7, [self.incarnation + 1])

    def read(self, log):
        at = 0
        while at < len(log):
            if self.records == LONGEST:
                raise Fault(FULL)
            found = front(log, at)
            if found is None:
                if is_torn(log[at:]):
                    return
                raise at_record(self.records + 1)
            name, numbers, end = found
            rest = log[at + 5 : end]
            if not self.note(name, numbers, rest):
                raise at_record(self.records + 1)
            at = end

    # ---- what a record may be, and what it does

    def note(self, name, numbers, rest):
        """Whether a record may come next; then it counts. `rest` has its fields."""
        lsn = self.records + 1
        if name == "restart":
            if numbers[0] != self.incarnation + 1:
                return False
            self.incarnation += 1
        elif name == "base":
            if self.records:
                return False
            lsn, self.incarnation = numbers[0] + 1, numbers[1]
        else:
            txn, sub = tuple(numbers[:2]), tuple(numbers[:3])
            if txn[0] != self.incarnation or txn in self.over or not getattr(self, name.replace("-", "_"))(lsn, txn, sub, numbers, rest):
                return False
        self.records = lsn
        return True

    def page_op(self, lsn, txn, sub, numbers, rest):
        page, place, before, after = *numbers[3:5], rest[-512:-256], rest[-256:]
        greatest = self.numbers.get(txn, 0)
        if sub not in self.writes and sub[2] != greatest + 1:
            return False
        if not self.pages.may_stand(page, place, after) or self.pages.counted(page, after) > lsn:
            return False
        if self.pages.lsn[page] < lsn and self.pages.slots[page, place] != before:
            return False
        self.writes.setdefault(sub, []).append((lsn, page, place, before))
        self.numbers[txn] = max(greatest, sub[2])
        self.pages.write(lsn, page, place, after)
        return True

    def page_undo(self, lsn, txn, sub, numbers, rest):
        undone, page, place, after = *numbers[3:6], rest[-256:]
        if not self.writes.get(sub) or self.writes[sub][-1] != (undone, page, place, after):
            return False
        if not self.pages.may_stand(page, place, after) or self.pages.counted(page, after) > lsn:
            return False
        self.writes[sub].pop()
        self.pages.write(lsn, page, place, after)
        return True

    def op_end(self, lsn, txn, sub, numbers, rest):
        deed = Deed.of(numbers[3], rest[25:])
        if sub not in self.writes or deed is None:
            return False
        del self.writes[sub]
        self.due.setdefault(txn, []).append((lsn, deed))
        return True

    def op_void(self, lsn, txn, sub, numbers, rest):
        return self.writes.pop(sub, None) is not None

    def comp_end(self, lsn, txn, sub, numbers, rest):
        if sub not in self.writes or not self.due.get(txn) or self.due[txn][-1][0] != numbers[3]:
            return False
        del self.writes[sub]
        self.due[txn].pop()
        return True

    def commit(self, lsn, txn, sub, numbers, rest):
        self.over.add(txn)
        self.due.pop(txn, None)
        return True

    abort_end = commit

    # ---- what is undone

    def add(self, name, kind, numbers, rest=b""):
        """Makes a record behind the log. One that may not stand there is named."""
        if self.records == LONGEST:
            raise Fault(FULL)
        made = record(kind, numbers, rest)
        if not self.note(name, numbers, made[5:]):
            raise at_record(self.records + 1)
        self.added.append(made)

    def undo_writes(self):
        for sub in sorted(sub for sub, writes in self.writes.items() if not writes):
            self.add("op-void", 4, [*sub])
        left = sorted(((write, sub) for sub, writes in self.writes.items() for write in writes), reverse=True)
        for (lsn, page, place, before), sub in left:
            self.add("page-undo", 2, [*sub, lsn, page, place], before)
            if not self.writes[sub]:
                self.add("op-void", 4, [*sub])

    def undo_deeds(self):
        for txn in sorted(txn for txn, due in self.due.items() if not due):
            self.add("abort-end", 8, [*txn])
        while self.due:
            txn = max(self.due, key=lambda each: self.due[each][-1][0])
            lsn, deed = self.due[txn][-1]
            if self.records == LONGEST:
                raise Fault(FULL)
            writes, operation = self.inverse(deed), self.numbers[txn] + 1
            if writes is None or operation >= 2**64:
                raise at_record(lsn)
            for (page, place), after, before in writes:
                self.add("page-op", 1, [*txn, operation, page, place], before + after)
            self.add("comp-end", 5, [*txn, operation, lsn])
            if not self.due[txn]:
                self.add("abort-end", 8, [*txn])

    def inverse(self, deed):
        """The slot writes that take a deed back: where, what is written, and what stands there; None where it cannot be."""
        if deed.level == 2:
            return self.unmark(deed)
        if deed.sender >= self.pages.senders:
            return None
        group, home = self.pages.group(deed.sender), self.pages.home(deed.sender)
        stood, cells = group.slot(), {1: self.unlink_tail, 2: self.put_back, 3: self.reopen}[deed.kind](deed, group)
        if cells is None:
            return None
        writes = [(divmod(address, 16), slot, self.pages.slots[divmod(address, 16)]) for address, slot in cells]
        return [*writes, (home, group.slot(), stood)]

    def unmark(self, deed):
        if deed.client >= self.pages.clients:
            return None
        home, client = self.pages.client_home(deed.client), self.pages.client(deed.client)
        stood = client.slot()
        if client.count == 0 or client.tag != deed.tag:
            return None
        client.count, client.tag = client.count - 1, deed.previous
        return [(home, client.slot(), stood)]

    def unlink_tail(self, deed, group):
        tail = self.pages.cell(group.tail)
        if tail is None or not group.received < group.sent == deed.sequence == tail.sequence:
            return None
        written, front_cell = [(group.tail, bytes(SLOT))], self.pages.cell(tail.before)
        if tail.before:
            if front_cell is None:
                return None
            front_cell.next = 0
            written.append((tail.before, front_cell.slot()))
        group.sent, group.tag, group.tail = group.sent - 1, deed.previous, tail.before
        group.head = group.head if tail.before else 0
        return written

    def put_back(self, deed, group):
        free, head = self.pages.lowest_free(), self.pages.cell(group.head)
        if free is None or deed.sequence != group.received or (group.head and head is None):
            return None
        cell = Cell(bytes(SLOT))
        cell.sender, cell.sequence, cell.tag, cell.next, cell.body = deed.sender, deed.sequence, deed.tag, group.head, deed.body
        written = [(free, cell.slot())]
        if head:
            head.before = free
            written.append((group.head, head.slot()))
        group.received, group.tail = group.received - 1, group.tail if group.head else free
        group.head = free
        return written

    def reopen(self, deed, group):
        if group.state != 2:
            return None
        group.state = 1
        return []


def said_of(pages, log):
    """What `bench open` says of a store, and the opening where it is made; the log that it leaves then."""
    try:
        opening = Opening(pages, log)
    except Fault as fault:
        return str(fault), None, log
    at, left = 0, log
    while at < len(log) and front(log, at):
        at = front(log, at)[2]
    left = log[:at] + b"".join(opening.added)
    said = f"restarted {opening.incarnation} unfinished {opening.unfinished} lost {opening.lost}"
    return said, opening, left


def checkpointed(pages, log):
    """What `rqm checkpoint` prints of a store, its log then, and the opening where it is made."""
    return made_one_record(pages, log, "checkpoint")


def migrated(pages, log, tags):
    """The same of `rqm migrate` with so many tag pages."""
    return made_one_record(pages, log, "migrated", tags)


def made_one_record(pages, log, word, tags=None):
    said, made, left = said_of(pages, log)
    if made is None:
        return "fault 16 Damaged\n" if said.startswith("damaged") else f"{said}\n", log, None
    if tags is not None and (made.pages.tags or not 1 <= tags <= MOST_TAGS):
        return f"{said}\nfault 24 BadTags\n", left, made
    if made.records == LONGEST:
        return f"{said}\nfault 19 LogFull\n", left, made
    return f"{said}\n{word} {made.records + 1}\n", record(9, [made.records, made.incarnation]), made
