"""What a script prints, by the reference."""
import re

from reference import ALL, Refused, Store

NUMBER = re.compile(rb"[0-9]+")
OPENED = b"restarted 1 unfinished 0 lost 0"


class Fault(Exception):
    """The line is no command."""


def number(word, bound=ALL):
    if not NUMBER.fullmatch(word) or int(word) > bound:
        raise Fault
    return int(word)


def short(word):
    return number(word, 2**32 - 1)


def txn(word):
    incarnation, dot, count = word.partition(b".")
    if not dot:
        raise Fault
    return number(incarnation), number(count)


def one_of(*choices):
    def read(word):
        if word not in choices:
            raise Fault
        return word.decode()

    return read


def kept(word):
    """How many records, and how many bytes of the next."""
    records, plus, torn = word.partition(b"+")
    return ALL if records == b"all" else number(records), number(torn) if plus else 0


# The words behind each command, how to read each.
FORMS = {
    b"begin": [()], b"force": [()], b"dump": [()], b"restart": [(), (number,)], b"recv": [(txn,)], b"recv-from": [(txn, short)],
    b"close": [(txn, short)], b"commit": [(txn,)], b"ack": [(txn,)], b"abort": [(txn,)], b"start-abort": [(txn,)],
    b"undo": [(txn,)], b"end-abort": [(txn,)], b"step": [(txn, number)], b"finish": [(txn, number)], b"write": [(short,)],
    b"last": [(short,)], b"fail": [(one_of(b"read", b"write", b"force"),)], b"crash": [(kept,), (kept, one_of(b"old"))],
    b"checkpoint": [()], b"mark": [(txn, short, number)], b"tag": [(short,)], b"migrate": [(short,)],
}  # fmt: skip


def parse(line):
    """The name of a line's command and its words, read; a fault where it is none."""
    name, *words = line.split(b" ")
    if name in (b"send", b"open-send"):
        words = line.split(b" ", 4)[1:]
        if len(words) < 3:
            raise Fault
        return name, [txn(words[0]), short(words[1]), number(words[2]), words[3] if len(words) > 3 else b""]
    for form in FORMS.get(name, []):
        if len(form) == len(words):
            return name, [read(word) for read, word in zip(form, words)]
    raise Fault


def shown(txn):
    return f"{txn[0]}.{txn[1]}"


class Script:
    """A script over a store of so many directory, cell and tag pages, in so many frames, from its opening on. `printed` is a line for
    each of its lines so far, behind that of the opening; `status` is its exit status once it has ended. `met` is counted as by a
    store."""

    def __init__(self, directory, cells, tags=0, frames=0, met=None):
        self.store = Store(directory, cells, tags, frames, met)
        self.met = self.store.met
        self.store.restart()
        self.numbers = {}  # the LSN of each commit of this incarnation, by transaction
        self.stops = 0  # restarts that were stopped since the last whole one, each with some of its records made
        self.printed, self.status = [OPENED], None
        self.lines = 0

    def run(self, line, told=b""):
        """Runs a line. A receive of any group takes from the sender of the message told, where it may. A page that has no change by what
        was told went out before, where it may have."""
        self.lines += 1
        try:
            self.printed.append(self.answer(line, told))
        except Refused as refused:
            self.printed.append(f"refused {refused}".encode())
            self.met[refused.name] += 1
        except Fault:
            self.end(f"fault line {self.lines}")
        return self.printed[-1]

    def end(self, fault):
        self.printed.append(fault.encode())
        self.status = 1

    def answer(self, line, told):
        name, words = parse(line)
        if name == b"restart":
            return self.restart(*words)
        if not self.store.open:
            raise Refused("Failed")
        if name == b"recv":
            words.append(int(told.split(b" ")[1]) if told.startswith(b"msg ") else None)
        if name == b"write" and told == b"nothing":
            self.store.has_gone_out(*words)
        said = getattr(self, name.decode().replace("-", "_"))(*words)
        return said if isinstance(said, bytes) else said.encode()

    def call(self, name, *words):
        return self.store.call(name, *words)

    def whole(self, sub):
        """The slot writes and the end of an operation that was started."""
        while self.call("step", sub) is not None:
            self.met["Stepped"] += 1
        self.met["Ready"] += 1
        return self.call("finish", sub)

    # ---- commands

    def begin(self):
        self.met["Begun"] += 1
        return f"begun {shown(self.call('begin'))}"

    def send(self, *words):
        sub = self.call("start_send", *words)
        self.met["SendStarted"] += 1
        self.whole(sub)
        self.met["Sent"] += 1
        return "sent"

    def open_send(self, *words):
        txn, number = self.call("start_send", *words)
        self.met["SendStarted"] += 1
        return f"op {shown(txn)} {number}"

    def step(self, *sub):
        lsn = self.call("step", sub)
        self.met["Ready" if lsn is None else "Stepped"] += 1
        return "ready" if lsn is None else f"lsn {lsn}"

    def finish(self, *sub):
        deed = self.call("finish", sub)
        kind, said = ("Undone", "undone") if deed is None else ("Marked", "marked") if deed.kind == "mark" else ("Sent", "sent")
        self.met[kind] += 1
        return said

    def recv(self, txn, picked):
        return self.received(self.call("start_receive", txn, picked), "AnyTakeStarted", "NoneOfAny")

    def recv_from(self, txn, sender):
        return self.received(self.call("start_receive_from", txn, sender), "TakeStarted", "NoneFrom")

    def received(self, sub, kind, none):
        self.met[none if sub is None else kind] += 1
        if sub is None:
            return "none"
        deed = self.whole(sub)
        self.met["Received"] += 1
        return f"msg {deed.sender} {deed.tag}".encode() + (b" " + deed.body if deed.body else b"")

    def close(self, *words):
        sub = self.call("start_close", *words)
        self.met["CloseStarted"] += 1
        self.whole(sub)
        self.met["GroupClosed"] += 1
        return "closed"

    def mark(self, *words):
        sub = self.call("start_mark", *words)
        self.met["MarkStarted"] += 1
        self.whole(sub)
        self.met["Marked"] += 1
        return "marked"

    def commit(self, txn):
        self.numbers[txn] = self.call("commit", txn)
        self.met["Committed"] += 1
        return f"commit {self.numbers[txn]}"

    def ack(self, txn):
        if self.store.failed:
            raise Refused("Failed")
        if txn not in self.numbers:
            raise Refused("UnknownTransaction")
        is_given = self.call("acknowledged", txn, self.numbers[txn])
        self.met["Given" if is_given else "NotGiven"] += 1
        return "yes" if is_given else "no"

    def abort(self, txn):
        try:
            self.start_abort(txn)
        except Refused as refused:
            if refused.name != "NotOpen":
                raise
        while (sub := self.call("undo_next", txn)) is not None:
            self.met["UndoStarted"] += 1
            self.whole(sub)
            self.met["Undone"] += 1
        return self.end_abort(txn)

    def start_abort(self, txn):
        self.call("start_abort", txn)
        self.met["Aborting"] += 1
        return "aborting"

    def undo(self, txn):
        sub = self.call("undo_next", txn)
        self.met["NothingLeft" if sub is None else "UndoStarted"] += 1
        return "none" if sub is None else f"op {shown(sub[0])} {sub[1]}"

    def end_abort(self, txn):
        self.call("end_abort", txn)
        self.met["Aborted"] += 1
        return "aborted"

    def force(self):
        lsn = self.call("force")
        self.met["Forced"] += 1
        return f"forced {lsn}"

    def checkpoint(self):
        lsn = self.call("checkpoint")
        self.met["Checkpointed"] += 1
        return f"checkpoint {lsn}"

    def migrate(self, pages):
        lsn = self.call("migrate", pages)
        self.met["Migrated"] += 1
        return f"migrated {lsn}"

    def write(self, page):
        is_written = self.call("write_page", page)
        self.met["Written" if is_written else "NotWritten"] += 1
        return "written" if is_written else "nothing"

    def last(self, sender):
        sent, tag = self.call("last_tag", sender)
        self.met["LastTag"] += 1
        return f"last {sent} {tag}"

    def tag(self, client):
        count, tag = self.call("client_tag", client)
        self.met["ClientTag" if count else "NoClientTag"] += 1
        return f"tag {count} {tag}"

    def dump(self):
        try:
            groups = self.call("content")
        except Refused as refused:
            self.met["ContentUnfinished"] += refused.name == "Unfinished"
            raise
        self.met["Content"] += 1
        lines = []
        for sender, (sent, _, received, is_closed, rest) in enumerate(groups):
            if sent or is_closed:
                state = "closed" if is_closed else "open"
                head = f"{sender} {state} sent {sent} received {received}:".encode()
                lines.append(head + b"".join(b" " + body for _, body in rest))
        return b"\n".join(lines) or b"empty"

    def fail(self, kind):
        self.store.devices.armed.add(kind)
        self.met["Armed"] += 1
        return "armed"

    def crash(self, choice, old=None):
        keep, torn = choice
        self.numbers, self.stops = {}, 0
        self.met["OldImages"] += old is not None
        left = self.store.crash(keep, torn, [0] * len(self.store.devices.pages) if old else ())
        if self.store.devices.torn != torn:
            raise Fault
        return f"crashed {left}"

    def restart(self, keep=None):
        if self.store.open:
            self.met["Running"] += 1
            return b"running"
        try:
            return self.reopened(keep)
        except Refused as refused:
            self.met["NotOpened"] += 1
            self.status = 1
            return f"fault {refused}".encode()

    def reopened(self, keep):
        """A restart; one that is to be stopped behind so many records is stopped in its append, where it makes more."""
        devices = self.store.devices
        before = len(devices.records)
        if keep is not None and keep < self.store.records_wanted() and not {"read", "write"} & devices.armed:
            left = self.store.restart_stopped(self.store.reads_of_restart() + (2 if devices.torn else 1), keep)
            self.stops += left > before
            return f"stopped {left}".encode()
        incarnation, unfinished, lost = self.store.restart()
        if self.stops:
            self.met[("StoppedOnce", "StoppedTwice", "StoppedThrice")[min(self.stops, 3) - 1]] += 1
        self.stops = 0
        return f"restarted {incarnation} unfinished {unfinished} lost {lost}".encode()


def printed_by(lines, sizes, told=()):
    """All that a script prints over a store of these sizes, and its exit status. The lines told, behind that of the opening, tell which
    group a receive takes from."""
    script, place = Script(*sizes), 1
    for line in lines:
        printed = script.run(line, told[place] if place < len(told) else b"")
        place += printed.count(b"\n") + 1  # a dump prints a line for each group
        if script.status is not None:
            break
    return b"\n".join(script.printed).split(b"\n"), script.status or 0
