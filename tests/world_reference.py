"""What happenings come to, by the reference: a line each, as the word `happenings` of crates/bench prints it."""
from reference import ALL, Refused, Stopped, Store


def shown(txn):
    return f"{txn[0]}.{txn[1]}"


def txn_of(word):
    incarnation, _, count = word.partition(b".")
    return int(incarnation), int(count)


def choice_of(keep, images):
    """What a crash keeps: how many unforced records, how many bytes of the next, and of each page the place of its image."""
    records, _, torn = keep.partition(b"+")
    return int(records), int(torn or 0), [] if images == b"-" else [int(place) for place in images.split(b",")]


# How the words behind the name of a call are read.
READERS = {
    b"begin": [], b"start-receive": [txn_of], b"start-receive-from": [txn_of, int], b"start-close": [txn_of, int],
    b"step": [txn_of, int], b"finish": [txn_of, int], b"commit": [txn_of], b"start-abort": [txn_of], b"undo-next": [txn_of],
    b"end-abort": [txn_of], b"hand-over": [], b"force": [], b"checkpoint": [], b"write": [int], b"last": [int], b"content": [],
    b"start-mark": [txn_of, int, int], b"tag": [int], b"migrate": [int],
}  # fmt: skip


def call_of(text):
    """The name of a call and its words."""
    if text.startswith(b"start-send "):
        _, txn, sender, tag, body = text.split(b" ", 4)
        return b"start-send", [txn_of(txn), int(sender), int(tag), body]
    name, *words = text.split(b" ")
    return name, [read(word) for read, word in zip(READERS[name], words, strict=True)]


class World:
    """A store to which anything may happen. `printed` has a line for each happening so far; `met` is counted as by a store."""

    def __init__(self, directory, cells, tags=0, frames=0, met=None):
        self.store = Store(directory, cells, tags, frames, met)
        self.met = self.store.met
        self.printed = []
        self.numbers = {}  # transaction and LSN of the commit that a happening answered, by its number from 1
        self.told = b""  # what the program printed of the happening
        self.row = 0  # how many restarts were stopped one after the other, each with some of its records made

    def happen(self, line, picked=None, told=b""):
        """What the happening comes to. A receive of any group takes from the sender picked, where it may. Where frames are fewer
        than pages, a page that is told to have no change went out before, if it may have. A restart that is stopped leaves as many
        records as it told, if it may."""
        self.told = told
        before = len(self.store.devices.records)
        was_idle = self.store.has_idle_beside() if line.startswith(b"restart-stop") else False
        was_aborting = any(row.aborting for row in self.store.rows.values())
        try:
            said = self.come_to(line, picked)
        except Refused as refused:
            said = f"refused {refused}"
            self.met[refused.name] += 1
        self.printed.append(said if isinstance(said, bytes) else said.encode())
        self.count(line, self.printed[-1], before, was_aborting, was_idle)
        return self.printed[-1]

    def count(self, line, said, before, was_aborting, was_idle):
        if said.startswith(b"crashed"):
            self.met["CrashedInAbort"] += was_aborting
            self.met["StoppedCallInAbort"] += was_aborting and line.startswith(b"stop-in")
            self.met["StoppedCall"] += line.startswith(b"stop-in")
        is_stopped = line.startswith(b"restart-stop") and said.startswith(b"crashed") and int(said.split()[1]) > before
        self.row = self.row + 1 if is_stopped else 0
        self.met["StoppedIdle"] += is_stopped and was_idle
        if 0 < self.row < 4:
            self.met[("StoppedOnce", "StoppedTwice", "StoppedThrice")[self.row - 1]] += 1

    def come_to(self, line, picked):
        name, _, rest = line.partition(b" ")
        special = getattr(self, name.decode().replace("-", "_") + "_", None)
        return special(*rest.split(b" ", 3)) if special and rest else special() if special else self.call(line, picked)

    # ---- what is no call

    def ack_(self, n):
        if int(n) not in self.numbers:
            self.met["AckOfNothing"] += 1
            return "nothing"
        txn, lsn = self.numbers[int(n)]
        is_given = self.store.call("acknowledged", txn, lsn)
        self.met["Given" if is_given else "NotGiven"] += 1
        return f"receipt {shown(txn)} {lsn}" if is_given else "no-receipt"

    def fail_(self, n):
        self.store.devices.fail(int(n))
        self.met["Armed"] += 1
        return "nothing"

    def crash_(self, keep, images):
        return f"crashed {self.store.crash(*choice_of(keep, images))}"

    def stop_in_(self, n, keep, images, text):
        self.store.devices.stop(int(n))
        try:
            return self.call(text, None)
        except Stopped:
            return self.crash_(keep, images)
        finally:
            self.store.devices.stopping = 0

    def restart_(self):
        return self.opened(lambda: self.store.restart())

    def restart_stop_(self, n, keep, images):
        if self.store.lacks_frames():
            if self.told.startswith(b"restarted"):
                return self.restart_()
            left = int(self.told.split(b" ")[1]) if self.told.startswith(b"crashed") else 0
            return self.opened(lambda: self.store.restart_cut_off(left, choice_of(keep, images)[2]))
        return self.opened(lambda: self.store.restart_stopped(int(n), *choice_of(keep, images)))

    def opened(self, restart):
        if self.store.open:
            self.met["Running"] += 1
            return "running"
        try:
            came = restart()
        except Refused as refused:
            self.met["NotOpened"] += 1
            return f"not-opened {refused}"
        if isinstance(came, int):
            return f"crashed {came}"
        incarnation, unfinished, lost = came
        self.met["UnfinishedUndone"] += unfinished
        self.met["LostUndone"] += lost
        self.met["BothUndone"] += unfinished > 0 and lost > 0
        self.met["OpenedBehindAbort"] += self.holds_abort()
        return f"restarted {incarnation} {unfinished} {lost} {len(self.store.devices.records)}"

    def holds_abort(self):
        """Whether the log holds the end of an abort behind that of an inverse."""
        kinds = [record[0] for record in self.store.devices.records]
        return "undone" in kinds and "abort" in kinds[kinds.index("undone") :]

    # ---- calls

    def call(self, text, picked):
        name, words = call_of(text)
        if name in (b"step", b"finish"):
            words = [tuple(words)]
        if name == b"start-receive":
            words.append(picked)
        if name == b"write" and self.told == b"not-written":
            self.store.has_gone_out(*words)
        call = {b"write": "write_page", b"last": "last_tag", b"tag": "client_tag"}.get(name, name.decode().replace("-", "_"))
        try:
            came = self.store.call(call, *words)
        except Refused as refused:
            self.met["ContentUnfinished"] += name == b"content" and refused.name == "Unfinished"
            raise
        said, kind = getattr(self, "said_of_" + call)(came, words)
        self.met[kind] += 1
        return said

    def said_of_begin(self, txn, _):
        return f"begun {shown(txn)}", "Begun"

    def started(self, sub, kind, none, none_kind):
        return (none, none_kind) if sub is None else (f"started {shown(sub[0])} {sub[1]}", kind)

    def said_of_start_send(self, sub, _):
        return self.started(sub, "SendStarted", "", "")

    def said_of_start_receive(self, sub, _):
        return self.started(sub, "AnyTakeStarted", "none", "NoneOfAny")

    def said_of_start_receive_from(self, sub, _):
        return self.started(sub, "TakeStarted", "none", "NoneFrom")

    def said_of_start_close(self, sub, _):
        return self.started(sub, "CloseStarted", "", "")

    def said_of_start_mark(self, sub, _):
        return self.started(sub, "MarkStarted", "", "")

    def said_of_undo_next(self, sub, _):
        return self.started(sub, "UndoStarted", "nothing-left", "NothingLeft")

    def said_of_step(self, lsn, _):
        return ("ready", "Ready") if lsn is None else (f"lsn {lsn}", "Stepped")

    def said_of_finish(self, deed, _):
        if deed is None:
            return "undone", "Undone"
        if deed.kind == "take":
            return f"message {deed.sender} {deed.tag} ".encode() + deed.body, "Received"
        return {"append": ("sent", "Sent"), "close": ("closed", "GroupClosed"), "mark": ("marked", "Marked")}[deed.kind]

    def said_of_commit(self, lsn, words):
        self.numbers[len(self.printed) + 1] = words[0], lsn
        return f"committed {shown(words[0])} {lsn}", "Committed"

    def said_of_start_abort(self, _, __):
        return "aborting", "Aborting"

    def said_of_end_abort(self, _, __):
        return "aborted", "Aborted"

    def said_of_hand_over(self, _, __):
        return "handed-over", "HandedOver"

    def said_of_force(self, lsn, _):
        return f"forced {lsn}", "Forced"

    def said_of_checkpoint(self, lsn, _):
        return f"checkpoint {lsn}", "Checkpointed"

    def said_of_migrate(self, lsn, _):
        return f"migrated {lsn}", "Migrated"

    def said_of_write_page(self, is_written, _):
        return ("written", "Written") if is_written else ("not-written", "NotWritten")

    def said_of_last_tag(self, last, _):
        return f"last {last[0]} {last[1]}", "LastTag"

    def said_of_client_tag(self, last, _):
        return f"tag {last[0]} {last[1]}", "ClientTag" if last[0] else "NoClientTag"

    def said_of_content(self, groups, _):
        said = [f"content {len(groups)}".encode()]
        for sender, (sent, tag, received, is_closed, rest) in enumerate(groups):
            if sent or is_closed:
                said.append(f" / {sender} {sent} {tag} {received} {'closed' if is_closed else 'open'}".encode())
                said += [f" : {sender} {message[0]} ".encode() + message[1] for message in rest]
        return b"".join(said), "Content"


def picked_at(lines, told, at):
    """The sender that the receive takes from which starts at this place, by the message that its end tells; None where it has no
    end."""
    if at >= len(told) or not told[at].startswith(b"started ") or not lines[at].startswith(b"start-receive "):
        return None
    end = b"finish " + told[at].removeprefix(b"started ")
    for line, said in zip(lines[at:], told[at:]):
        if said.startswith(b"message ") and (line == end or line.endswith(b" " + end)):
            return int(said.split(b" ")[1])
        if said.startswith(b"crashed"):
            return None
    return None


def printed_by(lines, sizes, told=()):
    """What all happenings come to. The lines told say which group a receive takes from, and what the program chose in few frames."""
    world = World(*sizes)
    for at, line in enumerate(lines):
        world.happen(line, picked_at(lines, told, at), told[at] if at < len(told) else b"")
    return world.printed
