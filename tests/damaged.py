#!/usr/bin/env python3
"""Has `bench open` open stores whose pages or log are damaged, and compares what it says with what docs/FORMATS.md does. Where
`rt ci` left the program as Rattle's own compiler builds it too, that one opens them as well. `rqm serve` opens stores with more pages
in 8 frames, and refuses them alike. What it leaves then, `bench open` refuses for the same page or record. Where the damage is mended,
it is opened.

    python3 tests/damaged.py [--program PROGRAM] [--rqm PROGRAM]
"""
import argparse
import os
import pathlib
import re
import subprocess
import sys
import tempfile
from concurrent.futures import ThreadPoolExecutor
from itertools import accumulate

from cases import MOST_SECONDS, built, built_twice
from inspector import front, record
from opening import said_of

PAGE, SLOT = 4096, 256
OPENED, UNREAD = "opened", "fault 3 DiskRead"


def at_record(lsn):
    return f"damaged record {lsn}"


def at_page(number):
    return f"damaged page {number}"


# ---- slots: of sender 0, whose messages are `hello` of tag 7, unless another is named


FREE = bytes(SLOT)


def numbers_of(*fields):
    """Numbers with their widths, one behind the other."""
    return b"".join(number.to_bytes(width, "big") for number, width in fields)


def group(sent=0, received=0, head=0, tail=0, sender=0, state=1):
    last_tag = 7 if sent else 0
    slot = numbers_of((state, 1), (0, 3), (sender, 4), (sent, 8), (received, 8), (last_tag, 8), (head, 8), (tail, 8))
    return slot.ljust(SLOT, b"\0")


def closed(*numbers):
    return group(*numbers, state=2)


def cell(sequence, before=0, behind=0, sender=0):
    """A message, and the addresses of the cells before it and behind it."""
    slot = numbers_of((1, 1), (0, 1), (5, 2), (sender, 4), (sequence, 8), (7, 8), (behind, 8), (before, 8)) + b"hello"
    return slot.ljust(SLOT, b"\0")


def client(number, count=0, tag=0):
    """How often a client was marked, and the last tag."""
    return numbers_of((1, 1), (0, 3), (number, 4), (count, 8), (tag, 8)).ljust(SLOT, b"\0")


# the first message of sender 0 in the first cell of a small store, whose address is 33, and the slot of its group then
MESSAGE, ONE_SENT = cell(1), group(1, 0, 33, 33)
# what was sent has been received
ONE_TAKEN = group(1, 1)


# ---- records: of the transaction 1.1, unless another is named


def restart(incarnation):
    return record(7, [incarnation])


def base(count, incarnation=1):
    return record(9, [count, incarnation])


def write(operation, page, slot, before, after, txn=1):
    return record(1, [1, txn, operation, page, slot], before + after)


def undo(operation, undone, page, slot, after, txn=1):
    return record(2, [1, txn, operation, undone, page, slot], after)


def end(operation, deed, level=1, txn=1):
    return record(3, [1, txn, operation, level], deed)


def void(operation, txn=1):
    return record(4, [1, txn, operation])


def back(operation, undone, txn=1):
    return record(5, [1, txn, operation, undone])


COMMIT, ABORT_END = record(6, [1, 1]), record(8, [1, 1])


def sent(sender, sequence, previous=0):
    return numbers_of((1, 1), (sender, 4), (sequence, 8), (7, 8), (previous, 8)) + b"hello"


def received(sender, sequence):
    return numbers_of((2, 1), (sender, 4), (sequence, 8), (7, 8)) + b"hello"


def closing(sender):
    return numbers_of((3, 1), (sender, 4))


def marked(client, tag, previous=0):
    return numbers_of((1, 1), (client, 4), (tag, 8), (previous, 8))


BEGUN = restart(1)
# a message is written into the first cell, its group counts it, and that ends
FILL, COUNT = write(1, 2, 1, FREE, MESSAGE), write(1, 1, 1, group(), ONE_SENT)
SENT = end(1, sent(0, 1))
SENDS = [BEGUN, FILL, COUNT, SENT]
ONE_COMMITTED = [*SENDS, COMMIT]
# the same is taken back, slot by slot, and that ends
COUNT_BACK, FILL_BACK, TAKEN_BACK = write(2, 1, 1, ONE_SENT, group()), write(2, 2, 1, MESSAGE, FREE), back(2, 4)
FILL_UNDONE = undo(1, 2, 2, 1, FREE)
# in a small store with a tag page the client 3 is marked with 70, and that ends
ONE_MARK = client(3, 1, 70)
MARK = write(1, 3, 4, client(3), ONE_MARK)
MARKS = [BEGUN, MARK, end(1, marked(3, 70), 2)]


# ---- logs over pages as they are formatted: what each test holds, with what is said of it


def whole_logs():
    for records in range(6):
        yield ONE_COMMITTED[:records], OPENED


def changed_bytes():
    """Records of 13 bytes, 546, 546, 64 and 21: the place of a byte, the byte, and what is said."""
    for place, byte, said in (
        (4, 8, at_record(1)), (12, 2, at_record(1)),  # another kind than the length says, another incarnation
        (45, 9, at_record(2)), (47, 1, at_record(2)), (1134, 9, at_record(4)),  # another slot, before-image, deed
        (1181, 2, at_record(5)),  # another transaction
    ):  # fmt: skip
        log = bytearray(b"".join(ONE_COMMITTED))
        log[place] = byte
        yield [bytes(log)], said


def cut_logs():
    """Cut anywhere a log is opened: its end is no record, and what the others leave open is undone. Bytes that begin none are damage."""
    whole = b"".join(ONE_COMMITTED)
    ends = [*accumulate(map(len, ONE_COMMITTED))]
    left = [(1, 0, 0), (2, 0, 0), (2, 1, 0), (2, 1, 0), (2, 0, 1), (2, 0, 0)]  # by how many records are whole
    for length in {*range(0, 30), *range(550, 570), *range(1100, 1191)}:
        incarnation, unfinished, lost = left[sum(end <= length for end in ends)]
        yield [whole[:length]], f"restarted {incarnation} unfinished {unfinished} lost {lost}"
    for bad in (b"\0\0\0\x11\x07", b"\1", bytes(4)):
        yield [whole + bad], at_record(6)
    yield [restart(1) + bytes(12)], at_record(2)


def bytes_that_are_no_record():
    """An operation of no number, slots of no page, a write undone that none is, and a level that is none."""
    yield [BEGUN, write(0, 2, 1, FREE, MESSAGE)], at_record(2)
    yield [BEGUN, write(1, 2, 0, FREE, MESSAGE)], at_record(2)
    yield [BEGUN, write(1, 2, 16, FREE, MESSAGE)], at_record(2)
    yield [BEGUN, FILL, undo(1, 0, 2, 1, FREE)], at_record(3)
    yield [BEGUN, FILL, COUNT, end(1, sent(0, 1), level=0)], at_record(4)


def incarnations_out_of_order():
    yield [restart(2)], at_record(1)
    yield [COMMIT], at_record(1)
    yield [BEGUN, BEGUN], at_record(2)
    yield [BEGUN, restart(3)], at_record(2)
    yield [BEGUN, restart(2)], OPENED
    # transactions of another incarnation
    yield [BEGUN, restart(2), COMMIT], at_record(3)
    yield [BEGUN, restart(2), FILL], at_record(3)


def records_behind_the_end_of_their_transaction():
    yield [*ONE_COMMITTED, write(2, 2, 2, FREE, MESSAGE)], at_record(6)
    yield [*ONE_COMMITTED, COMMIT], at_record(6)
    yield [*ONE_COMMITTED, ABORT_END], at_record(6)
    yield [BEGUN, ABORT_END, FILL], at_record(3)
    yield [BEGUN, ABORT_END, COMMIT], at_record(3)


def records_behind_the_end_of_their_operation():
    yield [*SENDS, write(1, 2, 2, FREE, MESSAGE)], at_record(5)
    yield [*SENDS, SENT], at_record(5)
    yield [*SENDS, void(1)], at_record(5)
    yield [BEGUN, FILL, FILL_UNDONE, void(1)], OPENED
    yield [BEGUN, FILL, FILL_UNDONE, void(1), FILL], at_record(5)
    yield [BEGUN, FILL, FILL_UNDONE, void(1), void(1)], at_record(5)


def records_behind_the_end_of_an_inverse():
    inverse = [*SENDS, COUNT_BACK, FILL_BACK, TAKEN_BACK]
    yield inverse, OPENED
    yield [*inverse, ABORT_END], OPENED
    yield [*inverse, write(2, 2, 1, FREE, MESSAGE)], at_record(8)
    yield [*inverse, void(2)], at_record(8)


def writes_that_are_no_slots_of_the_store():
    # the superblock, a page past the last
    yield [BEGUN, write(1, 0, 1, FREE, FREE)], at_record(2)
    yield [BEGUN, write(1, 3, 1, FREE, MESSAGE)], at_record(2)
    # a group among the cells
    yield [BEGUN, write(1, 2, 1, FREE, ONE_SENT)], at_record(2)
    for slot, said in (
        (MESSAGE, at_record(2)), (group(sender=1), at_record(2)),  # a cell in the directory, and another sender's group
        (group(3, 3), at_record(2)), (group(2, 2), OPENED),  # more sent than there are records
        (group(1, 2), at_record(2)),  # more received than sent
    ):  # fmt: skip
        yield [BEGUN, write(1, 1, 1, group(), slot)], said


def writes_that_are_undone_wrongly():
    yield [BEGUN, FILL, FILL_UNDONE], OPENED
    # no write, one that comes later, another place, another page, another transaction, other bytes
    for wrong in (
        undo(1, 1, 2, 1, FREE), undo(1, 3, 2, 1, FREE), undo(1, 2, 2, 2, FREE), undo(1, 2, 1, 1, group()),
        undo(1, 2, 2, 1, FREE, txn=2), undo(1, 2, 2, 1, MESSAGE),
    ):  # fmt: skip
        yield [BEGUN, FILL, wrong], at_record(3)
    # one that is undone
    yield [BEGUN, FILL, FILL_UNDONE, FILL_UNDONE], at_record(4)


def inverses_of_what_is_not_there():
    inverse = [*SENDS, COUNT_BACK, FILL_BACK]
    other = write(1, 2, 2, FREE, MESSAGE, txn=2)
    yield [*inverse, back(2, 3)], at_record(7)
    yield [*inverse, back(2, 7)], at_record(7)
    # a third operation, which takes back what is taken back
    yield [*inverse, TAKEN_BACK, write(3, 2, 2, FREE, MESSAGE), back(3, 4)], at_record(9)
    # another transaction's
    yield [*SENDS, other, back(1, 4, txn=2)], at_record(6)


def deeds_that_cannot_be_read():
    cut_sent, cut_received = sent(0, 1)[:28], received(0, 1)[:20]
    for level, deed, said in (
        (2, sent(0, 1), at_record(4)), (1, b"\4", at_record(4)), (1, cut_sent, at_record(4)), (1, sent(0, 0), at_record(4)),
        (1, cut_received, at_record(4)), (1, closing(0) + b"\0", at_record(4)),
        (1, sent(15, 1), OPENED),  # of a sender that the store has not it can be read
        (1, marked(3, 70), at_record(4)), (3, marked(3, 70), at_record(4)), (2, marked(3, 70)[:20], at_record(4)),
        (2, marked(3, 70) + b"\0", at_record(4)),
        (2, marked(3, 70), OPENED),  # a mark can be read, also of a client that the store has not
    ):  # fmt: skip
        yield [BEGUN, FILL, COUNT, end(1, deed, level), COMMIT], said
    # a store without tag pages has no client whose mark could be taken back
    for number, tag in ((3, 70), (0, 0)):
        yield [BEGUN, FILL, COUNT, end(1, marked(number, tag), 2)], at_record(4)


def numbers_of_operations_with_gaps():
    yield [BEGUN, write(2, 2, 1, FREE, MESSAGE)], at_record(2)
    yield [*SENDS, write(3, 2, 2, FREE, MESSAGE)], at_record(5)
    yield [*SENDS, write(2, 2, 2, FREE, MESSAGE)], OPENED
    # another transaction counts from 1
    yield [*SENDS, write(2, 2, 2, FREE, MESSAGE, txn=2)], at_record(5)
    yield [*SENDS, write(1, 2, 2, FREE, MESSAGE, txn=2)], OPENED


def ends_of_what_did_not_begin():
    yield [BEGUN, SENT], at_record(2)
    yield [BEGUN, void(1)], at_record(2)
    yield [*SENDS, TAKEN_BACK], at_record(5)


def what_is_undone_before_what_is_newer():
    behind = closed(1, 0, 33, 33)
    both = [*SENDS, write(2, 1, 1, ONE_SENT, behind), end(2, closing(0)), write(3, 1, 1, behind, ONE_SENT)]
    yield [BEGUN, FILL, COUNT, FILL_UNDONE], at_record(4)
    yield [*both, back(3, 6)], OPENED
    yield [*both, back(3, 4)], at_record(8)


def a_commit_amid_an_operation():
    """The record that would undo it does not belong."""
    yield [BEGUN, FILL, COMMIT], at_record(4)


def lost_ones_of_two_incarnations():
    """Each took back what it did, and has no end. The first by number ends first, and its incarnation is over: that does not belong."""
    first = [write(1, 1, 1, group(), closed(), txn=2), end(1, closing(0), txn=2), write(2, 1, 1, closed(), group(), txn=2), back(2, 3, txn=2)]
    second = [record(1, [2, 1, 1, 1, 1], group() + closed()), record(3, [2, 1, 1, 1], closing(0)),
              record(1, [2, 1, 2, 1, 1], closed() + group()), record(5, [2, 1, 2, 8])]  # fmt: skip
    yield [BEGUN, *first, restart(2), *second], at_record(11)


# ---- logs of which a restart cannot take back what a transaction without an end did


def made(after, deed):
    """A transaction writes its sender's directory slot, and nothing else, and its operation ends so."""
    return [BEGUN, write(1, 1, 1, group(), after), end(1, deed)]


# another transaction tells of the next sender that one message was sent and received
OTHER_TAKEN = write(1, 1, 2, group(sender=1), group(1, 1, sender=1), txn=2)
# it receives the message of the first, slot by slot
TAKE = [write(1, 1, 1, ONE_SENT, ONE_TAKEN, txn=2), write(1, 2, 1, MESSAGE, FREE, txn=2)]


def received_by_another(sender, sequence):
    return end(1, received(sender, sequence), txn=2)


def what_can_be_taken_back():
    yield SENDS, OPENED
    yield made(closed(), closing(0)), OPENED
    # what was sent and committed is received by a transaction that is lost
    yield [*ONE_COMMITTED, *TAKE, received_by_another(0, 1)], OPENED


def deeds_of_senders_that_the_store_has_not():
    for deed in (sent(15, 1), received(15, 1), closing(15)):
        yield [BEGUN, FILL, COUNT, end(1, deed)], at_record(4)


def sends_that_do_not_stand_last():
    # another number than was sent
    yield [BEGUN, FILL, COUNT, end(1, sent(0, 2))], at_record(4)
    # no tail, a tail that is free, and one with another number
    yield made(group(1), sent(0, 1)), at_record(3)
    yield made(ONE_SENT, sent(0, 1)), at_record(3)
    yield [BEGUN, write(1, 2, 1, FREE, cell(2)), COUNT, SENT], at_record(4)
    # the cell before it is free
    two = write(1, 1, 1, group(), group(2, 0, 34, 33))
    yield [BEGUN, write(1, 2, 1, FREE, cell(2, before=34)), two, end(1, sent(0, 2))], at_record(4)


def receives_that_cannot_be_put_back():
    yield made(ONE_TAKEN, received(0, 1)), OPENED
    # another number than was received last, and a head that is free
    yield made(ONE_TAKEN, received(0, 2)), at_record(3)
    yield made(group(2, 1, 34, 34), received(0, 1)), at_record(3)


def closes_that_are_open():
    yield made(ONE_TAKEN, closing(0)), at_record(3)


def the_newest_is_named():
    """It comes first, so it is the first to be named."""
    for sequence, said in ((2, at_record(6)), (1, at_record(4))):
        yield [BEGUN, FILL, COUNT, end(1, sent(0, 2)), OTHER_TAKEN, received_by_another(1, sequence)], said


def what_an_abort_left():
    """It stays done, and its end is the last record that it may have. What is lost beside it is taken back, or named."""
    left = [FILL, COUNT, SENT, ABORT_END]
    yield [BEGUN, *left], OPENED
    yield [BEGUN, *left, *TAKE, received_by_another(0, 1)], OPENED
    yield [BEGUN, *left, *TAKE, received_by_another(0, 2)], at_record(8)
    yield [BEGUN, OTHER_TAKEN, received_by_another(1, 1), *left], OPENED
    yield [BEGUN, OTHER_TAKEN, received_by_another(1, 2), *left], at_record(3)


LOGS = [
    whole_logs, changed_bytes, cut_logs, bytes_that_are_no_record, incarnations_out_of_order,
    records_behind_the_end_of_their_transaction, records_behind_the_end_of_their_operation, records_behind_the_end_of_an_inverse,
    writes_that_are_no_slots_of_the_store, writes_that_are_undone_wrongly, inverses_of_what_is_not_there,
    deeds_that_cannot_be_read, numbers_of_operations_with_gaps, ends_of_what_did_not_begin, what_is_undone_before_what_is_newer,
    a_commit_amid_an_operation, lost_ones_of_two_incarnations, what_can_be_taken_back, deeds_of_senders_that_the_store_has_not,
    sends_that_do_not_stand_last, receives_that_cannot_be_put_back, closes_that_are_open, the_newest_is_named, what_an_abort_left,
]  # fmt: skip


# ---- what a restart adds to a log, record by record: the log, and what it is then


# Parts of records, which go before anything is added.
ENDS = b"", FILL[:545], COMMIT[:20], restart(2)[:12], base(5)[:20], b"\0"


def ends_that_a_crash_left():
    """Pages, and a log as it is, or with a part of a record behind it."""
    stores = [(formatted(), *each) for each in restarts()] + list(restarts_behind_a_base())
    stores += [(formatted(tags=1), *each) for each in restarts_of_marks()]
    for pages, before, added in stores:
        for end in ENDS:
            yield pages, before, end, added


def restarts():
    """Logs over pages as they are formatted, and what is added."""
    yield [], [BEGUN]
    yield ONE_COMMITTED, [restart(2)]
    # slot writes of operations without an end
    yield [BEGUN, FILL], [undo(1, 2, 2, 1, FREE), void(1), restart(2)]
    yield [BEGUN, FILL, COUNT], [undo(1, 3, 1, 1, group()), undo(1, 2, 2, 1, FREE), void(1), restart(2)]
    yield [BEGUN, FILL, FILL_UNDONE], [void(1), restart(2)]
    yield [*SENDS, FILL_BACK], [undo(2, 5, 2, 1, MESSAGE), void(2), *again(3), ABORT_END, restart(2)]
    # what was done and not committed: a send, a close, and a receive by another transaction
    yield SENDS, [*again(2), ABORT_END, restart(2)]
    yield [*SENDS, *again(2)], [ABORT_END, restart(2)]
    shut = made(closed(), closing(0))
    yield shut, [write(2, 1, 1, closed(), group()), back(2, 3), ABORT_END, restart(2)]
    put_back = [write(2, 2, 1, FREE, MESSAGE, txn=2), write(2, 1, 1, ONE_TAKEN, ONE_SENT, txn=2), back(2, 8, txn=2)]
    yield [*ONE_COMMITTED, *TAKE, received_by_another(0, 1)], [*put_back, record(8, [1, 2]), restart(2)]


def again(number):
    """The inverse of the send, by an operation of this number: the cell first, and then its group."""
    return [write(number, 2, 1, MESSAGE, FREE), write(number, 1, 1, ONE_SENT, group()), back(number, 4)]


# behind a Base: a close, a receive, and its first write undone by the transaction 1.2, and a write of another
SHUT = closed(1, 0, 33, 33)
TAKEN = [*TAKE, received_by_another(0, 1)]
TAKEN_GROUP_UNDONE = undo(1, 7, 1, 1, ONE_SENT, txn=2), void(1, txn=2)
OTHER_GROUP = write(1, 1, 2, group(sender=1), group(1, 0, 34, 34, sender=1), txn=3)
# a second message of sender 0, in the second cell, behind the first
FIRST_OF_TWO, SECOND_OF_TWO, TWO_SENT = cell(1, behind=34), cell(2, before=33), group(2, 0, 33, 34)
SENT_SECOND = [
    write(1, 2, 2, FREE, SECOND_OF_TWO, txn=2), write(1, 2, 1, MESSAGE, FIRST_OF_TWO, txn=2),
    write(1, 1, 1, ONE_SENT, TWO_SENT, txn=2), end(1, sent(0, 2, 7), txn=2),
]  # fmt: skip
# its inverse: its cell, the cell before it, and then its group
UNSENT_SECOND = [
    write(2, 2, 2, SECOND_OF_TWO, FREE, txn=2), write(2, 2, 1, FIRST_OF_TWO, MESSAGE, txn=2),
    write(2, 1, 1, TWO_SENT, ONE_SENT, txn=2), back(2, 10, txn=2),
]  # fmt: skip


def restarts_behind_a_base():
    """Pages that hold the one committed message, logs whose Base stands for its records, and what is added. The record behind the Base has
    the LSN 7; a transaction there is 1.2, unless another is named."""
    gone, ended, next_one = base(5), record(8, [1, 2]), restart(2)
    for before, added in (
        ([gone], [next_one]), ([base(5, 3)], [restart(4)]), ([gone, next_one], [restart(3)]),
        ([gone, next_one, restart(3)], [restart(4)]), ([gone, record(6, [1, 2])], [next_one]), ([gone, ended], [next_one]),
        # slot writes of operations without an end: the group's, and the cell's, too
        ([gone, TAKE[0]], [*TAKEN_GROUP_UNDONE, next_one]),
        ([gone, *TAKE], [undo(1, 8, 2, 1, MESSAGE, txn=2), *TAKEN_GROUP_UNDONE, next_one]),
        ([gone, TAKE[0], TAKEN_GROUP_UNDONE[0]], [TAKEN_GROUP_UNDONE[1], next_one]),
        # what was done and not committed: a receive, also where its inverse was cut off or was made, a close, and a second send
        ([gone, *TAKEN], [*put_back(2), ended, next_one]),
        ([gone, *TAKEN, put_back(2)[0]], [undo(2, 10, 2, 1, FREE, txn=2), void(2, txn=2), *put_back(3), ended, next_one]),
        ([gone, *TAKEN, *put_back(2)], [ended, next_one]), ([gone, *TAKEN, record(6, [1, 2])], [next_one]),
        ([gone, write(1, 1, 1, ONE_SENT, SHUT, txn=2), end(1, closing(0), txn=2)],
         [write(2, 1, 1, SHUT, ONE_SENT, txn=2), back(2, 8, txn=2), ended, next_one]),
        ([gone, *SENT_SECOND], [*UNSENT_SECOND, ended, next_one]),
        # a transaction that is lost, beside an operation without an end of another
        ([gone, *TAKEN, OTHER_GROUP], [undo(1, 10, 1, 2, group(sender=1), txn=3), void(1, txn=3), *put_back(2), ended, next_one]),
        # a transaction of the incarnation behind a restart there
        ([gone, next_one, record(1, [2, 1, 1, 1, 1], ONE_SENT + ONE_TAKEN)],
         [record(2, [2, 1, 1, 8, 1, 1], ONE_SENT), record(4, [2, 1, 1]), restart(3)]),
    ):  # fmt: skip
        yield written(), before, added
    # pages that were written behind the Base
    pages = written()
    put(pages, 1, 1, ONE_TAKEN, 7)
    put(pages, 2, 1, FREE, 8)
    yield pages, [gone, *TAKEN], [*put_back(2), ended, next_one]


def restarts_of_marks():
    """Logs over pages as they are formatted, with a tag page, and what is added. The transaction marks the client 3 with 70."""
    yield [BEGUN, MARK], [undo(1, 2, 3, 4, client(3)), void(1), restart(2)]
    yield [*MARKS, COMMIT], [restart(2)]
    yield MARKS, [*unmarked(2), ABORT_END, restart(2)]
    # the inverse was made, or was cut off
    yield [*MARKS, *unmarked(2)], [ABORT_END, restart(2)]
    yield [*MARKS, unmarked(2)[0]], [undo(2, 4, 3, 4, ONE_MARK), void(2), *unmarked(3), ABORT_END, restart(2)]
    # its client was marked before, and is marked once more: the newest mark is taken back first
    again_marked = [write(2, 3, 4, ONE_MARK, client(3, 2, 71)), end(2, marked(3, 71, 70), 2)]
    again_back = [write(3, 3, 4, client(3, 2, 71), ONE_MARK), back(3, 5)]
    yield [*MARKS, *again_marked], [*again_back, *unmarked(4), ABORT_END, restart(2)]
    yield [*MARKS, *again_marked, *again_back], [*unmarked(4), ABORT_END, restart(2)]
    yield [*MARKS, COMMIT, write(1, 3, 4, ONE_MARK, client(3, 2, 71), txn=2), end(1, marked(3, 71, 70), 2, txn=2)], [
        write(2, 3, 4, client(3, 2, 71), ONE_MARK, txn=2), back(2, 6, txn=2), record(8, [1, 2]), restart(2),
    ]  # fmt: skip
    # beside a send of the transaction, behind it
    beside = [write(2, 3, 4, client(3), ONE_MARK), end(2, marked(3, 70), 2)]
    yield [*SENDS, *beside], [write(3, 3, 4, ONE_MARK, client(3)), back(3, 6), *again(4), ABORT_END, restart(2)]


def unmarked(number):
    """The inverse of the mark, by an operation of this number."""
    return [write(number, 3, 4, ONE_MARK, client(3)), back(number, 3)]


def put_back(number):
    """The inverse of the receive, by an operation of this number: the message goes into the first cell, and then its group."""
    return [write(number, 2, 1, FREE, MESSAGE, txn=2), write(number, 1, 1, ONE_TAKEN, ONE_SENT, txn=2), back(number, 9, txn=2)]


# ---- pages


def formatted(directory=1, cells=1, tags=0):
    """The pages of a store as it is formatted, one behind the other."""
    behind = 1 + directory + cells
    pages = bytearray((behind + tags) * PAGE)
    version = 2 if tags else 1
    pages[SLOT : SLOT + 24] = b"RQMSTORE" + numbers_of((version, 4), (directory, 4), (cells, 4), (tags, 4))
    for number in range(1, behind + tags):
        kind = 1 if number <= directory else 2 if number < behind else 3
        pages[number * PAGE + 8 : number * PAGE + 13] = numbers_of((number, 4), (kind, 1))
    for sender in range(15 * directory):
        put(pages, 1 + sender // 15, 1 + sender % 15, group(sender=sender), 0)
    for number in range(15 * tags):
        put(pages, behind + number // 15, 1 + number % 15, client(number), 0)
    return pages


def put(pages, number, slot, bytes_of_slot, lsn=1):
    """Writes a slot, and the LSN of its page."""
    at = number * PAGE
    pages[at : at + 8] = lsn.to_bytes(8, "big")
    pages[at + slot * SLOT : at + (slot + 1) * SLOT] = bytes_of_slot


def written(*changes):
    """The pages of a small store with one message, each of them written; then these bytes, by page and place, are others."""
    pages = formatted()
    put(pages, 1, 1, ONE_SENT, 3)
    put(pages, 2, 1, MESSAGE, 2)
    for number, place, byte in changes:
        pages[number * PAGE + place] = byte
    return pages


# records that write nothing
SIX = [restart(incarnation) for incarnation in range(1, 7)]


def pages_that_were_written():
    yield written(), ONE_COMMITTED, OPENED
    yield written(), [BEGUN, FILL, COUNT], OPENED


def superblocks():
    """The mark; its LSN, number and kind, the zeros of its header and slots, the version and the sizes."""
    for place, byte in (
        (256, 0), (7, 1), (11, 1), (12, 1), (13, 1), (276, 1), (4095, 1), (267, 2), (271, 0), (275, 0), (273, 2),
    ):  # fmt: skip
        yield written((0, place, byte)), ONE_COMMITTED, at_page(0)


def headers():
    for number, place, byte in ((1, 12, 2), (1, 11, 2), (1, 255, 1), (2, 12, 1), (2, 8, 1), (2, 13, 1)):
        yield written((number, place, byte)), ONE_COMMITTED, at_page(number)
    # numbers beyond the log
    yield written((1, 7, 9)), ONE_COMMITTED, at_page(1)
    yield written((2, 7, 6)), ONE_COMMITTED, at_page(2)
    yield written((2, 7, 5)), ONE_COMMITTED, OPENED


def slots():
    # of a cell its state, a zero, its length, its sender and number, its links, and the zeros behind its body
    for place, byte in ((256, 2), (256, 0), (257, 1), (259, 217), (263, 15), (271, 0), (287, 31), (295, 32), (301, 1)):
        yield written((2, place, byte)), ONE_COMMITTED, at_page(2)
    # of a group its state, its zeros, its sender, what is received and its links
    for place, byte in ((256, 0), (256, 3), (257, 1), (263, 1), (279, 2), (295, 48), (303, 17), (304, 1)):
        yield written((1, place, byte)), ONE_COMMITTED, at_page(1)
    # a cell of another sender is a broken chain
    yield written((2, 263, 1)), ONE_COMMITTED, at_page(1)


def more_sent_than_there_are_records():
    for messages, said in ((2, at_page(1)), (1, OPENED)):
        pages = formatted()
        put(pages, 1, 15, group(messages, messages, sender=14))
        yield pages, [BEGUN], said


def before_images():
    """Something else stands there; where the page is newer nothing is compared."""
    odd = write(1, 2, 1, MESSAGE, FREE)
    yield formatted(), [BEGUN, odd], at_record(2)
    newer = formatted()
    put(newer, 2, 1, FREE, 2)
    yield newer, [BEGUN, odd, undo(1, 2, 2, 1, MESSAGE)], at_page(2)


def images_put_back():
    """A write is on its page already, so nothing is compared with its before-image. Its undoing writes that image, which has to be a slot of
    the page, with no more sent than there are records."""
    for page, there, before, said in (
        (2, MESSAGE, FREE, OPENED), (2, MESSAGE, b"\2" + FREE[1:], at_record(3)), (2, MESSAGE, ONE_TAKEN, at_record(3)),
        (1, ONE_TAKEN, group(3, 3), OPENED), (1, ONE_TAKEN, group(4, 4), at_record(3)), (1, ONE_TAKEN, group(1, 2), at_record(3)),
    ):  # fmt: skip
        pages = formatted()
        put(pages, page, 1, there, 2)
        yield pages, [BEGUN, write(1, page, 1, before, there), undo(1, 2, page, 1, before)], said


def no_cell_is_free():
    full = formatted()
    for slot in range(1, 16):
        put(full, 2, slot, MESSAGE, 0)
    yield full, made(ONE_TAKEN, received(0, 1)), at_record(3)


# sender 0 has sent five messages, of which three were received: the others stand in the first two cells
TWO, FOURTH, FIFTH = group(5, 3, 33, 34), cell(4, behind=34), cell(5, before=33)


def chains():
    """The slot of sender 0, the first two cells, and what is said."""
    of_another = cell(5, before=33, sender=1)
    for slot, first, second, said in (
        (TWO, FOURTH, FIFTH, OPENED),
        # a cell that is free, of another sender, with another number, or that names another before it or behind
        (TWO, FREE, FIFTH, at_page(1)), (TWO, FOURTH, FREE, at_page(1)), (TWO, FOURTH, of_another, at_page(1)),
        (TWO, cell(3, 0, 34), FIFTH, at_page(1)), (TWO, FOURTH, cell(4, 33, 0), at_page(1)),
        (TWO, cell(4, 34, 34), FIFTH, at_page(1)), (TWO, FOURTH, cell(5, 0, 0), at_page(1)),
        (TWO, cell(4, 0, 0), FIFTH, at_page(1)), (TWO, FOURTH, cell(5, 33, 33), at_page(1)),
        (TWO, FOURTH, cell(6, before=33), at_page(1)),
        # another head or tail, and others than two that wait
        (group(5, 3, 34, 34), FOURTH, FIFTH, at_page(1)), (group(5, 3, 33, 33), FOURTH, FIFTH, at_page(1)),
        (group(5, 3, 0, 0), FOURTH, FIFTH, at_page(1)), (group(4, 3, 33, 34), FOURTH, FIFTH, at_page(1)),
        (group(5, 3, 35, 34), FOURTH, FIFTH, at_page(1)),
        (group(6, 3, 33, 34), FOURTH, FIFTH, at_page(1)), (group(3, 3, 33, 34), FOURTH, FIFTH, at_page(1)),
        # cells in no chain, behind a chain that is broken
        (group(3, 3), FREE, FREE, OPENED), (group(3, 3), MESSAGE, FREE, at_page(2)), (group(), FOURTH, FIFTH, at_page(2)),
        (group(3, 3), FREE, cell(6, sender=14), at_page(2)), (TWO, cell(4, sender=7), FREE, at_page(1)),
    ):  # fmt: skip
        yield small(slot, first, second), SIX, said


def small(slot, *cells):
    """Pages with this slot of sender 0, and these first cells."""
    pages = formatted()
    put(pages, 1, 1, slot)
    for at, held in enumerate(cells, 1):
        put(pages, 2, at, held)
    return pages


def chains_beside_a_whole_one():
    """A cell in no chain, and then a group of a higher number with the same chain."""
    pages = small(TWO, FOURTH, FIFTH, cell(4, sender=7))
    yield bytes(pages), SIX, at_page(2)
    put(pages, 1, 3, group(5, 3, 33, 34, sender=2))
    yield pages, SIX, at_page(1)


def chains_on_two_pages():
    """Two directory and two cell pages, whose first cells are 49 and 65. The slots of senders 14 and 15, these cells, and what is
    said. The lower sender is named, then the lower page of a cell in no chain."""
    lower, upper = group(6, 5, 65, 65, sender=14), group(6, 5, 49, 49, sender=15)
    of_lower, of_upper = cell(6, sender=14), cell(6, sender=15)
    no_lower, no_upper = group(6, 6, sender=14), group(6, 6, sender=15)
    both_cells, last = group(6, 4, 65, 49, sender=15), cell(6, before=65, sender=15)
    for on_first, on_second, third, fourth, said in (
        (lower, upper, of_upper, of_lower, OPENED), (lower, upper, FREE, FREE, at_page(1)),
        (lower, upper, of_lower, of_upper, at_page(1)), (lower, upper, of_upper, FREE, at_page(1)),
        (lower, upper, FREE, of_lower, at_page(2)),
        (no_lower, no_upper, FREE, FREE, OPENED), (no_lower, no_upper, of_lower, of_upper, at_page(3)),
        (no_lower, no_upper, of_upper, of_lower, at_page(3)), (no_lower, no_upper, FREE, of_lower, at_page(4)),
        (group(6, 5, 49, 49, sender=14), no_upper, of_lower, of_upper, at_page(4)),
        (no_lower, group(6, 5, sender=15), of_lower, of_upper, at_page(2)),
        # one chain goes over both cell pages: where it ends before its last cell, its sender's page is named
        (group(sender=14), both_cells, last, cell(5, behind=49, sender=15), OPENED),
        (group(sender=14), both_cells, last, cell(5, sender=15), at_page(2)),
    ):  # fmt: skip
        pages = formatted(2, 2)
        for number, slot, held in ((1, 15, on_first), (2, 1, on_second), (3, 1, third), (4, 1, fourth)):
            put(pages, number, slot, held)
        yield pages, SIX, said


def bases():
    """A base stands for the records of a message that is committed, and what follows goes on from it."""
    gone, full = base(5), "fault 19 LogFull"
    for records, opened in (
        ([gone], (2, 0, 0)), ([base(5, 3)], (4, 0, 0)), ([gone, restart(2)], (3, 0, 0)), ([gone, b"\0"], (2, 0, 0)),
        ([gone, *TAKE], (2, 1, 0)), ([gone, *TAKE, received_by_another(0, 1)], (2, 0, 1)), ([base(2**50 - 2)], (2, 0, 0)),
    ):  # fmt: skip
        yield written(), records, "restarted {} unfinished {} lost {}".format(*opened)
    for records in ([base(0)], [base(5, 0)], [base(5, 6)], [base(2**50)]):
        yield written(), records, at_record(1)
    yield written(), [BEGUN, gone], at_record(2)
    for record_behind in (
        gone, restart(1), restart(3), record(6, [2, 1]), SENT, void(1), FILL_UNDONE, back(1, 4), write(2, 2, 2, FREE, MESSAGE),
        write(1, 2, 1, FREE, MESSAGE), b"\1",
    ):  # fmt: skip
        yield written(), [gone, record_behind], at_record(7)
    yield written(), [base(1)], at_page(1)
    for end in ([], [restart(2)], [b"\0"], [b"\1"]):
        yield written(), [base(2**50 - 1), *end], full
    yield written(), [base(2**50 - 2), restart(2)], full


def several_faults():
    """The superblock, then pages by number, then the log; numbers beyond it, what cannot be taken back, then chains."""
    odd_send = [BEGUN, FILL, COUNT, end(1, sent(0, 2))]
    yield written((0, 256, 0), (1, 12, 2)), [BEGUN, BEGUN], at_page(0)
    yield written((1, 256, 3), (2, 12, 1)), [BEGUN, BEGUN], at_page(1)
    yield written((2, 12, 1)), [BEGUN, BEGUN], at_page(2)
    yield written((1, 7, 9)), [BEGUN, BEGUN], at_record(2)
    yield written((1, 7, 9)), odd_send, at_page(1)
    yield written((2, 263, 1)), odd_send, at_record(4)
    yield written((2, 263, 1)), ONE_COMMITTED, at_page(1)
    # a record whose before-image doesn't stand there comes before bytes that are no record, and these before a number beyond the log
    yield formatted(), [BEGUN, write(1, 2, 1, MESSAGE, FREE), b"\1"], at_record(2)
    beyond = formatted()
    beyond[PAGE + 7] = 9
    yield beyond, [BEGUN, b"\1"], at_record(2)
    yield beyond, [BEGUN, b"\0"], at_page(1)


def with_tags(*changes):
    """The same with a tag page, whose client 3 was marked with 70."""
    pages = formatted(tags=1)
    put(pages, 1, 1, ONE_SENT, 3)
    put(pages, 2, 1, MESSAGE, 2)
    put(pages, 3, 4, client(3, 1, 70), 3)
    for number, place, byte in changes:
        pages[number * PAGE + place] = byte
    return pages


def tag_pages():
    yield with_tags(), ONE_COMMITTED, OPENED
    # of the superblock the version and the number of tag pages, and its zeros
    for place, byte in ((267, 1), (267, 3), (279, 0), (278, 4), (278, 8), (280, 1)):
        yield with_tags((0, place, byte)), ONE_COMMITTED, at_page(0)
    # its number, its kind, the zeros of its header and its LSN
    for place, byte in ((11, 2), (12, 2), (12, 1), (13, 1), (7, 6)):
        yield with_tags((3, place, byte)), ONE_COMMITTED, at_page(3)
    # of a client its state, its zeros, its number, its count and the zeros behind
    for place, byte in ((1024, 2), (1024, 0), (1025, 1), (1027, 1), (1031, 4), (1039, 6), (1048, 1), (1279, 1)):
        yield with_tags((3, place, byte)), ONE_COMMITTED, at_page(3)
    yield with_tags((3, 1039, 5), (3, 1047, 9)), ONE_COMMITTED, OPENED
    # no link names a slot of a tag page
    yield with_tags((2, 287, 49)), ONE_COMMITTED, at_page(2)
    yield with_tags((1, 303, 49)), ONE_COMMITTED, at_page(1)
    # a page that is missing, and one behind the last
    yield with_tags()[: 3 * PAGE], ONE_COMMITTED, UNREAD
    yield with_tags() + bytes([7] * PAGE), ONE_COMMITTED, OPENED


def writes_of_tag_pages():
    """A write of a tag page may stand in the log; where its operation has no end, it is undone."""
    marked = write(1, 3, 4, client(3), client(3, 1, 70))
    for records, said in (
        ([BEGUN, marked], OPENED), ([BEGUN, marked, undo(1, 2, 3, 4, client(3))], OPENED),
        ([BEGUN, write(1, 3, 4, client(3), client(3, 2, 70))], OPENED),
        # its count is beyond the log, its client another, its state none, or it is no client's slot
        ([BEGUN, write(1, 3, 4, client(3), client(3, 3, 70))], at_record(2)),
        ([BEGUN, write(1, 3, 4, client(3), client(4, 1, 70))], at_record(2)),
        ([BEGUN, write(1, 3, 4, client(3), FREE)], at_record(2)), ([BEGUN, write(1, 3, 4, client(3), MESSAGE)], at_record(2)),
        # something else stands there, and there is no such page
        ([BEGUN, write(1, 3, 4, client(3, 1), client(3, 1, 70))], at_record(2)),
        ([BEGUN, write(1, 4, 4, client(3), client(3, 1, 70))], at_record(2)),
    ):  # fmt: skip
        yield formatted(tags=1), records, said
    yield formatted(), [BEGUN, marked], at_record(2)


def marks_that_are_taken_back():
    """The slot of a client, the deed of what wrote it, and what is said."""
    for slot, deed, said in (
        (ONE_MARK, marked(3, 70), OPENED), (ONE_MARK, marked(3, 70, 2**64 - 1), OPENED), (client(3, 2, 0), marked(3, 0, 7), OPENED),
        # another tag than the slot's, no mark, another client, and one that the store has not
        (ONE_MARK, marked(3, 71), at_record(3)), (ONE_MARK, marked(3, 0, 70), at_record(3)),
        (client(3, 0, 70), marked(3, 70), at_record(3)), (ONE_MARK, marked(4, 70), at_record(3)), (ONE_MARK, marked(4, 0), at_record(3)),
        (ONE_MARK, marked(15, 70), at_record(3)), (ONE_MARK, marked(15, 0), at_record(3)), (ONE_MARK, marked(2**32 - 1, 70), at_record(3)),
        # a deed of chains beside a slot of tags
        (ONE_MARK, marked(3, 70)[:5], at_record(3)),
    ):  # fmt: skip
        log = [BEGUN, write(1, 3, 4, client(3), slot), end(1, deed, 2)]
        yield formatted(tags=1), log, said
        yield formatted(tags=1), [*log, COMMIT], OPENED if len(deed) == 21 else said
        yield formatted(tags=1), [*log, ABORT_END], OPENED if len(deed) == 21 else said
    # the last client, on the second tag page
    last = [BEGUN, write(1, 4, 15, client(29), client(29, 1, 9)), end(1, marked(29, 9), 2)]
    yield formatted(tags=2), last, OPENED
    yield formatted(tags=2), [*last[:2], end(1, marked(30, 9), 2)], at_record(3)
    # two marks of one client are taken back, the newest first; where the second tells another tag before it, the first is named
    for tag, said in ((70, OPENED), (69, at_record(3)), (71, at_record(3))):
        second = [write(2, 3, 4, ONE_MARK, client(3, 2, 71)), end(2, marked(3, 71, tag), 2)]
        yield formatted(tags=1), [*MARKS, *second], said
    # of two lost transactions the newest mark is the first to be named
    other = [write(1, 3, 5, client(4), client(4, 1, 8), txn=2), end(1, marked(4, 9), 2, txn=2)]
    yield formatted(tags=1), [BEGUN, MARK, end(1, marked(3, 71), 2), *other], at_record(5)
    yield formatted(tags=1), [BEGUN, MARK, end(1, marked(3, 71), 2), other[0], end(1, marked(4, 8), 2, txn=2)], at_record(3)
    # a page that has the mark already, and one that is marked once more behind a Base
    behind = formatted(tags=1)
    put(behind, 3, 4, ONE_MARK, 2)
    yield bytes(behind), MARKS, OPENED
    yield bytes(behind), [base(2), write(1, 3, 4, ONE_MARK, client(3, 2, 71), txn=2), end(1, marked(3, 71, 70), 2, txn=2)], OPENED


def what_a_migration_leaves():
    """Pages behind those of a store without tag pages don't count, whole or not. Once page 0 tells them they are the store's. The log is as it
    was, or a Base."""
    whole, marks = formatted(tags=2), [base(5), record(1, [1, 2, 1, 3, 4], client(3) + ONE_MARK), record(3, [1, 2, 1, 2], marked(3, 70))]
    for behind in (whole[3 * PAGE :], whole[3 * PAGE : 4 * PAGE], whole[3 * PAGE : 3 * PAGE + 1000], bytes(2 * PAGE), bytes([7] * PAGE)):
        pages = bytes(formatted()) + behind
        yield pages, [], OPENED
        yield pages, ONE_COMMITTED, OPENED
        yield bytes(written()) + behind, [base(5)], OPENED
        yield bytes(written()) + behind, [base(5), FILL], at_record(7)
        yield bytes(written()) + behind, marks, at_record(7)
    told = bytes(whole[:PAGE]) + bytes(written()[PAGE:])
    yield told + whole[3 * PAGE :], [base(5)], OPENED
    yield told + whole[3 * PAGE :] + bytes([7] * 100), [base(5)], OPENED
    yield told + whole[3 * PAGE :], marks, "restarted 2 unfinished 0 lost 1"
    yield told + whole[3 * PAGE :], ONE_COMMITTED, OPENED
    # one of its pages lacks, is none, or stands in the place of the other
    yield told, [base(5)], UNREAD
    yield told + whole[3 * PAGE : 4 * PAGE], [base(5)], UNREAD
    yield told + whole[3 * PAGE : -1], [base(5)], UNREAD
    yield told + bytes(2 * PAGE), [base(5)], at_page(3)
    yield told + whole[3 * PAGE : 4 * PAGE] + bytes(PAGE), [base(5)], at_page(4)
    yield told + whole[4 * PAGE :] + whole[3 * PAGE : 4 * PAGE], [base(5)], at_page(3)


def other_lengths():
    """Pages behind those of the store, and one that is missing."""
    yield formatted() + bytes([7] * PAGE), [], OPENED
    lacking = formatted()
    lacking[275] = 2
    yield lacking, [], UNREAD


PAGES = [
    pages_that_were_written, superblocks, headers, slots, more_sent_than_there_are_records, before_images, images_put_back, no_cell_is_free,
    chains, chains_beside_a_whole_one, chains_on_two_pages, bases, several_faults, tag_pages, writes_of_tag_pages,
    marks_that_are_taken_back, what_a_migration_leaves, other_lengths,
]  # fmt: skip


# ---- stores with more pages than frames


FRAMES = 8
# directory pages of a store, in front of one cell page
WIDE = 10
# tag pages that a small store is given, which change nothing of the others
MORE_TAGS = 8


def with_more_tags(pages):
    """A small store whose page 0 is whole, with more pages behind; None of another."""
    for tags in (0, 1):
        whole = formatted(tags=tags)
        if len(pages) == len(whole) and pages[:PAGE] == whole[:PAGE]:
            more = formatted(tags=tags + MORE_TAGS)
            return bytes(more[:PAGE] + pages[PAGE:] + more[len(pages) :])
    return None


def wide_log():
    """A sender of each directory page has a message that is committed. Then comes an operation without an end on three of these pages,
    and a transaction without one that closes each such sender. So all pages are wanted in turn. Those that are undone last stand in no
    frame."""
    records, cells = [BEGUN], 1 + WIDE
    for at in range(WIDE):
        sender, txn, address = 15 * at, at + 1, 16 * cells + at + 1
        held = group(1, 0, address, address, sender=sender)
        records += [write(1, cells, at + 1, FREE, cell(1, sender=sender), txn), write(1, at + 1, 1, group(sender=sender), held, txn)]
        records += [end(1, sent(sender, 1), txn=txn), record(6, [1, txn])]
    records += [write(1, at + 1, 2, group(sender=15 * at + 1), closed(0, 0, 0, 0, 15 * at + 1), WIDE + 1) for at in range(3)]
    for at in range(WIDE):
        sender, address = 15 * at, 16 * cells + at + 1
        numbers = 1, 0, address, address, sender
        records += [write(at + 1, at + 1, 1, group(*numbers), closed(*numbers), WIDE + 2), end(at + 1, closing(sender), txn=WIDE + 2)]
    return records


def wide_stores():
    """Pages and log of a whole store, and the same with damage."""
    pages, records = formatted(WIDE), wide_log()
    for at, each in enumerate(records):
        no_kind = each[:4] + b"\12" + each[5:]
        # of a slot write another byte stands there before, and of a close another sender is told
        other = each[:40] + bytes([each[40] ^ 1]) + each[41:] if len(each) == 546 else each[:-1] + bytes([each[-1] ^ 1])
        for bad in (no_kind, other):
            yield pages, records, pages, [*records[:at], bad, *records[at + 1 :]]
    for page in range(1, WIDE + 1):
        for place, byte in ((12, 3), (5, 1)):  # another kind, and a number beyond the log
            odd = bytearray(pages)
            odd[page * PAGE + place] = byte
            yield pages, records, odd, records
        odd = bytearray(pages)  # a message that waits in no cell
        put(odd, page, 15, group(1, sender=15 * page - 1), 0)
        yield pages, records, odd, records


class Few:
    """Openings in few frames by `rqm`, of what is then told by `bench`."""

    def __init__(self, rqm, bench):
        self.rqm, self.bench = rqm, bench
        self.written = self.longer = 0  # how many stores were refused with other pages, and with a longer log

    def serve(self, folder):
        """What is told of its opening: the report of one that is made, or what is printed of another."""
        command = [self.rqm, "serve", str(folder), "--port", "0", "--workers", "1", "--frames", str(FRAMES), "--until-input-ends"]
        ran = subprocess.run(command, input=b"", capture_output=True, timeout=MOST_SECONDS)
        found = re.search(rb"incarnation ([0-9]+), unfinished ([0-9]+), lost ([0-9]+), ", ran.stderr)
        if ran.returncode == 0 and ran.stdout.startswith(b"listening ") and found:
            return "restarted {} unfinished {} lost {}".format(*map(int, found.groups()))
        return ran.stdout.decode(errors="backslashreplace").rstrip("\n") if ran.returncode == 1 else f"status {ran.returncode}"

    def fault_of_opening(self, folder, pages, log):
        """What is wrong with what is told of a store, and with what is left of it; None where nothing is."""
        said, made, left = said_of(pages, log)
        told = self.serve(folder)
        if told != ("fault 16 Damaged" if said.startswith("damaged ") else said):
            return f"{told!r}, and not {said!r}"
        pages_left, log_left = (folder / "pages").read_bytes(), (folder / "log").read_bytes()
        if not are_explained(pages, pages_left, log_left):
            return "no beginning of the log makes its pages"
        if made:
            return None if log_left == left else "its log has other records behind"
        if not log_left.startswith(log):
            return "its log has changed"
        self.written += pages_left != pages
        self.longer += log_left != log
        again = subprocess.run([self.bench, "open", str(folder)], capture_output=True, timeout=MOST_SECONDS)
        told = again.stdout.decode(errors="backslashreplace").rstrip("\n")
        return None if (told, again.returncode) == (said, 1) else f"then {told!r} and {again.returncode}, and not {said!r}"

    def fault(self, store):
        """The same of a store that is whole, or of one that is damaged and is then mended."""
        name, pages, log, whole, whole_log = store
        with tempfile.TemporaryDirectory() as top:
            folder = pathlib.Path(top)
            put_files(folder, pages, log)
            wrong = self.fault_of_opening(folder, pages, log)
            if wrong or whole is None:
                return wrong and f"{name}, in {FRAMES} frames: {wrong}"
            pages = mended((folder / "pages").read_bytes(), pages, whole)
            log = mended((folder / "log").read_bytes(), log, whole_log)
            put_files(folder, pages, log)
            made, wanted = said_of(pages, log)[1], said_of(whole, whole_log)[1]
            wrong = self.fault_of_opening(folder, pages, log)
            if wrong or not made or made.pages.slots != wanted.pages.slots:
                return f"{name}, in {FRAMES} frames, mended: {wrong or 'it holds something else'}"
        return None


def put_files(folder, pages, log):
    (folder / "pages").write_bytes(pages)
    (folder / "log").write_bytes(log)


def mended(left, damaged, whole):
    """What was left, with the bytes put back that were damaged."""
    left = bytearray(left)
    for at, (bad, good) in enumerate(zip(damaged, whole)):
        if bad != good:
            left[at] = good
    return bytes(left)


def are_explained(before, left, log):
    """Whether each page is as it was, or as some beginning of the log has it."""
    made, lsn, at = bytearray(before), 0, 0
    odd = {number for number in range(len(before) // PAGE) if left[number * PAGE :][:PAGE] != before[number * PAGE :][:PAGE]}
    while odd and at < len(log) and (found := front(log, at)):
        name, numbers, end_of_record = found
        lsn = numbers[0] + 1 if name == "base" else lsn + 1
        if name in ("page-op", "page-undo") and numbers[-2] in odd:
            page, slot = numbers[-2:]
            if int.from_bytes(made[page * PAGE :][:8], "big") < lsn:
                put(made, page, slot, log[end_of_record - SLOT : end_of_record], lsn)
            if made[page * PAGE :][:PAGE] == left[page * PAGE :][:PAGE]:
                odd.discard(page)
        at = end_of_record
    return not odd and len(left) == len(before)


def stores_for_few():
    """A name, pages and a log, and what these are where they are mended."""
    for name, pages, log, _ in rows():
        more = with_more_tags(pages)
        if more:
            yield name, more, log, None, None
    yield "a wide store", bytes(formatted(WIDE)), b"".join(wide_log()), None, None
    for at, (whole, whole_log, pages, log) in enumerate(wide_stores()):
        yield f"wide stores, {at}", bytes(pages), b"".join(log), bytes(whole), b"".join(whole_log)


def run_in_few(rqm, bench):
    """Opens all by `rqm` in few frames; whether each comes to what it should, and enough were written to before they were refused."""
    stores, few = list(stores_for_few()), Few(rqm, bench)
    with ThreadPoolExecutor(os.cpu_count()) as pool:
        faults = [each for each in pool.map(few.fault, stores) if each]
    print("".join(f"{each}\n" for each in faults), end="")
    print(f"{len(stores) - len(faults)} of {len(stores)} stores are opened or refused as they should in {FRAMES} frames")
    print(f"    {few.written} were refused with other pages, {few.longer} of them with a longer log")
    return not faults and few.written > 50 and few.longer > 10


# ---- runs


def rows():
    """All of them: a name, pages, a log, and what is said."""
    for test in LOGS:
        for at, (records, said) in enumerate(test()):
            yield f"{test.__name__}, {at}", formatted(), b"".join(records), said
    for test in PAGES:
        for at, (pages, records, said) in enumerate(test()):
            yield f"{test.__name__}, {at}", pages, b"".join(records), said


def fault(program, name, pages, log, wanted):
    """What is wrong with what is said of a store; None where nothing is. A store that is not opened stays as it is."""
    with tempfile.TemporaryDirectory() as top:
        folder = pathlib.Path(top)
        (folder / "pages").write_bytes(pages)
        (folder / "log").write_bytes(log)
        ran = subprocess.run([program, "open", top], capture_output=True, timeout=MOST_SECONDS)
        said = ran.stdout.decode(errors="backslashreplace")
        is_opened = said.startswith("restarted ")
        told = said.split(", ")[0] if is_opened else said.rstrip("\n")
        if wanted not in (told, OPENED if is_opened else told) or ran.returncode != (0 if is_opened else 1):
            return f"{name}: {said!r} and {ran.returncode}, and not {wanted!r}"
        if not is_opened and ((folder / "pages").read_bytes(), (folder / "log").read_bytes()) != (pages, log):
            return f"{name}: its files have changed"
    return None


def odd_restart(program, at, pages, before, end, added):
    """What is wrong with the files that a restart leaves; None where nothing is. It writes no page, as there is
    a frame for each."""
    with tempfile.TemporaryDirectory() as top:
        folder = pathlib.Path(top)
        (folder / "pages").write_bytes(pages)
        (folder / "log").write_bytes(b"".join([*before, end]))
        subprocess.run([program, "open", top], stdout=subprocess.DEVNULL, timeout=MOST_SECONDS)
        left = (folder / "log").read_bytes()
        if (folder / "pages").read_bytes() != pages:
            return f"restarts, {at}: its pages have changed"
    return None if left == b"".join([*before, *added]) else f"restarts, {at}: the log is {left.hex()}"


def run(program):
    """Opens all by a program; whether each comes to what it should."""
    stores, logs = list(rows()), list(ends_that_a_crash_left())
    with ThreadPoolExecutor(os.cpu_count()) as pool:
        told = [*pool.map(lambda row: fault(program, *row), stores)]
        told += pool.map(lambda at: odd_restart(program, at, *logs[at]), range(len(logs)))
    faults = [each for each in told if each]
    print("".join(f"{each}\n" for each in faults), end="")
    print(f"{len(told) - len(faults)} of {len(told)} stores are opened or refused as they should ({os.path.basename(program)})")
    return not faults


def main():
    words = argparse.ArgumentParser(description="Has bench open stores that are damaged.")
    words.add_argument("--program", help="a program that was built elsewhere")
    words.add_argument("--rqm", help="a program that was built elsewhere")
    chosen = words.parse_args()
    programs = built_twice(chosen.program, "bench")
    ran = [run(program) for program in programs]
    ran.append(run_in_few(built(chosen.rqm, "rqm"), programs[0]))
    sys.exit(0 if all(ran) else 1)


if __name__ == "__main__":
    main()
