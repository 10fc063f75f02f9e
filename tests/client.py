#!/usr/bin/env python3
"""Plays a server to `clients/python/rqm.py`: what it asks is compared, and what it makes of answers that a server seldom gives.

    python3 tests/client.py [NAME..]

A name is one of the tests below, as `refusals`; without one all are run. `tests/server.py` runs the client with a server.
"""
import signal
import socket
import sys
import textwrap
import threading
import time
from contextlib import contextmanager
from types import SimpleNamespace

from server import LONGEST, raises  # and the client's folder among those that are searched

import rqm

BEGIN, COMMIT, ABORT = (bytes.fromhex(f"0001 {kind}") for kind in ("01", "06", "07"))
BEGUN = bytes.fromhex("0011 81 0000000000000001 0000000000000001")
SENT, ABORTED, COMMITTED = (bytes.fromhex(text) for text in ("0001 82", "0001 87", "0009 86 0000000000000009"))
MARKED = bytes.fromhex("0001 89")
NO_ANSWER = bytes.fromhex("0001 00")  # of a kind that ends the connection, as a lost one does

# What `docs/PROTOCOL.md` says of each refusal: its name, and whether the same request may be made again later.
REFUSALS = {
    1: ("NoMemory", True), 2: ("Failed", False), 3: ("DiskRead", False), 4: ("UnknownTransaction", False), 5: ("NotOpen", False),
    6: ("Unfinished", False), 7: ("UnknownSender", False), 8: ("TooLong", False), 9: ("SenderBusy", True), 10: ("Closed", False),
    11: ("ReceiverBusy", True), 12: ("Full", True), 13: ("Latched", True), 14: ("PoolFull", True), 15: ("DiskWrite", False),
    16: ("Damaged", False), 17: ("TooManyTransactions", False), 19: ("LogFull", False), 22: ("UnknownClient", False),
    23: ("ClientBusy", True),
}  # fmt: skip


def refused(number):
    return bytes([0, 2, 255, number])


def send(sender, tag, body=b""):
    frame = bytes([2]) + sender.to_bytes(4, "big") + tag.to_bytes(8, "big") + body
    return len(frame).to_bytes(2, "big") + frame


def last_tag(sender):
    return bytes([0, 5, 8]) + sender.to_bytes(4, "big")


def told_last(sent, tag):
    return bytes([0, 17, 136]) + sent.to_bytes(8, "big") + tag.to_bytes(8, "big")


def mark(client, tag):
    return bytes([0, 13, 9]) + client.to_bytes(4, "big") + tag.to_bytes(8, "big")


def client_tag(client):
    return bytes([0, 5, 10]) + client.to_bytes(4, "big")


def told_client(count, tag):
    return bytes([0, 17, 138]) + count.to_bytes(8, "big") + tag.to_bytes(8, "big")


@contextmanager
def playing(*turns, **words):
    """A connection to a server that is asked this and answers that, by turns; an answer may come after so many seconds. All of it has
    to be asked, and nothing else."""
    wrong = []

    def play(listener):
        stream, _ = listener.accept()
        with stream:
            stream.settimeout(LONGEST)
            for asked, answer, *late in turns:
                came = stream.recv(len(asked), socket.MSG_WAITALL)
                if came != asked:
                    wrong.append(f"{came.hex()} is asked, and not {asked.hex()}")
                    return
                time.sleep(sum(late))
                try:
                    stream.sendall(answer)
                except OSError:
                    pass
            rest = stream.recv(100)
            if rest:
                wrong.append(f"{rest.hex()} is asked behind all")

    with socket.create_server(("127.0.0.1", 0)) as listener:
        thread = threading.Thread(target=play, args=[listener])
        thread.start()
        try:
            with rqm.Connection(listener.getsockname()[1], **words) as connection:
                yield connection
        finally:
            thread.join(LONGEST)
            assert not wrong, wrong  # also where an exception leaves it


def refusals():
    """Each number has its exception, and one that no request is refused by ends the connection."""
    for number, (name, passes) in REFUSALS.items():
        with playing((last_tag(0), refused(number)), patience=0) as connection:
            raises(getattr(rqm, name), lambda: connection.last_tag(0))
        assert issubclass(getattr(rqm, name), rqm.Passing) == passes, name
    for number in {*range(256)} - {*REFUSALS}:
        with playing((last_tag(0), refused(number)), patience=0) as connection:
            raises(rqm.Lost, lambda: connection.last_tag(0))
            raises(rqm.Lost, lambda: connection.last_tag(0))


def answers_of_others():
    """An answer of another kind, or none, ends the connection."""
    for answer in (SENT, bytes([0, 1, 0]), bytes([0, 1, 255]), b""):
        turns = [(last_tag(0), answer)]
        with playing(*turns) as connection:
            if answer == b"":
                connection.socket.shutdown(socket.SHUT_RD)
            raises(rqm.Lost, lambda: connection.last_tag(0))
            raises(rqm.Lost, lambda: connection.last_tag(0))


def patience():
    """What a moment may cure is asked again, and nothing else, for as long as the client has patience."""
    for number, (name, _) in REFUSALS.items():
        if name in ("NoMemory", "Latched", "PoolFull"):
            busy = (last_tag(3), refused(number))
            with playing(busy, busy, (last_tag(3), told_last(2, 7)), patience=LONGEST) as connection:
                assert connection.last_tag(3) == (2, 7)
            with playing(busy, patience=0) as connection:
                raises(getattr(rqm, name), lambda: connection.last_tag(3))
        else:
            with playing((last_tag(3), refused(number)), patience=LONGEST) as connection:
                raises(getattr(rqm, name), lambda: connection.last_tag(3))


def late_answers():
    """An answer that comes too late, or behind an exception, is never taken for that of another request."""

    class Alarm(Exception):
        pass

    def alarmed(*_):
        raise Alarm

    with playing((last_tag(0), told_last(1, 1), 0.3), timeout=0.1) as connection:
        raises(rqm.Lost, lambda: connection.last_tag(0))
        time.sleep(0.4)
        raises(rqm.Lost, lambda: connection.last_tag(1))
    before = signal.signal(signal.SIGALRM, alarmed)
    try:
        with playing((last_tag(0), told_last(1, 1), 0.3)) as connection:
            signal.setitimer(signal.ITIMER_REAL, 0.1)
            raises(Alarm, lambda: connection.last_tag(0))
            time.sleep(0.4)
            raises(rqm.Lost, lambda: connection.last_tag(1))
    finally:
        signal.signal(signal.SIGALRM, before)


def lost_commits():
    """Whether a lost commit was done is asked behind the end of its transaction; and where it was, a commit of nothing is waited for,
    which makes it durable. Where the question is refused its transaction is aborted."""
    free = (send(4, 6), SENT)
    ask, abort = (last_tag(4), told_last(3, 6)), (ABORT, ABORTED)
    barrier = [(BEGIN, BEGUN), (COMMIT, COMMITTED)]
    busy = (send(4, 6), refused(9))
    with playing((BEGIN, BEGUN), busy, busy, free, ask, abort, *barrier) as connection:
        assert connection.was_committed(4, 6)
    with playing((BEGIN, BEGUN), free, (last_tag(4), told_last(2, 5)), abort) as connection:
        assert not connection.was_committed(4, 6)
    for number in (10, 12):
        with playing((BEGIN, BEGUN), (send(4, 6), refused(number)), ask, abort, *barrier) as connection:
            assert connection.was_committed(4, 6)
    with playing((BEGIN, BEGUN), (send(4, 6), refused(19)), abort, (BEGIN, BEGUN)) as connection:
        raises(rqm.LogFull, lambda: connection.was_committed(4, 6))
        connection.transaction()


def marks():
    """A client is marked in a transaction, and asked for with one or without. What settles it is asked behind the end of a transaction that
    was lost, and then a commit of nothing is waited for."""
    most = 2**64 - 1
    with playing((BEGIN, BEGUN), (mark(3, most), MARKED), (client_tag(3), told_client(2, 5)), (COMMIT, COMMITTED),
                 (client_tag(3), told_client(3, most))) as connection:  # fmt: skip
        with connection.transaction() as transaction:
            transaction.mark(3, most)
            assert connection.client_tag(3) == (2, 5)
        assert transaction.lsn == 9 and connection.client_tag(3) == rqm.ClientTag(count=3, tag=most)
    for number, kind in ((22, rqm.UnknownClient), (23, rqm.ClientBusy)):
        with playing((BEGIN, BEGUN), (mark(3, 7), refused(number)), (ABORT, ABORTED), patience=LONGEST) as connection:
            with connection.transaction() as transaction:
                raises(kind, lambda: transaction.mark(3, 7))
                transaction.abort()
    with playing((client_tag(15), refused(22))) as connection:
        raises(rqm.UnknownClient, lambda: connection.client_tag(15))
    busy, free = (mark(3, 0), refused(23)), (mark(3, 0), MARKED)
    ask, abort = (client_tag(3), told_client(6, 5)), (ABORT, ABORTED)
    with playing((BEGIN, BEGUN), busy, busy, free, ask, abort, (BEGIN, BEGUN), (COMMIT, COMMITTED)) as connection:
        assert connection.settled_tag(3) == (6, 5)
    with playing((BEGIN, BEGUN), (mark(3, 0), refused(19)), abort, (BEGIN, BEGUN)) as connection:
        raises(rqm.LogFull, lambda: connection.settled_tag(3))
        connection.transaction()
    for answer in (SENT, told_last(1, 1)):  # another kind of answer
        with playing((client_tag(3), answer)) as connection:
            raises(rqm.Lost, lambda: connection.client_tag(3))


def batches():
    """The loop of the client's page sends each batch once. It goes on where a connection ends behind a mark or a commit, where that mark
    is carried out late, and where the store is full or has failed."""
    sends = send(4, 1, b"a"), send(4, 2, b"b")
    ends = (ABORT, ABORTED), (BEGIN, BEGUN), (COMMIT, COMMITTED)

    def settled(done, *busy):
        return [(BEGIN, BEGUN), *busy, (mark(3, 0), MARKED), (client_tag(3), told_client(done, done)), *ends]

    def begun(number, *behind):
        return [(BEGIN, BEGUN), (mark(3, number), MARKED), (sends[number - 1], SENT), *behind]

    connections = [
        [*settled(0), (BEGIN, BEGUN), (mark(3, 1), NO_ANSWER)],
        [*settled(0), (BEGIN, BEGUN), (mark(3, 1), refused(23)), (ABORT, ABORTED)],
        [*settled(0, (mark(3, 0), refused(23))), (BEGIN, BEGUN), (mark(3, 1), MARKED), (sends[0], refused(12)), (ABORT, ABORTED)],
        [*settled(0), *begun(1, (COMMIT, NO_ANSWER))],
        [*settled(1), *begun(2, (COMMIT, refused(2)))],
        [(BEGIN, refused(2))],
        [*settled(1), *begun(2, (COMMIT, COMMITTED))],
    ]
    rest, slept = (playing(*turns) for turns in connections), []
    _, loop = rqm.__doc__.split("    done = None\n")
    loop, _ = loop.split("\n\n", 1)
    names = {
        "batches": [[(4, 1, b"a")], [(4, 2, b"b")]], "client": 3, "done": None, "Connection": lambda _: next(rest),
        "Failed": rqm.Failed, "Passing": rqm.Passing, "time": SimpleNamespace(sleep=slept.append),
    }  # fmt: skip
    exec(textwrap.dedent(loop), names)
    assert names["done"] == 2 and len(slept) == len(connections) - 1 and not [*rest], (names["done"], slept)


def transactions():
    """A transaction commits at its end, and aborts where an exception leaves it or its commit is refused; not where its store has
    failed, since it may be committed then."""
    with playing((BEGIN, BEGUN), (send(1, 2, b"x"), SENT), (COMMIT, COMMITTED)) as connection:
        with connection.transaction() as transaction:
            transaction.send(1, 2, b"x")
        assert transaction.lsn == 9

    def left_by(error):
        with connection.transaction():
            if error:
                raise error

    with playing((BEGIN, BEGUN), (ABORT, ABORTED)) as connection:
        raises(KeyError, lambda: left_by(KeyError()))
    with playing((BEGIN, BEGUN), (COMMIT, refused(19)), (ABORT, ABORTED)) as connection:
        raises(rqm.LogFull, lambda: left_by(None))
    with playing((BEGIN, BEGUN), (COMMIT, refused(2))) as connection:
        raises(rqm.Failed, lambda: left_by(None))
    with playing((BEGIN, BEGUN)) as connection:
        raises(rqm.TooLong, lambda: rqm.Transaction(connection).send(0, 1, bytes(217)))
        connection.transaction()


TESTS = [refusals, answers_of_others, patience, late_answers, lost_commits, marks, batches, transactions]


def main():
    known = {test.__name__: test for test in TESTS}
    for name in sys.argv[1:] or known:
        before = time.monotonic()
        known[name]()
        print(f"{name}: {time.monotonic() - before:.1f} s", flush=True)


if __name__ == "__main__":
    main()
