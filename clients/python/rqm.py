#!/usr/bin/env python3
"""A client of `rqm serve`, by the standard library alone. It needs no other file of this repository.

    from rqm import Connection

    with Connection(7000) as connection:
        with connection.transaction() as transaction:      # commits at its end, aborts where an exception leaves it
            transaction.send(0, 7, b"hello")               # for sender 0, with tag 7
        print("durable at", transaction.lsn)

        with connection.transaction() as transaction:
            message = transaction.receive()                # None where there is no message now
            if message:
                print(message.sender, message.tag, message.body)

What the server refuses is an exception: `Refused`, with a class for each number. Those that others may end are `Passing`: the same
request may be made again later. A request that is refused only because the server is busy just now is made again here, for as long
as `patience` says.

Where a connection ends, `Lost` is raised. If that was in the midst of a commit, nobody has said whether it was done. A client that
has to know keeps four rules: each of its transactions sends one message for a sender that nobody else sends for; the tag of this
message is a number that it had never used, from 1; it has one connection at a time; and it commits only behind the answer to that
send, which the methods here wait for anyway. Then a new connection tells:

    try:
        with connection.transaction() as transaction:
            transaction.send(sender, tag, body)
    except Lost:
        connection = Connection(7000)
        done = connection.was_committed(sender, tag)       # True: it is durable. False: it never will be; do it again

Over a store with tag pages this is easier. Each transaction marks a client with the number of what it does. Nobody else marks that
client, and there is one connection at a time. A mark belongs to its transaction, so the last one that is committed tells how far
these got. Each of these batches is sent once, over connections that are lost and servers that are killed:

    done = None
    while done is None or done < len(batches):
        try:
            with Connection(7000) as connection:
                done = connection.settled_tag(client).tag  # of batches that are durable; what is beyond never was committed
                while done < len(batches):
                    with connection.transaction() as transaction:
                        transaction.mark(client, done + 1)
                        for message in batches[done]:
                            transaction.send(*message)
                    done += 1
        except (ConnectionError, Failed, Passing):
            time.sleep(1)

`ClientBusy` is among what is `Passing`. Where a connection ends between a mark and its answer, the server may carry that mark out
later, also behind what `settled_tag` told. It is never committed, but until it is undone the loop's own mark is refused.

By hand:

    python3 rqm.py send --port 7000 0 7 hello
    python3 rqm.py receive --port 7000 [--sender 0]
    python3 rqm.py last --port 7000 0
    python3 rqm.py mark --port 7000 3 70
    python3 rqm.py tag --port 7000 3
"""
import argparse
import socket
import struct
import sys
import time
from collections import namedtuple

# The longest body of a message, in bytes.
LONGEST_BODY = 216

Message = namedtuple("Message", "sender tag body")

# How many committed messages a sender has sent, and the tag of the last of them: 0 where there is none.
LastTag = namedtuple("LastTag", "sent tag")

# How often committed transactions marked a client, and the last tag: 0 where there is none.
ClientTag = namedtuple("ClientTag", "count tag")


class Lost(ConnectionError):
    """The connection has ended. Its transaction is aborted, unless a commit was under way: then it may be committed."""


class Refused(Exception):
    """The request was refused. Nothing has changed, but where the class of the refusal says otherwise."""

    number = 0

    def __init__(self):
        super().__init__(f"refused {self.number} {type(self).__name__}")


class Passing(Refused):
    """A refusal that may pass by what others do: the same request may be made again later."""


class NoMemory(Passing):
    """The server has no memory for it."""

    number = 1


class Failed(Refused):
    """The store has failed and does nothing until it is opened again. Of a commit: it may be committed all the same, which
    `was_committed` and `settled_tag` tell over a new connection."""

    number = 2


class DiskRead(Refused):
    """The disk refused a read."""

    number = 3


class UnknownTransaction(Refused):
    """The connection has no transaction."""

    number = 4


class NotOpen(Refused):
    """The transaction is being aborted."""

    number = 5


class Unfinished(Refused):
    """An operation that was refused in its midst is under way: only an abort is left."""

    number = 6


class UnknownSender(Refused):
    """The store has no such sender."""

    number = 7


class TooLong(Refused):
    """The body has more than `LONGEST_BODY` bytes."""

    number = 8


class SenderBusy(Passing):
    """Another transaction sends for this sender, or closes its group."""

    number = 9


class Closed(Refused):
    """The group of this sender is closed."""

    number = 10


class ReceiverBusy(Passing):
    """Another transaction receives from this sender."""

    number = 11


class Full(Passing):
    """Every cell of the store is in use."""

    number = 12


class Latched(Passing):
    """Others work on the page just now."""

    number = 13


class PoolFull(Passing):
    """There is no room for the page in memory just now."""

    number = 14


class DiskWrite(Refused):
    """The disk failed, and with it the store."""

    number = 15


class Damaged(Refused):
    """A page or a record breaks the format, or is not as it was written."""

    number = 16


class TooManyTransactions(Refused):
    """The connection has a transaction already, or the store has as many as it can."""

    number = 17


class LogFull(Refused):
    """The log has no room for it."""

    number = 19


class UnknownClient(Refused):
    """The store has no such client."""

    number = 22


class ClientBusy(Passing):
    """Another transaction marked this client."""

    number = 23


REFUSALS = {
    refusal.number: refusal
    for refusal in (
        NoMemory, Failed, DiskRead, UnknownTransaction, NotOpen, Unfinished, UnknownSender, TooLong, SenderBusy, Closed,
        ReceiverBusy, Full, Latched, PoolFull, DiskWrite, Damaged, TooManyTransactions, LogFull, UnknownClient, ClientBusy,
    )
}  # fmt: skip

# The refusals that pass in a moment.
MOMENTARY = (NoMemory, Latched, PoolFull)

# Requests, and the answers where they are done.
BEGIN, SEND, RECEIVE, RECEIVE_FROM, CLOSE, COMMIT, ABORT, LAST_TAG, MARK, CLIENT_TAG = range(1, 11)
BEGUN, SENT, MESSAGE, NONE, CLOSED, COMMITTED, ABORTED, TOLD_LAST_TAG, MARKED, TOLD_CLIENT_TAG = range(129, 139)
REFUSED = 255


class Connection:
    """A connection to the server at this port. Threads that share one have to take turns. `patience` is for how many seconds a
    request is made again that the server is too busy for; `timeout` how many seconds an answer may take, with no end for None."""

    def __init__(self, port, host="127.0.0.1", timeout=None, patience=1.0):
        self.patience = patience
        self.socket = socket.create_connection((host, port), timeout)
        self.socket.setsockopt(socket.IPPROTO_TCP, socket.TCP_NODELAY, 1)
        self.answers = self.socket.makefile("rb")

    def __enter__(self):
        return self

    def __exit__(self, *_):
        self.close()

    def close(self):
        """Ends the connection. A transaction that is open is aborted."""
        self.answers.close()
        self.socket.close()

    def transaction(self):
        """A new transaction; a connection has at most one at a time."""
        self.done(BEGIN, b"", BEGUN)
        return Transaction(self)

    def last_tag(self, sender):
        """What this sender has sent in committed transactions, as a `LastTag`. Their commits may not be durable yet."""
        return LastTag(*struct.unpack(">QQ", self.done(LAST_TAG, struct.pack(">I", sender), TOLD_LAST_TAG)[1]))

    def client_tag(self, client):
        """How committed transactions marked this client, as a `ClientTag`. Their commits may not be durable yet, and one that was
        lost may still come."""
        return ClientTag(*struct.unpack(">QQ", self.done(CLIENT_TAG, struct.pack(">I", client), TOLD_CLIENT_TAG)[1]))

    def settled_tag(self, client):
        """The same of a client that nobody else marks, once no transaction that was lost can commit any more; all that is told is
        durable. It is for a new connection, where each commit was sent behind the answer to its mark, for which `mark` waits. A
        lost transaction whose mark was answered has ended then. One whose mark was not answered never commits. It may still come
        and hold the client for a moment: then the next mark is refused as `ClientBusy`. Where the server could not undo a lost
        transaction, this waits until the server ends, and raises `Lost`."""
        with self.transaction() as with_end:
            while True:
                try:
                    with_end.mark(client, 0)  # any tag will do, since this is aborted
                    break
                except ClientBusy:  # by a lost transaction, which has not ended
                    time.sleep(0.01)
            told = self.client_tag(client)
            with_end.abort()
        self.transaction().commit()  # its record stands behind that of the lost one, and now both are durable
        return told

    def was_committed(self, sender, tag):
        """Whether the transaction was committed that sent `tag` as its last message for `sender`, and whose commit was not
        answered, if its client keeps the rules above. What is answered stays so, also behind a crash of the server. It waits until
        the lost transaction has ended. Where the server could not undo that, it ends as the server does, and `Lost` is raised."""
        with self.transaction() as with_end:
            while True:
                try:
                    with_end.send(sender, tag, b"")  # any tag will do, since this is aborted
                    break
                except SenderBusy:  # by the lost transaction, which has not ended
                    time.sleep(0.01)
                except (Closed, Full):  # these are told only where nobody else sends for the sender
                    break
            was_last = self.last_tag(sender).tag == tag
            with_end.abort()
        if was_last:
            self.transaction().commit()  # its record stands behind that of the lost one, and now both are durable
        return was_last

    def done(self, kind, fields, *wanted):
        """Makes a request and waits for its answer, which is of one of the wanted kinds: the kind and its fields."""
        until = time.monotonic() + self.patience
        while True:
            answer, told = self.asked(kind, fields)
            if answer in wanted:
                return answer, told
            if answer != REFUSED or told[:1] == b"" or told[0] not in REFUSALS:
                self.close()
                raise Lost(f"an answer of kind {answer} to a request of kind {kind}")
            refusal = REFUSALS[told[0]]()
            if not isinstance(refusal, MOMENTARY) or time.monotonic() >= until:
                raise refusal
            time.sleep(0.001)

    def asked(self, kind, fields):
        try:
            self.socket.sendall(struct.pack(">HB", 1 + len(fields), kind) + fields)
            (length,) = struct.unpack(">H", self.read(2))
            frame = self.read(length)
        except OSError as error:
            self.close()
            raise Lost("the connection has ended") from error
        except BaseException:  # the answer, once it comes, would be taken for that of the next request
            self.close()
            raise
        return frame[0], frame[1:]

    def read(self, size):
        taken = self.answers.read(size)
        if len(taken) < size:
            raise ConnectionError("the server has ended the connection")
        return taken


class Transaction:
    """A transaction of a connection, from its begin. As a context manager it commits at its end, and aborts where an exception
    leaves it. `lsn` is the place of its commit in the log, None until it is durable."""

    def __init__(self, connection):
        self.connection = connection
        self.lsn = None
        self.is_open = True

    def __enter__(self):
        return self

    def __exit__(self, kind, *_):
        if not self.is_open:
            return
        if kind is None:
            self.commit_or_abort()
        elif not issubclass(kind, Lost):
            self.abort()

    def commit_or_abort(self):
        try:
            self.commit()
        except Failed:  # it may be committed
            raise
        except Refused:
            self.abort()
            raise

    def send(self, sender, tag, body=b""):
        """Puts a message behind those of this sender. It is seen once the transaction has committed."""
        if len(body) > LONGEST_BODY:
            raise TooLong()
        self.connection.done(SEND, struct.pack(">IQ", sender, tag) + body, SENT)

    def receive(self):
        """Takes the first message of some sender, as a `Message`; None where there is none now. It is gone once the transaction
        has committed."""
        return self.taken(RECEIVE, b"")

    def receive_from(self, sender):
        """Takes the first message of this sender, as `receive` does."""
        return self.taken(RECEIVE_FROM, struct.pack(">I", sender))

    def taken(self, kind, fields):
        answer, told = self.connection.done(kind, fields, MESSAGE, NONE)
        if answer == NONE:
            return None
        return Message(*struct.unpack(">IQ", told[:12]), told[12:])

    def close_sender(self, sender):
        """Closes the group of this sender: behind the commit nothing more is sent there."""
        self.connection.done(CLOSE, struct.pack(">I", sender), CLOSED)

    def mark(self, client, tag):
        """Marks a client of the store with a tag: any number. It counts once the transaction has committed."""
        self.connection.done(MARK, struct.pack(">IQ", client, tag), MARKED)

    def commit(self):
        """Commits, and waits until that is durable. Answers the place of the commit in the log."""
        _, told = self.connection.done(COMMIT, b"", COMMITTED)
        self.is_open = False
        (self.lsn,) = struct.unpack(">Q", told)
        return self.lsn

    def abort(self):
        """Undoes all that the transaction did."""
        self.connection.done(ABORT, b"", ABORTED)
        self.is_open = False


def words():
    parser = argparse.ArgumentParser(description="Sends or receives one message, marks a client, or tells of a sender or a client.")
    commands = parser.add_subparsers(dest="command", required=True, metavar="COMMAND")
    send = commands.add_parser("send", help="sends one message, and prints its place in the log once it is durable")
    receive = commands.add_parser("receive", help="receives one message, and prints its sender, tag and body, or 'none'")
    last = commands.add_parser("last", help="prints how many messages a sender has sent, and the tag of the last")
    mark = commands.add_parser("mark", help="marks a client with a tag, and prints the mark's place in the log once it is durable")
    tag = commands.add_parser("tag", help="prints how often a client was marked, and the last tag")
    for command in (send, receive, last, mark, tag):
        command.add_argument("--port", type=int, required=True, help="the port that the server listens at")
    for command in (send, last):
        command.add_argument("sender", type=int)
    for command in (mark, tag):
        command.add_argument("client", type=int)
    for command in (send, mark):
        command.add_argument("tag", type=int)
    send.add_argument("body", nargs="?", help="from standard input where it is absent")
    receive.add_argument("--sender", type=int, help="from this sender alone")
    return parser.parse_args()


def send_one(connection, asked):
    body = sys.stdin.buffer.read() if asked.body is None else asked.body.encode()
    with connection.transaction() as transaction:
        transaction.send(asked.sender, asked.tag, body)
    print(transaction.lsn)
    return 0


def receive_one(connection, asked):
    with connection.transaction() as transaction:
        message = transaction.receive() if asked.sender is None else transaction.receive_from(asked.sender)
        if message is None:
            print("none")
            return 1
        # printed before the commit: where that fails the message stays in the store
        sys.stdout.buffer.write(b"%d %d %s\n" % message)
        sys.stdout.flush()
    return 0


def tell_last(connection, asked):
    print(*connection.last_tag(asked.sender))
    return 0


def mark_one(connection, asked):
    with connection.transaction() as transaction:
        transaction.mark(asked.client, asked.tag)
    print(transaction.lsn)
    return 0


def tell_tag(connection, asked):
    print(*connection.client_tag(asked.client))
    return 0


def main():
    asked = words()
    command = {"send": send_one, "receive": receive_one, "last": tell_last, "mark": mark_one, "tag": tell_tag}[asked.command]
    try:
        with Connection(asked.port) as connection:
            return command(connection, asked)
    except (Refused, OSError) as error:
        print(error, file=sys.stderr)
        return 1


if __name__ == "__main__":
    sys.exit(main())
