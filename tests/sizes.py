#!/usr/bin/env python3
"""Runs scripts of real size by the proved program: as many open transactions as a store may have, a thousand operations in one
transaction, a log that a restart reads by many windows, one over pages as they were formatted, stores of as many senders, and of as
many tag pages, as there may be, and one of 256 pages in the fewest frames. What each line has to print is worked out from
docs/SCRIPTS.md, as the line is made.

    python3 tests/sizes.py [--program PROGRAM]
"""
import argparse
import subprocess
import sys

from cases import built, first_difference, shown

MOST_OPEN = 4096  # transactions that have not ended
MOST_DIRECTORY = 1024  # directory pages
MOST_TAGS = 1024  # tag pages
FEWEST_FRAMES = 8
MOST_FRAMES = 67585  # as many as the greatest store has pages
SLOTS = 15  # of a page
WINDOW = 65536  # bytes that a restart reads at a time
WRITE_BYTES = 546  # of the record of a slot write
MOST_SECONDS = 120  # of one run


class Run:
    """A script, and what it has to print; with the length of each group's chain and of the log, by the table of records."""

    def __init__(self, name, directory, cells, *more):
        self.name, self.words = name, ["run", "--directory", str(directory), "--cells", str(cells), *more]
        self.lines, self.expected = [], ["restarted 1 unfinished 0 lost 0"]
        self.incarnation, self.begun, self.records, self.writes = 1, 0, 1, 0
        self.chain = [0] * (SLOTS * directory)

    def add(self, line, prints):
        self.lines.append(line)
        self.expected.append(prints)

    def operation(self, writes):
        self.writes += writes
        self.records += writes + 1

    def begin(self):
        self.begun += 1
        txn = f"{self.incarnation}.{self.begun}"
        self.add("begin", f"begun {txn}")
        return txn

    def send(self, txn, sender, tag, body):
        self.put_in(sender)
        self.add(f"send {txn} {sender} {tag} {body}", "sent")

    def receive(self, txn, sender, tag, body):
        self.take_out(sender)
        self.add(f"recv-from {txn} {sender}", f"msg {sender} {tag} {body}")

    def mark(self, txn, client, tag):
        self.operation(1)
        self.add(f"mark {txn} {client} {tag}", "marked")

    def put_in(self, sender):
        self.operation(3 if self.chain[sender] else 2)
        self.chain[sender] += 1

    def take_out(self, sender):
        self.chain[sender] -= 1
        self.operation(3 if self.chain[sender] else 2)

    def end(self, line, prints):
        self.records += 1
        self.add(line, prints)

    def commit(self, txn):
        self.end(f"commit {txn}", f"commit {self.records + 1}")

    def force(self):
        self.add("force", f"forced {self.records}")

    def restart(self, unfinished, lost):
        """A crash that keeps every record, and a restart. What it undoes is counted by whoever calls."""
        self.add("crash all", f"crashed {self.records}")
        self.incarnation += 1
        self.begun = 0
        self.add("restart", f"restarted {self.incarnation} unfinished {unfinished} lost {lost}")

    def dump(self, groups):
        """Groups by sender: how many were sent, how many received, and the bodies that are left."""
        lines = [f"{sender} open sent {sent} received {received}: {' '.join(bodies)}".rstrip(" ")
                 for sender, (sent, received, bodies) in sorted(groups.items())]  # fmt: skip
        self.lines.append("dump")
        self.expected += lines or ["empty"]

    def fault(self, program):
        """What is wrong with what it prints; None where nothing is."""
        script = "".join(f"{line}\n" for line in self.lines).encode()
        try:
            ran = subprocess.run([program, *self.words], input=script, capture_output=True, timeout=MOST_SECONDS)
        except subprocess.TimeoutExpired:
            return f"did not end in {MOST_SECONDS} seconds"
        expected = "".join(f"{line}\n" for line in self.expected).encode()
        if ran.stdout == expected and ran.returncode == 0:
            return None
        differs = first_difference(ran.stdout.split(b"\n"), expected.split(b"\n"))
        if differs is None:
            return f"ended with {ran.returncode}"
        line, wanted, printed = differs
        return f"line {line}: wanted {shown(wanted)}, printed {shown(printed)}; exit status {ran.returncode}"


def most_transactions():
    """As many are open as may be: the next is refused, until one has ended."""
    run = Run("the most open transactions", 1, 1)
    refused = "refused 17 TooManyTransactions"
    opened = [run.begin() for _ in range(MOST_OPEN)]
    run.add("begin", refused)
    run.commit(opened[6])
    run.begin()
    run.add("begin", refused)
    run.end(f"abort {opened[8]}", "aborted")
    run.send(run.begin(), 0, 1, "last")
    run.add("begin", refused)
    return run


def long_transaction():
    """One transaction receives 500 messages and sends 500, and is aborted: all is as it was."""
    run = Run("a thousand operations in one transaction", 1, 70)
    messages = [(number % SLOTS, number, f"m{number}") for number in range(500)]
    first = run.begin()
    for message in messages:
        run.send(first, *message)
    run.commit(first)
    second = run.begin()
    for message in messages:
        run.receive(second, *message)
    for sender, tag, _ in messages:
        run.send(second, sender, tag + 1000, f"n{tag}")
    for sender, _, _ in reversed(messages):
        run.take_out(sender)
    for sender, _, _ in reversed(messages):
        run.put_in(sender)
    run.end(f"abort {second}", "aborted")
    run.force()
    run.dump(by_sender(messages))
    return run


def by_sender(messages):
    groups = {}
    for sender, _, body in messages:
        sent, received, bodies = groups.get(sender, (0, 0, []))
        groups[sender] = (sent + 1, received, bodies + [body])
    return groups


def long_log():
    """Messages go through a small store, for some 20,000 calls. A restart reads the log by fifty windows and undoes a transaction
    that was open. The next one goes on from there."""
    run = Run("a log of many windows", 2, 2)
    groups = {sender: (0, 0, []) for sender in range(2 * SLOTS)}
    for number in range(1500):
        sender, body = number * 7 % (2 * SLOTS), f"b{number}"
        txn = run.begin()
        run.send(txn, sender, number, body)
        run.commit(txn)
        txn = run.begin()
        run.receive(txn, sender, number, body)
        run.commit(txn)
        sent, received, _ = groups[sender]
        groups[sender] = (sent + 1, received + 1, [])
    run.send(run.begin(), 3, 1, "lost")
    run.force()
    assert run.writes * WRITE_BYTES > 20 * WINDOW
    run.restart(0, 1)
    run.take_out(3)
    run.records += 2  # the end of the abort, and the restart's own record
    run.dump(groups)
    txn = run.begin()
    run.send(txn, 3, 9, "kept")
    run.commit(txn)
    run.force()
    sent, received, _ = groups[3]
    groups[3] = (sent + 1, received, ["kept"])
    run.restart(0, 0)
    run.dump(groups)
    run.add("last 3", f"last {sent + 1} 9")
    return run


def most_senders():
    """Each of as many senders as there may be has sent a message, and all are shown, before a restart and behind it. None of it is forced
    before its end, so each page that is written to has a frame."""
    return of_all_senders("the most senders", MOST_DIRECTORY, 2 * MOST_DIRECTORY, None)


def fewest_frames():
    """The same of fewer senders in the fewest frames. What was sent is forced behind each third message, and each page goes out and
    comes back."""
    return of_all_senders("many senders in the fewest frames", 128, FEWEST_FRAMES, 3)


def of_all_senders(name, pages, frames, forced):
    """A message of each sender of a store with so many directory pages and as many cell pages, in so many frames. A force comes behind
    every so many, or behind all."""
    senders = SLOTS * pages
    run = Run(name, pages, pages, "--frames", str(frames))
    txn = run.begin()
    for sender in range(senders):
        run.send(txn, sender, sender + 1, f"of{sender}")
        if forced and sender % forced == forced - 1:
            run.force()
    run.commit(txn)
    run.force()
    groups = {sender: (1, 0, [f"of{sender}"]) for sender in range(senders)}
    run.dump(groups)
    run.restart(0, 0)
    run.dump(groups)
    run.add(f"last {senders - 1}", f"last 1 {senders}")
    run.add(f"last {senders}", "refused 7 UnknownSender")
    return run


def most_tags():
    """Each client of as many tag pages as there may be, with as many frames, is marked. So it is behind a restart, which takes back the
    marks of another transaction."""
    run = Run("the most tag pages and frames", 1, 1, "--tags", str(MOST_TAGS), "--frames", str(MOST_FRAMES))
    clients, some = SLOTS * MOST_TAGS, range(7, SLOTS * MOST_TAGS, 997)
    txn = run.begin()
    run.send(txn, 0, 7, "kept")
    for client in range(clients):
        run.mark(txn, client, client + 1)
    run.commit(txn)
    txn = run.begin()
    for client in some:
        run.mark(txn, client, 1)
    run.force()
    run.restart(0, 1)
    run.records += 2 * len(some) + 2  # the inverses, the end of the abort, and the restart's own record
    run.dump({0: (1, 0, ["kept"])})
    for client in (0, *some, clients - 1):
        run.add(f"tag {client}", f"tag 1 {client + 1}")
    run.add(f"tag {clients}", "refused 22 UnknownClient")
    run.force()
    return run


def one_message_at_a_time():
    """A thousand messages are sent and received, one at a time. A restart has the whole log, and pages as they were formatted."""
    run = Run("a thousand messages, one at a time", 1, 1)
    for tag in range(1, 1001):
        txn = run.begin()
        run.send(txn, 0, tag, "x")
        run.commit(txn)
        txn = run.begin()
        run.receive(txn, 0, tag, "x")
        run.commit(txn)
    run.add("force", "forced 8001")
    run.add("crash 0 old", "crashed 8001")
    run.add("restart", "restarted 2 unfinished 0 lost 0")
    run.add("dump", "0 open sent 1000 received 1000:")
    run.add("last 0", "last 1000 1000")
    return run


def main():
    words = argparse.ArgumentParser(description="Runs scripts of real size.")
    words.add_argument("--program", help="a program that was built elsewhere")
    chosen = words.parse_args()
    program = built(chosen.program, "rqm")
    wrong = False
    for run in (most_transactions(), long_transaction(), long_log(), one_message_at_a_time(), most_senders(), fewest_frames(), most_tags()):
        fault = run.fault(program)
        wrong = wrong or fault is not None
        print(f"{run.name}: {fault or f'{len(run.lines)} lines print what they should'}")
    sys.exit(1 if wrong else 0)


if __name__ == "__main__":
    main()
