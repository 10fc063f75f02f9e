#!/usr/bin/env python3
"""Gives the built `rqm` stores and sessions with other bytes. What it says of them, and leaves, is what tests/opening.py,
tests/inspector.py and tests/reference.py make of the bytes. A store that is refused stays as it is. One is also given tag pages.

    python3 tests/fuzzed.py [--program PROGRAM]
    python3 tests/fuzzed.py --minutes M [--seed N] [--jobs N] [--keep FOLDER] [--program PROGRAM]

The first plays what stands in tests/fuzzed. A NAME.store, compressed, has the length of its pages in four bytes, the pages and the log. A
NAME.frames is what one connection says to a fresh store, a NAME.talk what two say by turns. Where `rt ci` left the program as Rattle's
own compiler builds it too, that one plays them as well.

The second draws such inputs for so many minutes. One that reaches a block of the program (tests/blocks.py) that none did is changed again
and again. What goes wrong is said, and put into a folder; where one is named, few that reach as much as all are put there too.
"""
import argparse
import itertools
import os
import pathlib
import random
import re
import socket
import struct
import subprocess
import sys
import tempfile
import time
import zlib
from concurrent.futures import ProcessPoolExecutor
from contextlib import ExitStack, contextmanager

import blocks
import inspector
import opening
from cases import TOP, built, built_twice
from damaged import formatted, rows
from hostile import drawn_frame, drawn_stream, requests_in
from mutated import MIGRATE, Mutation, faults_of_migration, files_in, held_in, left_by_runs, put_files
from reference import REFUSALS, Refused
from script_reference import Script
from server import CLOSING, FAULTS, LONGEST, MARKING, SESSION, frame_of, read_bytes, read_to_end, without_progress
from shim import failing

CORPUS = TOP / "tests" / "fuzzed"

# What is drawn is no longer.
MOST_BYTES = {"store": 150_000, "frames": 6_000, "talk": 6_000}


class Plain:
    """Runs of a command, whose standard input has ended, as `blocks.Runs` makes them; they reach nothing."""

    def __init__(self, command):
        self.command = command

    def run(self, most_seconds, work=None, is_whole=False):
        with tempfile.TemporaryFile() as self.out, tempfile.TemporaryFile() as told:
            process = subprocess.Popen(self.command, stdin=subprocess.PIPE, stdout=self.out, stderr=told)
            process.stdin.close()
            try:
                if work:
                    work(self)
                status = process.wait(most_seconds)
            except subprocess.TimeoutExpired:
                status = None
            finally:
                process.kill()
                process.wait()
            return status, self.printed(), os.pread(told.fileno(), 2**20, 0), []

    def printed(self):
        return os.pread(self.out.fileno(), 2**24, 0)

    def end(self):
        pass


# ---- stores


def told_of(made):
    """What a server says as it opens this."""
    said = f"incarnation {made.incarnation}, unfinished {made.unfinished}, lost {made.lost}, records {made.records}"
    return re.compile(b"opened in [0-9]+ ms: " + said.encode() + b"\n")


class Stores:
    """Pages and logs, which `rqm inspect`, the start of `rqm serve` and `rqm migrate` read."""

    kind = "store"

    def __init__(self, program, runs, top):
        self.folder = top / "store"
        self.folder.mkdir()
        self.inspect = runs([program, "inspect", str(self.folder)])
        words = ["--port", "0", "--workers", "1", "--until-input-ends"]
        self.serve = runs([program, "serve", str(self.folder), *words])
        self.migrate = runs([program, *MIGRATE, str(self.folder)])

    def come(self, held, is_whole=False):
        """What comes of these bytes, and what they reach. Of each run its status, what it printed and told, and the files it left."""
        came, all_reached = [], set()
        for command in (self.inspect, self.serve, self.migrate):
            put_files(self.folder, *held)
            *ended, reached = command.run(LONGEST, is_whole=is_whole)
            came.append((*ended, files_in(self.folder)))
            all_reached.update(reached)
        return came, all_reached

    def faults(self, held, came):
        """What is wrong with what came of them."""
        (pages, log), (shown, opened, (*migrated, migrated_files)) = held, came
        lines, status = inspector.wanted(log)
        if shown != (status, "".join(f"{line}\n" for line in lines).encode(), b"", held):
            yield f"inspect comes to {shown[:3]}, and not to {lines[-5:]}, {status}, or its files have changed"
        said, made, left = opening.said_of(pages, log)
        yield from self.faults_of_opening(opened, said, made, pages, left)
        yield from faults_of_migration(migrated, migrated_files, pages, log)

    def faults_of_opening(self, came, said, made, pages, left):
        (status, printed, told, files), came = came, came[:3]
        told = without_progress(told)
        if not made:
            fault = b"fault 16 Damaged\n" if said.startswith("damaged") else f"{said}\n".encode()
            if (status, printed, told) != (1, fault, b""):
                yield f"serve comes to {came}, and not to {said}"
            if files != (pages, left):
                yield f"it is refused ({said}), and its files have changed"
            return
        is_right = re.fullmatch(rb"listening 127\.0\.0\.1:[0-9]+\nserved 0\n", printed) and told_of(made).fullmatch(told)
        if status != 0 or not is_right:
            yield f"serve comes to {came}, and not to {told_of(made).pattern}"
        elif files[1] != left:
            yield f"its log is left as {files[1].hex()}, and not as {left.hex()}"
        elif files[0] != pages and held_in(opening.Opening(*files)) != held_in(made):
            yield "its pages are left otherwise"

    # ---- what is drawn

    def seeds(self, program):
        self.logs = left_by_runs(program)
        for _, pages, log, _ in rows():
            yield bytes(pages), log
        yield from (self.fresh(random.Random(seed)) for seed in range(50))

    def fresh(self, draw):
        made = Mutation(self.logs, draw.randrange(2**32))
        return made.pages, made.log

    def changed(self, draw, held, other):
        made = Changed(self.logs, draw, held, other)
        return made.pages, made.log

    @staticmethod
    def parts(held):
        """Its pages, then what may be left out of it."""
        records, rest = split(held[1])
        return held[0], [*records, rest]

    @staticmethod
    def whole(head, parts):
        return head, b"".join(parts)

    @staticmethod
    def size(held):
        return len(held[0]) + len(held[1])

    @staticmethod
    def pack(held):
        return zlib.compress(len(held[0]).to_bytes(4, "big") + held[0] + held[1], 9)

    @staticmethod
    def unpack(file):
        held = zlib.decompress(file)
        behind = 4 + int.from_bytes(held[:4], "big")
        return held[4:behind], held[behind:]


def split(log):
    """The whole records at a log's front, and the rest."""
    records, at = [], 0
    while at < len(log) and (found := inspector.front(log, at)):
        records.append(log[at : found[2]])
        at = found[2]
    return records, log[at:]


class Changed(Mutation):
    """A store that is changed once more. What other records it is given are also those of another."""

    def __init__(self, logs, draw, held, other):
        self.random, self.pages = draw, held[0]
        (self.records, rest), of_other = split(held[1]), split(other[1])[0]
        self.logs = dict(logs)
        if of_other:
            self.logs[draw.choice(list(logs))] = of_other
        if draw.randrange(8) == 0:
            self.pages = other[0]
        for _ in range(draw.choice([1, 1, 1, 2, 2, 4, 8])):
            kind = draw.randrange(10)
            if kind < 7:
                self.change_log()
            elif kind < 9:
                self.change_pages()
            else:
                rest = changed_bytes(draw, rest) if draw.randrange(2) else b""
        self.log = b"".join(self.records) + rest
        if draw.randrange(6) == 0:
            self.log = changed_bytes(draw, self.log)


# ---- sessions


class Session:
    """What a connection is answered, by the reference. It is told each answer: of a receive it takes from there whose message came."""

    def __init__(self, script):
        self.script, self.txn = script, None
        self.call = script.call

    def answer(self, kind, fields, told):
        try:
            return frame_of(*self.done(kind, fields, told))
        except Refused as refused:
            return frame_of(255, bytes([REFUSALS[refused.name]]))

    def done(self, kind, fields, told):
        if kind in (8, 10):
            call, answer = {8: ("last_tag", 136), 10: ("client_tag", 138)}[kind]
            return answer, struct.pack(">QQ", *self.call(call, int.from_bytes(fields, "big")))
        if (kind == 1) == (self.txn is not None):
            raise Refused("TooManyTransactions" if self.txn else "UnknownTransaction")
        if kind == 1:
            self.txn = self.call("begin")
            return 129, struct.pack(">QQ", *self.txn)
        if kind == 2:
            self.script.send(self.txn, *struct.unpack(">IQ", fields[:12]), fields[12:])
            return 130, b""
        if kind == 3:
            picked = int.from_bytes(told[3:7], "big") if told[2] == 131 else None
            return self.received(self.call("start_receive", self.txn, picked))
        if kind == 4:
            return self.received(self.call("start_receive_from", self.txn, int.from_bytes(fields, "big")))
        if kind == 5:
            self.script.close(self.txn, int.from_bytes(fields, "big"))
            return 133, b""
        if kind == 9:
            self.script.mark(self.txn, *struct.unpack(">IQ", fields))
            return 137, b""
        txn, self.txn = self.txn, None
        if kind == 6:
            return 134, struct.pack(">Q", self.call("commit", txn))
        self.script.abort(txn)
        return 135, b""

    def received(self, sub):
        if sub is None:
            return 132, b""
        deed = self.script.whole(sub)
        return 131, struct.pack(">IQ", deed.sender, deed.tag) + deed.body

    def end(self):
        if self.txn:
            self.script.abort(self.txn)


class Sessions:
    """What one connection says to a fresh store."""

    kind, connections = "frames", 1

    def __init__(self, program, runs, top):
        self.folder = top / self.kind
        self.folder.mkdir()
        words = ["--port", "0", "--workers", "1", "--sessions", str(self.connections)]
        self.serve = runs([program, "serve", str(self.folder), *words])

    def come(self, held, is_whole=False):
        """What comes of these bytes, and what they reach."""
        put_files(self.folder, formatted(tags=1), b"")
        talked = []
        *came, reached = self.serve.run(LONGEST, lambda run: talked.append(self.talk(run, held)), is_whole)
        return (talked[0], came), set(reached)

    def talk(self, run, held):
        """The answers, what came behind them, and how a connection was lost where one was."""
        answers, until = [], time.monotonic() + LONGEST
        while not (listening := re.match(rb"listening 127\.0\.0\.1:([0-9]+)\n", run.printed())) and time.monotonic() < until:
            time.sleep(0.0005)
        try:
            with ExitStack() as opened:
                streams = []
                for _ in range(self.connections):
                    port = int(listening[1]) if listening else 0
                    streams.append(opened.enter_context(socket.create_connection(("127.0.0.1", port), LONGEST)))
                    streams[-1].setsockopt(socket.IPPROTO_TCP, socket.TCP_NODELAY, 1)
                return answers, self.say(held, answers, *streams), None
        except (OSError, AssertionError) as error:
            return answers, b"", repr(error)

    def say(self, said, answers, stream):
        """Says these bytes in pieces, and reads an answer to each whole request of them before it says the rest; what comes then."""
        requests, end, is_fault = requests_in(said)
        draw, at = random.Random(zlib.crc32(said)), 0
        while at < end:
            size = min(end - at, draw.choice([1, 3, draw.randrange(1, 60), end]))
            stream.sendall(said[at : at + size])
            at += size
        answers.extend(answer_from(stream) for _ in requests)
        try:
            stream.sendall(said[end:])
            stream.shutdown(socket.SHUT_WR)
        except OSError:
            if not is_fault:
                raise
        return read_to_end(stream)

    def requests(self, held):
        """Which connection says each request, and the request."""
        return [(0, kind, fields) for kind, fields in requests_in(held)[0]]

    def faults(self, held, came):
        """What is wrong with what came of them."""
        (answers, behind, error), (status, printed, told) = came
        script = Script(1, 1, 1)
        sessions = [Session(script) for _ in range(self.connections)]
        for (who, kind, fields), answer in zip(self.requests(held), answers):
            wanted = sessions[who].answer(kind, fields, answer)
            if answer != wanted:
                yield f"answers a request of kind {kind} ({fields.hex()}) by {answer.hex()}, and not by {wanted.hex()}"
                return
        opened = re.fullmatch(rb"opened in [0-9]+ ms: incarnation 1, unfinished 0, lost 0, records 1\n", told)
        ended = re.fullmatch(rb"listening 127\.0\.0\.1:[0-9]+\nserved %d\n" % self.connections, printed)
        if behind or error or status != 0 or not opened or not ended:
            yield f"serve comes to {came[1]}, and a connection to {behind.hex()}, {error}"
            return
        for session in sessions:
            session.end()
        left, content = opening.Opening(*((self.folder / name).read_bytes() for name in ("pages", "log"))), script.call("content")
        marks = {client: script.call("client_tag", client) for client in range(left.pages.clients)}
        if (left.pages.content(), left.pages.marks()) != (dict(enumerate(content)), marks) or left.unfinished or left.lost:
            yield f"the store holds {left.pages.content()} and {left.pages.marks()}, and not {content} and {marks}"

    # ---- what is drawn

    def seeds(self, _):
        for frames in (SESSION, CLOSING, MARKING):
            yield b"".join(bytes.fromhex(request) for request, _ in frames)
        yield from map(bytes.fromhex, FAULTS)
        yield from (self.fresh(random.Random(seed)) for seed in range(50))

    def fresh(self, draw):
        return drawn_stream(draw)

    def part(self, draw):
        return drawn_frame(draw)

    def changed(self, draw, held, other):
        (_, parts), (_, others) = self.parts(held), self.parts(other)
        for _ in range(draw.choice([1, 1, 1, 2, 2, 4, 8])):
            at, kind = draw.randrange(len(parts) + 1), draw.randrange(9)
            if kind < 3:
                parts.insert(at, self.part(draw))
            elif kind == 3:
                del parts[at : at + draw.choice([1, 1, 2, 5])]
            elif kind == 4 and parts:
                parts.insert(at, draw.choice(parts))
            elif kind == 5:
                parts[at : at + draw.randrange(3)] = others[draw.randrange(len(others)) :][: draw.randrange(1, 12)]
            elif kind == 6:
                parts[at:at] = parts[at - draw.randrange(1, 9) : at] if at else []
            elif kind == 7 and at < len(parts):
                parts[at] = changed_bytes(draw, parts[at])
            else:
                draw.shuffle(parts)
        said = b"".join(parts)
        return changed_bytes(draw, said) if draw.randrange(8) == 0 else said

    def parts(self, held):
        requests, end, _ = requests_in(held)
        return b"", [*(frame_of(*request) for request in requests), held[end:]]

    @staticmethod
    def whole(head, parts):
        return head + b"".join(parts)

    size = staticmethod(len)
    pack = unpack = staticmethod(bytes)


def answer_from(stream):
    head = read_bytes(stream, 2)
    return head + read_bytes(stream, int.from_bytes(head, "big"))


class Talks(Sessions):
    """What two connections say by turns, each behind the other's answer: in front of a request stands a byte that says whose it is."""

    kind, connections = "talk", 2

    def say(self, held, answers, *streams):
        for who, kind, fields in self.requests(held):
            streams[who].sendall(frame_of(kind, fields))
            answers.append(answer_from(streams[who]))
        for stream in streams:
            stream.shutdown(socket.SHUT_WR)
        return b"".join(map(read_to_end, streams))

    def requests(self, held):
        found, at = [], 0
        while at < len(held) and (said := requests_in(held[at + 1 : at + 515])[0]):
            kind, fields = said[0]
            found.append((held[at] % 2, kind, fields))
            at += 4 + len(fields)
        return found

    def seeds(self, _):
        yield from (self.fresh(random.Random(seed)) for seed in range(50))

    def fresh(self, draw):
        return b"".join(self.part(draw) for _ in range(draw.randrange(1, 40)))

    def part(self, draw):
        return bytes([draw.randrange(2)]) + drawn_frame(draw)

    def parts(self, held):
        parts = [bytes([who]) + frame_of(kind, fields) for who, kind, fields in self.requests(held)]
        return b"", [*parts, held[sum(map(len, parts)) :]]


def changed_bytes(draw, held):
    held = bytearray(held)
    for _ in range(draw.choice([1, 1, 2, 4])):
        at, kind = draw.randrange(len(held) + 1), draw.randrange(5)
        if kind == 0 and at < len(held):
            held[at] ^= 1 << draw.randrange(8)
        elif kind == 1 and at < len(held):
            held[at] = draw.choice([0, 1, 2, 15, 16, 127, 128, 255, draw.randrange(256)])
        elif kind == 2:
            del held[at : at + draw.choice([1, 1, 2, 8, 256])]
        elif kind == 3:
            held[at:at] = draw.randbytes(draw.choice([1, 1, 2, 8]))
        else:
            held[at:at] = held[draw.randrange(len(held) + 1) :][: draw.choice([1, 8, 64, 256])]
    return bytes(held)


KINDS = {each.kind: each for each in (Stores, Sessions, Talks)}


# ---- what is kept


def kept():
    """What stands in tests/fuzzed: the name, the kind, and what it holds."""
    for file in sorted(CORPUS.iterdir()):
        kind = file.suffix[1:]
        yield file.name, kind, KINDS[kind].unpack(file.read_bytes())


def play(program):
    """Plays what is kept; whether each comes to what it should."""
    faults, count = [], 0
    with tempfile.TemporaryDirectory(prefix="rqm-fuzzed-") as top:
        looks = {kind: made(program, Plain, pathlib.Path(top)) for kind, made in KINDS.items()}
        for name, kind, held in kept():
            count += 1
            came, _ = looks[kind].come(held)
            faults += [f"{name}: {fault}" for fault in looks[kind].faults(held, came)]
    print("".join(f"{fault}\n" for fault in faults), end="")
    right = f"{count - len({fault.split(':')[0] for fault in faults})} of {count} files of tests/fuzzed"
    print(f"{right} come to what they should ({os.path.basename(program)})")
    return count > 0 and not faults


# ---- a search


class Search:
    """Draws inputs of a kind, and keeps those that reach what none did."""

    def __init__(self, kind, program, library, heads, top, seed):
        made = iter(range(10))
        self.looks = KINDS[kind](program, lambda command: blocks.Runs(command, library, heads, top / f"{kind}{next(made)}"), top)
        self.program, self.kind, self.random = program, kind, random.Random(f"{kind} {seed}")
        self.known, self.corpus, self.count, self.faults = set(), [], 0, []

    def take(self, held):
        if self.looks.size(held) > MOST_BYTES[self.kind]:
            return
        came, reached = self.looks.come(held)
        faults = list(self.looks.faults(held, came))
        self.count += 1
        if faults:
            self.faults.append((held, faults))
        elif reached - self.known:
            self.known |= reached
            self.corpus.append(held)

    def run(self, until):
        for held in [*(held for _, kind, held in kept() if kind == self.kind), *self.looks.seeds(self.program)]:
            self.take(held)
        while time.monotonic() < until and len(self.faults) < 10:
            if self.random.randrange(20) == 0:
                self.take(self.looks.fresh(self.random))
            else:
                among = self.corpus[-20:] if self.random.randrange(2) else self.corpus
                self.take(self.looks.changed(self.random, self.random.choice(among), self.random.choice(self.corpus)))

    def reaches(self, held, times=2):
        """What an input reaches, each of so many times."""
        return set.intersection(*(self.looks.come(held, True)[1] for _ in range(times)))

    def least(self, corpus):
        """Few of these that reach as much as all, without what they do not need for it."""
        reached = {at: self.reaches(held) for at, held in enumerate(corpus)}
        chosen, covered = [], set()
        while left := {at: len(found - covered) for at, found in reached.items() if found - covered}:
            at = max(left, key=lambda at: (left[at], -self.looks.size(corpus[at])))
            chosen.append((corpus[at], reached[at] - covered))
            covered |= reached[at]
        return [self.shorter(held, needed) for held, needed in chosen], covered

    def shorter(self, held, needed):
        head, parts = self.looks.parts(held)
        at, step = 0, max(1, len(parts) // 2)
        while step:
            less = self.looks.whole(head, parts[:at] + parts[at + step :])
            if at < len(parts) and needed <= self.reaches(less, 1):
                parts = parts[:at] + parts[at + step :]
            elif at + step < len(parts):
                at += step
            else:
                at, step = 0, step // 2
        less = self.looks.whole(head, parts)
        return less if needed <= self.reaches(less) else held


@contextmanager
def searching(kind, program, heads, seed):
    memory = "/dev/shm" if os.path.isdir("/dev/shm") else None
    with failing(blocks.SHIM) as (_, words), tempfile.TemporaryDirectory(dir=memory, prefix="rqm-fuzzed-") as top:
        yield Search(kind, program, words["LD_PRELOAD"], heads, pathlib.Path(top), seed)


def searched(kind, program, heads, seed, until):
    """What a search came to: how often it ran, what it keeps, how much that reaches, and what went wrong."""
    with searching(kind, program, heads, seed) as search:
        search.run(until)
        return search.count, search.corpus, search.known, search.faults


def search(program, chosen):
    """Searches by so many processes, for each kind in turn; whether nothing went wrong."""
    heads, until = blocks.blocks_of(program), time.monotonic() + 60 * chosen.minutes
    kinds = list(itertools.islice(itertools.cycle(KINDS), chosen.jobs))
    with ProcessPoolExecutor(chosen.jobs) as pool:
        running = [pool.submit(searched, kind, program, heads, chosen.seed + at, until) for at, kind in enumerate(kinds)]
        ended = [each.result() for each in running]
    wrong = [(kind, *each) for kind, (*_, faults) in zip(kinds, ended) for each in faults]
    keep = pathlib.Path(chosen.keep or tempfile.mkdtemp(prefix="rqm-fuzzed-")) if chosen.keep or wrong else None
    for at, (kind, held, faults) in enumerate(wrong, 1):
        write_kept(keep, f"wrong-{at}", kind, held)
        print(f"wrong-{at}.{kind}: " + "; ".join(faults)[:2000])
    for kind in dict.fromkeys(kinds):
        counts, corpora, known, _ = zip(*(each for known_kind, each in zip(kinds, ended) if known_kind == kind))
        corpus = list(itertools.chain(*corpora))
        print(f"{kind}: {sum(counts)} runs, {len(corpus)} of which reached more: {len(set().union(*known))} of {len(heads)} blocks")
        if chosen.keep:
            with searching(kind, program, heads, chosen.seed) as each:
                few, covered = each.least(corpus)
            for at, held in enumerate(few, 1):
                write_kept(keep, str(at), kind, held)
            print(f"{kind}: {len(few)} files reach {len(covered)} of them, whenever they are run")
    print(f"{len(wrong)} came to what they should not" + (f" ({keep})" if keep else ""))
    return not wrong


def write_kept(keep, name, kind, held):
    keep.mkdir(exist_ok=True)
    (keep / f"{name}.{kind}").write_bytes(KINDS[kind].pack(held))


def main():
    words = argparse.ArgumentParser(description="Gives rqm stores and sessions with other bytes.")
    words.add_argument("--program", help="a program that was built elsewhere")
    words.add_argument("--minutes", type=float, help="draws others for so long")
    words.add_argument("--seed", type=int, default=0, help="from which they are drawn")
    words.add_argument("--jobs", type=int, default=len(KINDS), help="by how many processes")
    words.add_argument("--keep", metavar="FOLDER", help="where few that reach much are put")
    chosen = words.parse_args()
    if chosen.minutes:
        sys.exit(0 if search(built(chosen.program, "rqm"), chosen) else 1)
    ran = [play(program) for program in built_twice(chosen.program, "rqm")]
    sys.exit(0 if all(ran) else 1)


if __name__ == "__main__":
    main()
