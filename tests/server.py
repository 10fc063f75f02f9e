#!/usr/bin/env python3
"""Runs `rqm serve` on stores of its own, in a temporary folder, and talks to it over 127.0.0.1.

    python3 tests/server.py [--program PROGRAM] [--seed N] [NAME..]

A name is one of the tests below, as `session`; without one all are run. `tests/kill.py` kills the server in the midst of load.
"""
import argparse
import os
import pathlib
import random
import re
import resource
import shutil
import signal
import socket
import struct
import subprocess
import sys
import tempfile
import threading
import time
from collections import Counter
from concurrent.futures import ThreadPoolExecutor
from contextlib import contextmanager

from cases import TOP, built
from shim import failing

sys.dont_write_bytecode = True
sys.path.insert(0, str(TOP / "clients" / "python"))
from rqm import (  # noqa: E402
    ClientBusy, Closed, Connection, Damaged, DiskWrite, Failed, Full, Lost, Passing, PoolFull, ReceiverBusy, SenderBusy, TooManyTransactions,
    UnknownClient, UnknownSender, UnknownTransaction,
)  # fmt: skip

# How many bytes the length at the head of a record has, and a Base with it.
LENGTH, BASE_SIZE = 4, 21

# How many seconds an answer may take, and a server to start or to end.
LONGEST = 10

# How many seconds a machine may hold a server up that has something to answer.
PAUSE = 2

# The worked session of docs/PROTOCOL.md, on a fresh store of one directory page and one cell page: each request with its answer.
SESSION = [
    ("0001 01", "0011 81 0000000000000001 0000000000000001"),
    ("0012 02 00000000 0000000000000007 68656c6c6f", "0001 82"),
    ("0001 03", "0001 84"),
    ("0001 01", "0002 ff 11"),
    ("0001 06", "0009 86 0000000000000005"),
    ("0001 06", "0002 ff 04"),
    ("0005 08 00000000", "0011 88 0000000000000001 0000000000000007"),
    ("0001 01", "0011 81 0000000000000001 0000000000000002"),
    ("0005 04 00000000", "0012 83 00000000 0000000000000007 68656c6c6f"),
    ("0005 05 0000000f", "0002 ff 07"),
    ("0001 07", "0001 87"),
]

# A group is closed, on such a store, and behind the commit nothing more is sent there.
CLOSING = [
    ("0001 01", "0011 81 0000000000000001 0000000000000001"),
    ("0005 05 00000000", "0001 85"),
    ("0012 02 00000000 0000000000000007 68656c6c6f", "0002 ff 0a"),
    ("0001 06", "0009 86 0000000000000004"),
    ("0001 01", "0011 81 0000000000000001 0000000000000002"),
    ("0012 02 00000000 0000000000000007 68656c6c6f", "0002 ff 0a"),
    ("0005 05 00000000", "0002 ff 0a"),
    ("0001 07", "0001 87"),
]

# The session there that marks a client, over a store with a tag page, and what comes behind it.
MARKING = [
    ("0001 01", "0011 81 0000000000000001 0000000000000001"),
    ("000d 09 00000003 0000000000000046", "0001 89"),
    ("0005 0a 00000003", "0011 8a 0000000000000000 0000000000000000"),
    ("000d 09 0000000f 0000000000000047", "0002 ff 16"),
    ("0001 06", "0009 86 0000000000000004"),
    ("0005 0a 00000003", "0011 8a 0000000000000001 0000000000000046"),
    ("000d 09 00000003 0000000000000047", "0002 ff 04"),
    ("0001 01", "0011 81 0000000000000001 0000000000000002"),
    ("000d 09 00000003 0000000000000047", "0001 89"),
    ("0001 07", "0001 87"),
    ("0005 0a 00000003", "0011 8a 0000000000000001 0000000000000046"),
    ("0005 0a 0000000f", "0002 ff 16"),
]

# A begin and a send, and what each answers; a count stands behind the incarnation.
BEGIN = bytes.fromhex("0001 01")
BEGIN_AND_SEND = BEGIN + bytes.fromhex("0012 02 00000000 0000000000000007 68656c6c6f")
BEGUN = bytes.fromhex("0011 81 0000000000000001")
SENT = bytes.fromhex("0001 82")

# What is a fault as soon as it is there: lengths, kinds, and fields of a wrong length.
FAULTS = [
    "0201", "0000", "ffff", "0001 00", "0001 09", "0001 0c", "0001 81", "0009 ff", "0002 01 00", "0002 03 00", "0002 06 00",
    "0002 07 00", "0001 04", "0004 04 000000", "0006 04 00000000 00", "0001 05", "0001 08", "000c 02 00000000 00000000000000",
    "0005 0c", "0200 0c", "0001 0a", "0001 0b", "0005 09 00000003", "000c 09 00000003 00000000000000",
    "000e 09 00000003 0000000000000046 00", "0004 0a 000000", "0006 0a 00000003 00", "0005 0b 00000003",
]  # fmt: skip

COMMIT, ABORT = bytes.fromhex("0001 06"), bytes.fromhex("0001 07")

# How a server ends that cannot have its folder, files or port.
OPEN = 1, b"fault open\n"

# What a server says on standard error once its store has failed.
STORE_FAILED = b"the store has failed: it refuses all calls until it is opened again"

# What a client asks that does not read, and the answer.
LAST_TAG = bytes.fromhex("0005 08 00000000")
NO_TAG = bytes.fromhex("0011 88 0000000000000000 0000000000000000")
NO_MARK = bytes.fromhex("0011 8a 0000000000000000 0000000000000000")

# Has a call fail as long as there is a file of its name; a send to the first connection alone. That for a thread fails once so many
# were made. A sync takes so many milliseconds more, and makes the file SYNCS longer by a byte.
SHIM = """#define _GNU_SOURCE
#include <dlfcn.h>
#include <errno.h>
#include <fcntl.h>
#include <pthread.h>
#include <stdatomic.h>
#include <stdio.h>
#include <stdlib.h>
#include <sys/epoll.h>
#include <sys/socket.h>
#include <unistd.h>

#define NEXT(name) ((__typeof__(&name)) dlsym(RTLD_NEXT, #name))

static int fails(const char *name, int number) {
    char path[4096];
    snprintf(path, sizeof path, "%s/%s", getenv("FAILING"), name);
    if (access(path, F_OK)) return 0;
    errno = number;
    return 1;
}

int epoll_wait(int poll, struct epoll_event *events, int most, int millis) {
    return fails("epoll_wait", EBADF) ? -1 : NEXT(epoll_wait)(poll, events, most, millis);
}

static int first;

int accept4(int listener, struct sockaddr *address, socklen_t *size, int flags) {
    int stream = fails("accept", EPROTO) ? -1 : NEXT(accept4)(listener, address, size, flags);
    if (!first && stream > 0) first = stream;
    return stream;
}

int accept(int listener, struct sockaddr *address, socklen_t *size) {
    int stream = fails("accept", EPROTO) ? -1 : NEXT(accept)(listener, address, size);
    if (!first && stream > 0) first = stream;
    return stream;
}

ssize_t send(int stream, const void *bytes, size_t size, int flags) {
    return stream == first && fails("send", EAGAIN) ? -1 : NEXT(send)(stream, bytes, size, flags);
}

ssize_t write(int stream, const void *bytes, size_t size) {
    return stream == first && fails("send", EAGAIN) ? -1 : NEXT(write)(stream, bytes, size);
}

static int noted(int answer) {
    const char *path = getenv("SYNCS");
    if (!path) return answer;
    int file = open(path, O_WRONLY | O_APPEND | O_CREAT, 0666);
    if (write(file, "x", 1) == 1) close(file);
    usleep(1000 * atoi(getenv("MILLIS")));
    return answer;
}

int fsync(int file) { return noted(NEXT(fsync)(file)); }
int fdatasync(int file) { return fails("fdatasync", EIO) ? -1 : noted(NEXT(fdatasync)(file)); }

int pthread_create(pthread_t *thread, const pthread_attr_t *with, void *(*run)(void *), void *given) {
    static atomic_int made;
    const char *refused = getenv("THREAD");
    if (refused && made++ == atoi(refused)) return EAGAIN;
    return NEXT(pthread_create)(thread, with, run, given);
}
"""


class Server:
    """`rqm serve` on a folder. It may open so many files, and make none longer than so many bytes. Its environment may have more words,
    and its standard input may be another one."""

    frames = ()  # words that say in how many frames all servers run, where a program of tests is told that

    def __init__(self, program, folder, *words, files=None, longest=None, environment=None, stdin=None):
        def limit():
            if files:
                resource.setrlimit(resource.RLIMIT_NOFILE, (files, files))
            if longest:
                signal.signal(signal.SIGXFSZ, signal.SIG_IGN)  # a write that goes past it is refused
                resource.setrlimit(resource.RLIMIT_FSIZE, (longest, longest))

        command = [program, "serve", str(folder), "--port", "0", *map(str, (*self.frames, *words))]
        self.told = tempfile.TemporaryFile()  # on standard error
        words = dict(os.environ, **(environment or {}))
        self.process = subprocess.Popen(
            command, stdin=stdin, stdout=subprocess.PIPE, stderr=self.told, preexec_fn=limit, env=words
        )
        line = first_line(self.process)
        listening = re.fullmatch(rb"listening 127\.0\.0\.1:([0-9]+)\n", line)
        if not listening:
            self.process.wait(LONGEST)
            self.kill()
            raise NotStarted(line, self.process.returncode)
        self.port = int(listening[1])

    def connect(self):
        return Connection(self.port, timeout=LONGEST)

    def raw(self):
        stream = socket.create_connection(("127.0.0.1", self.port), LONGEST)
        stream.setsockopt(socket.IPPROTO_TCP, socket.TCP_NODELAY, 1)
        return stream

    def ended(self):
        """The exit status, and what was printed behind the first line, once the server has ended by itself."""
        printed, _ = self.process.communicate(timeout=LONGEST)
        return self.process.returncode, printed

    def tells(self):
        """What stands on standard error so far, line by line, but for how far the opening was."""
        self.told.seek(0)
        return without_progress(self.told.read()).splitlines()

    def kill(self):
        self.process.kill()
        self.process.wait()
        self.process.stdout.close()


def first_line(process):
    """What a process prints next, up to the end of a line, and nothing behind it. One that does not in time is killed."""
    line, slow = b"", threading.Timer(LONGEST, process.kill)
    slow.start()
    while not line.endswith(b"\n") and (byte := os.read(process.stdout.fileno(), 1)):
        line += byte
    slow.cancel()
    return line


def without_progress(told):
    """What a program told, without how far its opening was. A busy machine may keep any opening for so long that it is told."""
    return re.sub(rb"^opening: [0-9]+ of [0-9]+ MB read\n", b"", told, flags=re.M)


class NotStarted(Exception):
    """The server printed this in place of where it listens, and ended with this status."""

    def __init__(self, line, status):
        super().__init__(line, status)
        self.line, self.status = line, status


@contextmanager
def serving(program, folder, *words, **limits):
    server = Server(program, folder, *words, **limits)
    try:
        yield server
    finally:
        server.kill()


@contextmanager
def store(program, directory=1, cells=1, tags=0):
    """A folder with a store of this size."""
    folder = pathlib.Path(tempfile.mkdtemp(prefix="rqm-server-"))
    try:
        words = ["format", str(folder), "--directory", str(directory), "--cells", str(cells)]
        words += ["--tags", str(tags)] if tags else []
        subprocess.run([program, *words], check=True, stdout=subprocess.DEVNULL)
        yield folder
    finally:
        shutil.rmtree(folder)


def frame_of(kind, fields=b""):
    """The bytes of a request or an answer."""
    return struct.pack(">HB", 1 + len(fields), kind) + fields


def torn_end(folder):
    """How many bytes stand in the log behind its last whole record, where a write was cut off."""
    log = (folder / "log").read_bytes()
    end = 0
    while end + LENGTH <= len(log):
        (length,) = struct.unpack(">I", log[end : end + LENGTH])
        if end + LENGTH + length > len(log):
            break
        end += LENGTH + length
    return len(log) - end


def has_base(folder):
    """Whether the log of a store begins with a Base."""
    return base_of(folder) > 0


def base_of(folder):
    """How many records the Base at the front of a log stands for; 0 where there is none."""
    with open(folder / "log", "rb") as log:
        front = log.read(13)
    return int.from_bytes(front[5:], "big") if front[4:5] == b"\x09" else 0


def read_to_end(stream):
    """All that comes until the server ends the connection, which may be by a reset."""
    taken = b""
    while True:
        try:
            piece = stream.recv(65536)
        except ConnectionResetError:
            return taken
        if not piece:
            return taken
        taken += piece


def read_bytes(stream, size):
    taken = b""
    while len(taken) < size:
        piece = stream.recv(min(65536, size - len(taken)))
        assert piece, f"ended behind {taken.hex()}"
        taken += piece
    return taken


def send_cut(stream, sent, cut):
    """Sends bytes in two pieces."""
    stream.sendall(sent[:cut])
    if 0 < cut < len(sent):
        time.sleep(0.003)
    stream.sendall(sent[cut:])


def everything(connection):
    """What the store holds, received until there is none, by sender; bodies with their tags."""
    held = {}
    while True:
        with connection.transaction() as transaction:
            for _ in range(50):
                message = transaction.receive()
                if message is None:
                    return held
                held.setdefault(message.sender, []).append((message.tag, message.body))


def session_at(program, rows, cut, tags=0):
    asked = b"".join(bytes.fromhex(request) for request, _ in rows)
    wanted = b"".join(bytes.fromhex(answer) for _, answer in rows)
    with store(program, tags=tags) as folder, serving(program, folder, "--sessions", 1) as server:
        with server.raw() as stream:
            if cut is None:
                for at in range(len(asked)):
                    stream.sendall(asked[at : at + 1])
                    time.sleep(0.001)
            else:
                send_cut(stream, asked, cut)
            answered = read_bytes(stream, len(wanted))
            stream.shutdown(socket.SHUT_WR)
            answered += read_to_end(stream)
        assert answered == wanted, f"cut at {cut}: {answered.hex()}"
        status, printed = server.ended()
        assert (status, printed) == (0, b"served 1\n"), (cut, status, printed)


def session(program, _):
    """The worked session, byte for byte: whole, cut at every byte, and a byte at a time."""
    length = sum(len(bytes.fromhex(request)) for request, _ in SESSION)
    with ThreadPoolExecutor(4) as pool:
        list(pool.map(lambda cut: session_at(program, SESSION, cut), [*range(length), None]))


def closing(program, _):
    """A session that closes a group, byte for byte: whole, and a byte at a time."""
    for cut in (0, None):
        session_at(program, CLOSING, cut)


def marking(program, _):
    """The worked session that marks a client, byte for byte: whole, cut at every byte, and a byte at a time. Where there are no tag pages
    each client is unknown."""
    length = sum(len(bytes.fromhex(request)) for request, _ in MARKING)
    with ThreadPoolExecutor(4) as pool:
        list(pool.map(lambda cut: session_at(program, MARKING, cut, tags=1), [*range(length), None]))
    unknown = [(request, "0002 ff 16") for request in ("0005 0a 00000000", "000d 09 00000000 0000000000000001")]
    session_at(program, [unknown[0], SESSION[0], *unknown, ("0001 07", "0001 87")], 0)


def faults(program, _):
    """Behind a fault nothing is answered, the connection ends, and its transaction is aborted; cut at every byte."""
    begun = 0
    with store(program) as folder, serving(program, folder) as server:
        for fault in map(bytes.fromhex, FAULTS):
            sent = BEGIN_AND_SEND + fault
            for cut in range(0, len(sent)) if fault == bytes.fromhex(FAULTS[0]) else (0, len(BEGIN_AND_SEND)):
                begun += 1
                with server.raw() as stream:
                    send_cut(stream, sent, cut)
                    answered = read_to_end(stream)
                assert answered == BEGUN + struct.pack(">Q", begun) + SENT, (fault.hex(), cut, answered.hex())
        with server.connect() as connection:
            assert connection.last_tag(0) == (0, 0)
            assert everything(connection) == {}


def bodies(program, _):
    """Bodies of 0 bytes to 499, for senders that the store has and that it has not, cut anywhere: what is too long is refused."""
    asked, wanted = BEGIN, BEGUN + struct.pack(">Q", 1)
    for sender, size in ((14, 0), (14, 216), (14, 217), (14, 499), (15, 217), (15, 1)):
        asked += struct.pack(">HBIQ", 13 + size, 2, sender, 7) + b"x" * size
        wanted += bytes.fromhex("0002 ff 07" if sender == 15 else "0002 ff 08" if size > 216 else "0001 82")
    for cut in range(0, len(asked), 101):
        with store(program) as folder, serving(program, folder) as server, server.raw() as stream:
            send_cut(stream, asked, cut)
            assert read_bytes(stream, len(wanted)) == wanted, cut


def pieces(program, chosen):
    """Sends, in random pieces: their answers are the same, and what is then in the store is what was sent."""
    for seed in range(chosen.seed, chosen.seed + 4):
        draw = random.Random(seed)
        sent = [(draw.getrandbits(64), draw.randbytes(draw.choice([0, 1, draw.randrange(217), 216]))) for _ in range(40)]
        frames = [struct.pack(">HBIQ", 13 + len(body), 2, 3, tag) + body for tag, body in sent]
        rest = BEGIN + b"".join(frames) + COMMIT
        with store(program, 1, 3) as folder, serving(program, folder) as server:
            with server.raw() as stream:
                while rest:
                    size = draw.choice([1, 2, draw.randrange(1, 30), draw.randrange(1, 1500)])
                    stream.sendall(rest[:size])
                    rest = rest[size:]
                wanted = BEGUN + struct.pack(">Q", 1) + SENT * 40 + bytes.fromhex("0009 86")
                assert read_bytes(stream, len(wanted)) == wanted, seed
            with server.connect() as connection:
                assert everything(connection) == {3: sent}, seed


def damaged_streams(program, chosen):
    """Questions in random pieces, of which one byte is another: those before the fault are answered, and nothing is behind it."""
    faults_met = 0
    with store(program, tags=1) as folder, serving(program, folder) as server:
        for seed in range(chosen.seed, chosen.seed + 300):
            draw = random.Random(seed)
            questions = (struct.pack(">HBI", 5, draw.choice([8, 10]), draw.randrange(20)) for _ in range(draw.randrange(1, 12)))
            asked = bytearray(b"".join(questions))
            asked[draw.randrange(len(asked))] = draw.getrandbits(8)
            wanted, end, is_fault = answers_to(bytes(asked))
            faults_met += is_fault
            rest = bytes(asked[:end])
            with server.raw() as stream:
                while rest:
                    size = draw.choice([1, 2, draw.randrange(1, 30), len(rest)])
                    stream.sendall(rest[:size])
                    rest = rest[size:]
                if not is_fault:
                    stream.shutdown(socket.SHUT_WR)
                assert read_to_end(stream) == wanted, (seed, asked.hex())
    assert 60 < faults_met < 280, faults_met


# How long each request of a fixed length is.
LENGTHS = {1: 1, 3: 1, 4: 5, 5: 5, 6: 1, 7: 1, 8: 5, 9: 13, 10: 5}

# The last kind of a request.
LAST_KIND = 10


def answers_to(asked):
    """What docs/PROTOCOL.md says of bytes, on a fresh small store with a tag page, without a transaction. It is the answers, how many bytes
    there are up to the first fault, and whether there is one."""
    at, answers = 0, b""
    while len(asked) - at > 2:
        length, kind = int.from_bytes(asked[at : at + 2], "big"), asked[at + 2]
        if not 1 <= length <= 512:
            return answers, at + 2, True
        if not 1 <= kind <= LAST_KIND:
            return answers, at + 3, True
        end = at + 2 + length
        if end > len(asked):
            return answers, len(asked), False
        if length < 13 if kind == 2 else length != LENGTHS[kind]:
            return answers, end, True
        is_known = int.from_bytes(asked[at + 3 : end], "big") < 15
        told = {8: NO_TAG if is_known else bytes.fromhex("0002 ff 07"), 10: NO_MARK if is_known else bytes.fromhex("0002 ff 16")}
        answers += told.get(kind, bytes.fromhex("0002 ff 04"))
        at = end
    return answers, len(asked), False


def lost_connections(program, _):
    """A connection that ends at any byte behind its send, or is reset, leaves nothing of its transaction."""
    with store(program) as folder, serving(program, folder) as server:
        # the last is a frame of ReceiveFrom that ends amid its sender
        ends = COMMIT[:0], COMMIT[:1], COMMIT[:2], bytes.fromhex("0005040000")
        for trial in range(16):
            stream = server.raw()
            stream.sendall(BEGIN_AND_SEND + ends[trial // 2 % 4])
            read_bytes(stream, len(BEGUN) + 8 + len(SENT))
            if trial % 2:
                reset(stream)
            stream.close()
            with server.connect() as connection:
                send_when_free(connection, 0, trial + 1, b"after")
                assert everything(connection) == {0: [(trial + 1, b"after")]}, trial
                assert connection.last_tag(0) == (trial + 1, trial + 1), trial


def answers_before_a_fault(program, _):
    """What was answered in front of a fault comes, though much was said behind it and it is read late."""
    with store(program) as folder, serving(program, folder) as server:
        for behind in (0, 1, 4096, 500_000):
            with server.raw() as stream:
                stream.sendall(BEGIN_AND_SEND + b"\0\0")
                stream.setblocking(False)
                try:
                    for _ in range(behind // 1000 + 1):
                        stream.send(bytes(min(behind, 1000)))
                except OSError:
                    pass
                time.sleep(0.1)
                stream.settimeout(LONGEST)
                answered = read_bytes(stream, len(BEGUN) + 8 + len(SENT))
                assert answered.startswith(BEGUN) and answered.endswith(SENT), (behind, answered)
                assert stream.recv(1) == b"", behind


def parted_clients(program, _):
    """A client at fault that keeps its connection, or says more and more, holds up neither others nor the server's end."""
    with store(program) as folder, serving(program, folder, "--workers", 1, "--sessions", 3) as server:
        silent, loud, other = server.raw(), server.raw(), server.connect()
        silent.sendall(bytes(2))
        loud.sendall(bytes(2))
        longest, until = 0, time.monotonic() + 2 * PAUSE
        with ThreadPoolExecutor() as pool:
            flood = pool.submit(said_until_lost, loud, until)
            while time.monotonic() < until:
                before = time.monotonic()
                assert other.last_tag(0) == (0, 0)
                longest = max(longest, time.monotonic() - before)
            flood.result()
        assert longest < PAUSE, longest
        other.close()
        assert server.ended() == (0, b"served 3\n")
        silent.close()
        loud.close()


def said_until_lost(stream, until):
    """Says as much as the system takes, for so long, or until the connection is lost."""
    try:
        while time.monotonic() < until:
            stream.sendall(bytes(65536))
    except OSError:
        pass


def unread_answers(program, _):
    """A client that has said all and reads nothing keeps no transaction. What was answered it may still read."""
    with failing(SHIM) as (beside, words), store(program) as folder:
        words["FAILING"], full = str(beside), beside / "send"
        with serving(program, folder, "--workers", 1, environment=words) as server:
            with server.raw() as silent, server.connect() as other:
                silent.sendall(LAST_TAG)
                assert read_bytes(silent, len(NO_TAG)) == NO_TAG
                full.touch()
                silent.sendall(BEGIN_AND_SEND)
                wait_until(lambda: is_busy(other))
                silent.shutdown(socket.SHUT_WR)
                send_when_free(other, 0, 1, b"kept")


def is_busy(connection):
    """Whether another transaction sends for sender 0."""
    with connection.transaction() as transaction:
        try:
            transaction.send(0, 1, b"")
        except SenderBusy:
            return True
        finally:
            transaction.abort()
    return False


def shared_forces(program, _):
    """Commits that wait together are forced together, whoever serves them. What nobody waits for is forced within a second."""
    with failing(SHIM) as (beside, words):
        syncs = beside / "syncs"
        words.update(FAILING=str(beside), SYNCS=str(syncs), MILLIS="200")
        for workers in (1, 8):
            with store(program) as folder, serving(program, folder, "--workers", workers, environment=words) as server:
                # A machine that is held up between two of the commits tells nothing of the server.
                assert any(forces_of_sixteen(server, syncs) <= 4 for _ in range(3)), "16 commits"
                forces_of_aborts(server, syncs)


def forces_of_sixteen(server, syncs):
    """How many syncs 16 commits took that were asked for at once."""
    opened = [server.raw() for _ in range(16)]
    for stream in opened:
        stream.sendall(BEGIN)
        read_bytes(stream, len(BEGUN) + 8)
    before = until_it_rests(syncs)
    for stream in opened:
        stream.sendall(COMMIT)
    for stream in opened:
        read_bytes(stream, 11)
        stream.close()
    taken = syncs.stat().st_size - before
    assert taken > 0
    return taken


def forces_of_aborts(server, syncs):
    with server.raw() as stream:
        before, until = until_it_rests(syncs), time.monotonic() + 0.5
        while time.monotonic() < until:
            stream.sendall(BEGIN + ABORT)
            read_bytes(stream, len(BEGUN) + 8 + 3)
        assert syncs.stat().st_size - before <= 4, "aborts"
        wait_until(lambda: syncs.stat().st_size > before, 3)


def until_it_rests(syncs):
    """Waits until nothing was synced for longer than the page writer rests, and tells how many syncs there were."""
    until = time.monotonic() + LONGEST
    while True:
        time.sleep(0.1)
        before = syncs.stat().st_size
        time.sleep(1.5)
        if syncs.stat().st_size == before:
            return before
        assert time.monotonic() < until, "the page writer does not rest"


def few_frames(program, _):
    """A server with 8 frames never has more pages in memory, also in its start, and one with a frame for each page has all of them. Both
    serve transactions that change more pages than 8, and the last one starts from a log of such. A request that finds too few frames
    finds them when it is made again at once."""
    pages, taken, refused = 8000, [], []
    with store(program, directory=20, cells=pages) as folder:
        for frames in (8, 67585, 8):
            with serving(program, folder, "--frames", frames) as server, server.connect() as connection:
                taken.append(most_resident(server.process.pid))
                connection.patience = 0
                before = len(refused)
                with connection.transaction() as sending:
                    for sender in range(0, 300, 15):
                        in_frames(refused, lambda: sending.send(sender, frames, b"%d" % sender))
                with connection.transaction() as receiving:
                    for sender in range(0, 300, 15):
                        received = in_frames(refused, lambda: receiving.receive_from(sender))
                        assert received == (sender, frames, b"%d" % sender)
                assert (len(refused) > before) == (frames == 8), refused
    assert taken[1] - max(taken[0], taken[2]) > pages * 3000, taken
    return f"{taken[0] >> 20}, {taken[1] >> 20} and {taken[2] >> 20} MB, {len(refused)} times PoolFull"


def lost_write(program, _):
    """A page whose last write the disk lost is found out where it is read again, each time. Another group is served. The next start makes
    the page from the log, as no checkpoint came between."""
    senders = range(15, 300, 15)
    with store(program, directory=20, cells=20) as folder:
        with serving(program, folder, "--frames", 8) as server, server.connect() as connection:
            first = sent_and_out(connection, folder, 1, senders)
            assert sent_and_out(connection, folder, 2, senders) != first
            with open(folder / "pages", "r+b") as file:
                file.seek(4096)
                file.write(first)
            for _ in range(2):
                with connection.transaction() as transaction:
                    raises(Damaged, lambda: transaction.send(0, 3, b"lost"))
                    raises(Damaged, lambda: transaction.receive_from(0))
                    assert transaction.receive_from(15) == (15, 1, b"other")
                    transaction.abort()
        with serving(program, folder, "--frames", 8) as server, server.connect() as connection:
            assert connection.last_tag(0) == (2, 2)
            with connection.transaction() as transaction:
                assert [transaction.receive_from(0) for _ in range(3)] == [(0, 1, b"kept"), (0, 2, b"kept"), None]


def sent_and_out(connection, folder, tag, senders):
    """The first page of the directory as it was written out, once a message was sent there and these senders' pages took its frame."""
    with connection.transaction() as transaction:
        transaction.send(0, tag, b"kept")
    for sender in senders:
        with connection.transaction() as transaction:
            transaction.send(sender, tag, b"other")
    with open(folder / "pages", "rb") as file:
        file.seek(4096)
        return file.read(4096)


def in_frames(refused, call):
    """What a call answers, which is made once more where it finds too few frames: that is noted."""
    try:
        return call()
    except PoolFull as refusal:
        refused.append(refusal)
        return call()


def most_resident(process):
    """How many bytes of memory a process has had at most."""
    with open(f"/proc/{process}/status", encoding="utf-8") as status:
        return int(re.search(r"VmHWM:\s+(\d+)", status.read())[1]) * 1024


def failing_force(program, _):
    """Commits that wait for a force that fails are all refused, and so is what comes then. Behind the next start each is there or not, and
    so is what was acknowledged."""
    with failing(SHIM) as (beside, words), store(program, 2, 4) as folder:
        words["FAILING"], fails = str(beside), beside / "fdatasync"
        with serving(program, folder, environment=words) as server:
            with server.connect() as connection, connection.transaction() as transaction:
                transaction.send(0, 1, b"kept")
            opened = [server.raw() for _ in range(16)]
            for sender, stream in enumerate(opened, 1):
                stream.sendall(BEGIN + frame_of(2, struct.pack(">IQ", sender, 7)))
                assert read_bytes(stream, len(BEGUN) + 8 + len(SENT)).endswith(SENT)
            fails.touch()
            for stream in opened:
                stream.sendall(COMMIT)
            for stream in opened:
                assert read_bytes(stream, 4) in (bytes.fromhex("0002 ff 02"), bytes.fromhex("0002 ff 0f"))
                stream.sendall(LAST_TAG)
                assert read_bytes(stream, 4) == bytes.fromhex("0002 ff 02")
                stream.close()
            spent = processor_time(server)
            time.sleep(1)
            assert processor_time(server) - spent < 0.3, "it waits busily"
            with server.connect() as connection:
                raises(Failed, connection.transaction)
            tells_failure_once(server)
        with serving(program, folder) as server, server.connect() as connection:
            held = everything(connection)
        assert held.pop(0) == [(1, b"kept")] and all(left == [(7, b"")] for left in held.values()), held
        assert {*held} <= {*range(1, 17)}, held
    return f"{len(held)} of 16 commits are there"


def ends_inside_a_frame(program, _):
    """A connection that ends inside a frame has the answers to what stands before it, and leaves nothing of its transaction."""
    asked = bytes.fromhex("0005 04 00000000")
    with store(program) as folder, serving(program, folder) as server:
        for end in range(1, len(asked)):
            with server.raw() as stream:
                stream.sendall(BEGIN_AND_SEND + asked[:end])
                stream.shutdown(socket.SHUT_WR)
                answered = read_to_end(stream)
            assert answered == BEGUN + struct.pack(">Q", end) + SENT, (end, answered.hex())
        with server.connect() as connection:
            assert connection.last_tag(0) == (0, 0)
            assert everything(connection) == {}


def reset(stream):
    """Has the connection end by a reset once it is closed, in place of an end."""
    stream.setsockopt(socket.SOL_SOCKET, socket.SO_LINGER, struct.pack("ii", 1, 0))


def send_when_free(connection, sender, tag, body):
    until = time.monotonic() + LONGEST
    while True:
        try:
            with connection.transaction() as transaction:
                transaction.send(sender, tag, body)
            return
        except SenderBusy:
            assert time.monotonic() < until, "a lost transaction does not end"
            time.sleep(0.001)


def served(program, _):
    """The server ends after so many sessions, whoever takes them, with its store open again for the next."""
    for workers, sessions in ((1, 1), (4, 7), (64, 20)):
        with store(program) as folder:
            with serving(program, folder, "--workers", workers, "--sessions", sessions, "--frames", 8) as server:
                opened = [server.connect() for _ in range(sessions)]
                with opened[-1].transaction() as transaction:
                    transaction.send(3, 1, b"kept")
                for connection in opened:
                    connection.close()
                assert server.ended() == (0, b"served %d\n" % sessions), (workers, sessions)
                assert re.fullmatch(rb"opened in [0-9]+ ms: incarnation 1, unfinished 0, lost 0, records 1", *server.tells())
            with serving(program, folder) as server, server.connect() as connection:
                assert everything(connection) == {3: [(1, b"kept")]}


def starts(program, _):
    """Words that are not accepted, and faults in their order: folder and files, restart, port."""

    def said(*words, tells=None):
        ended = subprocess.run([program, "serve", *map(str, words)], capture_output=True, timeout=LONGEST)
        assert tells is None or ended.stderr.endswith(tells), ended.stderr
        return ended.returncode, ended.stdout

    with store(program) as folder, socket.create_server(("127.0.0.1", 0)) as taken:
        port = taken.getsockname()[1]
        for words in (
            [], [folder], ["--port", 0], [folder, "--port", 65536], [folder, "--port", -1], [folder, "--port", 0, "--workers", 0],
            [folder, "--port", 0, "--workers", 65], [folder, "--port", 0, "--frames", 7],
            [folder, "--port", 0, "--checkpoint-after", "x"], [folder, "--port", 0, "--checkpoint-after", -1],
            [folder, "--port", 0, "--checkpoint-after", 2**64], [folder, "--port", 0, "--checkpoint-after"],
            [folder, "--port", 0, "--frames", 67586], [folder, "--port", 0, "--sessions", "x"], [folder, "--port", 0, "more"],
        ):  # fmt: skip
            assert said(*words) == (2, b""), words
        missing = b"the store cannot be opened: No such file or directory (os error 2)\n"
        assert said(folder, "--port", port, tells=b"port %d cannot be had: Address already in use (os error 98)\n" % port) == OPEN
        assert said(folder / "missing", "--port", port, tells=missing) == OPEN
        with serving(program, folder):
            assert said(folder, "--port", 0, tells=b"another program has the store open\n") == OPEN
        (folder / "log").write_bytes(b"\1")
        assert said(folder, "--port", port) == (1, b"fault 16 Damaged\n")
        (folder / "log").unlink()
        assert said(folder, "--port", port, tells=missing) == OPEN


def input_ends(program, _):
    """A server that is to end with its standard input goes on while somebody may write there. Then it ends cleanly: no session begins any
    more, those that are open are lost, and all is forced."""
    with store(program) as folder:
        for workers, most in ((1, 2**40), (3, 1)):
            words = ("--workers", workers, "--until-input-ends", "--checkpoint-after", most)
            with serving(program, folder, *words, stdin=subprocess.PIPE) as server:
                server.process.stdin.write(b"x")
                server.process.stdin.flush()
                time.sleep(0.3)
                with server.connect() as ended:
                    with ended.transaction() as transaction:
                        transaction.send(workers, 1, b"kept")
                with server.connect() as open_one, server.raw() as silent:
                    lost = open_one.transaction()
                    lost.send(0, 1, b"lost")
                    silent.sendall(BEGIN_AND_SEND[:7])
                    time.sleep(0.1)
                    server.process.stdin.close()
                    server.process.stdin = None
                    assert server.ended() == (0, b"served 3\n")
                    raises(Lost, lost.receive)
        with serving(program, folder) as server, server.connect() as connection:
            assert b"unfinished 0, lost 0" in server.tells()[0]
            assert everything(connection) == {1: [(1, b"kept")], 3: [(1, b"kept")]}
        with open(os.devnull, "rb") as no_pipe:
            assert started(program, folder, "--until-input-ends", environment={}, stdin=no_pipe) == (b"fault input\n", 1)


def silent_reader(program, _):
    """Nobody waits for a client that asks much and does not read; once it reads it has all its answers, also where it has said all."""
    with store(program) as folder, serving(program, folder, "--workers", 1) as server, server.connect() as other:
        for has_said_all in (False, True):
            with server.raw() as greedy:
                frames = ask_until_full(greedy, other)
                if has_said_all:
                    greedy.shutdown(socket.SHUT_WR)
                greedy.settimeout(LONGEST)
                assert read_bytes(greedy, frames * len(NO_TAG)) == NO_TAG * frames
                assert not has_said_all or read_to_end(greedy) == b""


def ask_until_full(greedy, other):
    """Asks until the server takes no more, and another connection does not wait meanwhile: how many whole frames it took."""
    greedy.setblocking(False)
    asked = waited = 0
    until = time.monotonic() + LONGEST
    while waited < 20:
        assert time.monotonic() < until, "the server reads without an end"
        try:
            asked += greedy.send((LAST_TAG * 2000)[asked % len(LAST_TAG) :])
            waited = 0
        except BlockingIOError:
            waited += 1
            before = time.monotonic()
            assert other.last_tag(0) == (0, 0)
            assert time.monotonic() - before < PAUSE, "another connection waits for one that does not read"
            time.sleep(0.01)
    return asked // len(LAST_TAG)


def slow_clients(program, _):
    """Nobody waits for clients that say a byte a second, nor for those that reset their connections in the midst of a frame. The slow
    ones are answered once their frames are whole."""
    with store(program) as folder, serving(program, folder, "--workers", 1) as server, server.connect() as other:
        slow = [server.raw() for _ in range(8)]
        for stream in slow:
            stream.sendall(LAST_TAG[:4])
        longest = 0
        for at in range(4, len(LAST_TAG)):
            for stream in slow:
                stream.sendall(LAST_TAG[at : at + 1])
            until = time.monotonic() + 1
            while time.monotonic() < until:
                with server.raw() as broken:
                    broken.sendall(BEGIN_AND_SEND + LAST_TAG[:at])
                    reset(broken)
                before = time.monotonic()
                with other.transaction() as transaction:
                    transaction.send(1, 1, b"")
                    transaction.receive_from(1)
                longest = max(longest, time.monotonic() - before)
        assert longest < PAUSE, "another connection waits"
        for stream in slow:
            assert read_bytes(stream, len(NO_TAG)) == NO_TAG
            stream.close()


def few_descriptors(program, _):
    """Where the system has no more descriptors, connections wait, those that are served go on, and those that wait are served once
    others have ended."""
    with store(program) as folder, serving(program, folder, "--workers", 1, files=12) as server:
        waiting = [server.raw() for _ in range(30)]
        for stream in waiting:
            stream.sendall(BEGIN)
        told = [b"no more files may be opened: connections wait until others end"]
        wait_until(lambda: server.tells()[1:] == told)
        spent = processor_time(server)
        time.sleep(1)
        assert processor_time(server) - spent < 0.3, "it waits busily"
        assert read_bytes(waiting[0], len(BEGUN) + 8).startswith(BEGUN)
        waiting[0].sendall(LAST_TAG)
        assert read_bytes(waiting[0], len(NO_TAG)) == NO_TAG
        waiting.pop(0).close()
        for stream in waiting:  # each is answered at last, as those before it end
            assert read_bytes(stream, len(BEGUN) + 8).startswith(BEGUN)
            stream.close()
        assert server.tells()[1:] == told


def processor_time(server):
    """How many seconds of processors a server has taken."""
    times = pathlib.Path(f"/proc/{server.process.pid}/stat").read_text().rsplit(")", 1)[1].split()
    return (int(times[11]) + int(times[12])) / os.sysconf("SC_CLK_TCK")


def leaves_nothing(program, _):
    """Connections that have ended, in whatever way, keep no open file."""
    ways = {
        "closed": lambda stream: None, "reset amid a frame": lambda stream: (stream.sendall(LAST_TAG[:4]), reset(stream)),
        "a fault": lambda stream: (stream.sendall(bytes(2)), read_to_end(stream)),
        "shut down": lambda stream: (stream.shutdown(socket.SHUT_WR), read_to_end(stream)),
        "reset with a transaction": lambda stream: (stream.sendall(BEGIN), read_bytes(stream, len(BEGUN) + 8), reset(stream)),
    }  # fmt: skip
    with store(program) as folder, serving(program, folder) as server, server.connect() as other:
        assert other.last_tag(0) == (0, 0)
        before = open_files(server)
        for name, end in ways.items():
            for _ in range(300):
                with server.raw() as stream:
                    end(stream)
            wait_until(lambda: open_files(server) == before)
            send_when_free(other, 0, 1, name.encode())
        assert [body for _, body in everything(other)[0]] == [name.encode() for name in ways]


def open_files(server):
    return len(os.listdir(f"/proc/{server.process.pid}/fd"))


def many_connections(program, _):
    """As many connections as may be opened, 1,000 to 4,000, each with a transaction."""
    _, most = resource.getrlimit(resource.RLIMIT_NOFILE)
    assert most >= 1100, f"for 1,000 connections 1,100 files have to be open, and here {most} may be at most"
    resource.setrlimit(resource.RLIMIT_NOFILE, (most, most))  # also of the server, which begins behind this
    with store(program) as folder, serving(program, folder) as server:
        opened = [server.raw() for _ in range(min(4000, most - 100))]
        for stream in opened:
            stream.sendall(BEGIN)
        begun = {read_bytes(stream, len(BEGUN) + 8)[len(BEGUN) :] for stream in opened}
        assert len(begun) == len(opened)
        opened[0].sendall(LAST_TAG)
        assert read_bytes(opened[0], len(NO_TAG)) == NO_TAG
        for stream in opened:
            stream.close()
        with server.connect() as connection:
            send_when_free(connection, 0, 1, b"after")
    return f"{len(opened)} connections"


def missing_threads(program, _):
    """Where a thread does not start, all end, nobody is served, and the store is free for the next server."""
    with failing(SHIM) as (beside, words), store(program) as folder:
        words["FAILING"] = str(beside)
        for wanted, more in ((6, ()), (7, ("--checkpoint-after", 1))):
            for thread in range(1, wanted):
                refused = started(program, folder, "--workers", 3, *more, environment={**words, "THREAD": str(thread)})
                assert refused == (b"fault 1 NoMemory\n", 1), (thread, refused)
            for thread in (0, wanted):  # the first one only tells how far an opening is
                with serving(program, folder, "--workers", 3, *more, environment={**words, "THREAD": str(thread)}) as server:
                    with server.connect() as connection:
                        assert everything(connection) == {}
        with serving(program, folder, "--workers", 64, files=200):
            pass
        try:
            Server(program, folder, "--workers", 64, files=40)
        except NotStarted as refused:
            assert (refused.line, refused.status) == (b"fault 1 NoMemory\n", 1)
        else:
            raise AssertionError("more workers than files")


def started(program, folder, *words, **limits):
    """What a server prints first that does not start, and its exit status."""
    try:
        Server(program, folder, *words, **limits).kill()
    except NotStarted as refused:
        return refused.line, refused.status
    raise AssertionError("it has started")


def short_logs(program, _):
    """A server makes its log one record once it is long, again and again, and none while nothing comes, though the log be long for it.
    What was sent and not received is there, also for the next server."""
    held, tag = [], 0
    with store(program, 1, 20) as folder:
        for most in (20_000, 1):
            with serving(program, folder, "--checkpoint-after", most) as server, server.connect() as connection:
                seen, until = {base_of(folder)}, time.monotonic() + 2 * LONGEST
                while len(seen) < 4:
                    assert time.monotonic() < until, seen
                    tag += 1
                    send_and_receive(connection, tag, held)
                    seen.add(base_of(folder))
                wait_until(lambda: log_size(folder) < max(most, 2 * BASE_SIZE))
                time.sleep(0.5)
                records, taken = base_of(folder), processor_time(server)
                time.sleep(2.5)
                assert base_of(folder) == records, "a checkpoint of nothing"
                assert processor_time(server) - taken < 0.3
            said = subprocess.run([program, "inspect", str(folder)], check=True, stdout=subprocess.PIPE).stdout
            assert said.startswith(b"%d base %d " % (records + 1, records)), said
        with serving(program, folder) as server, server.connect() as connection:
            assert everything(connection) == {2: held}
    return f"{tag} sends"


def send_and_receive(connection, tag, held):
    """Sends a message, and receives one where ten are held."""
    with connection.transaction() as transaction:
        transaction.send(2, tag, b"%d" % tag)
        if len(held) == 10:
            assert transaction.receive_from(2)[1:] == held.pop(0)
    held.append((tag, b"%d" % tag))


def log_size(folder):
    return (folder / "log").stat().st_size


def quiet_checkpoints(program, _):
    """None is made while a transaction is open, be the log ever so long. One is, once it ends in whatever way. Without the word, and at 0,
    none is made at all."""
    ends = {
        "committed": lambda stream: stream.sendall(COMMIT), "aborted": lambda stream: stream.sendall(ABORT),
        "lost": lambda stream: stream.close(),
    }  # fmt: skip
    for name, end in ends.items():
        with store(program) as folder, serving(program, folder, "--checkpoint-after", 4_000) as server:
            with server.raw() as stream, server.connect() as other:
                stream.sendall(BEGIN_AND_SEND)
                read_bytes(stream, len(BEGUN) + 8 + len(SENT))
                held, taken = fill(other, folder), processor_time(server)
                time.sleep(1)
                assert not has_base(folder), name
                assert processor_time(server) - taken < 0.3, name
                end(stream)
                wait_until(lambda: has_base(folder))
                assert everything(other) == {**({0: [(7, b"hello")]} if name == "committed" else {}), 2: held}, name
    for words in ((), ("--checkpoint-after", 0), ("--checkpoint-after", 2**64 - 1)):
        with store(program) as folder, serving(program, folder, *words) as server, server.connect() as connection:
            fill(connection, folder)
            assert not has_base(folder), words


def fill(connection, folder):
    """Makes a log long, and waits until who makes checkpoints has looked at it. What was sent for sender 2."""
    held = []
    for tag in range(1, 6):
        send_and_receive(connection, tag, held)
    assert log_size(folder) > 4_000
    time.sleep(1.5)
    return held


def failing_checkpoint(program, _):
    """Where no new log can be made the store fails, and says so. What was acknowledged is there at the next start, which makes one."""
    with store(program) as folder:
        (folder / "log.new").mkdir()
        with serving(program, folder, "--checkpoint-after", 4_000) as server, server.connect() as connection:
            with server.raw() as stream:  # nothing fails while it has a transaction
                stream.sendall(BEGIN)
                read_bytes(stream, len(BEGUN) + 8)
                held = fill(connection, folder)
                assert server.tells()[1:] == []
            wait_until(lambda: server.tells()[1:] == [STORE_FAILED])
            raises(Failed, connection.transaction)
            taken = processor_time(server)
            time.sleep(1)
            assert processor_time(server) - taken < 0.3
        (folder / "log.new").rmdir()
        with serving(program, folder, "--checkpoint-after", 1) as server, server.connect() as connection:
            wait_until(lambda: has_base(folder))
            assert everything(connection) == {2: held}


def worker_without_reports(program, _):
    """A worker to which the system reports nothing more loses its connections, and their transactions are aborted. Others go on. Where
    there is no other, the server ends."""
    with failing(SHIM) as (beside, words), store(program) as folder:
        words["FAILING"], fails = str(beside), beside / "epoll_wait"
        with serving(program, folder, "--workers", 2, environment=words) as server:
            lost_once_it_asks(server, fails)
            fails.unlink()
            with server.connect() as connection:
                send_when_free(connection, 0, 2, b"kept")
        with serving(program, folder, "--workers", 1, environment=words) as server:
            lost_once_it_asks(server, fails)
            assert server.ended() == (1, b"fault open\n")
        fails.unlink()
        with serving(program, folder) as server, server.connect() as connection:
            assert b"lost 0" in server.tells()[0]
            assert everything(connection) == {0: [(2, b"kept")]}


def lost_once_it_asks(server, fails):
    """A connection with an open send, whose worker meets that failure behind its next answer."""
    with server.raw() as stream:
        stream.sendall(BEGIN_AND_SEND)
        read_bytes(stream, len(BEGUN) + 8 + len(SENT))
        time.sleep(0.5)  # until the other workers sleep
        fails.touch()
        stream.sendall(LAST_TAG)
        read_to_end(stream)
        wait_until(lambda: server.tells()[1:])
        (told,) = server.tells()[1:]
        assert told.startswith(b"a worker ends, and its connections are lost: "), told


def refused_connections(program, _):
    """A connection that cannot be taken for some other reason waits, and is served once it can be. Who runs the server is told once."""
    with failing(SHIM) as (beside, words), store(program) as folder:
        words["FAILING"], fails = str(beside), beside / "accept"
        with serving(program, folder, environment=words) as server:
            fails.touch()
            waiting = [server.raw() for _ in range(3)]
            wait_until(lambda: server.tells()[1:])
            time.sleep(0.1)
            fails.unlink()
            for stream in waiting:
                stream.sendall(LAST_TAG)
                assert read_bytes(stream, len(NO_TAG)) == NO_TAG
                stream.close()
            (told,) = server.tells()[1:]
            assert told.startswith(b"no connection can be taken just now: "), told


def full_disk(program, _):
    """Where the disk takes no more, no commit is acknowledged that is not there later; the store answers that it has failed. What
    was acknowledged is there once there is room."""
    with store(program) as folder:
        size = (folder / "pages").stat().st_size
        with serving(program, folder, longest=size + 2_000) as server:
            acknowledged = send_until_failed(server)
            with server.connect() as connection:
                raises(Failed, connection.transaction)
            tells_failure_once(server)
        with serving(program, folder) as server, server.connect() as connection:
            held = everything(connection).get(0, [])
            assert held[: len(acknowledged)] == acknowledged and len(held) <= len(acknowledged) + 1, (held, acknowledged)


def send_until_failed(server):
    """The messages that were acknowledged, of one sender."""
    acknowledged = []
    with server.connect() as connection:
        for tag in range(1, 16):
            try:
                with connection.transaction() as transaction:
                    transaction.send(0, tag, b"x")
                acknowledged.append((tag, b"x"))
            except (Failed, DiskWrite):
                return acknowledged
    raise AssertionError("the disk took everything")


def lost_answers(program, chosen):
    """A client whose connection ends in front of its commit, or between that and its answer, goes on as the client's page says. Each
    message is there once, in order."""
    draw = random.Random(chosen.seed)
    told = []
    with store(program, 1, 10) as folder, serving(program, folder) as server:
        connection = server.connect()
        for tag in range(1, 101):
            while True:
                try:
                    with connection.transaction() as transaction:
                        transaction.send(0, tag, b"%d" % tag)
                        cut_off(connection, draw)
                    break
                except Lost:
                    connection = server.connect()
                    told.append(connection.was_committed(0, tag))
                    if told[-1]:
                        break
        assert everything(connection) == {0: [(tag, b"%d" % tag) for tag in range(1, 101)]}
    assert told.count(True) > 10 and told.count(False) > 10, told


def batches(program, chosen):
    """A client is marked with the number of each batch of messages. Connections end behind marks that are not answered, in front of
    commits, or between these and their answers. It goes on as the client's page says: each batch is there once, in order."""
    draw = random.Random(chosen.seed)
    wanted = [[(0, number, b"%d" % at) for at in range(draw.randrange(1, 4))] for number in range(1, 101)]
    done, told, cut, busy, until = None, [], 0, 0, time.monotonic() + 10 * LONGEST
    with store(program, 1, 30, 1) as folder, serving(program, folder) as server:
        while done is None or done < len(wanted):
            assert time.monotonic() < until, f"it does not come beyond {done}"
            try:
                with server.connect() as connection:
                    before, done = done, connection.settled_tag(3).tag
                    told += [] if before is None else [done > before]
                    while done < len(wanted):
                        with connection.transaction() as transaction:
                            if draw.randrange(4) == 0:
                                cut += 1
                                cut_behind_mark(connection, draw, done + 1)
                            transaction.mark(3, done + 1)
                            for message in wanted[done]:
                                transaction.send(*message)
                            cut_off(connection, draw)
                        done += 1
            except ConnectionError:
                pass
            except ClientBusy:  # by a mark that was carried out late
                busy += 1
                time.sleep(0.001)
        assert cut > 10 and busy <= cut, (cut, busy)
        with server.connect() as connection:
            assert connection.client_tag(3) == (100, 100) and connection.client_tag(4) == (0, 0)
            assert everything(connection) == {0: [message[1:] for batch in wanted for message in batch]}
    assert told.count(True) > 10 and told.count(False) > 10, told
    return f"{cut} marks cut off, {busy} times busy"


def cut_behind_mark(connection, draw, tag):
    """Ends the connection behind a mark of the client 3, whose answer nobody reads."""
    connection.socket.sendall(frame_of(9, struct.pack(">IQ", 3, tag)))
    time.sleep(draw.choice([0, 0, 0.0002]))
    if draw.random() < 0.5:
        reset(connection.socket)
    connection.close()


def cut_off(connection, draw):
    """Ends the connection, mostly: behind a commit, whose answer nobody reads, or in front of it."""
    kind = draw.randrange(4)
    if kind == 0:
        return
    if kind < 3:
        connection.socket.sendall(COMMIT)
        time.sleep(draw.choice([0, 0.0002, 0.002]))
    if draw.random() < 0.5:
        reset(connection.socket)
    connection.close()


class Client:
    """One of the clients of `sessions`. It sends for a sender of its own and marks a client of its own, in every transaction that may be
    committed, and receives of any sender. `sent` has its sends that are committed, in order. `taken` has what its commits received, each
    with the place of the commit, or None where that was not told. `broken` counts where its connections broke off."""

    def __init__(self, server, number, seed):
        self.server, self.number, self.random = server, number, random.Random(f"{seed}.{number}")
        self.tag = 0
        self.sent, self.taken = [], []
        self.connection = self.connected()
        self.broken = Counter()

    def connected(self):
        """A connection that tells also what passes in a moment: nobody is ever refused for what others do within an operation."""
        connection = self.server.connect()
        connection.patience = 0
        return connection

    def run(self, transactions):
        for _ in range(transactions):
            self.one(self.random.random() < 0.5)
        self.connection.close()

    def one(self, breaks_off):
        """One transaction. Its connection may break off in front of one of its frames, amid it, or behind it."""
        self.tag += 1
        body, taken = self.random.randbytes(self.random.randrange(217)), []
        transaction = self.connection.transaction()
        steps = self.steps()
        stop = self.random.randrange(len(steps)) if breaks_off else None
        for at, step in enumerate(steps):
            if at == stop:
                self.break_off(step, body, taken)
                return
            if step == "commit":
                self.keep(body, taken, transaction.commit())
            elif step == "abort" or not self.step(transaction, step, body, taken):
                transaction.abort()
                return

    def steps(self):
        """The send comes first: while the transaction is not ended nobody else can send for its sender. A close would be for good, and is
        never committed."""
        between = self.random.choices(["receive", "receive from", "last tag"], k=self.random.randrange(4))
        return ["send", "mark", *between, *self.random.choice([["commit"]] * 3 + [["abort"]] + [["close", "abort"]] * 2)]

    def step(self, transaction, step, body, taken):
        """Whether the transaction can go on."""
        try:
            if step == "send":
                self.send(transaction, body)
            elif step == "mark":
                transaction.mark(self.number, self.tag)
            elif step == "close":
                transaction.close_sender(self.number)
            elif step == "last tag":
                assert self.told() == self.last(), self.number
            else:
                message = transaction.receive() if step == "receive" else transaction.receive_from(self.random.randrange(64))
                if message:
                    taken.append(message)
            return True
        except Full:
            return False
        except ReceiverBusy:
            return step.startswith("receive")

    def send(self, transaction, body):
        """A send that waits, but only for one that a connection of this client left unanswered."""
        until = time.monotonic() + LONGEST
        while True:
            try:
                return transaction.send(self.number, self.tag, body)
            except SenderBusy:
                assert self.broken["send", WHOLE] and time.monotonic() < until, "another sends for this sender"
                time.sleep(0.001)

    def break_off(self, step, body, taken):
        """Ends the connection behind a part of a frame, or the whole, and reads no answer. Only a whole Commit may have committed: it is
        asked for over a new connection, once the transaction has ended."""
        frame = self.frame(step, body)
        said = frame[: self.random.choice([0, len(frame), self.random.randrange(1, len(frame))])]
        self.connection.socket.sendall(said)
        if self.random.random() < 0.5:
            reset(self.connection.socket)
        self.connection.close()
        part = WHOLE if said == frame else PART if said else NOTHING
        self.broken[step, part] += 1
        self.connection = self.connected()
        self.wait_for_end()
        if (step, part) == ("commit", WHOLE) and self.connection.was_committed(self.number, self.tag):
            self.broken["committed"] += 1
            self.keep(body, taken, None)
        assert self.told() == self.last(), (self.number, step, said)

    def frame(self, step, body):
        own, other = (number.to_bytes(4, "big") for number in (self.number, self.random.randrange(64)))
        return {
            "send": frame_of(2, own + self.tag.to_bytes(8, "big") + body), "receive": frame_of(3), "receive from": frame_of(4, other),
            "close": frame_of(5, own), "commit": COMMIT, "abort": ABORT, "last tag": frame_of(8, own),
            "mark": frame_of(9, own + self.tag.to_bytes(8, "big")),
        }[step]  # fmt: skip

    def told(self):
        """What the server tells of its sender, and the same of its client."""
        return told_of(self.connection, self.number)

    def last(self):
        """How many sends are committed, and the tag of the last."""
        return len(self.sent), self.sent[-1][0] if self.sent else 0

    def wait_for_end(self):
        """Until the sender is free again."""
        until = time.monotonic() + LONGEST
        while time.monotonic() < until:
            transaction = self.connection.transaction()
            try:
                transaction.send(self.number, self.tag, b"")
                transaction.abort()
                return
            except Full:
                transaction.abort()
                return
            except Passing:
                transaction.abort()
                time.sleep(0.001)
        raise AssertionError("a lost transaction does not end")

    def keep(self, body, taken, lsn):
        self.sent.append((self.tag, body))
        self.taken.append((lsn, taken))


def told_of(connection, number):
    """What is told of the sender and of the client of this number, whose every commit sent and marked once: the same."""
    of_sender, of_client = connection.last_tag(number), connection.client_tag(number)
    assert tuple(of_sender) == tuple(of_client), (number, of_sender, of_client)
    return of_sender


def in_threads(works):
    """Runs these at the same time, and raises what one of them raised."""
    with ThreadPoolExecutor(len(works)) as pool:
        for done in [pool.submit(work) for work in works]:
            done.result()


def sessions(program, chosen):
    """Random sessions of 64 connections, half of whose transactions break off. What the store then holds, with what was received and
    committed, is what was sent and committed, each sender's in order and once."""
    told = []
    for workers in (1, 4):
        with store(program, 5, 20, 5) as folder, serving(program, folder, "--workers", workers) as server:
            clients = [Client(server, number, chosen.seed) for number in range(64)]
            in_threads([lambda client=client: client.run(24) for client in clients])
            with server.connect() as connection:
                tags = [told_of(connection, client.number) for client in clients]
                held = everything(connection)
            compare(clients, tags, held)
            told.append(broken_off(clients, 5))
    return "; ".join(told)


# Where in a frame a connection breaks off.
NOTHING, PART, WHOLE = "in front of", "amid", "behind"


def broken_off(clients, least):
    """How often connections broke off, at each place so many times at least."""
    broken = sum((client.broken for client in clients), Counter())
    committed = broken.pop("committed", 0)
    steps = "send", "mark", "receive", "receive from", "close", "commit", "abort", "last tag"
    places = [(step, part) for step in steps for part in (NOTHING, PART, WHOLE)]
    assert min(broken[place] for place in places) >= least and committed >= least, (broken, committed)
    whole = broken["commit", WHOLE]
    return f"{broken.total()} broken off, of them {whole} behind a commit, of which {committed} were committed"


def compare(clients, tags, held):
    """Whether the store holds what the clients sent and did not receive, by their commits."""
    taken = sorted_by_commit(clients)
    for client, tag in zip(clients, tags):
        sent = client.sent
        assert tag == client.last(), (client.number, tag, len(sent))
        left = held.get(client.number, [])
        known, unplaced = taken.get(client.number, ([], []))
        assert known == sorted(known), (client.number, "received out of order")
        assert sorted(known + unplaced) == sent[: len(sent) - len(left)], (client.number, "received")
        assert left == sent[len(sent) - len(left) :], (client.number, "left")
    assert set(held) <= {client.number for client in clients}


def sorted_by_commit(clients):
    """Of each sender: what was received, by the place of the commit, and what was received by commits whose place was not told."""
    taken = {}
    done = [each for client in clients for each in client.taken]
    for lsn, messages in sorted(done, key=lambda each: each[0] or 0):
        for message in messages:
            known, unplaced = taken.setdefault(message.sender, ([], []))
            (known if lsn else unplaced).append((message.tag, message.body))
    return taken


def client(program, _):
    """The client's exceptions, its context manager, and its command."""
    command = [sys.executable, "-B", str(TOP / "clients" / "python" / "rqm.py")]

    def said(*words, given=None):
        ended = subprocess.run([*command, *map(str, words)], input=given, capture_output=True, timeout=LONGEST)
        return ended.returncode, ended.stdout

    with store(program) as folder, serving(program, folder) as server, server.connect() as connection:
        port = ["--port", server.port]
        try:
            with connection.transaction() as transaction:
                transaction.send(0, 1, b"undone")
                raise KeyError
        except KeyError:
            pass
        assert said("last", *port, 0) == (0, b"0 0\n")
        assert said("send", *port, 0, 7, "hello")[0] == 0
        assert said("send", *port, 0, 8, given=b"from input")[0] == 0
        assert said("last", *port, 0) == (0, b"2 8\n")
        assert said("receive", *port) == (0, b"0 7 hello\n")
        assert said("receive", *port, "--sender", 1) == (1, b"none\n")
        assert said("receive", *port, "--sender", 15) == (1, b"")
        assert said("receive", *port, "--sender", 0) == (0, b"0 8 from input\n")
        with connection.transaction():
            raises(TooManyTransactions, connection.transaction)
        raises(UnknownSender, lambda: connection.last_tag(15))
        raises(UnknownClient, lambda: connection.client_tag(0))
        raises(UnknownTransaction, transaction.receive)
        assert connection.was_committed(0, 8) and not connection.was_committed(0, 9)
        with connection.transaction() as transaction:
            transaction.close_sender(0)
        with connection.transaction() as transaction:
            raises(Closed, lambda: transaction.send(0, 9, b"more"))
        assert connection.was_committed(0, 8) and not connection.was_committed(0, 9), "of a closed group"
    with store(program, tags=1) as folder, serving(program, folder) as server, server.connect() as connection, server.connect() as other:
        port = ["--port", server.port]
        assert said("tag", *port, 3) == (0, b"0 0\n")
        assert said("mark", *port, 3, 70) == (0, b"4\n")
        assert said("mark", *port, 3, 2**64 - 1) == (0, b"7\n")
        assert said("mark", *port, 15, 1) == (1, b"")
        assert said("tag", *port, 3) == (0, b"2 18446744073709551615\n")
        assert said("tag", *port, 15) == (1, b"")
        with connection.transaction() as transaction:
            transaction.mark(3, 71)
            with other.transaction() as beside:
                raises(ClientBusy, lambda: beside.mark(3, 72))
                beside.mark(4, 9)
            assert other.client_tag(3) == (2, 2**64 - 1) and other.client_tag(4) == connection.client_tag(4) == (1, 9)
            transaction.abort()
        assert connection.settled_tag(3) == (2, 2**64 - 1) and connection.settled_tag(14) == (0, 0)
        raises(UnknownClient, lambda: connection.settled_tag(15))


def wait_until(comes, seconds=LONGEST):
    until = time.monotonic() + seconds
    while not comes():
        assert time.monotonic() < until, "it does not come"
        time.sleep(0.01)


def tells_failure_once(server):
    """Who runs the server is told once that the store has failed, which a busy machine may keep for a while."""
    wait_until(lambda: server.tells()[1:] == [STORE_FAILED])
    time.sleep(0.1)
    assert server.tells()[1:] == [STORE_FAILED], server.tells()


def raises(kind, call):
    try:
        call()
    except kind:
        return
    raise AssertionError(f"no {kind.__name__}")


TESTS = [
    starts, session, closing, marking, faults, bodies, pieces, damaged_streams, lost_connections, ends_inside_a_frame,
    answers_before_a_fault, parted_clients, unread_answers, shared_forces, few_frames, lost_write, failing_force, input_ends, served,
    silent_reader, slow_clients, few_descriptors, leaves_nothing, short_logs, quiet_checkpoints, failing_checkpoint, missing_threads, worker_without_reports,
    refused_connections, many_connections, full_disk, client, lost_answers, batches, sessions,
]  # fmt: skip


def main():
    words = argparse.ArgumentParser(description="Runs `rqm serve`, and talks to it.")
    words.add_argument("--program", help="a program that was built elsewhere")
    words.add_argument("--seed", type=int, default=0, help="from which random sessions are drawn")
    words.add_argument("names", nargs="*", metavar="NAME", help="these tests alone")
    chosen = words.parse_args()
    program = built(chosen.program, "rqm")
    known = {test.__name__: test for test in TESTS}
    for name in chosen.names or known:
        before = time.monotonic()
        told = known[name](program, chosen)
        print(f"{name}: {time.monotonic() - before:.1f} s" + (f", {told}" if told else ""), flush=True)


if __name__ == "__main__":
    main()
