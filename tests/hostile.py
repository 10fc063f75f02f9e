#!/usr/bin/env python3
"""Uses `rqm` as nobody should: signals at any moment, streams that are closed or full, little memory, few files, a small disk. Files are
mixed up or gone, calls come short, clients say anything. Each time the answer is one of docs/OPERATING.md, a client that behaves is
served, and what was acknowledged is there at the next start.

    python3 tests/hostile.py [--program PROGRAM] [--seed N] [--rounds N] [--minutes M] [--workers W] [--frames F] [NAME..]

A name is one of the tests below, as `signals`; without one all are run, but for `long_sessions`. That runs a server with one worker, and
then one with four, or one with W.
"""
import argparse
import itertools
import os
import pathlib
import random
import resource
import shutil
import signal
import socket
import struct
import subprocess
import sys
import tempfile
import threading
import time
from concurrent.futures import ThreadPoolExecutor
from contextlib import contextmanager

import opening
from cases import built
from damaged import formatted
from files import NO_FILES, checkpoint, files_of, folder_of, format_store, held_by
from kill import Kills
from server import (
    BEGIN, LAST_KIND, LENGTHS, LONGEST, Client, Connection, NotStarted, Server, broken_off, compare, everything, first_line, frame_of,
    in_threads, raises, read_bytes, read_to_end, reset, serving, store, tells_failure_once, told_of, wait_until,
)  # fmt: skip
from shim import failing

sys.dont_write_bytecode = True
from rqm import Failed, Full, Latched, Lost, NoMemory, Passing, Refused  # noqa: E402, where `server` finds it

# What a server may print in place of where it listens.
FAULTS = [b"fault open\n", b"fault 1 NoMemory\n", b"fault 3 DiskRead\n", b"fault 15 DiskWrite\n", b"fault 16 Damaged\n"]


# ---- signals


ENDING = [signal.SIGTERM, signal.SIGINT, signal.SIGHUP, signal.SIGKILL]


class Ends(Kills):
    """A store whose servers are ended by the signals that end a program."""

    def round(self, number):
        self.kill_at_start(number)
        with self.running() as server:
            self.load.look(server)
            self.load.round(server, self.random.uniform(0.02, 0.2), lambda: ended_by(server, number))


def ended_by(server, number):
    server.process.send_signal(number)
    assert server.process.wait(LONGEST) == -number, (number, server.process.returncode)


def signals(program, chosen):
    """Ended by each signal in turn, at a start and under load, again and again: nothing that was acknowledged is lost."""
    with store(program, 1, 400, 1) as folder:
        ends = Ends(program, folder, chosen.seed)
        for number in itertools.islice(itertools.cycle(ENDING), max(chosen.rounds, 12)):
            ends.round(number)
        with ends.running() as server:
            ends.load.look(server, is_last=True)


# What changes nothing: the system ignores these, and the program that of a stream that nobody reads.
IGNORED = {signal.SIGCHLD, signal.SIGCONT, signal.SIGURG, signal.SIGWINCH, signal.SIGPIPE}
STOPPING = {signal.SIGSTOP, signal.SIGTSTP, signal.SIGTTIN, signal.SIGTTOU}


def any_signal(program, _):
    """Each other signal ends a server, beside an open transaction, or changes nothing: what was acknowledged is there, and no more."""
    resource.setrlimit(resource.RLIMIT_CORE, (0, resource.getrlimit(resource.RLIMIT_CORE)[1]))
    numbers = sorted(signal.valid_signals() - STOPPING - set(ENDING))
    with store(program, 1, 10) as folder:
        for at, number in enumerate(numbers):
            with serving(program, folder) as server, server.connect() as connection:
                assert connection.last_tag(0) == (at, at), number
                with connection.transaction() as transaction:
                    transaction.send(0, at + 1, b"kept")
                left_open = connection.transaction()
                left_open.send(1, 1, b"not committed")
                server.process.send_signal(number)
                if number in IGNORED:
                    assert left_open.receive_from(1) is None and server.process.poll() is None, number
                else:
                    assert server.process.wait(LONGEST) == -number, (number, server.process.returncode)
        with serving(program, folder) as server, server.connect() as connection:
            assert everything(connection) == {0: [(tag, b"kept") for tag in range(1, len(numbers) + 1)]}
    return f"{len(numbers)} signals"


def pauses(program, chosen):
    """Stopped and continued under load, also while it waits for clients: no connection is lost by it."""
    draw = random.Random(chosen.seed)
    for workers in (1, 3):
        with store(program, 1, 400, 1) as folder, serving(program, folder, "--workers", workers) as server, server.connect() as idle:
            ends = Ends(program, folder, chosen.seed)

            def pause():
                for _ in range(chosen.rounds):
                    time.sleep(draw.uniform(0, 0.02))
                    server.process.send_signal(signal.SIGSTOP)
                    time.sleep(draw.uniform(0, 0.02))
                    server.process.send_signal(signal.SIGCONT)
                time.sleep(0.1)
                wait_until(lambda: idle.last_tag(0).sent > 0)
                assert server.process.poll() is None and not ends.load.lost, ends.load.lost
                server.kill()

            pause_idle(server, idle)
            ends.load.round(server, 0, pause)
            assert len(server.tells()) == 1, server.tells()
            with ends.running() as again:
                ends.load.look(again, is_last=True)


def pause_idle(server, idle):
    """Nobody says anything."""
    for _ in range(20):
        server.process.send_signal(signal.SIGSTOP)
        time.sleep(0.005)
        server.process.send_signal(signal.SIGCONT)
        time.sleep(0.005)
    assert idle.last_tag(0).sent == 0


# ---- standard streams


def closed_streams(program, _):
    """Without any of its three streams: what would be printed goes nowhere, and never into a file of the store."""
    for closed in itertools.chain(*(itertools.combinations((0, 1, 2), count) for count in (1, 2, 3))):
        with folder_of() as folder:
            command = [program, "format", str(folder), "--directory", "1", "--cells", "2"]
            assert without(closed, command).wait(LONGEST) == 0, closed
            assert files_of(folder) == {"pages": bytes(formatted(1, 2)), "log": b""}, closed
            server = without(closed, [program, "serve", str(folder), "--port", "0"])
            try:
                with Connection(port_of(server), timeout=LONGEST) as connection, connection.transaction() as transaction:
                    transaction.send(0, 7, b"hello")
            finally:
                server.kill()
                server.wait()
            left = files_of(folder)
            made = opening.Opening(left["pages"], left["log"])
            assert made.pages.content()[0] == (1, 7, 0, False, [(7, b"hello")]), closed
            assert without(closed, [program, "inspect", str(folder)]).wait(LONGEST) == 0, closed
            assert without(closed, [program, "checkpoint", str(folder)]).wait(LONGEST) == 0, closed
            _, log, held = opening.checkpointed(left["pages"], left["log"])
            left = files_of(folder)
            assert left["log"] == log and opening.Opening(left["pages"], log).pages.content() == held.pages.content(), closed


def without(closed, command):
    def close():
        for number in closed:
            os.close(number)

    return subprocess.Popen(command, stdin=subprocess.DEVNULL, stdout=subprocess.DEVNULL, stderr=subprocess.DEVNULL, preexec_fn=close)


def port_of(server):
    """Where a process listens, as the system tells it."""
    until = time.monotonic() + LONGEST
    while True:
        held = {os.readlink(file) for file in pathlib.Path(f"/proc/{server.pid}/fd").iterdir() if file.is_symlink()}
        for line in pathlib.Path("/proc/net/tcp").read_text().splitlines()[1:]:
            _, address, _, state, *_, inode = line.split()[:10]
            if state == "0A" and f"socket:[{inode}]" in held:
                return int(address[-4:], 16)
        assert server.poll() is None and time.monotonic() < until, server.returncode
        time.sleep(0.01)


def full_streams(program, _):
    """Where a line cannot be printed, the program ends with status 1 and leaves a store that opens."""
    script = b"".join(b"begin\n" for _ in range(2000))
    for name in ("full", "pipe"):
        with folder_of() as folder:
            words = ["--directory", "1", "--cells", "2"]
            for command, given in (
                (["format", str(folder), *words], b""), (["inspect", str(folder)], b""), (["serve", str(folder), "--port", "0"], b""),
                (["run", *words], script), (["checkpoint", str(folder)], b""),
            ):  # fmt: skip
                with unwritable(name) as out:
                    ran = subprocess.run([program, *command], input=given, stdout=out, stderr=subprocess.DEVNULL, timeout=LONGEST)
                assert ran.returncode == 1, (name, command, ran.returncode)
            with unwritable(name) as out:
                served_at(program, folder, 0, stderr=out)
            with serving(program, folder) as server, server.connect() as connection:
                assert everything(connection) == {}


def served_at(program, folder, port, stderr=subprocess.DEVNULL):
    """Serves a store at a port, and answers it. The server is killed while somebody is connected."""
    command = [program, "serve", str(folder), "--port", str(port)]
    with subprocess.Popen(command, stdout=subprocess.PIPE, stderr=stderr) as server:
        try:
            line = first_line(server)
            with Connection(int(line.split(b":")[1]), timeout=LONGEST) as connection:
                assert connection.last_tag(0) == (0, 0)
                server.kill()
                server.wait(LONGEST)
        finally:
            server.kill()
    return int(line.split(b":")[1])


def same_port(program, _):
    """A server that was killed under its clients is started again at once, at the same port."""
    with store(program) as folder:
        port = served_at(program, folder, 0)
        for _ in range(5):
            assert served_at(program, folder, port) == port


@contextmanager
def unwritable(name):
    """A stream that takes nothing: a full disk, or a pipe that nobody reads."""
    if name == "full":
        with open("/dev/full", "wb") as full:
            yield full
    else:
        reader, writer = os.pipe()
        os.close(reader)
        yield writer
        os.close(writer)


# ---- little of what the system gives


SERVE, CHECKPOINT = ("serve", "--port", "0"), ("checkpoint",)


def limited(program, folder, *limits, environment=None, words=SERVE):
    """What a server, or another command, comes to under limits, once it listens or ends: what it prints, and its status then."""

    def limit():
        for kind, most in limits:
            resource.setrlimit(kind, (most, most))

    with tempfile.TemporaryFile() as told:
        command, environment = [program, *words, str(folder)], dict(os.environ, **(environment or {}))
        process = subprocess.Popen(command, stdout=subprocess.PIPE, stderr=told, preexec_fn=limit, env=environment)
        line = first_line(process)
        if line.startswith(b"listening "):
            process.kill()
        rest, _ = process.communicate(timeout=LONGEST)
        return line + rest, process.returncode


def little_at_start(program, _):
    """Whatever little memory or few files there are: a server listens, and a checkpoint is made, or it says why not, with status 1. What it
    cannot be loaded with is the loader's to say, with 127."""
    with store(program, 1, 400) as folder:
        before = files_of(folder)
        for kind, sizes, least in ((resource.RLIMIT_AS, memory_sizes(), 2**23), (resource.RLIMIT_NOFILE, range(3, 24), 5)):
            for words in (SERVE, CHECKPOINT):
                came = {told_by(limited(program, folder, (kind, most), words=words), most < least) for most in sizes}
                assert {"done", "fault"} <= came, (kind, words, came)
        left = files_of(folder)
        opening.Opening(left["pages"], left["log"])
        assert left["pages"] == before["pages"]


def told_by(came, may_be_unloaded):
    """How a server or a checkpoint ended."""
    printed, status = came
    if printed.startswith(b"listening ") or b"\ncheckpoint " in printed:
        assert status in (0, -signal.SIGKILL), came
        return "done"
    if may_be_unloaded and not printed and status in (1, 127, -signal.SIGKILL):
        return "unloaded"
    *_, last = printed.splitlines(keepends=True) or [b""]
    assert last in FAULTS and status == 1, came
    return "fault"


def memory_sizes():
    return [*range(2**21, 2**25, 2**19), *range(2**25, 2**28, 2**23), 2**30, 2**32]


def little_under_load(program, _):
    """A server that gets no more memory answers NoMemory, or takes no connection, and goes on; it does not end. What was acknowledged is
    there at the next start."""
    refused = 0
    words = {"MALLOC_ARENA_MAX": "1"}  # what is wanted is asked of the system at once
    for more in (0, 2**16):
        with store(program, 4, 2000) as folder, serving(program, folder, "--workers", 2, environment=words) as server:
            acknowledged, streams = {}, []
            with server.connect() as connection:
                send_many(connection, acknowledged, 0, range(1, 2))
                pages = int(pathlib.Path(f"/proc/{server.process.pid}/statm").read_text().split()[0])
                most = pages * resource.getpagesize() + more
                resource.prlimit(server.process.pid, resource.RLIMIT_AS, (most, most))
                refused += sum(wants_more(server, acknowledged, streams, sender) for sender in range(1, 6))
                assert connection.last_tag(0) == (1, 1) and server.process.poll() is None, server.process.returncode
            server.kill()
            for stream in streams:
                stream.close()
            with serving(program, folder) as again, again.connect() as connection:
                held = everything(connection)
            for sender, tags in acknowledged.items():
                assert [tag for tag, _ in held.get(sender, [])] == tags, (more, sender)
    assert refused > 5, refused
    return f"{refused} refused"


def send_many(connection, acknowledged, sender, tags):
    with connection.transaction() as transaction:
        for tag in tags:
            transaction.send(sender, tag, b"x" * 216)
    acknowledged.setdefault(sender, []).extend(tags)


def wants_more(server, acknowledged, streams, sender):
    """One more connection, with a transaction that is committed and one that stays open. Whether memory was wanting for one."""
    try:
        connection = server.connect()
        streams.append(connection)
        connection.patience = 0
        send_many(connection, acknowledged, sender, range(1, 100))
        left_open = connection.transaction()
        for tag in range(100, 300):
            left_open.send(sender, tag, b"y" * 216)
    except (NoMemory, Latched):  # Latched by another that waits for memory
        return True
    except (Lost, OSError):
        return True  # no connection could be kept
    return False


# No allocation that is large is made while the file WANTING is there. With ONCE the first that is not takes the file away.
LARGE = """#define _GNU_SOURCE
#include <dlfcn.h>
#include <errno.h>
#include <stddef.h>
#include <stdlib.h>
#include <unistd.h>

static int wants(size_t size) {
    const char *path = getenv("WANTING");
    if (size <= 512 || !path || access(path, F_OK)) return 0;
    if (getenv("ONCE")) unlink(path);
    errno = ENOMEM;
    return 1;
}

void *malloc(size_t size) {
    static void *(*next)(size_t);
    if (!next) next = (void *(*)(size_t)) dlsym(RTLD_NEXT, "malloc");
    return wants(size) ? NULL : next(size);
}

void *realloc(void *old, size_t size) {
    static void *(*next)(void *, size_t);
    if (!next) next = (void *(*)(void *, size_t)) dlsym(RTLD_NEXT, "realloc");
    return wants(size) ? NULL : next(old, size);
}
"""


def held_calls(program, _):
    """An operation under way that gets no memory is held: others are answered meanwhile, and it goes on once there is some. So does what
    a connection leaves that is lost meanwhile, and a server ends."""
    with failing(LARGE) as (beside, words):
        wanting = beside / "wanting"
        words["WANTING"] = str(wanting)
        for workers, is_lost in ((1, False), (3, True)):
            with store(program, 1, 40) as folder:
                reader, writer = os.pipe()
                with serving(program, folder, "--workers", workers, "--until-input-ends", environment=words, stdin=reader) as server:
                    os.close(reader)
                    try:
                        hold_one(server, wanting, is_lost, lambda writer=writer: os.close(writer))
                    finally:
                        wanting.unlink(missing_ok=True)


def hold_one(server, wanting, is_lost, end):
    with server.connect() as other, server.raw() as stream, ThreadPoolExecutor(1) as pool:
        other.patience = 0
        assert other.last_tag(0) == (0, 0)
        stream.sendall(BEGIN + 300 * frame_of(2, bytes(12)))
        read_bytes(stream, 19 + 300 * 3)
        wanting.touch()
        stream.sendall(frame_of(7))
        if is_lost:
            time.sleep(0.1)
            reset(stream)
        refused = sum(is_refused(other) for _ in range(30))
        assert refused > 20, refused
        aborted = None if is_lost else pool.submit(read_bytes, stream, 3)
        assert is_lost or not aborted.done()
        wanting.unlink()
        assert is_lost or aborted.result() == frame_of(135)
        wait_until(lambda: is_free(other))
        assert everything(other) == {}
        # the same, and the server ends
        held = other.transaction()
        for tag in range(300):
            held.send(0, tag)
        wanting.touch()
        end()
        assert server.ended() == (1, b"fault 1 NoMemory\n")  # of the last force
        wanting.unlink()


def held_to_the_end(program, _):
    """A connection of which no more comes ends, though the last call that it asked for was held until a force."""
    with failing(LARGE) as (beside, words), store(program, 1, 40) as folder:
        wanting = beside / "wanting"
        words.update(WANTING=str(wanting), ONCE="1")
        with serving(program, folder, "--workers", 1, environment=words) as server, server.raw() as stream:
            stream.sendall(BEGIN + 300 * frame_of(2, bytes(12)))
            read_bytes(stream, 19 + 300 * 3)
            server.process.send_signal(signal.SIGSTOP)
            wanting.touch()
            stream.sendall(frame_of(7))
            stream.shutdown(socket.SHUT_WR)
            server.process.send_signal(signal.SIGCONT)
            assert read_bytes(stream, 3) == frame_of(135)
            assert not wanting.exists()
            assert stream.recv(1) == b""


def is_refused(connection):
    """Whether memory is wanting for a call, which is answered in time."""
    before = time.monotonic()
    try:
        connection.last_tag(0)
        return False
    except NoMemory:
        return True
    finally:
        assert time.monotonic() - before < 2, time.monotonic() - before


def is_free(connection):
    """Whether nobody sends for sender 0."""
    try:
        with connection.transaction() as transaction:
            transaction.send(0, 1)
            transaction.abort()
        return True
    except Passing:
        return False


def file_limit(program, chosen):
    """Where the system ends whom makes a file longer than it may be: what was acknowledged is there at the next start."""
    with store(program, 1, 40, 1) as folder:
        ends = Ends(program, folder, chosen.seed)
        for longest in (200_000, 300_000):
            with ends.running() as server:
                ends.load.look(server)
                resource.prlimit(server.process.pid, resource.RLIMIT_FSIZE, (longest, longest))
                ends.load.round(server, 0, lambda server=server: server.process.wait(LONGEST))
                assert server.process.returncode == -signal.SIGXFSZ, server.process.returncode
            assert (folder / "log").stat().st_size <= longest
        with ends.running() as server:
            ends.load.look(server, is_last=True)


# ---- files


def no_files(program, _):
    """Where a pipe, a device, a folder or anything else stands in place of a file, nobody opens it and waits, and it stays."""
    words = ["--directory", "1", "--cells", "1"]
    for name, (what, make) in itertools.product(("pages", "log"), NO_FILES.items()):
        with folder_of(pages=formatted(), log=b"") as folder:
            path = folder / name
            path.unlink()
            make(path)
            before = os.lstat(path).st_mode
            for command, printed in (
                (["serve", folder, "--port", "0"], b"fault open\n"), (["format", folder, *words], b"fault exists\n"),
                (["inspect", folder], b"fault open\n" if name == "log" else b"records 0\nunfinished 0\nlost 0\ncommitted 0\n"),
            ):  # fmt: skip
                ran = subprocess.run([program, *command], stdin=subprocess.DEVNULL, capture_output=True, timeout=LONGEST)
                assert (ran.stdout, ran.returncode) == (printed, int(printed.startswith(b"fault"))), (name, what, command, ran)
            assert os.lstat(path).st_mode == before, (name, what)


def long_pages(program, _):
    """A terabyte of holes behind the pages: the store is served as ever, and its pages are written, round by round."""
    with store(program, 1, 2) as folder:
        os.truncate(folder / "pages", 2**40)
        with serving(program, folder) as server, server.connect() as connection:
            for tag in range(1, 4):
                with connection.transaction() as transaction:
                    transaction.send(0, tag, b"hello")
                wait_until(lambda tag=tag: sent_on_disk(folder) == tag)
        with serving(program, folder) as server, server.connect() as connection:
            assert connection.last_tag(0) == (3, 3)


def sent_on_disk(folder):
    """How many messages of sender 0 its slot in the file of pages tells."""
    with open(folder / "pages", "rb") as pages:
        return int.from_bytes(pages.read(3 * 4096)[4096 + 256 + 8 :][:8], "big")


def two_programs(program, chosen):
    """Of programs that begin at once in one folder one makes the store, and one serves it. The others wait for nobody, and change nothing.
    A format refuses a store that is served, and an inspection reads it meanwhile."""
    draw, words = random.Random(chosen.seed), ["--directory", "1", "--cells", "20"]

    def started(command):
        time.sleep(draw.uniform(0, 0.003))
        return subprocess.Popen([program, *command], stdin=subprocess.DEVNULL, stdout=subprocess.PIPE, stderr=subprocess.DEVNULL)

    for _ in range(chosen.rounds):
        with folder_of() as folder, ThreadPoolExecutor(6) as pool:
            at_once = list(pool.map(started, [["format", str(folder), *words]] * 6))
            made = sorted(each.communicate(timeout=LONGEST)[0] for each in at_once)
            assert made == [b"fault exists\n"] * 5 + [b"formatted 1 20\n"], made
            assert files_of(folder) == {"pages": bytes(formatted(1, 20)), "log": b""}
            servers = list(pool.map(started, [["serve", str(folder), "--port", "0"]] * 6))
            lines = [first_line(server) for server in servers]
            try:
                (one,) = [at for at, line in enumerate(lines) if line != b"fault open\n"]
                assert [server.wait(LONGEST) for at, server in enumerate(servers) if at != one] == [1] * 5, lines
                with Connection(int(lines[one].split(b":")[1]), timeout=LONGEST) as connection:
                    for tag in range(1, 30):
                        with connection.transaction() as transaction:
                            transaction.send(0, tag, b"")
                        look = started(["format", str(folder), *words] if tag % 2 else ["inspect", str(folder)])
                        said = look.communicate(timeout=LONGEST)[0]
                        assert said == b"fault exists\n" if tag % 2 else b"\ncommitted %d 1.1" % tag in said, said
            finally:
                for server in servers:
                    server.kill()
                    server.communicate()
            with serving(program, folder) as server, server.connect() as connection:
                assert everything(connection) == {0: [(tag, b"") for tag in range(1, 30)]}


# The opening of a log makes the file OPENED, and waits for the file GO.
HELD_OPEN = """#define _GNU_SOURCE
#include <dlfcn.h>
#include <fcntl.h>
#include <stdarg.h>
#include <stdlib.h>
#include <string.h>
#include <unistd.h>

int open(const char *path, int how, ...) {
    static int (*next)(const char *, int, ...);
    va_list rest;
    va_start(rest, how);
    mode_t mode = how & O_CREAT ? va_arg(rest, mode_t) : 0;
    va_end(rest);
    if (!next) next = (int (*)(const char *, int, ...)) dlsym(RTLD_NEXT, "open");
    int file = next(path, how, mode);
    const char *name = strrchr(path, '/');
    if (name && !strcmp(name, "/log")) {
        close(next(getenv("OPENED"), O_WRONLY | O_CREAT, 0666));
        while (access(getenv("GO"), F_OK)) usleep(1000);
    }
    return file;
}
"""


def checkpoint_beside_a_start(program, chosen):
    """A server that has just opened its log has the store to itself: no checkpoint is made, and what it commits is there at the next start.
    Of servers and checkpoints that begin at once one has the store at a time, and it holds what it held."""
    with failing(HELD_OPEN) as (beside, words), store(program, 1, 10) as folder, ThreadPoolExecutor(1) as pool:
        opened, go = beside / "opened", beside / "go"
        starting = pool.submit(Server, program, folder, environment={**words, "OPENED": str(opened), "GO": str(go)})
        try:
            wait_until(opened.exists)
            assert checkpoint(program, folder) == (b"fault open\n", 1)
        finally:
            go.touch()
            server = starting.result()
        with server.connect() as connection:
            send_many(connection, {}, 0, range(1, 2))
        server.kill()
        draw = random.Random(chosen.seed)
        came = {begun_at_once(program, folder, draw) for _ in range(chosen.rounds)}
        assert [tag for tag, _ in held_by(program, folder)[0]] == [1]
    assert len(came) > 1, came


def begun_at_once(program, folder, draw):
    """Of three servers and three checkpoints, in any order: how many listen, and how many are made."""
    kinds, processes = draw.sample([SERVE, CHECKPOINT] * 3, 6), []
    for words in kinds:
        time.sleep(draw.uniform(0, 0.003))
        processes.append(subprocess.Popen([program, *words, str(folder)], stdout=subprocess.PIPE, stderr=subprocess.DEVNULL))
    lines = [first_line(process) for process in processes]
    for words, process in zip(kinds, processes):
        if words == SERVE:
            process.kill()
    told = [line + process.communicate(timeout=LONGEST)[0] for line, process in zip(lines, processes)]
    listening, made = (sum(words in line for line in told) for words in (b"listening ", b"\ncheckpoint "))
    assert listening <= 1 and listening + made + told.count(b"fault open\n") == 6, told
    return listening, made


def other_files(program, _):
    """The pages of one store stand beside the log of another, or one of them is as it was before. What opens is what the bytes say, and
    the rest is refused. So are pages of any other length."""
    with store(program, 1, 2) as one, store(program, 1, 2) as other:
        kept = []
        formatted_pages = files_of(one)["pages"]
        for count, folder in enumerate((one, other, one, other), 1):
            with serving(program, folder) as server, server.connect() as connection:
                for tag in range(count):
                    with connection.transaction() as transaction:
                        transaction.send(tag % 3, 10 * count + tag, b"of %d" % count)
                        if tag % 2:
                            transaction.receive()
                if count > 2:
                    wait_until(lambda folder=folder: files_of(folder)["pages"] != formatted_pages)
            kept.append(files_of(folder))
    mixed = [(a["pages"], b["log"]) for a in kept for b in kept]
    mixed += [(kept[3]["pages"][:size], kept[3]["log"]) for size in (0, 1, 4095, 4096, 4097, 8192, 16383)]
    mixed += [(kept[3]["pages"] + b"x" * size, kept[3]["log"]) for size in (1, 4096, 9000)]
    mixed += [(b["log"], b["pages"]) for b in kept]
    came = set()
    for pages, log in mixed:
        said, made, _ = opening.said_of(pages, log)
        came.add(said.split(" ")[0])
        with folder_of(pages=pages, log=log) as folder:
            if made:
                with serving(program, folder) as server, server.connect() as connection:
                    left = {sender: held[4] for sender, held in made.pages.content().items() if held[4]}
                    assert everything(connection) == left, said
            else:
                line = b"fault 16 Damaged\n" if said.startswith("damaged") else said.encode() + b"\n"
                assert limited(program, folder) == (line, 1), said
                assert files_of(folder) == {"pages": pages, "log": log}
    assert came == {"restarted", "damaged", "fault"}, came


@contextmanager
def entered_by_all():
    """A folder that others may enter, wherever temporary files go. Who is not root needs no others."""
    places = [pathlib.Path(place) for place in (tempfile.gettempdir(), "/tmp", "/var/tmp", "/dev/shm")]
    entered = [place for place in places if all(path.is_dir() and path.stat().st_mode & 1 for path in (place, *place.parents))]
    assert entered or os.geteuid() != 0, f"others may enter none of {places}"
    with tempfile.TemporaryDirectory(prefix="rqm-rights-", dir=[*entered, places[0]][0]) as top:
        os.chmod(top, 0o755)
        yield pathlib.Path(top)


def no_rights(program, _):
    """Files and folders that may not be written are told, and stay. In a folder that may not be written a store is served, and none is
    made."""

    def nobody():
        if os.geteuid() == 0:
            os.setgid(65534)
            os.setuid(65534)

    with entered_by_all() as top:
        folder = top / "store"
        folder.mkdir()
        (folder / "pages").write_bytes(formatted())
        (folder / "log").write_bytes(b"")
        if os.geteuid() == 0:
            for path in (folder, *folder.iterdir()):
                os.chown(path, 65534, 65534)
        mine = pathlib.Path(shutil.copy(program, top / "program"))
        mine.chmod(0o755)
        for mode in ({"pages": 0o444}, {"log": 0o444}, {"pages": 0}, {".": 0}):
            for name, bits in mode.items():
                (folder / name).chmod(bits)
            ran = subprocess.run([mine, "serve", folder, "--port", "0"], capture_output=True, preexec_fn=nobody, timeout=LONGEST)
            told = b"the store cannot be opened: Permission denied (os error 13)\n"
            assert (ran.stdout, ran.stderr, ran.returncode) == (b"fault open\n", told, 1), (mode, ran)
            for name in mode:
                (folder / name).chmod(0o755 if name == "." else 0o644)
        (folder / "new").mkdir(0o555)
        if os.geteuid() == 0:
            os.chown(folder / "new", 65534, 65534)
        command = [mine, "format", folder / "new", "--directory", "1", "--cells", "1"]
        ran = subprocess.run(command, capture_output=True, preexec_fn=nobody, timeout=LONGEST)
        assert (ran.stdout, ran.returncode) == (b"fault open\n", 1), ran
        command = [mine, "serve", folder, "--port", "0"]
        for before, behind in ((0o555, 0o555), (0o755, 0o555), (0o755, 0)):
            keeps_owner(program, folder)
            folder.chmod(before)
            server = subprocess.Popen(command, stdout=subprocess.PIPE, stderr=subprocess.DEVNULL, preexec_fn=nobody)
            try:
                port = int(first_line(server).split(b":")[1])
                folder.chmod(behind)
                with Connection(port, timeout=LONGEST) as connection, connection.transaction() as transaction:
                    transaction.send(0, 1, b"")
                    transaction.receive()
            finally:
                server.kill()
                server.communicate()
                folder.chmod(0o755)
        if os.geteuid() == 0:
            (folder / "log").chmod(0o666)
            os.chown(folder / "log", 0, 0)
            ran = subprocess.run([mine, "checkpoint", folder], capture_output=True, preexec_fn=nobody, timeout=LONGEST)
            assert (ran.stdout.splitlines()[1:], ran.returncode) == ([b"fault 15 DiskWrite"], 1), ran
            keeps_owner(program, folder)
    return "also as root" if os.geteuid() == 0 else "not as root"


def keeps_owner(program, folder):
    """A checkpoint keeps who the log belongs to and who may read it, whoever makes it."""
    log = folder / "log"
    log.chmod(0o600)
    before = log.stat()
    printed, status = checkpoint(program, folder)
    assert b"\ncheckpoint " in printed and status == 0, (printed, status)
    behind = log.stat()
    assert behind.st_ino != before.st_ino, "the log is the old one"
    assert (behind.st_uid, behind.st_gid, behind.st_mode) == (before.st_uid, before.st_gid, before.st_mode), (before, behind)


def vanished_folder(program, _):
    """A folder that is removed under a server: it serves on as long as it runs, from files without a name. The next start tells."""
    with store(program, 1, 10) as folder:
        with serving(program, folder) as server, server.connect() as connection:
            with connection.transaction() as transaction:
                transaction.send(0, 1, b"before")
            shutil.rmtree(folder)
            for tag in range(2, 100):
                with connection.transaction() as transaction:
                    transaction.send(0, tag, b"behind")
                    assert transaction.receive_from(0)
            assert len(server.tells()) == 1, server.tells()
            assert not folder.exists()
        raises(NotStarted, lambda: Server(program, folder))
        assert limited(program, folder) == (b"fault open\n", 1)
        folder.mkdir()
        assert limited(program, folder) == (b"fault open\n", 1)
        assert format_store(program, folder) == (b"formatted 1 2\n", 0)


def moved_folder(program, _):
    """A server whose folder is moved serves on from there, where nobody else opens the store. A folder in its old place is another's."""
    with store(program, 1, 10) as folder, folder_of() as top:
        with serving(program, folder) as server, server.connect() as connection:
            send_many(connection, {}, 0, range(1, 3))
            moved = folder.rename(top / "moved")
            raises(NotStarted, lambda: Server(program, moved))
            folder.mkdir()
            assert format_store(program, folder, 1, 10) == (b"formatted 1 10\n", 0)
            with serving(program, folder) as other, other.connect() as beside:
                send_many(beside, {}, 1, range(1, 2))
                send_many(connection, {}, 0, range(3, 5))
        for where, left in ((moved, {0: [1, 2, 3, 4]}), (folder, {1: [1]})):
            with serving(program, where) as server, server.connect() as connection:
                assert {sender: [tag for tag, _ in held] for sender, held in everything(connection).items()} == left, where


# A file that grows beyond ROOM bytes is refused for want of room, behind the part that there is room for.
FULL_DISK = """#define _GNU_SOURCE
#include <dlfcn.h>
#include <errno.h>
#include <stdlib.h>
#include <sys/stat.h>
#include <unistd.h>

#define NEXT(name) ((__typeof__(&name)) dlsym(RTLD_NEXT, #name))
#define WRITE(name, offset) ssize_t name(int file, const void *bytes, size_t size, offset at) { \\
    struct stat now; \\
    long room = atol(getenv("ROOM")), end = at + (long) size; \\
    if (fstat(file, &now)) return -1; \\
    if (end > now.st_size && end > room) { \\
        if (at >= room) { errno = ENOSPC; return -1; } \\
        size = room - at; \\
    } \\
    return NEXT(name)(file, bytes, size, at); \\
}
WRITE(pwrite, off_t)
WRITE(pwrite64, off64_t)
"""

# Kilobytes of a disk, of which the pages of its store take 36.
DISKS = (40, 64, 100, 200)


def small_disk(program, _):
    """A disk gets full under load: the store fails, and says so. What was acknowledged is there once there is room, and before. The disk is
    a library's for everybody, and a file system for root."""
    for size in DISKS:
        with tempfile.TemporaryDirectory(prefix="rqm-disk-") as top, failing(FULL_DISK) as (_, words):
            words["ROOM"] = str((size - 36) * 1024)
            fill_disk(program, pathlib.Path(top), words)
    mounted = sum(fill_file_system(program, size) for size in DISKS) if os.geteuid() == 0 else 0
    return f"{len(DISKS)} by a library, " + (f"{mounted} file systems" if mounted else "and no file system may be mounted here")


def fill_file_system(program, size):
    """Whether a file system of so many kilobytes may be mounted here; it is filled then."""
    with tempfile.TemporaryDirectory(prefix="rqm-disk-") as top:
        if subprocess.run(["mount", "-t", "tmpfs", "-o", f"size={size}k", "none", top], stderr=subprocess.DEVNULL).returncode:
            return False
        try:
            grow = ["mount", "-o", f"remount,size={size + 500}k", top]
            fill_disk(program, pathlib.Path(top), {}, lambda: subprocess.run(grow, check=True))
        finally:
            subprocess.run(["umount", top], check=True)
    return True


def fill_disk(program, top, words, grow=lambda: None):
    """Serves a store, by servers with these words in their environment, until the disk is full. Then it has more room."""
    folder = top / "store"
    folder.mkdir()
    assert format_store(program, folder, 1, 7) == (b"formatted 1 7\n", 0)
    with serving(program, folder, environment=words) as server, server.connect() as connection:
        acknowledged = send_until_full(connection)
        raises(Failed, connection.transaction)
        tells_failure_once(server)
    for command in (SERVE, CHECKPOINT):  # what a start needs may find no room
        came = limited(program, folder, environment=words, words=command)
        assert told_by(came, False) == "done" or came[0].endswith(b"fault 15 DiskWrite\n"), came
    grow()
    with serving(program, folder) as server, server.connect() as connection:
        tags = [tag for tag, _ in everything(connection).get(0, [])]
        assert acknowledged and tags[: len(acknowledged)] == acknowledged and len(tags) <= len(acknowledged) + 1, (words, tags)


def send_until_full(connection):
    """The tags that were acknowledged until the store refused one, as it has to where the disk is full."""
    acknowledged = []
    for tag in itertools.count(1):
        try:
            with connection.transaction() as transaction:
                transaction.send(0, tag, b"x" * 100)
            acknowledged.append(tag)
        except Refused as refused:
            assert refused.number in (2, 15), refused
            return acknowledged


# ---- calls that come short, are interrupted, or tell another time


SHIM = """#define _GNU_SOURCE
#include <dlfcn.h>
#include <errno.h>
#include <fcntl.h>
#include <stdatomic.h>
#include <stdlib.h>
#include <sys/socket.h>
#include <sys/types.h>
#include <sys/uio.h>
#include <time.h>
#include <unistd.h>

#define NEXT(name) ((__typeof__(&name)) dlsym(RTLD_NEXT, #name))

/* Of three calls one is interrupted, and one does a part: a seventh, or at least a byte. Sockets are never interrupted, since they
   do not wait. Each kind of this makes a file: STOPPED, PARTED and SPLIT. */
static atomic_ulong made;
static void did(const char *what) {
    const char *path = getenv(what);
    if (path) close(open(path, O_WRONLY | O_CREAT, 0666));
}
static unsigned long turn(void) { return ++made % 3; }
static int stops(unsigned long turn) { if (turn) return 0; did("STOPPED"); errno = EINTR; return 1; }
static size_t part(unsigned long turn, size_t size, const char *what) {
    if (turn != 1 || size < 2) return size;
    did(what);
    return (size + 6) / 7;
}

#define WRITE(name, offset) ssize_t name(int file, const void *bytes, size_t size, offset at) { \\
    unsigned long now = turn(); return stops(now) ? -1 : NEXT(name)(file, bytes, part(now, size, "PARTED"), at); }
#define READ(name, offset) ssize_t name(int file, void *bytes, size_t size, offset at) { \\
    unsigned long now = turn(); return stops(now) ? -1 : NEXT(name)(file, bytes, part(now, size, "PARTED"), at); }
#define SYNC(name) int name(int file) { return stops(turn()) ? -1 : NEXT(name)(file); }
WRITE(pwrite, off_t)
WRITE(pwrite64, off64_t)
READ(pread, off_t)
READ(pread64, off64_t)
SYNC(fsync)
SYNC(fdatasync)
ssize_t send(int stream, const void *bytes, size_t size, int flags) { 
    return NEXT(send)(stream, bytes, part(turn(), size, "SPLIT"), flags); }
ssize_t recv(int stream, void *bytes, size_t size, int flags) { 
    return NEXT(recv)(stream, bytes, part(turn(), size, "SPLIT"), flags); }

/* The clock of the day jumps by years, forth and back; whoever asks for it makes the file ASKED. */
int clock_gettime(clockid_t clock, struct timespec *now) {
    static atomic_long asked;
    int answer = NEXT(clock_gettime)(clock, now);
    const char *path = getenv("ASKED");
    if (clock != CLOCK_MONOTONIC && clock != CLOCK_BOOTTIME && clock != CLOCK_MONOTONIC_COARSE) {
        now->tv_sec += (++asked % 2 ? 1 : -1) * 100000000L;
        if (path) close(open(path, O_WRONLY | O_CREAT, 0666));
    }
    return answer;
}
"""


def short_calls(program, chosen):
    """Where the system does a part of each call, or interrupts it, and the clock of the day jumps: all is as it would be. Nobody asks
    for that clock."""
    with failing(SHIM) as (beside, words):
        for what in ("ASKED", "STOPPED", "PARTED", "SPLIT"):
            words[what] = str(beside / what)
        with store(program, 1, 400, 1) as folder:
            load = Kills(program, folder, chosen.seed).load
            for _ in range(6):
                with serving(program, folder, environment=words) as server:
                    load.look(server)
                    load.round(server, 0.4, server.kill)
                printed, status = checkpoint(program, folder, **words)
                assert b"\ncheckpoint " in printed and status == 0, (printed, status)
            with serving(program, folder, environment=words) as server:
                load.look(server, is_last=True)
            assert sum(load.sent) > 50, load.sent
            assert not (beside / "ASKED").exists(), "the clock of the day was asked for"
            for what in ("STOPPED", "PARTED", "SPLIT"):
                assert (beside / what).exists(), f"no call was {what}"


# ---- clients


def any_frames(program, chosen):
    """Clients say frames with other bytes, or anything, in pieces, and break off. Each is answered by the protocol, and one that behaves
    is served all the time, in time."""
    answered = faults = 0
    with store(program, 2, 20, 2) as folder, serving(program, folder, "--workers", 2) as server:
        stop, good = threading.Event(), ThreadPoolExecutor(1)
        served = good.submit(behave, server, stop)
        try:
            with ThreadPoolExecutor(3) as pool:
                seeds = range(chosen.seed, chosen.seed + 60 * chosen.rounds)
                for count, is_fault in pool.map(lambda seed: misbehave(server, random.Random(seed)), seeds):
                    answered += count
                    faults += is_fault
        finally:
            stop.set()
        sent, longest = served.result()
        assert longest < LONGEST, longest
        assert len(server.tells()) == 1, server.tells()
        with server.connect() as connection:
            assert connection.last_tag(29) == connection.client_tag(29) == (sent, sent)
    assert sent > chosen.rounds and answered > 100 * chosen.rounds and faults > 10 * chosen.rounds, (sent, answered, faults)
    return f"{answered} answers, {faults} faults, {sent} commits beside them, the slowest {1000 * longest:.0f} ms"


def behave(server, stop):
    """Sends until it is told to stop: how often, and how long the slowest took."""
    sent, longest = 0, 0
    with server.connect() as connection:
        while not stop.is_set():
            before = time.monotonic()
            try:
                with connection.transaction() as transaction:
                    transaction.mark(29, sent + 1)
                    transaction.send(29, sent + 1, b"good")
                sent += 1
            except Full:
                everything(connection)
            longest = max(longest, time.monotonic() - before)
    return sent, longest


def drawn_frame(draw):
    kind = draw.choice([1, 1, 2, 2, 2, 3, 3, 4, 5, 6, 6, 7, 8, 9, 9, 10])
    sender = draw.choice([0, 1, 2, 15, 28, 30, 2**32 - 1]).to_bytes(4, "big")
    fields = sender if LENGTHS.get(kind) == 5 else b""
    if kind == 2:
        fields = sender + draw.randbytes(8) + draw.randbytes(draw.choice([0, 5, 216, 217, 499]))
    if kind == 9:
        fields = sender + draw.randbytes(8)
    if kind == 5 and draw.randrange(8):
        kind, fields = 3, b""  # a close is for good
    return struct.pack(">HB", 1 + len(fields), kind) + fields


def drawn_stream(draw):
    """Frames, some of whose bytes are others."""
    said = bytearray(b"".join(drawn_frame(draw) for _ in range(draw.randrange(1, 25))))
    for _ in range(draw.choice([0, 0, 1, 1, 3])):
        at = draw.randrange(len(said))
        kind = draw.randrange(4)
        if kind == 0:
            said[at] = draw.randrange(256)
        elif kind == 1:
            del said[at : at + draw.randrange(1, 9)]
        elif kind == 2:
            said[at:at] = draw.randbytes(draw.randrange(1, 9))
        else:
            said[at:at] = said[:at][-40:]
        said = said or bytearray(b"\0")
    return bytes(said) if draw.randrange(12) else draw.randbytes(draw.randrange(1, 3000))


def requests_in(said):
    """The whole requests in front of the first fault, each as its kind and fields; where they end, and whether a fault stands there."""
    at, requests = 0, []
    while len(said) - at >= 2:
        length = int.from_bytes(said[at : at + 2], "big")
        if not 1 <= length <= 512 or (len(said) - at > 2 and not 1 <= said[at + 2] <= LAST_KIND):
            return requests, at, True
        if at + 2 + length > len(said):
            break
        kind = said[at + 2]
        if length < 13 if kind == 2 else length != LENGTHS[kind]:
            return requests, at, True
        requests.append((kind, said[at + 3 : at + 2 + length]))
        at += 2 + length
    return requests, at, False


# What a request of each kind may be answered with, beside a refusal.
DONE = {1: (129,), 2: (130,), 3: (131, 132), 4: (131, 132), 5: (133,), 6: (134,), 7: (135,), 8: (136,), 9: (137,), 10: (138,)}
SIZES = {129: 17, 130: 1, 132: 1, 133: 1, 134: 9, 135: 1, 136: 17, 137: 1, 138: 17, 255: 2}

# The refusals that a store which works may give.
GIVEN = {4, 5, 6, 7, 8, 9, 10, 11, 12, 13, 14, 17, 22, 23}


def misbehave(server, draw):
    """Says a stream, in pieces. How many answers came, and whether it had a fault."""
    said = drawn_stream(draw)
    requests, _, is_fault = requests_in(said)
    if any(kind in (2, 5, 9) and fields.startswith(b"\0\0\0\x1d") for kind, fields in requests):
        return 0, False  # nobody disturbs the sender and the client of the one who behaves
    breaks_off = draw.randrange(6) == 0
    with server.raw() as stream:
        rest = said
        try:
            while rest:
                size = draw.choice([1, 3, draw.randrange(1, 60), len(rest)])
                stream.sendall(rest[:size])
                rest = rest[size:]
                if draw.randrange(8) == 0:
                    time.sleep(0.0005)
            if breaks_off:
                reset(stream)
                return 0, False
            stream.shutdown(socket.SHUT_WR)
        except OSError:
            assert is_fault, said.hex()  # the server has ended the connection behind it
        answers = read_to_end(stream)
    at, count = 0, 0
    while at < len(answers):
        length, kind = int.from_bytes(answers[at : at + 2], "big"), answers[at + 2]
        assert count < len(requests) and kind in (*DONE[requests[count][0]], 255), (said.hex(), answers.hex())
        assert length == SIZES.get(kind, length) and (kind != 131 or 13 <= length <= 229), (said.hex(), answers.hex())
        assert kind != 255 or answers[at + 3] in GIVEN, (said.hex(), answers.hex())
        at, count = at + 2 + length, count + 1
    # behind a fault the end of the connection may overtake what was said
    assert at == len(answers) and (count == len(requests) or is_fault), (said.hex(), answers.hex())
    return count, is_fault


class Drainer(Client):
    """A client that receives where the store is full."""

    is_full = False

    def step(self, transaction, step, body, taken):
        goes_on = super().step(transaction, step, body, taken)
        self.is_full |= step == "send" and not goes_on
        return goes_on

    def one(self, breaks_off):
        super().one(breaks_off)
        if self.is_full:
            self.is_full, transaction = False, self.connection.transaction()
            messages = [transaction.receive() for _ in range(3)]
            self.taken.append((transaction.commit(), [message for message in messages if message]))


def long_sessions(program, chosen):
    """Random sessions of 64 clients, half of whose transactions break off, for so many minutes. What the store then holds, with what was
    received and committed, is what was sent and committed. So it is behind a kill."""
    return "; ".join(long_session(program, chosen, workers) for workers in ([chosen.workers] if chosen.workers else (1, 4)))


def long_session(program, chosen, workers):
    """What a server with so many workers came to."""
    with store(program, 5, 20, 5) as folder, serving(program, folder, "--workers", workers) as server:
        clients = [Drainer(server, number, chosen.seed) for number in range(64)]
        until = time.monotonic() + 60 * chosen.minutes

        def run(client):
            while time.monotonic() < until:
                client.one(client.random.random() < 0.5)
            client.connection.close()

        in_threads([lambda client=client: run(client) for client in clients])
        server.kill()
        with serving(program, folder) as again, again.connect() as connection:
            tags = [told_of(connection, client.number) for client in clients]
            held = everything(connection)
        compare(clients, tags, held)
        sent, size = sum(len(client.sent) for client in clients), (folder / "log").stat().st_size >> 20
        assert sent > 1000 * chosen.minutes, sent
        broken = broken_off(clients, round(100 * chosen.minutes))
        return f"{workers} workers: {sent} commits, {broken}, a log of {size} MB"


TESTS = [
    signals, any_signal, pauses, closed_streams, full_streams, same_port, little_at_start, little_under_load, held_calls, held_to_the_end,
    file_limit, no_files, long_pages, two_programs, checkpoint_beside_a_start, other_files, no_rights, vanished_folder, moved_folder, small_disk,
    short_calls, any_frames,
]  # fmt: skip


def main():
    words = argparse.ArgumentParser(description="Uses rqm as nobody should.")
    words.add_argument("--program", help="a program that was built elsewhere")
    words.add_argument("--seed", type=int, default=0, help="from which moments and bytes are drawn")
    words.add_argument("--rounds", type=int, default=10, help="how often a server is ended, and a sixtieth of the hostile clients")
    words.add_argument("--minutes", type=float, default=10, help="how long each server of `long_sessions` runs")
    words.add_argument("--workers", type=int, help="the workers of its one server")
    words.add_argument("--frames", help="in how many frames servers run that are under load")
    words.add_argument("names", nargs="*", metavar="NAME", help="these tests alone")
    chosen = words.parse_args()
    for number in ENDING + [signal.SIGQUIT]:
        if signal.getsignal(number) == signal.SIG_IGN:  # as of what a shell runs in the background: programs would inherit it
            signal.signal(number, signal.SIG_DFL)
    program = built(chosen.program, "rqm")
    Server.frames = ("--frames", chosen.frames) if chosen.frames else ()
    few = f", in {chosen.frames} frames" if chosen.frames else ""
    known = {test.__name__: test for test in [*TESTS, long_sessions]}
    for name in chosen.names or [test.__name__ for test in TESTS]:
        before = time.monotonic()
        told = known[name](program, chosen)
        print(f"{name}: {time.monotonic() - before:.1f} s{few}" + (f", {told}" if told else ""), flush=True)


if __name__ == "__main__":
    main()
