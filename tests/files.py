#!/usr/bin/env python3
"""Has `rqm` make and serve stores in folders, and looks at their files. A format and a message leave what docs/FORMATS.md says, byte for
byte. Where no store can be made, and where each call on the files fails in turn, what was there is not harmed.

    python3 tests/files.py [--program PROGRAM] [NAME..]

A name is one of the tests below, as `made`; without one all are run. Where `rt ci` left the program as Rattle's own compiler
builds it too, that one runs those of `TWICE` as well. Logs are replaced by the program of `crates/bench`.
"""
import argparse
import itertools
import os
import pathlib
import re
import resource
import signal
import socket
import stat
import subprocess
import tempfile
import time
from contextlib import contextmanager

import opening
from cases import built, built_twice
from damaged import (
    FREE, MESSAGE, ONE_COMMITTED, ONE_SENT, PAGE, base, cell, end, formatted, group, received, sent, small, write,
)  # fmt: skip
from inspector import record
from server import (
    LONGEST, STORE_FAILED, DiskWrite, Failed, NotStarted, Server, UnknownClient, everything, first_line, raises, wait_until,
)  # fmt: skip
from shim import failing

SHIM = """#define _GNU_SOURCE
#include <dirent.h>
#include <dlfcn.h>
#include <errno.h>
#include <fcntl.h>
#include <pthread.h>
#include <signal.h>
#include <stdarg.h>
#include <stdatomic.h>
#include <stdio.h>
#include <stdlib.h>
#include <string.h>
#include <sys/file.h>
#include <sys/stat.h>
#include <unistd.h>

#define NEXT(name) ((__typeof__(&name)) dlsym(RTLD_NEXT, #name))

/* Has the call on a file fail whose number is FAIL_AT, from 1, and makes the file FAILED then. */
static int fails(void) {
    static atomic_long made;
    const char *at = getenv("FAIL_AT"), *told = getenv("FAILED");
    if (!at || ++made != atol(at)) return 0;
    close(NEXT(open)(told, O_WRONLY | O_CREAT, 0666));
    return 1;
}

/* What the call answers then. Where STOPS is set it answers nothing, and the program is killed in it. */
static int failed(void) {
    if (getenv("STOPS")) kill(getpid(), SIGKILL);
    errno = EIO;
    return -1;
}

/* Where NAMES is set, calls that open, lock, remove, rename or say who may read fail like that too. */
static int name_fails(void) {
    return getenv("NAMES") && fails();
}

/* Makes the file SYNCED as long as the file LOG was when it was synced. */
static int noted(const struct stat *synced) {
    struct stat log;
    const char *path = getenv("LOG");
    if (!path || stat(path, &log) || log.st_ino != synced->st_ino) return 0;
    return truncate(getenv("SYNCED"), synced->st_size);
}

/* A call and the name of its file, `.` for a folder. Where no path is given the file has this descriptor. */
static void spell(char line[64], const char *call, int file, const char *path) {
    char link[64], found[4096] = "";
    sprintf(link, "/proc/self/fd/%d", file);
    if (!path && readlink(link, found, sizeof found - 1) > 0) path = found;
    struct stat is;
    const char *name = path ? strrchr(path, '/') : NULL;
    int is_folder = path && !stat(path, &is) && S_ISDIR(is.st_mode);
    snprintf(line, 64, "%s %s", call, is_folder ? "." : name ? name + 1 : path ? path : "");
}

/* Writes that behind the file CALLS. */
static void told(const char *call, int file, const char *path) {
    char line[64];
    if (!getenv("CALLS")) return;
    spell(line, call, file, path);
    int to = NEXT(open)(getenv("CALLS"), O_WRONLY | O_APPEND | O_CREAT, 0666);
    dprintf(to, "%s\\n", line);
    close(to);
}

/* Whether a sync is to be left out, as LEFT_OUT says. Where LATE is set it is made behind the next sync of a folder. */
static int late;
static int is_left_out(const char *call, int file) {
    char line[64];
    if (!getenv("LEFT_OUT") || late) return 0;
    spell(line, call, file, NULL);
    if (strcmp(line, getenv("LEFT_OUT"))) return 0;
    if (getenv("LATE")) late = dup(file);
    return 1;
}

/* POWER is a folder of what a loss of power leaves. The sync of a file copies it there, under its number. That of a folder writes its names
   there, each with its number. Of a file that is made or emptied nothing is there. */
static void in_power(char *path, const char *name, unsigned long number) {
    int end = sprintf(path, "%s/", getenv("POWER"));
    if (name) strcpy(path + end, name);
    else sprintf(path + end, "%lu", number);
}

static void copy(FILE *to, int file) {
    char bytes[4096];
    ssize_t size;
    for (off_t at = 0; (size = NEXT(pread)(file, bytes, sizeof bytes, at)) > 0; at += size) fwrite(bytes, 1, size, to);
}

static void list(FILE *to, int folder) {
    DIR *names = fdopendir(openat(folder, ".", O_RDONLY));
    for (struct dirent *each; (each = readdir(names));) fprintf(to, "%lu %s\\n", (unsigned long) each->d_ino, each->d_name);
    closedir(names);
}

static int kept(int file, const struct stat *is, int (*sync)(int)) {
    static pthread_mutex_t keeping = PTHREAD_MUTEX_INITIALIZER;
    char fresh[4096], path[4096];
    if (!getenv("POWER")) return sync(file);
    pthread_mutex_lock(&keeping);
    in_power(fresh, "fresh", 0);
    in_power(path, S_ISDIR(is->st_mode) ? "names" : NULL, is->st_ino);
    FILE *to = fopen(fresh, "wb");
    (S_ISDIR(is->st_mode) ? list : copy)(to, file);
    int answer = fclose(to) || sync(file) || NEXT(rename)(fresh, path) ? -1 : 0;
    pthread_mutex_unlock(&keeping);
    return answer;
}

static void is_new(int file) {
    char path[4096];
    struct stat is;
    if (!getenv("POWER") || fstat(file, &is)) return;
    in_power(path, NULL, is.st_ino);
    NEXT(unlink)(path);
}

/* A write that fails was made, or a part of it. A read takes MICROS microseconds more, where that is set. */
#define WRITE(name, offset) ssize_t name(int file, const void *bytes, size_t size, offset at) { \\
    int is_failed = fails(); \\
    if (!is_failed) told("write", file, NULL); \\
    ssize_t written = NEXT(name)(file, bytes, is_failed && getenv("IN_PART") ? size / 2 : size, at); \\
    return is_failed ? failed() : written; \\
}
#define READ(name, offset) ssize_t name(int file, void *bytes, size_t size, offset at) { \\
    if (fails()) return failed(); \\
    if (getenv("MICROS")) usleep(atoi(getenv("MICROS"))); \\
    told("read", file, NULL); \\
    return NEXT(name)(file, bytes, size, at); \\
}
#define SYNC(name) int name(int file) { \\
    struct stat is; \\
    if (fails()) return failed(); \\
    if (is_left_out(#name, file)) return 0; \\
    told(#name, file, NULL); \\
    if (fstat(file, &is) || kept(file, &is, NEXT(name))) return -1; \\
    return S_ISDIR(is.st_mode) && late > 0 ? fdatasync(late) : noted(&is); \\
}
#define CUT(name, offset) int name(int file, offset length) { \\
    if (fails()) return failed(); \\
    told("cut", file, NULL); \\
    return NEXT(name)(file, length); \\
}

CUT(ftruncate, off_t)
CUT(ftruncate64, off64_t)
WRITE(pwrite, off_t)
WRITE(pwrite64, off64_t)
READ(pread, off_t)
READ(pread64, off64_t)
SYNC(fsync)
SYNC(fdatasync)

int open(const char *path, int how, ...) {
    struct stat is;
    va_list rest;
    va_start(rest, how);
    mode_t mode = how & O_CREAT ? va_arg(rest, mode_t) : 0;
    va_end(rest);
    if (name_fails()) return failed();
    int is_made = how & O_TRUNC || (how & O_CREAT && lstat(path, &is)), file = NEXT(open)(path, how, mode);
    told(is_made ? "make" : "open", -1, path);
    if (is_made && file >= 0) is_new(file);
    return file;
}
int flock(int file, int how) {
    if (name_fails()) return failed();
    told("lock", file, NULL);
    return NEXT(flock)(file, how);
}
int fchmod(int file, mode_t mode) {
    if (name_fails()) return failed();
    told("mode", file, NULL);
    return NEXT(fchmod)(file, mode);
}
int fchown(int file, uid_t owner, gid_t group) {
    if (name_fails()) return failed();
    told("owner", file, NULL);
    return NEXT(fchown)(file, owner, group);
}
/* A name that fails to be removed or to be another's was so, or not. */
int unlink(const char *path) {
    int is_failed = name_fails();
    if (!is_failed) told("remove", -1, path);
    int answer = is_failed && !getenv("IN_PART") ? 0 : NEXT(unlink)(path);
    return is_failed ? failed() : answer;
}
int rename(const char *from, const char *to) {
    int is_failed = name_fails();
    if (!is_failed) told("rename", -1, to);
    int answer = is_failed && !getenv("IN_PART") ? 0 : NEXT(rename)(from, to);
    return is_failed ? failed() : answer;
}
"""


@contextmanager
def folder_of(**files):
    """A folder with these files."""
    with tempfile.TemporaryDirectory(prefix="rqm-files-") as top:
        for name, held in files.items():
            (pathlib.Path(top) / name).write_bytes(held)
        yield pathlib.Path(top)


def files_of(folder):
    return {file.name: file.read_bytes() for file in folder.iterdir()}


def format_store(program, folder, directory=1, cells=2, tags=None, **words):
    """What is printed, and the exit status."""
    command = [program, "format", str(folder), "--directory", str(directory), "--cells", str(cells)]
    command += [] if tags is None else ["--tags", str(tags)]
    ended = subprocess.run(command, stdout=subprocess.PIPE, timeout=LONGEST, env=dict(os.environ, **words))
    return ended.stdout, ended.returncode


def made(program):
    """A store as it is formatted."""
    for directory, cells in ((1, 2), (3, 1), (2, 20)):
        with folder_of() as folder:
            assert format_store(program, folder, directory, cells) == (b"formatted %d %d\n" % (directory, cells), 0)
            assert files_of(folder) == {"pages": bytes(formatted(directory, cells)), "log": b""}, (directory, cells)
    with folder_of() as folder:
        assert format_store(program, folder, 1, 1, 1) == (b"formatted 1 1 1\n", 0)
        files = files_of(folder)
        assert files == {"pages": bytes(formatted(1, 1, 1)), "log": b""}
        # a superblock of version 2
        told = bytes.fromhex("52514d53544f5245 00000002 00000001 00000001 00000001")
        assert files["pages"][:PAGE] == (bytes(256) + told).ljust(PAGE, b"\0")
    with folder_of() as folder:
        assert format_store(program, folder, 2, 3, 5) == (b"formatted 2 3 5\n", 0)
        assert files_of(folder) == {"pages": bytes(formatted(2, 3, 5)), "log": b""}
    with folder_of() as folder:
        assert format_store(program, folder, 1, 1, 1024) == (b"formatted 1 1 1024\n", 0)
    for tags in (0, 1025, "", "x"):
        with folder_of() as folder:
            assert format_store(program, folder, 1, 1, tags) == (b"", 2), tags
            assert files_of(folder) == {}, tags
        command = [program, "run", "--directory", "1", "--cells", "1", "--tags", str(tags)]
        ran = subprocess.run(command, stdin=subprocess.DEVNULL, stdout=subprocess.PIPE, timeout=LONGEST)
        assert (ran.stdout, ran.returncode) == (b"", 2), tags


def there(program):
    """A store that is there stays, and so does half of one."""
    for name in ("pages", "log"):
        with folder_of(**{name: b"kept"}) as folder:
            assert format_store(program, folder) == (b"fault exists\n", 1)
            assert files_of(folder) == {name: b"kept"}
    with folder_of() as folder:
        assert format_store(program, folder)[1] == 0
        before = files_of(folder)
        assert format_store(program, folder, 1, 1) == (b"fault exists\n", 1)
        assert files_of(folder) == before


def no_folder(program):
    """No folder is made."""
    with folder_of(file=b"") as folder:
        for where in (folder / "none", folder / "file"):
            assert format_store(program, where) == (b"fault open\n", 1)
        assert files_of(folder) == {"file": b""}
    command = [program, "format", "", "--directory", "1", "--cells", "1"]
    with folder_of() as folder:
        assert subprocess.run(command, cwd=folder, stdout=subprocess.PIPE).stdout == b"fault open\n"
        assert files_of(folder) == {}


def open_once(program):
    """Nobody else opens a store that is open; then it is opened again."""
    with folder_of(pages=formatted(), log=b"") as folder:
        for _ in range(2):
            server = Server(program, folder)
            raises(NotStarted, lambda: Server(program, folder))
            server.kill()


# two sends of `hello` and two receives, each by a transaction of its own, record by record
FIRST, SECOND = cell(1, behind=34), cell(2, before=33)
MESSAGES = [
    *ONE_COMMITTED,
    write(1, 2, 2, FREE, SECOND, txn=2), write(1, 2, 1, MESSAGE, FIRST, txn=2),
    write(1, 1, 1, ONE_SENT, group(2, 0, 33, 34), txn=2), end(1, sent(0, 2, 7), txn=2), record(6, [1, 2]),
    write(1, 2, 1, FIRST, FREE, txn=3), write(1, 2, 2, SECOND, cell(2), txn=3),
    write(1, 1, 1, group(2, 0, 33, 34), group(2, 1, 34, 34), txn=3), end(1, received(0, 1), txn=3), record(6, [1, 3]),
    write(1, 2, 2, cell(2), FREE, txn=4), write(1, 1, 1, group(2, 1, 34, 34), group(2, 2), txn=4),
    end(1, received(0, 2), txn=4), record(6, [1, 4]),
]  # fmt: skip


def messages(program):
    """The files behind each transaction, once each changed page is written. Page 2 was written by the record of this LSN, with these cells,
    and page 1 by the next one, with this slot of the sender. What is received when the store is opened again is that. One server does
    all, and then one each time."""
    one, two, last = (ONE_SENT, [MESSAGE]), (group(2, 0, 33, 34), [FIRST, SECOND]), (group(2, 1, 34, 34), [FREE, cell(2)])
    left = [(5, 3, *one), (10, 8, *two), (15, 13, *last)]
    with folder_of(pages=formatted(), log=b"") as folder:
        server = Server(program, folder)
        for number in range(3):
            transact(server, number)
            wait_until(lambda: files_of(folder) == files_behind(*left[number]))
        server.kill()
    for sends, (records, *slots) in enumerate(left, 1):
        with folder_of(pages=formatted(), log=b"") as folder:
            server = Server(program, folder)
            for number in range(sends):
                lsn = transact(server, number)
            assert lsn == records
            wait_until(lambda: files_of(folder) == files_behind(records, *slots))
            server.kill()
            assert held_by(program, folder) == {0: [(7, b"hello")] * (2 if sends == 2 else 1)}


def transact(server, number):
    """One of two sends and a receive, by a connection of its own: where its commit stands."""
    with server.connect() as connection, connection.transaction() as transaction:
        if number < 2:
            transaction.send(0, 7, b"hello")
        else:
            assert transaction.receive() == (0, 7, b"hello")
    return transaction.lsn


def files_behind(records, lsn, slot, cells):
    """The files once so many records are forced, and the pages written."""
    pages = small(slot, *cells)
    pages[PAGE : PAGE + 8], pages[2 * PAGE : 2 * PAGE + 8] = lsn.to_bytes(8, "big"), (lsn - 1).to_bytes(8, "big")
    return {"pages": bytes(pages), "log": b"".join(MESSAGES[:records])}


# a log whose second transaction has no end, and what a store of it holds
UNENDED, HELD = b"".join(MESSAGES[:9]), {0: [(7, b"hello")]}


def log_of_all(program):
    """The log of all four transactions, and behind it that of a receive that finds nothing."""
    with folder_of(pages=formatted(), log=b"") as folder:
        server = Server(program, folder)
        with server.connect() as connection:
            for _ in range(2):
                with connection.transaction() as transaction:
                    transaction.send(0, 7, b"hello")
            for wanted in ((0, 7, b"hello"), (0, 7, b"hello"), None):
                with connection.transaction() as transaction:
                    assert transaction.receive() == wanted
        server.kill()
        assert (folder / "log").read_bytes() == b"".join([*MESSAGES, record(6, [1, 5])])


# ---- calls that fail


class Course:
    """Transactions of one connection. `left` has what the store holds behind each commit, and `done` counts those that were
    acknowledged."""

    left = [{}, {0: [(7, b"hello")]}, {}, {0: [(8, b"a")]}, {0: [(8, b"a"), (9, b"b")]}]

    def __init__(self):
        self.done, self.last, self.has_failed = 0, 0, False

    def run(self, server):
        with server.connect() as connection:
            try:
                self.transactions(connection)
            except (Failed, DiskWrite):
                self.has_failed = True

    def transactions(self, connection):
        self.commit(connection, lambda transaction: transaction.send(0, 7, b"hello"))
        self.commit(connection, lambda transaction: transaction.receive())
        self.commit(connection, lambda transaction: transaction.send(0, 8, b"a"))
        taken_back = connection.transaction()
        taken_back.receive()
        taken_back.send(1, 1, b"c")
        taken_back.abort()
        self.commit(connection, lambda transaction: transaction.send(0, 9, b"b"))

    def commit(self, connection, work):
        transaction = connection.transaction()
        work(transaction)
        self.last = transaction.commit()
        self.done += 1

    def has_written(self, folder):
        """Whether the directory page is written, whose last change stands before the last commit and the end of its send."""
        return (folder / "pages").read_bytes()[PAGE : PAGE + 8] == (self.last - 2).to_bytes(8, "big")

    def may_leave(self):
        """What was acknowledged, and with it the commit that was not answered."""
        return self.left[self.done : self.done + 2]


def each_call(*counts):
    """The numbers of the calls up to one that is not made, with the words for each. There have to be so many; or one of these counts, where
    a server may begin to write pages in time."""
    with failing(SHIM) as (beside, words):
        told = beside / "failed"
        words = {**words, "FAILED": str(told)}
        for in_part in ({}, {"IN_PART": "1"}):
            number = 0
            while number == 0 or told.exists():
                told.unlink(missing_ok=True)
                number += 1
                yield {**words, **in_part, "FAIL_AT": str(number)}, told
            assert number - 1 in counts, f"{number - 1} calls, and not {counts}"


def formats(program):
    """A format one of whose calls fails tells it, and leaves files that are there. What one leaves that is killed is no store, or an empty
    one. Once they are removed the store is made."""
    for count, more in ((10, {}), (18, {"NAMES": "1", "STOPS": "1"})):
        for words, told in each_call(count):
            with folder_of() as folder:
                came, left = format_store(program, folder, **more, **words), files_of(folder)
                if told.exists():
                    if more:
                        assert came == (b"", -signal.SIGKILL) and why_refused(program, folder) == why_not_opened(left), (words, came)
                    else:
                        assert left and came in ((b"fault 15 DiskWrite\n", 1), (b"fault open\n", 1)), (words, came)
                    assert not left or format_store(program, folder) == (b"fault exists\n", 1)
                    for file in folder.iterdir():
                        file.unlink()
                    came = format_store(program, folder)
                assert came == (b"formatted 1 2\n", 0), (words, came)
                assert files_of(folder) == {"pages": bytes(formatted(1, 2)), "log": b""}, words


def why_not_opened(files):
    """What a server says of a store with these files, by their bytes; None where it serves it."""
    if {*files} != {"pages", "log"}:
        return b"fault open\n"
    said, made, _ = opening.said_of(files["pages"], files["log"])
    return None if made else b"fault 16 Damaged\n" if said.startswith("damaged") else f"{said}\n".encode()


def courses(program):
    """Where a call of an opening fails it is refused, and another one opens the store. Where one fails behind it, it is told, also to
    who runs the server, and the store does nothing more. What was acknowledged is there once it is opened again, and of the rest at
    most one commit. So it is where the machine stops, and the log keeps only what was synced. So it is behind a Base."""
    courses_from(program, b"")
    courses_from(program, base(1))


def courses_from(program, log):
    """The same over a store that is formatted, but for this log."""
    shorter, failures = 0, 0
    for words, told in each_call(*range(18, 24)):
        course = Course()
        with folder_of(pages=formatted(), log=log) as folder, folder_of(synced=log) as beside:
            synced = beside / "synced"
            words = {**words, "LOG": str(folder / "log"), "SYNCED": str(synced)}
            try:
                server = Server(program, folder, environment=words)
            except NotStarted as refused:
                assert told.exists(), refused
                assert refused.line in (b"fault 3 DiskRead\n", b"fault 15 DiskWrite\n"), refused
            else:
                course.run(server)
                failures += told.exists()
                wait_until(lambda: has_told_failure(server) if told.exists() else course.has_written(folder))
                lines = server.tells()[1:]  # (a call may also fail only now)
                assert lines in ([], [STORE_FAILED]), lines
                assert told.exists() or not course.has_failed and not lines
                server.kill()
            files = files_of(folder)
            left = files["log"][: synced.stat().st_size]
            if left != files["log"]:
                shorter += 1
                with folder_of(pages=files["pages"], log=left) as stopped:
                    held = held_by(program, stopped)
                assert held in course.may_leave(), (words, held, course.done, len(left))
            held = held_by(program, folder)
            assert held in course.may_leave(), (words, held, course.done)
    # so often fails the sync of the opening or of a commit, in either pass, and of a commit alone
    assert shorter >= 2 * len(Course.left), f"only {shorter} logs were not synced whole"
    assert failures >= 2 * (len(Course.left) - 1), f"only {failures} servers were to tell that their store failed"


def torn_ends(program):
    """A torn end is cut off, and the restart's record stands in its place, byte for byte. Where a call fails, also the cut, the
    opening is refused, and the next one comes to the same."""
    whole = b"".join(ONE_COMMITTED)
    for end in (b"\0", ONE_COMMITTED[-1][:-1], ONE_COMMITTED[1][:545]):
        cut = 0
        for words, told in each_call(*range(11, 15)):
            with folder_of(pages=formatted(), log=whole + end) as folder:
                try:
                    Server(program, folder, environment=words).kill()
                except NotStarted as refused:
                    assert told.exists() and refused.line.startswith(b"fault "), refused
                    log = (folder / "log").read_bytes()
                    assert log.startswith(whole), words
                    cut += log == whole + end and refused.line == b"fault 15 DiskWrite\n"
                    assert held_by(program, folder) == {0: [(7, b"hello")]}, words
                else:
                    assert (folder / "log").read_bytes() == whole + record(7, [2]), words
        assert cut, "no cut failed"


# ---- logs that are replaced

# no zero is in it
OLD = b"old" * 1000


def replace(folder, times, *, limit=None, **words):
    """What is printed where a log is replaced so often by 600 zeros, and 600 more are appended each time; and the exit status."""
    command = [built(None, "bench"), "replace", str(folder)]
    words = dict(os.environ, **words)
    ended = subprocess.run(command, input=b"\n" * times, stdout=subprocess.PIPE, env=words, preexec_fn=limit, timeout=LONGEST)
    return ended.stdout, ended.returncode


def replaced(_):
    """The new log is read, what is appended goes behind it, and nothing of the old one is left. Who may read it stays. What a crash left
    where the new one is made does no harm."""
    for left in ({}, {"log.new": b"left" * 1000}):
        with folder_of(pages=formatted(), log=OLD, **left) as folder:
            (folder / "log").chmod(0o640)
            for times in (1, 2):
                assert replace(folder, times) == (b"600 zeros\n" * times, 0)
                assert files_of(folder) == {"pages": bytes(formatted()), "log": bytes(1200)}
                assert stat.S_IMODE((folder / "log").stat().st_mode) == 0o640


def bind_socket(path):
    with socket.socket(socket.AF_UNIX) as stream:
        stream.bind(str(path))


# What may stand in place of a file, and is none.
NO_FILES = {
    "a pipe": os.mkfifo, "a folder": os.mkdir, "a socket": bind_socket, "a device": lambda path: path.symlink_to("/dev/null"),
    "a device that is full": lambda path: path.symlink_to("/dev/full"), "a device of zeros": lambda path: path.symlink_to("/dev/zero"),
    "a terminal": lambda path: path.symlink_to("/dev/ptmx"), "a link to itself": lambda path: path.symlink_to(path),
    "a link to nothing": lambda path: path.symlink_to(path.parent / "none"),
}  # fmt: skip


def other_names(name):
    """Two other names of a file beside it, one of them a link."""
    return {
        f"a name of {name}": lambda path: path.hardlink_to(path.parent / name),
        f"a link to {name}": lambda path: path.symlink_to(path.parent / name),
    }


def odd_fresh_names(program):
    """Whatever stands where the new log is made is removed: it is neither written to nor waited for, and what it leads to stays. A folder
    stays, and no checkpoint is made."""
    for what, make in {**NO_FILES, **other_names("log"), **other_names("pages"), **other_names("foreign")}.items():
        with folder_of(pages=formatted(), log=UNENDED, foreign=OLD) as folder:
            fresh, foreign = folder / "log.new", folder / "foreign"
            foreign.chmod(0o640)
            make(fresh)
            came, log = checkpoint(program, folder), (folder / "log").read_bytes()
            if what == "a folder":
                assert came == (b"restarted 2 unfinished 0 lost 1\nfault 15 DiskWrite\n", 1), came
                assert log == opening.said_of(formatted(), UNENDED)[2]
                fresh.rmdir()
            else:
                assert came == (b"restarted 2 unfinished 0 lost 1\ncheckpoint 16\n", 0), (what, came)
                assert log == base(15, 2), what
            assert {*files_of(folder)} == {"pages", "log", "foreign"}, what
            assert foreign.read_bytes() == OLD and stat.S_IMODE(foreign.stat().st_mode) == 0o640, what
            assert checkpoint(program, folder)[1] == 0, what
            assert held_by(program, folder) == HELD, what


def left_behind(program):
    """What a crash left where a new log is made: a format makes its store beside it, which is opened, and neither looks at it."""
    with folder_of(**{"log.new": OLD}) as folder:
        assert format_store(program, folder) == (b"formatted 1 2\n", 0)
        Server(program, folder).kill()
        assert files_of(folder) == {"pages": bytes(formatted(1, 2)), "log": record(7, [1]), "log.new": OLD}


def not_replaced(_):
    """Where a call fails, the log is the old one or the new one, whole, and it is replaced the next time."""
    came = set()
    for words, told in each_call(18):
        with folder_of(pages=formatted(), log=OLD) as folder:
            assert replace(folder, 1, NAMES="1", **words) == ((b"", 1) if told.exists() else (b"600 zeros\n", 0)), words
            files = files_of(folder)
            is_old = files["log"] == OLD
            assert is_old or files["log"] in (bytes(600), bytes(900), bytes(1200)), words
            came.add((is_old, "log.new" in files))
            assert replace(folder, 1) == (b"600 zeros\n", 0), words
            assert files_of(folder) == {"pages": bytes(formatted()), "log": bytes(1200)}, words
    assert came == {(True, False), (True, True), (False, False)}, came


def no_room(_):
    """Where no new log can be made, or not all of it be written, the old one stays."""

    def limit():
        signal.signal(signal.SIGXFSZ, signal.SIG_IGN)
        resource.setrlimit(resource.RLIMIT_FSIZE, (300, 300))

    with folder_of(pages=formatted(), log=OLD) as folder:
        (folder / "log.new").mkdir()
        assert replace(folder, 1) == (b"", 1)
        (folder / "log.new").rmdir()
        assert files_of(folder) == {"pages": bytes(formatted()), "log": OLD}
        assert replace(folder, 1, limit=limit) == (b"", 1)
        assert files_of(folder) == {"pages": bytes(formatted()), "log": OLD, "log.new": bytes(300)}


def replaced_while_open(program):
    """Whoever replaces a log has the store to itself all the while. Where another folder has the name by then, its log stays."""
    with folder_of() as top:
        folder, other = top / "store", {"pages": bytes(formatted()), "log": b"other"}
        make_folder(folder, pages=formatted(), log=OLD)
        command = [built(None, "bench"), "replace", str(folder)]
        with subprocess.Popen(command, stdin=subprocess.PIPE, stdout=subprocess.PIPE) as process:
            for _ in range(2):
                process.stdin.write(b"\n")
                process.stdin.flush()
                assert first_line(process) == b"600 zeros\n"
                assert why_refused(program, folder) == b"fault open\n"
            folder.rename(top / "aside")
            make_folder(folder, **other)
            assert process.communicate(b"\n", timeout=LONGEST) == (b"", None) and process.returncode == 1
        assert files_of(folder) == other
        assert files_of(top / "aside") == {"pages": other["pages"], "log": bytes(1200)}


def checkpoint(program, folder, **words):
    """What is printed, and the exit status."""
    command, words = [program, "checkpoint", str(folder)], dict(os.environ, **words)
    ended = subprocess.run(command, stdout=subprocess.PIPE, stderr=subprocess.DEVNULL, env=words, timeout=LONGEST)
    return ended.stdout, ended.returncode


def checkpointed(program):
    """The log is one record that counts those before it, and the pages hold what they left. What comes next counts on, be it another
    checkpoint. What had no end is undone before. What a crash left where the new log is made does no harm."""
    for left in ({}, {"log.new": OLD}):
        with folder_of(pages=formatted(), log=b"".join(MESSAGES[:10]), **left) as folder:
            pages = files_behind(10, 8, group(2, 0, 33, 34), [FIRST, SECOND])["pages"]
            for incarnation in (2, 3):
                lsn = 8 + 2 * incarnation
                assert checkpoint(program, folder) == (b"restarted %d unfinished 0 lost 0\ncheckpoint %d\n" % (incarnation, lsn), 0)
                assert files_of(folder) == {"pages": pages, "log": base(lsn - 1, incarnation)}
            server = Server(program, folder)
            assert checkpoint(program, folder) == (b"fault open\n", 1)
            assert transact(server, 2) == 20
            server.kill()
            assert held_by(program, folder) == {0: [(7, b"hello")]}
    # three undos and an OpVoid, or three writes, a CompEnd and an AbortEnd; and the restart's record
    for records, unfinished, lost, made in ((8, 1, 0, 13), (9, 0, 1, 15)):
        with folder_of(pages=formatted(), log=b"".join(MESSAGES[:records])) as folder:
            told = b"restarted 2 unfinished %d lost %d\ncheckpoint %d\n" % (unfinished, lost, made + 1)
            assert checkpoint(program, folder) == (told, 0)
            assert (folder / "log").read_bytes() == base(made, 2)
            assert held_by(program, folder) == {0: [(7, b"hello")]}


def not_checkpointed(program):
    """Where there is no store nothing is made. Where the log has no room for a record, only the restart's is added."""
    with folder_of() as folder:
        assert checkpoint(program, folder / "none") == checkpoint(program, folder) == (b"fault open\n", 1)
        assert files_of(folder) == {}
    with folder_of(pages=formatted(), log=base(2**50 - 2)) as folder:
        assert checkpoint(program, folder) == (b"restarted 2 unfinished 0 lost 0\nfault 19 LogFull\n", 1)
        assert files_of(folder) == {"pages": bytes(formatted()), "log": base(2**50 - 2) + record(7, [2])}


def migrate(program, folder, *tags, **words):
    """What is printed where a store is given so many tag pages, and the exit status."""
    command, words = [program, "migrate", str(folder), *(["--tags", str(*tags)] if tags else [])], dict(os.environ, **words)
    ended = subprocess.run(command, stdout=subprocess.PIPE, stderr=subprocess.DEVNULL, env=words, timeout=LONGEST)
    return ended.stdout, ended.returncode


def grown(pages, tags):
    """The pages of a small store with so many tag pages, which no client was marked on yet."""
    whole = formatted(tags=tags)
    return bytes(whole[:PAGE] + pages[PAGE : 3 * PAGE] + whole[3 * PAGE :]) + pages[len(whole) :]


def migrated(program):
    """Tag pages stand behind the others, as they are formatted, and page 0 tells them. The log is one record that counts those before it. What
    comes next counts on, and marks clients. No more are given then. What a crash left behind the pages does no harm, nor what it left
    where the new log is made. What had no end is undone before."""
    written = files_behind(10, 8, group(2, 0, 33, 34), [FIRST, SECOND])["pages"]
    for behind, left in ((b"", {}), (b"", {"log.new": OLD}), (bytes([7]) * 5000, {}), (bytes([7]) * 3 * PAGE, {})):
        with folder_of(pages=formatted() + behind, log=b"".join(MESSAGES[:10]), **left) as folder:
            assert migrate(program, folder, 2) == (b"restarted 2 unfinished 0 lost 0\nmigrated 12\n", 0)
            pages = grown(written + behind, 2)
            assert files_of(folder) == {"pages": pages, "log": base(11, 2)}
            assert migrate(program, folder, 1) == (b"restarted 3 unfinished 0 lost 0\nfault 24 BadTags\n", 1)
            assert files_of(folder) == {"pages": pages, "log": base(11, 2) + record(7, [3])}
            server = Server(program, folder)
            with server.connect() as connection:
                assert connection.client_tag(29) == (0, 0)
                with connection.transaction() as transaction:
                    transaction.mark(29, 70)
                assert transaction.lsn == 17 and connection.client_tag(29) == (1, 70)
                raises(UnknownClient, lambda: connection.client_tag(30))
            server.kill()
            assert held_by(program, folder) == {0: [(7, b"hello")] * 2}
    # a page behind the cells stays as it is unless it is one of them
    with folder_of(pages=formatted() + bytes([7]) * 5 * PAGE, log=b"") as folder:
        assert migrate(program, folder, 2) == (b"restarted 1 unfinished 0 lost 0\nmigrated 2\n", 0)
        assert files_of(folder) == {"pages": bytes(formatted(tags=2)) + bytes([7]) * 3 * PAGE, "log": base(1)}
    for records, unfinished, lost, made in ((8, 1, 0, 13), (9, 0, 1, 15)):
        with folder_of(pages=formatted(), log=b"".join(MESSAGES[:records])) as folder:
            told = b"restarted 2 unfinished %d lost %d\nmigrated %d\n" % (unfinished, lost, made + 1)
            assert migrate(program, folder, 1) == (told, 0)
            assert (folder / "log").read_bytes() == base(made, 2)
            assert held_by(program, folder) == {0: [(7, b"hello")]}
    with folder_of() as folder:
        assert format_store(program, folder, 3, 2) == (b"formatted 3 2\n", 0)
        assert migrate(program, folder, 1024) == (b"restarted 1 unfinished 0 lost 0\nmigrated 2\n", 0)
        assert files_of(folder) == {"pages": bytes(formatted(3, 2, 1024)), "log": base(1)}


def not_migrated(program):
    """Where there is no store nothing is made. Where the log has no room for a record nothing is done but a restart, and there are zeros
    behind the pages. Words that are not accepted change nothing, nor does a number of pages that no store has."""
    more = bytes(2 * PAGE)
    with folder_of() as folder:
        assert migrate(program, folder / "none", 1) == migrate(program, folder, 1) == (b"fault open\n", 1)
        assert files_of(folder) == {}
    for tags in ((), ("x",), ("",), (-1,), (0,), (1025,), (2**32 - 1,), (2**32,)):
        with folder_of(pages=formatted(), log=b"") as folder:
            assert migrate(program, folder, *tags) == (b"", 2), tags
            assert files_of(folder) == {"pages": bytes(formatted()), "log": b""}
    with folder_of(pages=formatted(), log=base(2**50 - 2)) as folder:
        assert migrate(program, folder, 2) == (b"restarted 2 unfinished 0 lost 0\nfault 19 LogFull\n", 1)
        assert files_of(folder) == {"pages": bytes(formatted()) + more, "log": base(2**50 - 2) + record(7, [2])}
    with folder_of(pages=formatted(), log=b"\1") as folder:
        assert migrate(program, folder, 2) == (b"fault 16 Damaged\n", 1)
        assert files_of(folder) == {"pages": bytes(formatted()) + more, "log": b"\1"}
    for pages, fault in ((formatted()[:-1], b"fault 3 DiskRead\n"), (bytes(3 * PAGE), b"fault 16 Damaged\n"), (b"", b"fault 3 DiskRead\n")):
        with folder_of(pages=pages, log=b"") as folder:
            assert migrate(program, folder, 2) == (fault, 1), fault
            assert files_of(folder) == {"pages": bytes(pages), "log": b""}
    with folder_of(pages=formatted(), log=b"") as folder:
        server = Server(program, folder)
        before = files_of(folder)
        assert migrate(program, folder, 1) == (b"fault open\n", 1)
        assert files_of(folder) == before
        server.kill()


def no_room_for_tag_pages(program):
    """Where the file of pages can't be made longer, it stays as it is, and so does the log."""

    def limit():
        signal.signal(signal.SIGXFSZ, signal.SIG_IGN)
        resource.setrlimit(resource.RLIMIT_FSIZE, (4 * PAGE, 4 * PAGE))

    with folder_of(pages=formatted(), log=UNENDED) as folder:
        command = [program, "migrate", str(folder), "--tags", "2"]
        ended = subprocess.run(command, stdout=subprocess.PIPE, stderr=subprocess.DEVNULL, preexec_fn=limit, timeout=LONGEST)
        assert (ended.stdout, ended.returncode) == (b"fault 15 DiskWrite\n", 1), ended
        assert files_of(folder) == {"pages": bytes(formatted()), "log": UNENDED}


# ---- the power is cut

# The calls of a checkpoint of a small store, of a migration and of a format, each with its file. Where the same is made again, it stands
# once.
OPENED = ["fsync pages", "open log", "lock log", "fsync log", "read pages", "read log", "write log", "fdatasync log"]
REPLACED = [
    "open .", "remove log.new", "make log.new", "lock log.new", "mode log.new", "write log.new", "fsync log.new", "rename log", "fsync .",
]  # fmt: skip
CHECKPOINT = ["open null", "open pages", "lock pages", *OPENED, "write pages", "fdatasync pages", *REPLACED]
MIGRATION = [
    "open null", "open pages", "lock pages", "read pages", "cut pages", "lock pages", *OPENED, "write pages", "fdatasync log", "write pages",
    "fdatasync pages", *REPLACED, "write pages", "fdatasync pages",
]  # fmt: skip
FORMAT = [
    "open null", "make pages", "make log", "lock pages", "cut pages", "lock pages", "fsync pages", "write pages", "fdatasync pages",
    "write pages", "fdatasync pages", "fsync log", "open .", "fsync .",
]  # fmt: skip

# Syncs of a checkpoint that are left out, and one that is made behind the new log has its name.
LEFT_OUT = [{"LEFT_OUT": sync} for sync in ("fdatasync pages", "fsync log.new", "fsync .")]
LEFT_OUT.append({"LEFT_OUT": "fdatasync pages", "LATE": "1"})

# The store of that log, and the same where a Base stands for the beginning.
WHOLE = {"pages": bytes(formatted()), "log": UNENDED}
BASED = {"pages": files_behind(5, 3, ONE_SENT, [MESSAGE])["pages"], "log": base(4) + b"".join(MESSAGES[5:9])}


class Power:
    """A folder, and what a cut of the power leaves of it: the names that its last sync found, and of each file what its own last sync did.
    What is there at first is synced."""

    def __init__(self, folder, beside):
        self.folder, self.beside, self.calls = folder, beside, beside / "calls"
        self.words = {"POWER": str(beside), "CALLS": str(self.calls)}
        files = [*folder.iterdir()]
        for file in files:
            (beside / str(file.stat().st_ino)).write_bytes(file.read_bytes())
        (beside / "names").write_text("".join(f"{file.stat().st_ino} {file.name}\n" for file in files))

    def left(self):
        """The files that it leaves."""
        numbers = [line.split(" ") for line in (self.beside / "names").read_text().splitlines()]
        files = {name: self.beside / number for number, name in numbers if name not in (".", "..")}
        return {name: file.read_bytes() if file.exists() else b"" for name, file in files.items()}

    def holds(self, **files):
        """What the store holds then, by the bytes, or with one of these files; None where it is not opened."""
        files = {**self.left(), **files}
        made = {"pages", "log"} <= {*files} and opening.said_of(files["pages"], files["log"])[1]
        return {sender: held[4] for sender, held in made.pages.content().items() if held[4]} if made else None

    def made(self):
        """The calls that were made."""
        return [line for line, _ in itertools.groupby(self.calls.read_text().splitlines())]


@contextmanager
def powered(**files):
    with folder_of(**files) as folder, folder_of() as beside:
        yield Power(folder, beside)


def power_is_cut(program):
    """The power is cut in each call of a checkpoint, or of a migration: what was synced holds what the store held, also where pages are on the
    disk before that. Behind a whole one it is all, and so is what is committed then."""
    for calls, change, made in ((29, checkpoint, CHECKPOINT), (36, migrate_by_two, MIGRATION)):
        for files in (WHOLE, BASED):
            for words, told in each_call(calls):
                with powered(**files) as power:
                    change(program, power.folder, NAMES="1", STOPS="1", **words, **power.words)
                    assert power.holds() == power.holds(pages=files_of(power.folder)["pages"]) == HELD, words
                    if not told.exists():
                        assert power.made() == made, power.made()
                        assert power.left() == {**files_of(power.folder), "log": base(15, 2)}
                        assert opening.Pages(power.left()["pages"]).tags == (2 if change is migrate_by_two else 0)
                        commits(program, power, words)
        lose = [cuts_that_lose(program, change, calls, left_out) > 0 for left_out in ({}, *LEFT_OUT)]
        assert lose == [False, True, True, True, True], (change, lose)


def migrate_by_two(program, folder, **words):
    return migrate(program, folder, 2, **words)


def cuts_that_lose(program, change, calls, left_out):
    """Where a sync is left out or comes late: how often a checkpoint, or a migration, is cut so that the store holds something else, or is
    not the one that it has made."""
    lose = 0
    for words, told in each_call(calls + ("LATE" in left_out)):
        with powered(**WHOLE) as power:
            change(program, power.folder, NAMES="1", STOPS="1", **words, **power.words, **left_out)
            lose += power.holds() != HELD or not told.exists() and power.left() != files_of(power.folder)
    return lose


def commits(program, power, words):
    """What is committed is there behind a cut of the power."""
    held = power.holds()
    words = {**power.words, "LD_PRELOAD": words["LD_PRELOAD"]}
    server = Server(program, power.folder, environment=words)
    with server.connect() as connection, connection.transaction() as transaction:
        transaction.send(1, 8, b"more")
    server.kill()
    assert power.holds() == {**held, 1: [(8, b"more")]}, power.holds()


def power_is_cut_in_a_format(program):
    """The power is cut in each call of a format: there is no store, or an empty one. Behind a whole one it is all there, and so is what is
    committed then. Where a sync is left out, it is not."""
    for words, told in each_call(18):
        with powered() as power:
            format_store(program, power.folder, NAMES="1", STOPS="1", **words, **power.words)
            assert power.holds() in (None, {}), words
            if not told.exists():
                assert power.made() == FORMAT, power.made()
                assert power.left() == files_of(power.folder)
                commits(program, power, words)
    for left_out in ("fdatasync pages", "fsync ."):
        with failing(SHIM) as (_, words), powered() as power:
            assert format_store(program, power.folder, **words, **power.words, LEFT_OUT=left_out)[1] == 0
            assert power.left() != files_of(power.folder), left_out


def why_refused(program, folder):
    try:
        Server(program, folder).kill()
    except NotStarted as refused:
        return refused.line
    return None


def make_folder(folder, **files):
    folder.mkdir()
    for name, held in files.items():
        (folder / name).write_bytes(held)


def last_force(program):
    """A server that ends by itself tells where its last force is refused, since a call failed there or before it."""
    refused_forces = 0
    for words, told in each_call(*range(10, 14)):
        with folder_of(pages=formatted(), log=b"") as folder:
            try:
                server = Server(program, folder, "--sessions", 1, environment=words)
            except NotStarted as refused:
                assert told.exists(), refused
                continue
            with server.connect() as connection:
                try:
                    connection.transaction().send(0, 7, b"hello")
                except (Failed, DiskWrite):
                    assert told.exists(), words
            status, printed = server.ended()
            if told.exists():
                refused_forces += 1
                assert status == 1 and printed in (b"fault 15 DiskWrite\n", b"fault 2 Failed\n"), (words, status, printed)
            else:
                assert (status, printed) == (0, b"served 1\n"), (words, status, printed)
                assert (folder / "log").read_bytes().endswith(record(8, [1, 1])), "the end of the abort is forced"
    # an append and a sync, in either pass
    assert refused_forces >= 4, f"only {refused_forces} forces were refused"


def held_by(program, folder):
    """What a store holds, once it is open."""
    server = Server(program, folder)
    with server.connect() as connection:
        held = everything(connection)
    server.kill()
    return held


def is_failed(server):
    """Every call is refused as of a failed store, at the latest once the writer whose call failed has said so."""
    with server.connect() as connection:
        try:
            connection.transaction().abort()
        except Failed:
            return True
    return False


def has_told_failure(server):
    """Every call is refused, and who runs the server was told, which a busy machine may keep for a while."""
    return is_failed(server) and server.tells()[1:] == [STORE_FAILED]


def slow_openings(program):
    """An opening that takes more than a second tells on standard error how far it is, about once a second. Another one doesn't."""
    with folder_of() as folder, failing(SHIM) as (_, words):
        assert format_store(program, folder, 1, 1300)[1] == 0
        pages, log = ((folder / name).stat().st_size for name in ("pages", "log"))
        for subcommand in (["serve", "--port", "0"], ["checkpoint"], ["migrate", "--tags", "1"]):
            for micros in (2000, 0):
                began = time.monotonic()
                lines = told_opening(program, folder, *subcommand, environment={**words, "MICROS": str(micros)})
                seconds = time.monotonic() - began
                if not micros:
                    assert lines == [] or seconds > 1, (subcommand, lines)  # (a busy machine may keep it for so long)
                    continue
                read, whole = zip(*(map(int, re.fullmatch(rb"opening: ([0-9]+) of ([0-9]+) MB read", line).groups()) for line in lines))
                assert {*whole} == {-(-(pages + log) // 10**6)}, (subcommand, lines)
                assert 2 <= len(read) <= seconds and [*read] == sorted({*read}) and read[-1] <= whole[0], (subcommand, lines)


def told_opening(program, folder, subcommand, *words, environment):
    """What stands on standard error but what the start found, once a store was opened. On standard output nothing is told of it."""
    with tempfile.TemporaryFile() as told:
        command = [program, subcommand, str(folder), *words]
        process = subprocess.Popen(command, stdout=subprocess.PIPE, stderr=told, env={**os.environ, **environment})
        line = first_line(process)
        process.kill() if subcommand == "serve" else process.wait(LONGEST)
        process.communicate()
        assert line.startswith(b"listening " if subcommand == "serve" else b"restarted "), line
        told.seek(0)
        return [line for line in told.read().splitlines() if not line.startswith(b"opened in ")]


TESTS = [
    made, there, no_folder, open_once, messages, log_of_all, formats, courses, torn_ends, last_force,
    replaced, left_behind, not_replaced, no_room, replaced_while_open, checkpointed, not_checkpointed, migrated, not_migrated,
    no_room_for_tag_pages, odd_fresh_names, power_is_cut, power_is_cut_in_a_format, slow_openings,
]  # fmt: skip

# What looks at the bytes of each file.
TWICE = [made, messages]


def main():
    words = argparse.ArgumentParser(description="Has rqm make and serve stores in folders.")
    words.add_argument("--program", help="a program that was built elsewhere")
    words.add_argument("names", nargs="*", metavar="NAME", help="these tests alone")
    chosen = words.parse_args()
    programs = built_twice(chosen.program, "rqm")
    known = {test.__name__: test for test in TESTS}
    for name in chosen.names or known:
        for program in programs if known[name] in TWICE else programs[:1]:
            before = time.monotonic()
            known[name](program)
            print(f"{name} ({os.path.basename(program)}): {time.monotonic() - before:.1f} s", flush=True)


if __name__ == "__main__":
    main()
