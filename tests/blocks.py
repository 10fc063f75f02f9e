"""Runs a program again and again, each time in a process of its own, and tells which of its blocks a run reached for the first time. A
block is what stands between two jumps; `objdump` finds them.

A library that the loader puts in front of the C library's writes a breakpoint at the head of each block, and forks a process for each
run before the program begins. A block that was reached loses its breakpoint, so that runs that come to nothing new are as quick as ever.
"""
import mmap
import os
import re
import select
import signal
import subprocess

SHIM = """#define _GNU_SOURCE
#include <fcntl.h>
#include <link.h>
#include <signal.h>
#include <stdint.h>
#include <stdlib.h>
#include <sys/mman.h>
#include <sys/stat.h>
#include <sys/wait.h>
#include <ucontext.h>
#include <unistd.h>

/* What is shared: the number of blocks, where each begins, and whether it was reached. */
static uint32_t count, *places;
static uint8_t *reached, *base, *old;

static int main_program(struct dl_phdr_info *of, size_t size, void *unused) {
    base = (uint8_t *) of->dlpi_addr;
    return 1;
}

static void reach(int number, siginfo_t *told, void *held) {
    greg_t *next = &((ucontext_t *) held)->uc_mcontext.gregs[REG_RIP];
    uint32_t place = *next - 1 - (greg_t) base, low = 0, high = count;
    while (low < high) {
        uint32_t middle = (low + high) / 2;
        if (places[middle] < place) low = middle + 1; else high = middle;
    }
    if (low == count || places[low] != place) abort();
    base[place] = old[low];
    reached[low] = 1;
    --*next;
}

static void arm(void) { for (uint32_t at = 0; at < count; ++at) base[places[at]] = 0xcc; }

/* Forks for each byte that is asked, with every breakpoint where it is an `a`; tells the process, and then how it ended. */
__attribute__((constructor)) static void runs(void) {
    struct stat told;
    const char *path = getenv("BLOCKS");
    if (!path) return;
    int file = open(path, O_RDWR), asks = atoi(getenv("ASKS")), tells = atoi(getenv("TELLS"));
    if (file < 0 || fstat(file, &told)) abort();
    uint32_t *shared = mmap(NULL, told.st_size, PROT_READ | PROT_WRITE, MAP_SHARED, file, 0);
    close(file);
    count = shared[0], places = shared + 1, reached = (uint8_t *) (places + count), old = malloc(count);
    dl_iterate_phdr(main_program, NULL);
    uint8_t *first = (uint8_t *) ((uintptr_t) (base + places[0]) & -4096), *last = base + places[count - 1];
    if (!old || mprotect(first, last - first + 1, PROT_READ | PROT_WRITE | PROT_EXEC)) abort();
    for (uint32_t at = 0; at < count; ++at) old[at] = base[places[at]];
    struct sigaction act = {.sa_sigaction = reach, .sa_flags = SA_SIGINFO};
    sigaction(SIGTRAP, &act, NULL);
    arm();
    for (char asked; read(asks, &asked, 1) == 1;) {
        int said[2] = {fork(), 0};
        if (!said[0]) {
            close(asks), close(tells);
            if (asked == 'a') arm();
            return;
        }
        if (said[0] < 0 || write(tells, said, 4) != 4 || waitpid(said[0], said + 1, 0) < 0) abort();
        for (uint32_t at = 0; at < count; ++at) if (reached[at]) base[places[at]] = old[at];
        if (write(tells, said + 1, 4) != 4) abort();
    }
    _exit(0);
}
"""


def blocks_of(program):
    """Where the blocks of a program begin: its functions, what is jumped to, and what stands behind a jump."""
    listed = subprocess.run(["objdump", "-d", "--no-show-raw-insn", program], capture_output=True, text=True, check=True).stdout
    code, heads, behind_jump = set(), set(), True
    for line in listed.splitlines():
        found = re.match(r" +([0-9a-f]+):\t(\S+) *([0-9a-f]+)?", line)
        if not found:
            behind_jump = True  # the name of a function or a section
            continue
        place, jump = int(found[1], 16), found[2].startswith("j")
        code.add(place)
        if behind_jump:
            heads.add(place)
        if jump and found[3]:
            heads.add(int(found[3], 16))
        behind_jump = jump
    return sorted(heads & code)


class Runs:
    """Runs of a command, whose standard input has ended."""

    def __init__(self, command, library, blocks, beside):
        self.path = str(beside) + ".blocks"
        head = b"".join(number.to_bytes(4, "little") for number in [len(blocks), *blocks])
        with open(self.path, "wb") as file:
            file.write(head + bytes(len(blocks)))
        self.file = open(self.path, "r+b")
        self.shared, self.head = mmap.mmap(self.file.fileno(), 0), len(head)
        self.out, self.told = (open(f"{beside}.{name}", "w+b", buffering=0) for name in ("out", "told"))
        (asks, self.asks), (self.tells, tells) = os.pipe(), os.pipe()
        words = dict(os.environ, LD_PRELOAD=library, BLOCKS=self.path, ASKS=str(asks), TELLS=str(tells))
        self.process = subprocess.Popen(
            command, stdin=subprocess.PIPE, stdout=self.out, stderr=self.told, env=words, pass_fds=(asks, tells)
        )
        self.process.stdin.close()
        os.close(asks), os.close(tells)

    def run(self, most_seconds, work=None, is_whole=False):
        """One run, beside which this work is done: its status, what it printed and told, and which blocks it reached that no run did, or
        all. One that takes longer is killed."""
        for file in (self.out, self.told):
            os.ftruncate(file.fileno(), 0)
            os.lseek(file.fileno(), 0, os.SEEK_SET)
        os.write(self.asks, b"a" if is_whole else b"r")
        number = int.from_bytes(os.read(self.tells, 4), "little")
        try:
            if work:
                work(self)
        finally:
            if not select.select([self.tells], [], [], most_seconds)[0]:
                os.kill(number, signal.SIGKILL)
            status = int.from_bytes(os.read(self.tells, 4), "little")
        reached, at = [], self.shared.find(b"\1", self.head)
        while at >= 0:
            reached.append(at - self.head)
            self.shared[at] = 0
            at = self.shared.find(b"\1", at + 1)
        return os.waitstatus_to_exitcode(status), self.printed(), os.pread(self.told.fileno(), 2**20, 0), reached

    def printed(self):
        return os.pread(self.out.fileno(), 2**24, 0)

    def end(self):
        os.close(self.asks)
        self.process.wait()
        os.close(self.tells)
        for file in (self.file, self.out, self.told):
            file.close()
