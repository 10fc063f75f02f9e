#!/usr/bin/env python3
"""Times `rqm serve` beside beanstalkd and Redis, by turns on one disk, and prints a table.

    python3 bench/peers.py [--program PROGRAM] [--folder FOLDER] [--rounds N] [--connections 1,8,64] [--workers W,W..]

All are told to answer only what is durable: beanstalkd by `-f 0`, Redis by `appendfsync always`. Redis is asked by RPUSH and LPOP
alone, and again within MULTI and EXEC, which is what a transaction costs there. A send has 100 bytes. Each number is the middle of
the rounds. Processor time is the server's, of all its threads. Peers that are not there are installed by their package names,
where this runs as root. `--workers` serves a store by each of these numbers of workers.
"""
import argparse
import os
import pathlib
import platform
import re
import resource
import shutil
import socket
import statistics
import subprocess
import sys
import tempfile
import time

from program import TOP

PACKAGES = {"beanstalkd": "beanstalkd", "redis-server": "redis-server"}

# How many transactions a run has, by the number of connections.
TRANSACTIONS = {1: 1_000, 8: 5_000}
MANY = 20_000

BODY = 100

# How many connections stand open while nothing is asked, and for how many seconds that is watched.
IDLE = 1_000
IDLE_SECONDS = 5

LINE = re.compile(r"(\d+) /s, p50 ([\d.]+) ms, p99 ([\d.]+) ms, max ([\d.]+) ms, refused (\d+), empty (\d+)")


class Server:
    """A server that runs, and the kinds of load that it is given, each under a name."""

    def __init__(self, command, port, kinds):
        self.process = subprocess.Popen(command, stdout=subprocess.PIPE, stderr=subprocess.DEVNULL)
        self.port, self.kinds = port, kinds

    def seconds(self):
        """Processor seconds of all its threads so far."""
        tasks = pathlib.Path(f"/proc/{self.process.pid}/task").glob("*/schedstat")
        return sum(int(task.read_text().split()[0]) for task in tasks) / 1e9

    def resident(self):
        """Bytes of memory."""
        status = pathlib.Path(f"/proc/{self.process.pid}/status").read_text()
        return int(re.search(r"VmRSS:\s+(\d+)", status)[1]) * 1024

    def stop(self):
        self.process.terminate()
        self.process.wait()


def rqm(program, folder, workers):
    """Over a store all of whose pages are in memory."""
    directory, cells = 64, 4000
    words = [program, "format", folder, "--directory", str(directory), "--cells", str(cells)]
    subprocess.run(words, check=True, stdout=subprocess.DEVNULL)
    words = [program, "serve", folder, "--port", "0", "--workers", str(workers), "--frames", str(directory + cells)]
    server = Server(words, 0, {f"rqm, workers {workers}": "rqm"})
    line = server.process.stdout.readline().decode()
    listening = re.fullmatch(r"listening 127\.0\.0\.1:(\d+)\n", line)
    if not listening:
        sys.exit(f"{program}: {line}")
    server.port = int(listening[1])
    return server


def beanstalkd(folder):
    port = free_port()
    words = ["beanstalkd", "-l", "127.0.0.1", "-p", str(port), "-b", folder, "-f", "0"]
    return Server(words, port, {"beanstalkd": "beanstalkd"})


def redis(folder):
    port = free_port()
    durable = ["--appendonly", "yes", "--appendfsync", "always", "--save", ""]
    words = ["redis-server", "--port", str(port), "--bind", "127.0.0.1", "--dir", folder, *durable]
    return Server(words, port, {"Redis": "redis", "Redis, MULTI and EXEC": "redis-multi"})


def free_port():
    with socket.create_server(("127.0.0.1", 0)) as taken:
        return taken.getsockname()[1]


def wait_until_up(server):
    for _ in range(200):
        try:
            socket.create_connection(("127.0.0.1", server.port)).close()
            return
        except OSError:
            time.sleep(0.05)
    sys.exit(f"{server.process.args[0]} does not listen")


def installed():
    missing = [package for command, package in PACKAGES.items() if not shutil.which(command)]
    if not missing:
        return
    if os.geteuid() != 0:
        sys.exit(f"to be installed first: {' '.join(missing)}")
    for words in (["update"], ["install", "-y", *missing]):
        subprocess.run(["apt-get", *words], check=True, stdout=subprocess.DEVNULL)


def run(load, server, kind, turn, connections):
    """Transactions a second, p50 and p99 in milliseconds, processor microseconds a transaction, how many were refused, and how many
    found nothing."""
    count = TRANSACTIONS.get(connections, MANY)
    words = [load, kind, server.port, turn, connections, count, BODY]
    before = server.seconds()
    ended = subprocess.run(list(map(str, words)), capture_output=True, text=True)
    spent = server.seconds() - before
    told = LINE.search(ended.stdout)
    if not told:
        sys.exit(f"{' '.join(map(str, words))}: {ended.stdout}{ended.stderr}")
    rate, p50, p99, _, refused, empty = map(float, told.groups())
    return rate, p50, p99, spent / count * 1e6, refused, empty


def by_turns(load, servers, rounds, connections):
    """What each round gave, by connections, turn and name."""
    given = {}
    for number in range(rounds):
        for count in connections:
            for server in servers[number % len(servers) :] + servers[: number % len(servers)]:
                for name, kind in server.kinds.items():
                    for turn in ("send", "recv"):
                        given.setdefault((count, turn, name), []).append(run(load, server, kind, turn, count))
        print(f"round {number + 1} of {rounds}, load {os.getloadavg()[0]:.1f}", file=sys.stderr)
    return given


def print_table(given):
    print(f"{'connections':>11}  {'':4}  {'server':22} {'/s':>8} {'p50 ms':>8} {'p99 ms':>8} {'processor µs':>13} {'refused':>8} {'empty':>6}")
    for (count, turn, name), rounds in given.items():
        rate, p50, p99, spent, _, _ = (statistics.median(column) for column in zip(*rounds))
        refused, empty = (sum(column) for column in list(zip(*rounds))[4:])
        print(f"{count:11}  {turn:4}  {name:22} {rate:8.0f} {p50:8.2f} {p99:8.2f} {spent:13.1f} {refused:8.0f} {empty:6.0f}")


def print_idle(servers):
    for server in servers:
        before = server.resident()
        opened = [socket.create_connection(("127.0.0.1", server.port)) for _ in range(IDLE)]
        time.sleep(2)
        spent, held = server.seconds(), server.resident() - before
        time.sleep(IDLE_SECONDS)
        spent = (server.seconds() - spent) / IDLE_SECONDS
        name = next(iter(server.kinds))
        print(f"{name}: {len(opened)} connections that say nothing, {spent:.2%} of a core, {held / len(opened) / 1024:.1f} KB each")
        for stream in opened:
            stream.close()


def machine():
    model = re.search(r"model name\s*:\s*(.+)", pathlib.Path("/proc/cpuinfo").read_text())
    return f"{os.cpu_count()} cores, {model[1] if model else platform.machine()}, load {os.getloadavg()[0]:.1f}"


def main():
    words = argparse.ArgumentParser(description=__doc__, formatter_class=argparse.RawDescriptionHelpFormatter)
    words.add_argument("--program", default=str(TOP / "crates" / "rqm" / "out" / "rqm"), help="a program that was built elsewhere")
    words.add_argument("--folder", help="where all of them write")
    words.add_argument("--rounds", type=int, default=5)
    words.add_argument("--connections", default="1,8,64")
    words.add_argument("--workers", default="1")
    chosen = words.parse_args()
    installed()
    connections = [int(count) for count in chosen.connections.split(",")]
    # the limit is the server's as well
    _, most = resource.getrlimit(resource.RLIMIT_NOFILE)
    resource.setrlimit(resource.RLIMIT_NOFILE, (most, most))
    with tempfile.TemporaryDirectory(dir=chosen.folder) as folder:
        load = os.path.join(folder, "load")
        subprocess.run(["cc", "-O2", "-o", load, str(TOP / "bench" / "load.c")], check=True)

        def own(name):
            path = os.path.join(folder, name)
            os.mkdir(path)
            return path

        servers = [rqm(chosen.program, own(f"rqm-{workers}"), int(workers)) for workers in chosen.workers.split(",")]
        servers += [beanstalkd(own("beanstalkd")), redis(own("redis"))]
        try:
            for server in servers:
                wait_until_up(server)
            print(machine())
            print_table(by_turns(load, servers, chosen.rounds, connections))
            print_idle(servers)
        finally:
            for server in servers:
                server.stop()


if __name__ == "__main__":
    main()
