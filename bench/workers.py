#!/usr/bin/env python3
"""Figures of `swarm serve` with one worker and with two.

Usage: bench/workers.py [--rounds N] [--requests N] [--before PROGRAM] [--write] [--profile] [PROGRAM]

The server has two processors, and each client one of the others. A client sends so many requests of a kind
(40000 by default, 65536 at most) over one connection, 32 in each write; each figure is the requests of all
clients per second, the best of so many rounds (5 by default) in which the servers take turns:

- one worker and one client;
- two workers and two clients, each with a pool of its own;
- two workers and two clients with one pool.

The kinds are CountTasks, NewTask and claim, of which there are 2000 for each client. The server is started
anew for each figure, and the tasks and bots that a claim needs are made before it. --before names an earlier
program, which is asked in turn with this one, by one worker.

The cost of a turn that nobody waits for is that of `turn_cost` (crates/turn_cost), the median of five runs of
10000000 turns, where that program was built by `rt run` in its folder.

--write puts the table into docs/performance.md, and tells below it what is less than is wanted. --profile
tells in what share of their time two workers of one pool do what, by perf.

The program is built by the first `./swarm session`.
"""
import argparse
import multiprocessing
import os
import re
import shutil
import signal
import socket
import statistics
import subprocess
import sys
import tempfile
import time

sys.dont_write_bytecode = True
from serve import HOST, Server, claim, free_port, handshake, write_table
from session import HERE

BEGIN, END = "<!-- The table that bench/workers.py writes -->", "<!-- The end of the table of bench/workers.py -->"
TURN_COST = os.path.join(HERE, "crates", "turn_cost", "out", "turn_cost")
POOLS = ("red", "blue")
IN_A_WRITE = 32
TURNS, TURN_RUNS, MOST_TURN = 10000000, 5, 200
# The claims of each client, which are one for each of its bots. A pool has 4096 bots at most.
CLAIMS = 2000
# What a connection has at most.
MOST_REQUESTS = 65536
SETTINGS = "".join(
    f"""[[pools]]
name = "{pool}"
[[pools.grants]]
caller = "*"
permissions = ["swarming.pools.createTask", "swarming.pools.listTasks", "profile.pools.runBot"]
"""
    for pool in POOLS
)
# What is compared: the number of workers, and the pool of each client.
WAYS = {"one worker": (1, POOLS[:1]), "two workers, two pools": (2, POOLS), "two workers, one pool": (2, POOLS[:1] * 2)}
KINDS = ("CountTasks", "NewTask", "claim")
# The least that two workers come to, in times of one.
WANTED = {
    ("CountTasks", "two workers, two pools"): 1.8,
    ("NewTask", "two workers, two pools"): 1.6,
    ("claim", "two workers, two pools"): 1.6,
    ("CountTasks", "two workers, one pool"): 1.2,
    ("NewTask", "two workers, one pool"): 1.2,
    ("claim", "two workers, one pool"): 1.2,
}
# Seconds of a server's work that are sampled at least, for each kind.
PROFILED = 3
STATUS, GOOD = b"HTTP/1.1 ", b"HTTP/1.1 200 "


def call(name, body):
    return b"POST /prpc/swarming.v2.Tasks/%s HTTP/1.1\r\nHost: lab\r\nX-Swarming-Caller: ana\r\nContent-Length: %d\r\n\r\n%s" % (name, len(body), body)


def in_pool(text, pool):
    """A bot's request of serve.py, to another pool."""
    head, _, body = text.partition(b"\r\n\r\n")
    body = body.replace(b'"default"', b'"%s"' % pool)
    return re.sub(rb"Content-Length: [0-9]+", b"Content-Length: %d" % len(body), head) + b"\r\n\r\n" + body


def requests_of(kind, client, pool, count):
    """The requests of a client that are timed, and those that have to come before."""
    pool = pool.encode()
    new = call(
        b"NewTask",
        b'{"name":"n","task_slices":[{"expiration_secs":604800,"wait_for_capacity":true,"properties":{"command":["true"],"dimensions":[{"key":"pool","value":"%s"}]}}]}' % pool,
    )
    if kind == "CountTasks":
        return [call(b"CountTasks", b'{"pool":"%s","state":"ALL"}' % pool)] * count, []
    if kind == "NewTask":
        return [new] * count, []
    bots = [b"%d-%d" % (client, place) for place in range(count)]
    before = [in_pool(handshake(bot), pool) for bot in bots] + [new] * count
    return [in_pool(claim(bot), pool) for bot in bots], before


def send(link, requests):
    """Sends requests, so many in a write, and waits for the replies to each write."""
    for at in range(0, len(requests), IN_A_WRITE):
        texts = requests[at : at + IN_A_WRITE]
        link.sendall(b"".join(texts))
        replies, came = b"", 0
        # (a body ends where the next head begins, or with all that came)
        while came < len(texts) or not replies.endswith(b"}"):
            more = link.recv(1 << 20)
            if not more:
                sys.exit("a connection has ended")
            replies += more
            came = replies.count(STATUS)
        if replies.count(GOOD) != len(texts) or b'"cmd":"skip"' in replies:
            sys.exit("a request was not answered well: %r" % replies)


def drive(port, kind, client, pool, count, processor, ready, clients, times):
    """Sends a client's requests, once all clients are ready: when the timed ones began and ended."""
    os.sched_setaffinity(0, {processor})
    timed, before = requests_of(kind, client, pool, count)
    with socket.create_connection((HOST, port), 60) as link:
        link.setsockopt(socket.IPPROTO_TCP, socket.TCP_NODELAY, 1)
        send(link, before)
        with ready.get_lock():
            ready.value += 1
        # (each has a processor of its own, so it needn't sleep, and they begin within microseconds)
        while ready.value < clients:
            pass
        begun = time.monotonic()
        send(link, timed)
        times.put((begun, time.monotonic()))


class Bench:
    def __init__(self, words, folder):
        self.words = words
        self.settings = os.path.join(folder, "settings.toml")
        with open(self.settings, "w", encoding="utf-8") as it:
            it.write(SETTINGS)
        found = sorted(os.sched_getaffinity(0))
        if len(found) < 4:
            sys.exit("four processors are wanted: two for the server, and one for each of two clients")
        self.of_server, self.of_clients = set(found[-2:]), found[:2]
        self.best = {}

    def start(self, program, workers):
        port = free_port()
        words = [program, "serve", "--address", f"{HOST}:{port}", "--settings", self.settings]
        words += ["--workers", str(workers)] if workers > 1 else []
        return Server(words, port, self.of_server)

    def rate(self, server, kind, pools):
        """The requests per second of all clients, one for each of the pools named."""
        count = min(CLAIMS, self.words.requests) if kind == "claim" else self.words.requests
        ready, times = multiprocessing.Value("i", 0), multiprocessing.Queue()
        clients = [
            multiprocessing.Process(target=drive, args=(server.port, kind, place, pool, count, self.of_clients[place], ready, len(pools), times), daemon=True)
            for place, pool in enumerate(pools)
        ]
        for it in clients:
            it.start()
        # (one that fails leaves the others waiting)
        while any(it.is_alive() for it in clients) and not any(it.exitcode for it in clients):
            time.sleep(0.01)
        if any(it.exitcode for it in clients):
            sys.exit(f"{kind}: a client failed")
        told = [times.get(timeout=10) for _ in clients]
        return len(pools) * count / (max(end for _, end in told) - min(begun for begun, _ in told))

    def keep(self, program, kind, way, workers, pools):
        server = self.start(program, workers)
        self.best[kind, way] = max(self.best.get((kind, way), 0), self.rate(server, kind, pools))
        server.end()

    def run(self):
        for place in range(self.words.rounds):
            for kind in KINDS:
                for way, (workers, pools) in WAYS.items():
                    self.keep(self.words.program, kind, way, workers, pools)
                if self.words.before:
                    self.keep(self.words.before, kind, "one worker before", 1, POOLS[:1])
            print(f"round {place + 1} of {self.words.rounds} is done", file=sys.stderr, flush=True)

    def table(self):
        """The figures as a table, and what is less than is wanted."""
        ways = [*WAYS, *(["one worker before"] if self.words.before else [])]
        rows = ["| What | " + " | ".join(f"{way}, requests/s" + (" (times one worker)" if way != "one worker" else "") for way in ways) + " |"]
        rows.append("|---|" + "---|" * len(ways))
        misses = []
        for kind in KINDS:
            cells = [kind]
            for way in ways:
                rate = self.best[kind, way]
                times = rate / self.best[kind, "one worker"]
                cells.append(f"{rate:.0f}" + (f" ({times:.2f})" if way != "one worker" else ""))
                if times < WANTED.get((kind, way), 0):
                    misses.append(f"- {kind}, {way}: {times:.2f} times one worker; at least {WANTED[kind, way]} times is wanted.")
            rows.append("| " + " | ".join(cells) + " |")
        return "\n".join(rows) + "\n", misses


def turn_cost():
    """The nanoseconds of a turn, the median of some runs; none where the program isn't built."""
    if not os.access(TURN_COST, os.X_OK):
        return None
    figures = []
    for _ in range(TURN_RUNS):
        done = subprocess.run([TURN_COST, str(TURNS)], capture_output=True, text=True, check=True)
        figures.append(int(done.stdout) / TURNS)
    return statistics.median(figures)


def whole_text(bench):
    """The table, the cost of a turn, and what is less than is wanted."""
    (table, misses), cost = bench.table(), turn_cost()
    if cost is None:
        table += f"\nThe cost of a turn was not measured: {os.path.relpath(TURN_COST, HERE)} is not there.\n"
    else:
        table += f"\nA turn that nobody waits for takes {cost:.0f} ns.\n"
        if cost > MOST_TURN:
            misses.append(f"- A turn takes {cost:.0f} ns; at most {MOST_TURN} ns is wanted.")
    return table + ("\nLess than is wanted:\n\n" + "\n".join(misses) + "\n" if misses else "")


def profile(bench, folder):
    """In what share of their time two workers of one pool do what, for each kind of request."""
    way, path = "two workers, one pool", os.path.join(folder, "perf.data")
    workers, pools = WAYS[way]
    for kind in KINDS:
        counts, end = {}, time.monotonic() + PROFILED
        while time.monotonic() < end:
            server = bench.start(bench.words.program, workers)
            words = ["perf", "record", "-q", "-F", "2999", "-o", path, "-p", str(server.process.pid)]
            tracer = subprocess.Popen(words, stdout=subprocess.DEVNULL, stderr=subprocess.DEVNULL)
            time.sleep(0.5)
            bench.rate(server, kind, pools)
            tracer.send_signal(signal.SIGINT)
            tracer.wait(20)
            server.end()
            told = subprocess.run(["perf", "script", "-i", path, "-F", "ip,sym"], capture_output=True, text=True, check=False)
            # (the first line of a sample, with the address and the name of the function)
            for symbol in re.findall(r"^\s*[0-9a-f]+ (.+)$", told.stdout, re.M):
                counts[symbol] = counts.get(symbol, 0) + 1
        total = sum(counts.values())
        print(f"{kind}, {way}, {total} samples:")
        for symbol, count in sorted(counts.items(), key=lambda it: -it[1])[:25]:
            print(f"{100 * count / total:6.1f} %  {symbol}")


def main():
    parser = argparse.ArgumentParser(usage="bench/workers.py [--rounds N] [--requests N] [--before PROGRAM] [--write] [--profile] [PROGRAM]")
    parser.add_argument("--rounds", type=int, default=5, metavar="N")
    parser.add_argument("--requests", type=int, default=40000, metavar="N")
    parser.add_argument("--before", metavar="PROGRAM")
    parser.add_argument("--write", action="store_true")
    parser.add_argument("--profile", action="store_true")
    parser.add_argument("program", nargs="?", default=os.path.join(HERE, "crates/swarm/out/swarm"))
    words = parser.parse_args()
    for program in (words.program, words.before):
        if program and not os.access(program, os.X_OK):
            sys.exit(f"{program} is not there: build it by ./swarm session")
    if not 1 <= words.requests <= MOST_REQUESTS or words.rounds < 1:
        sys.exit(f"--requests is 1 to {MOST_REQUESTS}, and --rounds 1 or more")
    if words.profile and not shutil.which("perf"):
        sys.exit("perf isn't installed")
    with tempfile.TemporaryDirectory() as folder:
        bench = Bench(words, folder)
        if words.profile:
            return profile(bench, folder)
        bench.run()
    text = whole_text(bench)
    print(text, end="")
    if words.write:
        write_table(text, BEGIN, END)
    return None


if __name__ == "__main__":
    main()
