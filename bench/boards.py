#!/usr/bin/env python3
"""Figures of a board of `swarm serve`, beside those of a server without boards.

Usage: bench/boards.py [--rounds N] [--seconds N] [--write] [PROGRAM]

A server with one worker, one board and a post each second has two processors, and who asks has the others.
What is compared is asked in turn, in each of so many rounds (5 by default), and each figure is the best of
its rounds.

- CountTasks, one request after the other on one connection that is kept (by Debian's wrk, for so many seconds,
  3 by default): of a server without boards and with one processor, whose pool is empty, as bench/serve.py has
  it; of a board whose pool has 60000 tasks; of that board while its worker is sent a blob of 16 MiB and
  asked for it, over and over, each time within a turn of the pool; and of it while the worker of another
  server on the same processors is, which takes as much of the machine and no turn of the pool.
- Polls of 1000 bots, each of which adds an entry, in a pool of 60000 tasks, over one connection at a time, 32 in
  each write: of a worker without boards, of one beside a board with a post each hour, and of one beside a
  board with a post each second, which has more to copy than it may each time.
- The greatest memory of a server with the largest pool that boards show, without boards and with one, once all
  is posted: 65536 tasks and 4096 bots whose texts have 33554432 bytes together, half of
  them the dimensions of the bots. It is measured once.

--write puts the tables into docs/performance.md, and tells below them what is less than is wanted. It needs
the package wrk.

The program is built by the first `./swarm session`.
"""
import argparse
import hashlib
import multiprocessing
import os
import re
import shutil
import socket
import sys
import tempfile
import time

sys.dont_write_bytecode = True
import serve
from serve import BOTS, HOST, Server, bot_request, free_port, handshake, poll, write_table
from session import HERE
from workers import call, send

BEGIN, END = "<!-- The tables that bench/boards.py writes -->", "<!-- The end of the tables of bench/boards.py -->"
TASKS = 60000
# The further dimensions of each bot of the largest pool, and the bytes of the value of each: half of the texts.
VALUES, VALUE = 36, 110
# The polls of a round, over so many connections of so many each.
POLLS, LINKS = 64000, 2
BLOB = hashlib.sha256(b"board").digest() * 524288
# The largest pool that boards show. Of an empty store the units aren't used.
MOST = {"most_tasks": 65536, "most_bots": 4096, "most_entries": 1048576, "most_weight": 33554432}
MOST_MEMORY = 450
SETTINGS = (
    '[[pools]]\nname = "default"\n'
    + "".join(f"{key} = {value}\n" for key, value in MOST.items())
    + 'grants = [{ caller = "*", permissions = ["swarming.pools.createTask", "swarming.pools.listTasks", "profile.pools.runBot", "profile.pools.useBlobs"] }]\n'
)
IDLE, BOARD, BESIDE = "a server without boards", "a board", "a board while its worker has blobs of 16 MiB"
ELSEWHERE = "a board while the worker of another server has them"
ALONE, HOURLY, EACH_SECOND = "no boards", "a post each hour", "a post each second"
# The least of a board, in times of the idle server; of a board beside blobs, in times of that without; and of
# a worker beside posts, in times of one without boards.
WANTED = {BOARD: 0.9, BESIDE: 1.0, EACH_SECOND: 0.9}
NEW_TASK = call(
    b"NewTask",
    b'{"name":"n","task_slices":[{"expiration_secs":604800,"wait_for_capacity":true,"properties":{"command":["true"],"dimensions":[{"key":"pool","value":"default"}]}}]}',
)
COUNT = call(b"CountTasks", b'{"pool":"default"}')


def connect(port):
    link = socket.create_connection((HOST, port), 60)
    link.setsockopt(socket.IPPROTO_TCP, socket.TCP_NODELAY, 1)
    return link


def ask(link, request):
    """The reply to a request: its front, and its size."""
    link.sendall(request)
    reply = bytearray()
    while True:
        more = link.recv(1 << 20)
        if not more:
            sys.exit(f"a connection has ended: {bytes(reply[:200])}")
        reply += more
        end = reply.find(b"\r\n\r\n", 0, 16384)
        size = re.search(rb"\r\nContent-Length: ([0-9]+)", reply[:end]) if end >= 0 else None
        if size and len(reply) >= end + 4 + int(size[1]):
            break
    if not reply.startswith(b"HTTP/1.1 200 "):
        sys.exit(f"{request[:200]} was answered {bytes(reply[:200])}")
    return int(re.search(rb"\r\nX-Swarming-Front: ([0-9]+)", reply[:end])[1]), len(reply)


def fill(port, requests):
    """Sends requests, no more over one connection than it may have."""
    for at in range(0, len(requests), 60000):
        with connect(port) as link:
            send(link, requests[at : at + 60000])


def front_of(port):
    with connect(port) as link:
        return ask(link, COUNT)[0]


def has_blobs(port, processors, done, stop):
    """Sends a blob to a worker and asks for it, over and over, until it is to stop."""
    os.sched_setaffinity(0, processors)
    path = b"/blobs/default/" + hashlib.sha256(BLOB).hexdigest().encode()
    head = b"%s %s HTTP/1.1\r\nHost: lab\r\nX-Swarming-Caller: ana\r\nContent-Length: %d\r\n\r\n"
    put, get = head % (b"PUT", path, len(BLOB)) + BLOB, head % (b"GET", path, 0)
    with connect(port) as link:
        while not stop.is_set():
            ask(link, put)
            if ask(link, get)[1] < len(BLOB):
                sys.exit("a blob did not come back")
            done.value += 1


def send_polls(port, processors, times):
    """The seconds that polls of all bots take, one connection after the other."""
    os.sched_setaffinity(0, processors)
    polls = [poll(BOTS[at % len(BOTS)]) for at in range(POLLS)]
    begun = time.monotonic()
    for _ in range(LINKS):
        with connect(port) as link:
            send(link, polls)
    times.put(time.monotonic() - begun)


def large_tasks():
    """The requests of a pool whose bots and tasks are as many and as large as boards show them."""
    bots = [b"b%d" % number for number in range(1, MOST["most_bots"] + 1)]
    has = b"".join(b',{"key":"k%02d","value":["%s"]}' % (at, b"v" * VALUE) for at in range(VALUES))
    # (a bot weighs its name, its session and its dimensions, one of which has the name again)
    weight = sum(2 * len(bot) + len("1" "pool" "default" "id") + VALUES * (3 + VALUE) for bot in bots)
    each, more = divmod(MOST["most_weight"] - weight, MOST["most_tasks"])
    # (a task weighs its caller, its command and its dimensions)
    rest = each - len("ana" "pool" "default")
    body = b'{"task_slices":[{"expiration_secs":604800,"wait_for_capacity":true,"properties":{"command":["%s"],"dimensions":[{"key":"pool","value":"default"}]}}]}'
    tasks = [call(b"NewTask", body % (b"x" * (rest + (number < more)))) for number in range(MOST["most_tasks"])]
    comes = b'{"bot_id":"%s","session":"1","dimensions":[{"key":"pool","value":["default"]},{"key":"id","value":["%s"]}%s]}'
    return [bot_request(b"/bot/handshake", comes % (bot, bot, has)) for bot in bots] + tasks


class Bench(serve.Bench):
    def __init__(self, words, folder):
        words.before = None
        super().__init__(words, folder)
        found = sorted(os.sched_getaffinity(0))
        if len(found) < 4:
            sys.exit("four processors are wanted: two for the server, and two for who asks")
        self.of_server, self.of_idle, self.of_clients = set(found[-2:]), {found[-1]}, [{found[0]}, set(found[1:-2])]
        self.of_client = self.of_clients[0]
        self.settings = os.path.join(folder, "settings.toml")
        with open(self.settings, "w", encoding="utf-8") as it:
            it.write(SETTINGS)
        self.blobs = 0

    def start(self, processors, every=None):
        """A server, and the port of its board where it has one."""
        port, board_port = free_port(), free_port() if every else None
        words = [self.program, "serve", "--address", f"{HOST}:{port}", "--settings", self.settings]
        words += ["--boards", "1", "--board-address", f"{HOST}:{board_port}", "--board-every", str(every)] if every else []
        return Server(words, port, processors), board_port

    def wait_posted(self, server, board_port):
        """Waits until all entries are posted."""
        front = front_of(server.port)
        while front_of(board_port) < front:
            time.sleep(0.2)

    def measure_board(self, idle, other, server, board_port):
        self.keep(IDLE, "", self.wrk(idle.port, 1, 1, False))
        self.keep(BOARD, "", self.wrk(board_port, 1, 1, False))
        self.blobs = max(self.blobs, self.measure_beside(BESIDE, server.port, board_port))
        self.measure_beside(ELSEWHERE, other.port, board_port)

    def measure_beside(self, name, port, board_port):
        """A board, while the worker at the port has blobs. It answers how often it had one."""
        done, stop = multiprocessing.Value("i", 0), multiprocessing.Event()
        client = multiprocessing.Process(target=has_blobs, args=(port, self.of_clients[1], done, stop), daemon=True)
        client.start()
        while not done.value and client.is_alive():
            time.sleep(0.01)
        before = done.value
        self.keep(name, "", self.wrk(board_port, 1, 1, False))
        times = done.value - before
        stop.set()
        client.join(20)
        if client.exitcode:
            sys.exit("the client of blobs failed")
        return times

    def measure_worker(self):
        for way, every in ((ALONE, None), (HOURLY, 3600), (EACH_SECOND, 1)):
            server, _ = self.start(self.of_server, every)
            fill(server.port, [handshake(bot) for bot in BOTS] + [NEW_TASK] * TASKS)
            times = multiprocessing.Queue()
            client = multiprocessing.Process(target=send_polls, args=(server.port, self.of_clients[0], times), daemon=True)
            client.start()
            client.join(120)
            if client.exitcode or client.is_alive():
                sys.exit("the client of polls failed")
            self.keep(way, "", (POLLS * LINKS / times.get(timeout=10), 0, 0))
            server.end()

    def run(self):
        idle, _ = self.start(self.of_idle)
        other, _ = self.start(self.of_server)
        server, board_port = self.start(self.of_server, 1)
        fill(server.port, [NEW_TASK] * TASKS)
        self.wait_posted(server, board_port)
        for place in range(self.rounds):
            self.measure_board(idle, other, server, board_port)
            print(f"round {place + 1} of {self.rounds} of boards is done", file=sys.stderr, flush=True)
        for it in (idle, other, server):
            it.end()
        for place in range(self.rounds):
            self.measure_worker()
            print(f"round {place + 1} of {self.rounds} of workers is done", file=sys.stderr, flush=True)

    def memory(self):
        """The greatest memory in MiB of a server with the largest pool, without boards and with one."""
        requests, figures = large_tasks(), []
        for every in (None, 1):
            server, board_port = self.start(self.of_server, every)
            fill(server.port, requests)
            if every:
                self.wait_posted(server, board_port)
            # (it was full)
            with connect(server.port) as link:
                link.sendall(NEW_TASK)
                refused = link.recv(65536)
            if b'"code":"log_full"' not in refused and b'"code":"pool_tasks_full"' not in refused:
                sys.exit(f"the pool has room: {refused}")
            with open(f"/proc/{server.process.pid}/status", encoding="ascii") as it:
                figures.append(int(re.search(r"^VmHWM:\s+(\d+) kB$", it.read(), re.M)[1]) / 1024)
            server.end()
        return figures

    def text(self, memory):
        """The tables, and what is less than is wanted."""
        misses, best = [], {name: it for (name, _), it in self.best.items()}

        def times(name, other):
            came, wanted = best[name][0] / best[other][0], WANTED.get(name)
            if wanted and round(came, 2) < wanted:
                misses.append(f"- {name}: {came:.2f} times {other}; at least {wanted} times is wanted.")
            return f"{came:.2f}" + (f" (at least {wanted})" if wanted else "")

        rows = ["| CountTasks of | requests/s | half within, ms | 99 of 100 within, ms | times |", "|---|---|---|---|---|"]
        for name, other in ((IDLE, None), (BOARD, IDLE), (BESIDE, BOARD), (ELSEWHERE, BOARD)):
            rate, half, most = best[name]
            rows.append(f"| {name} | {rate:.0f} | {half:.3f} | {most:.3f} | " + (f"{times(name, other)} of {other}" if other else "") + " |")
        rows += ["", f"While the board was asked for {self.seconds} seconds its worker took the blob and gave it {self.blobs} times.", ""]
        rows += ["| Polls of one worker beside | requests/s | times no boards |", "|---|---|---|"]
        rows += [f"| {name} | {best[name][0]:.0f} | {times(name, ALONE) if name != ALONE else ''} |" for name in (ALONE, HOURLY, EACH_SECOND)]
        more = memory[1] - memory[0]
        rows += ["", f"With the largest pool that boards show a server takes {memory[0]:.0f} MiB without boards and {memory[1]:.0f} with one: {more:.0f} MiB more (below {MOST_MEMORY})."]
        if more >= MOST_MEMORY:
            misses.append(f"- Copies of the largest pool take {more:.0f} MiB; less than {MOST_MEMORY} are wanted.")
        return "\n".join(rows) + "\n" + ("\nLess than is wanted:\n\n" + "\n".join(misses) + "\n" if misses else "")


def main():
    parser = argparse.ArgumentParser(usage="bench/boards.py [--rounds N] [--seconds N] [--write] [PROGRAM]")
    parser.add_argument("--rounds", type=int, default=5, metavar="N")
    parser.add_argument("--seconds", type=int, default=3, metavar="N")
    parser.add_argument("--write", action="store_true")
    parser.add_argument("program", nargs="?", default=os.path.join(HERE, "crates/swarm/out/swarm"))
    words = parser.parse_args()
    if not os.access(words.program, os.X_OK):
        sys.exit(f"{words.program} is not there: build it by ./swarm session")
    if words.rounds < 1 or words.seconds < 1:
        sys.exit("--rounds and --seconds are 1 or more")
    shutil.which("wrk") or sys.exit("wrk isn't installed")
    with tempfile.TemporaryDirectory() as folder:
        bench = Bench(words, folder)
        os.sched_setaffinity(0, set().union(*bench.of_clients))
        bench.run()
        text = bench.text(bench.memory())
    print(text, end="")
    if words.write:
        write_table(text, BEGIN, END)
    return None


if __name__ == "__main__":
    main()
