#!/usr/bin/env python3
"""Figures of a pool among few and among many tasks, bots and blobs, and of claims beside PostgreSQL.

Usage: bench/pool.py [--rounds N] [--most N] [--quick] [--part NAME].. [--write] [--before OTHER] [--program PATH]

Each figure is the best of so many rounds (5 by default), in which what is compared was measured in turn.
The server runs on a processor of its own, and who asks has the others. All requests of a figure go over
one connection that is kept, 100 to 1000 of them in one write, so a figure is the time from the first byte
that was sent to the last that came, by the number of calls. "Many" is 100000, or as --most says.

- calls: NewTask, poll, claim and report, among few (1000; in 1000 sets 10000) and among many waiting
  tasks of 1, 10 and 1000 sets of dimensions and of four priorities, with 1, 100 and 4000 bots, each of
  which may run all tasks. With one bot a claim and the report behind it are one figure, since the next
  claim needs both.
- connection: the first and the last 1000 of 65000 NewTasks over one connection.
- deadlines: the expiration of a slice, of which one GetResult settles many, among few and many waiting
  tasks. What GetResult takes by itself is subtracted.
- blobs: PutBlob of a new small blob, and the removal of a blob whose life is over, among few and many
  blobs. A life is a minute at least, so this part takes 75 seconds; with --quick nothing is removed.
- holes: PutBlob of a new blob of one unit, and its removal at the end of its life, where every second unit
  of the region is a hole, among few and many of them. The part takes two and a half minutes; with --quick
  it is left out.
- uuids: 10000 NewTasks with uuids that collide under simple hashes, and with random ones, and the same
  requests sent again.
- memory: what the server's resident memory grows by for a waiting task, that of examples/lab.sh with the
  settings of examples/lab.toml. It is measured once.
- claims: claims among more and more tasks of 10 sets, beside Debian's PostgreSQL, which keeps the same
  tasks in an unlogged table with an index by set, priority and number of those that wait. It is asked
  over one connection of its socket, by a prepared statement, as many in one write as take half a second. Two statements are measured: one takes the
  first of all rows in the bot's sets, the other one the first of the first rows of each set. The sets that
  a bot may run are computed beforehand.

--quick measures 2 rounds with many at 10000 and fewer calls, for a trial. --part measures this part alone,
and may be given several times. --write puts all parts into docs/performance.md, and the plot of claims into
docs/claims.svg; without it the plot goes into the folder of temporary files. The part `claims` needs the
package postgresql, which runs as the user postgres where the script runs as root.

With --before OTHER the program OTHER is measured in turn with PROGRAM, a round of each at a time, and each
line has the best of OTHER, the best of PROGRAM, and how many times as long PROGRAM takes. The parts are then
`calls`, `connection` and `deadlines` where no --part is given; `memory` and `claims` are not compared so.

The program is built by the first `./swarm session`.
"""
import argparse
import atexit
import copy
import glob
import hashlib
import heapq
import itertools
import math
import os
import random
import re
import select
import shutil
import signal
import socket
import struct
import subprocess
import sys
import tempfile
import time

sys.dont_write_bytecode = True
from serve import HOST, PAGE, Server, bot_request, free_port, is_whole
from session import HERE, NEW_TASK, request

PLOT = os.path.join(HERE, "docs", "claims.svg")
BEGIN, END = "<!-- The part that bench/pool.py writes -->", "<!-- The end of the part of bench/pool.py -->"
SETTINGS = """[[pools]]
name = "default"
death_timeout_secs = 2592000
blob_life_secs = {life}
store_units = {units}
most_tasks = 262144
most_bots = 4096
most_entries = 4194304
most_weight = 134217728
grants = [{{ caller = "*", permissions = [
    "swarming.pools.createTask", "swarming.pools.listTasks", "profile.pools.runBot", "profile.pools.useBlobs"
] }}]
"""
UNITS, MOST_UNITS = 1048576, 4194304
WEEK = 604800
# The shortest life of a blob.
LIFE = 60
# A connection of the server has at most so many requests, and ends where nothing comes for a second.
MOST_REQUESTS, MOST_SILENCE = 65536, 0.5
STATUS, GOOD = b"HTTP/1.1 ", b"HTTP/1.1 200 OK\r\n"
# How many requests are in one write: those that fill a pool, and those that are measured.
FILLING, BATCH = 1000, 100
FEW, KEYS, PRIORITIES = 1000, 10, 4
SET_COUNTS, BOT_COUNTS = (1, 10, 1000), (1, 100, 4000)
CALLS = ("NewTask", "poll", "claim", "report")
# A connection of claims is measured no longer than this.
LONGEST = 0.5
# Longer than the tasks of one round take to be made, so that no NewTask settles anything.
SLICE_SECS = 4
PAUSE = 2
# What is wanted of the figures: so many times as long at most, bytes at most, and times as many at least.
MOST_CALL, MOST_CONNECTION, MOST_DEADLINE, MOST_BLOB, MOST_HOLE, MOST_UUID, MOST_MEMORY, LEAST_CLAIMS = 2, 1.5, 1.5, 2, 5, 2, 2600, 20
# The task of examples/lab.sh, whose input is a file with this text.
GREETING = b"Hello from the lab.\n"
GREET = (
    b'{"name":"greet","priority":20,"task_slices":[{"expiration_secs":600,"wait_for_capacity":true,"properties":{\n'
    b' "command":["cat","greeting.txt"],\n'
    b' "dimensions":[{"key":"pool","value":"default"},{"key":"os","value":"Linux"}],\n'
    b' "inputs":[{"path":"greeting.txt","digest":"%s","size":%d}]}}]}\n'
)
# Two texts with the same bytes, which the hash `h * FACTOR + byte` doesn't tell apart.
ALIKE = {31: (b"AaBB", b"BBAa"), 33: (b"AbBA", b"BAAb")}
# A reply of PostgreSQL ends so.
READY, UPDATED = b"Z\0\0\0\5I", b"UPDATE 1\0"
TABLE = """CREATE UNLOGGED TABLE {table}(number int PRIMARY KEY, dims int NOT NULL, priority int NOT NULL,
    pending bool NOT NULL, bot text, claim text, properties text NOT NULL);
CREATE INDEX ON {table}(dims, priority, number) WHERE pending"""
INSERT = "INSERT INTO {table} SELECT it, it %% {sets}, it %% {priorities}, true, NULL, NULL, '{properties}' FROM generate_series(%d, %d) AS it"
PROPERTIES = '{"command":["true"],"dimensions":[["k0","v"],["k3","v"],["pool","default"]],"env":[],"caches":[],"inputs":[],"outputs":[]}'
CLAIM = "UPDATE {table} SET pending = false, bot = $1, claim = $2 WHERE number = ({first}) AND pending RETURNING number, properties"
FIRST_OF = {
    "all rows": "SELECT number FROM {table} WHERE pending AND dims = ANY($3::int[]) ORDER BY priority, number LIMIT 1 FOR UPDATE SKIP LOCKED",
    "each set": "SELECT head.number FROM unnest($3::int[]) AS its(dims), LATERAL (SELECT number, priority FROM {table} "
    "WHERE pending AND dims = its.dims ORDER BY priority, number LIMIT 1) AS head ORDER BY head.priority, head.number LIMIT 1",
}


def exchange(link, text, count, mark, is_end):
    """The seconds from the first byte of the text to the end of the last of so many replies, and all of these."""
    left, told, found, at = memoryview(text), bytearray(), 0, 0
    begun = time.perf_counter()
    while found < count or not is_end(told[at - len(mark) :]):
        if left:
            # (a server whose replies aren't read takes no more)
            readable, writable, _ = select.select([link], [link], [], 120)
            if writable:
                left = left[link.send(left, socket.MSG_DONTWAIT) :]
            if not readable:
                continue
        piece = link.recv(1048576)
        if not piece:
            sys.exit("a connection has ended behind %d of %d replies: %r" % (found, count, told[-300:]))
        told += piece
        if more := told.count(mark, at):
            found, at = found + more, told.rfind(mark) + len(mark)
    return time.perf_counter() - begun, bytes(told)


def is_true(_):
    return True


def limited(link):
    """The connection, of which no call waits for more than two minutes."""
    link.setsockopt(socket.SOL_SOCKET, socket.SO_RCVTIMEO, struct.pack("ll", 120, 0))
    return link


def task_of(number, sets, secs, priorities):
    """A NewTask of the set `number % sets`: the pool, and of ten keys those whose bits are in that number."""
    pairs = b"".join(b',{"key":"k%d","value":"v"}' % key for key in range(KEYS) if number % sets >> key & 1)
    body = (
        b'{"priority":%d,"task_slices":[{"expiration_secs":%d,"properties":'
        b'{"command":["true"],"dimensions":[{"key":"pool","value":"default"}%s]}}]}'
    )
    return request(b"NewTask", body % (number % priorities, secs, pairs))


def put(content, caller=b"ana"):
    digest = hashlib.sha256(content).hexdigest().encode()
    return b"PUT /blobs/default/%s HTTP/1.1\r\nX-Swarming-Caller: %s\r\nContent-Length: %d\r\n\r\n%s" % (digest, caller, len(content), content)


def parts_of(items, size):
    return [items[place : place + size] for place in range(0, len(items), size)]


class Pool:
    """A server that was started anew, and a connection to it."""

    def __init__(self, bench, settings=None, sets=1, bots=0, priorities=PRIORITIES):
        self.bench, self.sets, self.priorities = bench, sets, priorities
        self.link, self.asked, self.heard = None, 0, 0
        path = settings or bench.settings(WEEK, UNITS)
        port = free_port()
        self.server = Server([bench.program, "serve", "--settings", path, "--address", f"{HOST}:{port}"], port, bench.of_server)
        self.tasks, self.claims, self.waiting = 0, 0, []
        self.bots = [b"b%d" % bot for bot in range(bots)]
        random.Random(1).shuffle(self.bots)
        self.turn = itertools.cycle(self.bots)
        for some in parts_of(self.bots, FILLING):
            self.ask([bot_request(b"/bot/handshake", b'{"bot_id":"%s","session":"1",%s}' % (bot, self.dimensions(bot))) for bot in some])

    def ask(self, requests):
        """The seconds of these requests in one write, and the replies, which must all be good."""
        if self.link is None or self.asked + len(requests) > MOST_REQUESTS or time.monotonic() > self.heard + MOST_SILENCE:
            if self.link is not None:
                self.link.close()
            self.link, self.asked = limited(socket.create_connection((HOST, self.server.port))), 0
            self.link.setsockopt(socket.IPPROTO_TCP, socket.TCP_NODELAY, 1)
            # (so that the worker has accepted it)
            time.sleep(0.02)
        self.asked += len(requests)
        seconds, told = exchange(self.link, b"".join(requests), len(requests), STATUS, is_whole)
        self.heard = time.monotonic()
        if told.count(GOOD) != len(requests):
            bad = re.search(rb"HTTP/1\.1 (?!200)[^\0]{,600}", told)
            sys.exit("%d of %d requests were answered well: %r" % (told.count(GOOD), len(requests), bad and bad[0]))
        return seconds, told

    def dimensions(self, bot):
        pairs = b"".join(b',{"key":"k%d","value":["v"]}' % key for key in range(KEYS))
        return b'"dimensions":[{"key":"pool","value":["default"]},{"key":"id","value":["%s"]}%s]' % (bot, pairs)

    def new_tasks(self, count, secs=WEEK):
        """The requests of so many new tasks."""
        numbers = range(self.tasks + 1, self.tasks + count + 1)
        self.tasks += count
        if len(self.bots) == 1:
            for number in numbers:
                heapq.heappush(self.waiting, (number % self.priorities, number))
        return [task_of(number, self.sets, secs, self.priorities) for number in numbers]

    def fill(self, count):
        for some in parts_of(range(count), FILLING):
            self.ask(self.new_tasks(len(some)))

    def next_bots(self, count):
        return list(itertools.islice(self.turn, count))

    def polls(self, count):
        return [bot_request(b"/bot/poll", b'{"bot_id":"%s",%s}' % (bot, self.dimensions(bot))) for bot in self.next_bots(count)]

    def claim(self, bot):
        self.claims += 1
        return bot_request(b"/bot/claim", b'{"pool":"default","bot_id":"%s","claim_id":"%d"}' % (bot, self.claims))

    def report(self, bot, run):
        return bot_request(b"/bot/task_update", b'{"bot_id":"%s","task_id":"%s","exit_code":0}' % (bot, run))

    def runs_of(self, told, count):
        runs = re.findall(rb'"run_id":"([0-9a-f]+)"', told)
        if len(runs) != count:
            sys.exit("%d of %d claims were answered a run" % (len(runs), count))
        return runs

    def claim_and_report(self, count):
        """The seconds of so many claims, and of the reports that end their runs. Of one bot both are in the first figure."""
        if len(self.bots) == 1:
            bot, pairs = self.bots[0], []
            for _ in range(count):
                _, number = heapq.heappop(self.waiting)
                pairs += [self.claim(bot), self.report(bot, b"%x1" % number)]
            return sum(self.ask(some)[0] for some in parts_of(pairs, 2 * BATCH)), None
        claimed, reported = 0, 0
        for some in parts_of(range(count), min(BATCH, len(self.bots))):
            bots = self.next_bots(len(some))
            seconds, told = self.ask([self.claim(bot) for bot in bots])
            claimed += seconds
            reported += self.ask([self.report(bot, run) for bot, run in zip(bots, self.runs_of(told, len(bots)))])[0]
        return claimed, reported

    def settle(self, text):
        """The seconds of this request, and the front that its reply tells."""
        seconds, told = self.ask([text])
        return seconds, int(re.search(rb"\r\nX-Swarming-Front: ([0-9]+)", told)[1])

    def resident(self):
        """The bytes of the server's resident memory."""
        with open("/proc/%d/status" % self.server.process.pid, encoding="utf-8") as it:
            return 1024 * int(re.search(r"VmRSS:\s*([0-9]+) kB", it.read())[1])

    def end(self):
        if self.link is not None:
            self.link.close()
        self.server.end()


class Postgres:
    """PostgreSQL in a folder of its own, and one connection to it. The process of the connection has the servers' processor."""

    def __init__(self, folder, processors):
        found = sorted(glob.glob("/usr/lib/postgresql/*/bin"), key=lambda it: int(it.split("/")[4]))
        if not found:
            sys.exit("postgresql isn't installed")
        self.version = found[-1].split("/")[4]
        data, how = os.path.join(folder, "data"), {"stdin": subprocess.DEVNULL, "stdout": subprocess.DEVNULL, "stderr": subprocess.DEVNULL}
        if os.getuid() == 0:
            shutil.chown(folder, "postgres", "postgres")
            how.update({"user": "postgres", "group": "postgres", "extra_groups": []})
        words = [found[-1] + "/initdb", "-D", data, "-U", "postgres", "-A", "trust", "-E", "UTF8", "--locale=C", "--no-sync"]
        subprocess.run(words, check=True, cwd=folder, **how)
        chosen = ["listen_addresses=", "unix_socket_directories=" + folder, "port=5432", "fsync=off", "synchronous_commit=off", "shared_buffers=512MB", "work_mem=64MB"]
        words = [found[-1] + "/postgres", "-D", data] + [it for one in chosen for it in ("-c", one)]
        self.process = subprocess.Popen(words, cwd=folder, **how)
        atexit.register(self.end)
        end = time.monotonic() + 60
        while subprocess.run([found[-1] + "/pg_isready", "-q", "-h", folder, "-p", "5432"], check=False).returncode != 0:
            if self.process.poll() is not None or time.monotonic() > end:
                sys.exit("postgres doesn't listen")
            time.sleep(0.1)
        self.link = limited(socket.socket(socket.AF_UNIX))
        self.link.connect(folder + "/.s.PGSQL.5432")
        names = b"user\0postgres\0database\0postgres\0\0"
        told = self.ask(struct.pack("!ii", len(names) + 8, 196608) + names, 1)[1]
        # (the process of the connection is told as it begins)
        at = told.index(b"K\0\0\0\x0c")
        os.sched_setaffinity(struct.unpack("!i", told[at + 5 : at + 9])[0], processors)

    def ask(self, text, count):
        return exchange(self.link, text, count, READY, is_true)

    def run(self, text):
        told = self.ask(message(b"Q", text.encode() + b"\0"), 1)[1]
        if b"SERROR" in told:
            sys.exit("postgres: %r of %s" % (told, text))

    def prepare(self, name, text):
        body = b"%s\0%s\0\0\0" % (name.encode(), text.encode())
        told = self.ask(message(b"P", body) + message(b"S", b""), 1)[1]
        if b"SERROR" in told:
            sys.exit("postgres: %r of %s" % (told, text))

    def end(self):
        if self.process.poll() is None:
            self.process.send_signal(signal.SIGINT)
        self.process.wait(60)


def message(kind, body):
    return kind + struct.pack("!i", len(body) + 4) + body


def executed(name, values):
    """The messages that execute a prepared statement with these texts, in a transaction of its own."""
    texts = b"".join(struct.pack("!i", len(it)) + it for it in values)
    bind = b"\0%s\0\0\0%s%s\0\0" % (name.encode(), struct.pack("!h", len(values)), texts)
    return message(b"B", bind) + message(b"E", b"\0\0\0\0\0") + message(b"S", b"")


class Bench:
    def __init__(self, words, folder):
        self.program, self.folder, self.quick = words.program, folder, words.quick
        self.rounds = words.rounds or (2 if words.quick else 5)
        self.many = words.most or (10000 if words.quick else 100000)
        self.calls = 200 if words.quick else 500
        found = sorted(os.sched_getaffinity(0))
        # (with one processor alone they share it)
        self.of_server, self.of_client = {found[-1]}, set(found[:-1]) or set(found)
        os.sched_setaffinity(0, self.of_client)
        self.best, self.missed = {}, []

    def settings(self, life, units):
        path = os.path.join(self.folder, "settings-%d.toml" % life)
        with open(path, "w", encoding="utf-8") as it:
            it.write(SETTINGS.format(life=life, units=units))
        return path

    def keep(self, name, seconds):
        self.best[name] = min(self.best.get(name, seconds), seconds)

    def few(self, sets):
        """How many tasks are few: ten of each set where there are many sets, but no more than a fifth of those that are many."""
        return FEW if sets < FEW else min(10 * sets, self.many // 5)

    def times(self, more, less):
        """How many times as long the first figure is as the second."""
        return self.best[more] / self.best[less]

    def want(self, what, cases, most):
        """Says where what is measured takes more times as long than is wanted. A case is how many times, and where."""
        over = sorted(it for it in cases if it[0] > most)
        if over:
            worst, where = over[-1]
            told = f"{what} takes {worst:.2f} times as long {where}; at most {most} times is wanted."
            if len(cases) > 1:
                told += f" {len(over)} of {len(cases)} cases are above that."
            self.missed.append(told)

    def measure_calls(self):
        rows, cases = ["| Sets | Bots | Tasks | " + " | ".join(CALLS) + " |", "|---|---|---|---|---|---|---|"], {call: [] for call in CALLS}
        for sets, bots in itertools.product(SET_COUNTS, BOT_COUNTS):
            sizes = self.few(sets), self.many
            pools = {size: Pool(self, None, sets, bots) for size in sizes}
            for size, pool in pools.items():
                pool.fill(size)
            for _ in range(self.rounds):
                for size, pool in pools.items():
                    took = [pool.ask(pool.new_tasks(self.calls))[0], pool.ask(pool.polls(self.calls))[0], *pool.claim_and_report(self.calls)]
                    for call, seconds in zip(CALLS, took):
                        if seconds is not None:
                            self.keep((call, sets, bots, size), 1000000 * seconds / self.calls)
            for pool in pools.values():
                pool.end()
            cells = []
            for call in CALLS:
                few, many = ((call, sets, bots, size) for size in sizes)
                if few not in self.best:
                    cells.append("with the claim")
                    continue
                ratio = self.times(many, few)
                what = " and its report" if call == "claim" and bots == 1 else ""
                cases[call].append((ratio, f"among {sizes[1]} tasks as among {sizes[0]}, in {counted(sets, 'set')} with {counted(bots, 'bot')}{what}"))
                cells.append(f"{self.best[few]:.1f}, {self.best[many]:.1f} ({ratio:.2f})")
            rows.append(f"| {sets} | {bots} | {sizes[0]}, {sizes[1]} | " + " | ".join(cells) + " |")
            tell("calls in %s with %s" % (counted(sets, "set"), counted(bots, "bot")))
        for call in CALLS:
            self.want(f"The call {call}", cases[call], MOST_CALL)
        return [
            "Microseconds of a call among few and among many waiting tasks, and how many times as long it takes among many. The tasks "
            f"have {PRIORITIES} priorities, and each bot may run all of them.\n",
            *rows,
        ]

    def measure_connection(self):
        total, some = (65 if self.many >= 65 * FEW else 10) * FEW, FEW
        first, last = ("connection", "first"), ("connection", "last")
        for place in range(self.rounds):
            pool = Pool(self)
            pool.ask([request(b"CountTasks", b'{"pool":"default"}')] * BATCH)
            self.keep(first, 1000000 * pool.ask([request(b"NewTask", NEW_TASK)] * some)[0] / some)
            for _ in range(total // some - 2):
                pool.ask([request(b"NewTask", NEW_TASK)] * some)
            self.keep(last, 1000000 * pool.ask([request(b"NewTask", NEW_TASK)] * some)[0] / some)
            pool.end()
            tell(f"connection, round {place + 1}")
        ratio = self.times(last, first)
        self.want("NewTask", [(ratio, f"at the end of a connection of {total} as at its front")], MOST_CONNECTION)
        return [
            "| What | microseconds | times as long |",
            "|---|---|---|",
            f"| NewTask, the first {some} of {total} over one connection | {self.best[first]:.1f} | |",
            f"| NewTask, the last {some} of these | {self.best[last]:.1f} | {ratio:.2f} |",
        ]

    def measure_deadlines(self):
        # (sets and priorities: of one priority alone, the tasks that come last also stand last in their queue)
        mixes = ((1, PRIORITIES), (10, PRIORITIES), (1, 1))
        kinds = list(itertools.product(mixes, (FEW, self.many)))
        pools = {(mix, size): Pool(self, None, mix[0], 1, mix[1]) for mix, size in kinds}
        for (_, size), pool in pools.items():
            pool.fill(size)
        look = request(b"GetResult", b'{"task_id":"10"}')
        for place in range(self.rounds):
            fronts, alone = {}, {}
            for kind, pool in pools.items():
                pool.ask(pool.new_tasks(self.calls, SLICE_SECS))
                fronts[kind] = pool.settle(look)[1]
                alone[kind] = min(pool.settle(look)[0] for _ in range(10))
            # (moments are whole seconds, so no deadline is later than this)
            time.sleep(SLICE_SECS + 0.1)
            for kind, pool in pools.items():
                seconds, front = pool.settle(look)
                if front - fronts[kind] != self.calls:
                    sys.exit("GetResult has settled %d deadlines, and not %d" % (front - fronts[kind], self.calls))
                alone[kind] = min(alone[kind], *(pool.settle(look)[0] for _ in range(10)))
                self.keep(("deadline", *kind), 1000000 * (seconds - alone[kind]) / self.calls)
            tell(f"deadlines, round {place + 1}")
        for pool in pools.values():
            pool.end()
        rows, cases = ["| What | microseconds | times as long |", "|---|---|---|"], []
        for mix in mixes:
            few, many = (("deadline", mix, size) for size in (FEW, self.many))
            ratio = self.times(many, few)
            where = f"in {counted(mix[0], 'set')} with {mix[1]} priorities" if mix[1] > 1 else f"in {counted(mix[0], 'set')} with one priority"
            cases.append((ratio, f"among {self.many} tasks as among {FEW}, {where}"))
            rows.append(f"| A deadline settled among {FEW} waiting tasks, {where} | {self.best[few]:.1f} | |")
            rows.append(f"| A deadline settled among {self.many} waiting tasks, {where} | {self.best[many]:.1f} | {ratio:.2f} |")
        self.want("A deadline settled", cases, MOST_DEADLINE)
        return rows

    def measure_blobs(self):
        sizes, some = (FEW, self.many), self.calls // 2
        pools = {size: Pool(self, self.settings(LIFE, MOST_UNITS)) for size in sizes}
        names = itertools.count()
        look = bot_request(b"/blobs/default", b'{"blobs":[]}')

        def puts(count):
            return [put(b"%d" % next(names)) for _ in range(count)]

        # The blobs that will be removed are put first, those of each round two seconds behind those of the last one.
        ends = []
        for _ in range(0 if self.quick else self.rounds):
            for pool in pools.values():
                pool.ask(puts(some))
            ends.append(time.time() + LIFE)
            time.sleep(PAUSE)
        time.sleep(PAUSE)
        held = time.time()
        for size, pool in pools.items():
            for one in parts_of(range(size), FILLING):
                pool.ask(puts(len(one)))
        for _ in range(self.rounds):
            for size, pool in pools.items():
                self.keep(("put", size), 1000000 * pool.ask(puts(some))[0] / some)
        tell("PutBlob")
        fronts = {size: pool.settle(look)[1] for size, pool in pools.items()}
        rows = ["| What | microseconds | times as long |", "|---|---|---|"]
        if ends and time.time() > ends[0]:
            tell("no removal of blobs, since filling the pools took longer than the life of a blob")
            ends = []
        for place, end in enumerate(ends):
            # (moments are whole seconds, and the next round's blobs end two seconds later)
            time.sleep(math.floor(end) + 1.2 - time.time())
            for size, pool in pools.items():
                seconds, front = pool.settle(look)
                if front - fronts[size] != some or time.time() >= held + LIFE:
                    sys.exit("%d blobs were removed, and not %d; or it is %d seconds too late" % (front - fronts[size], some, time.time() - held - LIFE))
                fronts[size] = front
                alone = min(pool.settle(look)[0] for _ in range(10))
                self.keep(("remove", size), 1000000 * (seconds - alone) / some)
            tell(f"the removal of blobs, round {place + 1}")
        for pool in pools.values():
            pool.end()
        for kind, name in (("put", "PutBlob of a new small blob"), ("remove", "A blob removed at the end of its life,")):
            if (kind, FEW) in self.best:
                few, many = self.best[kind, FEW], self.best[kind, self.many]
                rows.append(f"| {name} among {FEW} blobs | {few:.1f} | |")
                rows.append(f"| {name} among {self.many} blobs | {many:.1f} | {many / few:.2f} |")
                self.want(name.rstrip(","), [(many / few, f"among {self.many} blobs as among {FEW}")], MOST_BLOB)
        return rows

    def measure_holes(self):
        rows = ["| What | microseconds | times as long |", "|---|---|---|"]
        if self.quick:
            return rows
        pools = {size: Pool(self, self.settings(LIFE, MOST_UNITS)) for size in (FEW, self.many)}
        look = bot_request(b"/blobs/default", b'{"blobs":[]}')
        fresh = itertools.count(2 * self.many)

        def keep_every(step):
            for size, pool in pools.items():
                for some in parts_of(range(0, 2 * size, step), FILLING):
                    pool.ask([put(b"%d" % number) for number in some])

        began = time.time()
        keep_every(1)
        filled = time.time()
        # The blobs of the odd numbers end before the others, and leave holes of one unit.
        time.sleep(max(began + LIFE - 15 - time.time(), 0))
        keep_every(2)
        if time.time() > began + LIFE:
            tell("no holes, since filling the pools took longer than the life of a blob")
            return rows
        time.sleep(filled + LIFE + 1.1 - time.time())
        fronts = {size: pool.settle(look)[1] for size, pool in pools.items()}
        placed = []
        for _ in range(self.rounds):
            for size, pool in pools.items():
                self.keep(("place", size), 1000000 * pool.ask([put(b"%d" % next(fresh)) for _ in range(BATCH)])[0] / BATCH)
            placed.append(time.time())
            time.sleep(PAUSE)
        tell("PutBlob into holes")
        keep_every(2)
        fronts = {size: pool.settle(look)[1] for size, pool in pools.items()}
        for place, at in enumerate(placed):
            time.sleep(max(math.floor(at) + LIFE + 1.2 - time.time(), 0))
            for size, pool in pools.items():
                seconds, front = pool.settle(look)
                if front - fronts[size] != BATCH:
                    sys.exit("%d blobs were removed, and not %d" % (front - fronts[size], BATCH))
                fronts[size] = front
                alone = min(pool.settle(look)[0] for _ in range(10))
                self.keep(("free", size), 1000000 * (seconds - alone) / BATCH)
            tell(f"the removal of blobs among holes, round {place + 1}")
        for pool in pools.values():
            pool.end()
        for kind, name in (("place", "PutBlob into a hole,"), ("free", "A blob removed between two others,")):
            few, many = self.best[kind, FEW], self.best[kind, self.many]
            rows.append(f"| {name} among {FEW} holes | {few:.1f} | |")
            rows.append(f"| {name} among {self.many} holes | {many:.1f} | {many / few:.2f} |")
            self.want(name.rstrip(","), [(many / few, f"among {self.many} holes as among {FEW}")], MOST_HOLE)
        return rows

    def measure_uuids(self):
        count = 2000 if self.quick else 10000
        places, chosen = max(count - 1, 1).bit_length(), random.Random(1)
        letters = b"ABCDEFGHIJKLMNOPQRSTUVWXYZabcdefghijklmnopqrstuvwxyz0123456789-"
        uuids = {"random": [bytes(chosen.choices(letters, k=4 * places)) for _ in range(count)]}
        for factor, two in ALIKE.items():
            uuids[factor] = [b"".join(two[number >> bit & 1] for bit in range(places)) for number in range(count)]
        for place in range(self.rounds):
            for kind, some in uuids.items():
                asked = [request(b"NewTask", NEW_TASK.replace(b"{", b'{"request_uuid":"%s",' % uuid, 1)) for uuid in some]
                pool = Pool(self)
                for what in ("sent", "sent again"):
                    self.keep((what, kind), 1000000 * sum(pool.ask(one)[0] for one in parts_of(asked, FILLING)) / count)
                pool.end()
            tell(f"uuids, round {place + 1}")
        rows, cases = ["| What | random uuids, microseconds | uuids that collide | times as long |", "|---|---|---|---|"], []
        for factor in ALIKE:
            for what, name in (("sent", f"NewTask, {count} of them"), ("sent again", f"the same {count} again")):
                about = f"`h * {factor} + byte`"
                ratio = self.times((what, factor), (what, "random"))
                cases.append((ratio, f"with uuids that collide under {about}, {what}, as with random ones"))
                rows.append(f"| {name}, under {about} | {self.best[what, 'random']:.1f} | {self.best[what, factor]:.1f} | {ratio:.2f} |")
        self.want("NewTask", cases, MOST_UUID)
        return rows

    def measure_memory(self):
        pool = Pool(self, os.path.join(HERE, "examples", "lab.toml"))
        pool.ask([put(GREETING, b"rack")])
        asked = [request(b"NewTask", GREET % (hashlib.sha256(GREETING).hexdigest().encode(), len(GREETING)))]
        pool.ask(asked * FEW)
        few = pool.resident()
        for some in parts_of(range(self.many - FEW), FILLING):
            pool.ask(asked * len(some))
        each = (pool.resident() - few) / (self.many - FEW)
        pool.end()
        tell("memory")
        if each >= MOST_MEMORY:
            self.missed.append(f"A waiting task takes {each:.0f} bytes of memory; less than {MOST_MEMORY} is wanted.")
        return [
            "| What | bytes |",
            "|---|---|",
            f"| resident memory of a waiting task of `examples/lab.sh`, from {FEW} tasks to {self.many} | {each:.0f} |",
        ]

    def spend(self, batches, ask):
        """Asks these one after the other, for so long at most. The microseconds of an item, and how many there were."""
        seconds, done = 0, 0
        for batch in batches:
            seconds, done = seconds + ask(batch), done + len(batch)
            if seconds > LONGEST:
                break
        return 1000000 * seconds / done, done

    def claim_of_swarm(self, pool, size):
        for what, some in (("one", 1), ("batch", BATCH)):
            reports = []

            def ask(bots, reports=reports):
                seconds, told = pool.ask([pool.claim(bot) for bot in bots])
                reports += [pool.report(bot, run) for bot, run in zip(bots, pool.runs_of(told, len(bots)))]
                return seconds

            each, done = self.spend(parts_of(pool.next_bots(self.calls), some), ask)
            pool.ask(reports)
            pool.fill(done)
            self.keep(("claim", "swarm", what, size), each)

    def claim_of_postgres(self, postgres, pool, first, size):
        """`pool` has the bots, and `first` is the statement that finds the first row."""
        table = f"tasks_{size}"
        insert = INSERT.format(table=table, sets=10, priorities=PRIORITIES, properties=PROPERTIES)
        every, each = b"{%s}" % b",".join(b"%d" % its for its in range(10)), 1
        for what, most in (("one", 1), ("batch", BATCH)):
            postgres.run(f"VACUUM ANALYZE {table}")
            # (fewer in one write where these would take longer than a figure may)
            some = max(1, min(most, int(1000000 * LONGEST / each)))

            def ask(bots):
                text = b"".join(executed(f"{first} {size}", (bot, b"c", every)) for bot in bots)
                seconds, told = postgres.ask(text, len(bots))
                if told.count(UPDATED) != len(bots):
                    sys.exit("postgres: %r" % told[:600])
                return seconds

            each, done = self.spend(parts_of(pool.next_bots(self.calls), some), ask)
            self.keep(("claim", first, what, size), each)
            postgres.run(insert % (self.inserted[size] + 1, self.inserted[size] + done))
            self.inserted[size] += done

    def measure_claims(self):
        sizes = [size for size in (1000, 3000, 10000, 30000, 100000) if size < self.many] + [self.many]
        pools = {size: Pool(self, None, 10, max(BOT_COUNTS)) for size in sizes}
        for size, pool in pools.items():
            pool.fill(size + self.calls)
        folder = os.path.join(self.folder, "postgres")
        os.mkdir(folder)
        postgres = Postgres(folder, self.of_server)
        for size in sizes:
            table = f"tasks_{size}"
            for text in TABLE.format(table=table).split(";"):
                postgres.run(text)
            insert = INSERT.format(table=table, sets=10, priorities=PRIORITIES, properties=PROPERTIES)
            postgres.run(insert % (1, size + self.calls))
            postgres.run(f"VACUUM ANALYZE {table}")
            for first, text in FIRST_OF.items():
                postgres.prepare(f"{first} {size}", CLAIM.format(table=table, first=text.format(table=table)))
        self.inserted = {size: size + self.calls for size in sizes}
        for place in range(self.rounds):
            for size, pool in pools.items():
                self.claim_of_swarm(pool, size)
                for first in FIRST_OF:
                    self.claim_of_postgres(postgres, pool, first, size)
            tell(f"claims, round {place + 1}")
        postgres.end()
        for pool in pools.values():
            pool.end()
        rows = ["| Waiting tasks | How | swarm, claims/s | PostgreSQL, first of all rows | PostgreSQL, first of each set | swarm / the faster |", "|---|---|---|---|---|---|"]
        missed = {}
        for size in sizes:
            for what, name in (("one", "one after the other"), ("batch", f"{BATCH} in one write")):
                own, *others = (1000000 / self.best["claim", who, what, size] for who in ("swarm", *FIRST_OF))
                ratio = own / max(others)
                if ratio < LEAST_CLAIMS:
                    missed.setdefault(name, []).append((ratio, size))
                rows.append(f"| {size} | {name} | {own:.0f} | " + " | ".join(f"{it:.0f}" for it in others) + f" | {ratio:.2f} |")
        for name, cases in missed.items():
            ratio, size = min(cases)
            told = f"Claims, {name}, are {ratio:.2f} times as many as PostgreSQL's among {size} tasks; {LEAST_CLAIMS} times is wanted."
            self.missed.append(f"{told} {len(cases)} of {len(sizes)} cases are below that.")
        self.curves = {
            name: [(size, self.best["claim", who, "batch", size]) for size in sizes]
            for who, name in (("swarm", "swarm"), ("all rows", "PostgreSQL, first of all rows"), ("each set", "PostgreSQL, first of each set"))
        }
        return [
            "Claims a second among waiting tasks of 10 sets, by bots that may run all of them. Those of PostgreSQL are one statement each, which "
            "updates a row and returns its task; the server of the pool reads and writes JSON, looks up the bot, and adds an entry to its log. "
            f"PostgreSQL {postgres.version} has `fsync` and `synchronous_commit` off, and is vacuumed before each figure. Its second statement locks no row before it "
            "updates one, so with several connections some of them would have to be asked again. The script's own share is in all figures.\n",
            *rows,
            "\n![Microseconds of a claim against the number of waiting tasks](claims.svg)",
        ]


def counted(count, name):
    return f"{count} {name}" + ("" if count == 1 else "s")


def tell(what):
    print(f"{time.strftime('%H:%M:%S')} done: {what}", file=sys.stderr, flush=True)


def machine():
    """The day and the machine, in words."""
    with open("/proc/meminfo", encoding="utf-8") as it:
        memory = int(re.search(r"MemTotal:\s*([0-9]+) kB", it.read())[1]) / 1048576
    day = time.strftime("%d %B %Y").lstrip("0")
    return f"Measured on {day} on a machine with {counted(os.cpu_count(), 'processor')} and {int(memory)} GB."


def decades(values):
    return math.floor(math.log10(min(values))), math.ceil(math.log10(max(values)))


def draw(curves, note):
    """The curves as an SVG, both axes by the logarithm."""
    wide, high, left, right, top, bottom = 760, 470, 80, 210, 50, 80
    (least_x, most_x), (least_y, most_y) = (decades([point[axis] for points in curves.values() for point in points]) for axis in (0, 1))
    most_x, most_y = max(most_x, least_x + 1), max(most_y, least_y + 1)

    def at_x(value):
        return left + (wide - left - right) * (math.log10(value) - least_x) / (most_x - least_x)

    def at_y(value):
        return high - bottom - (high - top - bottom) * (math.log10(value) - least_y) / (most_y - least_y)

    def line(from_x, from_y, to_x, to_y, colour):
        parts.append(f'<line x1="{from_x:.1f}" y1="{from_y:.1f}" x2="{to_x:.1f}" y2="{to_y:.1f}" stroke="{colour}"/>')

    def text(x, y, words, more=""):
        parts.append(f'<text x="{x:.1f}" y="{y:.1f}" {more}>{words}</text>')

    parts = [
        f'<svg xmlns="http://www.w3.org/2000/svg" viewBox="0 0 {wide} {high}" width="{wide}" height="{high}" font-family="sans-serif" font-size="13">',
        f'<rect width="{wide}" height="{high}" fill="white"/>',
    ]
    text(left, 28, f"The time of a claim, {BATCH} in one write", 'font-size="16"')
    for power in range(least_x, most_x + 1):
        for digit in range(1, 10 if power < most_x else 2):
            x = at_x(digit * 10**power)
            line(x, top, x, high - bottom, "#bbb" if digit == 1 else "#eee")
        text(at_x(10**power), high - bottom + 18, f"{10**power:,}", 'text-anchor="middle"')
    for power in range(least_y, most_y + 1):
        for digit in range(1, 10 if power < most_y else 2):
            y = at_y(digit * 10.0**power)
            line(left, y, wide - right, y, "#bbb" if digit == 1 else "#eee")
        text(left - 8, at_y(10.0**power) + 4, f"{10.0**power:,g}" if power < 0 else f"{10**power:,}", 'text-anchor="end"')
    line(left, high - bottom, wide - right, high - bottom, "black")
    line(left, top, left, high - bottom, "black")
    text((left + wide - right) / 2, high - bottom + 40, "waiting tasks", 'text-anchor="middle"')
    text(0, 0, "microseconds of a claim", f'text-anchor="middle" transform="translate(24 {(top + high - bottom) / 2:.0f}) rotate(-90)"')
    text(left, high - 14, note, 'font-size="12"')
    # (names that would stand on each other are moved apart)
    lowest = high
    for (name, points), colour in sorted(zip(curves.items(), ("#0057b7", "#b00020", "#2e7d32")), key=lambda it: it[0][1][-1][1]):
        places = [(at_x(x), at_y(y)) for x, y in points]
        parts.append(f'<polyline fill="none" stroke="{colour}" stroke-width="2" points="' + " ".join(f"{x:.1f},{y:.1f}" for x, y in places) + '"/>')
        parts += [f'<circle cx="{x:.1f}" cy="{y:.1f}" r="3.5" fill="{colour}"/>' for x, y in places]
        lowest = min(places[-1][1] + 4, lowest - 18)
        text(places[-1][0] + 10, lowest, name, f'fill="{colour}"')
    return "\n".join(parts + ["</svg>"]) + "\n"


def write_part(text):
    with open(PAGE, encoding="utf-8") as it:
        front, begin, rest = it.read().partition(BEGIN + "\n")
    _, end, back = rest.partition(END)
    if not begin or not end:
        sys.exit(f"{PAGE} has no place for the part")
    with open(PAGE, "w", encoding="utf-8") as it:
        it.write(front + begin + text + end + back)


def compare(bench, before, parts):
    """The parts of both programs in turn, a round of each at a time: the best of each, and how many times as long it takes now."""
    other, rounds = copy.copy(bench), bench.rounds
    other.program, other.best = before, {}
    for _ in range(rounds):
        for it in (other, bench):
            it.rounds = 1
            for part in parts:
                PARTS[part][1](it)
    for name, now in bench.best.items():
        old = other.best[name]
        print("%-50s %9.2f us %9.2f us %6.2f times" % (" ".join(map(str, name)), old, now, now / old))


PARTS = {
    "calls": ("Calls among few and many tasks", Bench.measure_calls),
    "connection": ("A long connection", Bench.measure_connection),
    "deadlines": ("Deadlines", Bench.measure_deadlines),
    "blobs": ("Blobs", Bench.measure_blobs),
    "holes": ("Holes", Bench.measure_holes),
    "uuids": ("Uuids that collide", Bench.measure_uuids),
    "memory": ("Memory", Bench.measure_memory),
    "claims": ("Claims beside PostgreSQL", Bench.measure_claims),
}


def main():
    parser = argparse.ArgumentParser(usage="bench/pool.py [--rounds N] [--most N] [--quick] [--part NAME].. [--write] [--before OTHER] [--program PATH]")
    parser.add_argument("--rounds", type=int, metavar="N")
    parser.add_argument("--most", type=int, metavar="N")
    parser.add_argument("--quick", action="store_true")
    parser.add_argument("--part", action="append", choices=PARTS)
    parser.add_argument("--write", action="store_true")
    parser.add_argument("--before", metavar="OTHER")
    parser.add_argument("--program", default=os.path.join(HERE, "crates/swarm/out/swarm"))
    words = parser.parse_args()
    for it in (words.program, words.before):
        if it and not os.access(it, os.X_OK):
            sys.exit("%s is not there: build it by ./swarm session" % it)
    if words.write and (words.quick or words.part or words.most or words.rounds or words.before):
        sys.exit("--write is for all parts at their full size, of one program")
    if words.before and {"memory", "claims"} & {*(words.part or [])}:
        sys.exit("--before is not for the parts memory and claims")
    words.program = os.path.abspath(words.program)
    with tempfile.TemporaryDirectory() as folder:
        os.chmod(folder, 0o755)
        bench, text = Bench(words, folder), ""
        if words.before:
            return compare(bench, os.path.abspath(words.before), words.part or ["calls", "connection", "deadlines"])
        for part in words.part or PARTS:
            title, measure = PARTS[part]
            rows = measure(bench)
            text += f"### {title}\n\n" + "\n".join(rows) + "\n\n"
        text += "### What isn't met\n\n" + ("".join(f"- {it}\n" for it in bench.missed) or "Each figure is as it is wanted.\n")
        text += "\n" + machine() + "\n"
        print(text, end="")
        if hasattr(bench, "curves"):
            plot = PLOT if words.write else os.path.join(tempfile.gettempdir(), "claims.svg")
            with open(plot, "w", encoding="utf-8") as it:
                it.write(draw(bench.curves, machine()))
            print(f"the plot is in {plot}", file=sys.stderr)
        if words.write:
            write_part(text)
    return None


if __name__ == "__main__":
    main()
