#!/usr/bin/env python3
"""Figures of kept records: entries per second with a store, the loading of long logs, and checkpoints.

Usage: bench/records.py [--lines N] [--part NAME].. [--rounds N] [--polls N] [--before OTHER] [PROGRAM]

All figures are the best of so many rounds, in which what is compared was measured in turn.

- appends: connections of polls of eight bots, each of which adds an entry, with a store and without
  one. The seconds that a store adds are compared with those that the C library of SQLite takes for
  the same lines: the same tables, journal (WAL) and sync (full), one transaction a line. The C
  library is that of Python's module `sqlite3`.
- loading: how long the program takes to start on a file of 100000 lines and of N, 1000000 by
  default, for a line; and the greatest memory of the process.
- bases: how long the program takes to start on a log, to let it begin anew by a checkpoint, and to
  start on the base that this leaves. One log has 100000 tasks, each with its NewTask, the claim of one
  of 40 bots, a report with a piece of output and the last report; one has 100000 NewTasks alone; and
  the last has 1000000 polls of 40 bots. Beside them stands how many times as long as the start from the
  log a checkpoint takes, which is to be at most twice, and the start from the base. With --before OTHER
  the program OTHER starts on each log in turn with PROGRAM, on a file of its own.
- files: the size of the file after each of so many rounds (--rounds, 10 by default) of as many polls
  (--polls, 100000 by default) in a session, and a checkpoint. It is to be no larger after the last one
  than after the second.
- limits: the greatest memory of a pool with 262144 tasks, 4096 bots and 262144 blobs that fill its store,
  whose texts have 134217728 bytes: with a log of 4194304 entries that led to them, with the base alone,
  and with as long a log of polls behind the base. It takes some 3 GB in the folder of temporary files.

--part measures this part alone, and may be given several times; without it all but `limits` are measured.
The program is built by the first `./swarm session`.
"""
import argparse
import hashlib
import json
import os
import shutil
import sqlite3
import sys
import tempfile
import time

sys.dont_write_bytecode = True
from session import HERE, run

APPENDS = 5000
APPEND_ROUNDS = 5
LOAD_ROUNDS = 5
BOTS = 8
# What the logs have that begin anew.
BASE_TASKS, BASE_POLLS, BASE_BOTS = 100000, 1000000, 40
# (a connection ends after 65536 requests)
POLLS_OF_A_SESSION = 50000
# The limits of a pool.
MOST_TASKS, MOST_BOTS, MOST_BLOBS, MOST_ENTRIES, MOST_WEIGHT = 262144, 4096, 262144, 4194304, 134217728
STORE_UNITS, UNIT = 4194304, 64
DIGEST_WEIGHT = 36
# (files of version 1, which earlier programs read as well)
TABLES = """
CREATE TABLE lines(no INTEGER PRIMARY KEY, text TEXT NOT NULL);
CREATE TABLE blobs(digest BLOB PRIMARY KEY, bytes BLOB NOT NULL);
CREATE TABLE meta(name TEXT PRIMARY KEY, value INTEGER NOT NULL);
INSERT INTO meta VALUES ('version', 1);
"""
SETTINGS = """%s[[pools]]
name = "default"
death_timeout_secs = 2592000
store_units = %d
grants = [{ caller = "lab", permissions = ["swarming.pools.listTasks", "profile.pools.runBot"] }]
"""
DIMENSIONS = '"dimensions":[{"key":"pool","value":["default"]},{"key":"id","value":["b%d"]}]'


def post(path, body):
    return ("POST %s HTTP/1.1\r\nX-Swarming-Caller: lab\r\nContent-Length: %d\r\n\r\n%s" % (path, len(body), body)).encode()


def handshake(number):
    return post("/bot/handshake", '{"bot_id":"b%d","session":"s",%s}' % (number, DIMENSIONS % number))


def poll(number):
    return post("/bot/poll", '{"bot_id":"b%d",%s}' % (number, DIMENSIONS % number))


def handshake_line(number, moment):
    dims = '[["id",["b%d"]],["pool",["default"]]]' % number
    return '{"b":%d,"dims":%s,"id":"b%d","k":"handshake","m":%d,"p":0,"q":"","session":"s"}' % (number, dims, number, moment)


def poll_line(number, moment, hint="false"):
    return '{"b":%d,"dims":null,"hint":%s,"k":"poll","m":%d,"p":0,"q":null}' % (number, hint, moment)


def bot_of(place):
    return place % BOTS + 1


def write_settings(folder, store, units=1048576):
    path = os.path.join(folder, "settings.toml")
    with open(path, "w") as file:
        file.write(SETTINGS % ('store = "%s"\n' % store if store else "", units))
    return path


def serve(program, store):
    """The seconds of a connection of polls, in a new store where there is to be one."""
    with tempfile.TemporaryDirectory() as folder:
        settings = write_settings(folder, os.path.join(folder, "records") if store else None)
        shakes = b"".join(handshake(number) for number in range(1, BOTS + 1))
        polls = b"".join(poll(number) for number in range(1, BOTS + 1))
        parts = [(shakes, 1), (polls, APPENDS // BOTS)]
        seconds, _, good = run(program, parts, ("session", "--settings", settings))
        if good != BOTS + APPENDS:
            sys.exit("%d of %d requests were answered well" % (good, BOTS + APPENDS))
        return seconds


def append_by_library():
    """The seconds in which the C library appends as many lines, each in a transaction of its own."""
    with tempfile.TemporaryDirectory() as folder:
        file = sqlite3.connect(os.path.join(folder, "default.sqlite"), isolation_level=None)
        file.execute("PRAGMA journal_mode = WAL")
        file.execute("PRAGMA synchronous = FULL")
        file.executescript(TABLES)
        moment = int(time.time())
        begun = time.monotonic()
        for place in range(APPENDS):
            file.execute("BEGIN")
            file.execute("INSERT INTO lines(text) VALUES (?)", (poll_line(bot_of(place), moment),))
            file.execute("COMMIT")
        seconds = time.monotonic() - begun
        file.close()
        return seconds


def measure_appends(program):
    kept, unkept, library = [], [], []
    for _ in range(APPEND_ROUNDS):
        kept.append(serve(program, True))
        unkept.append(serve(program, False))
        library.append(append_by_library())
    added = min(kept) - min(unkept)
    show("polls with a store", APPENDS, min(kept))
    show("polls without a store", APPENDS, min(unkept))
    show("appends: the seconds that a store adds", APPENDS, added)
    show("appends by the C library", APPENDS, min(library))
    print("%-44s %10.2f" % ("appends per second, beside the C library's", min(library) / added), flush=True)


def show(name, count, seconds):
    print("%-44s %10d %10.3f s %10.0f /s" % (name, count, seconds, count / seconds), flush=True)


def write_lines(folder, lines, blobs=()):
    """A file of these lines, and of blobs, each a digest with its bytes."""
    os.mkdir(folder)
    file = sqlite3.connect(os.path.join(folder, "default.sqlite"), isolation_level=None)
    file.execute("PRAGMA journal_mode = WAL")
    file.execute("PRAGMA synchronous = OFF")
    file.executescript(TABLES)
    file.execute("BEGIN")
    file.executemany("INSERT INTO lines(text) VALUES (?)", ((line,) for line in lines))
    file.executemany("INSERT INTO blobs VALUES (?, ?)", blobs)
    file.execute("COMMIT")
    file.execute("PRAGMA wal_checkpoint(TRUNCATE)")
    file.close()


def polls(count, bots, moment):
    """A handshake of each bot, and then their polls, so many lines together."""
    for number in range(1, bots + 1):
        yield handshake_line(number, moment)
    for place in range(count - bots):
        yield poll_line(place % bots + 1, moment)


def write_records(folder, count):
    write_lines(folder, polls(count, BOTS, int(time.time())))


def measure_loading(program, counts):
    with tempfile.TemporaryDirectory() as folder:
        best, memory = {}, {}
        for count in counts:
            write_records(os.path.join(folder, str(count)), count)
        for _ in range(LOAD_ROUNDS):
            for count in counts:
                settings = write_settings(folder, os.path.join(folder, str(count)))
                seconds, most, _ = run(program, [], ("session", "--settings", settings))
                best[count] = min(best.get(count, seconds), seconds)
                memory[count] = most
    for count in counts:
        per_line = 1000000 * best[count] / count
        print("%-28s %10d lines %8.3f s %8.2f us a line %8.1f MiB" % ("loading", count, best[count], per_line, memory[count]), flush=True)
    few, many = counts
    print("%-44s %10.2f" % ("a line of the longer log, times the shorter's", best[many] / many / (best[few] / few)), flush=True)


# ---- checkpoints


def compact(members):
    return json.dumps(members, sort_keys=True, separators=(",", ":"))


def new_line(task, moment, command):
    properties = {
        "caches": [],
        "command": [command],
        "dimensions": [{"key": "pool", "value": "default"}],
        "env": [],
        "execution_timeout_secs": 0,
        "grace_period_secs": 30,
        "idempotent": False,
        "inputs": [],
        "io_timeout_secs": 0,
        "outputs": [],
    }
    slices = [{"expiration_secs": 604800, "properties": properties, "wait_for_capacity": True}]
    request = {"bot_ping_tolerance_secs": 1200, "name": "task %d" % task, "priority": 0, "task_slices": slices}
    entry = {"k": "new", "t": task, "who": "lab", "uuid": None, "state": "PENDING", "slice": 0, "from": None, "request": request}
    return compact({**entry, "m": moment, "p": 0})


def claim_line(task, bot, moment):
    return '{"b":%d,"claim":"c%d","k":"claim","m":%d,"p":0,"t":%d}' % (bot, task, moment, task)


def update_line(task, bot, moment, chunk, last):
    return compact({"k": "update", "b": bot, "t": task, "try": 1, "chunk": chunk, "last": last, "m": moment, "p": 0})


def put_line(digest, size, moment):
    return '{"digest":"%s","k":"put","m":%d,"p":0,"size":%d}' % (digest, moment, size)


def output_of(task):
    return b"the output of task %d\n" % task


LAST = {"dropped": 0, "duration_ms": 1, "exit_code": 0, "files": [], "hard_timeout": False, "io_timeout": False}


def runs(tasks, bots, moment):
    """A handshake of each bot, and the entries of each task: created, claimed, and reported twice."""
    for number in range(1, bots + 1):
        yield handshake_line(number, moment)
    for task in range(1, tasks + 1):
        bot, output = task % bots + 1, output_of(task)
        yield new_line(task, moment, "true")
        yield claim_line(task, bot, moment)
        yield update_line(task, bot, moment, [0, len(output), hashlib.sha256(output).hexdigest()], None)
        yield update_line(task, bot, moment, None, LAST)


def outputs(tasks):
    for task in range(1, tasks + 1):
        output = output_of(task)
        yield hashlib.sha256(output).digest(), output


def copy_records(folder, ending):
    """Makes a copy of the records of a folder, with this at the end of its name, in place of the one that is there."""
    shutil.rmtree(folder + ending, ignore_errors=True)
    shutil.copytree(folder, folder + ending)


def timed(program, command, folder, units=1048576):
    """The seconds of a start over the records, or of a checkpoint, and the greatest memory."""
    with tempfile.TemporaryDirectory() as settings:
        seconds, memory, _ = run(program, [], (command, "--settings", write_settings(settings, folder, units)))
        return seconds, memory


def show_run(name, seconds, memory):
    print("%-60s %8.3f s %8.1f MiB" % (name, seconds, memory), flush=True)


def measure_base(program, before, name, folder):
    """A start from the log, a checkpoint over it, and a start from the base that this leaves; and OTHER's start from the log."""
    steps = {
        "a start from the log": (program, "session", ".log"),
        "a checkpoint over the log": (program, "checkpoint", ".anew"),
        "a start from the base": (program, "session", ".anew"),
    }
    if before:
        steps["a start of OTHER from the log"] = (before, "session", ".other")
    best, memory = dict.fromkeys(steps, float("inf")), {}
    for _ in range(LOAD_ROUNDS):
        for ending in {ending for _, _, ending in steps.values()}:
            copy_records(folder, ending)
        for step, (it, command, ending) in steps.items():
            seconds, memory[step] = timed(it, command, folder + ending)
            best[step] = min(best[step], seconds)
    for step in steps:
        show_run("%s: %s" % (name, step), best[step], memory[step])
    first, *others = steps
    for step in others:
        print("%-60s %8.4f" % ("%s: %s, times a start from the log" % (name, step), best[step] / best[first]), flush=True)


def measure_bases(program, before):
    with tempfile.TemporaryDirectory() as folder:
        moment = int(time.time())
        tasks, created, asked = (os.path.join(folder, name) for name in ("tasks", "created", "polls"))
        write_lines(tasks, runs(BASE_TASKS, BASE_BOTS, moment), outputs(BASE_TASKS))
        measure_base(program, before, "%d tasks" % BASE_TASKS, tasks)
        write_lines(created, (new_line(task, moment, "true") for task in range(1, BASE_TASKS + 1)))
        measure_base(program, before, "%d NewTasks" % BASE_TASKS, created)
        write_lines(asked, polls(BASE_POLLS + BASE_BOTS, BASE_BOTS, moment))
        measure_base(program, before, "%d polls" % BASE_POLLS, asked)


def measure_files(program, rounds, count):
    """The size of the file after rounds of polls and a checkpoint."""
    with tempfile.TemporaryDirectory() as folder:
        records = os.path.join(folder, "records")
        settings = write_settings(folder, records)
        shakes = b"".join(handshake(number) for number in range(1, BASE_BOTS + 1))
        asked = b"".join(poll(number) for number in range(1, BASE_BOTS + 1))
        run(program, [(shakes, 1)], ("session", "--settings", settings))
        path, sizes = os.path.join(records, "default.sqlite"), []
        for number in range(rounds):
            session, left = 0.0, count
            while left > 0:
                piece = min(left, POLLS_OF_A_SESSION)
                seconds, _, good = run(program, [(asked, piece // BASE_BOTS)], ("session", "--settings", settings))
                if good != piece // BASE_BOTS * BASE_BOTS:
                    sys.exit("%d of %d polls were answered well" % (good, piece))
                session, left = session + seconds, left - piece
            long = os.path.getsize(path)
            checkpoint, _ = timed(program, "checkpoint", records)
            sizes.append(os.path.getsize(path))
            name = "round %d of %d polls and a checkpoint" % (number + 1, count)
            print("%-44s %8.1f s %8.1f s %10d bytes %10d bytes" % (name, session, checkpoint, long, sizes[-1]), flush=True)
    if rounds > 2:
        print("%-44s %10.3f" % ("the last round's file, times the second's", sizes[-1] / sizes[1]), flush=True)


# ---- a full pool


def content(number):
    """One of the contents that fill the store together."""
    return b"%016d" % number * (STORE_UNITS // MOST_BLOBS * UNIT // 16)


def filled(moment):
    """The entries of a pool that is full in each way."""
    for number in range(1, MOST_BOTS + 1):
        yield handshake_line(number, moment)
    for number in range(MOST_BLOBS):
        it = content(number)
        yield put_line(hashlib.sha256(it).hexdigest(), len(it), moment)
    # (a bot's texts are its name, its session and its dimensions)
    weight = sum(2 * len("b%d" % number) + len("s" "id" "pool" "default") for number in range(1, MOST_BOTS + 1))
    left = MOST_WEIGHT - weight - DIGEST_WEIGHT * MOST_BLOBS
    size = left // MOST_TASKS - len("lab" "pool" "default")
    # (while there is a task for a bot, its poll says so)
    for place in range(MOST_ENTRIES - MOST_BOTS - MOST_BLOBS - MOST_TASKS):
        yield poll_line(place % MOST_BOTS + 1, moment)
    for task in range(1, MOST_TASKS + 1):
        yield new_line(task, moment, "x" * (size - len("task %d" % task)))


def contents():
    for number in range(MOST_BLOBS):
        it = content(number)
        yield hashlib.sha256(it).digest(), it


def add_polls(folder, moment):
    """As long a log of polls as there may be, behind the base."""
    file = sqlite3.connect(os.path.join(folder, "default.sqlite"), isolation_level=None)
    file.execute("PRAGMA synchronous = OFF")
    file.execute("BEGIN")
    lines = ((poll_line(place % MOST_BOTS + 1, moment, "true"),) for place in range(MOST_ENTRIES))
    file.executemany("INSERT INTO lines(text) VALUES (?)", lines)
    file.execute("COMMIT")
    file.execute("PRAGMA wal_checkpoint(TRUNCATE)")
    file.close()


def measure_limits(program):
    with tempfile.TemporaryDirectory() as folder:
        full, moment = os.path.join(folder, "full"), int(time.time())
        write_lines(full, filled(moment), contents())
        show_run("a full pool: a start from its log", *timed(program, "session", full, STORE_UNITS))
        show_run("a full pool: a checkpoint over its log", *timed(program, "checkpoint", full, STORE_UNITS))
        show_run("a full pool: a start from its base", *timed(program, "session", full, STORE_UNITS))
        show_run("a full pool: a checkpoint over its base", *timed(program, "checkpoint", full, STORE_UNITS))
        add_polls(full, moment)
        show_run("a full pool: a start from its base and a full log", *timed(program, "session", full, STORE_UNITS))
        show_run("a full pool: a checkpoint over its base and a full log", *timed(program, "checkpoint", full, STORE_UNITS))


PARTS = ("appends", "loading", "bases", "files", "limits")


def main():
    usage = "bench/records.py [--lines N] [--part NAME].. [--rounds N] [--polls N] [--before OTHER] [PROGRAM]"
    parser = argparse.ArgumentParser(usage=usage)
    parser.add_argument("--lines", type=int, default=1000000, metavar="N")
    parser.add_argument("--part", action="append", choices=PARTS, metavar="NAME")
    parser.add_argument("--rounds", type=int, default=10, metavar="N")
    parser.add_argument("--polls", type=int, default=100000, metavar="N")
    parser.add_argument("--before", metavar="OTHER")
    parser.add_argument("program", nargs="?", default=os.path.join(HERE, "crates/swarm/out/swarm"))
    words = parser.parse_args()
    for it in (words.program, words.before):
        if it and not os.access(it, os.X_OK):
            sys.exit("%s is not there: build it by ./swarm session" % it)
    parts = words.part or PARTS[:-1]
    if "appends" in parts:
        measure_appends(words.program)
    if "loading" in parts:
        measure_loading(words.program, (100000, words.lines))
    if "bases" in parts:
        measure_bases(words.program, words.before)
    if "files" in parts:
        measure_files(words.program, words.rounds, words.polls)
    if "limits" in parts:
        measure_limits(words.program)


if __name__ == "__main__":
    main()
