#!/usr/bin/env python3
"""Figures of `swarm session`: requests per second, and the greatest memory.

Usage: bench/session.py [--before OTHER [--rounds N]] [PROGRAM]

Each line is one run of the program over one connection of pipelined requests from a file: what is
asked, how many requests, seconds, requests per second, microseconds a request, and the greatest
memory of the process in MiB, which is never less than the script's own, some 14. The replies are
counted; a run that answers otherwise is an error. The program is built by the first
`./swarm session`.

With --before OTHER, the program OTHER and PROGRAM serve a few of these connections in turn, in so
many rounds (5 by default), and each line has the best of OTHER, the best of PROGRAM, and how many
times as fast PROGRAM is.

The lines on grants are about settings of four pools with so many grants each: reading them, with no
request behind, and a caller who counts tasks and whom the last grant permits that. Each has the best
of five runs. Beside them stands how many times as long 256 grants take as 8.

The lines on pages are about ListTasks among more and more tasks, one request after the other on one
connection, with the replies read: beside them stands how many times as long a page takes among ten
times as many tasks.

The lines on settling are about one CountTasks, on a connection that was held open until the slices
of so many tasks had run out: the deadlines that it settles, the seconds from writing it to its
reply, deadlines per second, microseconds a deadline, and the memory.
"""
import argparse
import json
import os
import subprocess
import sys
import tempfile
import threading
import time

HERE = os.path.dirname(os.path.dirname(os.path.abspath(__file__)))
NEW_TASK = (
    b'{"task_slices":[{"expiration_secs":600,"wait_for_capacity":true,"properties":'
    b'{"command":["true"],"dimensions":[{"key":"pool","value":"default"}]}}]}'
)
# A pair of the environment but for its place and its value.
PAIR = b'{"key":"KEY_%02d","value":"%s"}'
MOST_BODY = 65536
COUNT = b'{"pool":"default"}'
COUNT_EXPIRED = b'{"pool":"default","state":"EXPIRED"}'
PERMISSIONS = (
    "swarming.pools.createTask",
    "swarming.pools.cancelTask",
    "swarming.pools.listTasks",
    "swarming.pools.listBots",
    "swarming.pools.terminateBot",
    "profile.pools.runBot",
    "profile.pools.useBlobs",
)
# Longer than the requests of a run take, so that no NewTask settles anything.
SLICE_SECS = 5
# How often a page is asked for.
PAGES = 100


def request(call, body):
    return (
        b"POST /prpc/swarming.v2.Tasks/%s HTTP/1.1\r\nX-Swarming-Caller: ana\r\n"
        b"Content-Length: %d\r\n\r\n%s" % (call, len(body), body)
    )


def long_task(pairs, size, idempotent):
    """A NewTask with so many pairs in its environment, all of one length, and at most so many bytes."""
    keys = b'"idempotent":%s,"env":[' % (b"true" if idempotent else b"false")
    around = len(NEW_TASK) + len(keys) + len(b"],") + len(b",") * (pairs - 1)
    value = b"x" * ((size - around) // pairs - len(PAIR % (0, b"")))
    env = b",".join(PAIR % (place, value) for place in range(pairs))
    return NEW_TASK.replace(b'"command"', keys + env + b'],"command"')


def count_good(told):
    """How many replies of status 200 stand in the file."""
    mark, good, rest = b"HTTP/1.1 200 OK\r\n", 0, b""
    while piece := told.read(65536):
        rest += piece
        good += rest.count(mark)
        # What may be the front of a mark stays; no whole one does.
        rest = rest[rest.rfind(mark) + 1 :] if mark in rest else rest
        rest = rest[-(len(mark) - 1) :]
    return good


def run(program, parts, words=("session",)):
    """Seconds, the greatest memory in MiB, and the replies of status 200."""
    with tempfile.TemporaryFile() as asked, tempfile.TemporaryFile() as told:
        for text, times in parts:
            for _ in range(times):
                asked.write(text)
        asked.seek(0)
        begun = time.monotonic()
        child = subprocess.Popen([program, *words], stdin=asked, stdout=told)
        _, status, usage = os.wait4(child.pid, 0)
        seconds = time.monotonic() - begun
        child.returncode = os.waitstatus_to_exitcode(status)
        if child.returncode != 0:
            sys.exit("%s ended with status %d" % (program, child.returncode))
        told.seek(0)
        return seconds, usage.ru_maxrss / 1024, count_good(told)


def measure(program, name, rows, asked, count):
    parts = [(request(b"NewTask", NEW_TASK), rows), (asked, count)]
    seconds, memory, good = run(program, parts)
    if good != rows + count:
        sys.exit("%s: %d of %d requests were answered well" % (name, good, rows + count))
    show(name, rows + count, seconds, memory)


def read_reply(told):
    """The status line of the next reply, the front that it tells, and its body."""
    status, size, front = told.readline(), 0, None
    while (line := told.readline()) not in (b"\r\n", b""):
        name, _, value = line.partition(b":")
        if name == b"Content-Length":
            size = int(value)
        elif name == b"X-Swarming-Front":
            front = int(value)
    return status, front, told.read(size)


def check_status(name, status, told_front, front):
    """A reply must be good and have this front."""
    if status != b"HTTP/1.1 200 OK\r\n" or told_front != front:
        sys.exit("%s: %r with front %s, where %d is right" % (name, status, told_front, front))


def check_reply(name, told, front):
    """The body of the next reply, which must be good and have this front."""
    status, told_front, body = read_reply(told)
    check_status(name, status, told_front, front)
    return json.loads(body)


def open_session(program, name, task, rows):
    """A session that has answered so many of this NewTask."""
    child = subprocess.Popen([program, "session"], stdin=subprocess.PIPE, stdout=subprocess.PIPE)
    asked = request(b"NewTask", task) * rows
    writer = threading.Thread(target=lambda: (child.stdin.write(asked), child.stdin.flush()))
    writer.start()
    for row in range(rows):
        check_reply(name, child.stdout, row + 1)
    writer.join()
    return child


def close_session(program, child):
    """The greatest memory in MiB of a session that has answered all, once it has ended well."""
    child.stdin.close()
    rest = child.stdout.read()
    _, status, usage = os.wait4(child.pid, 0)
    child.returncode = os.waitstatus_to_exitcode(status)
    if child.returncode != 0 or rest:
        sys.exit("%s ended with status %d and %r" % (program, child.returncode, rest))
    return usage.ru_maxrss / 1024


def measure_settling(program, rows):
    name = "settling %d deadlines" % rows
    child = open_session(program, name, NEW_TASK.replace(b":600,", b":%d," % SLICE_SECS), rows)
    # The program's moments are whole seconds, so no deadline is later than this.
    time.sleep(SLICE_SECS + 0.1)
    begun = time.monotonic()
    child.stdin.write(request(b"CountTasks", COUNT_EXPIRED))
    child.stdin.flush()
    counted = check_reply(name, child.stdout, 2 * rows)
    seconds = time.monotonic() - begun
    if counted != {"count": rows}:
        sys.exit("%s: %s" % (name, counted))
    show(name, rows, seconds, close_session(program, child))


def measure_pages(program):
    """ListTasks of 200 among more and more tasks, the newest and the oldest; CountTasks looks at each row, too."""
    last = {}
    for rows in (650, 6500, 65000):
        child = open_session(program, "tasks to list", NEW_TASK.replace(b":600,", b":604800,"), rows)
        took = []
        for name, call, body, items in (
            ("CountTasks", b"CountTasks", COUNT, None),
            ("ListTasks of the newest 200", b"ListTasks", b'{"pool":"default","limit":200}', 200),
            ("ListTasks of the oldest 200", b"ListTasks", b'{"pool":"default","limit":200,"cursor":201}', 200),
            ("ListTasks in a state of no task", b"ListTasks", b'{"pool":"default","state":"KILLED"}', 0),
        ):
            name = "%s among %d" % (name, rows)
            replies = []
            begun = time.monotonic()
            for _ in range(PAGES):
                child.stdin.write(request(call, body))
                child.stdin.flush()
                replies.append(read_reply(child.stdout))
            took.append((name, time.monotonic() - begun))
            for status, front, told in replies:
                check_status(name, status, front, rows)
                if items is not None and len(json.loads(told)["items"]) != items:
                    sys.exit("%s: %r" % (name, told))
        memory = close_session(program, child)
        for name, seconds in took:
            show(name, PAGES, seconds, memory)
            kind = name[: name.index(" among")]
            if kind in last:
                print("%-42s %.1f times as long among 10 times as many" % (kind, seconds / last[kind]), flush=True)
            last[kind] = seconds


def show(name, count, seconds, memory):
    per_second = count / seconds
    print(
        "%-42s %8d %8.3f s %10.0f /s %8.2f us %8.1f MiB"
        % (name, count, seconds, per_second, 1e6 / per_second, memory),
        flush=True,
    )


def settings_with(grants):
    """Four pools, each with so many grants of all permissions; the last of the first pool is that of ana."""
    listed = ", ".join('"%s"' % it for it in PERMISSIONS)
    grant = '[[pools.grants]]\ncaller = "%s"\npermissions = [' + listed + "]\n"
    callers = ["caller-%03d" % place for place in range(grants - 1)] + ["ana"]
    pools = ("default", "second", "third", "fourth")
    return "".join('[[pools]]\nname = "%s"\n' % pool + "".join(grant % it for it in callers) for pool in pools)


def measure_grants(program):
    """Settings of more and more grants: reading them, and a call that the last one permits."""
    best = {}
    for grants in (8, 256):
        with tempfile.NamedTemporaryFile("w", suffix=".toml") as file:
            file.write(settings_with(grants))
            file.flush()
            words = ("session", "--settings", file.name)
            for name, parts, count, times in (
                ("reading settings, %d grants a pool" % grants, [], 0, 100),
                ("CountTasks, the last of %d grants" % grants, [(request(b"CountTasks", COUNT), 65000)], 65000, 1),
            ):
                fastest = None
                for _ in range(5):
                    seconds, memory = 0, 0
                    for _ in range(times):
                        took, memory, good = run(program, parts, words)
                        seconds += took / times
                        if good != count:
                            sys.exit("%s: %d of %d requests were answered well" % (name, good, count))
                    fastest = min(fastest or seconds, seconds)
                best[grants, count] = fastest
                show(name, count or 1, fastest, memory)
    for name, count in (("reading settings", 0), ("CountTasks", 65000)):
        print("%-42s 256 grants take %.1f times as long as 8" % (name, best[256, count] / best[8, count]), flush=True)


def compare(before, program, rounds):
    """Both programs in turn over each connection, in so many rounds: the best of each."""
    count, new = request(b"CountTasks", COUNT), request(b"NewTask", NEW_TASK)
    long = request(b"NewTask", long_task(64, MOST_BODY - 1, False))
    # Few tasks are made in an instant, so that connection is served so many times, each on a new pool.
    for name, rows, asked, times, connections in (
        ("CountTasks over 1 task", 1, count, 65000, 1),
        ("NewTask among at most 1000", 0, new, 1000, 50),
        ("NewTask, 64 pairs, 65535 bytes", 0, long, 500, 1),
        ("GetResult of the first of 500", 500, request(b"GetResult", b'{"task_id":"10"}'), 65000, 1),
    ):
        best = {before: None, program: None}
        for _ in range(rounds):
            for it in best:
                seconds = 0
                for _ in range(connections):
                    took, _, good = run(it, [(new, rows), (asked, times)])
                    seconds += took
                    if good != rows + times:
                        sys.exit("%s: %s answered %d of %d requests well" % (name, it, good, rows + times))
                best[it] = min(best[it] or seconds, seconds)
        old, now = best[before], best[program]
        print("%-42s %8d %8.3f s %8.3f s %6.2f times" % (name, times, old, now, old / now), flush=True)


def main():
    parser = argparse.ArgumentParser(usage="bench/session.py [--before OTHER [--rounds N]] [PROGRAM]")
    parser.add_argument("--before", metavar="OTHER")
    parser.add_argument("--rounds", type=int, default=5, metavar="N")
    parser.add_argument("program", nargs="?", default=os.path.join(HERE, "crates/swarm/out/swarm"))
    words = parser.parse_args()
    program = words.program
    for it in (program, words.before):
        if it and not os.access(it, os.X_OK):
            sys.exit("%s is not there: run ./swarm session first" % it)
    if words.before:
        return compare(words.before, program, words.rounds)
    for count in (1000, 8125, 16250, 32500, 65000):
        measure(program, "CountTasks over 1 task", 1, request(b"CountTasks", COUNT), count)
    for count in (1000, 8125, 16250, 32500, 65000):
        measure(program, "CountTasks over 500 tasks", 500, request(b"CountTasks", COUNT), count)
    for count in (1000, 8125, 16250, 32500, 65000):
        measure(program, "NewTask", 0, request(b"NewTask", NEW_TASK), count)
    for pairs in (8, 16, 32, 64):
        size = MOST_BODY * pairs // 64 - 1
        for idempotent in (False, True):
            task = long_task(pairs, size, idempotent)
            name = "NewTask, %d pairs, %d bytes%s" % (pairs, len(task), ", hashed" if idempotent else "")
            measure(program, name, 0, request(b"NewTask", task), 500)
    measure(program, "GetResult of the first of 500", 500, request(b"GetResult", b'{"task_id":"10"}'), 65000)
    measure(program, "GetResult of the last of 500", 500, request(b"GetResult", b'{"task_id":"1f40"}'), 65000)
    measure_grants(program)
    measure_pages(program)
    for rows in (1000, 5000, 10000):
        measure_settling(program, rows)


if __name__ == "__main__":
    main()
