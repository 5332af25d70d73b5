#!/usr/bin/env python3
"""Counts the instructions and the allocations that a request costs the server, by valgrind's callgrind.

Usage: bench/instructions.py [--program PROGRAM] [--kind NAME].. [--before OTHER] [--write]

Counts of two runs differ by less than a thousandth, whatever runs beside them, so they show a small change where
times don't.

Of each kind of request `swarm session` serves two connections from a file, which differ only in how often
a request of that kind stands at their end, 300 times and 100 times: what the first takes more, by 200, is
the count of one. Each reply is looked at.

- CountTasks; ListTasks, a page of 50; GetResult of a task that waits.
- NewTask, of a task with a command alone, and of a larger one with texts of all kinds, which is idempotent
  and so hashed too.
- poll of a bot that finds nothing to do; claim of a bot that gets a task; report, with 4096 bytes of output;
  last report, by which a run ends.
- refused NewTask, whose body is no JSON.
- connection: of `swarm serve`, one with one CountTasks, which the client ends; 300 and 100 of them.
- kept line: that of a NewTask as `swarm session` starts on a log of them, 3000 and 1000.

Allocations are calls of malloc, calloc and realloc. Of a connection the system calls are counted too, by
strace, over as many connections.

--kind counts this kind alone, and may be given several times. --before OTHER counts the program OTHER as
well: each line has its figures, those of PROGRAM, and how many times as many instructions OTHER takes.
--write puts the table into docs/performance.md, which `checks/instructions` compares a program with. It
needs the packages valgrind and strace, the second for `connection` alone.

The program is built by the first `./swarm session`.
"""
import argparse
import base64
import collections
import os
import re
import shutil
import signal
import socket
import subprocess
import sys
import tempfile
import time

sys.dont_write_bytecode = True
from records import new_line, post, write_lines, write_settings  # noqa: E402
from serve import HOST, ONE, PAGE, bot_request, claim, free_port, handshake, is_whole, poll, write_table  # noqa: E402
from session import COUNT, HERE, NEW_TASK, request  # noqa: E402

BEGIN, END = "<!-- The table that bench/instructions.py writes -->", "<!-- The end of the table of bench/instructions.py -->"
HEAD = "| Kind | Instructions | Allocations |\n|---|---|---|\n"
ROW = re.compile(r"^\| ([^|]+) \| ([0-9]+) \| ([0-9.]+) \|$", re.M)
# How often a request stands in the two connections, and how many lines the two logs have.
FEW, MANY = 100, 300
FEW_LINES, MANY_LINES = 1000, 3000
# Seconds that a program may take for one of these, on a machine that does other work.
SECONDS = 300
ALLOCATORS = {"malloc", "calloc", "realloc"}
# Longer than any connection takes, so that no deadline is settled in it.
TASK = NEW_TASK.replace(b":600,", b":604800,")
LARGER_TASK = (
    b'{"name":"compile 1234 of the release build","priority":40,"bot_ping_tolerance_secs":600,"task_slices":[{"expiration_secs":604800,'
    b'"wait_for_capacity":true,"properties":{"command":["python3","tools/build.py","--target","out/release","--jobs","16","all"],'
    b'"env":[{"key":"LANG","value":"C.UTF-8"},{"key":"CCACHE_DIR","value":"/var/cache/ccache"},{"key":"BUILD_NUMBER","value":"1234"},'
    b'{"key":"PATH","value":"/usr/local/bin:/usr/bin:/bin"}],"dimensions":[{"key":"pool","value":"default"},{"key":"os","value":"Linux|Mac"},'
    b'{"key":"cpu","value":"x86-64"},{"key":"cores","value":"16"}],"caches":[{"name":"builder","path":"cache/builder"},'
    b'{"name":"sources","path":"cache/sources"}],"inputs":[],"outputs":["out/release/log.txt","out/release/all.tar"],'
    b'"execution_timeout_secs":3600,"grace_period_secs":60,"io_timeout_secs":1200,"idempotent":true}}]}'
)
# (names of one length, so that all requests of a kind have as many bytes)
BOTS = [b"bot-%03d" % place for place in range(MANY)]
OUTPUT = base64.b64encode(bytes(range(256)) * 16)


class Fault(Exception):
    """Why a kind can't be counted."""


class Count:
    """What something takes: its instructions, and its allocations."""

    def __init__(self, instructions, allocations):
        self.instructions, self.allocations = instructions, allocations

    def of_one(self, fewer, number):
        """The count of one, where this one is of so many more than the other."""
        return Count((self.instructions - fewer.instructions) / number, (self.allocations - fewer.allocations) / number)


def report(bot, run, members):
    return bot_request(b"/bot/task_update", b'{"bot_id":"%s","task_id":"%x1",%s}' % (bot, run, members))


def new_task(body=TASK):
    return request(b"NewTask", body)


class Kind:
    """A kind of request: what comes before it, the request at each place, and its status and a text of its reply."""

    def __init__(self, before, at, text, status=200):
        self.before, self.at, self.text, self.status = before, at, text, status


HANDSHAKES = [handshake(bot) for bot in BOTS]
CLAIMS = [claim(bot) for bot in BOTS]
TASKS = [new_task()] * MANY
KINDS = {
    "CountTasks": Kind([new_task()], lambda _: request(b"CountTasks", COUNT), b'{"count":1}'),
    # (the page of 50 ends with the task of number 251)
    "ListTasks": Kind(TASKS, lambda _: request(b"ListTasks", b'{"pool":"default","limit":50}'), b'"task_id":"fb0","user":"ana"}]}'),
    "GetResult": Kind([new_task()], lambda _: request(b"GetResult", b'{"task_id":"10"}'), b'"completed_ts":null'),
    "NewTask": Kind([], lambda _: new_task(), b'"state":"PENDING"'),
    "larger NewTask": Kind([], lambda _: new_task(LARGER_TASK), b'"state":"PENDING"'),
    "poll": Kind(HANDSHAKES, lambda place: poll(BOTS[place]), b'"cmd":"sleep"'),
    "claim": Kind(HANDSHAKES + TASKS, lambda place: CLAIMS[place], b'"cmd":"run"'),
    "report": Kind(
        [HANDSHAKES[0], new_task(), CLAIMS[0]],
        lambda place: report(BOTS[0], 1, b'"output":"%s","output_chunk_start":%d' % (OUTPUT, 4096 * place)),
        b'"must_stop":false',
    ),
    "last report": Kind(
        HANDSHAKES + TASKS + CLAIMS,
        lambda place: report(BOTS[place], place + 1, b'"exit_code":0,"duration_ms":5210'),
        b'"must_stop":false',
    ),
    "refused NewTask": Kind([], lambda _: new_task(TASK[:-1]), b'"bad_json"', 400),
}
CONNECTION, LINE = "connection", "kept line"
NAMES = [*KINDS, CONNECTION, LINE]


def count_of_output(text):
    """The instructions and the allocations that a file of callgrind tells."""
    total = re.search(r"^(?:totals|summary): ([0-9]+)", text, re.M)
    if not total:
        raise Fault("callgrind has told no instructions")
    # (a name stands with its number where it comes first, and afterwards the number alone)
    names, caller, callee, allocations = {}, "", "", 0
    for kind, number, name, calls in re.findall(r"^(?:(c?fn)=\(([0-9]+)\)(?: (.*))?|calls=([0-9]+) .*)$", text, re.M):
        if kind:
            if name:
                names[number] = name.partition("'")[0].partition("@")[0]
            if kind == "fn":
                caller = names[number]
            else:
                callee = names[number]
        elif callee in ALLOCATORS and caller not in ALLOCATORS:
            allocations += int(calls)
    return Count(int(total[1]), allocations)


class Counter:
    """Counts what a program takes, with files of its own in a folder."""

    def __init__(self, program, folder):
        self.program, self.folder = os.path.abspath(program), folder
        self.told = os.path.join(folder, "callgrind")
        self.words = ["valgrind", "--tool=callgrind", "--quiet", f"--callgrind-out-file={self.told}"]
        # (no variable of who runs it, which would move the stack, or change what valgrind or malloc does)
        self.how = {"cwd": folder, "env": {"PATH": os.environ.get("PATH", os.defpath)}, "stderr": subprocess.PIPE}

    def count(self, name):
        """What one of a kind takes; a Fault names the kind."""
        try:
            if name == CONNECTION:
                return self.connection()
            return self.line() if name == LINE else self.request(KINDS[name])
        except (Fault, OSError, subprocess.TimeoutExpired) as fault:
            raise Fault(f"{name}: {fault}") from fault

    def told_count(self):
        with open(self.told, encoding="utf-8", errors="replace") as it:
            return count_of_output(it.read())

    def session(self, requests, words=()):
        """What a session over these requests takes, and what it answers."""
        with tempfile.TemporaryFile(dir=self.folder) as asked, tempfile.TemporaryFile(dir=self.folder) as answered:
            asked.write(b"".join(requests))
            asked.seek(0)
            words = [*self.words, self.program, "session", *words]
            done = subprocess.run(words, stdin=asked, stdout=answered, timeout=SECONDS, check=False, **self.how)
            if done.returncode:
                raise Fault(f"a session under valgrind ended with status {done.returncode}: {done.stderr.decode(errors='replace')[-1000:]}")
            answered.seek(0)
            return self.told_count(), answered.read()

    def request(self, kind):
        counts = []
        for times in (FEW, MANY):
            count, output = self.session([*kind.before, *map(kind.at, range(times))])
            statuses = [int(it) for it in re.findall(rb"HTTP/1\.1 ([0-9]{3}) ", output)]
            wanted = [200] * len(kind.before) + [kind.status] * times
            if statuses != wanted:
                raise Fault(f"the statuses of the replies are {collections.Counter(statuses)}, where {collections.Counter(wanted)} are right")
            counts.append((count, output.count(kind.text)))
        (fewer, texts_before), (more, texts) = counts
        if texts - texts_before != MANY - FEW:
            raise Fault(f"{MANY - FEW} replies more have {kind.text.decode()} {texts - texts_before} times more")
        return more.of_one(fewer, MANY - FEW)

    def serve(self, words, connections):
        """Runs the server by these words for so many connections, each with one CountTasks."""
        port = free_port()
        words = [*words, self.program, "serve", "--address", f"{HOST}:{port}", "--connections", str(connections)]
        how = {"stdin": subprocess.DEVNULL, "stdout": subprocess.DEVNULL, "start_new_session": True}
        with subprocess.Popen(words, **how, **self.how) as server:
            try:
                end = time.monotonic() + SECONDS
                for _ in range(connections):
                    ask_one(port, server, end)
                server.wait(max(end - time.monotonic(), 1))
            finally:
                if server.poll() is None:
                    # (with the server that strace has started)
                    os.killpg(server.pid, signal.SIGKILL)
            if server.returncode:
                raise Fault(f"{words[0]} ended with status {server.returncode}: {server.stderr.read().decode(errors='replace')[-1000:]}")

    def connection(self):
        counts = []
        for connections in (FEW, MANY):
            self.serve(self.words, connections)
            counts.append(self.told_count())
        return counts[1].of_one(counts[0], MANY - FEW)

    def system_calls(self):
        """The system calls of a connection, by their names."""
        path, found = os.path.join(self.folder, "calls"), collections.Counter()
        for connections, sign in ((FEW, -1), (MANY, 1)):
            self.serve(["strace", "-f", "-c", "-o", path], connections)
            with open(path, encoding="utf-8") as it:
                rows = [row.split() for row in it]
            for row in rows:
                if len(row) >= 5 and row[3].isdigit() and row[-1] != "total":
                    found[row[-1]] += sign * int(row[3])
        return {name: count / (MANY - FEW) for name, count in found.most_common() if abs(count) >= 0.01 * (MANY - FEW)}

    def first_start(self, words, tasks):
        """Starts on a log of so many tasks, which makes a file of the present version of it, and counts them."""
        asked = post("/prpc/swarming.v2.Tasks/CountTasks", '{"pool":"default"}')
        done = subprocess.run([self.program, "session", *words], input=asked, stdout=subprocess.PIPE, timeout=SECONDS, check=False, **self.how)
        if done.returncode or not done.stdout.endswith(b'{"count":%d}' % tasks):
            told = (done.stdout + done.stderr).decode(errors="replace")
            raise Fault(f"a start on {tasks} lines ended with status {done.returncode}: {told[-1000:]}")

    def line(self):
        counts = []
        for lines in (FEW_LINES, MANY_LINES):
            store = os.path.join(self.folder, f"records-{lines}")
            shutil.rmtree(store, ignore_errors=True)
            # (the lines that one log has more have numbers of four digits)
            write_lines(store, (new_line(task, int(time.time()), "true") for task in range(1, lines + 1)))
            words = ["--settings", write_settings(self.folder, store)]
            self.first_start(words, lines)
            counts.append(self.session([], words)[0])
        return counts[1].of_one(counts[0], MANY_LINES - FEW_LINES)


def ask_one(port, server, end):
    """One CountTasks over a connection of its own, once the server listens."""
    while True:
        try:
            link = socket.create_connection((HOST, port), SECONDS)
            break
        except ConnectionRefusedError as fault:
            if server.poll() is not None or time.monotonic() > end:
                raise Fault(f"the server doesn't listen; its status is {server.poll()}") from fault
            time.sleep(0.02)
    with link:
        link.sendall(ONE)
        reply = b""
        while not is_whole(reply):
            more = link.recv(65536)
            if not more:
                raise Fault(f"a connection has ended: {reply!r}")
            reply += more
    if not reply.startswith(b"HTTP/1.1 200 "):
        raise Fault(f"CountTasks was answered {reply!r}")


def shown_calls(calls):
    listed = ", ".join(f"{name} {count:.2f}" for name, count in calls.items())
    return f"A connection with one CountTasks makes {sum(calls.values()):.2f} system calls: {listed}.\n"


def table_rows(page=PAGE):
    """The rows of the table in a page: the instructions and the allocations of each kind."""
    with open(page, encoding="utf-8") as it:
        _, begin, rest = it.read().partition(BEGIN + "\n")
    table, end, _ = rest.partition(END)
    if not begin or not end:
        raise Fault(f"{page} has no place for the table of bench/instructions.py")
    return {name: Count(int(instructions), float(allocations)) for name, instructions, allocations in ROW.findall(table)}


def table_of(counts):
    return HEAD + "".join(f"| {name} | {it.instructions:.0f} | {it.allocations:.1f} |\n" for name, it in counts.items())


def missing_tools(names):
    return [it for it in ("valgrind", *(["strace"] if CONNECTION in names else [])) if not shutil.which(it)]


def show(name, counts):
    line = "%-16s" % name + "".join("%10.0f instructions %7.1f allocations" % (it.instructions, it.allocations) for it in counts)
    print(line + ("%7.2f times" % (counts[0].instructions / counts[1].instructions) if len(counts) == 2 else ""), flush=True)


def count_all(counters, names):
    """The counts of the last program by kind, and the text on its system calls; each is shown as it comes."""
    found, calls = {}, ""
    for name in names:
        counts = [it.count(name) for it in counters]
        show(name, counts)
        found[name] = counts[-1]
        if name == CONNECTION:
            for it in counters:
                calls = shown_calls(it.system_calls())
                print(f"{it.program}: {calls}" if len(counters) > 1 else calls, end="", flush=True)
    return found, calls


def main():
    parser = argparse.ArgumentParser(usage="bench/instructions.py [--program PROGRAM] [--kind NAME].. [--before OTHER] [--write]")
    parser.add_argument("--program", default=os.path.join(HERE, "crates/swarm/out/swarm"), metavar="PROGRAM")
    parser.add_argument("--kind", action="append", choices=NAMES, metavar="NAME", help=f"one of: {', '.join(NAMES)}")
    parser.add_argument("--before", metavar="OTHER")
    parser.add_argument("--write", action="store_true")
    words = parser.parse_args()
    programs = [*([words.before] if words.before else []), words.program]
    for it in programs:
        if not os.access(it, os.X_OK):
            sys.exit(f"{it} is not there: build it by ./swarm session")
    if words.write and (words.before or words.kind):
        sys.exit("--write is for all kinds of one program")
    names = [it for it in NAMES if it in words.kind] if words.kind else NAMES
    if missing := missing_tools(names):
        sys.exit(f"not installed: {', '.join(missing)}")
    with tempfile.TemporaryDirectory() as folder:
        try:
            found, calls = count_all([Counter(it, folder) for it in programs], names)
        except Fault as fault:
            sys.exit(str(fault))
    if words.write:
        valgrind = subprocess.run(["valgrind", "--version"], capture_output=True, text=True, check=False).stdout.strip()
        write_table(f"{table_of(found)}\n{calls}\nCounted by {valgrind}, with {os.confstr('CS_GNU_LIBC_VERSION')}.\n", BEGIN, END)


if __name__ == "__main__":
    main()
