#!/usr/bin/env python3
"""Figures of `swarm serve` beside Debian's nginx: requests per second, and how long a reply takes.

Usage: bench/serve.py [--rounds N] [--seconds N] [--write] [--calls] [--profile] [--before OTHER] [PROGRAM]

nginx answers a constant whose body has the size of the reply that it is compared with, by one process.
Each server has a processor for itself, and who asks has the others. Both are asked in turn, in each of
so many rounds (5 by default), and each figure is the best of a server's rounds: the most requests per
second, and the shortest times within which half and 99 in a hundred of the replies came.

- CountTasks, one request after the other on one connection that is kept, and 16 of them in one write
  (by Debian's wrk, for so many seconds each, 3 by default; times are those of 16 replies there).
- CountTasks over a connection for each request, from 16 clients (wrk).
- NewTask, poll and claim among at most 1000 tasks, one request after the other on one connection, by a
  server that was started anew for each round, with 1000 bots (by this script, whose own share of a
  request is in all its figures).

--write puts the table into docs/performance.md. --calls counts the system calls of a server for each
request, by strace, in place of all this. --profile tells in what share of its time the server does
what, by perf, in place of all this; with --write that goes into docs/performance.md too. With
--before OTHER the program OTHER takes the place of nginx, and each line has the best requests per
second of OTHER and of PROGRAM, and how many times as fast PROGRAM is. It needs the packages nginx and
wrk, or strace, or linux-perf.

The program is built by the first `./swarm session`.
"""
import argparse
import atexit
import os
import re
import shutil
import signal
import socket
import subprocess
import sys
import tempfile
import time

sys.dont_write_bytecode = True
from session import COUNT, HERE, NEW_TASK, request

HOST = "127.0.0.1"
PAGE = os.path.join(HERE, "docs", "performance.md")
BEGIN, END = "<!-- The table that bench/serve.py writes -->", "<!-- The end of the table -->"
PROFILE, PROFILE_END = "<!-- The profile that bench/serve.py writes -->", "<!-- The end of the profile -->"
PIPELINED = 16
CLIENTS = 16
TASKS = 1000
CALLED = 2000
NGINX = """worker_processes 1;
pid {folder}/nginx.pid;
error_log {folder}/error.log;
daemon off;
events {{ worker_connections 512; }}
http {{
    access_log off;
    client_body_temp_path {folder}/body;
    proxy_temp_path {folder}/proxy;
    fastcgi_temp_path {folder}/fastcgi;
    uwsgi_temp_path {folder}/uwsgi;
    scgi_temp_path {folder}/scgi;
    default_type application/json;
    keepalive_requests 65536;
    tcp_nodelay on;
    server {{
        listen {host}:{port};
        {locations}
    }}
}}
"""
# What wrk sends: so many copies of a request in one write.
SCRIPT = 'wrk.init()\nlocal one = "{one}"\nlocal all = string.rep(one, {times})\nrequest = function() return all end\n'


def named(text):
    """A request with the field Host, which nginx asks for."""
    return text.replace(b"\r\n", b"\r\nHost: lab\r\n", 1)


def bot_request(path, body):
    return b"POST %s HTTP/1.1\r\nHost: lab\r\nX-Swarming-Caller: ana\r\nContent-Length: %d\r\n\r\n%s" % (path, len(body), body)


def dimensions(bot):
    return b'"dimensions":[{"key":"pool","value":["default"]},{"key":"id","value":["%s"]}]' % bot


def handshake(bot):
    return bot_request(b"/bot/handshake", b'{"bot_id":"%s","session":"1",%s}' % (bot, dimensions(bot)))


def poll(bot):
    return bot_request(b"/bot/poll", b'{"bot_id":"%s",%s}' % (bot, dimensions(bot)))


def claim(bot):
    return bot_request(b"/bot/claim", b'{"pool":"default","bot_id":"%s","claim_id":"1"}' % bot)


# The reply to a claim has this body, but for the run's id.
CLAIMED = (
    b'{"bot_ping_tolerance_secs":1200,"cmd":"run","properties":{"caches":[],"command":["true"],"dimensions":'
    b'[{"key":"pool","value":"default"}],"env":[],"execution_timeout_secs":0,"grace_period_secs":30,'
    b'"idempotent":false,"inputs":[],"io_timeout_secs":0,"outputs":[]},"run_id":"1f41","slice":0}'
)
BOTS = [b"b%d" % place for place in range(TASKS)]
# The calls among tasks: the requests, and the constant that nginx answers to them.
AMONG = {
    "NewTask": ([named(request(b"NewTask", NEW_TASK))] * TASKS, b'{"state":"PENDING","task_id":"1f40"}'),
    "poll": ([poll(bot) for bot in BOTS], b'{"cmd":"claim"}'),
    "claim": ([claim(bot) for bot in BOTS], CLAIMED),
}
ONE = named(request(b"CountTasks", COUNT))
ONE_ANSWER = b'{"count":0}'


def free_port():
    with socket.socket() as it:
        it.bind((HOST, 0))
        return it.getsockname()[1]


def pin(processors):
    return lambda: os.sched_setaffinity(0, processors)


class Server:
    """A server with a processor of its own. The last of the processors is the servers', the others are for who asks."""

    def __init__(self, words, port, processors):
        self.port = port
        how = {"stdin": subprocess.DEVNULL, "stdout": subprocess.DEVNULL, "preexec_fn": pin(processors)}
        self.process = subprocess.Popen(words, **how)
        # (also where the script is broken off)
        atexit.register(self.end)
        end = time.monotonic() + 20
        while True:
            try:
                with socket.create_connection((HOST, port), 5):
                    return
            except OSError:
                if self.process.poll() is not None or time.monotonic() > end:
                    self.end()
                    sys.exit(f"{words[0]} doesn't listen")
                time.sleep(0.02)

    def end(self):
        if self.process.poll() is None:
            self.process.send_signal(signal.SIGTERM)
        self.process.wait(20)


class Bench:
    def __init__(self, words, folder):
        self.program, self.before = words.program, words.before
        self.rounds, self.seconds, self.folder = words.rounds, words.seconds, folder
        found = sorted(os.sched_getaffinity(0))
        # (with one processor alone they share it)
        self.of_server, self.of_client = {found[-1]}, set(found[:-1]) or set(found)
        self.best = {}

    def swarm(self, program=None):
        port = free_port()
        return Server([program or self.program, "serve", "--address", f"{HOST}:{port}"], port, self.of_server)

    def nginx(self):
        port, path = free_port(), os.path.join(self.folder, "nginx.conf")
        answers = {b"/prpc/swarming.v2.Tasks/CountTasks": ONE_ANSWER}
        answers[b"/prpc/swarming.v2.Tasks/NewTask"] = AMONG["NewTask"][1]
        answers[b"/bot/poll"], answers[b"/bot/claim"] = AMONG["poll"][1], AMONG["claim"][1]
        locations = "".join(f"location = {at.decode()} {{ return 200 '{body.decode()}'; }}\n        " for at, body in answers.items())
        with open(path, "w", encoding="utf-8") as it:
            it.write(NGINX.format(folder=self.folder, host=HOST, port=port, locations=locations))
        return Server(["nginx", "-p", self.folder, "-c", path], port, self.of_server)

    def keep(self, name, server, figures):
        """Keeps the best figures of a server: requests per second, and the two times in milliseconds."""
        old = self.best.get((name, server), (0, float("inf"), float("inf")))
        self.best[name, server] = (max(old[0], figures[0]), min(old[1], figures[1]), min(old[2], figures[2]))

    def wrk(self, port, times, clients, close):
        """The figures of wrk, which sends so many requests at once over each of so many connections."""
        field = b"Connection: close\r\n" if close else b""
        one = ONE.replace(b"\r\n\r\n", b"\r\n" + field + b"\r\n", 1).decode()
        script = os.path.join(self.folder, "ask.lua")
        with open(script, "w", encoding="utf-8") as it:
            it.write(SCRIPT.format(one=one.replace("\\", "\\\\").replace('"', '\\"').replace("\r", "\\r").replace("\n", "\\n"), times=times))
        words = ["wrk", "-t1", f"-c{clients}", f"-d{self.seconds}s", "--latency", "-s", script, f"http://{HOST}:{port}/"]
        done = subprocess.run(words, capture_output=True, text=True, check=False, preexec_fn=pin(self.of_client))
        rate, half, most = (re.search(it, done.stdout) for it in (r"Requests/sec:\s+([\d.]+)", r"50%\s+([\d.]+)(us|ms|s)", r"99%\s+([\d.]+)(us|ms|s)"))
        if not rate or "Non-2xx" in done.stdout or re.search(r"Socket errors: .*(connect|write|timeout) [1-9]", done.stdout):
            sys.exit("wrk:\n" + done.stdout + done.stderr)
        return float(rate[1]), milliseconds(half), milliseconds(most)

    def ask(self, link, requests):
        """The figures of requests over a connection, one after the other."""
        took = []
        begun = time.monotonic()
        for text in requests:
            before = time.perf_counter()
            link.sendall(text)
            reply = link.recv(65536)
            while not is_whole(reply):
                more = link.recv(65536)
                if not more:
                    sys.exit("a connection has ended: %r" % reply)
                reply += more
            took.append(1000 * (time.perf_counter() - before))
            if not reply.startswith(b"HTTP/1.1 200 "):
                sys.exit("%r was answered %r" % (text, reply))
        seconds = time.monotonic() - begun
        took.sort()
        return len(requests) / seconds, took[len(took) // 2], took[len(took) * 99 // 100]

    def run(self):
        other = {"before": lambda: self.swarm(self.before)} if self.before else {"nginx": self.nginx}
        kinds = {"swarm": self.swarm, **other}
        os.sched_setaffinity(0, self.of_client)
        for place in range(self.rounds):
            for name, start in kinds.items():
                server = start()
                self.keep("CountTasks, a connection kept", name, self.wrk(server.port, 1, 1, False))
                self.keep(f"CountTasks, {PIPELINED} in one write", name, self.wrk(server.port, PIPELINED, 1, False))
                self.keep(f"CountTasks, a connection each, {CLIENTS} clients", name, self.wrk(server.port, 1, CLIENTS, True))
                server.end()
                server = start()
                with socket.create_connection((HOST, server.port), 20) as link:
                    link.setsockopt(socket.IPPROTO_TCP, socket.TCP_NODELAY, 1)
                    if name != "nginx":
                        self.ask(link, [handshake(bot) for bot in BOTS])
                    for call, (requests, _) in AMONG.items():
                        self.keep(f"{call} among at most {TASKS} tasks", name, self.ask(link, requests))
                server.end()
            print(f"round {place + 1} of {self.rounds} is done", file=sys.stderr, flush=True)

    def table(self):
        rows = ["| What | requests/s | half within, ms | 99 of 100 within, ms | nginx: requests/s | half | 99 of 100 | swarm / nginx |", "|---|---|---|---|---|---|---|---|"]
        for name in dict.fromkeys(name for name, _ in self.best):
            own, other = self.best[name, "swarm"], self.best[name, "nginx"]
            cells = [name, *shown(own), *shown(other), f"{own[0] / other[0]:.2f}"]
            rows.append("| " + " | ".join(cells) + " |")
        return "\n".join(rows) + "\n"

    def compared(self):
        """A line for each kind of request: the best of the program before, of the program, and how many times as fast it is."""
        for name in dict.fromkeys(name for name, _ in self.best):
            old, now = self.best[name, "before"][0], self.best[name, "swarm"][0]
            print("%-45s %10.0f /s %10.0f /s %6.2f times" % (name, old, now, now / old))


def shown(figures):
    """The cells of a server's figures; wrk times no requests that go out in one write, and tells 0 for them."""
    return f"{figures[0]:.0f}", *(f"{it:.3f}" if it else "" for it in figures[1:])


def milliseconds(found):
    return float(found[1]) * {"us": 0.001, "ms": 1, "s": 1000}[found[2]] if found else float("inf")


def is_whole(reply):
    end = reply.find(b"\r\n\r\n")
    size = re.search(rb"\r\nContent-Length: ([0-9]+)", reply[:end]) if end >= 0 else None
    return bool(size) and len(reply) >= end + 4 + int(size[1])


def count_calls(bench, folder):
    """The system calls of each server for one request, kept and over a connection of its own."""
    for name, start in (("swarm", bench.swarm), ("nginx", bench.nginx)):
        for kind in ("kept", "a connection each"):
            server = start()
            pids = subprocess.run(["pgrep", "-P", str(server.process.pid)], capture_output=True, text=True, check=False).stdout.split()
            traced, path = pids[0] if pids else str(server.process.pid), os.path.join(folder, "calls")
            tracer = subprocess.Popen(["strace", "-c", "-f", "-o", path, "-p", traced], stderr=subprocess.DEVNULL)
            time.sleep(1)
            if kind == "kept":
                with socket.create_connection((HOST, server.port), 20) as link:
                    bench.ask(link, [ONE] * CALLED)
            else:
                for _ in range(CALLED):
                    with socket.create_connection((HOST, server.port), 20) as link:
                        bench.ask(link, [ONE])
            tracer.send_signal(signal.SIGINT)
            tracer.wait(20)
            server.end()
            with open(path, encoding="utf-8") as it:
                rows = [row.split() for row in it]
            counts = {row[-1]: int(row[3]) / CALLED for row in rows if len(row) >= 5 and row[3].isdigit() and row[-1] != "total"}
            listed = ", ".join(f"{call} {count:.2f}" for call, count in sorted(counts.items(), key=lambda it: -it[1]) if count >= 0.01)
            print(f"{name}, {kind}: {sum(counts.values()):.2f} system calls a request: {listed}", flush=True)


# What the functions of a server belong to: the first that fits, by the library and the name of the function.
SHARES = (
    ("the kernel", re.compile(r"^\[k\]")),
    ("memory taken and given back", re.compile(r"malloc|free\b|realloc|rattle_alloc|unlink_chunk|calloc")),
    ("bytes moved and zeroed", re.compile(r"memmove|memset|memcpy|memcmp")),
    ("JSON", re.compile(r"serde_json|\bjson|reply_bodies|_bodies::|swarm_wire|btree")),
    ("heads and routes", re.compile(r"httparse|head|matchit|routes|link_reader|link_writer|swarm_http|http::|memchr|itoa")),
    ("dimensions", re.compile(r"\bdimensions::")),
    ("the pool", re.compile(r"swarm_machine|pool_log|pool_rules|pool_index|dim_queue|task_rows|bot_registry|row_changes|pool_queries|pool_changes|content_store|region::|block_list|placed_list")),
    ("checks and copies of a task", re.compile(r"task_checks|task_props|swarm_model")),
    ("SHA-256", re.compile(r"sha2")),
)
PROFILED = 3


def profile(bench, folder):
    """For each kind of request the share of the server's time of each kind of function, by perf."""
    columns = {}
    for name in ("CountTasks", f"CountTasks, {PIPELINED} in one write", *AMONG, f"claim, {PIPELINED} in one write"):
        counts, path, kind = {}, os.path.join(folder, "perf.data"), name.partition(",")[0]
        end = time.monotonic() + PROFILED
        while time.monotonic() < end:
            server = bench.swarm()
            with socket.create_connection((HOST, server.port), 20) as link:
                link.setsockopt(socket.IPPROTO_TCP, socket.TCP_NODELAY, 1)
                bench.ask(link, [handshake(bot) for bot in BOTS])
                for call, (requests, _) in AMONG.items():
                    if call == kind:
                        break
                    if kind in AMONG:
                        bench.ask(link, requests)
                words = ["perf", "record", "-q", "-F", "4999", "-o", path, "-p", str(server.process.pid)]
                tracer = subprocess.Popen(words, stdout=subprocess.DEVNULL, stderr=subprocess.DEVNULL)
                time.sleep(0.5)
                requests = AMONG[kind][0] if kind in AMONG else [ONE] * 20000
                if name == kind:
                    bench.ask(link, requests)
                else:
                    for at in range(0, len(requests), PIPELINED):
                        texts, replies = requests[at : at + PIPELINED], b""
                        link.sendall(b"".join(texts))
                        while replies.count(b"HTTP/1.1 200 ") < len(texts):
                            replies += link.recv(65536)
                tracer.send_signal(signal.SIGINT)
                tracer.wait(20)
            server.end()
            words = ["perf", "script", "-i", path, "-F", "ip,sym,dso"]
            shown_lines = subprocess.run(words, capture_output=True, text=True, check=False).stdout.splitlines()
            for line in shown_lines:
                at = "[k] " if "[kernel" in line or "([guest" in line else ""
                share = next((it for it, test in SHARES if test.search(at + line)), "all else")
                counts[share] = counts.get(share, 0) + 1
        columns[name] = counts
    rows = ["| What | " + " | ".join(columns) + " |", "|---|" + "---|" * len(columns)]
    for kind in [*(it for it, _ in SHARES), "all else"]:
        cells = [f"{100 * counts.get(kind, 0) / max(1, sum(counts.values())):.0f} %" for counts in columns.values()]
        rows.append("| " + " | ".join([kind, *cells]) + " |")
    return "\n".join(rows) + "\n"


def write_table(table, begin_mark=BEGIN, end_mark=END):
    with open(PAGE, encoding="utf-8") as it:
        front, begin, rest = it.read().partition(begin_mark + "\n")
    _, end, back = rest.partition(end_mark)
    if not begin or not end:
        sys.exit(f"{PAGE} has no place for the table")
    with open(PAGE, "w", encoding="utf-8") as it:
        it.write(front + begin + table + end + back)


def main():
    parser = argparse.ArgumentParser(usage="bench/serve.py [--rounds N] [--seconds N] [--write] [--calls] [--profile] [--before OTHER] [PROGRAM]")
    parser.add_argument("--rounds", type=int, default=5, metavar="N")
    parser.add_argument("--seconds", type=int, default=3, metavar="N")
    parser.add_argument("--write", action="store_true")
    parser.add_argument("--calls", action="store_true")
    parser.add_argument("--profile", action="store_true")
    parser.add_argument("--before", metavar="OTHER")
    parser.add_argument("program", nargs="?", default=os.path.join(HERE, "crates/swarm/out/swarm"))
    words = parser.parse_args()
    for it in (words.program, words.before):
        if it and not os.access(it, os.X_OK):
            sys.exit("%s is not there: build it by ./swarm session" % it)
    if words.before and (words.write or words.calls or words.profile):
        sys.exit("--before is for the figures alone")
    others = [] if words.before else ["nginx"]
    for it in ["perf"] if words.profile else [*others, "strace" if words.calls else "wrk"]:
        shutil.which(it) or sys.exit(f"{it} isn't installed")
    with tempfile.TemporaryDirectory() as folder:
        os.chmod(folder, 0o755)
        bench = Bench(words, folder)
        if words.calls:
            return count_calls(bench, folder)
        if words.profile:
            os.sched_setaffinity(0, bench.of_client)
            table = profile(bench, folder)
            print(table, end="")
            return write_table(table, PROFILE, PROFILE_END) if words.write else None
        bench.run()
        if words.before:
            return bench.compared()
        print(bench.table(), end="")
        if words.write:
            write_table(bench.table())
    return None


if __name__ == "__main__":
    main()
