"""Runs of the program of which calls of the system fail, by strace: a session over pipes, and a server.

The tracer stands beside the program and not before it, so the program is the child of the check, and goes on
where the tracer is gone: then its disk is well again. Numbers of calls count from the begin of the program.

It is no check of its own, so it may not be executed.
"""
import functools
import os
import re
import select
import signal
import socket
import subprocess
import threading
import time
from typing import NamedTuple

from lib import records, serving

# The calls by which a keeper changes a disk, and those by which it opens and reads a file.
CHANGES = ("fdatasync", "pwrite64", "ftruncate", "unlink")
READS = ("openat", "pread64")
ERRORS = ("EIO", "ENOSPC")
SECONDS = 30
# How many connections a server takes: more than there are requests in a run.
CONNECTIONS = 40
# A request that no pool is asked for: its reply tells that the start is over.
NO_CALL = records.request("/nothing", {})
# Ports below those that the system gives to connections, so that no connection has one of them.
FIRST_PORT, LAST_PORT = 20000, 32000


@functools.cache
def program():
    return records.built_program()


class Fault(NamedTuple):
    """The calls of a name from one number on, up to another, fail with an error; without a last one for good."""

    call: str
    error: str
    first: int
    last: int | None

    def when(self):
        if self.last is None:
            return f"{self.first}+"
        return str(self.first) if self.first == self.last else f"{self.first}..{self.last}"

    def word(self):
        return f"inject={self.call}:error={self.error}:when={self.when()}"


def words_of(faults):
    """The words of strace that let the calls fail; without a fault it tells all that are looked at."""
    calls = sorted({*CHANGES, *(fault.call for fault in faults)} if faults else {*CHANGES, *READS})
    # (it lets go of the program at a signal)
    words = ["strace", "-f", "-I", "2", "-qq", "-e", "signal=none", "-e", f"trace={','.join(calls)}"]
    # (a filter of the kernel's is quicker, but where the tracer has gone the calls would fail by it)
    words += ["--seccomp-bpf"] if all(fault.last is not None for fault in faults) else []
    return words + [word for fault in faults for word in ("-e", fault.word())]


class Ports:
    """Free ports, each given once."""

    def __init__(self):
        self.lock, self.next = threading.Lock(), FIRST_PORT + os.getpid() * 97 % (LAST_PORT - FIRST_PORT)

    def take(self):
        with self.lock:
            while True:
                self.next = FIRST_PORT + (self.next + 1 - FIRST_PORT) % (LAST_PORT - FIRST_PORT)
                with socket.socket() as it:
                    it.setsockopt(socket.SOL_SOCKET, socket.SO_REUSEADDR, 1)
                    try:
                        it.bind((serving.HOST, self.next))
                        return self.next
                    except OSError:
                        pass


PORTS = Ports()


class Run:
    """A run of the program over a store; with faults, or a list of calls that are only told, under a tracer."""

    def __init__(self, folder, words, faults=None, stdin=subprocess.DEVNULL):
        self.trace, self.output, self.log = (os.path.join(folder, name) for name in ("trace", "output", "log"))
        if faults is not None:
            words = [*words_of(faults), "-D", "-o", self.trace, *words]
        self.environment = {**os.environ, "SWARM_LOG": "error"}
        self.start(words, stdin)

    def start(self, words, stdin):
        with open(self.output, "wb") as output, open(self.log, "wb") as log:
            self.process = subprocess.Popen(words, stdin=stdin, stdout=output, stderr=log, env=self.environment)

    def read(self, path):
        try:
            with open(path, encoding="utf-8", errors="replace") as file:
                return file.read()
        except FileNotFoundError:
            return ""

    def calls(self):
        """The names of the calls so far, in their order."""
        return re.findall(r"^\d+ +(\w+)\(", self.read(self.trace), re.M)

    def failures(self):
        """How many calls have failed so far by a fault of this run."""
        return self.read(self.trace).count("(INJECTED)")

    def failed_calls(self):
        """The lines of the calls that failed by a fault of this run."""
        return [re.sub(r'"(?:[^"\\]|\\.)*"\.*', '".."', line) for line in self.read(self.trace).splitlines() if "(INJECTED)" in line]

    def log_lines(self):
        return self.read(self.log).splitlines()

    def mend(self):
        """Takes the tracer away: no call fails any more."""
        if tracer := self.tracer():
            os.kill(tracer, signal.SIGTERM)
            serving.wait_until(lambda: not self.tracer(), SECONDS)

    def tracer(self):
        found = re.search(r"^TracerPid:\s+(\d+)$", self.read(f"/proc/{self.process.pid}/status"), re.M)
        return int(found[1]) if found else 0

    def kill(self):
        self.process.kill()
        self.process.wait()

    def wait(self):
        """The status, once the program has ended; None where it doesn't end."""
        try:
            return self.process.wait(SECONDS)
        except subprocess.TimeoutExpired:
            self.kill()
            return None


class Session(Run):
    """A session, which is asked one request after the other."""

    def __init__(self, folder, store, faults=None):
        self.rest = b""
        super().__init__(folder, store.words(program()), faults, subprocess.PIPE)
        self.is_up = self.ask(NO_CALL) is not None

    def start(self, words, stdin):
        with open(self.log, "wb") as log:
            self.process = subprocess.Popen(words, stdin=stdin, stdout=subprocess.PIPE, stderr=log, env=self.environment)

    def ask(self, request):
        """The reply, or None where the session has ended or doesn't answer."""
        try:
            self.process.stdin.write(request)
            self.process.stdin.flush()
        except BrokenPipeError:
            return None
        end = time.monotonic() + SECONDS
        while (size := serving.size_of_reply(self.rest)) is None or len(self.rest) < size:
            if not select.select([self.process.stdout], [], [], max(0, end - time.monotonic()))[0]:
                return None
            if not (more := os.read(self.process.stdout.fileno(), 1 << 20)):
                return None
            self.rest += more
        reply, self.rest = records.replies_in(self.rest[:size])[0], self.rest[size:]
        return reply

    def end(self):
        """The status, and what was printed behind the replies."""
        try:
            self.process.stdin.close()
        except BrokenPipeError:
            pass
        status = self.wait()
        return status, (self.rest + self.process.stdout.read()).decode()

    def kill(self):
        super().kill()
        self.process.stdout.close()


class Server(Run):
    """A server, which is asked each request over a connection of its own."""

    def __init__(self, folder, store, faults=None):
        self.port, self.made = PORTS.take(), 0
        words = [*store.words(program(), "serve"), "--address", f"{serving.HOST}:{self.port}", "--connections", str(CONNECTIONS)]
        super().__init__(folder, words, faults)
        try:
            serving.wait_until_listening(self.port, self.process, SECONDS)
            self.is_up = True
        except RuntimeError:
            self.is_up = False

    def ask(self, request):
        self.made += 1
        try:
            with serving.connect(self.port, SECONDS) as it:
                it.sendall(request)
                replies = serving.read_replies(it, 1)
        except OSError:
            return None
        return replies[0] if replies else None

    def end(self):
        """Makes the connections that are left, without a request, and waits for the end: the status, and the summary."""
        while self.is_up and self.made < CONNECTIONS:
            self.made += 1
            try:
                serving.connect(self.port, SECONDS).close()
            except OSError:
                break
        status = self.wait()
        return status, self.read(self.output)
