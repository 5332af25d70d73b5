"""What the checks of `swarm serve` share: a server on a free port, connections to it, and what the
process holds.

It is no check of its own, so it may not be executed.
"""
import os
import re
import socket
import subprocess
import time

from lib import records

HOST = "127.0.0.1"
# The limits of time of a connection, in seconds (docs/limits.md): before a request, with one worker and
# with more; of another call; and of a request.
IDLE_SECONDS = 1
SHARED_IDLE_SECONDS = 10
CALL_SECONDS = 10
REQUEST_SECONDS = 60
STATES = ("PENDING", "RUNNING", "EXPIRED", "TIMED_OUT", "BOT_DIED", "CANCELED", "COMPLETED", "KILLED", "NO_RESOURCE")
# The largest pool that boards show (docs/settings.md), as lines of its settings.
BOARD_LIMITS = "most_tasks = 65536\nmost_entries = 1048576\nmost_weight = 33554432"


def free_port():
    with socket.socket() as it:
        it.bind((HOST, 0))
        return it.getsockname()[1]


def is_listening(port):
    """Whether a socket of this machine listens on the port, by the table of the system, without a connection."""
    wanted = f":{port:04X}"
    with open("/proc/net/tcp", encoding="ascii") as table:
        rows = [row.split() for row in table][1:]
    return any(row[1].endswith(wanted) and row[3] == "0A" for row in rows)


def wait_until_listening(port, process, seconds=20):
    """Waits until the port is listened on; a process that ends before, or takes longer, is an error."""
    end = time.monotonic() + seconds
    while not is_listening(port):
        if process.poll() is not None or time.monotonic() > end:
            raise RuntimeError(f"{process.args[0]} doesn't listen: its status is {process.poll()}")
        time.sleep(0.01)


def wait_until(holds, seconds=20):
    """What a function answers, once that is true, or after so many seconds."""
    end = time.monotonic() + seconds
    while not (came := holds()) and time.monotonic() < end:
        time.sleep(0.05)
    return came


class Server:
    """`swarm serve` on a free port, for so many connections and with so many workers; or by words of one's
    own, on their port.

    `front` stands before its words, and `more` behind them. It has to listen within so many seconds; one with
    large records takes longer than others. Its boards, where it has some, are on another free port, or on the
    one that is given.
    """

    def __init__(self, connections, settings=None, words=None, port=None, front=(), seconds=20, workers=1, boards=0, board_port=None, more=()):
        self.port = port or free_port()
        self.url = f"http://{HOST}:{self.port}"
        self.board_port = (board_port or free_port()) if boards else None
        if not words:
            words = [*front, records.built_program(), "serve", "--address", f"{HOST}:{self.port}"]
            words += ["--connections", str(connections)]
            words += ["--settings", settings] if settings else []
            words += ["--workers", str(workers)] if workers > 1 else []
            words += ["--boards", str(boards), "--board-address", f"{HOST}:{self.board_port}"] if boards else []
            words += more
        self.connections, self.made = connections, 0
        self.process = subprocess.Popen(words, stdin=subprocess.DEVNULL, stdout=subprocess.PIPE, stderr=subprocess.PIPE)
        try:
            for it in [self.port, self.board_port] if boards else [self.port]:
                wait_until_listening(it, self.process, seconds)
        except RuntimeError:
            self.stop()
            raise

    def __enter__(self):
        return self

    def __exit__(self, *_):
        self.stop()

    def stop(self):
        if self.process.poll() is None:
            self.process.kill()
        self.process.wait()

    def connect(self, seconds=30):
        self.made += 1
        return connect(self.port, seconds)

    def ask(self, *requests, seconds=30):
        """The replies to requests over a connection of their own."""
        with self.connect(seconds) as it:
            it.sendall(b"".join(requests))
            return read_replies(it, len(requests))

    def ask_board(self, *requests, seconds=30):
        """The replies of a board to requests over a connection of their own."""
        with connect(self.board_port, seconds) as it:
            it.sendall(b"".join(requests))
            return read_replies(it, len(requests))

    def end(self, seconds=30):
        """Waits for the end of the server: its status and what it printed. One that still runs is killed."""
        try:
            output, fault = self.process.communicate(timeout=seconds)
        except subprocess.TimeoutExpired:
            self.process.kill()
            output, fault = self.process.communicate()
        return self.process.returncode, output.decode(), fault.decode()

    def use_up(self, request, seconds=60):
        """Makes connections of one request until the server has ended: its end as above, and how many these were."""
        made, end = 0, time.monotonic() + seconds
        while self.process.poll() is None and time.monotonic() < end:
            try:
                self.ask(request, seconds=5)
                made += 1
            except OSError:
                # (it may have ended meanwhile)
                time.sleep(0.05)
        return (*self.end(1), made)

    def memory(self):
        """The memory that the process holds, in KiB."""
        with open(f"/proc/{self.process.pid}/status", encoding="ascii") as it:
            return int(re.search(r"^VmRSS:\s+(\d+) kB$", it.read(), re.M)[1])

    def descriptors(self, wanted=None):
        """How many descriptors the process has; where it is told how many are wanted, within two seconds."""
        end = time.monotonic() + 2
        while True:
            count = len(os.listdir(f"/proc/{self.process.pid}/fd"))
            # (the last connection is ended by the server a moment after it is by this side)
            if wanted is not None and count != wanted and time.monotonic() < end:
                time.sleep(0.01)
            else:
                return count


def connect(port, seconds=30):
    """A connection to a server of this machine, each call of which may take so many seconds."""
    return socket.create_connection((HOST, port), seconds)


def read_replies(it, count):
    """The replies that come over a connection, up to so many or up to its end."""
    replies, output = [], bytearray()
    while len(replies) < count:
        size = size_of_reply(output)
        if size is not None and len(output) >= size:
            replies += records.replies_in(bytes(output[:size]))
            del output[:size]
            continue
        more = it.recv(1 << 20)
        if not more:
            break
        output += more
    return replies


def size_of_reply(output):
    """The bytes of the reply at the front, head and body, once its head is there."""
    end = output.find(b"\r\n\r\n", 0, 16384)
    found = re.search(rb"\r\nContent-Length: ([0-9]+)", output[:end]) if end >= 0 else None
    return end + 4 + int(found[1]) if found else None


def summary(pools):
    """The summary of pools, each with its name, entries, accepted tasks, and the states that aren't 0."""
    lines = []
    for name, entries, accepted, states in pools:
        lines.append(f"pool {name} entries {entries} accepted {accepted}")
        lines += [f"{state} {states.get(state, 0)}" for state in STATES]
    return "".join(line + "\n" for line in lines)
