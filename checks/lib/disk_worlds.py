"""Worlds over which disks fail: a store and a list of requests, and what comes of some of them without a fault.

It is no check of its own, so it may not be executed.
"""
import json
import os
import re
import shutil
import sqlite3
import tempfile
import threading
from typing import NamedTuple

from lib import records
from lib.failing_disks import Session, program

POOLS = ("default", "lab")
# So long ago the records were written: some deadlines have come since, and none comes while a check runs.
AGO = 150_000
LIMITS = "blob_life_secs = 100000\ndeath_timeout_secs = 100000"
MOMENT = r"\b(?:1[5-9]|2[0-4])[0-9]{8}\b"
FILE = b"int main(void) { return 0; }\n" * 300
OLD_FILE = b"an old file\n" * 200
LARGE_FILE = bytes(range(256)) * 17000
OUTPUT, LAST = b"compiling\n" * 600, b"done\n"
RUNS, EXPIRES, FIRST = "20", "30", "40"
RUN = "41"


# ---- the requests


def poll(bot):
    dimensions = [{"key": "pool", "value": ["default"]}, {"key": "id", "value": [bot]}]
    return records.request("/bot/poll", {"bot_id": bot, "dimensions": dimensions}, "rack")


def task(name, seconds=604800, pool="default", more=(), **members):
    """A task whose one slice expires in so many seconds."""
    dimensions = [{"key": "pool", "value": pool}, *more]
    slices = [{"expiration_secs": seconds, "wait_for_capacity": True, "properties": {"command": ["true"], "dimensions": dimensions}}]
    return records.request("/prpc/swarming.v2.Tasks/NewTask", {"name": name, "task_slices": slices, **members})


def listed(what, pool="default"):
    return records.request(f"/prpc/swarming.v2.{what}", {"pool": pool})


READ = ("tasks", records.count())
OF_A_TASK = ("task", task("first"))
OF_A_BLOB = ("blob", records.put(FILE))
OF_A_LARGE_BLOB = ("large blob", records.put(LARGE_FILE))
OF_A_BOT = ("handshake", records.handshake("b1", session="s2"))
OF_THE_LAB = ("task of the lab", task("of the lab, too", pool="lab"))
WHOLE = [
    READ,
    OF_A_BOT,
    OF_A_TASK,
    OF_A_BLOB,
    ("poll", poll("b1")),
    ("claim", records.claim("b1", "c2")),
    ("output", records.report("b1", RUN, OUTPUT, 0)),
    ("cancel", records.cancel("10")),
    OF_THE_LAB,
    ("result", records.result(FIRST)),
    ("blob again", records.put(FILE)),
    ("last report", records.report("b1", RUN, LAST, len(OUTPUT), 0)),
    ("output that is shown", records.stdout(FIRST)),
    ("blob that is read", records.get(records.digest(FILE))),
    ("idempotent claim", records.claim("b1", "c3")),
    ("tasks of the lab", records.count("lab")),
]
QUESTIONS = [
    *(records.count(state=state) for state in ("ALL", "PENDING", "RUNNING", "COMPLETED", "EXPIRED", "BOT_DIED", "CANCELED")),
    *(records.result(it) for it in ("10", RUNS, EXPIRES, FIRST, "50", "400010", "400020", "400030")),
    *(records.stdout(it) for it in (RUNS, FIRST)),
    *(records.get(records.digest(it)) for it in (FILE, OLD_FILE, OUTPUT, LARGE_FILE)),
    *(listed(it) for it in ("Tasks/ListTasks", "Bots/ListBots")),
    listed("Tasks/ListTasks", "lab"),
    task("after"),
    records.handshake("b9"),
    task("after", pool="lab"),
    records.count(),
    records.count("lab"),
]


# ---- the stores


def serve(store, requests):
    """A session that serves all of these requests."""
    output, status = store.session(requests, program())
    came = [reply.status for reply in records.replies_in(output)]
    if status != 0 or came != [200] * len(requests):
        raise ValueError(f"a session without a fault: status {status}, {came}")


def written(folder, base=True):
    """Records over which deadlines have come, of one bot, a run, a task and blobs; with a base before them, or without."""
    store = records.Store(folder, POOLS, more=LIMITS)
    waits = task("waits", more=[{"key": "os", "value": "none"}])
    before = [waits, task("of the lab", pool="lab")]
    if base:
        serve(store, before)
        for pool in POOLS:
            records.move_lines(store.file(pool), -2 * AGO)
        store.checkpoint(program())
        before = []
    serve(store, [
        *before,
        records.handshake("b1"),
        task("runs", bot_ping_tolerance_secs=120),
        records.claim("b1", "c1"),
        records.report("b1", "21", b"begins\n", 0),
        records.put(OLD_FILE),
        task("expires", 60),
        records.handshake("b2"),
        task("of the lab, later", pool="lab"),
    ])
    for pool in POOLS:
        records.move_lines(store.file(pool), -AGO)
    return store


def of_version_1(folder):
    store = written(folder, base=False)
    for pool in POOLS:
        records.change(store.file(pool), *records.as_version_1())
    return store


def left_open(folder):
    """Records of a session that was killed, with a log beside the files."""
    store = written(folder)
    os.makedirs(os.path.join(folder, "run"))
    it = Session(os.path.join(folder, "run"), store)
    for request in (task("before the kill", pool="lab"), records.handshake("b0", session="s0")):
        it.ask(request)
    it.kill()
    return store


def nothing(folder):
    return records.Store(folder, POOLS, more=LIMITS)


class World:
    """A store and requests, each with its name; by sessions, or by servers. Of the calls of a name so many fail at
    most, each in cases of its own."""

    def __init__(self, folder, name, make, requests, by=Session, most=1000):
        self.name, self.requests, self.by, self.most = name, requests, by, most
        self.store = make(os.path.join(folder, name.replace(" ", "-")))
        self.lock, self.courses, self.dues = threading.Lock(), {}, {}

    def pool_of(self, place):
        """The pool that is asked by a request."""
        return next((pool for pool in POOLS if b'"%s"' % pool.encode() in self.requests[place][1]), POOLS[0])

    def copied(self, folder):
        store = records.Store(folder, POOLS, more=LIMITS)
        shutil.rmtree(store.records)
        shutil.copytree(self.store.records, store.records)
        return store

    def course(self, order):
        """What comes of the requests at these places, one after the other, without a fault."""
        with self.lock:
            if order not in self.courses:
                self.courses[order] = self.play(order)
            return self.courses[order]

    def play(self, order):
        with tempfile.TemporaryDirectory(dir=room()) as folder:
            store = self.copied(folder)
            run = self.by(folder, store)
            replies = [told(run.ask(self.requests[place][1])) for place in order]
            end = run.end()
            return Course(replies, end, rows_in(store), answers_after(store))

    def calls(self):
        """The calls of a run without a fault, from its start to its end."""
        with tempfile.TemporaryDirectory(dir=room()) as folder:
            run = self.by(folder, self.copied(folder), [])
            for _, request in self.requests:
                run.ask(request)
            run.end()
            return run.calls()

    def due(self, pool):
        """The lines that a read adds, of the deadlines that have come."""
        before = self.course(()).rows[pool]["lines"]
        with self.lock, tempfile.TemporaryDirectory(dir=room()) as folder:
            if pool not in self.dues:
                store = self.copied(folder)
                store.session([records.count(pool)], program())
                self.dues[pool] = rows_in(store)[pool]["lines"][len(before) :]
            return self.dues[pool]


class Course(NamedTuple):
    replies: list
    end: tuple
    rows: dict
    after: list


def room():
    """The folder in which stores lie: memory, where there is such a place, since a disk would be most of the time."""
    return "/dev/shm" if os.access("/dev/shm", os.W_OK) else None


# ---- what is compared


def plain(text):
    """A text without its moments."""
    return re.sub(MOMENT, "MOMENT", text)


def told(reply):
    """A reply without its moments; of a blob its digest."""
    if reply is None:
        return None
    try:
        body = plain(reply.body.decode())
    except UnicodeDecodeError:
        body = records.digest(reply.body)
    return reply.status, reply.front, body if len(body) < 10000 else records.digest(body.encode())


def is_refused(reply):
    """Whether a reply is the refusal of a keeper that failed."""
    return reply is not None and reply.status == 503 and reply.json().get("code") == "keeper_fault"


def plain_line(line):
    """A line without its moment and its pass, which are those of the run that added it."""
    return plain(records.compact({key: value for key, value in json.loads(line).items() if key not in ("m", "p")}))


def rows_in(store):
    """The rows of each pool: the lines of the base and of the log, the count, and the digests of right blobs."""
    return {pool: rows_of(store.file(pool)) for pool in store.pools if os.path.exists(store.file(pool))}


def rows_of(path):
    with tempfile.TemporaryDirectory(dir=room()) as folder:
        copy = os.path.join(folder, "copy")
        for end in records.ENDS:
            if os.path.exists(path + end):
                shutil.copyfile(path + end, copy + end)
        kept = sqlite3.connect(copy)
        try:
            return {
                "lines": [plain_line(text) for (text,) in kept.execute("SELECT text FROM lines ORDER BY no")],
                "numbers": [number for (number,) in kept.execute("SELECT no FROM lines ORDER BY no")],
                "base": [plain(text) for (text,) in kept.execute("SELECT text FROM base ORDER BY no")],
                "meta": kept.execute("SELECT name, value FROM meta ORDER BY name").fetchall(),
                "blobs": {name.hex(): records.digest(text) == name.hex() for name, text in kept.execute("SELECT digest, bytes FROM blobs")},
            }
        except sqlite3.Error as error:
            return {"error": str(error)}
        finally:
            kept.close()


def answers_after(store):
    """What a further session answers, and its status."""
    output, status = store.session(QUESTIONS, program())
    return [told(reply) for reply in records.replies_in(output)], status
