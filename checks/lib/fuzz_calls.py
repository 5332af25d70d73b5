"""The calls that the fuzz makes: bodies that mostly pass, over the names that the model's pools have.

A part of `checks/fuzz`; it is no check of its own.
"""
import base64
import hashlib

from lib.fuzz_values import Pairs
from lib.model_calls import STATES, id_of

CALLERS = ["ana", "bob", "rack"]
CONTENTS = [b"", b"a", b"hello\n", b"x" * 63, b"y" * 64, b"z" * 65, b"w" * 129, bytes(range(256)) * 2, b"v" * 3000, b"u" * 20000]
BLOBS = [(hashlib.sha256(it).hexdigest(), len(it)) for it in CONTENTS]
VALUES = {"os": ["Linux", "Mac", "Linux-6"], "cpu": ["x86", "arm"], "id": ["b1", "b2", "b3", "b4"]}
WEIGHTS = {
    "new_task": 16, "handshake": 9, "poll": 9, "claim": 16, "report": 18, "event": 4, "cancel_task": 5, "get_result": 9, "get_stdout": 5,
    "list_tasks": 3, "count_tasks": 3, "terminate_bot": 1, "get_bot": 4, "list_bots": 3, "put_blob": 8, "get_blob": 4, "find_missing": 3,
}
SLEEPS = [60, 61, 90, 120, 600, 1200, 0]


class Calls:
    """Makes bodies of calls over a model's server, whose rows say what there is to ask for."""

    def __init__(self, random, server):
        self.random, self.server = random, server

    def make(self):
        """A call with the parts of its target and its body."""
        call = self.random.choices(list(WEIGHTS), WEIGHTS.values())[0]
        if call in ("poll", "claim", "event") and self.chance(0.5) and all(bot.unfit() for pool in self.server.pools for bot in pool.bots.values()):
            call = "handshake"
        if call == "report" and self.chance(0.8) and not any(bot.run for pool in self.server.pools for bot in pool.bots.values()):
            call = self.some(["new_task", "claim"])
        return (call, *getattr(self, call)())

    def chance(self, share):
        return self.random.random() < share

    def some(self, items):
        return self.random.choice(list(items))

    # What there is.

    def pool(self):
        return self.some(self.server.pools)

    def pool_name(self):
        return self.some(["other", "", "Default", "x" * 65]) if self.chance(0.02) else self.pool().settings.name

    def bot_of(self, pool, busy=None):
        """The name of a bot, where there is one that runs a task, or that runs none; mostly one that gets work."""
        names = [it.name for it in pool.bots.values() if busy is None or bool(it.run) == busy]
        names = [it for it in names if not pool.bots[it].unfit()] if self.chance(0.7) else names
        return self.some(names) if names and self.chance(0.95) else self.some(VALUES["id"])

    def task_of(self, pool, state=None):
        tasks = [it for it in pool.tasks[-40:] if state in (None, it.state)]
        return self.some(tasks) if tasks else None

    def task_id(self, runs=0.5, state=None):
        pool = self.pool()
        task = self.task_of(pool, state) if self.chance(0.8) else self.task_of(pool)
        if task is None or self.chance(0.03):
            return self.some(["10", "11", "12", "20", "400010", "c00010", "1000010", "7ffff0", "0", "13", "010", "1A0", "10 ", id_of(pool.place, len(pool.tasks) + 1)])
        known = [run.number for run in (task.retried, task.run) if run]
        return task.id(self.some(known if known and self.chance(0.9) else [1, 2]) if self.chance(runs if known else 0.05) else 0)

    def with_some(self, shares, **fields):
        """The fields, but each that is named in `shares` only with its chance; in any order now and then."""
        found = Pairs((key, value) for key, value in fields.items() if self.chance(shares.get(key, 1)))
        if self.chance(0.1):
            self.random.shuffle(found)
        return found

    def number(self, number):
        return str(number) if self.chance(0.03) else number

    # Calls of clients.

    def new_task(self):
        pool = self.pool_name()
        slices = [self.slice(pool) for _ in range(self.random.choice([1, 1, 1, 2, 2, 3]))]
        body = self.with_some(
            {"name": 0.3, "priority": 0.4, "bot_ping_tolerance_secs": 0.5, "request_uuid": 0.25},
            name=self.some(["", "build", "b\u00fcild \"x\"", "n" * 200]), priority=self.number(self.random.choice([0, 1, 2, 50, 255])),
            bot_ping_tolerance_secs=self.number(self.some(SLEEPS)), request_uuid=self.some(["u1", "u2", "u3", ""]), task_slices=slices)
        return (), body

    def slice(self, pool):
        return self.with_some(
            {"wait_for_capacity": 0.8}, expiration_secs=self.number(self.some([1, 2, 60, 60, 90, 600, 3600, 604800])),
            wait_for_capacity=self.chance(0.7), properties=self.properties(pool))

    def properties(self, pool):
        dimensions = [Pairs(key="pool", value=pool)]
        if self.chance(0.35):
            return Pairs(command=["true"], dimensions=dimensions, idempotent=True)
        for key in ("os", "cpu", "id"):
            if self.chance(0.25):
                values = self.random.sample(VALUES[key], self.random.choice([1, 1, 2]))
                dimensions.append(Pairs(key=key, value="|".join(values)))
        self.random.shuffle(dimensions)
        return self.with_some(
            {
                "env": 0.2, "caches": 0.15, "inputs": 0.2, "outputs": 0.2,
                "execution_timeout_secs": 0.2, "io_timeout_secs": 0.2, "grace_period_secs": 0.2, "idempotent": 0.6,
            },
            command=self.some([["true"], ["a"], ["make", "-j", "\n\t\"\\/\u20ac\x7f\x01"]]),
            env=[Pairs(key=key, value=self.some(["", "C", "\u00e9\n"])) for key in self.random.sample(["LANG", "A", "_b1"], self.random.randrange(3))],
            dimensions=dimensions,
            caches=[Pairs(name=name, path=f"cache/{name}") for name in self.random.sample(["git", "cc", "builder_9"], self.random.randrange(3))],
            inputs=[self.file(path) for path in self.random.sample(["a", "src/main.c", "b.."], self.random.choice([1, 1, 2]))],
            outputs=self.random.sample(["out", "out/log.txt", "z"], self.random.randrange(3)),
            execution_timeout_secs=self.number(self.some([0, 1, 3600])), io_timeout_secs=self.some([0, 60]), grace_period_secs=self.some([0, 30, 3600]),
            idempotent=self.chance(0.8))

    def file(self, path):
        """A file whose blob is held, more often than not."""
        held = [(it.digest, it.size) for it in self.pool().blobs.held.values()]
        digest, size = self.some(held) if held and self.chance(0.8) else self.some(BLOBS)
        if self.chance(0.05):
            size += 1
        return Pairs(path=path, digest=digest, size=self.number(size))

    def get_result(self):
        return (), Pairs(task_id=self.task_id())

    def get_stdout(self):
        some = [0, 1, 2, 5, 6, 7, 63, 64, 100, 20000, 65536]
        return (), self.with_some({"offset": 0.5, "length": 0.5}, task_id=self.task_id(0.5), offset=self.some(some), length=self.some(some))

    def cancel_task(self):
        state = self.some(["PENDING", "RUNNING", "RUNNING", None])
        return (), self.with_some({"kill_running": 0.7}, task_id=self.task_id(state=state), kill_running=self.chance(0.7))

    def list_tasks(self):
        pool = self.pool()
        cursor = pool.place * 262144 + self.random.randrange(1, len(pool.tasks) + 3) if self.chance(0.9) else self.random.randrange(1, 1048577)
        return (), self.with_some(
            {"state": 0.6, "limit": 0.8, "cursor": 0.5}, pool=pool.settings.name if self.chance(0.97) else self.pool_name(), state=self.some(STATES),
            limit=self.some([0, 1, 2, 3, 10, 200]), cursor=self.number(cursor))

    def count_tasks(self):
        return (), self.with_some({"state": 0.8}, pool=self.pool_name(), state=self.some(STATES))

    # Blobs.

    def put_blob(self):
        at = self.random.randrange(len(BLOBS))
        digest = BLOBS[at][0] if self.chance(0.96) else self.some([self.some(BLOBS)[0], "0" * 64, "0", "A" * 64, "f" * 65])
        return (self.pool_name(), digest), CONTENTS[at]

    def get_blob(self):
        held = list(self.pool().blobs.held)
        digest = self.some(held) if held and self.chance(0.7) else self.some(BLOBS)[0]
        return (self.pool_name(), digest if self.chance(0.97) else self.some(["g" * 64, "1", "-"])), b"" if self.chance(0.9) else b"{}"

    def find_missing(self):
        asked = [Pairs([("digest", digest), ("size", size + self.chance(0.1))]) for digest, size in self.random.choices(BLOBS, k=self.random.randrange(6))]
        return (self.pool_name(),), Pairs(blobs=asked)

    # Calls of bots, and on them.

    def dimensions(self, pool, name):
        found = [Pairs(key="pool", value=[pool]), Pairs(key="id", value=[name])]
        for key in ("os", "cpu"):
            if self.chance(0.6):
                found.append(Pairs(key=key, value=self.random.sample(VALUES[key], self.random.choice([1, 1, 2]))))
        self.random.shuffle(found)
        return found

    def quarantined(self):
        return self.some(["", "", "", "", "", "disk", "d\u00e9j\u00e0 \"vu\"\n"])

    def handshake(self):
        pool = self.pool()
        name = self.some(pool.bots) if pool.bots and self.chance(0.4) else self.some(VALUES["id"])
        bot = pool.bots.get(name)
        session = bot.session if bot and self.chance(0.1 if bot.dead else 0.5) else self.some(["s1", "s2", "s3"])
        dimensions = self.dimensions(self.some([pool.settings.name] * 30 + ["other"]), name)
        return (), self.with_some({"quarantined": 0.3}, bot_id=name, session=session, dimensions=dimensions, quarantined=self.quarantined())

    def poll(self):
        pool = self.pool()
        name = self.bot_of(pool, self.some([False, False, False, None]))
        bot = pool.bots.get(name)
        dimensions = self.dimensions(pool.settings.name, name)
        if bot and self.chance(0.7):
            dimensions = [Pairs(key=key, value=list(values)) for key, values in bot.dimensions.items()]
        return (), self.with_some({"quarantined": 0.2}, bot_id=name, dimensions=dimensions, quarantined=self.quarantined())

    def claim(self):
        pool = self.pool()
        name = self.bot_of(pool, self.some([False, False, False, True]))
        bot = pool.bots.get(name)
        claims = list(bot.claims) if bot else []
        claim = self.some(claims[-3:]) if claims and self.chance(0.2) else f"c{self.random.randrange(1000)}"
        return (), self.with_some({}, pool=pool.settings.name, bot_id=name, claim_id=claim)

    def event(self):
        pool = self.pool()
        event = self.some(["ping", "ping", "quarantine", "unquarantine", "unquarantine", "pong"] if self.chance(0.9) else ["", "Ping"])
        return (), self.with_some({"message": 0.7}, pool=pool.settings.name, bot_id=self.bot_of(pool), event=event, message=self.some(["", "disk", "m" * 256]))

    def bot_fields(self):
        pool = self.pool()
        return (), self.with_some({}, pool=pool.settings.name if self.chance(0.97) else self.pool_name(), bot_id=self.bot_of(pool))

    terminate_bot = get_bot = bot_fields

    def list_bots(self):
        return (), self.with_some(
            {"limit": 0.7, "cursor": 0.5}, pool=self.pool_name(), limit=self.some([0, 1, 2, 200]), cursor=self.some(["", "b1", "b2", "a", "z", "b1.x"]))

    def report(self):
        pool = self.pool()
        bots = [it for it in pool.bots.values() if it.run]
        if bots and self.chance(0.85):
            bot = self.some(bots)
            return (), self.report_on(pool, bot.name, bot.run, bot.run.run)
        task = self.task_of(pool)
        run = task and self.some([task.run, task.retried])
        if not run:
            return (), Pairs(bot_id=self.bot_of(pool), task_id=task.id(1) if task else "11")
        if run.last and self.chance(0.4):
            return (), Pairs(self.repeated(run.last))
        return (), self.report_on(pool, run.bot if self.chance(0.8) else self.bot_of(pool), task, run)

    def repeated(self, last):
        """The last report of a run again, or nearly so."""
        for key, value in last.items():
            if self.chance(0.02):
                continue
            if key == "output":
                yield key, base64.b64encode(value).decode()
            elif key == "start":
                yield "output_chunk_start", value
            elif key == "files":
                yield key, [Pairs(it.items()) for it in value]
            elif value is not None:
                yield key, value

    def report_on(self, pool, name, task, run):
        ends = self.chance(0.35)
        fields = Pairs(bot_id=name, task_id=task.id(run.number))
        if self.chance(0.6):
            start, content = run.length, self.some(CONTENTS[:8])
            if self.chance(0.25) and run.pieces:
                start, _, digest = self.some(run.pieces)
                held = pool.blobs.held.get(digest)
                content = held.content if held and self.chance(0.8) else content
            elif self.chance(0.1):
                start = max(0, start + self.some([-1, 1, 5]))
            output = base64.b64encode(content).decode() if self.chance(0.97) else self.some(["aGk", "aGl=", "aG==", "a===", "aGk=aGk=", "aG k", "-_-_", "QUFB" * 10923])
            fields += [("output", output), ("output_chunk_start", self.number(start))]
        if ends:
            fields.append(("exit_code", self.some([0, 0, 0, 0, 1, -1, 137])))
        if self.chance(0.4 if ends else 0.1):
            fields += self.with_some(
                {"duration_ms": 0.5, "hard_timeout": 0.3, "io_timeout": 0.2, "dropped": 0.2, "files": 0.4}, duration_ms=self.some([0, 5210]),
                hard_timeout=self.chance(0.5), io_timeout=self.chance(0.5), dropped=self.some([0, 9]),
                files=[self.file(path) for path in self.random.sample(["out", "a/b"], self.random.randrange(3))])
        return fields
