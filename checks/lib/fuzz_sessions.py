"""What the fuzz does with the program: sessions of settings and steps, made from a seed.

A session is a list of runs, over one store where it has one. A run is one connection: its steps are bytes
that are sent at a second of the clock, with a store that takes entries or fails. A part of `checks/fuzz`;
it is no check of its own.
"""
from lib import fuzz_heads
from lib import fuzz_values as values
from lib.fuzz_calls import CALLERS, Calls
from lib.model import ALL_PERMISSIONS, Connection, Server
from lib.model_heads import CALLS
from lib.model_pool import PoolSettings

TARGETS = {call: target for target, call in CALLS.items()}
LAST_MOMENT = 1 << 40
# How long a batch of requests may be, so that neither side waits for the other to read.
MOST_BATCH = 200000


class Step:
    """Requests that are sent in these pieces, the second of the clock, whether the store fails, and the answers."""

    def __init__(self, requests, pieces, clock, fails, answers=()):
        self.requests, self.pieces, self.clock, self.fails, self.answers = requests, pieces, clock, fails, answers

    def text(self):
        return b"".join(self.pieces)


class Run:
    """One connection: its steps, and the status with which `session` ends behind them.

    Where a checkpoint is made before it, `checkpoint` is what that prints.
    """

    def __init__(self, steps, status, checkpoint=None):
        self.steps, self.status, self.checkpoint = steps, status, checkpoint


class Session:
    def __init__(self, settings, stored):
        self.settings, self.stored, self.runs = settings, stored, []

    def requests(self):
        return sum(len(step.answers) for run in self.runs for step in run.steps)


def take(connection, step):
    """What the model answers to a step."""
    for pool in connection.server.pools:
        pool.fails = step.fails
    return connection.take(step.text(), step.clock)


def one_by_one(session):
    """The session with a step for each request."""
    found = Session(session.settings, session.stored)
    for run in session.runs:
        steps = [Step([it], [it], step.clock, step.fails) for step in run.steps for it in step.requests]
        found.runs.append(Run(steps, run.status, run.checkpoint))
    return answer_again(found)


def answer_again(session):
    """The same steps with the answers of a new model, as after some were left out."""
    server = Server(session.settings)
    found = Session(session.settings, session.stored)
    for run in session.runs:
        checkpoint = None if run.checkpoint is None else server.checkpoint()
        connection, steps = Connection(server), []
        for step in run.steps:
            if connection.status is not None:
                break
            steps.append(Step(step.requests, step.pieces, step.clock, step.fails))
            steps[-1].answers = take(connection, steps[-1])
        found.runs.append(Run(steps, connection.end(), checkpoint))
    return found


def write_settings(pools, store=None):
    """The settings as a file has them."""
    lines = [f"store = \"{store}\""] if store else []
    for pool in pools:
        lines += ["[[pools]]", f"name = \"{pool.name}\""]
        lines += [f"{key} = {getattr(pool, key)}" for key in PoolSettings.NUMBERS if getattr(pool, key) != PoolSettings.NUMBERS[key]]
        for caller, permissions in pool.grants:
            lines += ["[[pools.grants]]", f"caller = \"{caller}\"", "permissions = [" + ", ".join(f"\"{it}\"" for it in permissions) + "]"]
    return "".join(f"{it}\n" for it in lines)


def make_settings(random):
    def some(share, choices):
        return random.choice(choices) if random.random() < share else None

    pools = []
    for name in random.choice([["default"], ["default"], ["default"], ["default", "lab.2"], ["a", "default", "-"]]):
        numbers = {
            "retries": random.randrange(2),
            "reuse_age_secs": some(0.3, [0, 1, 60, 3600]),
            "death_timeout_secs": some(0.4, [60, 61, 90, 1200]),
            "blob_life_secs": some(0.5, [60, 100, 600]),
            "store_units": some(0.5, [1, 2, 4, 8, 40]) or 1000,
            "most_tasks": some(0.1, [1, 2, 5, 20]),
            "most_bots": some(0.1, [1, 2, 3]),
            "most_entries": some(0.08, [1, 5, 20, 60]),
            "most_weight": some(0.1, [1, 100, 500, 2000, 5000]),
        }
        grants = [("*", ALL_PERMISSIONS)]
        if random.random() < 0.12:
            grants = [(random.choice(["*", *CALLERS]), random.sample(ALL_PERMISSIONS, random.randrange(1, 8))) for _ in range(random.randrange(4))]
        pools.append(PoolSettings(name, grants, **{key: number for key, number in numbers.items() if number is not None}))
    return pools


class Maker:
    """Makes a session, and by the model the answers to it."""

    def __init__(self, random, records=True):
        self.random, self.heads, self.stored = random, fuzz_heads.Heads(random), records and random.random() < 0.2
        # The shares of bodies and of heads that are changed, and how far the clock goes on: sessions differ.
        self.broken_bodies = random.choice([0.02, 0.1, 0.1, 0.3])
        self.broken_heads = random.choice([0.001, 0.003, 0.01, 0.1])
        self.pace = random.choice([0.2, 0.5, 1, 1])
        self.clock = random.choice([0, 1000, 1000, 1000, 1700000000, LAST_MOMENT - 3000])
        self.settings = make_settings(random)
        self.server = Server(self.settings)
        self.calls = Calls(random, self.server)

    def chance(self, share):
        return self.random.random() < share

    def session(self):
        found = Session(self.settings, self.stored)
        for _ in range(self.random.choice([1, 2, 3]) if found.stored else 1):
            found.runs.append(self.run(found.stored))
        return found

    def run(self, stored):
        """One connection, which mostly lasts to its last step."""
        checkpoint = self.server.checkpoint() if stored and self.chance(0.3) else None
        connection, steps, fails = Connection(self.server), [], False
        for _ in range(self.random.choice([3, 20, 50, 100, 200])):
            # (not before the first reply: the store is opened before)
            if stored and connection.answered and self.chance(0.15 if fails else 0.03):
                fails = not fails
            self.go_on()
            steps.append(self.step(connection, fails))
            if connection.status is not None:
                break
        if connection.status is None and self.chance(0.1):
            text = self.request()
            text = text[:self.random.randrange(1, len(text))]
            steps.append(Step([text], [text], self.clock, fails))
            steps[-1].answers = take(connection, steps[-1])
        return Run(steps, connection.end(), checkpoint)

    def step(self, connection, fails):
        requests = [self.request() for _ in range(self.random.choice([1, 1, 1, 2, 4, 8]))]
        if sum(map(len, requests)) > MOST_BATCH:
            requests = [self.request(broken=False)]
        found = Step(requests, self.pieces(b"".join(requests)), self.clock, fails)
        found.answers = take(connection, found)
        return found

    def pieces(self, text):
        cuts = sorted(self.random.randrange(len(text) + 1) for _ in range(self.random.choice([0, 0, 0, 1, 3])))
        return [text[first:end] for first, end in zip([0, *cuts], [*cuts, len(text)])]

    def go_on(self):
        """The clock goes on, mostly by little; now and then to a deadline, far, or back.

        Where records are kept it goes less far, since each life of a blob that is needed is an entry.
        """
        kind = self.random.random() / self.pace
        if kind < 0.5:
            self.clock += self.random.choice([0, 0, 0, 1, 2])
        elif kind < 0.6:
            self.clock += self.random.choice([10, 30, 59, 60, 61, 100])
        elif kind < 0.72:
            due = [it.first_deadline()[0] for it in self.server.pools if it.first_deadline()]
            if due:
                self.clock = self.random.choice(due) + self.random.choice([-1, 0, 0, 1])
        elif kind < 0.74:
            self.clock += self.random.choice([600, 3600] if self.stored else [600, 3600, 604800])
        elif kind < 0.76:
            self.clock -= self.random.choice([1, 100, 100000])
        elif kind < 0.761 and not self.stored:
            self.clock = self.random.choice([LAST_MOMENT - 1, LAST_MOMENT, LAST_MOMENT + 1])
        self.clock = min(max(self.clock, 0), LAST_MOMENT + 100000)

    # One request.

    def request(self, broken=True):
        call, parts, body = self.calls.make()
        if isinstance(body, list) and broken and self.chance(self.broken_bodies):
            values.break_value(self.random, body)
        if isinstance(body, list):
            body = values.write(self.random, body, self.chance(0.05)).encode("utf-8", "surrogatepass")
            if broken and self.chance(self.broken_bodies / 8):
                body = values.break_bytes(self.random, body)
        method, target = "POST", TARGETS.get(call)
        if target is None:
            target = "/blobs/" + "/".join(parts)
            method = {"put_blob": "PUT", "get_blob": "GET"}.get(call, "POST")
        fields = self.heads.fields(body, method, self.calls.pool)
        if not broken or not self.chance(self.broken_heads):
            return fuzz_heads.written(method, target, b"1.1", fields) + body
        return self.heads.broken(method, target, fields) + body
