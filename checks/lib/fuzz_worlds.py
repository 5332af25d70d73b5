"""Worlds of random turns between a bot and its pool, with what the model says that stands in each at its end.
`crates/test_rows` plays them.

A part of `checks/fuzz`; it is no check of its own.
"""
import json
import os
import random
import re
import shutil
import subprocess
import tempfile
import time

from lib.model_worlds import Reader

# The file with worlds that the gate plays, and how many it has.
FILE = os.path.join(os.path.dirname(os.path.dirname(os.path.dirname(os.path.abspath(__file__)))), "crates", "test_rows", "data", "worlds", "random.worlds")
WORLDS_OF_THE_FILE = 200
SEED = 20240229
TURNS = 40
# How many worlds a file has, and how many files a run of the program.
WORLDS_OF_A_FILE = 500
FILES_OF_A_RUN = 8
TOLD = re.compile(r"(\d+) worlds, \d+ expectations")
BEGIN = 1000
DIMENSIONS = [{"key": "pool", "value": "default"}]
STEPS_OF_TIME = [0] * 120 + [1] * 40 + [2, 4, 5, 5, 5, 9, 10, 10, 15, 15, 20, 30, 59, 60, 61, 150, 300, 599, 1199, 1200]
# The turns that are drawn without a look at what the bot waits for, by their weights.
ODD_TURNS = {"deliver": 30, "answer": 16, "lose": 14, "wake": 6, "child": 12, "other": 22}
OUTPUTS = ["1 hello\\n", "1 a", "3 ab", "64 x", "65 y", "1000 z", "1024 w", "2000 v", "16384 u", "5000 t", "1 world\\n"]


def new_task(**properties):
    more = {key: properties.pop(key) for key in ("bot_ping_tolerance_secs", "priority") if key in properties}
    slices = [{"expiration_secs": properties.pop("expiration", 600), "wait_for_capacity": True, "properties": {"command": ["true"], "dimensions": DIMENSIONS, **properties}}]
    return "/prpc/swarming.v2.Tasks/NewTask", {**more, "task_slices": slices}


def bot_call(call, bot, **more):
    dimensions = [{"key": "id", "value": [bot]}, {"key": "pool", "value": ["default"]}]
    fields = {"bot_id": bot, **more}
    if call in ("handshake", "poll"):
        fields["dimensions"] = dimensions
    elif call != "task_update":
        fields["pool"] = "default"
    return f"/bot/{call}", fields


def cancel(task, kill):
    return "/prpc/swarming.v2.Tasks/CancelTask", {"task_id": task, "kill_running": kill}


def report(bot, run, **more):
    return bot_call("task_update", bot, task_id=run, output="b3RoZXIK", output_chunk_start=0, **more)


REQUESTS = {
    "new": new_task(),
    "new_again": new_task(idempotent=True),
    "new_brief": new_task(execution_timeout_secs=10, grace_period_secs=5, bot_ping_tolerance_secs=60),
    "new_silent": new_task(io_timeout_secs=10, grace_period_secs=0, priority=1),
    "count": ("/prpc/swarming.v2.Tasks/CountTasks", {"pool": "default"}),
    "cancel": cancel("10", False),
    "kill": cancel("10", True),
    "kill_2": cancel("20", True),
    "terminate": ("/prpc/swarming.v2.Bots/TerminateBot", {"pool": "default", "bot_id": "bot-1"}),
    "handshake_2": bot_call("handshake", "bot-2", session="s"),
    "poll_2": bot_call("poll", "bot-2"),
    "claim_2": bot_call("claim", "bot-2", claim_id="c"),
    "report_2": report("bot-2", "11"),
    "retry_2": report("bot-2", "12"),
    "end_2": report("bot-2", "12", exit_code=0, duration_ms=1),
    "own_handshake": bot_call("handshake", "bot-1", session="other"),
    "own_claim": bot_call("claim", "bot-1", claim_id="own"),
    "own_report": report("bot-1", "11", exit_code=0, duration_ms=1),
}
# How often each is drawn.
SHARES = {"new": 6, "new_again": 6, "new_brief": 3, "new_silent": 3, "count": 4, "kill": 6, "handshake_2": 4, "claim_2": 4}


def head():
    """The rows of a file before its worlds."""
    return [f"request {name} {target} {json.dumps(body, separators=(',', ':'))}" for name, (target, body) in REQUESTS.items()]


class Maker:
    """Makes the rows of worlds, each from the seed and its number alone."""

    def __init__(self, seed):
        self.seed, self.reader = seed, Reader()
        for row in head():
            self.reader.line(row)

    def world(self, number):
        self.chance, self.rows, self.moment = random.Random(f"{self.seed} {number}"), [], BEGIN
        self.put(f"settings {self.settings()}")
        self.put(f"limits {self.limits()}")
        self.put(f"world {number} at {BEGIN}")
        for at in range(TURNS):
            self.put(f"{self.turn()} at {self.tick()}")
            if at % 10 == 9:
                self.put("look")
        self.put_expectations()
        return self.rows

    def put(self, row):
        self.rows.append(row)
        self.reader.line(row)

    def put_expectations(self):
        world = self.reader.world
        tasks = [f"{word} {at}" for at, task in enumerate(world.pool.tasks, 1) for word in (("task", "lost") if task.retried else ("task",))]
        self.rows += [f"{it}: {world.text(it)}" for it in ("bot", "sent", "asking", "got", "run", "pending", *tasks, "log")]

    def is_so(self, share):
        return self.chance.random() < share

    def settings(self):
        found = {"store_units": 64}
        if self.is_so(0.6):
            found["retries"] = 1
        if self.is_so(0.15):
            found["most_entries"] = self.chance.randrange(2, 25)
        for key, numbers in {"death_timeout_secs": [60], "blob_life_secs": [60], "most_tasks": [1, 2], "most_bots": [1]}.items():
            if self.is_so(0.1):
                found[key] = self.chance.choice(numbers)
        return ", ".join(f"{key} = {number}" for key, number in found.items())

    def limits(self):
        steps = self.chance.randrange(0, 30) if self.is_so(0.1) else 100000
        return f"tasks {self.chance.choice([1, 2, 100, 100])} polls {2 if self.is_so(0.05) else 1000} steps {steps}"

    def tick(self):
        """The moment of a turn, now and then one of before."""
        self.moment += self.chance.choice(STEPS_OF_TIME)
        return max(self.moment - self.chance.randrange(1000), 0) if self.is_so(0.02) else self.moment

    def turn(self):
        if not self.reader.world.pool.tasks and self.is_so(0.5):
            return f"ana asks {self.chance.choice(['new', 'new_again', 'new_again', 'new_brief', 'new_silent'])}"
        return self.wanted_turn() if self.is_so(0.76) else self.odd_turn()

    def wanted_turn(self):
        """One by which the bot goes on."""
        world = self.reader.world
        bot = world.bot
        if bot.sleep is not None:
            return "wake"
        if world.asking is not None:
            replies = [at for at, (place, *_) in enumerate(world.got) if place == world.asking]
            return f"answer {self.chance.choice(replies)}" if replies and self.is_so(0.85) else f"deliver {world.asking}"
        if bot.phase == "look":
            return self.chance.choices(["child quiet", self.output(), self.ended()], [3, 9, 2])[0]
        words = {"prepare": "prepared", "start": "started", "term": "signalled", "kill": "signalled", "upload": "uploaded", "clean": "cleaned"}
        if bot.phase in words:
            return f"child {words[bot.phase] if self.is_so(0.93) else 'failed'}"
        return self.odd_turn()

    def place(self, count):
        """A place, late ones more often; now and then one that isn't there."""
        if not count or self.is_so(0.04):
            return count
        return max(self.chance.randrange(count), self.chance.randrange(count))

    def output(self):
        return f"child output {self.chance.choice(OUTPUTS)}"

    def ended(self):
        return f"child ended {self.chance.choice([0, 0, 1, 143, -1])}"

    def odd_turn(self):
        world, kind = self.reader.world, self.chance.choices(list(ODD_TURNS), ODD_TURNS.values())[0]
        if kind == "deliver":
            return f"deliver {self.place(len(world.sent))}"
        if kind == "answer":
            return f"answer {self.place(len(world.got))}"
        if kind == "child":
            words = ["prepared", "started", "quiet", "signalled", "uploaded", "cleaned", "failed"]
            return self.chance.choice([self.output(), self.output(), self.ended(), *(f"child {it}" for it in words)])
        if kind == "other":
            name = self.chance.choices(list(REQUESTS), [SHARES.get(it, 1) for it in REQUESTS])[0]
            return f"{'rack' if REQUESTS[name][0].startswith('/bot/') or self.is_so(0.03) else 'ana'} asks {name}"
        return kind


def text_of(maker, first, count):
    rows = head()
    for number in range(first, first + count):
        rows += ["", *maker.world(number)]
    return "".join(f"{row}\n" for row in rows)


def text_of_the_file():
    """The text of the file that the gate plays."""
    told = [f"# {WORLDS_OF_THE_FILE} worlds of {TURNS} random turns: what `checks/fuzz --write-worlds` writes. It is not edited by hand.", ""]
    return "\n".join(told) + "\n" + text_of(Maker(SEED), 0, WORLDS_OF_THE_FILE)


def write_the_file():
    with open(FILE, "w", encoding="ascii") as file:
        file.write(text_of_the_file())


def is_file_written():
    """Whether the file has these worlds."""
    try:
        with open(FILE, encoding="ascii") as file:
            return file.read() == text_of_the_file()
    except FileNotFoundError:
        return False


def run(asked):
    """Plays so many worlds by the program, and prints the figures: the status of the check."""
    maker, began, passed, failed, number, last = Maker(asked.seed), time.monotonic(), 0, 0, asked.session or 0, asked.count + (asked.session or 0)
    while number < last and not failed:
        folder, many = tempfile.mkdtemp(), 0
        os.mkdir(os.path.join(folder, "worlds"))
        for place in range(FILES_OF_A_RUN):
            count = min(WORLDS_OF_A_FILE, last - number)
            if count:
                with open(os.path.join(folder, "worlds", f"fuzz_{place}.worlds"), "w", encoding="ascii") as file:
                    file.write(text_of(maker, number, count))
            number, many = number + count, many + count
        done = subprocess.run([os.path.abspath(asked.worlds), folder], capture_output=True, text=True, check=False)
        if done.returncode == 0 and sum(map(int, TOLD.findall(done.stdout))) == many:
            passed += many
            shutil.rmtree(folder)
        else:
            failed += 1
            print(f"status {done.returncode} over {folder}, which is kept:\n{done.stdout[-4000:]}{done.stderr[-4000:]}")
    print(f"seed {asked.seed}: {passed} worlds of {TURNS} turns, {time.monotonic() - began:.0f} s")
    print(f"{passed} passed, {failed} failed")
    return 1 if failed else 0
