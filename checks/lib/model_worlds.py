"""The program's bot and its pool, with all that is lost, repeated and reordered between them.

The bot is written from docs/protocol.md alone ("The program's bot"), turn by turn, and its pool is that of the
model of the server. What a world has is told in the words of `crates/test_rows`. It is no check of its own.
"""
from lib import model_calls as calls
from lib.model import READERS
from lib.model_bots import BotPool
from lib.model_heads import Refused
from lib.model_pool import PoolSettings, Stopped
from lib.model_tasks import read_new_task

BOT, POOL = "bot-1", "default"
ROOM, MOST_OUTPUT, MOST_DURATION = 16384, calls.MOST_OUTPUT, 1 << 40
TRANSIENT = ("log_full", "keeper_fault", "want_of_memory")
UNKNOWN = ("no_bot", "bot_unfit")
GIVES_UP = ("no_task", "no_bot", "not_claimant", "attempt_over")
DIMENSIONS = {"id": [BOT], "pool": [POOL]}
# The phases whose requests, or those of their inputs and outputs, may be lost.
REQUESTS = ("handshake", "poll", "claim", "prepare", "send", "end", "upload")
TARGETS = {
    "/bot/handshake": "handshake",
    "/bot/poll": "poll",
    "/bot/claim": "claim",
    "/bot/event": "event",
    "/bot/task_update": "report",
    "/prpc/swarming.v2.Tasks/NewTask": "new_task",
    "/prpc/swarming.v2.Tasks/CancelTask": "cancel_task",
    "/prpc/swarming.v2.Tasks/CountTasks": "count_tasks",
    "/prpc/swarming.v2.Bots/TerminateBot": "terminate_bot",
}


def read_call(target, body):
    """The name of a call, and what it asks for."""
    call, text = TARGETS[target], body.encode()
    return call, read_new_task(text) if call == "new_task" else READERS[call](text)


class Run:
    """What a bot keeps of a run."""

    def __init__(self, properties, tolerance):
        self.execution, self.io = properties["execution_timeout_secs"], properties["io_timeout_secs"]
        self.grace, self.tolerance = properties["grace_period_secs"], tolerance
        self.began = self.wrote_at = self.sent_at = self.duration = 0
        self.sent = self.pending = self.dropped = self.code = 0
        self.dropping = self.stop = self.given_up = self.refused = self.killed = self.hard = self.silent = False
        self.term = None

    def drop(self):
        self.dropped, self.pending, self.dropping = self.dropped + self.pending, 0, True

    def give_up(self):
        self.dropped, self.pending = self.dropped + self.pending, 0
        self.given_up = self.stop = True


class Bot:
    """What the bot does next: the action of its phase, once it has slept where it sleeps."""

    def __init__(self, tasks, polls, steps, moment):
        self.most_tasks, self.most_polls, self.most_steps, self.first = tasks, polls, steps, moment
        self.session = self.claim = self.polls = self.tasks = self.steps = 0
        self.run, self.phase, self.why, self.sleep = None, None, None, None
        self.come_back()
        self.issue(moment)

    def go(self, phase, sleep=None):
        self.phase, self.sleep = phase, sleep
        return True

    def end(self, why):
        self.why = why
        return self.go("stop")

    def come_back(self):
        """A handshake with the next session."""
        self.session, self.claim = self.session + 1, 0
        return self.go("handshake")

    def issue(self, moment):
        """The limits, as the next action comes."""
        if self.sleep is None and self.phase == "poll":
            if self.polls >= self.most_polls:
                self.end("polls")
            else:
                self.polls += 1
        if self.sleep is None and self.phase in ("send", "end"):
            self.run.sent_at = moment
        if self.steps >= self.most_steps:
            self.end("steps")
        else:
            self.steps += 1

    def take(self, event, moment, value=None):
        """Whether an event can come; then the bot goes on."""
        if self.phase == "stop":
            return False
        if self.sleep is not None:
            taken = event == "slept" and self.go(self.phase)
        elif self.phase in REQUESTS and (event == "lost" or event == "refused" and value in TRANSIENT):
            taken = self.go(self.phase, 5)
        else:
            taken = getattr(self, f"in_{self.phase}")(event, moment, value)
        if taken:
            self.issue(moment)
        return bool(taken)

    def in_handshake(self, event, _moment, _value):
        if event == "shaken":
            return self.go("poll")
        return event == "refused" and self.end("refused")

    def in_poll(self, event, _moment, value):
        if event == "sleep":
            return self.go("poll", value)
        if event == "claim":
            self.claim += 1
            return self.go("claim")
        if event == "terminate":
            return self.end("terminated")
        return event == "refused" and (self.come_back() if value in UNKNOWN else self.end("refused"))

    def in_claim(self, event, _moment, value):
        if event == "run":
            self.run = Run(*value)
            return self.go("prepare")
        if event == "skip" or event == "refused" and value == "claim_over":
            return self.go("poll")
        return event == "refused" and (self.come_back() if value in UNKNOWN else self.end("refused"))

    def starts_nothing(self):
        self.run.code, self.run.duration = -1, 0
        return self.go("end")

    def in_prepare(self, event, _moment, _value):
        return self.go("start") if event == "prepared" else event == "failed" and self.starts_nothing()

    def in_start(self, event, moment, _value):
        if event == "started":
            self.run.began = self.run.wrote_at = self.run.sent_at = moment
            return self.go("look")
        return event == "failed" and self.starts_nothing()

    def in_look(self, event, moment, value):
        run = self.run
        if event == "output":
            if not 1 <= value <= ROOM - run.pending:
                return False
            run.wrote_at = moment
            if run.given_up or run.dropping or run.sent + run.pending + value > MOST_OUTPUT:
                run.dropped, run.dropping = run.dropped + value, True
            else:
                run.pending += value
            return self.goes_on(moment)
        if event == "quiet":
            return self.goes_on(moment)
        if event in ("ended", "failed"):
            run.code = value if event == "ended" else -1
            run.duration = min(1000 * max(moment - run.began, 0), MOST_DURATION)
            return self.go("clean" if run.given_up else "upload")
        return False

    def goes_on(self, moment):
        """The command runs on."""
        run = self.run
        if run.term is None and (run.stop or 0 < run.execution <= moment - run.began or 0 < run.io <= moment - run.wrote_at):
            run.hard = not run.stop and 0 < run.execution <= moment - run.began
            run.silent = not run.stop and not run.hard
            run.term = moment
            return self.go("term")
        if run.term is not None and not run.killed and moment - run.term >= run.grace:
            run.killed = True
            return self.go("kill")
        if not run.given_up and (run.pending or moment - run.sent_at >= run.tolerance // 4):
            return self.go("send")
        return self.go("look", 1)

    def in_term(self, event, _moment, _value):
        return event in ("signalled", "failed") and self.go("look")

    in_kill = in_term

    def in_send(self, event, _moment, value):
        run = self.run
        if event == "taken":
            run.sent, run.pending, run.stop = run.sent + run.pending, 0, run.stop or value
            return self.go("look")
        if event != "refused":
            return False
        if value == "store_full":
            run.drop()
        else:
            run.give_up()
            run.refused = run.refused or value not in GIVES_UP
        return self.go("look")

    def in_upload(self, event, _moment, _value):
        return event == "uploaded" and self.go("end")

    def in_end(self, event, _moment, value):
        if event == "taken":
            return self.go("clean")
        if event != "refused":
            return False
        if value == "store_full":
            self.run.drop()
            return self.go("end")
        if value in GIVES_UP:
            self.run.give_up()
            return self.go("clean")
        return self.end("refused")

    def in_clean(self, event, _moment, _value):
        if event not in ("cleaned", "failed"):
            return False
        self.tasks += 1
        if self.run.refused:
            return self.end("refused")
        if self.tasks >= self.most_tasks:
            return self.end("tasks")
        return self.come_back() if self.run.given_up else self.go("poll")

    def end_text(self):
        run = self.run
        more = (", hard timeout" if run.hard else "") + (", io timeout" if run.silent else "")
        return f"exit code {run.code}, dropped {run.dropped}{more}"

    def text(self):
        run = self.run
        if self.sleep is not None:
            return f"sleep {self.sleep}"
        return {
            "handshake": lambda: f"handshake {self.first}-{self.session}",
            "claim": lambda: f"claim {self.first}-{self.session}-{self.claim}",
            "look": lambda: f"look {ROOM - run.pending}",
            "term": lambda: "signal term",
            "kill": lambda: "signal kill",
            "send": lambda: f"send {run.pending} from {run.sent}",
            "end": lambda: f"last send {run.pending} from {run.sent}, {self.end_text()}",
            "clean": lambda: "clean up",
            "stop": lambda: f"stop {self.why}",
        }.get(self.phase, lambda: self.phase)()


class Sent:
    """A request of the bot: the call, what it asks for, and how it is told."""

    def __init__(self, call, text, **asked):
        self.call, self.text, self.asked = call, text, {"bot_id": BOT, **asked}


class Told:
    """A run that the bot was told of."""

    def __init__(self, claim, run_id):
        self.claim, (_, self.task, self.number) = claim, calls.place_of(run_id)
        self.started, self.wrote = 0, b""


class World:
    def __init__(self, numbers, limits, moment):
        self.pool = BotPool(PoolSettings(POOL, [], **numbers), 0)
        self.sent, self.got, self.runs, self.pending, self.asking = [], [], [], b"", None
        self.bot = Bot(*limits, moment)
        self.send(None)

    # ---- what the bot sends

    def send(self, again):
        """The bot's next request, which stays at its place where it is sent again."""
        request = self.request() if self.bot.sleep is None else None
        if request is None:
            self.asking = again if self.bot.sleep is not None else None
        elif again is None:
            self.asking = len(self.sent)
            self.sent.append(request)
        else:
            self.asking = again

    def request(self):
        bot, run = self.bot, self.bot.run
        if bot.phase == "handshake":
            session = f"{bot.first}-{bot.session}"
            return Sent("handshake", f"handshake {session}", session=session, dimensions=DIMENSIONS, quarantined="")
        if bot.phase == "poll":
            return Sent("poll", "poll", dimensions=DIMENSIONS, quarantined="")
        if bot.phase == "claim":
            claim = f"{bot.first}-{bot.session}-{bot.claim}"
            return Sent("claim", f"claim {claim}", claim_id=claim)
        if bot.phase not in ("send", "end"):
            return None
        told, piece, ends = self.runs[0], self.pending[:run.pending], bot.phase == "end"
        text = f"report {told.task}-{told.number}, " + (f"{len(piece)} from {run.sent}" if piece else "nothing")
        asked = {
            "task_id": calls.id_of(0, told.task, told.number),
            "output": piece,
            "start": run.sent if piece else 0,
            "exit_code": run.code if ends else None,
            "duration_ms": run.duration if ends else 0,
            "hard_timeout": ends and run.hard,
            "io_timeout": ends and run.silent,
            "dropped": run.dropped if ends else 0,
            "files": [],
        }
        return Sent("report", f"last {text}, {bot.end_text()}" if ends else text, **asked)

    def feed(self, event, moment, value=None, again=None, told=None, output=b""):
        """The bot takes an event, where it can come."""
        looked, kept = self.bot.phase == "look" and self.bot.sleep is None, self.bot.run.pending if self.bot.run else 0
        if not self.bot.take(event, moment, value):
            return
        if looked:
            self.pending = self.pending[:kept]
        self.pending += output
        if told:
            self.runs.insert(0, told)
        if event == "started":
            self.runs[0].started += 1
        if output:
            self.runs[0].wrote += output
        self.send(again)

    # ---- turns

    def call(self, moment, who, call, asked):
        """What the pool answers: a code and a value, where it is refused, or what a reply is called, and its value."""
        try:
            now = self.pool.begin(moment, 0)
            reply = getattr(self.pool, call)(now, who, asked)
        except Refused as it:
            return "refused", it.code
        except Stopped as it:
            return "refused", str(it)
        if call == "handshake":
            return "shaken", None
        if call == "report":
            return "taken", reply["must_stop"]
        return reply.get("cmd", "other"), reply

    def deliver(self, place, moment):
        if place < len(self.sent):
            sent = self.sent[place]
            self.got.append((place, *self.call(moment, BOT, sent.call, sent.asked)))

    def answer(self, at, moment):
        if at >= len(self.got) or self.got[at][0] != self.asking:
            return
        place, event, value = self.got[at]
        again = self.asking if event == "refused" and value in TRANSIENT else None
        if event == "sleep":
            self.feed("sleep", moment, value["duration"])
        elif event == "run":
            told = Told(self.sent[place].asked["claim_id"], value["run_id"])
            self.feed("run", moment, (value["properties"], value["bot_ping_tolerance_secs"]), told=told)
        else:
            self.feed(event, moment, value, again)

    def lose(self, moment):
        self.feed("lost", moment, again=self.asking)

    def wake(self, moment):
        self.feed("slept", moment, again=self.asking)

    def child(self, event, moment, value=None):
        if event == "output":
            self.feed(event, moment, len(value), output=value)
        else:
            self.feed(event, moment, value)

    def other(self, who, call, asked, moment):
        if call not in ("handshake", "poll", "claim", "event", "report") or asked["bot_id"] != BOT:
            self.call(moment, who, call, asked)

    # ---- what it has

    def task(self, number):
        return self.pool.tasks[number - 1] if 1 <= number <= len(self.pool.tasks) else None

    def reply_text(self):
        _, event, value = self.got[-1]
        if event == "run":
            _, task, number = calls.place_of(value["run_id"])
            return f"run {task}-{number}"
        if event == "sleep":
            return f"sleep {value['duration']}"
        return {"refused": value, "taken": "taken, must stop" if value else "taken"}.get(event, event)

    def text(self, what):
        """What stands in the world under a name; None where the model can't tell."""
        word, _, number = what.partition(" ")
        if word == "task":
            task = self.task(int(number))
            return "none" if not task else f"{task.state}, {run_text(task.run) if task.run else 'no run'}"
        if word == "lost":
            task = self.task(int(number))
            return run_text(task.retried) if task and task.retried else "none"
        if what == "run":
            told = self.runs[0] if self.runs else None
            more = f", {told.claim} {told.task}-{told.number}, started {told.started}, wrote {len(told.wrote)}" if told else ""
            return f"{len(self.runs)}{more}"
        return {
            "bot": lambda: self.bot.text(),
            "sent": lambda: str(len(self.sent)),
            "asking": lambda: "nothing" if self.asking is None else f"{self.asking}, {self.sent[self.asking].text}",
            "got": lambda: f"{len(self.got)}, {self.reply_text()}" if self.got else "0",
            "pending": lambda: str(len(self.pending)),
            "log": lambda: str(self.pool.front()),
        }.get(what, lambda: None)()


def run_text(run):
    end = f"dropped {run.last['dropped']}" if run.last else "no last report"
    return f"try {run.number}, length {run.length}, {end}"


# ---- worlds as texts


class Reader:
    """Plays the worlds of a text, as `crates/test_rows` does, and tells the first difference."""

    def __init__(self):
        self.numbers, self.limits, self.requests, self.steps, self.world = {"store_units": 64}, (100, 1000, 100000), {}, {}, None
        self.name, self.expected, self.skipped = None, 0, 0

    def read(self, text):
        for line, row in enumerate(text.splitlines(), 1):
            if row.strip() and not row.startswith("#"):
                if found := self.line(row.strip()):
                    return f"{line}: {self.name}: {found}"
        return None

    def line(self, row):
        word, _, rest = row.partition(" ")
        if word == "settings":
            self.numbers = {key: int(number) for key, number in (it.split(" = ") for it in rest.split(", "))}
        elif word == "limits":
            self.limits = tuple(map(int, rest.split()[1::2]))
        elif word == "request":
            name, target, body = rest.split(" ", 2)
            self.requests[name] = read_call(target, body)
        elif word == "steps":
            name, _, rows = rest.partition(" ")
            self.steps[name] = rows.split("; ")
        elif word == "world":
            self.name, _, moment = rest.partition(" at ")
            self.world = World(self.numbers, self.limits, int(moment))
        elif word == "do":
            return next(filter(None, map(self.row, self.steps[rest])), None)
        elif word != "look":
            return self.row(row)
        return None

    def row(self, row):
        turn, at, moment = row.rpartition(" at ")
        if at:
            self.turn(turn, int(moment))
            return None
        what, _, wanted = row.partition(": ")
        came = self.world.text(what)
        self.expected += 1
        if came is None:
            self.skipped += 1
        elif came != wanted:
            return f"{what}: `{wanted}` is wanted, and not `{came}`"
        return None

    def turn(self, turn, moment):
        word, _, rest = turn.partition(" ")
        world = self.world
        if word in ("deliver", "answer"):
            place = int(rest)
            count = len(world.sent if word == "deliver" else world.got)
            getattr(world, word)(place if place >= 0 else count + place, moment)
        elif word in ("lose", "wake"):
            getattr(world, word)(moment)
        elif word == "child":
            event, _, value = rest.partition(" ")
            if event == "output":
                times, _, text = value.partition(" ")
                world.child(event, moment, int(times) * text.replace("\\n", "\n").encode())
            else:
                world.child(event, moment, int(value) if value else None)
        else:
            who, _, name = turn.partition(" asks ")
            world.other(who, *self.requests[name], moment)
