"""One pool as docs/protocol.md has it: its log, its deadlines, and the calls of clients.

All lists are scanned. A part of the model that `checks/fuzz` holds the program against; it is no check of
its own.
"""
import base64
import hashlib

from lib.model_calls import TASKS_OF_A_PLACE, place_of
from lib.model_heads import Refused
from lib.model_json import size
from lib.model_rows import DIGEST_WEIGHT, Blobs, Task

MOST_MOMENT = 1 << 40
SLICE, SILENCE, DEATH, LIFE = range(4)


class PoolSettings:
    """The settings of a pool, by the names of their keys (docs/settings.md)."""

    NUMBERS = {
        "reuse_age_secs": 604800, "death_timeout_secs": 600, "blob_life_secs": 604800, "store_units": 1048576,
        "most_tasks": 262144, "most_bots": 4096, "most_entries": 4194304, "most_weight": 134217728, "retries": 0,
    }

    def __init__(self, name, grants, **numbers):
        self.name, self.grants = name, grants
        for key, number in {**self.NUMBERS, **numbers}.items():
            setattr(self, key, number)

    def permits(self, caller, permission):
        return any(who in ("*", caller) and permission in permissions for who, permissions in self.grants)


class Stopped(Exception):
    """A call that stops without a front: `log_full` or `keeper_fault`."""


class Pool:
    def __init__(self, settings, place):
        self.settings, self.place = settings, place
        self.tasks, self.bots, self.uuids = [], {}, {}
        self.blobs = Blobs(settings.store_units)
        self.base, self.entries, self.weight, self.last = 0, 0, 0, 0
        self.fails = False
        self.earliest = None

    def front(self):
        return self.base + self.entries

    def add(self, moment, weight=0):
        """Adds an entry to the log, before what it does."""
        if self.entries >= self.settings.most_entries or self.weight + weight > self.settings.most_weight:
            raise Stopped("log_full")
        if self.fails:
            raise Stopped("keeper_fault")
        self.entries += 1
        self.weight += weight
        self.last = moment
        self.earliest = None

    def checkpoint(self):
        """The records begin anew from the rows; the line that is printed."""
        self.base, self.entries = self.front(), 0
        self.weight = sum(it.weight() for it in self.tasks) + sum(it.weight() for it in self.bots.values())
        return f"pool {self.settings.name} front {self.base} tasks {len(self.tasks)}\n"

    def begin(self, clock, after):
        """The moment of a call, once the deadlines that have come by then are settled."""
        if after > self.front():
            raise Refused(409, "front_ahead", length=self.front())
        now = max(min(clock, MOST_MOMENT), self.last)
        while (due := self.first_deadline()) and due[0] <= now:
            self.add(due[0])
            self.settle(*due)
        return now

    # Deadlines.

    def first_deadline(self):
        """The moment, the kind and the number of the deadline that comes first."""
        if self.earliest is None:
            self.earliest = min(self.deadlines(), default=(), key=lambda it: it[:3])
        return self.earliest

    def deadlines(self):
        for task in self.tasks:
            if task.state == "PENDING":
                yield task.since + task.at_slice().expiration, SLICE, task.number, task
        for bot in self.bots.values():
            if bot.run:
                yield bot.contact + bot.run.request.tolerance, SILENCE, bot.run.number, bot
            if not bot.dead:
                yield bot.contact + self.settings.death_timeout_secs, DEATH, bot.number, bot
        for blob in self.blobs.held.values():
            yield blob.deadline, LIFE, blob.number, blob

    def settle(self, moment, kind, _, row):
        if kind == SLICE:
            self.expire(row, moment)
        elif kind == SILENCE:
            self.lose_run(row, moment)
            row.dead = True
        elif kind == DEATH:
            row.dead = True
        elif any(row.digest in task.needs() for task in self.tasks):
            row.deadline += self.settings.blob_life_secs
        else:
            del self.blobs.held[row.digest]

    def is_open(self, one):
        return one.waits or any(not bot.unfit() and bot.has(one) for bot in self.bots.values())

    def expire(self, task, moment):
        slices = task.request.slices
        if task.slice + 1 == len(slices):
            task.state, task.ended = "EXPIRED", moment
            return
        for place in range(task.slice + 1, len(slices)):
            if self.is_open(slices[place]):
                task.slice, task.since = place, moment
                return
        task.state, task.slice, task.ended = "NO_RESOURCE", len(slices) - 1, moment

    def lose_run(self, bot, moment):
        task = bot.run
        bot.run = None
        if self.settings.retries and task.run.number == 1 and task.at_slice().properties["idempotent"] and not task.run.kill:
            task.run.over, task.retried, task.run = moment, task.run, None
            task.state, task.since = "PENDING", moment
        else:
            task.state, task.ended = "KILLED" if task.run.kill else "BOT_DIED", moment

    # The calls of clients. Each gets the moment at which it is carried out, and tells its answer.

    def new_task(self, now, caller, request):
        earlier = self.uuids.get((caller, request.uuid)) if request.uuid else None
        if earlier:
            if earlier.request.same != request.same:
                raise Refused(409, "uuid_reused", task=earlier.id())
            return {"state": earlier.state, "task_id": earlier.id()}
        for one in request.slices:
            for _, digest, many in one.properties["inputs"]:
                if not self.blobs.holds(digest, many):
                    raise Refused(409, "blob_missing", digest=digest)
        if len(self.tasks) >= self.settings.most_tasks:
            raise Refused(503, "pool_tasks_full", limit=self.settings.most_tasks)
        self.add(now, size(caller) + request.weight)
        task = Task(self.place, len(self.tasks) + 1, caller, request, now)
        self.start(task, now)
        self.tasks.append(task)
        if request.uuid:
            self.uuids[caller, request.uuid] = task
        return {"state": task.state, "task_id": task.id()}

    def start(self, task, now):
        for place, one in enumerate(task.request.slices):
            if source := self.source_of(one, now):
                task.state, task.slice, task.source, task.ended = "COMPLETED", place, source, now
                return
        for place, one in enumerate(task.request.slices):
            if self.is_open(one):
                task.slice = place
                return
        task.state, task.slice, task.ended = "NO_RESOURCE", len(task.request.slices) - 1, now

    def source_of(self, one, now):
        if not one.properties["idempotent"]:
            return None
        for task in reversed(self.tasks):
            if (task.state == "COMPLETED" and not task.source and task.run.last["exit_code"] == 0
                    and task.at_slice().same == one.same and now - task.created < self.settings.reuse_age_secs):
                return task
        return None

    def find(self, task_id):
        """The task of an id, and the run that the id tells of: that of its digit, or the present one."""
        _, number, digit = place_of(task_id)
        if number > len(self.tasks):
            raise Refused(404, "no_task")
        task = self.tasks[number - 1]
        if digit == 0:
            return task, task.run
        run = task.find_run(digit)
        if not run:
            raise Refused(404, "no_task")
        return task, run

    def find_permitted(self, task_id, caller, permission):
        task, run = self.find(task_id)
        if task.who != caller and not self.settings.permits(caller, permission):
            raise Refused(403, "denied", permission=permission, pool=self.settings.name)
        return task, run

    def get_result(self, _, caller, asked):
        task, run = self.find_permitted(asked["task_id"], caller, "swarming.pools.listTasks")
        return task.shown(run)

    def get_stdout(self, _, caller, asked):
        task, run = self.find_permitted(asked["task_id"], caller, "swarming.pools.listTasks")
        first, end = asked["offset"], asked["offset"] + asked["length"]
        found = b""
        for start, many, digest in task.output(run):
            if start < end and start + many > first:
                if digest not in self.blobs.held:
                    raise Refused(410, "output_gone", digest=digest)
                found += self.blobs.held[digest].content[max(first - start, 0):end - start]
        return {"output": base64.b64encode(found).decode(), "state": task.state_of(run) if run else task.state}

    def cancel_task(self, now, caller, asked):
        task, _ = self.find_permitted(asked["task_id"], caller, "swarming.pools.cancelTask")
        if task.state == "PENDING":
            self.add(now)
            task.state, task.ended = "CANCELED", now
            return {"canceled": True, "was_running": False}
        if task.state == "RUNNING":
            if asked["kill_running"] and not task.run.kill:
                self.add(now)
                task.run.kill = True
            return {"canceled": asked["kill_running"], "was_running": True}
        return {"canceled": False, "was_running": False}

    def list_tasks(self, _, _caller, asked):
        last = len(self.tasks) if asked["cursor"] is None else asked["cursor"] - 1 - self.place * TASKS_OF_A_PLACE
        found = [it for it in reversed(self.tasks[:last]) if asked["state"] in ("ALL", it.state)]
        page = found[:asked["limit"]]
        cursor = self.place * TASKS_OF_A_PLACE + page[-1].number if len(found) > len(page) else None
        return {"cursor": cursor, "items": [it.shown(it.run) for it in page]}

    def count_tasks(self, _, _caller, asked):
        return {"count": len([it for it in self.tasks if asked["state"] in ("ALL", it.state)])}

    # Blobs.

    def put_blob(self, now, _caller, asked):
        digest, content = asked["digest"], asked["content"]
        actual = hashlib.sha256(content).hexdigest()
        if actual != digest:
            raise Refused(400, "digest_differs", actual=actual)
        fresh = digest not in self.blobs.held
        if fresh:
            self.check_room(content)
        self.add(now, DIGEST_WEIGHT)
        self.blobs.put(digest, content, now + self.settings.blob_life_secs)
        return {"fresh": fresh}

    def check_room(self, content):
        if self.blobs.room(len(content)) is None:
            raise Refused(507, "store_full", names=len(self.blobs.held), size=len(content))

    def get_blob(self, _now, _caller, asked):
        if asked["digest"] not in self.blobs.held:
            raise Refused(409, "blob_missing", digest=asked["digest"])
        return self.blobs.held[asked["digest"]].content

    def find_missing(self, _now, _caller, asked):
        return {"blobs": [{"digest": digest, "size": many} for digest, many in asked["blobs"] if not self.blobs.holds(digest, many)]}
