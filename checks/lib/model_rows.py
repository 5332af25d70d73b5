"""The rows of a pool as docs/protocol.md has them: tasks with their runs, bots, and the blobs in their store.

A part of the model that `checks/fuzz` holds the program against; it is no check of its own.
"""
from lib.model_calls import id_of
from lib.model_json import size

DIGEST_WEIGHT = 36
FINAL = ("EXPIRED", "TIMED_OUT", "BOT_DIED", "CANCELED", "COMPLETED", "KILLED", "NO_RESOURCE")


class Run:
    """One run of a task: the `number` is 1 or 2, and `over` the moment of the loss of one that is retried."""

    def __init__(self, number, bot, claim, begun, place):
        self.number, self.bot, self.claim, self.begun, self.slice = number, bot, claim, begun, place
        self.pieces, self.length = [], 0
        self.kill, self.last, self.over = False, None, None


class Task:
    """A task, at the slice `slice` since `since`; `source` is the task whose outcome it took."""

    def __init__(self, place, number, who, request, created):
        self.place, self.number, self.who, self.request, self.created = place, number, who, request, created
        self.state, self.slice, self.since, self.ended = "PENDING", 0, created, None
        self.run, self.retried, self.source = None, None, None

    def id(self, run=0):
        return id_of(self.place, self.number, run)

    def at_slice(self):
        return self.request.slices[self.slice]

    def find_run(self, number):
        """The run of this number, or None."""
        for run in (self.retried, self.run):
            if run and run.number == number:
                return run
        return None

    def state_of(self, run):
        """The state that is told of one of its runs."""
        return "BOT_DIED" if run is self.retried else self.state

    def needs(self):
        """The digests of the blobs that it needs, while it waits or runs."""
        if self.state in FINAL:
            return set()
        found = {digest for one in self.request.slices for _, digest, _ in one.properties["inputs"]}
        for run in (self.retried, self.run):
            found.update(digest for _, _, digest in (run.pieces if run else []))
        return found

    def weight(self):
        """What its row weighs."""
        found = size(self.who) + self.request.weight
        for run in (self.retried, self.run):
            if run:
                files = run.last["files"] if run.last else []
                found += size(run.claim) + DIGEST_WEIGHT * len(run.pieces) + sum(size(it["path"]) + DIGEST_WEIGHT for it in files)
        return found

    def output(self, run):
        """The pieces of the output that is shown of a run, or of the task itself."""
        if run is None and self.source:
            run = self.source.run
        return run.pieces if run else []

    def shown(self, run):
        """What GetResult tells of the task with this run, its present one or one that is retried."""
        lost = run is not None and run is self.retried
        last = run.last if run and not lost else None
        of = {
            "bot_id": run.bot if run else None,
            "completed_ts": run.over if lost else self.ended,
            "created_ts": self.created,
            "current_task_slice": run.slice if lost else self.slice,
            "deduped_from": self.source.id(self.source.run.number) if self.source else None,
            "dropped": last["dropped"] if last else None,
            "duration_ms": last["duration_ms"] if last else None,
            "exit_code": last["exit_code"] if last else 0 if self.source else None,
            "files": last["files"] if last else [],
            "name": self.request.name,
            "output_length": sum(it[1] for it in self.output(run)),
            "priority": self.request.priority,
            "run_id": self.id(run.number) if run else None,
            "started_ts": run.begun if run else None,
            "state": self.state_of(run) if run else self.state,
            "task_id": self.id(),
            "user": self.who,
        }
        return of


class Bot:
    """A bot; `run` is the task that it runs."""

    def __init__(self, number, name):
        self.number, self.name = number, name
        self.session, self.dimensions, self.quarantined = None, {}, ""
        self.contact, self.streak, self.dead, self.terminating = 0, 0, False, False
        self.run, self.claims = None, {}

    def unfit(self):
        """Why it gets no work, or None."""
        if self.dead:
            return "dead"
        if self.quarantined:
            return "quarantined"
        return "terminating" if self.terminating else None

    def has(self, one):
        """Whether it has what a slice asks for."""
        return all(any(it in self.dimensions.get(key, ()) for it in choices) for key, choices in one.asks)

    def can_run(self, task):
        """Whether it could run a task that waits, and lost no run of it."""
        return task.state == "PENDING" and self.has(task.at_slice()) and not (task.retried and task.retried.bot == self.name)

    def weight(self):
        """What its row weighs."""
        return size(self.name) + size(self.session) + weight_of_dimensions(self.dimensions) + size(self.quarantined)

    def shown(self):
        return {
            "bot_id": self.name,
            "dimensions": [{"key": key, "value": values} for key, values in self.dimensions.items()],
            "is_dead": self.dead,
            "last_seen_ts": self.contact,
            "quarantined": self.quarantined,
            "task_id": self.run.id(self.run.run.number) if self.run else None,
            "terminating": self.terminating,
        }


def sorted_dimensions(found):
    return {key: sorted(found[key], key=str.encode) for key in sorted(found, key=str.encode)}


def weight_of_dimensions(found):
    return sum(size(key) + sum(map(size, values)) for key, values in found.items())


class Blob:
    def __init__(self, number, digest, content, at, deadline):
        self.number, self.digest, self.content, self.at, self.deadline = number, digest, content, at, deadline
        self.size = len(content)
        self.units = units_of(self.size)


def units_of(many):
    return max(1, -(-many // 64))


class Blobs:
    """The blobs that a pool holds, and the room for more."""

    def __init__(self, units):
        self.units, self.held, self.placed = units, {}, 0

    def room(self, many):
        """The first place at which a blob of this size fits, or None."""
        at, wanted = 0, units_of(many)
        for blob in sorted(self.held.values(), key=lambda it: it.at):
            if blob.at - at >= wanted:
                return at
            at = blob.at + blob.units
        return at if self.units - at >= wanted else None

    def holds(self, digest, many):
        return digest in self.held and self.held[digest].size == many

    def put(self, digest, content, deadline):
        """A blob is put, or its deadline renewed."""
        if digest in self.held:
            self.held[digest].deadline = deadline
        else:
            at = self.room(len(content))
            self.placed += 1
            self.held[digest] = Blob(self.placed, digest, content, at, deadline)
