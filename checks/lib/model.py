"""A plain model of the server, written from docs/protocol.md, docs/settings.md and docs/limits.md alone.

A `Server` has pools, a `Connection` takes bytes and answers bytes, with the clock's second of each call handed
in. `checks/fuzz` compares the program with it. Not modelled are want of memory and the limits of time of
a socket. It is no check of its own.
"""
from lib import model_calls as calls
from lib import model_heads as heads
from lib.model_bots import BotPool
from lib.model_heads import Refused
from lib.model_json import check_digest, write_json
from lib.model_pool import Stopped
from lib.model_tasks import read_new_task

# The permission that a call needs before its pool is asked.
PERMISSIONS = {
    "new_task": "swarming.pools.createTask",
    "list_tasks": "swarming.pools.listTasks",
    "count_tasks": "swarming.pools.listTasks",
    "list_bots": "swarming.pools.listBots",
    "get_bot": "swarming.pools.listBots",
    "terminate_bot": "swarming.pools.terminateBot",
    "put_blob": "profile.pools.useBlobs",
    "get_blob": "profile.pools.useBlobs",
    "find_missing": "profile.pools.useBlobs",
    **dict.fromkeys(("handshake", "poll", "claim", "event", "report"), "profile.pools.runBot"),
}
ALL_PERMISSIONS = sorted(set(PERMISSIONS.values()) | {"swarming.pools.cancelTask"})
READERS = {
    "get_result": calls.get_result,
    "get_stdout": calls.get_stdout,
    "cancel_task": calls.cancel_task,
    "count_tasks": calls.count_tasks,
    "terminate_bot": calls.bot_name,
    "get_bot": calls.bot_name,
    "list_bots": calls.list_bots,
    "handshake": calls.handshake,
    "poll": calls.poll,
    "claim": calls.claim,
    "event": calls.event,
    "report": calls.report,
}
MOST_REQUESTS = 65536


class Answer:
    """The bytes of a reply, whether a pool was asked for it, and whether the connection ends behind it."""

    def __init__(self, text, asked=False, ends=False, refused_head=False):
        self.text, self.asked, self.ends, self.refused_head = text, asked, ends, refused_head


class Server:
    def __init__(self, settings):
        self.pools = [BotPool(one, place) for place, one in enumerate(settings)]

    def checkpoint(self):
        """What the command `checkpoint` prints, over the records that are kept of the pools."""
        return "".join(it.checkpoint() for it in self.pools)

    def pool_of(self, name):
        for pool in self.pools:
            if pool.settings.name == name:
                return pool
        raise Refused(404, "no_pool")

    def read(self, call, parts, body):
        """What a call asks, with the pool that it names, by the refusals of its body."""
        if call == "new_task":
            asked = read_new_task(body)
            return asked, lambda: self.pool_of(asked.pool)
        if call in ("put_blob", "get_blob"):
            name, digest = parts
            check_digest(digest, "digest")
            return {"digest": digest, "content": body}, lambda: self.pool_of(name)
        if call == "find_missing":
            return calls.find_missing(body), lambda: self.pool_of(parts[0])
        if call == "list_tasks":
            asked = calls.list_tasks(body, [it.settings.name for it in self.pools])
        else:
            asked = READERS[call](body)
        if "task_id" in asked:
            return asked, lambda: self.pool_at(asked["task_id"])
        return asked, lambda: self.pool_of(asked["pool"])

    def pool_at(self, task_id):
        place = calls.place_of(task_id)[0]
        if place >= len(self.pools):
            raise Refused(404, "no_task")
        return self.pools[place]

    def answer(self, head, body, clock):
        """The answer to a request whose head is not refused by one of the first three rules."""
        front, asked_pool = None, False
        try:
            call, parts, caller = heads.find_call(head)
            asked, find = self.read(call, parts, body)
            after = heads.asked_front(head)
            pool = find()
            permission = PERMISSIONS.get(call)
            if permission and not pool.settings.permits(caller, permission):
                raise Refused(403, "denied", permission=permission, pool=pool.settings.name)
            asked_pool = True
            try:
                now = pool.begin(clock, after)
                status, value = 200, getattr(pool, call)(now, caller, asked)
            except Refused as it:
                status, value = it.status, {"code": it.code, **it.fields}
            front = pool.front()
        except Refused as it:
            status, value = it.status, {"code": it.code, **it.fields}
        except Stopped as it:
            status, value = 503, {"code": str(it)}
        kind, text = ("application/octet-stream", value) if isinstance(value, bytes) else ("application/json", write_json(value))
        return Answer(heads.reply(status, front, text, kind, head.method == "HEAD"), asked_pool, heads.closes(head))


class Connection:
    """One connection: bytes come, and replies go."""

    def __init__(self, server):
        self.server, self.came, self.answered, self.status = server, b"", 0, None

    def take(self, text, clock):
        """The answers once these bytes have come, at this second of the clock."""
        self.came += text
        answers = []
        while self.status is None and (answer := self.next(clock)):
            answers.append(answer)
            self.answered += 1
            if answer.refused_head:
                self.status = 7
            elif answer.ends or self.answered == MOST_REQUESTS:
                self.status = 0
        return answers

    def next(self, clock):
        """The answer to the request that has come whole, or None."""
        end = self.came.find(b"\r\n\r\n", 0, heads.MOST_HEAD_BYTES)
        if end < 0 and len(self.came) < heads.MOST_HEAD_BYTES:
            return None
        head = None
        try:
            head = heads.read_head(self.came[:end + 4]) if end >= 0 else None
            if head is None:
                raise Refused(400, "bad_head")
            length = heads.body_length(head)
        except Refused as it:
            is_head = head is not None and head.method == "HEAD"
            text = heads.reply(it.status, None, write_json({"code": it.code, **it.fields}), empty=is_head)
            return Answer(text, ends=True, refused_head=True)
        if len(self.came) < end + 4 + length:
            return None
        body = self.came[end + 4:end + 4 + length]
        self.came = self.came[end + 4 + length:]
        return self.server.answer(head, body, clock)

    def end(self):
        """The status of `session` once no more bytes come."""
        if self.status is None:
            self.status = 7 if self.came else 0
        return self.status
