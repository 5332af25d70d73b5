"""Bases as another program reads them: the shape of each line, the order of the lines, and the rules that
the rows of a pool keep. What is said here is said of pools as docs/protocol.md and docs/settings.md have them.

It is no check of its own, so it may not be executed.
"""
import hashlib
import json
import re

from lib.records import compact

WORD, LONG = 2**32, 2**64
MOST_COUNT, MOST_MOMENT, MOST_STREAK = 2**31, 2**40, 63
MOST_OUTPUT, MOST_CHUNK, MOST_BLOB = 67108864, 32768, 16777216
DIGEST_WEIGHT = 36
WAITS, RUNS, DONE = "PENDING", "RUNNING", "COMPLETED"
STATES = (WAITS, RUNS, "EXPIRED", "TIMED_OUT", "BOT_DIED", "CANCELED", DONE, "KILLED", "NO_RESOURCE")
NAME = re.compile(r"[A-Za-z0-9_.-]{1,64}")
KEY = re.compile(r"(?![0-9])[A-Za-z0-9_.-]{1,64}")
# What a pool has whose settings say nothing else.
SETTINGS = {
    "name": "default",
    "death_timeout_secs": 600,
    "blob_life_secs": 604800,
    "store_units": 1048576,
    "most_tasks": 262144,
    "most_bots": 4096,
    "most_weight": 134217728,
    "retries": 0,
}


# ---- the shape of a value: each is a function that tells whether a value has it


def number_below(most):
    return lambda it: isinstance(it, int) and not isinstance(it, bool) and 0 <= it < most


def is_text(it):
    return isinstance(it, str)


def is_flag(it):
    return isinstance(it, bool)


def is_digest(it):
    return is_text(it) and re.fullmatch("[0-9a-f]{64}", it) is not None


def is_exit_code(it):
    return isinstance(it, int) and not isinstance(it, bool) and -(2**31) <= it < 2**31


def is_word(it):
    return number_below(WORD)(it)


def is_long(it):
    return number_below(LONG)(it)


def null_or(shape):
    return lambda it: it is None or shape(it)


def list_of(shape):
    return lambda it: isinstance(it, list) and all(map(shape, it))


def row_of(*shapes):
    return lambda it: isinstance(it, list) and len(it) == len(shapes) and all(shape(value) for shape, value in zip(shapes, it))


def object_of(**shapes):
    return lambda it: isinstance(it, dict) and set(it) == set(shapes) and all(shape(it[key]) for key, shape in shapes.items())


PAIR = object_of(key=is_text, value=is_text)
FILE = object_of(digest=is_digest, path=is_text, size=is_word)
CHUNK = row_of(is_word, is_word, is_digest)
LAST = object_of(
    dropped=is_long, duration_ms=is_long, exit_code=is_exit_code, files=list_of(FILE), hard_timeout=is_flag, io_timeout=is_flag
)
PROPERTIES = object_of(
    caches=list_of(object_of(name=is_text, path=is_text)),
    command=list_of(is_text),
    dimensions=list_of(PAIR),
    env=list_of(PAIR),
    execution_timeout_secs=is_word,
    grace_period_secs=is_word,
    idempotent=is_flag,
    inputs=list_of(FILE),
    io_timeout_secs=is_word,
    outputs=list_of(is_text),
)
SLICE = object_of(expiration_secs=is_word, properties=PROPERTIES, wait_for_capacity=is_flag)
REQUEST = object_of(bot_ping_tolerance_secs=is_word, name=is_text, priority=is_word, task_slices=list_of(SLICE))
ATTEMPT_MEMBERS = object_of(
    b=is_word,
    begun=is_long,
    chunks=list_of(CHUNK),
    claim=is_text,
    kill=is_flag,
    last=null_or(LAST),
    tail=null_or(CHUNK),
    **{"try": is_word},
)


def is_attempt(it):
    return ATTEMPT_MEMBERS(it) and length_of(it) < WORD


LINES = {
    "pool": object_of(k=is_text, last=is_long, placed=is_word),
    "task": object_of(
        attempt=null_or(is_attempt),
        created=is_long,
        ended=null_or(is_long),
        k=is_text,
        request=REQUEST,
        retried=null_or(object_of(attempt=is_attempt, over=is_long, slice=is_word)),
        since=is_long,
        slice=is_word,
        source=null_or(is_word),
        state=lambda it: it in STATES,
        t=is_word,
        uuid=null_or(lambda it: is_text(it) and it != ""),
        who=is_text,
    ),
    "bot": object_of(
        b=is_word,
        contact=is_long,
        dead=is_flag,
        dims=list_of(row_of(is_text, list_of(is_text))),
        id=is_text,
        k=is_text,
        q=is_text,
        session=is_text,
        streak=is_word,
        terminating=is_flag,
    ),
    "blob": object_of(at=is_word, deadline=is_long, digest=is_digest, k=is_text, n=is_word, size=is_word),
}


def length_of(attempt):
    return sum(size for _, size, _ in attempt["chunks"])


def units_of(size):
    return max(1, (size + 63) // 64)


# ---- the lines in their order


class Rows:
    """The rows of the lines so far."""

    def __init__(self):
        self.pool, self.tasks, self.bots, self.blobs = None, [], [], []

    def add(self, text):
        """Adds the row of the line that comes next; whether the text is one."""
        try:
            row = json.loads(text)
        except ValueError:
            return False
        kind = row.get("k") if isinstance(row, dict) else None
        if not is_text(kind) or kind not in LINES or not LINES[kind](row) or compact(row) != text or not self.comes_next(row):
            return False
        if kind == "pool":
            self.pool = row
        else:
            {"task": self.tasks, "bot": self.bots, "blob": self.blobs}[kind].append(row)
        return True

    def comes_next(self, row):
        if row["k"] == "pool":
            return self.pool is None
        if row["k"] == "task":
            return self.pool is not None and row["t"] == len(self.tasks) + 1 and not self.bots and not self.blobs
        if row["k"] == "bot":
            return self.pool is not None and row["b"] == len(self.bots) + 1 and not self.blobs
        return self.pool is not None and row["n"] > (self.blobs[-1]["n"] if self.blobs else 0)


def read(lines):
    """The rows that lines tell and None, or None and the place of the first line that is none of its place."""
    rows = Rows()
    for place, line in enumerate(lines):
        if not rows.add(line):
            return None, place
    return rows, None


# ---- the rules: each gives the names of those that are broken


def broken_rules(rows, count, **changed):
    """The rules that the rows break, as those of a pool with these settings before which so many entries came."""
    settings = {**SETTINGS, **changed}
    pool = rows.pool or {"last": 0, "placed": 0}
    last = pool["last"]
    rules = {
        "last": last <= MOST_MOMENT,
        "placed": pool["placed"] <= count,
        "count": count <= MOST_COUNT,
        "tasks": len(rows.tasks) <= settings["most_tasks"],
        "bots": len(rows.bots) <= settings["most_bots"],
        "blobs": len(rows.blobs) <= 262144,
        "weight": weight_of(rows) <= settings["most_weight"],
        "created in order": is_rising([it["created"] for it in rows.tasks], strictly=False),
        "claims": stand_once(claims_of(rows)),
        "uuids": stand_once([(it["who"], it["uuid"]) for it in rows.tasks if it["uuid"]]),
        "names": stand_once([it["id"] for it in rows.bots]),
        "digests": stand_once([it["digest"] for it in rows.blobs]),
        "extents": are_apart([(it["at"], it["at"] + units_of(it["size"])) for it in rows.blobs]),
        "runs": stand_once([it["attempt"]["b"] for it in rows.tasks if it["state"] == RUNS and it["attempt"]]),
        "what is needed": needed_by(rows) <= {it["digest"] for it in rows.blobs},
    }
    broken = [name for name, holds in rules.items() if not holds]
    for task in rows.tasks:
        broken += [f"task {task['t']}: {it}" for it in broken_by_task(settings, rows, last, task)]
    for bot in rows.bots:
        broken += [f"bot {bot['b']}: {it}" for it in broken_by_bot(settings, last, bot)]
    for blob in rows.blobs:
        broken += [f"blob {blob['n']}: {it}" for it in broken_by_blob(settings, pool, blob)]
    return broken


def is_rising(items, strictly=True):
    return all(a < b or (a == b and not strictly) for a, b in zip(items, items[1:]))


def stand_once(items):
    return len(set(items)) == len(items)


def are_apart(extents):
    inside = sorted(extents)
    return all(a[1] <= b[0] for a, b in zip(inside, inside[1:]))


def attempts_of(task):
    return [it for it in (task["attempt"], task["retried"] and task["retried"]["attempt"]) if it]


def claims_of(rows):
    """Of each task the bots and the ids of its claims."""
    return [claim for task in rows.tasks for claim in {(it["b"], it["claim"]) for it in attempts_of(task)}]


def needed_by(rows):
    """The digests that the tasks need which wait or run."""
    needed = set()
    for task in rows.tasks:
        if task["state"] in (WAITS, RUNS):
            needed |= {it["digest"] for part in task["request"]["task_slices"] for it in part["properties"]["inputs"]}
            needed |= {digest for attempt in attempts_of(task) for _, _, digest in attempt["chunks"]}
    return needed


def broken_by_task(settings, rows, last, task):
    slices, attempt, retried, state = task["request"]["task_slices"], task["attempt"], task["retried"], task["state"]
    rules = {
        "request": is_request(settings, task["request"], task["uuid"]),
        "slice": task["slice"] < len(slices),
        "since": task["since"] <= last,
        "created": task["created"] <= last,
        "ended": task["ended"] is None or task["ended"] <= last,
        "state": fits_state(state, attempt, task["ended"]),
        "source": task["source"] is None or has_outcome(rows, task),
        "attempt": attempt is None or is_kept_attempt(rows, last, attempt),
        "try": attempt is None or is_right_try(attempt, retried),
        "retried": retried is None or is_kept_retried(settings, rows, last, slices, retried),
    }
    if rules["slice"] and state == WAITS:
        rules["expiration"] = last <= task["since"] + slices[task["slice"]]["expiration_secs"]
    if state == RUNS and attempt and 1 <= attempt["b"] <= len(rows.bots):
        silence = rows.bots[attempt["b"] - 1]["contact"] + task["request"]["bot_ping_tolerance_secs"]
        rules["silence"] = last <= silence
    return [name for name, holds in rules.items() if not holds]


def fits_state(state, attempt, ended):
    if state == WAITS:
        return attempt is None and ended is None
    if state == RUNS:
        return attempt is not None and attempt["last"] is None and ended is None
    return ended is not None


def has_outcome(rows, task):
    """Whether the task completed without a run of its own, and the one that it names ran and reported 0."""
    if task["state"] != DONE or task["attempt"] or not 1 <= task["source"] <= len(rows.tasks):
        return False
    source = rows.tasks[task["source"] - 1]
    last = source["attempt"] and source["attempt"]["last"]
    return source["state"] == DONE and bool(last) and last["exit_code"] == 0


def is_chunk(chunk):
    start, size, _ = chunk
    return 1 <= size <= MOST_CHUNK and start + size <= MOST_OUTPUT


def is_kept_attempt(rows, last, attempt):
    starts = [start for start, _, _ in attempt["chunks"]]
    ends = [start + size for start, size, _ in attempt["chunks"]]
    report, tail = attempt["last"], attempt["tail"]
    return (
        1 <= attempt["b"] <= len(rows.bots)
        and NAME.fullmatch(attempt["claim"]) is not None
        and attempt["begun"] <= last
        and starts == [0, *ends][: len(starts)]
        and all(map(is_chunk, attempt["chunks"]))
        and (report is None or is_report(report))
        and (tail is None or (is_chunk(tail) and report is not None))
    )


def is_report(report):
    return report["duration_ms"] <= MOST_MOMENT and report["dropped"] <= 2**53 and len(report["files"]) <= 64 and all(map(is_file, report["files"]))


def is_right_try(attempt, retried):
    if retried is None:
        return attempt["try"] == 1
    return attempt["try"] == 2 and attempt["b"] != retried["attempt"]["b"]


def is_kept_retried(settings, rows, last, slices, retried):
    attempt = retried["attempt"]
    return (
        settings["retries"] == 1
        and retried["slice"] < len(slices)
        and slices[retried["slice"]]["properties"]["idempotent"]
        and attempt["try"] == 1
        and not attempt["kill"]
        and attempt["last"] is None
        and retried["over"] <= last
        and is_kept_attempt(rows, last, attempt)
    )


def broken_by_bot(settings, last, bot):
    keys = [key for key, _ in bot["dims"]]
    values = dict(bot["dims"])
    rules = {
        "contact": bot["contact"] <= last,
        "death": bot["dead"] or last <= bot["contact"] + settings["death_timeout_secs"],
        "streak": bot["streak"] <= MOST_STREAK,
        "name": NAME.fullmatch(bot["id"]) is not None and NAME.fullmatch(bot["session"]) is not None,
        "quarantined": len(bot["q"].encode()) <= 256,
        "keys": is_rising(keys) and len(keys) <= 64 and all(map(KEY.fullmatch, keys)),
        "values": all(1 <= len(it) <= 64 and is_rising(it) and all(is_bot_value(text) for text in it) for it in values.values()),
        "pool": values.get("pool") == [settings["name"]],
        "id": values.get("id") == [bot["id"]],
    }
    return [name for name, holds in rules.items() if not holds]


def broken_by_blob(settings, pool, blob):
    rules = {
        "inside": blob["at"] + units_of(blob["size"]) <= settings["store_units"],
        "number": 1 <= blob["n"] <= pool["placed"],
        "size": blob["size"] <= MOST_BLOB,
        "deadline": pool["last"] <= blob["deadline"] <= pool["last"] + settings["blob_life_secs"],
    }
    return [name for name, holds in rules.items() if not holds]


# ---- what a request may hold


def is_plain(text):
    return not re.search("[\x00-\x1f\x7f]", text)


def is_bot_value(text):
    return 1 <= len(text.encode()) <= 256 and is_plain(text) and "|" not in text and text == text.strip(" ")


def is_value(text):
    parts = text.split("|")
    return 1 <= len(text.encode()) <= 256 and is_plain(text) and all(it and it == it.strip(" ") for it in parts)


def is_path(text):
    parts = text.split("/")
    return 1 <= len(text.encode()) <= 255 and is_plain(text) and "\\" not in text and not {"", ".", ".."} & set(parts)


def is_file(it):
    return is_path(it["path"]) and it["size"] <= MOST_BLOB


def is_request(settings, request, uuid):
    slices = request["task_slices"]
    shown = [compact(it["properties"]) for it in slices]
    return (
        len(request["name"].encode()) <= 256
        and is_plain(request["name"])
        and request["priority"] <= 255
        and 60 <= request["bot_ping_tolerance_secs"] <= 1200
        and (uuid is None or re.fullmatch("[A-Za-z0-9-]{1,64}", uuid) is not None)
        and 1 <= len(slices) <= 8
        and all(1 <= it["expiration_secs"] <= 604800 and are_properties(settings, it["properties"]) for it in slices)
        and stand_once(shown)
    )


def are_properties(settings, it):
    pairs = [(pair["key"], pair["value"]) for pair in it["dimensions"]]
    env = [pair["key"] for pair in it["env"]]
    caches = [cache["name"] for cache in it["caches"]]
    return (
        1 <= len(it["command"]) <= 64
        and it["command"][0] != ""
        and all(len(text.encode()) <= 4096 and "\0" not in text for text in it["command"])
        and 1 <= len(pairs) <= 32
        and is_rising(pairs)
        and all(KEY.fullmatch(key) and is_value(value) for key, value in pairs)
        and [value for key, value in pairs if key == "pool"] == [settings["name"]]
        and len([key for key, _ in pairs if key == "id"]) <= 1
        and len(env) <= 64
        and is_rising(env)
        and all(re.fullmatch("(?![0-9])[A-Za-z0-9_]{1,64}", key) for key in env)
        and len(caches) <= 8
        and is_rising(caches)
        and all(re.fullmatch("[a-z0-9_]{1,64}", name) for name in caches)
        and stand_once([cache["path"] for cache in it["caches"]])
        and all(is_path(cache["path"]) for cache in it["caches"])
        and len(it["inputs"]) <= 64
        and is_rising([file["path"] for file in it["inputs"]])
        and all(map(is_file, it["inputs"]))
        and len(it["outputs"]) <= 64
        and is_rising(it["outputs"])
        and all(map(is_path, it["outputs"]))
        and it["execution_timeout_secs"] <= 604800
        and it["io_timeout_secs"] <= 604800
        and it["grace_period_secs"] <= 3600
    )


# ---- how much the rows weigh


def weight_of(rows):
    """The bytes of all texts in the rows of tasks and bots, and 36 for each digest."""
    return sum(map(task_weight, rows.tasks)) + sum(map(bot_weight, rows.bots))


def size_of(*texts):
    return sum(len(text.encode()) for text in texts)


def files_weight(files):
    return sum(size_of(it["path"]) + DIGEST_WEIGHT for it in files)


def properties_weight(it):
    pairs = [text for pair in it["env"] + it["dimensions"] for text in pair.values()]
    caches = [text for cache in it["caches"] for text in cache.values()]
    return size_of(*it["command"], *pairs, *caches, *it["outputs"]) + files_weight(it["inputs"])


def attempt_weight(attempt):
    last = attempt["last"]
    return size_of(attempt["claim"]) + DIGEST_WEIGHT * len(attempt["chunks"]) + (files_weight(last["files"]) if last else 0)


def task_weight(task):
    request = task["request"]
    own = size_of(task["who"], request["name"], task["uuid"] or "")
    return own + sum(properties_weight(it["properties"]) for it in request["task_slices"]) + sum(map(attempt_weight, attempts_of(task)))


def bot_weight(bot):
    return size_of(bot["id"], bot["session"], bot["q"]) + sum(size_of(key, *values) for key, values in bot["dims"])


# ---- what a start makes of a base


def answer_to(lines, count, blobs, **changed):
    """What is printed of a base, an empty text where it is accepted: of its lines, the count and the bytes under
    each digest, for a pool at place 0 without lines of a log."""
    rows, place = read(lines)
    if rows is None:
        return f"store 0 base {place}\n"
    if broken_rules(rows, count, **changed):
        return f"store 0 base {len(lines)}\n"
    return "" if has_bytes(rows, blobs) else "store 0 0\n"


def has_bytes(rows, blobs):
    """Whether the bytes of each blob are there, of its size."""
    for row in rows.blobs:
        content = blobs.get(bytes.fromhex(row["digest"]))
        if content is None or len(content) != row["size"] or hashlib.sha256(content).hexdigest() != row["digest"]:
            return False
    return True
