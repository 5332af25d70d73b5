"""What docs/protocol.md says of the bodies of all calls but NewTask.

Each function reads a body to the fields of its call; `pools` are the names of the pools. A part of the
model that `checks/fuzz` holds the program against; it is no check of its own.
"""
import re

from lib import model_json as fields
from lib.model_json import DIMENSION_KEY, bad, size

STATES = ("PENDING", "RUNNING", "EXPIRED", "TIMED_OUT", "BOT_DIED", "CANCELED", "COMPLETED", "KILLED", "NO_RESOURCE", "ALL")
MOST_OUTPUT = 67108864
MOST_BLOB = 16777216
MOST_PIECE = 32768
EVENTS = {"ping": (0, 256), "quarantine": (1, 256), "unquarantine": (0, 256)}
TASKS_OF_A_PLACE = 262144


def check_id(text, path, digits="012"):
    if not re.fullmatch(f"[1-9a-f][0-9a-f]{{0,5}}[{digits}]", text):
        raise bad(path, "grammar")


def place_of(task_id):
    """The place of the pool of an id, the number of the task there, and the run."""
    number = int(task_id[:-1], 16) - 1
    return number // TASKS_OF_A_PLACE, number % TASKS_OF_A_PLACE + 1, int(task_id[-1])


def id_of(place, number, run=0):
    return f"{place * TASKS_OF_A_PLACE + number:x}{run}"


def get_result(body):
    item = fields.read_object(body)
    task_id = fields.required_text(item, "task_id", "task_id")
    check_id(task_id, "task_id")
    return {"task_id": task_id}


def get_stdout(body):
    item = fields.read_object(body)
    found = {
        "task_id": fields.required_text(item, "task_id", "task_id"),
        "offset": fields.number_of(item, "offset", "offset"),
        "length": fields.number_of(item, "length", "length"),
    }
    check_id(found["task_id"], "task_id")
    fields.check_range(found["offset"], 0, MOST_OUTPUT, "offset")
    fields.check_range(found["length"], 0, 65536, "length")
    found["length"] = found["length"] or 65536
    return found


def cancel_task(body):
    item = fields.read_object(body)
    found = {
        "task_id": fields.required_text(item, "task_id", "task_id"),
        "kill_running": fields.truth_of(item, "kill_running", "kill_running"),
    }
    check_id(found["task_id"], "task_id")
    return found


def check_state(text):
    if text not in STATES:
        raise bad("state", "grammar")


def list_tasks(body, pools):
    item = fields.read_object(body)
    found = {
        "pool": fields.required_text(item, "pool", "pool"),
        "state": fields.text_of(item, "state", "state") if fields.has(item, "state") else "ALL",
        "limit": fields.number_of(item, "limit", "limit"),
        "cursor": fields.number_of(item, "cursor", "cursor", None),
    }
    check_state(found["state"])
    fields.check_range(found["limit"], 0, 200, "limit")
    if found["cursor"] is not None:
        fields.check_range(found["cursor"], 1, 4 * TASKS_OF_A_PLACE, "cursor")
        if found["pool"] in pools and (found["cursor"] - 1) // TASKS_OF_A_PLACE != pools.index(found["pool"]):
            raise bad("cursor", "range")
    found["limit"] = found["limit"] or 50
    return found


def count_tasks(body):
    item = fields.read_object(body)
    found = {
        "pool": fields.required_text(item, "pool", "pool"),
        "state": fields.text_of(item, "state", "state") if fields.has(item, "state") else "ALL",
    }
    check_state(found["state"])
    return found


def bot_name(body):
    """The fields of TerminateBot and of GetBot."""
    item = fields.read_object(body)
    found = {"pool": fields.required_text(item, "pool", "pool"), "bot_id": fields.required_text(item, "bot_id", "bot_id")}
    fields.check_name(found["bot_id"], "bot_id")
    return found


def list_bots(body):
    item = fields.read_object(body)
    found = {
        "pool": fields.required_text(item, "pool", "pool"),
        "limit": fields.number_of(item, "limit", "limit"),
        "cursor": fields.text_of(item, "cursor", "cursor"),
    }
    fields.check_range(found["limit"], 0, 200, "limit")
    if found["cursor"]:
        fields.check_name(found["cursor"], "cursor")
    found["limit"] = found["limit"] or 50
    return found


def find_missing(body):
    item = fields.read_object(body)
    found = []
    for at, one in enumerate(fields.list_of(item, "blobs", "blobs")):
        fields.object_of(one, f"blobs.{at}")
        found.append((fields.required_text(one, "digest", f"blobs.{at}.digest"), fields.number_of(one, "size", f"blobs.{at}.size")))
    fields.check_count(len(found), 0, 512, "blobs")
    for at, (digest, many) in enumerate(found):
        fields.check_digest(digest, f"blobs.{at}.digest")
        fields.check_range(many, 0, MOST_BLOB, f"blobs.{at}.size")
    return {"blobs": found}


# What a bot sends.

def typed_bot_dimensions(item):
    found = []
    for at, one in enumerate(fields.required_list(item, "dimensions", "dimensions")):
        path = f"dimensions.{at}"
        fields.object_of(one, path)
        key = fields.text_of(one, "key", f"{path}.key")
        values = fields.list_of(one, "value", f"{path}.value")
        for place, value in enumerate(values):
            if not isinstance(value, str):
                raise bad(f"{path}.value.{place}", "type")
        found.append((key, values))
    return found


def is_bot_value(text):
    return fields.is_dimension_value(text) and "|" not in text and not text.startswith(" ") and not text.endswith(" ")


def check_bot_dimensions(found, bot_id):
    """The dimensions of a bot, as its keys with the values of each."""
    fields.check_count(len(found), 0, 64, "dimensions")
    for at, (key, values) in enumerate(found):
        path = f"dimensions.{at}"
        fields.check_count(len(values), 1, 64, path)
        if not DIMENSION_KEY.fullmatch(key) or not all(map(is_bot_value, values)):
            raise bad(path, "grammar")
        if key in [it for it, _ in found[:at]] or len(set(values)) < len(values):
            raise bad(path, "repeated")
    has = dict(found)
    if len(has.get("pool", [])) != 1:
        raise bad("dimensions", "pool")
    if has.get("id") != [bot_id]:
        raise bad("dimensions", "id")
    return has


def handshake(body):
    item = fields.read_object(body)
    found = {
        "bot_id": fields.required_text(item, "bot_id", "bot_id"),
        "session": fields.required_text(item, "session", "session"),
        "dimensions": typed_bot_dimensions(item),
        "quarantined": fields.text_of(item, "quarantined", "quarantined"),
    }
    fields.check_name(found["bot_id"], "bot_id")
    fields.check_name(found["session"], "session")
    return with_dimensions(found)


def poll(body):
    item = fields.read_object(body)
    found = {
        "bot_id": fields.required_text(item, "bot_id", "bot_id"),
        "dimensions": typed_bot_dimensions(item),
        "quarantined": fields.text_of(item, "quarantined", "quarantined"),
    }
    fields.check_name(found["bot_id"], "bot_id")
    return with_dimensions(found)


def with_dimensions(found):
    found["dimensions"] = check_bot_dimensions(found["dimensions"], found["bot_id"])
    fields.check_count(size(found["quarantined"]), 0, 256, "quarantined")
    found["pool"] = found["dimensions"]["pool"][0]
    return found


def claim(body):
    item = fields.read_object(body)
    found = {name: fields.required_text(item, name, name) for name in ("pool", "bot_id", "claim_id")}
    fields.check_name(found["bot_id"], "bot_id")
    fields.check_name(found["claim_id"], "claim_id")
    return found


def event(body):
    item = fields.read_object(body)
    found = {name: fields.required_text(item, name, name) for name in ("pool", "bot_id", "event")}
    found["message"] = fields.text_of(item, "message", "message")
    fields.check_name(found["bot_id"], "bot_id")
    if found["event"] not in EVENTS:
        raise bad("event", "grammar")
    fields.check_count(size(found["message"]), *EVENTS[found["event"]], "message")
    return found


def report(body):
    item = fields.read_object(body)
    found = {
        "bot_id": fields.required_text(item, "bot_id", "bot_id"),
        "task_id": fields.required_text(item, "task_id", "task_id"),
        "output": fields.text_of(item, "output", "output"),
        "start": fields.number_of(item, "output_chunk_start", "output_chunk_start"),
        "exit_code": fields.number_of(item, "exit_code", "exit_code", None),
        "duration_ms": fields.number_of(item, "duration_ms", "duration_ms"),
        "hard_timeout": fields.truth_of(item, "hard_timeout", "hard_timeout"),
        "io_timeout": fields.truth_of(item, "io_timeout", "io_timeout"),
        "dropped": fields.number_of(item, "dropped", "dropped"),
        "files": [],
    }
    for at, one in enumerate(fields.list_of(item, "files", "files")):
        path = f"files.{at}"
        fields.object_of(one, path)
        found["files"].append({
            "path": fields.text_of(one, "path", f"{path}.path"),
            "digest": fields.required_text(one, "digest", f"{path}.digest"),
            "size": fields.number_of(one, "size", f"{path}.size"),
        })
    check_report(found)
    return found


def check_report(found):
    fields.check_name(found["bot_id"], "bot_id")
    check_id(found["task_id"], "task_id", "12")
    found["output"] = fields.read_base64(found["output"], "output")
    fields.check_count(len(found["output"]), 0, MOST_PIECE, "output")
    if found["output"]:
        fields.check_range(found["start"], 0, MOST_OUTPUT - len(found["output"]), "output_chunk_start")
    else:
        found["start"] = 0
    if found["exit_code"] is not None:
        fields.check_range(found["exit_code"], -(1 << 31), (1 << 31) - 1, "exit_code")
    fields.check_range(found["duration_ms"], 0, 1 << 40, "duration_ms")
    fields.check_range(found["dropped"], 0, 1 << 53, "dropped")
    fields.check_count(len(found["files"]), 0, 64, "files")
    for at, one in enumerate(found["files"]):
        fields.check_path(one["path"], f"files.{at}.path")
        fields.check_digest(one["digest"], f"files.{at}.digest")
        fields.check_range(one["size"], 0, MOST_BLOB, f"files.{at}.size")
