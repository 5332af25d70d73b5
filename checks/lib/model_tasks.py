"""What docs/protocol.md says of the body of NewTask.

A part of the model that `checks/fuzz` holds the program against; it is no check of its own.
"""
import re

from lib import model_json as fields
from lib.model_json import CONTROL, DIMENSION_KEY, bad, size

MOST_SECONDS = 604800
MOST_BLOB = 16777216
ENV_KEY = re.compile(r"[A-Za-z_][A-Za-z0-9_]*")
CACHE_NAME = re.compile(r"[a-z0-9_]*")
UUID = re.compile(r"[A-Za-z0-9-]*")
PROPERTIES = ("command", "env", "dimensions", "caches", "inputs", "outputs", "execution_timeout_secs", "io_timeout_secs", "grace_period_secs", "idempotent")


class Slice:
    """One slice of a checked task; `properties` has its lists in the order of the canonical text."""

    def __init__(self, expiration, waits, properties):
        self.expiration, self.waits, self.properties = expiration, waits, properties
        self.pool = next(value for key, value in properties["dimensions"] if key == "pool")
        self.asks = [(key, value.split("|")) for key, value in properties["dimensions"]]
        self.same = repr(properties)
        self.weight = self._weight()

    def _weight(self):
        of = self.properties
        texts = list(of["command"]) + list(of["outputs"])
        for name in ("env", "dimensions", "caches"):
            texts += [text for pair in of[name] for text in pair]
        texts += [path for path, _, _ in of["inputs"]]
        return sum(map(size, texts)) + 36 * len(of["inputs"])

    def shown(self):
        of = dict(self.properties)
        of["env"] = [{"key": key, "value": value} for key, value in of["env"]]
        of["dimensions"] = [{"key": key, "value": value} for key, value in of["dimensions"]]
        of["caches"] = [{"name": name, "path": path} for name, path in of["caches"]]
        of["inputs"] = [{"path": path, "digest": digest, "size": many} for path, digest, many in of["inputs"]]
        return of


class NewTask:
    """A NewTask whose body breaks no rule."""

    def __init__(self, name, priority, tolerance, uuid, slices):
        self.name, self.priority, self.tolerance, self.uuid, self.slices = name, priority, tolerance or 1200, uuid, slices
        self.pool = slices[0].pool
        self.same = repr((name, priority, self.tolerance, [(it.expiration, it.waits, it.same) for it in slices]))
        self.weight = size(name) + size(uuid) + sum(it.weight for it in slices)


def read_new_task(body):
    item = fields.read_object(body)
    task = typed_task(item)
    check_task(task)
    slices = []
    for one in task["task_slices"]:
        of = dict(one["properties"])
        for name in ("env", "dimensions", "caches", "inputs"):
            of[name] = sorted((tuple(it.values()) for it in of[name]), key=lambda it: [x.encode() if isinstance(x, str) else x for x in it])
        of["outputs"] = sorted(of["outputs"], key=str.encode)
        slices.append(Slice(one["expiration_secs"], one["wait_for_capacity"], of))
    if len({it.same for it in slices}) < len(slices):
        raise bad("task_slices", "repeated")
    if len({it.pool for it in slices}) > 1:
        raise bad("task_slices", "pool")
    return NewTask(task["name"], task["priority"], task["bot_ping_tolerance_secs"], task["request_uuid"], slices)


# The rules `missing`, `type` and `unknown`, for all fields in their order.

def typed_task(item):
    return {
        "name": fields.text_of(item, "name", "name"),
        "priority": fields.number_of(item, "priority", "priority"),
        "bot_ping_tolerance_secs": fields.number_of(item, "bot_ping_tolerance_secs", "bot_ping_tolerance_secs"),
        "request_uuid": fields.text_of(item, "request_uuid", "request_uuid"),
        "task_slices": [typed_slice(one, f"task_slices.{at}") for at, one in enumerate(fields.required_list(item, "task_slices", "task_slices"))],
    }


def typed_slice(item, path):
    fields.object_of(item, path)
    expiration = fields.number_of(item, "expiration_secs", f"{path}.expiration_secs")
    waits = fields.truth_of(item, "wait_for_capacity", f"{path}.wait_for_capacity")
    fields.required(item, "properties", f"{path}.properties")
    properties = fields.object_of(item["properties"], f"{path}.properties")
    return {"expiration_secs": expiration, "wait_for_capacity": waits, "properties": typed_properties(properties, f"{path}.properties")}


def typed_properties(item, path):
    def numbered(name, absent=0):
        return fields.number_of(item, name, f"{path}.{name}", absent)

    found = {
        "command": texts_of(fields.required_list(item, "command", f"{path}.command"), f"{path}.command"),
        "env": pairs_of(item, "env", path, "key", "value"),
    }
    fields.required(item, "dimensions", f"{path}.dimensions")
    found["dimensions"] = pairs_of(item, "dimensions", path, "key", "value")
    found["caches"] = pairs_of(item, "caches", path, "name", "path")
    found["inputs"] = [typed_input(one, f"{path}.inputs.{at}") for at, one in enumerate(fields.list_of(item, "inputs", f"{path}.inputs"))]
    found["outputs"] = texts_of(fields.list_of(item, "outputs", f"{path}.outputs"), f"{path}.outputs")
    found["execution_timeout_secs"] = numbered("execution_timeout_secs")
    found["io_timeout_secs"] = numbered("io_timeout_secs")
    found["grace_period_secs"] = numbered("grace_period_secs", 30)
    found["idempotent"] = fields.truth_of(item, "idempotent", f"{path}.idempotent")
    no_unknown(item, PROPERTIES, path)
    return found


def texts_of(items, path):
    for at, one in enumerate(items):
        if not isinstance(one, str):
            raise bad(f"{path}.{at}", "type")
    return items


def pairs_of(item, name, path, first, second):
    found = []
    for at, one in enumerate(fields.list_of(item, name, f"{path}.{name}")):
        place = f"{path}.{name}.{at}"
        fields.object_of(one, place)
        found.append({first: fields.text_of(one, first, f"{place}.{first}"), second: fields.text_of(one, second, f"{place}.{second}")})
        no_unknown(one, (first, second), place)
    return found


def typed_input(one, place):
    fields.object_of(one, place)
    found = {
        "path": fields.text_of(one, "path", f"{place}.path"),
        "digest": fields.required_text(one, "digest", f"{place}.digest"),
        "size": fields.number_of(one, "size", f"{place}.size"),
    }
    no_unknown(one, ("path", "digest", "size"), place)
    return found


def no_unknown(item, known, path):
    for key in sorted(item, key=str.encode):
        if key not in known and item[key] is not None:
            raise bad(f"{path}.{key}", "unknown")


# The other rules, field by field.

def check_task(task):
    fields.check_count(size(task["name"]), 0, 256, "name")
    if CONTROL.search(task["name"]):
        raise bad("name", "grammar")
    fields.check_range(task["priority"], 0, 255, "priority")
    if task["bot_ping_tolerance_secs"] != 0:
        fields.check_range(task["bot_ping_tolerance_secs"], 60, 1200, "bot_ping_tolerance_secs")
    fields.check_count(size(task["request_uuid"]), 0, 64, "request_uuid")
    if not UUID.fullmatch(task["request_uuid"]):
        raise bad("request_uuid", "grammar")
    fields.check_count(len(task["task_slices"]), 1, 8, "task_slices")
    for at, one in enumerate(task["task_slices"]):
        fields.check_range(one["expiration_secs"], 1, MOST_SECONDS, f"task_slices.{at}.expiration_secs")
        check_properties(one["properties"], f"task_slices.{at}.properties")


def check_properties(of, path):
    fields.check_count(len(of["command"]), 1, 64, f"{path}.command")
    for at, text in enumerate(of["command"]):
        fields.check_count(size(text), 0 if at else 1, 4096, f"{path}.command.{at}")
        if "\0" in text:
            raise bad(f"{path}.command.{at}", "grammar")
    check_environment(of["env"], f"{path}.env")
    check_dimensions(of["dimensions"], f"{path}.dimensions")
    check_caches(of["caches"], f"{path}.caches")
    check_inputs(of["inputs"], f"{path}.inputs")
    fields.check_count(len(of["outputs"]), 0, 64, f"{path}.outputs")
    for at, text in enumerate(of["outputs"]):
        fields.check_path(text, f"{path}.outputs.{at}")
        if text in of["outputs"][:at]:
            raise bad(f"{path}.outputs.{at}", "repeated")
    fields.check_range(of["execution_timeout_secs"], 0, MOST_SECONDS, f"{path}.execution_timeout_secs")
    fields.check_range(of["io_timeout_secs"], 0, MOST_SECONDS, f"{path}.io_timeout_secs")
    fields.check_range(of["grace_period_secs"], 0, 3600, f"{path}.grace_period_secs")


def check_environment(items, path):
    fields.check_count(len(items), 0, 64, path)
    for at, one in enumerate(items):
        fields.check_count(size(one["key"]), 1, 64, f"{path}.{at}.key")
        if not ENV_KEY.fullmatch(one["key"]):
            raise bad(f"{path}.{at}.key", "grammar")
        if one["key"] in [it["key"] for it in items[:at]]:
            raise bad(f"{path}.{at}.key", "repeated")
        fields.check_count(size(one["value"]), 0, 4096, f"{path}.{at}.value")
        if "\0" in one["value"]:
            raise bad(f"{path}.{at}.value", "grammar")


def check_dimensions(items, path):
    fields.check_count(len(items), 0, 32, path)
    for at, one in enumerate(items):
        key, value = one["key"], one["value"]
        choices = value.split("|")
        if not DIMENSION_KEY.fullmatch(key) or not fields.is_dimension_value(value):
            raise bad(f"{path}.{at}", "grammar")
        if any(it.startswith(" ") or it.endswith(" ") for it in choices):
            raise bad(f"{path}.{at}", "grammar")
        if one in items[:at]:
            raise bad(f"{path}.{at}", "repeated")
        if "" in choices:
            raise bad(f"{path}.{at}", "alternative")
    pools = [it["value"] for it in items if it["key"] == "pool"]
    if len(pools) != 1 or "|" in pools[0]:
        raise bad(path, "pool")
    if len([it for it in items if it["key"] == "id"]) > 1:
        raise bad(path, "id")


def check_caches(items, path):
    fields.check_count(len(items), 0, 8, path)
    for at, one in enumerate(items):
        fields.check_count(size(one["name"]), 1, 64, f"{path}.{at}.name")
        if not CACHE_NAME.fullmatch(one["name"]):
            raise bad(f"{path}.{at}.name", "grammar")
        if one["name"] in [it["name"] for it in items[:at]]:
            raise bad(f"{path}.{at}.name", "repeated")
        fields.check_path(one["path"], f"{path}.{at}.path")
        if one["path"] in [it["path"] for it in items[:at]]:
            raise bad(f"{path}.{at}.path", "repeated")


def check_inputs(items, path):
    fields.check_count(len(items), 0, 64, path)
    for at, one in enumerate(items):
        fields.check_path(one["path"], f"{path}.{at}.path")
        if one["path"] in [it["path"] for it in items[:at]]:
            raise bad(f"{path}.{at}.path", "repeated")
        fields.check_digest(one["digest"], f"{path}.{at}.digest")
        fields.check_range(one["size"], 0, MOST_BLOB, f"{path}.{at}.size")
