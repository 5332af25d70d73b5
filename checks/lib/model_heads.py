"""What docs/protocol.md says of heads, routes and connections, as plain Python.

A part of the model that `checks/fuzz` holds the program against; it is no check of its own.
"""
import re

MOST_HEAD_BYTES = 16384
MOST_FIELDS = 64
MOST_BODY = 65536
MOST_BLOB = 16777216
STATUSES = {
    200: "OK", 400: "Bad Request", 401: "Unauthorized", 403: "Forbidden", 404: "Not Found",
    405: "Method Not Allowed", 409: "Conflict", 410: "Gone", 411: "Length Required",
    413: "Payload Too Large", 503: "Service Unavailable", 507: "Insufficient Storage",
}
REQUEST_LINE = re.compile(rb"([!#$%&'*+\-.^_`|~0-9A-Za-z]+) ([\x21-\x7e\x80-\xff]+) HTTP/1\.([01])")
FIELD_LINE = re.compile(rb"([!#$%&'*+\-.^_`|~0-9A-Za-z]+):[ \t]*((?:[\x21-\x7e\x80-\xff](?:[ \t]*[\x21-\x7e\x80-\xff])*)?)[ \t]*")
CALLS = {
    "/prpc/swarming.v2.Tasks/NewTask": "new_task",
    "/prpc/swarming.v2.Tasks/GetResult": "get_result",
    "/prpc/swarming.v2.Tasks/GetStdout": "get_stdout",
    "/prpc/swarming.v2.Tasks/CancelTask": "cancel_task",
    "/prpc/swarming.v2.Tasks/ListTasks": "list_tasks",
    "/prpc/swarming.v2.Tasks/CountTasks": "count_tasks",
    "/prpc/swarming.v2.Bots/TerminateBot": "terminate_bot",
    "/prpc/swarming.v2.Bots/GetBot": "get_bot",
    "/prpc/swarming.v2.Bots/ListBots": "list_bots",
    "/bot/handshake": "handshake",
    "/bot/poll": "poll",
    "/bot/claim": "claim",
    "/bot/task_update": "report",
    "/bot/event": "event",
}
BLOB_TARGET = re.compile(r"/blobs/([^/?]+)/([^/?]+)")
BLOBS_TARGET = re.compile(r"/blobs/([^/?]+)")


class Refused(Exception):
    """A refusal: its status, its code, and the fields of its body."""

    def __init__(self, status, code, **fields):
        super().__init__(code)
        self.status, self.code, self.fields = status, code, fields


class Head:
    """The head of a request, as its bytes say it."""

    def __init__(self, method, target, version, fields):
        self.method, self.target, self.version, self.fields = method, target, version, fields

    def values(self, name):
        return [value for key, value in self.fields if key == name]


def read_head(text):
    """The head that these bytes are, up to and with their blank line, or None."""
    lines = text[:-4].split(b"\n")
    lines = [line[:-1] if line.endswith(b"\r") and place + 1 < len(lines) else line for place, line in enumerate(lines)]
    while len(lines) > 1 and lines[0] == b"":
        lines = lines[1:]
    found = REQUEST_LINE.fullmatch(lines[0])
    if not found or len(lines) - 1 > MOST_FIELDS:
        return None
    fields = []
    for line in lines[1:]:
        field = FIELD_LINE.fullmatch(line)
        if not field:
            return None
        fields.append((field.group(1).lower().decode(), field.group(2)))
    try:
        return Head(found.group(1).decode(), found.group(2).decode(), int(found.group(3)), fields)
    except UnicodeDecodeError:
        return None


def body_length(head):
    """The length of the body of a head, or the refusal of one of the first three rules."""
    lengths = head.values("content-length")
    if len(lengths) > 1 or any(not re.fullmatch(rb"[0-9]{1,10}", it) for it in lengths):
        raise Refused(400, "bad_head")
    if head.values("transfer-encoding") or (head.method in ("POST", "PUT") and not lengths):
        raise Refused(411, "length_required")
    length = int(lengths[0]) if lengths else 0
    most = MOST_BLOB if head.target.startswith("/blobs/") else MOST_BODY
    if length > most:
        raise Refused(413, "too_large", limit=most)
    return length


def find_call(head):
    """The call that a head names, with the parts of its target, and its caller."""
    target = head.target
    if target in CALLS:
        methods, parts = {"POST": CALLS[target]}, ()
    elif found := BLOB_TARGET.fullmatch(target):
        methods, parts = {"PUT": "put_blob", "GET": "get_blob"}, found.groups()
    elif found := BLOBS_TARGET.fullmatch(target):
        methods, parts = {"POST": "find_missing"}, found.groups()
    else:
        raise Refused(404, "no_route")
    if head.method not in methods:
        raise Refused(405, "bad_method")
    callers = head.values("x-swarming-caller")
    if len(callers) != 1 or not re.fullmatch(rb"[\x21-\x7e]{1,128}", callers[0]):
        raise Refused(401, "no_caller")
    return methods[head.method], parts, callers[0].decode()


def asked_front(head):
    """The front that X-Swarming-After asks for, or the refusal of what stands there."""
    fronts = head.values("x-swarming-after")
    if not fronts:
        return 0
    if len(fronts) > 1 or not re.fullmatch(rb"[0-9]{1,19}", fronts[0]):
        raise Refused(400, "bad_field", field="X-Swarming-After", rule="grammar")
    return int(fronts[0])


def closes(head):
    """Whether the connection ends behind the reply to this head."""
    tokens = [it.strip(b" \t").lower() for value in head.values("connection") for it in value.split(b",")]
    return head.version == 0 or b"close" in tokens


def reply(status, front, body, kind="application/json", empty=False):
    """The bytes of a reply; `empty` leaves the body out, as for HEAD."""
    head = f"HTTP/1.1 {status} {STATUSES[status]}\r\nContent-Length: {len(body)}\r\nContent-Type: {kind}\r\n"
    if front is not None:
        head += f"X-Swarming-Front: {front}\r\n"
    return head.encode() + b"\r\n" + (b"" if empty else body)
