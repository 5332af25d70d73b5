"""What the checks of kept records share: settings with a store, sessions and checkpoints of the program,
and the rows that another program, the sqlite3 of Python, finds in the file of a pool.

It is no check of its own, so it may not be executed.
"""
import base64
import hashlib
import json
import os
import re
import shutil
import sqlite3
import subprocess
import sys

TOP = os.path.dirname(os.path.dirname(os.path.dirname(os.path.abspath(__file__))))
SWARM = os.path.join(TOP, "swarm")
PERMISSIONS = [
    "swarming.pools.createTask",
    "swarming.pools.cancelTask",
    "swarming.pools.listTasks",
    "swarming.pools.listBots",
    "profile.pools.runBot",
    "profile.pools.useBlobs",
]
TABLES = ("base", "lines", "blobs", "meta")
# What stands beside the file of a pool while it is open, and stays where the process is killed.
ENDS = ("", "-wal", "-shm", "-journal")


def built_program():
    """The path of the program, which ./swarm builds where it isn't built."""
    subprocess.run([SWARM], stdout=subprocess.DEVNULL, check=False)
    return os.path.join(TOP, "crates", "swarm", "out", "swarm")


def shown(value):
    """A value as it is printed, cut where it is long."""
    text = repr(value)
    return text if len(text) <= 4000 else f"{text[:4000]}.. ({len(text)} characters)"


class Results:
    def __init__(self):
        self.passed, self.failed = 0, 0

    def check(self, name, wanted, came):
        if wanted == came:
            self.passed += 1
        else:
            self.failed += 1
            print(f"{name}: this is wanted:\n{shown(wanted)}\nand this came:\n{shown(came)}", flush=True)

    def end(self):
        print(f"{self.passed} passed, {self.failed} failed")
        sys.exit(1 if self.failed else 0)


# ---- settings and files


class Store:
    """A folder with a settings file and the folder of the records. `more` is a line for each pool."""

    def __init__(self, folder, pools=("default",), kept=True, more=""):
        self.folder, self.pools = folder, pools
        self.records = os.path.join(folder, "records")
        self.settings = os.path.join(folder, "settings.toml")
        os.makedirs(self.records, exist_ok=True)
        lines = [f"store = {json.dumps(self.records)}"] if kept else []
        for pool in pools:
            lines += ["[[pools]]", f'name = "{pool}"', more]
            lines += ["[[pools.grants]]", 'caller = "*"', f"permissions = {json.dumps(PERMISSIONS)}"]
        with open(self.settings, "w", encoding="utf-8") as file:
            file.write("\n".join(lines) + "\n")

    def file(self, pool="default"):
        return os.path.join(self.records, f"{pool}.sqlite")

    def copy(self, folder, more=""):
        """A store of the same pools in another folder, with copies of the records."""
        other = Store(folder, self.pools, more=more)
        shutil.rmtree(other.records)
        shutil.copytree(self.records, other.records)
        return other

    def words(self, program=SWARM, command="session"):
        return [program, command, "--settings", self.settings]

    def session(self, requests, program=SWARM, seconds=60):
        """Runs a session over these requests: its output and its status."""
        done = subprocess.run(
            self.words(program), input=b"".join(requests), stdout=subprocess.PIPE, timeout=seconds, check=False
        )
        return done.stdout, done.returncode


    def checkpoint(self, program=SWARM, seconds=60):
        """Lets the records begin anew: what is printed, and the status."""
        done = subprocess.run(
            self.words(program, "checkpoint"), stdin=subprocess.DEVNULL, stdout=subprocess.PIPE, timeout=seconds, check=False
        )
        return done.stdout.decode(), done.returncode


def query(path, words):
    """The rows of a query over a copy of a file, so that the file itself stays as it is."""
    copy = path + ".copy"
    for end in ENDS:
        if os.path.exists(path + end):
            shutil.copyfile(path + end, copy + end)
    try:
        kept = sqlite3.connect(copy)
        # (texts that are no UTF-8 are rows as well)
        kept.text_factory = bytes
        rows = kept.execute(words).fetchall()
        kept.close()
        return rows
    finally:
        for end in ENDS:
            if os.path.exists(copy + end):
                os.remove(copy + end)


def shown_by_sqlite3(path, words):
    """What Debian's sqlite3 prints of a query."""
    done = subprocess.run(["sqlite3", path, words], capture_output=True, timeout=60, check=False)
    return (done.stdout + done.stderr).decode().strip()


def numbered(path, table):
    """The texts of a table, in the order of their numbers, which have to be 1, 2 and so on."""
    rows = query(path, f"SELECT no, text FROM {table} ORDER BY no")
    if [number for number, _ in rows] != list(range(1, len(rows) + 1)):
        raise ValueError(f"{path}: the numbers of {table} are {[number for number, _ in rows]}")
    return [text.decode() for _, text in rows]


def lines_of(path):
    """The kept lines of the log."""
    return numbered(path, "lines")


def base_of(path):
    """The kept lines of the base."""
    return numbered(path, "base")


def count_of(path):
    """How many entries came before the base."""
    [(count,)] = query(path, "SELECT value FROM meta WHERE name = 'count'")
    return count


def blobs_of(path):
    return dict(query(path, "SELECT digest, bytes FROM blobs"))


def rows_of(path):
    """Each row of each table that the file has."""
    tables = [name.decode() for (name,) in query(path, "SELECT name FROM sqlite_master WHERE type = 'table'")]
    return {name: query(path, f'SELECT rowid, * FROM "{name}" ORDER BY rowid') for name in sorted(tables)}


def change(path, *commands):
    """Changes a file as another program does: each command is a text of SQL, with its values behind it."""
    kept = sqlite3.connect(path)
    for command, *values in commands:
        kept.execute(command, values)
    kept.commit()
    kept.close()


def with_texts(table, texts):
    """The commands that put these texts in the place of those of a table, numbered from 1."""
    return [(f"DELETE FROM {table}",), *((f"INSERT INTO {table} VALUES (?, ?)", at, text) for at, text in enumerate(texts, 1))]


def move_lines(path, seconds):
    """Lets all entries have happened so many seconds later."""
    lines = [json.loads(line) for line in lines_of(path)]
    change(path, *with_texts("lines", (compact({**line, "m": line["m"] + seconds}) for line in lines)))


def as_version_1():
    """The commands that make a file of version 1 of one without lines of a base."""
    return [("DROP TABLE base",), ("DELETE FROM meta WHERE name = 'count'",), ("UPDATE meta SET value = 1",)]


def compact(members):
    """A line of these members: compact JSON with sorted keys."""
    return json.dumps(members, sort_keys=True, separators=(",", ":"), ensure_ascii=False)


# ---- requests and replies


def request(path, body, caller="ana", method="POST"):
    body = body if isinstance(body, bytes) else json.dumps(body).encode()
    head = f"{method} {path} HTTP/1.1\r\nX-Swarming-Caller: {caller}\r\nContent-Length: {len(body)}\r\n\r\n"
    return head.encode() + body


def handshake(bot, pool="default", session="s", **more):
    """A bot comes; `more` are further members of the request."""
    dimensions = [{"key": "pool", "value": [pool]}, {"key": "id", "value": [bot]}]
    return request("/bot/handshake", {"bot_id": bot, "session": session, "dimensions": dimensions, **more}, "rack")


def task_with(properties, pool="default", **more):
    """A task that waits, with further properties, or with others than its command and its dimensions; `more` are
    members of the request."""
    properties = {"command": ["true"], "dimensions": [{"key": "pool", "value": pool}], **properties}
    slices = [{"expiration_secs": 604800, "wait_for_capacity": True, "properties": properties}]
    return request("/prpc/swarming.v2.Tasks/NewTask", {"task_slices": slices, **more})


def new_task(name, pool="default", **properties):
    return task_with(properties, pool, name=name)


def cancel(task, kill_running=False):
    return request("/prpc/swarming.v2.Tasks/CancelTask", {"task_id": task, "kill_running": kill_running})


def claim(bot, claim_id, pool="default"):
    return request("/bot/claim", {"pool": pool, "bot_id": bot, "claim_id": claim_id}, "rack")


def report(bot, run, output, start, exit_code=None, **more):
    body = {"bot_id": bot, "task_id": run, "output_chunk_start": start, **more}
    body["output"] = base64.b64encode(output).decode()
    if exit_code is not None:
        body.update(exit_code=exit_code, duration_ms=1)
    return request("/bot/task_update", body, "rack")


def result(task):
    return request("/prpc/swarming.v2.Tasks/GetResult", {"task_id": task})


def stdout(task):
    return request("/prpc/swarming.v2.Tasks/GetStdout", {"task_id": task})


def count(pool="default", state="ALL"):
    return request("/prpc/swarming.v2.Tasks/CountTasks", {"pool": pool, "state": state})


def digest(content):
    return hashlib.sha256(content).hexdigest()


def put(content, pool="default"):
    return request(f"/blobs/{pool}/{digest(content)}", content, "rack", "PUT")


def get(name, pool="default"):
    return request(f"/blobs/{pool}/{name}", b"", "rack", "GET")


class Reply:
    def __init__(self, head, body):
        self.status = int(head.split(b" ")[1])
        front = re.search(rb"\r\nX-Swarming-Front: ([0-9]+)", head)
        self.front = int(front.group(1)) if front else None
        self.body = body

    def json(self):
        return json.loads(self.body)


def replies_in(output):
    """The whole replies that an output begins with."""
    replies = []
    while True:
        head, blank, rest = output.partition(b"\r\n\r\n")
        size = re.search(rb"\r\nContent-Length: ([0-9]+)", head)
        if not blank or not size or len(rest) < int(size.group(1)):
            return replies
        replies.append(Reply(head, rest[: int(size.group(1))]))
        output = rest[int(size.group(1)) :]
