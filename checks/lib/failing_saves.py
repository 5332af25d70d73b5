"""Files that the client can't save, and a file that two runs would save.

`spawn-tasks` is the only command that saves a file: the progress of its batch. Where it can't, it tells the file
with the system's reason, prints nothing, and ends with status 4; the progress is one that was saved whole. What
was sent is found again by the next run. Of two runs over one batch the second says that there is another one,
and ends.

It is no check of its own, so it may not be executed.
"""
import hashlib
import json
import os
import re
import subprocess

from lib import records, serving
from lib.failing_disks import Fault, program

LINES = 10
# How long a save of the first of two runs is held up, so that the second comes meanwhile.
HELD_SECONDS = 3
NAME = "nightly"
SECONDS = 30
# The calls of a save, each of which fails: for these errors, by their names and what the system says of them.
SAVES = ("openat", "write", "fsync", "rename")
REASONS = {
    "EACCES": "Permission denied (os error 13)",
    "EIO": "Input/output error (os error 5)",
    "ENOSPC": "No space left on device (os error 28)",
}


class Batch:
    """A batch in a folder of its own, which is sent to a server."""

    def __init__(self, folder, server, lines=LINES):
        os.makedirs(folder)
        self.folder, self.server, self.lines = folder, server, lines
        self.file = os.path.join(folder, "batch.jsonl")
        self.done = f"{self.file}.done"
        self.new, self.lock = f"{self.done}.new", f"{self.done}.lock"
        # (the name of the folder makes the uuids of the batch its own)
        self.name = f"{NAME}-{os.path.basename(folder)}"
        text = b"".join(line_of(number) for number in range(1, lines + 1))
        with open(self.file, "wb") as file:
            file.write(text)
        self.head = f"{hashlib.sha256(text).hexdigest()} {self.name}\n"

    def spawn(self, before=()):
        words = [program(), "spawn-tasks", "--server", self.server.url, "--caller", "ana", "--name", self.name, self.file]
        how = {"stdin": subprocess.DEVNULL, "stdout": subprocess.PIPE, "stderr": subprocess.PIPE}
        return subprocess.Popen([*before, *words], env={**os.environ, "SWARM_LOG": "error"}, **how)

    def run(self, before=()):
        return outcome(self.spawn(before))

    def progress(self):
        try:
            with open(self.done, encoding="utf-8") as file:
                return file.read()
        except (FileNotFoundError, IsADirectoryError):
            return None

    def is_whole(self, progress):
        """Whether this is a progress that was saved whole: the head, and the first lines in their order."""
        if progress is None:
            return True
        rows = progress.removeprefix(self.head).splitlines(keepends=True)
        return progress.startswith(self.head) and all(re.fullmatch(rf"{number} [0-9a-f]+\n", row) for number, row in enumerate(rows, 1))


def line_of(number):
    properties = {"command": ["true", str(number)], "dimensions": [{"key": "pool", "value": "default"}]}
    return json.dumps({"name": f"line {number}", "task_slices": [{"expiration_secs": 600, "properties": properties}]}).encode() + b"\n"


def outcome(process):
    """The status of a run, what it printed, and the texts of its log."""
    output, log = process.communicate(timeout=SECONDS)
    return process.returncode, output.decode(), [line.partition(" ")[2] for line in log.decode().splitlines()]


def can_not_write(batch, reason):
    return 4, "", [f"ERROR can't write {batch.done}: {reason}"]


def check_next(results, name, batch):
    """A run without a fault goes on with what was saved, and each line has a task of its own."""
    before = batch.progress()
    results.check(f"{name}: the progress is whole", True, batch.is_whole(before) or before)
    status, output, log = batch.run()
    results.check(f"{name}: the next run", (0, []), (status, log))
    results.check(f"{name}: its progress", batch.head + output, batch.progress())
    results.check(f"{name}: it has all lines", [str(number) for number in range(1, batch.lines + 1)], [row.split()[0] for row in output.splitlines()])
    results.check(f"{name}: nothing is left beside it", False, os.path.lexists(batch.new))
    if before:
        results.check(f"{name}: what was saved stays", True, batch.progress().startswith(before))


def check_places(results, folder, server):
    """Nothing can be written at the place of the new file, or at that of the lock."""
    batch = Batch(os.path.join(folder, "folder"), server)
    os.mkdir(batch.new)
    results.check("a folder at the new file", can_not_write(batch, "Is a directory (os error 21)"), batch.run())
    os.rmdir(batch.new)
    check_next(results, "a folder at the new file", batch)

    batch = Batch(os.path.join(folder, "lock"), server)
    os.mkdir(batch.lock)
    results.check("a folder at the lock", can_not_write(batch, "Is a directory (os error 21)"), batch.run())
    os.rmdir(batch.lock)
    check_next(results, "a folder at the lock", batch)

    batch = Batch(os.path.join(folder, "full"), server)
    os.symlink("/dev/full", batch.new)
    came = batch.run()
    # (the device can't be synced, but it refuses a write before that)
    results.check("a full device", can_not_write(batch, REASONS["ENOSPC"]), came)
    check_next(results, "a full device", batch)


def check_calls(results, folder, server):
    """Each call of the first save, and of a later one, fails."""
    for call in SAVES:
        for error, reason in REASONS.items():
            for save in (1, 5):
                name = f"{call}, {error}, save {save}"
                batch = Batch(os.path.join(folder, f"{call}-{error}-{save}"), server)
                fault = Fault(call, error, save, save)
                words = ["strace", "-f", "-qq", "-e", "signal=none", "-P", batch.new, "-e", f"trace={call}", "-e", fault.word(), "-o", f"{batch.folder}/trace"]
                results.check(name, can_not_write(batch, reason), batch.run(words))
                results.check(f"{name}: the lines that were saved", save - 1, len((batch.progress() or batch.head).splitlines()) - 1)
                check_next(results, name, batch)


def check_two_runs(results, folder, server):
    """A second run over the file of one whose second save is held up."""
    batch = Batch(os.path.join(folder, "two"), server)
    held = f"inject=fsync:delay_enter={HELD_SECONDS * 10**6}:when=2"
    words = ["strace", "-f", "-qq", "-e", "signal=none", "-P", batch.new, "-e", "trace=fsync", "-e", held, "-o", f"{batch.folder}/trace"]
    with batch.spawn(words) as first:
        serving.wait_until(lambda: batch.progress() or first.poll() is not None)
        saved = batch.progress()
        results.check("the second of two runs", can_not_write(batch, "another run saves it"), batch.run())
        results.check("the second of two runs saves nothing", saved, batch.progress())
        results.check("the first of two runs goes on", (True, 1), (first.poll() is None, len((saved or batch.head).splitlines()) - 1))
        status, output, log = outcome(first)
    results.check("the first of two runs", (0, []), (status, log))
    results.check("the first of two runs: its progress", batch.head + output, batch.progress())
    results.check("a further run prints the same", (0, output, []), batch.run())


def check_all(results, folder):
    with serving.Server(100000) as server:
        check_places(results, folder, server)
        check_calls(results, folder, server)
        before = tasks_of(server)
        check_two_runs(results, folder, server)
        results.check("two runs send no line twice", LINES, tasks_of(server) - before)


def tasks_of(server):
    return server.ask(records.count())[0].json()["count"]
