"""A disk that is full for a while: a file system in memory of its own, which a file fills up to some bytes.

It is no check of its own, so it may not be executed.
"""
import contextlib
import os
import subprocess
import tempfile

from lib.disk_cases import Case, Play
from lib.disk_worlds import room
from lib.failing_disks import Session

SIZE = 8 << 20
PIECE = 4096
# How many pieces are left where the disk is full: with none the first write fails, with more a later one.
LEFT = range(0, 40)
# The place of the request before which the disk is full, and how many are asked before it has room again.
FULL, KILLED = "full", "full, then killed"
WITHOUT_ROOM = 5


@contextlib.contextmanager
def small_disk():
    """A folder on a file system of its own, or none where the system doesn't let one be mounted."""
    with tempfile.TemporaryDirectory(dir=room()) as folder:
        mounted = subprocess.run(["mount", "-t", "tmpfs", "-o", f"size={SIZE}", "tmpfs", folder], capture_output=True, check=False)
        if mounted.returncode != 0:
            yield None
            return
        try:
            yield folder
        finally:
            subprocess.run(["umount", "--lazy", folder], check=True)


def fill(path, left):
    """Fills the disk with a file, up to so many pieces."""
    with open(path, "wb", buffering=0) as file:
        size = 0
        with contextlib.suppress(OSError):
            while True:
                size += file.write(b"\0" * PIECE)
        file.truncate(max(size - left * PIECE, 0))


class FullPlay(Play):
    """Requests of a world over a disk that is full for some of them."""

    def __init__(self, world, manner, begin, left, folder):
        super().__init__(Case(world, f"{manner} from request {begin} on but for {left} pieces", ()), folder)
        self.manner, self.begin, self.left = manner, begin, left
        self.filler, self.is_full = os.path.join(folder, "filler"), False

    def may_refuse(self, _):
        return self.is_full

    def play(self, traces):
        self.run = Session(traces, self.store)
        self.counts.add("starts")
        again = []
        for place in range(len(self.world.requests)):
            if place == self.begin:
                fill(self.filler, self.left)
                self.is_full = True
            if place == self.begin + WITHOUT_ROOM:
                if self.manner == KILLED:
                    self.kill()
                    os.remove(self.filler)
                    return self.look()
                self.make_room(again)
            if not self.ask(place)[0]:
                again.append(place)
        self.end()
        return self.look()

    def make_room(self, again):
        os.remove(self.filler)
        self.is_full = False
        self.send_again(again)


def plays(world, chance, many):
    """Plays some of the cases: what is found of each, and its counts; none where there is no small disk."""
    cases = [(manner, begin, left) for manner in (FULL, KILLED) for begin in range(len(world.requests) - WITHOUT_ROOM) for left in LEFT]
    for manner, begin, left in chance.sample(cases, min(many, len(cases))):
        with small_disk() as folder, tempfile.TemporaryDirectory(dir=room()) as traces:
            if folder is None:
                return
            play = FullPlay(world, manner, begin, left, folder)
            play.play(traces)
            yield play.found, play.counts, []
