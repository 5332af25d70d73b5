"""Checkpoints over a disk that fails: each pool is as before or as after, and the next checkpoint leaves what a
whole one does.

It is no check of its own, so it may not be executed.
"""
import tempfile

from lib import disk_cases
from lib.disk_worlds import LIMITS, World, answers_after, room, rows_in
from lib.failing_disks import Run, program

MANNERS = ("once", "twice", "often", "mending", "stays")
BEFORE, AFTER = "before", "after"
# Of a checkpoint that doesn't end well: the states of the pools, in their order.
STATES = ([BEFORE, BEFORE], [AFTER, BEFORE], [AFTER, AFTER])


class Checkpoint(Run):
    """A checkpoint over a store."""

    def __init__(self, folder, store, faults=None):
        super().__init__(folder, store.words(program(), "checkpoint"), faults)
        self.status = self.wait()


class CheckpointWorld(World):
    """A store and what a whole checkpoint leaves of it."""

    def __init__(self, folder, name, make):
        super().__init__(folder, name, make, [])
        with tempfile.TemporaryDirectory(dir=room()) as folder:
            store = self.copied(folder)
            # (a file of version 1 may be of version 2 by then)
            self.before = [rows_in(store), self.course(()).rows]
            run = Checkpoint(folder, store, [])
            self.made = run.calls()
            self.shown = run.read(run.output), run.status
            self.after = rows_in(store)

    def calls(self):
        return self.made

    def state(self, pool, rows):
        """Whether the rows of a pool are those before a checkpoint or those after it; where neither, what they are."""
        if rows == self.after[pool]:
            return AFTER
        return BEFORE if any(rows == it[pool] for it in self.before) else rows


def cases_of(world):
    return [case for case in disk_cases.cases_of(world) if case.manner in MANNERS]


class CheckpointPlay:
    """A checkpoint that is played with calls that fail."""

    def __init__(self, case, folder):
        self.case, self.world, self.folder = case, case.world, folder
        self.found, self.counts = [], disk_cases.Counts()
        self.store = self.world.copied(folder)

    def check(self, what, wanted, came):
        self.found.append((f"{self.case.name()}: {what}", wanted, came))

    def play(self):
        self.run = Checkpoint(self.folder, self.store, list(self.case.faults))
        self.counts.add("cases")
        self.counts.add("checkpoints")
        self.counts.add("failed calls", self.run.failures())
        rows = rows_in(self.store)
        states = [self.world.state(pool, rows.get(pool)) for pool in self.store.pools]
        shown = self.run.read(self.run.output), self.run.status
        if shown == self.world.shown:
            self.check("what it leaves", [AFTER, AFTER], states)
        else:
            self.check("its status, and what it prints", ("", 4), shown)
            self.check("it met a call that failed", True, self.run.failures() > 0)
            self.check("it says why", True, len(self.run.log_lines()) > 0)
            self.check("each pool is as before or as after", True, states in STATES or states)
        self.check("the next session", *disk_cases.apart([*self.world.course(()).after], [*self.next_session()]))
        self.check("the next checkpoint", self.world.shown, self.store.checkpoint(program()))
        self.check("what it leaves", True, rows_in(self.store) == self.world.after or disk_cases.difference(self.world.after, rows_in(self.store)))

    def next_session(self):
        with tempfile.TemporaryDirectory(dir=room()) as folder:
            return answers_after(self.store.copy(folder, more=LIMITS))


def played(case):
    with tempfile.TemporaryDirectory(dir=room()) as folder:
        play = CheckpointPlay(case, folder)
        play.play()
        return play.found, play.counts, play.run.failed_calls()
