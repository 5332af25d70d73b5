"""Runs sessions of the fuzz over the program, and tells where it differs from the model.

A part of `checks/fuzz`; it is no check of its own.
"""
import fcntl
import glob
import os
import random
import resource
import select
import subprocess
import tempfile
import time

from lib import fuzz_sessions, fuzz_transcripts, records
from lib.fuzz_sessions import Run, Session

CLOCKS = "/usr/lib/*/faketime/libfaketime.so.1"
# Where the records lie: a disk would be most of the time.
MEMORY = "/dev/shm"
PIPE_BYTES = 1 << 20
MOST_SECONDS = 30
# A long run tells its figures behind each so many sessions.
SESSIONS_TOLD = 500
NO_LIMIT = (resource.RLIM_INFINITY, resource.RLIM_INFINITY)


def find_clock():
    found = glob.glob(CLOCKS)
    if not found:
        raise SystemExit(f"there is no {CLOCKS}: apt-get install faketime")
    return found[0]


class Clock:
    """The clock of the programs that are run: a file with the second, read at each look at the clock."""

    def __init__(self, folder, library):
        path = os.path.join(folder, "clock")
        self.file = os.open(path, os.O_RDWR | os.O_CREAT)
        self.environment = dict(
            os.environ, LD_PRELOAD=library, FAKETIME_TIMESTAMP_FILE=path, FAKETIME_NO_CACHE="1", FAKETIME_FMT="%s", FAKETIME_DONT_FAKE_MONOTONIC="1", TZ="UTC")
        self.set(0)

    def set(self, second):
        os.pwrite(self.file, b"%-20d\n" % second, 0)


class Console:
    """A run of `swarm session`, to whose input bytes are written and whose output is read."""

    def __init__(self, program, settings, clock):
        words = [program, "session", "--settings", settings]
        # (signals stay as Python has them: a file that may not grow is a fault of the store, and no end)
        self.process = subprocess.Popen(words, stdin=subprocess.PIPE, stdout=subprocess.PIPE, env=clock.environment, bufsize=0, restore_signals=False)
        for pipe in (self.process.stdin, self.process.stdout):
            fcntl.fcntl(pipe, fcntl.F_SETPIPE_SZ, PIPE_BYTES)
        self.fails = False

    def set_fails(self, fails):
        if fails != self.fails:
            resource.prlimit(self.process.pid, resource.RLIMIT_FSIZE, (0, resource.RLIM_INFINITY) if fails else NO_LIMIT)
            self.fails = fails

    def write(self, text):
        try:
            self.process.stdin.write(text)
        except BrokenPipeError:
            pass

    def read(self, many, seconds=MOST_SECONDS):
        """So many bytes, or those that come until the output ends or the time is over."""
        found, end = b"", time.monotonic() + seconds
        while len(found) < many and select.select([self.process.stdout], [], [], max(0, end - time.monotonic()))[0]:
            if not (more := os.read(self.process.stdout.fileno(), many - len(found))):
                break
            found += more
        return found

    def end(self):
        """What else comes once the input has ended, and the status."""
        self.process.stdin.close()
        found = self.read(PIPE_BYTES)
        try:
            return found, self.process.wait(MOST_SECONDS)
        except subprocess.TimeoutExpired:
            return found, "none"

    def stop(self):
        self.process.kill()
        self.process.wait()
        self.process.stdin.close()
        self.process.stdout.close()


class Difference:
    """Where a session differs: its run and step, what was wanted and what came."""

    def __init__(self, run, step, wanted, came):
        self.run, self.step, self.wanted, self.came = run, step, wanted, came


class Programs:
    """Plays sessions over a program."""

    def __init__(self, program, folder, library):
        self.program, self.folder, self.clock = program, folder, Clock(folder, library)

    def play(self, session):
        """Plays a session; answers the first difference, or None."""
        with tempfile.TemporaryDirectory(dir=self.folder) as folder:
            settings = os.path.join(folder, "settings.toml")
            with open(settings, "w", encoding="utf-8") as file:
                file.write(fuzz_sessions.write_settings(session.settings, os.path.join(folder, "store") if session.stored else None))
            for at, run in enumerate(session.runs):
                if run.checkpoint is not None and (found := self.checkpoint(settings, at, run)):
                    return found
                console = Console(self.program, settings, self.clock)
                try:
                    if found := self.play_run(console, at, run):
                        return found
                finally:
                    console.stop()
        return None

    def checkpoint(self, settings, at, run):
        words = [self.program, "checkpoint", "--settings", settings]
        done = subprocess.run(words, env=self.clock.environment, capture_output=True, timeout=MOST_SECONDS, check=False)
        came, wanted = (done.stdout, done.returncode), (run.checkpoint.encode(), 0)
        return Difference(at, 0, wanted, came) if came != wanted else None

    def play_run(self, console, at, run):
        for place, step in enumerate(run.steps):
            console.set_fails(step.fails)
            self.clock.set(step.clock)
            for piece in step.pieces:
                console.write(piece)
            wanted = b"".join(it.text for it in step.answers)
            came = console.read(len(wanted))
            if came != wanted:
                return Difference(at, place, wanted, came + console.read(PIPE_BYTES, 0.3))
        console.set_fails(False)
        rest, status = console.end()
        if (rest, status) != (b"", run.status):
            return Difference(at, len(run.steps), (b"", run.status), (rest, status))
        return None


def shrink(programs, session):
    """A shorter session that differs too: steps are left out as long as one can be."""
    share = 2
    for tried in (fuzz_sessions.one_by_one(session), session):
        if found := programs.play(tried):
            session = cut(tried, found)
            break
    else:
        return session
    while True:
        many = sum(len(run.steps) for run in session.runs)
        size = max(1, many // share)
        for first in range(0, many, size):
            tried = fuzz_sessions.answer_again(without(session, first, first + size))
            if found := programs.play(tried):
                session = cut(tried, found)
                break
        else:
            if size == 1:
                return session
            share *= 2


def cut(session, found):
    """The session up to where it differs."""
    shorter = Session(session.settings, session.stored)
    last = session.runs[found.run]
    shorter.runs = session.runs[:found.run] + [Run(last.steps[:found.step + 1], last.status, last.checkpoint)]
    return shorter


def without(session, first, end):
    shorter, at = Session(session.settings, session.stored), 0
    for run in session.runs:
        steps = [step for place, step in enumerate(run.steps, at) if not first <= place < end]
        at += len(run.steps)
        shorter.runs.append(Run(steps, run.status, run.checkpoint))
    return shorter


def tell(seed, number, session, found, whole):
    print(f"seed {seed} session {number}: run {found.run} step {found.step} differs")
    print(fuzz_sessions.write_settings(session.settings, "store" if session.stored else None))
    for at, run in enumerate(session.runs if whole else []):
        for place, step in enumerate(run.steps):
            print(f"  {at}.{place} at {step.clock}{' failing' if step.fails else ''}: {step.text()!r}")
            print(f"    {b''.join(it.text for it in step.answers)!r}")
    steps = session.runs[found.run].steps
    if found.step < len(steps):
        print(f"  at {steps[found.step].clock} sent {records.shown(steps[found.step].text())}")
    print(f"  wanted {records.shown(found.wanted)}\n  came   {records.shown(found.came)}", flush=True)


def make(asked, number):
    return fuzz_sessions.Maker(random.Random(f"{asked.seed} {number}"), not asked.without_records).session()


def run(asked, passed=0, failed=0):
    """Plays sessions as long as is asked, and prints the figures: the status of the check. So many others have passed
    and failed before."""
    if asked.machines:
        return fuzz_transcripts.run(asked, make)
    began, requests, number = time.monotonic(), 0, asked.session or 0
    with tempfile.TemporaryDirectory(dir=MEMORY if os.access(MEMORY, os.W_OK) else None) as folder:
        programs = Programs(asked.program or records.built_program(), folder, find_clock())
        while True:
            session = make(asked, number)
            requests += session.requests()
            if found := programs.play(session):
                failed += 1
                if asked.shrink:
                    session = shrink(programs, session)
                    found = programs.play(session) or found
                tell(asked.seed, number, session, found, asked.shrink)
            else:
                passed += 1
            number += 1
            seconds = time.monotonic() - began
            if number % SESSIONS_TOLD == 0:
                print(f"{requests} requests in {number} sessions, {failed} of them differ, {seconds:.0f} s", flush=True)
            over = (asked.seconds and seconds >= asked.seconds) or (asked.requests and requests >= asked.requests)
            if over or asked.session is not None or failed >= 10:
                break
    print(f"seed {asked.seed}: {requests} requests in {number} sessions, {seconds:.0f} s")
    print(f"{passed} passed, {failed} failed")
    return 1 if failed else 0
