#!/usr/bin/env python3
"""Proves and builds the program `swarm` and the crates that it needs, as many at once as there are
processors and memory for.

Usage: scripts/build.py

`./swarm` calls it where the program isn't built, or where a source may have changed since. It ends
with status 0 where the program stands in crates/swarm/out/swarm and is as its sources say.

A library is checked and built by the kit's `rattle build --statements`, as `rt verdict` and `rt ci`
do: the crates above it load what it states and not its proofs. Only a proved crate is built. What
was built stays in crates/swarm/out/rlib, which rt leaves alone, with a sum of all that it was made
from; a library is taken from there as long as that sum is the same. A log for each crate is in
crates/swarm/out/logs.

The processors are shared out among the crates that are ready: one alone gets them all, of two each
gets half, and of more each gets one process, those that aren't on the longest chain at a lower
priority. One process proves a crate with less work in all than several do. A chain is as long as
the proofs of its crates took by the table of docs/gate-times.md. So is the time that is left, which
each line tells: what those proofs took there, times what the crates that have ended took here for
each minute of theirs.
"""
import fcntl
import hashlib
import os
import re
import shutil
import signal
import subprocess
import sys
import time

ROOT = os.path.dirname(os.path.dirname(os.path.abspath(__file__)))
PROGRAM = "swarm"
CRATES = f"{ROOT}/crates"
OUT = f"{CRATES}/{PROGRAM}/out"
BUILT = f"{OUT}/{PROGRAM}"
LIBRARIES = f"{OUT}/rlib"
LOGS = f"{OUT}/logs"
PARTS = ("src", "specs", "proofs")
# The table with the minutes that each crate's proof took when it was measured.
TIMES = f"{ROOT}/docs/gate-times.md"
# What a crate that the table lacks is taken for.
LINES_A_MINUTE = 1000
# The work of a proof by so many processes, at most four, in that of one.
WORK = {1: 1, 2: 1.25, 3: 1.5, 4: 1.6}
MOST_JOBS = max(WORK)
# Seconds between two lines on how far it is, where nothing ends.
SILENCE = 30


def say(text):
    print(f"swarm: {text}", file=sys.stderr, flush=True)


def stop(why):
    say(why)
    sys.exit(1)


def find_kit():
    rt = shutil.which("rt")
    if not rt:
        stop("the kit's command rt is not on the PATH")
    kit = os.path.dirname(os.path.dirname(os.path.realpath(rt)))
    if not os.access(f"{kit}/bin/rattle", os.X_OK):
        stop(f"{rt} belongs to no kit: {kit}/bin/rattle is absent")
    return kit


def sum_of_file(path):
    with open(path, "rb") as it:
        return hashlib.sha256(it.read()).hexdigest()


def text_of(path):
    try:
        with open(path, encoding="utf-8") as it:
            return it.read()
    except FileNotFoundError:
        return None


class Crate:
    """A crate that the program needs, or the program itself."""

    def __init__(self, name, deps):
        self.name, self.deps, self.folder = name, deps, f"{CRATES}/{name}"
        # The libraries of the repository below it, each after those that it uses.
        self.below = []
        self.rlib, self.stamp, self.log = f"{LIBRARIES}/{name}.rlib", f"{LIBRARIES}/{name}.sum", f"{LOGS}/{name}.log"
        self.lines = self.weight = self.chain = 0
        self.jobs, self.process, self.status, self.began, self.taken, self.sum, self.was_killed = 0, None, None, 0, 0, None, False

    def is_program(self):
        return self.name == PROGRAM

    def folders(self):
        """Yields each folder of its sources with the names of the files in it."""
        for part in PARTS:
            for at, folders, names in os.walk(f"{self.folder}/{part}"):
                folders.sort()
                yield at, sorted(names)

    def files(self):
        return [f"{at}/{name}" for at, names in self.folders() for name in names]

    def made(self):
        """What its build makes, by which a later run knows it again."""
        return BUILT if self.is_program() else f"{self.rlib}/format"

    def has_ended(self):
        """Whether its process has ended, whose status it then notes; its log ends with what the process took."""
        ended, status, used = os.wait4(self.process.pid, os.WNOHANG)
        if ended:
            # (so that Popen doesn't wait for it again)
            self.process.returncode = self.status = -os.WTERMSIG(status) if os.WIFSIGNALED(status) else os.WEXITSTATUS(status)
            took, self.taken = time.monotonic() - self.began, used.ru_utime + used.ru_stime
            with open(self.log, "a", encoding="utf-8") as it:
                it.write(
                    f"{self.name}: {took:.0f} s at {self.jobs} jobs, {self.taken:.0f} s of a processor, "
                    f"{used.ru_maxrss / 1e6:.1f} GB in the largest process\n"
                )
        return bool(ended)

    def sum_of_sources(self, kit):
        """A sum of all that it is made from: the kit, its line of crates.txt, its files, and the libraries below as they were built."""
        found = hashlib.sha256(repr((kit.sum, self.name, self.deps)).encode())
        for file in self.files():
            found.update(repr((os.path.relpath(file, self.folder), sum_of_file(file))).encode())
        for it in self.below:
            found.update(repr((it.name, sum_of_file(it.made()))).encode())
        return found.hexdigest()


class Kit:
    def __init__(self, folder):
        self.folder, self.rattle = folder, f"{folder}/bin/rattle"
        found = os.stat(self.rattle)
        self.sum = (text_of(f"{folder}/KIT-ID"), text_of(f"{folder}/WHAT"), found.st_size, found.st_mtime_ns)

    def build(self, crate, jobs):
        """The command that proves the crate and builds what `made` names, a program's object file for a program."""
        words = [self.rattle, "build", "--crate-name", crate.name]
        words += ["src/main.rt" if crate.is_program() else "src/lib.rt"]
        own = {it.name: it.rlib for it in crate.below}
        for name in ("std", *crate.deps):
            words += ["--extern", f"{name}={own.get(name) or f'{self.folder}/rlibs/{name}.rlib'}"]
        words += ["-L", f"dependency={self.folder}/rlibs", "-L", f"dependency={LIBRARIES}"]
        words += ["--antt-project", f"{self.folder}/rattle/logic/antt-project.json"]
        words += ["--logic-built", f"{self.folder}/logic_built", "--links", f"{crate.name}="]
        words += ["--jobs", str(jobs)]
        if crate.is_program():
            return [*words, "--toolchain", f"{self.folder}/toolchain", "--backend", "llvm", "-o", f"{BUILT}.o"]
        return [*words, "--statements", "-o", crate.rlib]

    def link(self):
        words = [f"{self.folder}/bin/rattle-link", "--target", "x86_64-unknown-linux-gnu"]
        words += ["--toolchain", f"{self.folder}/toolchain", "-o", f"{BUILT}.new", f"{BUILT}.o"]
        return [*words, f"{self.folder}/c/libos_c.a", f"{self.folder}/c/liblibc_c.a"]


def read_crates():
    """Returns the crates that the program needs and then the program, each after those that it uses."""
    listed, needed = {}, {}
    for row in (text_of(f"{ROOT}/crates.txt") or stop(f"{ROOT}/crates.txt is absent")).split("\n"):
        head, _, deps = row.partition("#")[0].partition(":")
        if head.strip():
            listed[head.split()[0]] = deps.replace(",", " ").split()

    def add(name, above):
        if name in above:
            stop(f"crates.txt: {name} depends on itself")
        if name in listed and name not in needed:
            crate = Crate(name, listed[name])
            for dep in crate.deps:
                below = add(dep, (*above, name))
                if below:
                    crate.below += [it for it in [*below.below, below] if it not in crate.below]
            needed[name] = crate
        return needed.get(name)

    if not add(PROGRAM, ()):
        stop(f"crates.txt doesn't list {PROGRAM}")
    return [*needed.values()]


def is_newer(crates, than):
    """Whether a file or a folder of the sources was changed after that time, in nanoseconds."""
    for crate in crates:
        for at, names in crate.folders():
            if any(os.stat(it).st_mtime_ns > than for it in (at, *[f"{at}/{name}" for name in names])):
                return True
    return os.stat(f"{ROOT}/crates.txt").st_mtime_ns > than


def weigh(crates):
    """Gives each crate its lines, the minutes that its proof takes, and those of the longest chain from it up to the program."""
    minutes = dict(re.findall(r"^\| `(\w+)` \| \d+ \| \d+ \| ([\d.]+) \|", text_of(TIMES) or "", re.M))
    for crate in crates:
        for file in crate.files():
            with open(file, "rb") as it:
                crate.lines += it.read().count(b"\n")
        crate.weight = float(minutes.get(crate.name, crate.lines / LINES_A_MINUTE))
    for crate in reversed(crates):
        crate.chain = crate.weight + max([it.chain for it in crates if crate in it.below], default=0)


def number_in(file, pattern):
    found = re.search(pattern, text_of(file) or "", re.M)
    return int(found[1]) if found else None


def count_processors():
    """Those that the process may run on, or fewer by the quota of its control group."""
    found = len(os.sched_getaffinity(0))
    quota = number_in("/sys/fs/cgroup/cpu.max", r"^(\d+) ")
    period = number_in("/sys/fs/cgroup/cpu.max", r" (\d+)$")
    return max(1, min(found, quota // period)) if quota and period else found


def free_memory():
    """The free memory in bytes, under the limit of the control group too."""
    found = [1024 * (number_in("/proc/meminfo", r"^MemAvailable:\s+(\d+)") or 0)]
    limit, held = number_in("/sys/fs/cgroup/memory.max", r"^(\d+)$"), number_in("/sys/fs/cgroup/memory.stat", r"^anon (\d+)$")
    if limit and held is not None:
        found.append(limit - held)
    return min(found)


def memory_of(crate, jobs):
    """The most memory that the check of a crate is planned to take, in bytes."""
    return 1_200_000_000 + 250_000 * crate.lines + 500_000_000 * (jobs - 1)


class Group:
    """Processes that end with this one, however it ends."""

    def __init__(self):
        # Once this process has ended the guard's read returns, and it ends all that was started.
        ends, self.held = os.pipe()
        how = {"stdin": ends, "stdout": subprocess.DEVNULL, "stderr": subprocess.DEVNULL}
        self.guard = subprocess.Popen(["sh", "-c", "read _; kill -9 0"], preexec_fn=os.setpgrp, **how)
        os.close(ends)

    def start(self, words, niceness=0, **how):
        def join():
            os.setpgid(0, self.guard.pid)
            os.nice(niceness)

        return subprocess.Popen(words, preexec_fn=join, **how)

    def end(self):
        os.killpg(self.guard.pid, signal.SIGKILL)
        self.guard.wait()
        os.close(self.held)


class Builder:
    """Builds crates side by side, each once those below it are built."""

    def __init__(self, kit, crates, start):
        self.kit, self.crates, self.start = kit, crates, start
        self.left, self.running, self.built = sorted(crates, key=lambda it: -it.chain), [], []
        self.processors, self.memory, self.parent = count_processors(), 0.85 * free_memory(), os.getppid()
        self.told, self.told_at = None, 0
        # Minutes of a processor that the crates which have ended took, and that the table says they take. Each begins with one, so that a first small crate tells little.
        self.taken = self.planned = 1
        self.group = Group()

    def end(self):
        self.group.end()

    def run(self):
        while self.left or self.running:
            for crate in [it for it in self.running if it.has_ended()]:
                self.finish(crate)
            self.begin()
            self.tell()
            if os.getppid() != self.parent:
                sys.exit(1)
            time.sleep(0.1)

    def spawn(self, words, crate, is_first):
        with open(crate.log, "ab") as log:
            how = {"stdin": subprocess.DEVNULL, "stdout": log, "stderr": subprocess.STDOUT}
            return self.group.start(words, 0 if is_first else 15, cwd=crate.folder, **how)

    def ready(self):
        """The crates that can begin, those with the longest chain first, once those that stand built were taken out."""
        while True:
            found = [it for it in self.left if all(below in self.built for below in it.below)]
            kept = [it for it in found if self.stands(it)]
            if not kept:
                return found
            self.built += kept
            self.left = [it for it in self.left if it not in kept]

    def stands(self, crate):
        """Whether it was built of the same sources, by the same kit, over the same libraries."""
        if not crate.sum:
            crate.sum = crate.sum_of_sources(self.kit)
        made = crate.made()
        return os.path.isfile(made) and text_of(crate.stamp) == f"{crate.sum} {sum_of_file(made)}"

    def begin(self):
        waiting = self.ready()
        while waiting:
            crate = waiting.pop(0)
            is_first = all(crate.chain >= it.chain for it in [*self.left, *self.running])
            jobs = self.share(len(waiting) + len(self.running))
            room = self.memory - sum(memory_of(it, it.jobs) for it in self.running)
            while jobs > 1 and (crate.was_killed or memory_of(crate, jobs) > room):
                jobs -= 1
            held = sum(it.jobs for it in self.running)
            if self.running and (held + jobs > self.processors or memory_of(crate, jobs) > room or crate.was_killed or self.running[0].was_killed):
                break
            self.left.remove(crate)
            self.running.append(crate)
            for it in (crate.stamp, crate.log):
                if os.path.exists(it):
                    os.remove(it)
            crate.jobs, crate.began = jobs, time.monotonic()
            crate.process = self.spawn(self.kit.build(crate, jobs), crate, is_first)

    def share(self, others):
        """How many processes a crate gets beside so many others that run or wait: all of them where it is alone, half beside one other, and one beside more."""
        most = min(MOST_JOBS, self.processors)
        return most if not others else max(1, most // 2) if others == 1 else 1

    def minutes_of(self, crate, jobs):
        """How long a crate is likely to take, in minutes of the clock."""
        return crate.weight * self.taken / self.planned * WORK[jobs] / jobs

    def minutes_left(self):
        """How long the crates that are left are likely to take, begun as `begin` does where memory is no matter."""
        left, built, now = [*self.left], {*self.built}, time.monotonic()
        running = [(max(0, self.minutes_of(it, it.jobs) - (now - it.began) / 60), it.jobs, it) for it in self.running]
        end = 0
        while left or running:
            waiting = [it for it in left if built.issuperset(it.below)]
            for place, crate in enumerate(waiting):
                jobs = self.share(len(waiting) - place - 1 + len(running))
                if running and sum(it[1] for it in running) + jobs > self.processors:
                    break
                left.remove(crate)
                running.append((end + self.minutes_of(crate, jobs), jobs, crate))
            first = min(running, key=lambda it: it[0])
            running.remove(first)
            end = first[0]
            built.add(first[2])
        return end

    def finish(self, crate):
        status = crate.status
        self.running.remove(crate)
        if status == -signal.SIGKILL and not crate.was_killed:
            say(f"the check of {crate.name} was killed, most likely for memory: once more, alone")
            crate.was_killed = True
            self.left.insert(0, crate)
            return
        if not status and crate.is_program():
            status = self.spawn(self.kit.link(), crate, True).wait()
        if status:
            with open(crate.log, encoding="utf-8", errors="replace") as it:
                print("".join(it.readlines()[-20:]), end="", file=sys.stderr)
            stop(f"{crate.name} was not built (status {status}); the whole log is {crate.log}")
        if crate.is_program():
            # A source that was changed while this ran is newer.
            os.utime(f"{BUILT}.new", ns=(self.start, self.start))
            os.replace(f"{BUILT}.new", BUILT)
            os.remove(f"{BUILT}.o")
        if crate.sum == crate.sum_of_sources(self.kit):
            with open(crate.stamp, "w", encoding="utf-8") as it:
                it.write(f"{crate.sum} {sum_of_file(crate.made())}")
        self.built.append(crate)
        self.taken += crate.taken / 60
        self.planned += crate.weight * WORK[crate.jobs]

    def tell(self):
        """Says how far it is, where something began or ended, or nothing was said for long."""
        told = [it.name for it in self.running], len(self.built)
        if told != self.told or time.monotonic() > self.told_at + SILENCE:
            self.told, self.told_at = told, time.monotonic()
            now = f"; now {', '.join(told[0])}" if told[0] else ""
            left = f", about {max(self.minutes_left(), 1):.0f} min left" if self.left or self.running else ""
            say(f"{told[1]} of {len(self.crates)} crates proved ({minutes_since(self.start)}{left}){now}")


def minutes_since(start):
    seconds = (time.time_ns() - start) // 1_000_000_000
    return f"{seconds // 60} min {seconds % 60} s" if seconds >= 60 else f"{seconds} s"


def lock():
    """Keeps every other command of rt, and another `./swarm`, out of the program's folder until this process ends."""
    held = os.open(f"{CRATES}/{PROGRAM}", os.O_RDONLY)
    try:
        fcntl.flock(held, fcntl.LOCK_EX | fcntl.LOCK_NB)
    except BlockingIOError:
        say(f"waiting for another command that works in crates/{PROGRAM}")
        fcntl.flock(held, fcntl.LOCK_EX)
    except OSError:
        # Some file systems have no locks.
        pass


def clear(crates):
    """Removes what is of no crate that the program needs: of a crate that went, or of a build that was broken off."""
    names = {f"{it.name}.{end}" for it in crates for end in ("rlib", "sum")}
    for name in os.listdir(LIBRARIES):
        path = f"{LIBRARIES}/{name}"
        if name not in names and os.path.isdir(path):
            shutil.rmtree(path)
        elif name not in names:
            os.remove(path)


def main():
    if len(sys.argv) > 1:
        print(__doc__, end="", file=sys.stderr)
        return 2
    for it in (signal.SIGTERM, signal.SIGHUP):
        signal.signal(it, lambda number, _: sys.exit(128 + number))
    kit, crates = Kit(find_kit()), read_crates()
    lock()
    start = time.time_ns()
    if os.path.isfile(BUILT) and not is_newer(crates, os.stat(BUILT).st_mtime_ns):
        # Another `./swarm` or `rt ci` has built it, or what changed is of no crate that it needs.
        os.utime(BUILT, ns=(start, start))
        return 0
    for it in (LIBRARIES, LOGS):
        os.makedirs(it, exist_ok=True)
    clear(crates)
    weigh(crates)
    builder = Builder(kit, crates, start)
    try:
        builder.run()
    except KeyboardInterrupt:
        return 130
    finally:
        builder.end()
    os.utime(BUILT, ns=(start, start))
    say(f"built in {minutes_since(start)}")
    return 0


if __name__ == "__main__":
    sys.exit(main())
