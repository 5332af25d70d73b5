#!/usr/bin/env python3
"""Measures the gate crate by crate, and writes the table of docs/gate-times.md.

Usage: scripts/gate.py [--jobs N] [--output FILE] [--work FOLDER] [CRATE ..]
       scripts/gate.py --whole [--in-place] [--output FILE] [--work FOLDER]

For each crate, lowest first, it runs `rt ci CRATE` twice, with what the crates below it need kept
from their own turn: without wrong bodies, for the crate's proof and that of its tests, and then, where
it has wrong bodies in must-fail/, with these, for the proof that they begin with and the try of each.
With --jobs N it measures N crates at a time. With names it measures those alone, and the rows of the
others stay as they are, as does that of the wrong bodies which `scripts/wrong_bodies` tries.

Minutes are those of a processor, user and system, of every run of the kit's `rattle` with all that
it started; memory is the most that one process of them held. Each has one job.

With --whole it runs `.ci/run` over the whole repository from nothing once, with the processors and
memory that rt chooses, and writes the rows of all crates from that run, the row `wrong bodies` with the
minutes of `scripts/wrong_bodies`, and the minutes of the clock of `rt ci`, of the wrong bodies and of
the whole. Whoever wants times that compare has nothing else run on the machine. With --in-place the run is
that of this repository, by the machine's own kit, so that what it proves is kept for the next one: on a
machine that has kept nothing. Minutes and memory are then read off the running processes five times a
second, and what a process takes after the last reading is lacking.

It works on a copy of the tree in the folder --work, by default swarm-gate among the temporary files,
with a store of kept proofs of its own, so that nothing counts that was proved before, and nothing is
kept for the gate. What was measured stays there: after a stop the next call goes on with the crates
that are left, and a crate is measured again only where its files, or those of a crate below it, have
changed. The row of a crate is written as soon as both its runs have ended.
"""
import argparse
import collections
import fcntl
import hashlib
import json
import os
import re
import shutil
import subprocess
import sys
import tempfile
import threading
import time

ROOT = os.path.dirname(os.path.dirname(os.path.abspath(__file__)))
PARTS = ("src", "specs", "proofs")
BEGIN = "<!-- The table that scripts/gate.py writes -->"
END = "<!-- The end of the table -->"
HEAD = "| Crate | Lines | Functions | Proof, minutes | Tests, minutes | Edits, minutes | Memory, GB |"
WHOLE = "<!-- A whole run -->"
# The row of what scripts/wrong_bodies takes.
BODIES = "wrong bodies"
# Takes the place of the kit's rattle: it runs that, and writes what the run took.
COUNTED = """#!{python} -IS
import json, os, sys, time
words, began = sys.argv[1:], time.time()
child = os.fork()
if not child:
    os.execv({rattle!r}, [{rattle!r}, *words])
_, status, used = os.wait4(child, 0)
if "--crate-name" in words:
    call = dict(crate=words[words.index("--crate-name") + 1], is_test="--test" in words, folder=os.getcwd())
    call.update(processor=used.ru_utime + used.ru_stime, memory=1024 * used.ru_maxrss, clock=time.time() - began)
    with open(os.environ["GATE_CALLS"], "a") as log:
        log.write(json.dumps(call) + "\\n")
if os.WIFSIGNALED(status):
    os.kill(os.getpid(), os.WTERMSIG(status))
os._exit(os.WEXITSTATUS(status))
"""


def make_kit(folder):
    """Makes a kit beside which nothing is kept yet, and whose rattle writes what each of its runs took. Returns its rt."""
    rt = shutil.which("rt") or sys.exit("gate.py: the kit's command rt is not on the PATH")
    kit = os.path.dirname(os.path.dirname(os.path.realpath(rt)))
    made, wrapper = f"{folder}/made", COUNTED.format(python=os.path.realpath(sys.executable), rattle=f"{kit}/bin/rattle")
    said = repr((wrapper, text_of(f"{kit}/KIT-ID"), text_of(f"{kit}/WHAT"), os.stat(f"{kit}/bin/rattle").st_mtime_ns))
    # (made once, since what is kept is known by the times of its files too)
    if text_of(made) == said:
        return f"{folder}/bin/rt"
    shutil.rmtree(folder, ignore_errors=True)
    os.makedirs(f"{folder}/bin")
    for name in os.listdir(kit):
        if name != "bin":
            os.symlink(f"{kit}/{name}", f"{folder}/{name}")
    for name in os.listdir(f"{kit}/bin"):
        if name in ("rt", "rtlib.py"):
            # (copies, since rt takes the kit from where its own file lies)
            shutil.copy2(f"{kit}/bin/{name}", f"{folder}/bin/{name}")
        elif name != "rattle":
            os.symlink(f"{kit}/bin/{name}", f"{folder}/bin/{name}")
    with open(f"{folder}/bin/rattle", "w", encoding="utf-8") as it:
        it.write(wrapper)
    os.chmod(f"{folder}/bin/rattle", 0o755)
    write(made, said)
    return f"{folder}/bin/rt"


def text_of(path):
    try:
        with open(path, encoding="utf-8", errors="replace") as it:
            return it.read()
    except FileNotFoundError:
        return ""


def write(path, text):
    """Writes a file whole, or leaves it as it was."""
    with open(f"{path}.new", "w", encoding="utf-8") as it:
        it.write(text)
    os.replace(f"{path}.new", path)


class Crate:
    def __init__(self, name, row, below, source):
        self.name, self.row, self.below, self.folder = name, row, below, f"{source}/crates/{name}"
        self.lines = sum(text_of(it).count("\n") for part in PARTS for it in self.files(part))
        self.has_edits = any(it.endswith(".edit") for it in self.files("must-fail"))

    def files(self, part):
        return sorted(f"{at}/{it}" for at, _, names in os.walk(f"{self.folder}/{part}") for it in names)

    def sum(self, *parts):
        """A sum of its line of crates.txt, of its files in these folders, and of the sources of the crates below it."""
        found = hashlib.sha256(repr((self.row, [it.sum(*PARTS) for it in self.below])).encode())
        for file in [it for part in parts for it in self.files(part)]:
            with open(file, "rb") as it:
                found.update(repr((os.path.relpath(file, self.folder), it.read())).encode())
        return found.hexdigest()


def read_crates(source):
    """Returns the crates of crates.txt, each after those that it uses."""
    rows, crates = {}, {}
    for line in text_of(f"{source}/crates.txt").split("\n"):
        row = line.partition("#")[0].strip()
        if row:
            rows[re.split(r"[\s:]", row)[0]] = row

    def add(name):
        if name not in crates:
            deps = [it for it in rows[name].partition(":")[2].replace(",", " ").split() if it in rows]
            below = list(dict.fromkeys(it for dep in deps for it in [*add(dep).below, crates[dep]]))
            crates[name] = Crate(name, rows[name], below, source)
        return crates[name]

    for name in rows:
        add(name)
    return sorted(crates.values(), key=lambda it: len(it.below))


def copy_tree(source, to, names=None, edits_of=lambda name: True):
    """Copies what rt ci reads of these crates, or of all, to the folder `to`, which then is the top of a repository."""
    shutil.rmtree(to, ignore_errors=True)
    os.makedirs(f"{to}/.git")
    rows = text_of(f"{source}/crates.txt").splitlines(True)
    with open(f"{to}/crates.txt", "w", encoding="utf-8") as it:
        it.write("".join(row for row in rows if names is None or re.split(r"[\s:]", row.strip())[0] in names))
    if os.path.isfile(f"{source}/HANDLES"):
        shutil.copyfile(f"{source}/HANDLES", f"{to}/HANDLES")
    for name in os.listdir(f"{source}/crates"):
        if names is None or name in names:
            left = ["out"] if edits_of(name) else ["out", "must-fail"]
            ignore = lambda at, found: left if os.path.dirname(at) == f"{source}/crates" else []
            shutil.copytree(f"{source}/crates/{name}", f"{to}/crates/{name}", symlinks=True, ignore=ignore)


def run_ci(rt, tree, calls, words=(), jobs=None):
    """Starts rt ci in the tree; what its runs of rattle took goes to the file `calls`, and what it writes to `calls`.log."""
    env = {it: text for it, text in os.environ.items() if it not in ("CI", "RT_JOBS")}
    env.update(GATE_CALLS=calls, **({"RT_JOBS": str(jobs)} if jobs else {}))
    with open(f"{calls}.log", "w", encoding="utf-8") as log:
        how = {"stdin": subprocess.DEVNULL, "stdout": log, "stderr": subprocess.STDOUT}
        return subprocess.Popen([sys.executable, rt, "ci", *words], cwd=tree, env=env, **how)


class Watcher(threading.Thread):
    """Reads what the runs of rattle take that have this file in GATE_CALLS, and writes it there as the kit of make_kit does."""

    def __init__(self, path):
        super().__init__(daemon=True)
        self.path, self.running, self.ended = path, {}, threading.Event()

    def look(self):
        """Reads each run of rattle that is there, and writes those that have gone."""
        found = {}
        for pid in filter(str.isdigit, os.listdir("/proc")):
            try:
                words = text_of(f"/proc/{pid}/cmdline").split("\0")
                if os.path.basename(words[0]) != "rattle" or "--crate-name" not in words:
                    continue
                # (other runs on the machine don't count)
                if f"GATE_CALLS={self.path}" not in text_of(f"/proc/{pid}/environ").split("\0"):
                    continue
                cells = text_of(f"/proc/{pid}/stat").rpartition(")")[2].split()
                memory = re.search(r"VmHWM:\s+(\d+)", text_of(f"/proc/{pid}/status"))
                call = dict(crate=words[words.index("--crate-name") + 1], is_test="--test" in words, folder=os.readlink(f"/proc/{pid}/cwd"))
                # (user and system of itself and of what it has waited for; the clock at which it began)
                call.update(processor=sum(map(int, cells[11:15])) / os.sysconf("SC_CLK_TCK"), memory=1024 * int(memory[1]) if memory else 0)
                found[pid, cells[19]] = cells[1], call
            except (OSError, IndexError):
                # (it ended meanwhile)
                continue
        # (what a run has forked is counted with it once it has ended)
        pids = {pid for pid, _ in found}
        found = {key: call for key, (parent, call) in found.items() if parent not in pids}
        gone = [call for key, call in self.running.items() if key not in found]
        for key, call in found.items():
            call["memory"] = max(call["memory"], self.running.get(key, call)["memory"])
        self.running = found
        with open(self.path, "a", encoding="utf-8") as log:
            log.writelines(json.dumps(it) + "\n" for it in gone)

    def run(self):
        while not self.ended.wait(0.2):
            self.look()

    def end(self):
        self.ended.set()
        self.join()
        self.look()


def calls_in(path):
    return [json.loads(it) for it in text_of(path).splitlines()]


def kind_of(call):
    """What a call of rattle is for, by the folder that it is run in."""
    folder = os.path.basename(call["folder"])
    if folder.startswith("wrong-bodies-"):
        return "bodies"
    return "edits" if folder.startswith("rt-edit") else "tests" if call["is_test"] else "proof"


def row_of_bodies(calls):
    """The cells of what scripts/wrong_bodies takes."""
    kept = [it for it in calls if kind_of(it) == "bodies"]
    most = max([it["memory"] for it in kept], default=0)
    return ["", "", "", "", f"{sum(it['processor'] for it in kept) / 60:.1f}", f"{most / 1e9:.1f}"]


def row_of(crate, calls, log):
    """The cells of a crate by its calls of rattle: lines, functions, minutes of the proof, the tests and the edits, and memory."""
    kinds = collections.defaultdict(list)
    for it in calls:
        if it["crate"] == crate.name and kind_of(it) != "bodies":
            kinds[kind_of(it)].append(it)
    minutes = [f"{sum(it['processor'] for it in kinds[kind]) / 60:.1f}" for kind in ("proof", "tests", "edits")]
    said = re.search(rf"^== {crate.name}\n(?:.*\n)*?logic=proved functions=(\d+)", log, re.M)
    most = max([it["memory"] for found in kinds.values() for it in found], default=0)
    return [str(crate.lines), said[1] if said else "", *minutes, f"{most / 1e9:.1f}"]


class Measure:
    """The runs that give a crate's row: `proof` with its tests, and `edits`."""

    def __init__(self, work, rt, crates):
        self.work, self.rt, self.crates = work, rt, crates
        os.makedirs(f"{work}/calls", exist_ok=True)

    def place(self, crate, kind):
        return f"{self.work}/calls/{crate.name}.{kind}"

    def sum(self, crate, kind):
        return crate.sum(*PARTS, *(["must-fail"] if kind == "edits" else []))

    def is_done(self, crate, kind):
        if kind == "edits" and not crate.has_edits:
            return True
        return text_of(f"{self.place(crate, kind)}.done") == self.sum(crate, kind)

    def start(self, crate, kind):
        place, store = self.place(crate, kind), f"{self.work}/rattle-kept"
        for it in (place, f"{place}.done"):
            if os.path.exists(it):
                os.remove(it)
        if kind == "proof":
            # (what a run that was stopped has kept would be missing from this one's minutes)
            for name in os.listdir(store) if os.path.isdir(store) else []:
                if name.startswith((f"proof-{crate.name}-", f"tests-{crate.name}-")):
                    shutil.rmtree(f"{store}/{name}")
        else:
            # (what an earlier run came to would not be tried again; no other crate needs what is there)
            shutil.rmtree(f"{store}/edits", ignore_errors=True)
        tree = f"{self.work}/trees/{crate.name}.{kind}"
        names = {it.name for it in [crate, *crate.below]}
        copy_tree(f"{self.work}/source", tree, names, lambda name: kind == "edits" and name == crate.name)
        return run_ci(self.rt, tree, place, [crate.name], jobs=1)

    def end(self, crate, kind, status):
        shutil.rmtree(f"{self.work}/trees/{crate.name}.{kind}")
        if status:
            print(f"{crate.name}: rt ci ended with status {status}; the end of what it wrote:")
            print("".join(text_of(f"{self.place(crate, kind)}.log").splitlines(True)[-20:]), end="", flush=True)
            return False
        write(f"{self.place(crate, kind)}.done", self.sum(crate, kind))
        return True

    def row(self, crate):
        calls = [it for kind in ("proof", "edits") if kind == "proof" or crate.has_edits for it in calls_in(self.place(crate, kind))]
        return row_of(crate, calls, text_of(f"{self.place(crate, 'proof')}.log"))

    def run(self, wanted, at_once, tell):
        """Measures these crates, each once those below it that are wanted were measured, and calls tell after each. Returns whether all went well."""
        kinds = ("proof", "edits")
        left = [(it, kind) for it in wanted for kind in kinds if not self.is_done(it, kind)]
        if at_once > 1:
            left.sort(key=lambda it: it[1] == "edits")
        running, lost = {}, []
        for crate in wanted:
            if all(self.is_done(crate, kind) for kind in kinds):
                tell(crate)
        try:
            while left or running:
                waits = {(it.name, "proof") for it, kind in [*left, *running] if kind == "proof"}
                ready = [
                    (it, kind)
                    for it, kind in left
                    if not any((below.name, "proof") in waits for below in it.below) and (kind == "proof" or (it.name, "proof") not in waits)
                ]
                for key in ready[: at_once - len(running)]:
                    left.remove(key)
                    running[key] = self.start(*key)
                for key in [it for it, process in running.items() if process.poll() is not None]:
                    crate, kind = key
                    if not self.end(crate, kind, running.pop(key).returncode):
                        lost.append(crate.name)
                        # (nothing above it can be measured)
                        left = [it for it in left if crate not in [it[0], *it[0].below]]
                    elif all(self.is_done(crate, it) for it in kinds):
                        tell(crate)
                time.sleep(0.2)
        finally:
            for it in running.values():
                it.kill()
        return not lost


class Page:
    """The page with the table, in which the rest stays as it is."""

    def __init__(self, path):
        self.path = path
        if not (BEGIN in self.text() and END in self.text()):
            sys.exit(f"gate.py: {path} has not the two lines between which the table stands: {BEGIN} and {END}")

    def text(self):
        return text_of(self.path)

    def rows(self):
        table = self.text().partition(BEGIN)[2].partition(END)[0]
        cells = [[cell.strip() for cell in it.strip("| ").split("|")] for it in table.splitlines() if it.startswith("| `")]
        return {it[0].strip("`"): (it[1:] + [""] * 6)[:6] for it in cells}

    def put(self, crates, name=None, row=None):
        """Writes the table, with this row for the crate of that name, or for the wrong bodies, and rows for the crates of crates.txt and these alone."""
        rows = self.rows()
        if name:
            rows[name] = row
        shown = {it.name: rows.get(it.name) or [str(it.lines), "", "", "", "", ""] for it in crates}
        shown[BODIES] = rows.get(BODIES) or [""] * 6
        number = lambda cell: float(cell) if re.fullmatch(r"[\d.]+", cell) else 0.0
        sums = [sum(number(row[at]) for row in shown.values()) for at in range(6)]
        most = max(shown, key=lambda it: number(shown[it][5]))
        lines = [HEAD, "|---|---|---|---|---|---|---|"]
        lines += [f"| `{it}` | {' | '.join(row)} |" for it, row in shown.items()]
        lines += [f"| all | {sums[0]:.0f} | {sums[1]:.0f} | {sums[2]:.0f} | {sums[3]:.0f} | {sums[4]:.0f} | |"]
        lines += ["", f"Minutes of a processor in all: {sum(sums[2:5]):.0f}. The greatest memory of one step: {shown[most][5] or 0} GB (`{most}`)."]
        lacking = [f"`{it}`" for it, row in shown.items() if not row[4 if it == BODIES else 2]]
        lines += ["", f"Not measured yet: {', '.join(lacking)}."] if lacking else []
        before, _, rest = self.text().partition(BEGIN)
        lines = "\n".join(lines)
        write(self.path, f"{before}{BEGIN}\n{lines}\n{END}{rest.partition(END)[2]}")

    def put_whole(self, line):
        kept = self.text()
        if WHOLE in kept:
            write(self.path, re.sub(rf"{re.escape(WHOLE)}\n.*", lambda _: f"{WHOLE}\n{line}", kept))
        else:
            write(self.path, f"{kept.rstrip()}\n\n{WHOLE}\n{line}\n")


def copy_all(to):
    """Copies the files that git has, or would take, to the folder `to`, as they are in the working tree."""
    said = subprocess.run(["git", "ls-files", "-coz", "--exclude-standard"], cwd=ROOT, stdout=subprocess.PIPE, check=True)
    os.makedirs(f"{to}/.git")
    for name in {it for it in said.stdout.decode().split("\0") if os.path.isfile(f"{ROOT}/{it}")}:
        os.makedirs(os.path.dirname(f"{to}/{name}"), exist_ok=True)
        shutil.copy2(f"{ROOT}/{name}", f"{to}/{name}")


def run_whole(work, page, in_place):
    shutil.rmtree(f"{work}/whole", ignore_errors=True)
    os.makedirs(f"{work}/whole")
    calls, tree, watcher = f"{work}/whole/calls", ROOT, None
    env = {it: text for it, text in os.environ.items() if it != "RT_JOBS"}
    env.update(CI="true", GATE_CALLS=calls)
    if in_place:
        watcher = Watcher(calls)
        watcher.start()
    else:
        rt, tree = make_kit(f"{work}/whole/kit"), f"{work}/whole/tree"
        copy_all(tree)
        env.update(PATH=f"{os.path.dirname(rt)}:{env['PATH']}", XDG_CACHE_HOME=f"{work}/whole/cache")
    began, ends = time.time(), []
    with open(f"{calls}.log", "w", encoding="utf-8") as log:
        how = {"stdin": subprocess.DEVNULL, "stdout": log, "stderr": subprocess.STDOUT}
        run = subprocess.Popen(["bash", ".ci/run"], cwd=tree, env=env, **how)
    while run.poll() is None:
        # (rt ci ends with such a line, and so does scripts/wrong_bodies)
        if len(ends) < min(2, len(re.findall(r"^\d+ passed, \d+ failed$", text_of(f"{calls}.log"), re.M))):
            ends.append(time.time())
        time.sleep(1)
    proved, tried, ended = [*ends, time.time(), time.time()][:2] + [time.time()]
    if watcher:
        watcher.end()
    minutes, of_proofs, of_bodies = (ended - began) / 60, (proved - began) / 60, (tried - proved) / 60
    print("".join(text_of(f"{calls}.log").splitlines(True)[-30:]), end="")
    if run.returncode:
        return run.returncode
    crates = read_crates(tree)
    for crate in crates:
        page.put(crates, crate.name, row_of(crate, calls_in(calls), text_of(f"{calls}.log")))
    page.put(crates, BODIES, row_of_bodies(calls_in(calls)))
    taken = {is_bodies: sum(it["processor"] for it in calls_in(calls) if (kind_of(it) == "bodies") == is_bodies) / 60 for is_bodies in (False, True)}
    memory = int(re.search(r"MemTotal:\s+(\d+)", text_of("/proc/meminfo"))[1]) * 1024 / 1e9
    page.put_whole(
        f"One whole run of `.ci/run` from nothing: {minutes:.0f} minutes of the clock on {len(os.sched_getaffinity(0))} processors "
        f"with {memory:.0f} GB, {of_proofs:.0f} of them for `rt ci`, which took {taken[False]:.0f} minutes of a processor, "
        f"and {of_bodies:.0f} for `scripts/wrong_bodies`, which took {taken[True]:.0f}, {time.strftime('%-d %B %Y')}."
    )
    shutil.rmtree(f"{work}/whole")
    return 0


def main():
    parser = argparse.ArgumentParser(description=__doc__, formatter_class=argparse.RawDescriptionHelpFormatter)
    parser.add_argument("--jobs", type=int, default=1, metavar="N")
    parser.add_argument("--output", default=f"{ROOT}/docs/gate-times.md", metavar="FILE")
    parser.add_argument("--work", default=f"{tempfile.gettempdir()}/swarm-gate", metavar="FOLDER")
    parser.add_argument("--whole", action="store_true")
    parser.add_argument("--in-place", action="store_true")
    parser.add_argument("crates", nargs="*", metavar="CRATE")
    given = parser.parse_args()
    if given.in_place and not given.whole:
        parser.error("--in-place goes with --whole")
    page, work = Page(given.output), os.path.abspath(given.work)
    os.makedirs(work, exist_ok=True)
    held = os.open(work, os.O_RDONLY)
    try:
        fcntl.flock(held, fcntl.LOCK_EX | fcntl.LOCK_NB)
    except BlockingIOError:
        sys.exit(f"gate.py: another measure works in {work}")
    if given.whole:
        return run_whole(work, page, given.in_place)
    copy_tree(ROOT, f"{work}/source")
    crates = read_crates(f"{work}/source")
    unknown = {*given.crates} - {it.name for it in crates}
    if unknown:
        sys.exit(f"gate.py: crates.txt lists no {', '.join(sorted(unknown))}")
    measure = Measure(work, make_kit(f"{work}/kit"), crates)

    def tell(crate):
        row = measure.row(crate)
        page.put(crates, crate.name, row)
        print(f"{crate.name}: proof {row[2]}, tests {row[3]}, edits {row[4]} minutes, {row[5]} GB", flush=True)

    page.put(crates)
    wanted = [it for it in crates if not given.crates or it.name in given.crates]
    return 0 if measure.run(wanted, max(given.jobs, 1), tell) else 1


if __name__ == "__main__":
    sys.exit(main())
