#!/usr/bin/env python3
"""Refuses each allocation of some runs of the program once, and tells what came.

Usage: scripts/refused_memory.py [--program FILE] [--first M] [--most N] [NAME ..]

Each case is a run of the program. It is repeated with its first call of malloc or realloc refused, then with
its second, and so on until a run makes fewer calls; M (1) and N (5000) are the first call and the last. A
library that is loaded before the C library counts the calls and refuses one; cc builds it in a temporary
folder. What may come of a run is this:

- same: its output and its status are those of the run in which nothing was refused;
- reply: it ends as that one, one of its replies is `want_of_memory`, and those before are the same;
- ended: it ends with status 5, and what it wrote is the beginning of the same output;
- words: it ends with status 2, since the environment or the words of the command line could not be read.

Of a case with records the program is then run over them again, and nothing is refused: its log has to be as
long as the last front that was told.

It prints a line for each case, with how many runs came to what, and each run that came to none of these; it
ends with status 1 if there is one. It is no part of the gate, since it takes minutes.
"""
import argparse
import os
import shutil
import subprocess
import sys
import tempfile

TOP = os.path.dirname(os.path.dirname(os.path.abspath(__file__)))
sys.dont_write_bytecode = True
sys.path.insert(0, os.path.join(TOP, "checks"))
from lib import records  # noqa: E402

REFUSING = r"""
#define _GNU_SOURCE
#include <dlfcn.h>
#include <fcntl.h>
#include <stdlib.h>
#include <unistd.h>

static unsigned long calls, refused;
static void *(*next_malloc)(size_t);
static void *(*next_realloc)(void *, size_t);

__attribute__((constructor)) static void begin(void) {
    const char *number = getenv("REFUSED_CALL");
    next_malloc = dlsym(RTLD_NEXT, "malloc");
    next_realloc = dlsym(RTLD_NEXT, "realloc");
    calls = 0;
    refused = number ? strtoul(number, 0, 10) : 0;
}

static int is_refused(void) {
    if (refused == 0 || ++calls != refused) return 0;
    close(open(getenv("REFUSED_MARK"), O_CREAT | O_WRONLY, 0600));
    return 1;
}

void *malloc(size_t size) {
    if (!next_malloc) next_malloc = dlsym(RTLD_NEXT, "malloc");
    return is_refused() ? 0 : next_malloc(size);
}

void *realloc(void *old, size_t size) {
    if (!next_realloc) next_realloc = dlsym(RTLD_NEXT, "realloc");
    return is_refused() ? 0 : next_realloc(old, size);
}
"""
MEMORY = b'{"code":"want_of_memory"}'
SECONDS = 60


def three_cycles():
    """Eight handshakes, and three tasks, each with a claim and a report."""
    requests = [records.handshake(f"b{bot}") for bot in range(1, 9)]
    for cycle in range(1, 4):
        bot, run = f"b{cycle}", f"{cycle}1"
        requests += [records.new_task(f"cycle {cycle}"), records.claim(bot, f"c{cycle}")]
        requests += [records.report(bot, run, b"cycle\n", 0, 0)]
    return requests


def replies_of(output):
    """The bodies of the replies, each with its status."""
    return [(reply.status, reply.body) for reply in records.replies_in(output)]


class Case:
    """A run of the program: its words, its input, and the folder of its records, which are empty before it."""

    def __init__(self, name, requests, folder=None):
        self.name, self.input, self.folder = name, b"".join(requests), folder
        self.words = ["session"]

    def begin(self):
        """Makes the records empty."""
        if self.folder:
            shutil.rmtree(self.folder, ignore_errors=True)
            self.words = records.Store(self.folder).words()[1:]


class Runs:
    def __init__(self, program, folder):
        self.program, self.folder = program, folder
        self.library = os.path.join(folder, "refusing.so")
        self.mark = os.path.join(folder, "refused")
        source = os.path.join(folder, "refusing.c")
        with open(source, "w", encoding="utf-8") as file:
            file.write(REFUSING)
        subprocess.run(["cc", "-O1", "-shared", "-fPIC", "-o", self.library, source, "-ldl"], check=True)

    def run(self, words, input_, number=0):
        """The output and the status, and whether the call of this number was refused."""
        if os.path.exists(self.mark):
            os.remove(self.mark)
        env = {"LD_PRELOAD": self.library, "REFUSED_CALL": str(number), "REFUSED_MARK": self.mark}
        done = subprocess.run(
            [self.program, *words], input=input_, env=env, capture_output=True, timeout=SECONDS, check=False
        )
        return done.stdout, done.returncode, os.path.exists(self.mark)


def outcome(wanted, status, output, came):
    """What a run came to, whose wanted output and status are these."""
    if (output, came) == (wanted, status):
        return "same"
    if came == 5 and wanted.startswith(output):
        return "ended"
    if came == 2 and (not output or b"requires a subcommand" in output):
        return "words"
    if came != status:
        return None
    for ours, theirs in zip(replies_of(output), replies_of(wanted)):
        if ours != theirs:
            return "reply" if ours == (503, MEMORY) else None
    return None


class Sweep:
    """The runs of a case, one for each call."""

    def __init__(self, runs, case, first, most):
        self.runs, self.case, self.first, self.most = runs, case, first, most
        self.counts = {"same": 0, "reply": 0, "ended": 0, "words": 0}
        self.wrong = []

    def check_again(self, number, output):
        """Runs over the records that a run left: they have as many entries as that one told."""
        told = max([reply.front or 0 for reply in records.replies_in(output)], default=0)
        answer, status, _ = self.runs.run(self.case.words, records.count())
        fronts = [reply.front for reply in records.replies_in(answer)]
        if (fronts, status) != ([told], 0):
            self.wrong.append(f"call {number}: front {told} was told, and then came {fronts}, status {status}")

    def all(self):
        self.case.begin()
        wanted, status, _ = self.runs.run(self.case.words, self.case.input)
        for number in range(self.first, self.most + 1):
            self.case.begin()
            output, came, is_refused = self.runs.run(self.case.words, self.case.input, number)
            what = outcome(wanted, status, output, came)
            if not is_refused:
                if what != "same":
                    self.wrong.append(f"call {number} is not made, and the run differs: status {came}")
                return number - 1, True
            if what is None:
                self.wrong.append(f"call {number}: status {came}, {output[-300:]!r}")
            else:
                self.counts[what] += 1
            if self.case.folder:
                self.check_again(number, output)
        return self.most, False


def cases_of(folder):
    return [
        Case("one_task", [records.new_task("first")]),
        Case("three_cycles", three_cycles()),
        Case("one_task_that_is_kept", [records.new_task("first")], os.path.join(folder, "lab")),
    ]


def main():
    reader = argparse.ArgumentParser(description=__doc__, formatter_class=argparse.RawDescriptionHelpFormatter)
    reader.add_argument("--program", default=os.path.join(TOP, "crates", "swarm", "out", "swarm"))
    reader.add_argument("--first", type=int, default=1)
    reader.add_argument("--most", type=int, default=5000)
    reader.add_argument("names", nargs="*")
    words = reader.parse_args()
    is_right = True
    with tempfile.TemporaryDirectory() as folder:
        runs = Runs(os.path.abspath(words.program), folder)
        for case in cases_of(folder):
            if words.names and case.name not in words.names:
                continue
            sweep = Sweep(runs, case, words.first, words.most)
            calls, is_whole = sweep.all()
            counts = ", ".join(f"{what} {count}" for what, count in sweep.counts.items())
            more = "" if is_whole else " and more"
            print(f"{case.name}: {calls}{more} calls: {counts}, other {len(sweep.wrong)}", flush=True)
            for line in sweep.wrong:
                print(f"  {line}")
            is_right = is_right and not sweep.wrong
    sys.exit(0 if is_right else 1)


if __name__ == "__main__":
    main()
