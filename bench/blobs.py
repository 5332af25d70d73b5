#!/usr/bin/env python3
"""Figures of blobs and of output: PutBlob, GetBlob, reports with output, and memory.

Usage: bench/blobs.py [--before OTHER] [PROGRAM]

Each line has what is asked, how often, and the milliseconds of one. Contents are put, fetched and
reported over one connection, one request after the other, with the replies read; where a line says
how many times as long something takes as another, both were measured in turn, and each is the best
of five rounds.

- PutBlob of 16 MiB beside the SHA-256 of the kit's `sha2` and one copy of the same bytes, and
  GetBlob of 16 MiB beside three copies. A small program of the kit's, which the script writes into a
  folder of its own and builds, hashes and copies: it needs `rt` on the PATH.
- Reports with 32768 bytes of output each: the first 100 and the last 100 of the 2048 that one run
  may have.
- PutBlob of a new blob of one byte among 1000 and among 10000 of them.
- The greatest memory of a session that stores nothing, and with --before OTHER that of OTHER.

The program is built by the first `./swarm session`.
"""
import argparse
import base64
import hashlib
import os
import subprocess
import sys
import tempfile
import threading
import time

sys.dont_write_bytecode = True
from session import COUNT, HERE, NEW_TASK, close_session, read_reply, request, run

ROUNDS = 5
LARGE = 16777216
CHUNK = 32768
CHUNKS = 2048
SETTINGS = """[[pools]]
name = "default"
store_units = 4194304
grants = [{ caller = "ana", permissions = [
    "swarming.pools.createTask", "swarming.pools.listTasks", "profile.pools.runBot", "profile.pools.useBlobs"
] }]
"""
# Hashes or copies 16 MiB so many times, and prints a byte of what came of it.
BASELINE = """//! Hashes or copies 16 MiB so often as its second word says.
#![tactic(auto)]

use sha2::{Digest, Sha256};
use std::alloc::{AllocError, Global};
use std::env;
use std::process::ExitCode;

fn hashed(content: &mut Vec<u8>) -> u8 {
    let digest = Sha256::digest(content.as_slice());
    if let Some(first) = content.first_mut() {
        *first = digest[0];
    }
    digest[0]
}

fn copied(alloc: Global, content: &mut Vec<u8>) -> Result<u8, AllocError> {
    let copy = Vec::from_slice(alloc, content.as_slice())?;
    if let (Some(first), Some(last)) = (content.first_mut(), copy.last()) {
        *first = last.wrapping_add(1);
    }
    Ok(copy.first().copied().unwrap_or(0))
}

fn work(alloc: Global, hash: bool, times: u32) -> Result<u8, AllocError> {
    let mut content = vec![in alloc; 7u8; 16_777_216]?;
    let mut sum = 0u8;
    for _ in 0..times {
        let byte = if hash {
            hashed(&mut content)
        } else {
            copied(alloc, &mut content)?
        };
        sum = sum.wrapping_add(byte);
    }
    Ok(sum)
}

fn main(rt: HostRuntime) -> ExitCode {
    let mut hash = false;
    let mut times = 0;
    if let Ok(args) = env::args(&rt) {
        for word in args.skip(1) {
            hash = hash || word.as_str() == "hash";
            times = word.as_str().parse::<u32>().unwrap_or(times);
        }
    }
    match work(rt.alloc(), hash, times) {
        Ok(sum) => ExitCode::from(sum & 1),
        Err(_) => ExitCode::from(5),
    }
}
"""


def blob_request(method, content, digest=None):
    digest = digest or hashlib.sha256(content).hexdigest()
    body = content if method == b"PUT" else b""
    return b"%s /blobs/default/%s HTTP/1.1\r\nX-Swarming-Caller: ana\r\nContent-Length: %d\r\n\r\n%s" % (
        method,
        digest.encode(),
        len(body),
        body,
    )


class Session:
    """A session with the settings above, asked one request after the other."""

    def __init__(self, program):
        self.program = program
        self.settings = tempfile.NamedTemporaryFile("w", suffix=".toml")
        self.settings.write(SETTINGS)
        self.settings.flush()
        words = [program, "session", "--settings", self.settings.name]
        self.child = subprocess.Popen(words, stdin=subprocess.PIPE, stdout=subprocess.PIPE)

    def ask(self, text):
        """The seconds that the reply took, and its body."""
        begun = time.monotonic()
        writer = threading.Thread(target=lambda: (self.child.stdin.write(text), self.child.stdin.flush()))
        writer.start()
        status, _, body = read_reply(self.child.stdout)
        writer.join()
        seconds = time.monotonic() - begun
        if status != b"HTTP/1.1 200 OK\r\n":
            sys.exit("%r: %r %r" % (text[:80], status, body[:200]))
        return seconds, body

    def end(self):
        return close_session(self.program, self.child)


def show(name, count, seconds):
    print("%-52s %6d %10.3f ms" % (name, count, 1000 * seconds), flush=True)


def compare(name, seconds, other, what):
    print("%-52s %.2f times as long as %s" % (name, seconds / other, what), flush=True)


def build_baseline(folder):
    """The path of the small program."""
    os.makedirs(folder + "/crates/baseline/src")
    with open(folder + "/crates.txt", "w") as file:
        file.write("baseline: sha2\n")
    with open(folder + "/crates/baseline/src/main.rt", "w") as file:
        file.write(BASELINE)
    done = subprocess.run(["rt", "run"], cwd=folder + "/crates/baseline", stdout=subprocess.PIPE, stderr=subprocess.STDOUT)
    for at, _, names in os.walk(folder):
        for it in names:
            if it == "baseline" and os.access(os.path.join(at, it), os.X_OK):
                return os.path.join(at, it)
    sys.exit("the small program wasn't built:\n" + done.stdout.decode()[-2000:])


def baseline_seconds(program, word):
    """The seconds of one hash or copy: those of nine less those of one, by eight."""

    def took(times):
        begun = time.monotonic()
        subprocess.run([program, word, str(times)])
        return time.monotonic() - begun

    return (took(9) - took(1)) / 8


def measure_large(program, baseline):
    """PutBlob and GetBlob of 16 MiB. Each content is new, so that each put copies it into the store."""
    best = {}

    def keep(name, seconds):
        best[name] = min(best.get(name, seconds), seconds)

    for place in range(ROUNDS):
        # A session of its own each round, with five contents of one byte each.
        session = Session(program)
        for letter in range(ROUNDS):
            content = bytes([97 + letter]) * LARGE
            text, fetch = blob_request(b"PUT", content), blob_request(b"GET", content)
            keep("put", session.ask(text)[0])
            seconds, body = session.ask(fetch)
            keep("get", seconds)
            if body != content:
                sys.exit("GetBlob answered other bytes")
        session.end()
        keep("hash", baseline_seconds(baseline, "hash"))
        keep("copy", baseline_seconds(baseline, "copy"))
    show("PutBlob of 16 MiB", ROUNDS * ROUNDS, best["put"])
    show("GetBlob of 16 MiB", ROUNDS * ROUNDS, best["get"])
    show("SHA-256 of 16 MiB by the kit's sha2", ROUNDS, best["hash"])
    show("a copy of 16 MiB", ROUNDS, best["copy"])
    compare("PutBlob of 16 MiB", best["put"], best["hash"] + best["copy"], "a hash and a copy (the pipe included)")
    compare("GetBlob of 16 MiB", best["get"], 3 * best["copy"], "three copies (the pipe included)")


def measure_output(program):
    """The first and the last 100 reports of a run with as much output as it may have."""
    best = {}
    for _ in range(ROUNDS):
        session = Session(program)
        shake = b'{"bot_id":"b1","session":"s","dimensions":[{"key":"pool","value":["default"]},{"key":"id","value":["b1"]}]}'
        for path, body in (
            (b"/bot/handshake", shake),
            (b"/prpc/swarming.v2.Tasks/NewTask", NEW_TASK),
            (b"/bot/claim", b'{"pool":"default","bot_id":"b1","claim_id":"c"}'),
        ):
            session.ask(post(path, body))
        took = []
        for place in range(CHUNKS):
            text = base64.b64encode(place.to_bytes(4, "big") * (CHUNK // 4))
            body = b'{"bot_id":"b1","task_id":"11","output":"%s","output_chunk_start":%d}' % (text, place * CHUNK)
            took.append(session.ask(post(b"/bot/task_update", body))[0])
        session.end()
        for name, seconds in (("first", sum(took[:100]) / 100), ("last", sum(took[-100:]) / 100)):
            best[name] = min(best.get(name, seconds), seconds)
    show("report with 32768 bytes, the first 100 of a run", 100, best["first"])
    show("report with 32768 bytes, the last 100 of 2048", 100, best["last"])
    compare("the last 100 reports", best["last"], best["first"], "the first 100")


def post(path, body):
    return b"POST %s HTTP/1.1\r\nX-Swarming-Caller: ana\r\nContent-Length: %d\r\n\r\n%s" % (path, len(body), body)


def measure_places(program):
    """PutBlob of a new small blob among more and more of them."""
    best = {}
    for _ in range(ROUNDS):
        session = Session(program)
        took = [session.ask(blob_request(b"PUT", b"%d" % place))[0] for place in range(10100)]
        session.end()
        for count in (1000, 10000):
            seconds = sum(took[count : count + 100]) / 100
            best[count] = min(best.get(count, seconds), seconds)
    for count in (1000, 10000):
        show("PutBlob of a small blob among %d" % count, 100, best[count])
    compare("PutBlob of a small blob among 10000", best[10000], best[1000], "among 1000")


def measure_memory(programs):
    asked = [(request(b"CountTasks", COUNT), 1)]
    for program in programs:
        memory = min(run(program, asked)[1] for _ in range(ROUNDS))
        print("%-52s %10.1f MiB" % ("a session that stores nothing: %s" % program, memory), flush=True)


def main():
    parser = argparse.ArgumentParser(usage="bench/blobs.py [--before OTHER] [PROGRAM]")
    parser.add_argument("--before", metavar="OTHER")
    parser.add_argument("program", nargs="?", default=os.path.join(HERE, "crates/swarm/out/swarm"))
    words = parser.parse_args()
    programs = [it for it in (words.before, words.program) if it]
    for it in programs:
        if not os.access(it, os.X_OK):
            sys.exit("%s is not there: run ./swarm session first" % it)
    measure_memory(programs)
    with tempfile.TemporaryDirectory() as folder:
        measure_large(words.program, build_baseline(folder))
    measure_output(words.program)
    measure_places(words.program)


if __name__ == "__main__":
    main()
