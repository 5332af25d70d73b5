"""Sessions of the fuzz as transcripts with the model's replies, which `crates/test_transcripts` runs over both
machines of a pool.

A part of `checks/fuzz`; it is no check of its own.
"""
import os
import re
import shutil
import subprocess
import tempfile
import time

from lib import fuzz_sessions

# How many sessions a file has, and how many files a run of the program.
SESSIONS_OF_A_FILE = 50
FILES_OF_A_RUN = 8
TOLD = re.compile(r"(\d+) transcripts, \d+ replies; (\d+) over lists too")


def text_of(value):
    """Bytes as a transcript has them."""
    found = re.sub(rb"([^ -#%-~])\1*|([!-#%-~])\2{40,}| +\Z", write_bytes, value)
    return found.decode("ascii")


def write_bytes(found):
    text = found.group()
    return b"${0x%02x}" % text[0] if len(text) == 1 else b"${0x%02x*%d}" % (text[0], len(text))


def rows_of(name, session):
    """The lines of the transcript of a session without records."""
    rows = [f"transcript {name}", "words session --settings lab.toml", "file lab.toml"]
    rows += [f"| {line}" for line in fuzz_sessions.write_settings(session.settings).splitlines()]
    rows.append("pieces 700 700")
    run = session.runs[0]
    for step in run.steps:
        asked = sum(it.asked for it in step.answers)
        if asked:
            rows.append("moment" + f" {step.clock}" * asked)
        rows.append(f">> {text_of(step.text())}")
        answers = b"".join(it.text for it in step.answers)
        if answers:
            rows.append(f"<< {text_of(answers)}")
    if run.status:
        rows.append(f"ends {run.status}")
    return rows


class Writer:
    """Writes sessions as files of transcripts, and counts what it wrote."""

    def __init__(self, asked, make):
        self.asked, self.make, self.number, self.requests = asked, make, 0, 0

    def write(self, folder):
        """Writes the files of a run, and answers how many transcripts they have."""
        for place in range(FILES_OF_A_RUN):
            rows = []
            for _ in range(SESSIONS_OF_A_FILE):
                session = self.make(self.asked, self.number)
                rows += ["", *rows_of(f"session_{self.number}", session)]
                self.number += 1
                self.requests += session.requests()
            with open(os.path.join(folder, f"fuzz_{place}.transcript"), "w", encoding="ascii") as file:
                file.write("".join(f"{it}\n" for it in rows))
        return FILES_OF_A_RUN * SESSIONS_OF_A_FILE


def run(asked, make):
    """Runs transcripts by the program as long as is asked, and prints the figures: the status of the check."""
    asked.without_records = True
    writer, began, passed, failed = Writer(asked, make), time.monotonic(), 0, 0
    while not failed:
        folder = tempfile.mkdtemp()
        many = writer.write(folder)
        done = subprocess.run([os.path.abspath(asked.machines), folder], capture_output=True, text=True, check=False)
        told = [tuple(map(int, it)) for it in TOLD.findall(done.stdout)]
        if done.returncode == 0 and sum(it[0] for it in told) == sum(it[1] for it in told) == many:
            passed += many
            shutil.rmtree(folder)
        else:
            failed += 1
            print(f"status {done.returncode} over {folder}, which is kept:\n{done.stdout[-4000:]}{done.stderr[-4000:]}")
        seconds = time.monotonic() - began
        if (asked.seconds and seconds >= asked.seconds) or (asked.requests and writer.requests >= asked.requests):
            break
    print(f"seed {asked.seed}: {writer.requests} requests in {writer.number} sessions over both machines, {seconds:.0f} s")
    print(f"{passed} passed, {failed} failed")
    return 1 if failed else 0
