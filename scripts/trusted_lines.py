#!/usr/bin/env python3
"""Counts the definitions that the contracts rest on, and compares docs/trusted.md with the counts.

Usage: scripts/trusted_lines.py [--write] [--names]

From the contracts of `run`, `session` and the traits that they are generic over, and from the laws
of `pool_laws`, `log_laws`, `bot_core`, `bot_worlds`, `batch_plays` and `wire_laws`, it follows each definition to those that it cites, through the specs/ of this
repository and of the kit, and to the types of src/. It prints each row of a table of docs/trusted.md
that differs from the counts, each file that has no row, and each row that has no file, and ends
with status 1 if there is one. With --write it puts the counts into the page; with --names it prints
the definitions that it counted, file by file.

Of the files at the edge of the process it counts what no contract says: all but the items of TOLD, each
of which has to have a contract or to tell its state.

A line counts where it is neither blank nor an import. The kit is looked for where `rt doc` says.
"""
import os
import re
import subprocess
import sys

HERE = os.path.dirname(os.path.dirname(os.path.abspath(__file__)))
PAGE = os.path.join(HERE, "docs", "trusted.md")
NAME = r"[A-Za-z_][A-Za-z0-9_']*"

HEADLINE = [
    ("Rattle.swarm_cli.specs.Run", "Runs"),
    ("Rattle.command_words.specs.Commands", "command_of"),
    ("Rattle.swarm_http.specs.Answered", "IsAnswered KeepsDoor"),
    ("Rattle.swarm_model.specs.Settings", "are_settings"),
    ("Rattle.pool_doors.specs.Calls", "call_of"),
    ("Rattle.pool_doors.specs.Doors", "DoorState IsCall"),
    ("Rattle.sw_base.specs.Link", "LinkState IsClean Reads Writes Flushes"),
    ("Rattle.sw_base.specs.Clock", "HandsIn Waits"),
    ("Rattle.sw_base.specs.Acceptors", "AcceptorState Accepts Ends"),
    ("Rattle.sw_base.specs.Listeners", "ListenerState Gives FailsToListen Shuts"),
    ("Rattle.sw_base.specs.Dialers", "DialerState Dials Declines Hangs"),
    ("Rattle.sw_base.specs.Files", "FilesState Loads Saves"),
    ("Rattle.runners.specs.Calls", "RunnerState Performs Signals Looks CollectsFile Cleans"),
    ("Rattle.swarm_keeper.specs.Stores", "StoreState HasPlace PlacesStay IsAttached NotAttached Detaches"),
    ("Rattle.swarm_keeper.specs.Tables", "Tables Counts appended replaced bytes_of"),
]
# The traits whose contracts cite these.
TRAITS = [("sw_base", "link", "Link"), ("sw_base", "clock", "Clock"), ("sw_base", "files", "Files"), ("sw_base", "acceptor", "Acceptor"), ("sw_base", "listener", "Listener"), ("sw_base", "dialer", "Dialer"), ("runners", "runner", "Runner"), ("swarm_keeper", "keeper", "Keeper"), ("swarm_keeper", "store", "Store"), ("pool_doors", "door", "Door")]
LAWS = [
    ("Rattle.swarm_model.specs.Claims", "ClaimsAreRight"),
    ("Rattle.swarm_model.specs.Verdicts", "VerdictsAreStates FinalsStay TallyCountsVerdicts TallyAddsUp"),
    ("Rattle.swarm_model.specs.Repeats", "NewTaskAgain UuidIsTaken ClaimAgain ClaimIsOver HandshakeAgain"),
    ("Rattle.swarm_model.specs.Repeats", "UpdateAgain UpdateIsOver ContactChanges"),
    ("Rattle.swarm_model.specs.ReuseLaw", "OutcomesAreTaken SourceIsNewest ReuseIsFirst"),
    ("Rattle.swarm_model.specs.DueLaw", "DueIsEarliest"),
    ("Rattle.swarm_model.specs.RefusalLaw", "RefusalsAddNothing"),
    ("Rattle.swarm_model.specs.Soundness", "StaysSound"),
    ("Rattle.pool_laws.specs.BaseLaws", "KeepsBaseRows LeadsToABase OpeningIsABase OpeningWeighsNothing WeightAfter WeightIsBounded"),
    ("Rattle.pool_laws.specs.Bases", "StatesFromABase ClaimsFromABase RunsFromABase TallyFromABase TallyAddsUpFromABase RestIsLegal RestTellsTheSame"),
    ("Rattle.log_laws.specs.Sent", "SentOnce SentBefore RepliesAreTold NewIsAsked"),
    ("Rattle.log_laws.specs.Names", "NamesLast NamesTellNumbers NewNamesAreNew"),
    ("Rattle.log_laws.specs.Runs", "AttemptsAreTold"),
    ("Rattle.log_laws.specs.Replies", "UpdatesAreAsked RunsAreTold ChunksAreTaken"),
    ("Rattle.log_laws.specs.Calls", "CallsAreTold StopsAddNoUpdate"),
    ("Rattle.log_laws.specs.Checked", "PropertiesAreChecked"),
    ("Rattle.bot_core.specs.Output", "SendsWhatWasWritten"),
    ("Rattle.bot_core.specs.Starts", "StartsOnce"),
    ("Rattle.bot_core.specs.Signals", "KillsAfterTermAndGrace"),
    ("Rattle.bot_core.specs.OpenRuns", "CleansUpEachRun"),
    ("Rattle.bot_core.specs.Repeats", "RepeatsRequests"),
    ("Rattle.bot_core.specs.Ids", "IdsGrow"),
    ("Rattle.bot_core.specs.RunLaws", "StopsWhereAsked ReportsInTime TellsTimeouts ReportsFit"),
    ("Rattle.wire_laws.specs.Told", "RepliesAreTold"),
    ("Rattle.wire_laws.specs.Fitting", "AreChecked SoundAreChecked"),
    ("Rattle.wire_laws.specs.Meant", "HandshakesAreMeant PollsAreMeant PoolsAreNamed ClaimsAreMeant ReportsAreMeant BlobGetsAreMeant BlobPutsAreMeant CallsAreFound BlobsAreFound RangesLieWithin"),
    ("Rattle.bot_worlds.specs.TwoEnds", "TwoEndsAgree"),
    ("Rattle.batch_plays.specs.Once", "EachOnce"),
]
# What runs at the edge of the process, but for the scripts that start and build it.
EDGE = [
    "crates/swarm/src/main.rt",
    "crates/sqlite_keeper/src/sqlite_keeper.rt",
    "crates/sqlite_keeper/src/sqlite_store.rt",
    "crates/sqlite_keeper/src/records.rt",
    "crates/sqlite_keeper/src/changes.rt",
    "crates/sqlite_keeper/src/known.rt",
    "crates/sqlite_keeper/src/standing.rt",
    "crates/sqlite_keeper/src/site.rt",
    "crates/sqlite_keeper/src/sql_file.rt",
    "crates/sqlite_keeper/src/opened_tables.rt",
    "crates/sqlite_keeper/src/tables.rt",
    "crates/sw_base/src/console_link.rt",
    "crates/sw_base/src/system_clock.rt",
    "crates/program_log/src/journal.rt",
    "crates/program_log/src/logged_stream.rt",
    "crates/program_log/src/logged_files.rt",
    "crates/program_log/src/disk.rt",
    "crates/tcp_links/src/tcp_link.rt",
    "crates/tcp_links/src/deadline_link.rt",
    "crates/tcp_links/src/tcp_acceptor.rt",
    "crates/tcp_links/src/tcp_all.rt",
    "crates/tcp_links/src/link_ending.rt",
    "crates/tcp_links/src/logged_link.rt",
    "crates/tcp_links/src/closing.rt",
    "crates/tcp_links/src/limits.rt",
    "crates/tcp_links/src/limited_stream.rt",
    "crates/shell_runner/src/shell_runner.rt",
    "crates/shell_runner/src/shell_calls.rt",
    "crates/shell_runner/src/faults.rt",
    "crates/shell_runner/src/system_shell.rt",
    "crates/shell_runner/src/child_run.rt",
    "crates/shell_runner/src/child_command.rt",
    "crates/shell_runner/src/shown_output.rt",
    "crates/shell_runner/src/exit_codes.rt",
    "crates/shell_runner/src/signals.rt",
    "crates/run_folders/src/held_folder.rt",
    "crates/run_folders/src/kept_caches.rt",
    "crates/run_folders/src/places.rt",
    "crates/run_folders/src/paths.rt",
    "crates/run_folders/src/found.rt",
    "crates/run_folders/src/tools.rt",
]
SCRIPTS = ["swarm", "scripts/build.py"]
# What of them is told: by each item's first line, from its `fn`, `struct` or `impl` on.
TOLD = {
    "crates/sw_base/src/console_link.rt": [
        "struct ConsoleLink",
        "impl<R: Read + Drop, W: Write + Drop> ConsoleLink<R, W>",
        "impl<R: Read + Drop, W: Write + Drop> Link for ConsoleLink<R, W>",
    ],
    "crates/sqlite_keeper/src/sqlite_keeper.rt": ["fn counted"],
    "crates/sqlite_keeper/src/sqlite_store.rt": ["fn keeper_of", "fn new"],
    "crates/sqlite_keeper/src/records.rt": [
        "const CLOSED",
        "struct Records",
        "fn blob_before",
        "fn found",
        "fn judged",
        "impl<F: PoolFile> Records<F>",
    ],
    "crates/sqlite_keeper/src/changes.rt": [
        "struct BlobChange",
        "enum LineChange",
        "struct Change",
        "fn dropped",
        "fn added",
        "fn back",
        "fn append",
        "fn take_out",
    ],
    "crates/sqlite_keeper/src/known.rt": ["struct Place", "struct Known", "impl Known", "struct BlobBefore", "struct Begun"],
    "crates/sqlite_keeper/src/standing.rt": ["enum Standing", "enum Found"],
    "crates/sqlite_keeper/src/site.rt": ["fn is_memory", "fn start_fault", "fn are_tables"],
    "crates/program_log/src/logged_stream.rt": [
        "struct LoggedStream",
        "impl<'a, S: Drop, G: Log> LoggedStream<'a, S, G>",
        "impl<'a, S: Read + Drop, G: Log> Read for LoggedStream<'a, S, G>",
        "impl<'a, S: Write + Drop, G: Log> Write for LoggedStream<'a, S, G>",
    ],
    "crates/program_log/src/logged_files.rt": ["fn new", "fn add_fault", "fn lines_of"],
    "crates/program_log/src/disk.rt": ["fn read_up_to", "fn write_synced"],
    "crates/tcp_links/src/tcp_link.rt": [
        "const TLS_HANDSHAKE",
        "struct TcpLink",
        "fn new",
        "fn read_plain",
        "fn read_again",
        "fn is_hello",
        "fn write_again",
        "fn into_unfinished",
        "impl<R: Read + Drop, W: Write + Drop> Link for TcpLink<R, W>",
    ],
    "crates/tcp_links/src/deadline_link.rt": [
        "struct DeadlineLink",
        "fn new",
        "fn peer",
        "fn flushes",
        "fn into_link_in_time",
        "fn wait_now",
        "impl<'a, L: LimitedReads + Drop, T: rt::Clock> Link for DeadlineLink<'a, L, T>",
    ],
    "crates/tcp_links/src/tcp_acceptor.rt": ["fn faults", "fn may_retry"],
    "crates/tcp_links/src/link_ending.rt": ["fn of"],
    "crates/tcp_links/src/logged_link.rt": [
        "struct LoggedLink",
        "fn new",
        "fn into_inner",
        "impl<L: Link + Drop> Link for LoggedLink<L>",
    ],
    "crates/tcp_links/src/limits.rt": ["struct Limits", "fn of_server", "fn of_client", "fn idle_secs"],
    "crates/shell_runner/src/shell_runner.rt": [
        "struct ShellRunner",
        "impl<'a, S: Shell + Drop, G: Log> ShellRunner<'a, S, G>",
        "impl<'a, S: Shell + Drop, G: Log> Runner for ShellRunner<'a, S, G>",
    ],
    "crates/shell_runner/src/shell_calls.rt": [
        "fn has_env_key",
        "fn have_env_keys",
        "fn make_bot_folder",
        "fn prepare_run",
        "fn start_child",
        "fn clear_run",
    ],
    "crates/shell_runner/src/faults.rt": ["struct Faults", "fn is_memory", "impl<'a, G: Log> Faults<'a, G>"],
    "crates/shell_runner/src/system_shell.rt": ["fn new"],
    "crates/shell_runner/src/child_run.rt": ["fn new"],
    "crates/shell_runner/src/child_command.rt": ["fn env_word", "fn child_command"],
    "crates/shell_runner/src/shown_output.rt": [
        "const MOST_SHOWN",
        "struct ShownOutput",
        "impl<F: Read + Drop> ShownOutput<F>",
        "fn look_of",
    ],
    "crates/shell_runner/src/exit_codes.rt": ["fn before_end", "fn number_of", "fn code_of", "fn code_left"],
    "crates/shell_runner/src/signals.rt": ["fn signal_name"],
    "crates/run_folders/src/found.rt": ["fn found"],
    "crates/run_folders/src/tools.rt": ["fn tool_command"],
    "crates/run_folders/src/paths.rt": [
        "fn is_slash",
        "fn has_slash",
        "fn names_nothing",
        "fn is_name",
        "fn path_below",
        "fn path_of_name",
        "fn path_inside",
        "fn has_nothing",
        "fn is_below",
        "fn is_env_byte",
        "fn are_env_bytes",
        "fn is_env_key",
    ],
}


def kit_folder():
    page = subprocess.run(["rt", "doc"], capture_output=True, text=True, check=True).stdout.strip()
    return os.path.join(os.path.dirname(page), "rattle")


KIT = kit_folder()


def folders(crate):
    """Where the sources of a crate may stand. The kit's std passes on modules of two other crates."""
    own = os.path.join(HERE, "crates", crate)
    if os.path.isdir(own):
        return [own]
    names = [crate, "core", "std_alloc"] if crate == "std" else [crate]
    return [os.path.join(KIT, name) for name in names]


class Specs:
    """A module of specs/: its definitions, each with its lines, and where its other names come from."""

    def __init__(self, file):
        self.file, self.items, self.imports, self.aliases = file, {}, {}, {}
        name, lines, comment, group = None, [], [], False
        for line in [*open(file, encoding="utf-8").read().splitlines(), "use"]:
            # Definitions that cite each other stand in one group, two spaces further in.
            begins_group = re.match(r"(abbrev |unfoldable )?mutual$", line)
            group = begins_group or (group and (not line or line[0] == " "))
            if group:
                line = "-- ----" if begins_group else line[2:]
            defines = re.match(r"(?:abbrev |unfoldable |mutual |pub )*(record |data )?(?:pub )?(\S+)", line)
            if re.match(r"(abbrev|unfoldable|mutual|pub|record|data)\b(?! use| mod)", line):
                self.close(name, lines)
                name, lines, comment = defines.group(2).rstrip(":"), [*comment, line], []
                if not defines.group(1):
                    for other in line[defines.end() :].split(":")[0].split():
                        self.imports[other] = (None, name)
            elif line.startswith("--"):
                self.close(name, lines)
                name, lines = None, []
                comment = [] if line.startswith("-- ----") else [*comment, line]
            elif re.match(r"(pub )?(use|mod)\b|infix|module\b", line):
                self.close(name, lines)
                name, lines, comment = None, [], []
                self.read_import(line)
            elif line.strip() and name:
                lines.append(line)
            elif line.strip() and not line.startswith(" "):
                # A further clause of an earlier definition, below a comment of its own.
                name, lines, comment = line.split()[0], [*comment, line], []
            elif not line.strip() and not name:
                comment = []

    def close(self, name, lines):
        if name:
            count, text = self.items.get(name, (0, ""))
            self.items[name] = (count + len(lines), text + "\n" + "\n".join(lines))
            if re.search(r"^(pub )?data ", "\n".join(lines), re.M):
                for constructors in re.findall(r"^\s+([a-z_A-Z0-9 ]+) : ", "\n".join(lines), re.M):
                    for constructor in constructors.split():
                        self.imports.setdefault(constructor, (None, name))

    def read_import(self, line):
        if listed := re.match(r"(?:pub )?use (\S+)\.\{(.*)\}", line):
            for part in listed.group(2).split(","):
                name, _, local = (word.strip() for word in part.partition(" as "))
                self.imports[local or name] = (listed.group(1), name)
        elif whole := re.match(r"(?:pub )?use (\S+?)(?: as (\S+))?$", line):
            self.aliases[whole.group(2) or whole.group(1).split(".")[-1]] = whole.group(1)

    def cited_by(self, text):
        """The modules and names that the text of a definition cites."""
        text = "\n".join(line for line in text.splitlines() if not line.startswith("--"))
        text = re.sub(r"^\s+pub [a-z_0-9]+ : ", " ", text, flags=re.M)
        scope = {*self.items, *self.imports}
        mixed = {part: name for name in scope if "◌" in name for part in name.split("◌") if part}
        for alias, name in re.findall(rf"(?<![\w'.])({NAME})\.({NAME})", text):
            if alias in self.aliases:
                yield self.aliases[alias], name
        for clause in re.split(r"\n(?=\S)", text):
            bound = set(re.findall(rf"^\s+({NAME}) ← ", clause, re.M))
            for binders in re.findall(r"λ ([^.]*)\.|[({]([\w' ]+) : ", clause):
                bound.update(" ".join(binders).split())
            equals = re.search(r" =(?=\s)", clause)
            if equals and not re.match(r"(abbrev|unfoldable|mutual|pub|record|data)\b", clause):
                patterns = re.findall(rf"(?<![\w'.])[a-z_][\w']*(?!\.[A-Z])", clause[: equals.start()])[1:]
                bound.update(name for name in patterns if not self.is_constructor(name))
            clause = re.sub(r"(?<=[{;\n])(\s*)[a-z_0-9]+ = ", r"\1", clause)
            for word in re.findall(rf"(?<![\w'.]){NAME}", clause):
                if word in scope and word not in bound:
                    yield None, word
                if word in mixed:
                    yield None, mixed[word]
            for sign, name in mixed.items():
                if not re.match(NAME, sign) and sign in clause:
                    yield None, name

    def is_constructor(self, name):
        origin = self.imports.get(name, ("", ""))[0]
        return origin is None or "TheVariants" in origin


class Declared:
    """A type, or a trait, of src/, with the value that contracts see of it."""

    def __init__(self, crate, files, name):
        self.crate, self.name, self.count, self.text, self.file = crate, name, 0, "", ""
        for folder in folders(crate):
            file = os.path.join(folder, "src", *files) + ".rt"
            self.file = self.file or (file if os.path.exists(file) else "")
        self.lines = open(self.file, encoding="utf-8").read().splitlines() if self.file else []
        for at, line in enumerate(self.lines):
            declares = rf"pub(\(crate\))? (struct|enum|trait|type) {name}\b|impl.* Model for {name}\b"
            if re.match(declares, line):
                first, last = at, at
                while first and re.match(r"///|#\[", self.lines[first - 1]):
                    first -= 1
                while not re.search(r"[;}]$", line) and self.lines[last] != "}":
                    last += 1
                part = [part for part in self.lines[first : last + 1] if part.strip() and "use " not in part]
                self.count += len(part)
                self.text += "\n".join(part)

    def types(self):
        """The types that it holds, by crate and file."""
        for name in sorted({*re.findall(r"\b[A-Z]\w*", self.text)} - {self.name}):
            for line in self.lines:
                if re.match(rf"pub (struct|enum|type) {name}\b", line):
                    yield from find_type(self.crate, name)
                elif used := re.match(rf"use (\w+)::.*\b{name}\b", line):
                    yield from find_type(self.crate if used.group(1) == "crate" else used.group(1), name)


def find_type(crate, name):
    """The file of a crate of this repository that declares a type, or of one whose types it passes on."""
    folder = os.path.join(HERE, "crates", crate, "src")
    for file in sorted(os.listdir(folder)) if os.path.isdir(folder) else []:
        text = open(os.path.join(folder, file), encoding="utf-8").read() if file.endswith(".rt") else ""
        if re.search(rf"^pub (struct|enum|type) {name}\b", text, re.M):
            yield crate, [file[:-3]], name
        for other, names in re.findall(r"^pub use (\w+)::\{?([^;]*?)\}?;", text, re.M):
            if file == "lib.rt" and re.search(rf"\b{name}\b", names) and other != crate:
                yield from find_type(other, name)


class Walk:
    """Follows definitions to those that they cite."""

    def __init__(self):
        self.modules, self.counted = {}, {}

    def begin_at(self, roots):
        for path, names in roots:
            for name in names.split():
                self.cite(path, name)
                if not any(name == counted for _, counted in self.counted):
                    sys.exit("%s, which a list at the head of this script names, has no %s" % (path, name))

    def module(self, path):
        if path not in self.modules:
            parts = path.split(".")
            self.modules[path] = None
            if parts[0] == "Rattle" and parts[2] == "specs" and parts[3] != "declared":
                for folder in folders(parts[1]):
                    file = os.path.join(folder, "specs", *parts[3:]) + ".antt"
                    if os.path.exists(file) and not self.modules[path]:
                        self.modules[path] = Specs(file)
        return self.modules[path]

    def declared(self, crate, files, name):
        found = Declared(crate, files, name)
        if found.count and (found.file, name) not in self.counted:
            self.counted[found.file, name] = found.count
            for part in found.types():
                self.declared(*part)

    def cite(self, path, name):
        parts = path.split(".")
        if len(parts) > 3 and parts[3] == "declared":
            parts = parts[:-1] if parts[-1] == "TheVariants" else parts
            return self.declared(parts[1], parts[4:-1] or ["lib"], parts[-1])
        specs = self.module(path)
        if not specs:
            return None
        if name not in specs.items or not specs.items[name][0]:
            origin, other = specs.imports.get(name, ("", name))
            return self.cite(path if origin is None else origin, other) if origin != "" else None
        if (specs.file, name) not in self.counted:
            count, text = specs.items[name]
            self.counted[specs.file, name] = count
            for origin, cited in sorted(specs.cited_by(text), key=str):
                self.cite(origin or path, cited)
        return None


def by_file(counted):
    """The definitions that were counted, by their files: those of this repository, and those of the kit."""
    own, kit = {}, {}
    for (file, name), count in counted.items():
        is_own = file.startswith(os.path.join(HERE, "crates"))
        files = own if is_own else kit
        files.setdefault(os.path.relpath(file, HERE if is_own else KIT), {})[name] = count
    return own, kit


def size_of(file):
    """The lines of a file that are neither blank nor imports."""
    lines = open(os.path.join(HERE, file), encoding="utf-8")
    return sum(1 for line in lines if line.strip() and not re.match(r"(pub |ghost )?use\b|pub mod\b", line))


def told_lines(file, lines):
    """The places of the lines of what is told of a file."""
    found = set()
    for name in TOLD.get(file, []):
        begins = rf"( *)(pub |pub\(crate\) )?{re.escape(name)}(?!\w)"
        places = [at for at, line in enumerate(lines) if re.match(begins, line)]
        if len(places) != 1:
            sys.exit("%s, of which TOLD names %s, has %d of it" % (file, name, len(places)))
        begin = last = places[0]
        first, indent = begin, re.match(begins, lines[begin])[1]
        while first and re.match(rf"{indent}(//|#\[)", lines[first - 1]):
            first -= 1
        while not lines[begin].endswith(";") and lines[last] != indent + "}":
            last += 1
        text = "\n".join(lines[first : last + 1])
        state = re.search(r"ghost (state|remaining|contents) = (.*?)};", text, re.S)
        if not (re.search(r"struct|enum|const", name) or "ensures" in text or state) or state and "None" in state[2]:
            sys.exit("%s: %s is named by TOLD, and tells nothing" % (file, name))
        found.update(range(first, last + 1))
    return found


def edge_size(file):
    """How many lines of a file at the edge nothing tells, and how many it has."""
    lines = open(os.path.join(HERE, file), encoding="utf-8").read().splitlines()
    counted = [at for at, line in enumerate(lines) if line.strip() and not re.match(r" *(pub |ghost )?use\b|pub mod\b", line)]
    told = told_lines(file, lines)
    return [sum(1 for at in counted if at not in told), len(counted)]


def specs_of(crate):
    folder = os.path.join(HERE, "crates", crate, "specs")
    names = os.listdir(folder) if os.path.isdir(folder) else []
    return [os.path.join("crates", crate, "specs", file) for file in names]


def named_in_kit():
    """The crates of the kit that crates.txt names."""
    lines = open(os.path.join(HERE, "crates.txt"), encoding="utf-8").read().splitlines()
    names = {word for line in lines for word in line.partition("#")[0].partition(":")[2].split()}
    return sorted(name for name in names if os.path.isdir(os.path.join(KIT, name)))


def source_size(crate):
    """The lines of the sources of a crate of the kit."""
    found = 0
    for folder, _, files in os.walk(os.path.join(KIT, crate, "src")):
        found += sum(sum(1 for _ in open(os.path.join(folder, file), encoding="utf-8")) for file in files)
    return found


def count():
    """The definitions that were counted, by table and file, and the rows of each table of the page."""
    walk = Walk()
    walk.begin_at(HEADLINE)
    for crate, file, name in TRAITS:
        walk.declared(crate, [file], name)
    headline = dict(walk.counted)
    walk.begin_at(LAWS)
    own, _ = by_file(headline)
    laws, _ = by_file({key: count for key, count in walk.counted.items() if key not in headline})
    _, kit = by_file(walk.counted)
    crates, outside = {}, {}
    for crate in sorted(os.listdir(os.path.join(HERE, "crates"))):
        whole = sum(size_of(file) for file in specs_of(crate))
        cited = [sum(sum(part.get(file, {}).values()) for file in specs_of(crate)) for part in (own, laws)]
        if whole:
            crates[crate] = [*cited, whole - sum(cited)]
    for crate in named_in_kit() + [file.split(os.sep)[0] for file in kit]:
        cited = sum(sum(names.values()) for file, names in kit.items() if file.startswith(crate + os.sep))
        outside[crate] = [cited, source_size(crate)]
    edge = {file: edge_size(file) for file in EDGE}
    scripts = {file: [size_of(file)] for file in SCRIPTS}
    rows = {"crates": crates, "kit": outside, "edge": edge, "scripts": scripts}
    for title, files in (("headline", own), ("laws", laws)):
        rows[title] = {file: [sum(names.values()), size_of(file)] for file, names in files.items()}
    return {"headline": own, "laws": laws, "kit": kit}, rows


def compared(lines, rows):
    """The lines of the page with the counts in its tables, and what differs."""
    lines, wrong, seen, title = list(lines), [], set(), None
    for at, line in enumerate(lines):
        cells = line.split("|")
        if marked := re.match(r"<!-- counted: (\w+) -->", line):
            title = marked.group(1)
        elif line.startswith("#"):
            title = None
        elif title and len(cells) > 3 and re.search(r"\d", cells[2]):
            name = cells[1].strip(" `")
            numbers = rows[title].get(name)
            if name == "all":
                numbers = [sum(column) for column in zip(*rows[title].values())]
            if numbers:
                seen.add((title, name))
                cells[2 : 2 + len(numbers)] = [" %d " % number for number in numbers]
                lines[at] = "|".join(cells)
            if lines[at] != line or not numbers:
                wrong.append("line %d: %s: %s" % (at + 1, name, numbers or "it is not cited"))
    for title, names in rows.items():
        wrong += ["%s has no row: %s" % (name, title) for name in names if (title, name) not in seen]
    return lines, wrong


def main():
    found, rows = count()
    if "--names" in sys.argv:
        for title, files in found.items():
            for file, names in files.items():
                print("%s: %s: %s" % (title, file, " ".join(names)))
    with open(PAGE, encoding="utf-8") as page:
        lines, wrong = compared(page.read().splitlines(), rows)
    print("".join("docs/trusted.md: %s\n" % what for what in wrong), end="")
    if "--write" in sys.argv:
        with open(PAGE, "w", encoding="utf-8") as page:
            page.write("\n".join(lines) + "\n")
    sys.exit(1 if wrong else 0)


if __name__ == "__main__":
    main()
