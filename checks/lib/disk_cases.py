"""Cases of a disk that fails under a server, from its start to its end, and what has to hold of each.

A case plays the requests of a world over a copy of its store while calls of the system fail, in a manner:

- `once`: a refused request isn't sent again;
- `again`: it is sent again at once;
- `killed`: the process is killed behind the first request in which a call failed;
- `twice`, `often`: the call fails two times one after the other, or five times, so that mending meets it as well;
- `mending`: another call fails once behind it;
- `stays`: the call fails until the disk is well again, and then what was refused is sent again;
- `stays killed`, `stays to the end`: the disk isn't well before the process is killed, or has ended.

A request may be refused only if a call failed since the reply before it. What came is compared with a run over
the same store without a fault, which is asked just the requests that were served, in their order: the replies,
the rows in the files, and the replies of a further session to questions. Where calls failed as often as the file
was to be opened anew, at once, at the next call and at the end, or the process was killed before, one of the
refused requests may stand in that file as well.

It is no check of its own, so it may not be executed.
"""
import itertools
import re
import tempfile
from typing import NamedTuple

from lib.disk_worlds import World, answers_after, is_refused, room, rows_in, told
from lib.failing_disks import CHANGES, ERRORS, READS, Fault

MANNERS = ("once", "again", "killed", "twice", "often", "mending", "stays", "stays killed", "stays to the end")
# So many requests are asked while a call fails, before the disk is well again.
REQUESTS_WITHOUT_DISK = 4
# How often a request is sent again.
TRIES = 3
LOG_LINE = r"[0-9]+ ERROR (.*)"
NOT_KEPT, NOT_OPENED, ANEW = "can't keep a line in ", "can't open records at ", " were opened anew"
# In these manners calls don't fail so often that a file could stay closed.
MENDED = ("once", "again", "killed", "stays", "full")


class Case(NamedTuple):
    world: World
    manner: str
    faults: tuple

    def name(self):
        return f"{self.world.name}, {self.manner}: " + " ".join(fault.word() for fault in self.faults)

    def group(self):
        return self.world.name, self.manner, self.faults[0].call


def numbers_of(count, most):
    """The numbers of so many calls, or so many of them that are spread over all."""
    step = max(1, -(-count // most))
    return sorted({*range(1, count + 1, step), count} - {0})


def cases_of(world):
    """All cases of a world."""
    calls, cases = world.calls(), []
    for call in CHANGES:
        places = [place for place, it in enumerate(calls) if it == call]
        for number in numbers_of(len(places), world.most):
            for error in ERRORS:
                fault = Fault(call, error, number, number)
                cases += [Case(world, manner, faults_of(manner, fault, calls[: places[number - 1]])) for manner in MANNERS]
    return cases


def faults_of(manner, fault, before):
    """The faults of a manner, the first of which comes behind these calls."""
    number = fault.first
    if manner == "twice":
        return (fault._replace(last=number + 1),)
    if manner == "often":
        return (fault._replace(last=number + 4),)
    if manner.startswith("stays"):
        return (fault._replace(last=None),)
    if manner == "mending":
        others = [it for it in (*CHANGES[:3], *READS) if it != fault.call]
        call = others[number % len(others)]
        place = before.count(call) + 1 + number // len(others) % 3
        return (fault, Fault(call, fault.error, place, place))
    return (fault,)


class Counts:
    """How much was played."""

    NAMES = ("cases", "failed calls", "starts", "starts that fail", "requests", "refused requests", "ends", "kills", "checkpoints")

    def __init__(self):
        self.counts = dict.fromkeys(self.NAMES, 0)

    def add(self, name, count=1):
        self.counts[name] += count

    def text(self):
        return ", ".join(f"{name} {count}" for name, count in self.counts.items())


class Play:
    """A case as it is played: what was asked and what came of it."""

    def __init__(self, case, folder):
        self.case, self.world, self.folder = case, case.world, folder
        self.found, self.counts = [], Counts()
        self.served, self.replies, self.refused, self.closed = [], [], [], []
        self.manner, self.killed, self.failed_at_end = case.manner, False, 0
        self.store = self.world.copied(folder)
        self.counts.add("cases")

    def check(self, what, wanted, came):
        self.found.append((f"{self.case.name()}: {what}", *apart(wanted, came)))

    def is_over(self):
        return self.run.process.poll() is not None

    def ask(self, place):
        """Asks a request: whether it was served, and how many calls failed."""
        before = self.run.failures()
        reply = self.run.ask(self.world.requests[place][1])
        failed = self.run.failures() - before
        self.counts.add("requests")
        name = self.world.requests[place][0]
        if is_refused(reply):
            self.counts.add("refused requests")
            self.refused.append(place)
            self.check(f"{name}: a refused request met a call that failed", True, self.may_refuse(failed))
            return False, failed
        self.served.append(place)
        self.replies.append(told(reply))
        if reply is None:
            self.check(f"{name}: it has a reply", True, False)
        return True, failed

    def may_refuse(self, failed):
        return failed > 0

    def play(self):
        self.run = self.world.by(self.folder, self.store, list(self.case.faults))
        self.counts.add("starts")
        if not self.run.is_up:
            self.fail_to_start()
        else:
            self.requests()
        self.counts.add("failed calls", self.run.failures())
        if not self.found or all(wanted == came for _, wanted, came in self.found):
            self.look()
        return self.found

    def fail_to_start(self):
        """A start that met a call that failed may have failed, with a line in its log."""
        self.counts.add("starts that fail")
        self.check("a start that failed met a call that failed", True, self.run.failures() > 0)
        self.check("the status of a start that failed", (4, ""), self.run.end())
        self.check("a start that failed says why", True, len(self.run.log_lines()) > 0)

    def requests(self):
        manner, without_disk, mended, again = self.manner, 0, False, []
        for place in range(len(self.world.requests)):
            served, failed = self.ask(place)
            if self.is_over():
                return self.end()
            if not served:
                again.append(place)
            if manner == "again":
                self.send_again(again)
            without_disk += failed > 0 or without_disk > 0
            if manner == "killed" and failed or manner == "stays killed" and without_disk == REQUESTS_WITHOUT_DISK:
                return self.kill()
            if manner == "stays" and without_disk == REQUESTS_WITHOUT_DISK and not mended:
                self.run.mend()
                mended = True
                self.send_again(again)
        if manner == "stays" and not mended:
            self.run.mend()
            self.send_again(again)
        return self.end()

    def send_again(self, places):
        """Sends again what was refused, until it is served."""
        for place in places:
            for _ in range(TRIES):
                if self.ask(place)[0]:
                    break
            else:
                self.check(f"{self.world.requests[place][0]}: is served when it is sent again", True, False)
        places.clear()

    def kill(self):
        self.run.kill()
        self.killed = True
        self.counts.add("kills")

    def end(self):
        before = self.run.failures()
        self.came_to_end = self.run.end()
        self.failed_at_end = self.run.failures() - before
        self.counts.add("ends")

    def look(self):
        """Compares what came with a run without a fault."""
        order = tuple(self.served)
        wanted = self.world.course(order)
        self.check("the replies", wanted.replies, self.replies)
        if self.is_single():
            self.check("at most one request is refused", True, len(self.refused) <= 1)
        if self.run.is_up and not self.killed:
            self.check("the end", wanted.end, self.came_to_end)
        self.look_at_log()
        self.look_at_rows(order)

    def is_single(self):
        return self.manner in ("once", "again", "killed")

    def look_at_log(self):
        """Each refused request has the line of its fault, and the file was opened anew behind it."""
        lines = [re.fullmatch(LOG_LINE, line) for line in self.run.log_lines()]
        self.check("the lines of the log are of its form", [], [line for line, it in zip(self.run.log_lines(), lines) if not it])
        texts = [it[1] for it in lines if it]
        files = [self.store.file(pool) for pool in self.store.pools]
        self.check("each names a file of the records", [], [text for text in texts if not any(file in text for file in files)])
        if not self.refused:
            return
        self.check("the log tells why", True, any(re.fullmatch(f"{NOT_KEPT}.+: .+", text) for text in texts) or texts)
        self.check("the log tells that a file was opened anew, or why not", True, any(ANEW in text or NOT_OPENED in text for text in texts) or texts)
        self.closed = [file for file in files if stays_closed(file, texts)]
        if self.manner in MENDED:
            self.check("each file was opened anew", [], self.closed)
        elif self.closed and not self.killed:
            self.check("a file that stays closed met a call that failed at the end", True, self.failed_at_end > 0)

    def look_at_rows(self, order):
        """The rows that are left, and what a further session answers."""
        rows = rows_in(self.store)
        after = answers_after(self.store)
        courses = [self.world.course((*order, *more)) for more in self.may_stand()]
        wanted = after if any(after == it.after for it in courses) else courses[0].after
        self.check("the next session's status", wanted[1], after[1])
        self.check("the next session's replies", wanted[0], after[0])
        if self.run.is_up:
            fit = [it for it in courses if all(self.fits(pool, it, rows.get(pool)) for pool in self.store.pools)]
            self.check("the rows", True, bool(fit) or difference(courses[0].rows, rows))

    def may_stand(self):
        """Which refused requests may stand in the records: of each file that stays closed one, or none."""
        closed = [pool for pool in self.store.pools if self.store.file(pool) in self.closed]
        refused = [[(), *((place,) for place in sorted(set(self.refused)) if self.world.pool_of(place) == pool)] for pool in closed]
        return [sum(it, ()) for it in itertools.product(*refused)]

    def fits(self, pool, course, rows):
        """Whether the rows of a pool are those of a course; before a request was served some deadlines may have come."""
        wanted = course.rows.get(pool)
        if rows == wanted:
            return True
        if rows is None or wanted is None or "lines" not in rows or wanted["lines"] != self.world.course(()).rows[pool]["lines"]:
            return False
        known = len(wanted["lines"])
        more = rows["lines"][known:]
        due = self.world.due(pool)
        return rows["lines"][:known] == wanted["lines"] and more == due[: len(more)] and rows["meta"] == wanted["meta"] and rows["base"] == wanted["base"]


def stays_closed(file, texts):
    """Whether a file wasn't opened anew behind the last line that tells a fault of it."""
    told = [ANEW in text for text in texts if file in text and (ANEW in text or text.startswith((NOT_KEPT, NOT_OPENED)))]
    return bool(told) and not told[-1]


def apart(wanted, came):
    """The same two values; of two lists of the same length what differs, with its places."""
    if not isinstance(wanted, list) or not isinstance(came, list) or len(wanted) != len(came):
        return wanted, came
    places = [place for place, (one, other) in enumerate(zip(wanted, came)) if one != other]
    return [(place, wanted[place]) for place in places], [(place, came[place]) for place in places]


def difference(wanted, came):
    """What differs of rows, by pool and table: what is wanted alone, and what came alone."""
    found = []
    for pool in sorted({*wanted, *came}):
        one, other = wanted.get(pool, {}), came.get(pool, {})
        for table in sorted({*one, *other}):
            if one.get(table) != other.get(table):
                listed = [list(it.items()) if isinstance(it, dict) else list(it or ()) for it in (one.get(table), other.get(table))]
                found.append((pool, table, [it for it in listed[0] if it not in listed[1]], [it for it in listed[1] if it not in listed[0]]))
    return found


def played(case):
    """What is found of a case, as names with what is wanted and what came, its counts, and the calls that failed."""
    with tempfile.TemporaryDirectory(dir=room()) as folder:
        play = Play(case, folder)
        try:
            play.play()
        except (ValueError, OSError, RuntimeError) as error:
            play.check("it is played", None, repr(error))
        finally:
            if hasattr(play, "run") and play.run.process.poll() is None:
                play.run.kill()
        return play.found, play.counts, play.run.failed_calls() if hasattr(play, "run") else []
