"""The calls of bots, and those on bots, as docs/protocol.md has them.

A part of the model that `checks/fuzz` holds the program against; it is no check of its own.
"""
import hashlib

from lib.model_heads import Refused
from lib.model_json import size
from lib.model_pool import Pool
from lib.model_rows import DIGEST_WEIGHT, Bot, Run, sorted_dimensions, weight_of_dimensions

LONGEST_SLEEP, LONGEST_STREAK = 60, 6


class BotPool(Pool):
    """A pool with the calls of its bots."""

    def bot(self, name):
        if name not in self.bots:
            raise Refused(404, "no_bot")
        return self.bots[name]

    def contact(self, bot, now):
        """What each call of a bot does that isn't refused."""
        bot.contact = now
        if bot.run:
            bot.dead = False

    def handshake(self, now, _caller, asked):
        bot = self.bots.get(asked["bot_id"])
        if bot is None and len(self.bots) >= self.settings.most_bots:
            raise Refused(503, "pool_bots_full", limit=self.settings.most_bots)
        if bot and bot.session == asked["session"]:
            self.add(now)
            self.contact(bot, now)
            return {"bot_id": bot.name}
        dimensions = sorted_dimensions(asked["dimensions"])
        self.add(now, size(asked["bot_id"]) + size(asked["session"]) + weight_of_dimensions(dimensions) + size(asked["quarantined"]))
        if bot is None:
            bot = self.bots[asked["bot_id"]] = Bot(len(self.bots) + 1, asked["bot_id"])
        if bot.run:
            self.lose_run(bot, now)
        bot.session, bot.dimensions, bot.quarantined = asked["session"], dimensions, asked["quarantined"]
        bot.dead, bot.terminating, bot.streak = False, False, 0
        self.contact(bot, now)
        return {"bot_id": bot.name}

    def poll(self, now, _caller, asked):
        bot = self.bot(asked["bot_id"])
        if bot.dead:
            raise Refused(409, "bot_unfit", why="dead")
        if bot.run:
            raise Refused(409, "bot_busy", run=bot.run.id(bot.run.run.number))
        dimensions = sorted_dimensions(asked["dimensions"])
        weight = weight_of_dimensions(dimensions) if dimensions != bot.dimensions else 0
        weight += size(asked["quarantined"]) if asked["quarantined"] != bot.quarantined else 0
        self.add(now, weight)
        bot.dimensions, bot.quarantined = dimensions, asked["quarantined"]
        self.contact(bot, now)
        if bot.terminating:
            return {"cmd": "terminate"}
        if not bot.quarantined and any(bot.can_run(it) for it in self.tasks):
            bot.streak = 0
            return {"cmd": "claim"}
        duration = 1 << bot.streak if bot.streak < LONGEST_STREAK else LONGEST_SLEEP
        bot.streak = min(bot.streak + 1, LONGEST_STREAK)
        return {"cmd": "sleep", "duration": duration}

    def claim(self, now, _caller, asked):
        bot = self.bot(asked["bot_id"])
        if asked["claim_id"] in bot.claims:
            task, run = bot.claims[asked["claim_id"]]
            if bot.run is not task or task.run is not run:
                raise Refused(409, "claim_over", run=task.id(run.number), state=task.state_of(run))
            self.add(now)
            self.contact(bot, now)
            return self.shown_run(task)
        if why := bot.unfit():
            raise Refused(409, "bot_unfit", why=why)
        if bot.run:
            raise Refused(409, "bot_busy", run=bot.run.id(bot.run.run.number))
        waiting = [it for it in self.tasks if bot.can_run(it)]
        self.add(now, size(asked["claim_id"]) if waiting else 0)
        self.contact(bot, now)
        if not waiting:
            return {"cmd": "skip"}
        task = min(waiting, key=lambda it: (it.request.priority, it.number))
        task.run = Run(2 if task.retried else 1, bot.name, asked["claim_id"], now, task.slice)
        task.state, bot.run = "RUNNING", task
        bot.claims[asked["claim_id"]] = task, task.run
        return self.shown_run(task)

    def shown_run(self, task):
        return {
            "bot_ping_tolerance_secs": task.request.tolerance,
            "cmd": "run",
            "properties": task.at_slice().shown(),
            "run_id": task.id(task.run.number),
            "slice": task.slice,
        }

    def event(self, now, _caller, asked):
        bot = self.bot(asked["bot_id"])
        if bot.dead and not bot.run:
            raise Refused(409, "bot_unfit", why="dead")
        self.add(now, size(asked["message"]))
        self.contact(bot, now)
        if asked["event"] != "ping":
            bot.quarantined = asked["message"] if asked["event"] == "quarantine" else ""
        return {}

    def terminate_bot(self, now, _caller, asked):
        bot = self.bot(asked["bot_id"])
        if not bot.terminating:
            self.add(now)
            bot.terminating = True
        return {}

    def get_bot(self, _now, _caller, asked):
        return self.bot(asked["bot_id"]).shown()

    def list_bots(self, _now, _caller, asked):
        names = sorted((it for it in self.bots if it > asked["cursor"]), key=str.encode)
        page = names[:asked["limit"]]
        return {"cursor": page[-1] if len(names) > len(page) else None, "items": [self.bots[it].shown() for it in page]}

    # Reports.

    def report(self, now, _caller, asked):
        bot = self.bot(asked["bot_id"])
        task, run = self.find(asked["task_id"])
        if run.bot != bot.name:
            raise Refused(403, "not_claimant", bot=run.bot)
        if bot.run is not task or task.run is not run:
            if run.last == asked:
                self.add(now)
                self.contact(bot, now)
                return {"must_stop": run.kill}
            raise Refused(409, "attempt_over", state=task.state_of(run))
        output, ends = asked["output"], asked["exit_code"] is not None
        piece = (asked["start"], len(output), hashlib.sha256(output).hexdigest())
        is_new = self.check_output(run, piece)
        if ends:
            for one in asked["files"]:
                if not self.blobs.holds(one["digest"], one["size"]):
                    raise Refused(409, "blob_missing", digest=one["digest"])
        if is_new and piece[2] not in self.blobs.held:
            self.check_room(output)
        weight = sum(size(it["path"]) + DIGEST_WEIGHT for it in asked["files"]) if ends else 0
        self.add(now, weight + (DIGEST_WEIGHT if is_new or ends and output else 0))
        if is_new:
            self.blobs.put(piece[2], output, now + self.settings.blob_life_secs)
            run.pieces.append(piece)
            run.length += len(output)
        self.contact(bot, now)
        if ends:
            self.end(bot, task, asked, now)
        return {"must_stop": run.kill}

    def check_output(self, run, piece):
        """Whether a piece of output is a new one; it is neither new nor refused where it was kept already."""
        start, many, _ = piece
        if many == 0 or (start < run.length and piece in run.pieces):
            return False
        if start > run.length:
            raise Refused(409, "output_gap", length=run.length)
        if start < run.length:
            raise Refused(409, "output_overlap", start=start)
        return True

    def end(self, bot, task, asked, now):
        bot.run, task.run.last, task.ended = None, asked, now
        if task.run.kill:
            task.state = "KILLED"
        else:
            task.state = "TIMED_OUT" if asked["hard_timeout"] or asked["io_timeout"] else "COMPLETED"
