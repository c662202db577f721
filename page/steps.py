"""The steps of a run: one object for each command that told something, gathered from the answers of `ruu drive` alone."""
from answers import Report, Table, answer
from memory_queue import Queue
from session import ASKED

KINDS = {"Let": "let", "Job": "claim", "Finished": "finish", "Stale": "stale", "Loaded": "load", "Blocked": "blocked",
         "Retired": "retire", "Half": "retire", "Ended": "end", "Mended": "recover", "Idle": "rest", "Renewed": "renew"}
FINISHED = {"DONE": "finish", "ADDR": "finish", "MISS": "miss", "STOP": "stop"}
# What `--until` looks for.
SOUGHT = {"blocked": "blocked", "misprediction": "miss", "stale": "stale"}


class Gathering:
    """Steps and tenants so far, and what later answers name by station or unit alone."""

    def __init__(self):
        self.steps = []
        self.tenants = []
        self.tenant_of = {}
        self.jobs = {}
        self.passed = []
        self.blocked = set()
        self.changes = []
        self.queue = None

    def state(self, told):
        """What the questions told, as a step that is still without its event."""
        table, report = Table(told["table"]), Report(told["report"])
        self.queue = Queue(told["queue"])
        return {
            "stations": {station: self.station(row) for station, row in table.rows.items()},
            "live": table.live(), "head": table.ring["head"], "tail": table.ring["tail"], "next": table.ring["next"],
            "creators": table.creators, "queue": self.queue.rows,
            "count": report.count, "pc": report.pc, "registers": report.registers, "memory": report.memory,
            "jobs": {unit: dict(job) for unit, job in self.jobs.items()},
        }

    def station(self, row):
        tenant = self.tenant_of[row["station"]]
        return {"tenant": tenant, "tag": row["tag"], "state": row["state"], "value": row["value"],
                "predicted": row["predicted"], "operands": row["operands"]}

    def start(self, told):
        self.steps.append({"kind": "start", "command": "", "answer": "", "number": 0, "passed": [], **self.state(told)})

    def take(self, number, exchange, told):
        """A command that told something, with the answers to the questions after it."""
        word, found = answer(exchange.answer)
        if word == "Blocked" and self.is_known(found, Table(told["table"])):
            self.passed.append([exchange.command, exchange.answer])
            return
        event = EVENTS[word](self, len(self.steps), exchange.command, found)
        before = self.steps[-1]
        step = {"kind": FINISHED.get(found.get("state"), KINDS[word]), "command": exchange.command,
                "answer": exchange.answer, "number": number, "passed": self.passed, **event, **self.state(told)}
        step["sent"] = sent(before, step)
        if word == "Mended":
            step["squashed"] = self.squash(before, step)
        self.passed = []
        self.steps.append(step)

    def is_known(self, found, table):
        """Whether a step has shown already that this load is held up by this store, for this reason."""
        store = table.rows[found["store"]]
        block = (self.tenant_of[found["station"]], self.tenant_of[found["store"]], store["state"], str(store["operands"][1]))
        is_known = block in self.blocked
        self.blocked.add(block)
        return is_known

    def squash(self, before, step):
        """The stations whose tenants the recovery squashed, the oldest first."""
        gone = [station for station in before["live"] if station not in step["stations"]]
        for station in gone:
            self.tenants[before["stations"][station]["tenant"]]["squash"] = len(self.steps)
        return gone

    # Each event notes the step at its tenant, and gives the fields that only its own answer has.

    def let(self, at, _command, found):
        self.tenant_of[found["station"]] = len(self.tenants)
        self.tenants.append({"let": at, **{name: found[name] for name in ("station", "tag", "pc", "text", "half")}})
        return {"tenant": len(self.tenants) - 1, "station": found["station"]}

    def claim(self, at, command, found):
        unit, tenant = command.split()[1], self.tenant_of[found["station"]]
        self.jobs[unit] = {"station": found["station"], "tag": found["tag"], "tenant": tenant}
        self.tenants[tenant]["claim"] = at
        return {"tenant": tenant, "station": found["station"], "unit": unit, "values": [it for it in (found["a"], found["b"]) if it is not None]}

    def finish(self, at, command, found):
        unit = command.split()[1]
        job = self.jobs.pop(unit)
        self.tenants[job["tenant"]].update(finish=at, reached=found["state"])
        if found["state"] == "ADDR":
            self.tenants[job["tenant"]]["address"] = found["value"]
        return {"tenant": job["tenant"], "station": found["station"], "unit": unit,
                "state": found["state"], "value": found["value"], "woke": found["woke"]}

    def stale(self, at, command, _found):
        unit = command.split()[1]
        job = self.jobs.pop(unit)
        self.tenants[job["tenant"]]["stale"] = at
        return {"tenant": job["tenant"], "station": job["station"], "unit": unit}

    def load(self, at, _command, found):
        tenant = self.tenant_of[found["station"]]
        self.tenants[tenant]["load"] = at
        return {"tenant": tenant, "station": found["station"], "value": found["value"], "woke": found["woke"],
                "origin": self.queue.sources[found["station"]]}

    def block(self, _at, _command, found):
        return {"tenant": self.tenant_of[found["station"]], "station": found["station"], "store": found["store"]}

    def retire(self, at, _command, found):
        tenant = self.tenant_of[found["station"]]
        self.tenants[tenant]["retire"] = at
        self.changes += changes(found["changes"])
        return {"tenant": tenant, "station": found["station"], "changes": self.changes}

    def retire_half(self, at, command, found):
        """The first half of a pair: its change is committed with that of the second."""
        return {**self.retire(at, command, found), "changes": []}

    def retire_whole(self, at, command, found):
        event = self.retire(at, command, found)
        self.changes = []
        return event

    def end(self, at, _command, found):
        before = self.steps[-1]
        station = before["head"]
        if station == "none":
            return {"stop": found["stop"]}
        tenant = before["stations"][station]["tenant"]
        self.tenants[tenant]["retire"] = at
        return {"tenant": tenant, "station": station, "stop": found["stop"]}

    def recover(self, at, _command, found):
        tenant = self.tenant_of[found["station"]]
        self.tenants[tenant]["mend"] = at
        return {"tenant": tenant, "station": found["station"]}

    def rest(self, _at, _command, _found):
        return {}

    def renew(self, _at, _command, _found):
        """The jobs that units held are forgotten."""
        for job in self.jobs.values():
            self.tenants[job["tenant"]]["stale"] = len(self.steps)
        self.jobs = {}
        return {}


EVENTS = {"Let": Gathering.let, "Job": Gathering.claim, "Finished": Gathering.finish, "Stale": Gathering.stale,
          "Loaded": Gathering.load, "Blocked": Gathering.block, "Retired": Gathering.retire_whole, "Half": Gathering.retire_half,
          "Ended": Gathering.end, "Mended": Gathering.recover, "Idle": Gathering.rest, "Renewed": Gathering.renew}


def changes(text):
    """What a commit changed, each as told: a register's name or a memory address, and the value."""
    return (text or "").replace("m ", "m").split()


def sent(before, step):
    """The operands that waited before the step and have their value after it."""
    found = []
    for station, now in step["stations"].items():
        was = before["stations"].get(station)
        if was is None or was["tenant"] != now["tenant"]:
            continue
        for at, (old, new) in enumerate(zip(was["operands"], now["operands"])):
            if old and new and "from" in old and "value" in new:
                found.append({"from": old["from"], "to": station, "operand": at, "value": new["value"]})
    return found


def gathered(session, words):
    """The steps and tenants of a session with its questions, up to the last step that is asked for."""
    session = iter(session)

    def ask():
        return {name: next(session).lines for name in ASKED}

    run = Gathering()
    run.start(ask())
    for number, exchange in enumerate(session, 1):
        if len(run.steps) > words.last or is_sought(run, words):
            break
        if exchange.is_telling:
            run.take(number, exchange, ask())
        else:
            run.passed.append([exchange.command, exchange.answer])
    return run


def is_sought(run, words):
    """Whether the last step is what `--until` looks for."""
    return words.until is not None and len(run.steps) > max(1, words.first) and run.steps[-1]["kind"] == SOUGHT[words.until]
