"""A step in words. Code stands between backquotes, and a value between braces: the page writes it as decimal or hexadecimal."""
import re

from answers import PAIR

GUESSED = {"beq", "bne", "blez", "bgtz", "bltz", "bgez", "jr", "jalr"}
JUMPS = GUESSED | {"j", "jal"}
CHANGE = re.compile(r"(?:\$(?P<register>\d+)|(?P<name>lo|hi)|m(?P<address>0x[0-9a-f]+))=(?P<value>0x[0-9a-f]+)")
STORED = {"sb": ("byte", 2), "sh": ("halfword", 4), "sw": ("word", 8)}
FAULTS = {"overflow": "the sum does not fit", "unaligned": "the address is not a multiple of the size",
          "range": "the address is outside of data memory", "badpc": "there is no instruction at that address"}


def listed(parts):
    """Parts in a row: `1`, `1 and 2`, `1, 2 and 3`."""
    parts = [str(part) for part in parts]
    return parts[0] if len(parts) == 1 else ", ".join(parts[:-1]) + " and " + parts[-1]


def stations(numbers):
    return ("station " if len(numbers) == 1 else "stations ") + listed(numbers)


def awaited(station):
    """The stations that an instruction waits for, each once."""
    return sorted({it["from"] for it in station["operands"] if it and "from" in it})


class Teller:
    """Tells the steps of one run, with the instructions as the listing writes them."""

    def __init__(self, run, listing):
        self.run = run
        self.listing = listing

    def tell(self, at):
        """The words of the step at this number."""
        step = self.run.steps[at]
        return getattr(self, step["kind"])(step, self.run.steps[at - 1] if at else None)

    def code(self, tenant):
        told = self.run.tenants[tenant]
        return f"`{self.listing.code_at(told['pc'])}`" + {"Low": " (for LO)", "High": " (for HI)"}.get(told["half"], "")

    def operation(self, tenant):
        return self.run.tenants[tenant]["text"].split(" ")[0]

    def line(self, tenant):
        return self.listing.place_of(self.run.tenants[tenant]["pc"])[1]

    def place(self, pc):
        """Where the run goes on: a label, or the line of the listing."""
        label, line = self.listing.place_of(pc)
        return f"`{label}`" if label else f"line {line}" if line else f"`0x{pc:08x}`, where no instruction is"

    def woken(self, step):
        """What becomes of those that had waited for a value. A value also reaches a station whose instruction was squashed."""
        here = [station for station in step["woke"] if station in step["stations"]]
        gone = [station for station in step["woke"] if station not in step["stations"]]
        rest = {station: awaited(step["stations"][station]) for station in here}
        ready = [station for station in here if not rest[station]]
        words = ""
        if ready:
            words += f" {stations(ready).capitalize()} had waited for that, and {'has' if len(ready) == 1 else 'have'} all operands now."
        for station in here:
            if rest[station]:
                words += f" Station {station} had waited for that, and still needs {stations(rest[station])}."
        if gone:
            words += f" It comes too late for {stations(gone)}, whose instruction was squashed."
        return words

    def start(self, _step, _before):
        return "Nothing is in flight yet. The right arrow key shows the first step."

    def let(self, step, _before):
        now = step["stations"][step["station"]]
        rest = awaited(now)
        words = f"{self.code(step['tenant'])} of line {self.line(step['tenant'])} is dispatched into station {step['station']}."
        if rest:
            words += f" It waits for {stations(rest)}."
        elif any(now["operands"]):
            words += " All its operands are there."
        if self.operation(step["tenant"]) in GUESSED:
            words += f" The prediction is that {self.place(now['predicted'])} comes next."
        return words

    def claim(self, step, _before):
        needed = step["stations"][step["station"]]["operands"]
        values = ["{%d}" % it["value"] for it in needed if it and "value" in it]
        return (f"{self.code(step['tenant'])} in station {step['station']} is issued to unit {step['unit']}" +
                (f", with {listed(values)}." if values else "."))

    def writeback(self, step):
        return f"Unit {step['unit']} finishes {self.code(step['tenant'])} in station {step['station']}"

    def finish(self, step, _before):
        operation, begin = self.operation(step["tenant"]), self.writeback(step)
        if step["state"] == "ADDR":
            return begin + (f": it will write at address {{{step['value']}}}, and not before it retires." if operation.startswith("s") else
                            f": it reads at address {{{step['value']}}}, and has no value yet.")
        if operation in JUMPS:
            link = " and makes the return address" if operation.endswith("al") or operation == "jalr" else ""
            return begin + f": it goes to {self.place(step['value'])}, as predicted{link}." + self.woken(step)
        return begin + f": the result is {{{step['value']}}}." + self.woken(step)

    def miss(self, step, _before):
        return (f"{self.writeback(step)}: it goes to {self.place(step['value'])}. "
                "The prediction was wrong, and all that is younger is on a wrong path.")

    def stop(self, step, _before):
        if self.operation(step["tenant"]) == "break":
            return self.writeback(step) + ": it ends the run as soon as it retires, if it ever does."
        return self.writeback(step) + ": it is at fault. That counts only if it retires."

    def stale(self, step, _before):
        job = self.run.tenants[step["tenant"]]
        return (f"Unit {step['unit']} finishes {self.code(step['tenant'])}, which had station {job['station']} "
                f"under tag {job['tag']} and was squashed. The result is stale, and changes nothing.")

    def load(self, step, _before):
        origin = step["origin"]
        source = " from memory" if origin == "memory" else f" from the store in station {origin}, which is not in memory yet"
        return (f"The load in station {step['station']}, {self.code(step['tenant'])}, gets {{{step['value']}}}{source}." +
                self.woken(step))

    def blocked(self, step, _before):
        store = step["stations"][step["store"]]
        data = store["operands"][1]
        if store["state"] in ("OPEN", "BUSY"):
            why = "its address is not known yet"
        elif data and "from" in data:
            why = "its data is not known yet"
        else:
            why = "it writes only some of the bytes, and has to reach memory first"
        return (f"The load in station {step['station']}, {self.code(step['tenant'])}, is blocked by the older store in "
                f"station {step['store']}, {self.code(store['tenant'])}: {why}.")

    def change(self, text, operation, registers):
        """A committed change in words. A register's value is that of the report, since a jump tells where it goes."""
        told = CHANGE.fullmatch(text)
        if told["address"]:
            size, digits = STORED[operation]
            return f"the {size} at {{{int(told['address'], 16)}}} is {{{int(told['value'][-digits:], 16)}}}"
        register = int(told["register"]) if told["register"] else PAIR[told["name"]]
        return f"`{self.listing.register_name(register)}` is {{{registers.get(register, 0)}}}"

    def retire(self, step, _before):
        operation = self.operation(step["tenant"])
        words = f"The oldest instruction retires: {self.code(step['tenant'])} leaves station {step['station']}."
        if step["answer"].startswith("Half"):
            return words + " What it made is committed with the second half."
        if step["changes"]:
            words += f" From now on {listed(self.change(text, operation, step['registers']) for text in step['changes'])}."
        return words

    def end(self, step, _before):
        count = step["count"]
        words = f"The run ends with {count} instruction{'s' if count != 1 else ''} committed"
        if "tenant" in step:
            cause = FAULTS.get(step["stop"])
            words += f", as {self.code(step['tenant'])} retires" + (f": {cause}." if cause else ".")
        else:
            words += ": no instruction stands where it goes on."
        return words + " For every order of steps this is proved to be what a machine commits that takes one instruction after the other."

    def recover(self, step, _before):
        gone = step["squashed"]
        words = f"Recovery after station {step['station']}: "
        if gone:
            words += f"{len(gone)} younger instruction{'s are' if len(gone) > 1 else ' is'} squashed, in {stations(gone)}."
        else:
            words += "nothing was younger."
        return words + f" Dispatch goes on at {self.place(step['next'])}."

    def rest(self, _step, _before):
        return "Nothing is in flight. The predictor has learnt from each branch that retired, and no register has a creator."

    def renew(self, _step, _before):
        return "The unit begins anew, with the first tags. What was committed stays, and the jobs that units held are forgotten."
