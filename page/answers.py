"""The answers of `ruu drive`, read by their forms. An answer of another form ends the program: nothing is guessed."""
import functools
import re
import sys

NUMBERS = {"station", "tag", "index", "count", "head", "tail", "store", "register", "free"}
VALUES = {"pc", "value", "predicted", "a", "b", "next"}


def form(text):
    """A form in which `{name}` stands for a number, a value or a word, by the name."""
    def field(found):
        name = found[1]
        kind = r"\d+" if name in NUMBERS else r"0x[0-9a-f]{8}" if name in VALUES else r"\S+?"
        return f"(?P<{name}>{kind})"
    return re.compile(re.sub(r"\{(\w+)\}", field, text))


TEXT = r"(?P<text>\S.*?)"
HALF = r"(?: half (?P<half>Low|High))?"
WOKE = r"(?: woke(?P<woke>(?: \d+)+))?"

ANSWERS = {
    "Let": form(r"Let station {station} tag {tag} pc {pc} " + TEXT + HALF),
    "Job": form(r"Job station {station} tag {tag} index {index} half {half} pc {pc} predicted {predicted} a {a}(?: b {b})? " + TEXT),
    "Finished": form(r"Finished station {station} tag {tag} {state} value {value}" + WOKE),
    "Stale": form(r"Stale station {station} tag {tag}"),
    "Loaded": form(r"Loaded station {station} tag {tag} value {value}" + WOKE),
    "Blocked": form(r"Blocked load {station} store {store}"),
    "Retired": form(r"Retired pc {pc} n {count} station {station}(?: (?P<changes>.*))?"),
    "Half": form(r"Half pc {pc} station {station}(?: (?P<changes>.*))?"),
    "Ended": form(r"Ended {stop}"),
    "Mended": form(r"Mended station {station} squashed {count}"),
    "Idle": form(r"Idle"),
    "Renewed": form(r"Renewed"),
}
ROW = form(r"station {station}: tag {tag} state {state} value {value}(?: unit {unit})? index {index} half {half}"
           r" predicted {predicted} " + TEXT + r"; 1 (?P<first>[^;]*); 2 (?P<second>[^;]*)")
ACCESS = form(r"station {station}: tag {tag} state {state} " + TEXT + r"; address (?P<address>[^;]*); data (?P<data>[^;]*)")
CREATOR = form(r"creator {register}: Made station {station} tag {tag}")
RING = form(r"ring: head (?P<head>\d+|none) tail {tail} next {next} free {free}")
OPERAND = form(r"VAL value {value}|WAIT for station {station} tag {tag}|NONE")
REGISTER = re.compile(r"(?:r(?P<number>\d+)|(?P<name>hi|lo)) (?P<value>0x[0-9a-f]{8})")
WORD = re.compile(r"m (?P<address>0x[0-9a-f]{8}) (?P<value>0x[0-9a-f]{8})")
PAIR = {"lo": 32, "hi": 33}


def unknown(line):
    print(f"ruu: no page can be made of this answer of drive: {line}", file=sys.stderr)
    sys.exit(70)


def number(name, text):
    """A field's text as a number, where the name says that there is one."""
    if text is None or name not in NUMBERS | VALUES or text == "none":
        return text
    return int(text, 16 if text.startswith("0x") else 10)


def fields(pattern, line):
    """The fields of a line by their names, if the whole line has the form."""
    found = pattern.fullmatch(line)
    return found and {name: number(name, text) for name, text in found.groupdict().items()}


def answer(line):
    """What a command was answered: the first word of the answer, and its fields."""
    word = line.split(" ")[0]
    told = fields(ANSWERS[word], line)
    if told is None:
        unknown(line)
    if "woke" in told:
        told["woke"] = [int(station) for station in (told["woke"] or "").split()]
    return word, told


def operand(text):
    """An operand: its value, the station and tag that it waits for, or nothing where none is needed."""
    told = fields(OPERAND, text) or unknown(text)
    if told["value"] is not None:
        return {"value": told["value"]}
    return {"from": told["station"], "tag": told["tag"]} if told["station"] is not None else None


@functools.cache
def read_line(line):
    """A line of `table`, which many tables share: the name of its kind, and its fields."""
    if row := fields(ROW, line):
        row["operands"] = [operand(row.pop("first")), operand(row.pop("second"))]
        return "row", row
    if made := fields(CREATOR, line):
        return "creator", made
    return "ring", fields(RING, line) or unknown(line)


class Table:
    """The ring as `table` tells it: a row for each station in use, who creates which register, head, tail and next pc."""

    def __init__(self, lines):
        self.rows, self.creators, self.ring = {}, {}, None
        for kind, told in map(read_line, lines):
            if kind == "row":
                self.rows[told["station"]] = told
            elif kind == "creator":
                self.creators[told["register"]] = [told["station"], told["tag"]]
            else:
                self.ring = told

    def live(self):
        """The stations in use, the oldest first."""
        size, head = len(self.rows) + self.ring["free"], self.ring["head"]
        return [] if head == "none" else [(head + at) % size for at in range(len(self.rows))]


class Report:
    """The committed state as `report` tells it."""

    def __init__(self, lines):
        self.count, self.pc, self.registers, self.memory = 0, None, {}, {}
        for line in lines:
            self.take(line)

    def take(self, line):
        word, _, rest = line.partition(" ")
        if word == "count":
            self.count = int(rest)
        elif word == "pc":
            self.pc = int(rest, 16)
        elif found := REGISTER.fullmatch(line):
            register = PAIR.get(found["name"]) or int(found["number"])
            self.registers[register] = int(found["value"], 16)
        elif found := WORD.fullmatch(line):
            self.memory[int(found["address"], 16)] = int(found["value"], 16)
        elif word not in ("limit", "stop"):
            unknown(line)
