"""The rows of `operations.txt` and `pseudo.txt`: what stands for a statement with operands of some kinds."""
import os
import re

from faults import Fault
from lexing import NAMES, REGISTERS
from operands import Place, Register, Value

ANY = (-2 ** 31, 2 ** 31)
RANGES = {"I": (-0x8000, 0x7fff), "-I": (-0x7fff, 0x8000), "U": (0, 0xffff), "H": (0, 31), "Z": (0, 0), "W": ANY, "N": ANY}
REGISTER_KINDS = ("D", "S", "T")
WHAT = {"D": "a register", "S": "a register", "T": "a register", "L": "a label", "A": "a place in memory", "P": "a place in memory",
        "I": "a number from -32768 to 32767", "U": "a number from 0 to 65535", "H": "a number from 0 to 31",
        "N": "a number", "Z": "a number", "W": "a number"}


class Row:
    """A word, the kinds of its operands, and the instructions for it; none where the word is an operation of the language."""

    def __init__(self, word, kinds, made):
        self.word, self.kinds = word, kinds
        self.lines = [line.strip() for line in made.split(" ; ")]
        self.is_operation = not made


def rows_of(name):
    """The rows of a file, one for each word."""
    with open(os.path.join(os.path.dirname(__file__), name), encoding="utf-8") as lines:
        for line in lines:
            form, _, made = line.strip().partition("=>")
            if form and not form.startswith("#"):
                words, *kinds = form.split()
                yield from (Row(word, kinds, made.strip()) for word in words.split("|"))


def by_word(rows):
    found = {}
    for row in rows:
        found.setdefault(row.word, []).append(row)
    return found


ROWS = by_word([*rows_of("operations.txt"), *rows_of("pseudo.txt")])


def target_of(statement):
    """The number of the register that a statement writes, if it writes one."""
    operands = statement.operands or ()
    if not operands or not isinstance(operands[0], Register):
        return None
    is_written = any(row.kinds[:1] == ["D"] and len(row.kinds) == len(operands) for row in ROWS.get(statement.name, ()))
    return operands[0].number if is_written else None


def register_after(text):
    """The register after another, as `$t1` after `$t0`."""
    return f"${NAMES[(REGISTERS[text] + 1) % 32]}"


class Match:
    """The operands of a statement beside the kinds of a row: whether they fit, and then the text of each hole in its instructions."""

    def __init__(self, row, operands, symbols):
        self.row, self.symbols = row, symbols
        self.texts, self.base = {"*": row.word}, None
        self.fits = len(row.kinds) == len(operands) and all(map(self.takes, row.kinds, operands)) and self.is_apart()

    def is_apart(self):
        """Whether the register of a place P is not the one that is written."""
        return "P" not in self.row.kinds or REGISTERS[self.base] != REGISTERS[self.texts["D"]]

    def takes(self, kind, operand):
        if kind in REGISTER_KINDS:
            return isinstance(operand, Register) and self.keep_register(kind, operand)
        if kind == "L":
            return isinstance(operand, Value) and operand.label is not None and self.keep_label(operand)
        if kind in RANGES:
            return isinstance(operand, Value) and self.keep_number(kind, operand)
        if kind in ("A", "P"):
            return isinstance(operand, (Value, Place)) and self.keep_place(kind, operand)
        return isinstance(operand, Place) and self.keep_number(kind[0], operand.value) and self.keep_base(kind, operand)

    def keep_register(self, kind, operand):
        self.texts[kind], self.texts[f"next({kind})"] = operand.text, register_after(operand.text)
        return True

    def keep_label(self, operand):
        """A label of the text alone."""
        self.symbols.check(operand.label)
        name = operand.label.text
        if self.symbols.is_data(name):
            raise Fault(operand.place, f"{name} is a label of data, and no instruction stands there.")
        if operand.number or operand.part:
            raise Fault(operand.place, "A jump goes to a label alone.", "Put a label before that instruction.")
        self.texts["L"] = name
        return True

    def keep_number(self, kind, value):
        """A number in range. An address of the text is an N, so that as many instructions stand for it before it is known."""
        number = self.symbols.number(value)
        least, most = RANGES[kind]
        is_late = value.label is not None and value.part is None and self.symbols.is_text(value.label.text)
        if is_late and kind != "N" or not least <= number <= most or (kind == "W" and number % 0x10000):
            return False
        self.texts.update({kind: str(number), f"high({kind})": str(number >> 16 & 0xffff), f"low({kind})": str(number & 0xffff)})
        if kind == "-I":
            self.texts[kind] = str(-number)
        self.texts["32-H"] = str((32 - number) % 32)
        return True

    def keep_base(self, kind, operand):
        self.texts["S"], self.texts[kind] = operand.base.text, f"{self.texts[kind[0]]}({operand.base.text})"
        return True

    def keep_place(self, kind, operand):
        value = operand.value if isinstance(operand, Place) else operand
        self.base = operand.base.text if isinstance(operand, Place) else "$zero"
        number = self.symbols.number(value)
        self.texts.update({f"{kind}+{more}": f"{number + more}({self.base})" for more in range(1, 5)})
        self.texts[kind] = f"{number}({self.base})"
        return True

    def lines(self, label):
        """The instructions of the row with each hole filled; `@` begins a label of their own."""
        texts = {**self.texts, "@": label}
        holes = "|".join(re.escape(it) for it in sorted(texts, key=len, reverse=True))
        pattern = re.compile(rf"(?<![\w$.])(?:{holes})(?!\w)|@(?=\w)")
        return [pattern.sub(lambda found: texts[found[0]], line) for line in self.row.lines]

    def reads(self, line, register):
        """Whether a line of the row reads a register by one of its holes."""
        holes = {"S": r"(?<![\w$])S(?!\w)", "T": r"(?<![\w$])T(?!\w)", "D": r",D(?!\w)"}
        named = [hole for kind, hole in holes.items() if kind in self.texts and REGISTERS[self.texts[kind]] == register]
        named += [r"(?<![\w$])[AP](?!\w)"] if self.base and REGISTERS[self.base] == register else []
        return any(re.search(hole, line) for hole in named)


def takes_place(row, operands, symbols):
    """How many operands from the left are of the kinds of a row."""
    match = Match(Row(row.word, [], ""), [], symbols)
    return next((at for at, pair in enumerate(zip(row.kinds, operands)) if not match.takes(*pair)), len(operands))


def what_fits(word, operands, symbols):
    """The first operand that no row of a word takes, and what may stand there; or how many operands there may be."""
    rows = [row for row in ROWS[word] if len(row.kinds) == len(operands)]
    if not rows:
        counts = sorted({len(row.kinds) for row in ROWS[word]})
        return None, f"It takes {' or '.join(map(str, counts))} operands."
    at = max(takes_place(row, operands, symbols) for row in rows)
    if at == len(operands):
        return operands[-1], "Its register may not be the one that is written."
    kinds = {WHAT.get(row.kinds[at].lstrip("-"), "a place in memory"): None for row in rows if takes_place(row, operands, symbols) == at}
    if WHAT["N"] in kinds:
        kinds = {kind: None for kind in kinds if not kind.startswith("a number ")}
    return operands[at], f"Here may stand {' or '.join(kinds)}."
