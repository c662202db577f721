"""Runs a listing by `ruu run`, and tells its report by the names of the program: registers, labels of data, and the line where
the run ended."""
import subprocess

from faults import shown
from layout import count_of
from lexing import NAMES
from memory import LIMIT
from symbols import START

MOST = 64
ESCAPES = {8: "\\b", 9: "\\t", 10: "\\n", 12: "\\f", 13: "\\r", 34: '\\"', 92: "\\\\"}


class Report:
    """The report of a run: how it ended, its registers, and the bytes of memory."""

    def __init__(self, text):
        self.registers, self.memory = {}, bytearray(LIMIT)
        lines = text.splitlines()
        self.end, self.count, self.pc = lines[0], int(lines[1].split()[1]), int(lines[2].split()[1], 16)
        for line in lines[3:]:
            name, *values = line.split()
            if name == "m":
                at, word = (int(it, 16) for it in values)
                self.memory[at:at + 4] = word.to_bytes(4, "little")
            else:
                self.registers[register_name(name)] = int(values[0], 16)


def register_name(name):
    """A register of the report by its name: `r8` is `$t0`."""
    return name.upper() if name in ("hi", "lo") else f"${NAMES[int(name[1:])]}"


def signed(number, size):
    return number - (number >> 8 * size - 1 << 8 * size)


def quoted(text):
    """Bytes as a text, without the zeros at its end."""
    shown = "".join(ESCAPES.get(byte) or (chr(byte) if 32 <= byte < 127 else f"\\{byte:03o}") for byte in text.rstrip(b"\0"))
    return f'"{shown}"'


def is_text(content):
    """Whether bytes that no directive gave are a text: characters, then zeros alone."""
    text = content.rstrip(b"\0")
    return len(text) > 1 and all(32 <= byte < 127 or byte in (9, 10, 13) for byte in text)


def values_of(item, first, content):
    """What stands in memory from a byte of an item on, as its directive says it."""
    if item.size is None or item.is_space and is_text(content):
        return [quoted(content)]
    return numbers_of(content, item.size if first % item.size == 0 and len(content) % item.size == 0 else 1)


def numbers_of(content, size):
    """Numbers of so many bytes each, and how many more there are than a line can show."""
    numbers = [signed(int.from_bytes(content[at:at + size], "little"), size) for at in range(0, len(content), size)]
    more = [f".. and {len(numbers) - MOST} more"] if len(numbers) > MOST else []
    return [*map(str, numbers[:MOST]), *more]


class Teller:
    """Tells a report of a translation."""

    def __init__(self, translation, report):
        self.layout, self.memory, self.report = translation.layout, translation.sections.data.memory, report
        self.bytes = translation.sections.symbols.bytes

    def lines(self):
        yield f"{self.report.end} after {self.report.count} instruction{'s' if self.report.count != 1 else ''}{self.place()}"
        for name, value in self.report.registers.items():
            yield f"{name:<6}{signed(value, 4):<12} 0x{value:08x}"
        width = max(map(len, self.bytes), default=0)
        for name, first, last in self.named():
            yield f"{name:<{width}} byte {first:<6}{', '.join(self.values(first, last))}".rstrip()

    def place(self):
        """Where the run ended, as a line of the program."""
        at = START + 4 * count_of(self.layout.first)
        if self.report.pc < at:
            return ", as main returned"
        for statement, made in zip(self.layout.code, self.layout.made):
            at += 4 * count_of(made)
            if self.report.pc < at:
                return f", in line {statement.line}: {shown(statement.source or statement.name)}"
        return ", at the end of the text"

    def named(self):
        """The labels of data, each with its first byte and the byte of the next."""
        places = sorted(self.bytes.items(), key=lambda it: it[1])
        ends = sorted({*self.bytes.values(), self.memory.end})
        for name, first in places:
            yield name, first, next((end for end in ends if end > first), first)

    def values(self, first, last):
        """The values from a byte up to another, item by item."""
        found = []
        for item in self.memory.items:
            begin, end = max(first, item.first), min(last, item.last)
            if begin < end:
                found += values_of(item, begin, self.report.memory[begin:end])
        # what was reserved has no item
        return found or numbers_of(self.report.memory[first:last], 1 if (first | last) % 4 else 4)


def told(program, translation, options):
    """Runs the listing: the status of the run, and what is told of its report. What is no report is told as it is."""
    listing = "".join(f"{line}\n" for line in translation.listing).encode("latin-1")
    went = subprocess.run([program, "run", "-", *options], input=listing, stdout=subprocess.PIPE, check=False)
    report = went.stdout.decode("latin-1")
    if report.startswith(("stop ", "limit")):
        report = "".join(f"{line}\n" for line in Teller(translation, Report(report)).lines())
    return went.returncode, report.encode()
