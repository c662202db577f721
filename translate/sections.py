"""Sections: sorts the statements of a program into data and text. Labels wait for the next statement of their section."""
import data
import refused
from data import Data, only_value
from faults import Fault
from memory import LIMIT
from operands import Operands, Value
from rows import ROWS
from symbols import Symbols

DATA = (".data", ".rdata", ".rodata", ".sdata", ".bss", ".sbss")
SYSTEM = (".ktext", ".kdata")
GLOBAL = (".globl", ".global")
RESERVED = (".extern", ".comm", ".lcomm")
SECTIONS = (*DATA, ".text", ".section", ".previous")


class Sections:
    """The data and the text of a program."""

    def __init__(self, faults):
        self.faults, self.symbols = faults, Symbols()
        self.data = Data(self.symbols)
        self.code, self.globals = [], set()
        self.in_data, self.is_skipped, self.is_reordered = False, False, True
        self.before = (False, False)
        self.text_labels, self.list = [], None

    def take_all(self, statements):
        """All statements, and what waits at the end."""
        taken = []
        for statement in statements:
            taken.append(statement)
            try:
                self.take(statement)
            except Fault as fault:
                self.faults.add(fault)
        self.data.end(self.faults)
        self.data.write_labels(self.faults)
        return taken

    def take(self, statement):
        for label in statement.labels:
            self.symbols.define(label)
            (self.data.labels if self.in_data else self.text_labels).append(label)
        if statement.is_bare or statement.is_lost:
            return
        name = statement.name
        if self.is_skipped and name not in SECTIONS:
            return
        if name.startswith("."):
            self.is_skipped = self.is_skipped or name in SYSTEM
            refused.check(statement.word)
            self.directive(statement, name)
        elif self.in_data:
            self.go_on(statement)
        else:
            self.instruction(statement)

    def instruction(self, statement):
        """An instruction, with the labels that wait for it."""
        if statement.word is None:
            raise Fault(statement.place, "A statement begins with an instruction or a directive.")
        statement.labels_here, self.text_labels = self.text_labels, []
        statement.is_reordered = self.is_reordered
        self.code.append(statement)

    def go_on(self, statement):
        """More values or texts of the directive before, as MARS takes them."""
        if statement.word and statement.tokens and statement.tokens[0].text.lower() in data.NAMES:
            raise Fault(statement.place, f"A colon stands after a label: write {statement.word.text}:.")
        if self.list is None or statement.name in ROWS or statement.name == "syscall":
            raise Fault(statement.place, "An instruction stands in the text, and this is data.", "Write .text before it.")
        if statement.word:
            statement.tokens = [statement.word, *statement.tokens]
        if self.list in data.LISTS:
            self.data.values(statement, data.LISTS[self.list])
        else:
            self.data.texts(statement, data.TEXTS[self.list])

    def directive(self, statement, name):
        if name not in GLOBAL:
            self.list = name if name in data.LISTS or name in data.TEXTS else None
        if name in SECTIONS:
            self.enter(statement, name)
        elif name in GLOBAL:
            self.globals.update(token.text for token in statement.tokens)
        elif name == ".set":
            self.set(statement)
        elif name in RESERVED:
            self.reserve(statement)
        elif name in data.NAMES:
            self.fill(statement, name)
        else:
            raise Fault(statement.place, f"{statement.word.text} is no directive of MARS or SPIM.")

    def enter(self, statement, name):
        """A section, which may begin at an address. Those of debuggers are left out."""
        before, self.before = self.before, (self.in_data, self.is_skipped)
        if name == ".previous":
            self.in_data, self.is_skipped = before
            return
        if name == ".section":
            named = statement.tokens[0].text if statement.tokens else ""
            name = next((it for it in (".text", *DATA) if named.startswith(it)), "")
        self.in_data, self.is_skipped = name in DATA, not name
        self.data.memory.aligns = True
        if statement.tokens and statement.name in DATA:
            self.data.memory.move_to(self.data.number(only_value(statement)), statement.place)

    def set(self, statement):
        """Whether instructions stand in delay slots; all else that is set changes nothing here."""
        words = [token.text for token in statement.tokens]
        if words in (["noreorder"], ["reorder"]):
            self.is_reordered = words == ["reorder"]

    def reserve(self, statement):
        """A label with bytes of its own, unless a line has it."""
        operands = Operands(statement).all()
        if not operands or not isinstance(operands[0], Value) or not operands[0].label:
            raise Fault(statement.place, f"{statement.name} takes a label and a number of bytes.")
        size = self.data.number(operands[1]) if len(operands) > 1 else 0
        if not 0 <= size <= LIMIT:
            raise Fault(statement.place, f"{statement.name} takes at most {LIMIT} bytes.")
        if size:
            self.data.memory.reserved.append((operands[0].label, size))

    def fill(self, statement, name):
        """A directive that fills memory. In the text only alignment may stand, which instructions have."""
        if self.in_data:
            self.data.take(statement)
        elif name not in data.POWERS + data.SIZES:
            # its labels are of data, and nothing more is wrong with them
            self.data.labels += self.text_labels
            self.text_labels = []
            raise Fault(statement.place, "Data stands in .data, and this is the text.", "Write .data before it, and .text after it.")
