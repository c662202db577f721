"""The text as instructions: what is run first, what stands for each statement, and at which address."""
import re

from begin import Begin
from calls import Calls, Unseen
from faults import Fault
from flow import Flow
from instructions import Translator
from memory import HEAP
from operands import Operands, Value
from segment import Segment
from symbols import START

MOST = 16384
# After these a run goes on elsewhere.
ENDS = re.compile(r"(?:j|jr|break)\b|beq +\$zero,\$zero,")


def count_of(lines):
    """How many of the lines are instructions, and no labels."""
    return sum(not line.endswith(":") for line in lines)


class Layout:
    """What stands for the text. `made` has the lines of each statement, `first` those before all and `last` those after."""

    def __init__(self, sections, faults):
        self.sections, self.faults = sections, faults
        self.code, self.memory, self.symbols = sections.code, sections.data.memory, sections.symbols
        self.printed, self.mapped = [], []
        self.first, self.last, self.made = [], ["break"], []
        for statement in self.code:
            self.read_operands(statement)
        if self.code:
            try:
                self.build()
            except Fault as fault:
                self.faults.add(fault)

    def read_operands(self, statement):
        try:
            statement.operands = Operands(statement).all()
        except Fault as fault:
            self.faults.add(fault)

    def build(self):
        """Makes the instructions twice: how many there are does not depend on the addresses, which the second time are known."""
        flow = Flow(self.code, self.memory)
        begin = Begin(self.sections, flow)
        self.first = begin.lines()
        self.calls = Calls(flow, self.symbols, begin.at)
        self.make()
        if not self.faults:
            self.give_addresses()
            self.make()
            self.sections.data.write_labels(self.faults)

    def make(self):
        """The lines of each statement."""
        translator, segment = Translator(self.symbols), Segment(self.memory)
        self.made, self.printed, unseen = [], [], []
        for number, statement in enumerate(self.code):
            try:
                self.made.append(self.lines(number, statement, translator, segment))
            except Unseen as fault:
                unseen.append(fault)
                self.made.append([])
            except Fault as fault:
                self.faults.add(fault)
                self.made.append([])
        if not self.faults:
            self.faults.add_all(unseen)
        self.mapped = segment.mapped
        self.set_last()

    def lines(self, number, statement, translator, segment):
        own = self.symbols.own(f"skip.{number}")
        if statement.operands is None:
            return []
        if statement.name != "syscall":
            word, operands = segment.taken(statement)
            return translator.of_statement(statement, word, operands, own)
        rows = self.calls.rows(number)
        if not rows or rows[0][0] == "(end)":
            self.printed.append(statement)
        lines = []
        for word, end in rows:
            lines += translator.of_row(statement, word, [] if end is None else [Value(end, None, statement.place)], f"{own}.{end}")
        return lines

    def set_last(self):
        """A `break` where a run could go on after the last instruction."""
        lines = [line for made in self.made for line in made]
        ends = lines and ENDS.match(lines[-1])
        self.last = [] if ends and not self.sections.text_labels else ["break"]

    def give_addresses(self):
        """The address of each label, and the heap's place."""
        at = count_of(self.first)
        for statement, lines in zip(self.code, self.made):
            self.symbols.addresses.update({label.text: START + 4 * at for label in statement.labels_here})
            at += count_of(lines)
            if at + count_of(self.last) > MOST:
                self.faults.add(Fault(statement.place, f"The program has more than {MOST} instructions."))
                return
        self.symbols.addresses.update({label.text: START + 4 * at for label in self.sections.text_labels})
        if self.calls.may_grow():
            self.memory.align(8, self.code[-1].place)
            self.memory.write(HEAP, self.memory.end, 4)
