"""Addresses that a program writes as numbers, as 0x10010000, where MARS and SPIM have data: they become bytes here."""
from memory import LIMIT, STACK
from operands import Place, Register, Value
from rows import target_of

SP, STACK_THERE = 29, 0x7fffeffc
ADDRESSED = tuple("li la lb lbu lh lhu lw sb sh sw ulw ulh ulhu usw ush ld sd".split())


class Segment:
    """Takes statements in turn, and knows which registers hold the upper half of an address of the segment."""

    def __init__(self, memory):
        self.memory = memory
        self.mapped, self.halves = [], set()

    def taken(self, statement):
        """The word and the operands of a statement, with bytes for addresses of the segment."""
        if statement.labels_here:
            self.halves.clear()
        operands = statement.operands
        half = self.half_of(statement, operands)
        if half is not None:
            return "li", [operands[0], self.value(statement, half, operands[1])]
        word = statement.name
        if word == "ori" and len(operands) == 3 and isinstance(operands[1], Register) and operands[1].number in self.halves:
            word = "addiu"
        elif word in ADDRESSED:
            operands = [self.operand(statement, it) for it in operands]
        # a register that is written holds no half any longer
        self.halves.discard(target_of(statement))
        return word, operands

    def half_of(self, statement, operands):
        """The byte for `lui` of a half that is the segment's."""
        if statement.name != "lui" or len(operands) != 2 or not isinstance(operands[1], Value) or operands[1].label:
            return None
        byte = self.memory.byte_of(operands[1].number << 16)
        if byte is not None and isinstance(operands[0], Register):
            self.halves.add(operands[0].number)
        return byte

    def operand(self, statement, operand):
        """An operand with a byte for an address of the segment."""
        value = operand.value if isinstance(operand, Place) else operand
        if not isinstance(value, Value) or value.label:
            return operand
        byte = self.stack_byte(statement, value.number) or self.memory.byte_of(value.number)
        if byte is None:
            return operand
        value = self.value(statement, byte, value)
        return Place(value, operand.base) if isinstance(operand, Place) else value

    def stack_byte(self, statement, address):
        """The byte for an address of the stack of MARS and SPIM that `$sp` is set to."""
        first = statement.operands[0]
        byte = STACK - (STACK_THERE - address)
        return byte if isinstance(first, Register) and first.number == SP and STACK // 2 < byte <= LIMIT else None

    def value(self, statement, byte, value):
        self.mapped.append((statement.line, value.number if statement.name != "lui" else value.number << 16, byte))
        return Value(byte, None, value.place)
