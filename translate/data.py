"""The directives that fill data memory: lists of values, texts, spaces and alignment."""
from faults import Fault
from memory import LIMIT, SPACES, Memory
from operands import Operands, Text, Value

LISTS = {".word": 4, ".long": 4, ".int": 4, ".4byte": 4, ".half": 2, ".short": 2, ".hword": 2, ".2byte": 2, ".byte": 1}
TEXTS = {".ascii": b"", ".asciiz": b"\0", ".string": b"\0", ".asciz": b"\0"}
POWERS, SIZES = (".align", ".p2align"), (".balign",)
NAMES = (*LISTS, *TEXTS, *SPACES, *POWERS, *SIZES)


def only_value(statement):
    """The first operand of a directive, a value."""
    operands = Operands(statement).all()
    if not operands or not isinstance(operands[0], Value):
        raise Fault(statement.place, f"{statement.name} takes a number.")
    return operands[0]


class Data:
    """Puts what the directives say into memory. Labels wait for the byte of what comes next."""

    def __init__(self, symbols):
        self.symbols, self.memory = symbols, Memory()
        self.labels = []

    def take(self, statement):
        """A directive that fills memory."""
        name = statement.name
        if name in LISTS:
            self.values(statement, LISTS[name])
        elif name in TEXTS:
            self.texts(statement, TEXTS[name])
        elif name in SPACES:
            self.space(statement)
        else:
            self.align(statement)

    def name(self):
        """Gives the labels that wait the byte at the end, and is that byte."""
        for label in self.labels:
            self.symbols.bytes[label.text] = self.memory.end
        self.labels = []
        return self.memory.end

    def number(self, value):
        """A number that has to be known where it stands."""
        if value.label:
            self.symbols.check(value.label)
            raise Fault(value.place, "A number stands here, and no label.")
        return value.number

    def values(self, statement, size):
        """A list of values, each once or as many times as the number after its colon."""
        if not statement.tokens:
            raise Fault(statement.place, f"{statement.name} takes values.")
        if self.memory.aligns:
            self.memory.align(size, statement.place)
        first = self.name()
        read = Operands(statement, in_list=True)
        read.skip_commas()
        while read.peek():
            value, count = read.operand(), 1
            if read.is_next(":"):
                read.take()
                count = self.number(read.value())
            self.value(value, size, count)
            read.skip_commas()
        self.memory.put(statement, first, size)

    def value(self, value, size, count):
        if not isinstance(value, Value):
            raise Fault(value.place, "A number, a character or a label stands here.")
        if not 0 <= count <= LIMIT:
            raise Fault(value.place, f"A value stands at most {LIMIT} times.")
        if value.label and size != 4:
            raise Fault(value.place, "An address takes a .word.")
        first = self.memory.end
        self.memory.grow(size * count, value.place)
        for at in range(first, self.memory.end, size):
            if value.label:
                self.memory.waiting.append((at, value))
            else:
                self.memory.write(at, self.symbols.number(value), size)

    def texts(self, statement, last):
        first = self.name()
        operands = Operands(statement).all()
        for operand in operands:
            if not isinstance(operand, Text):
                raise Fault(operand.place, 'A text stands between two ".')
            at = self.memory.end
            self.memory.grow(len(operand.bytes + last), operand.place)
            self.memory.bytes[at:] = operand.bytes + last
        if not operands:
            raise Fault(statement.place, 'A text stands between two ".')
        self.memory.put(statement, first, None)

    def space(self, statement):
        count = self.number(only_value(statement))
        if count < 0:
            raise Fault(statement.place, f"{statement.name} takes no number below 0.")
        first = self.name()
        self.memory.grow(count, statement.place)
        self.memory.put(statement, first, 4 if first % 4 == 0 and count % 4 == 0 else 1)

    def align(self, statement):
        """Bytes up to the next multiple. `.align 0` ends the alignment of lists up to the next section."""
        number = self.number(only_value(statement))
        is_power = statement.name in POWERS
        if not 0 <= number <= (16 if is_power else LIMIT) or not is_power and number & number - 1:
            raise Fault(statement.place, f"{statement.name} takes no such number.")
        self.memory.aligns = number > 0
        self.memory.align(2 ** number if is_power else max(1, number), statement.place)

    def end(self, faults):
        """The labels at the end, and after all data what was reserved and no line defines, at multiples of 8."""
        self.name()
        for token, size in self.memory.reserved:
            if token.text not in self.symbols.places:
                try:
                    self.memory.align(8, token.place)
                    self.symbols.define(token)
                    self.symbols.bytes[token.text] = self.memory.end
                    self.memory.grow(size, token.place)
                except Fault as fault:
                    faults.add(fault)

    def write_labels(self, faults):
        """Writes the addresses of labels into the words that name them."""
        for at, value in self.memory.waiting:
            try:
                self.memory.write(at, self.symbols.number(value), 4)
            except Fault as fault:
                faults.add(fault)
