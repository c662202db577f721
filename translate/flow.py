"""Where a run may go on after each statement of the text: to the next, to a label, into a function and back."""
from operands import Register, Value

BRANCHES = set("beq bne beqz bnez blez bgtz bltz bgez blt bltu bge bgeu bgt bgtu ble bleu".split())
CALLS = {"jal", "bal", "jalr", "bgezal", "bltzal"}
MAYBE_CALLS = {"bgezal", "bltzal"}
JUMPS = {"j", "b", "jr"}
RA = 31


class Flow:
    """The statements of the text by their labels, the labels whose address is taken, and where each function returns."""

    def __init__(self, code, memory):
        self.code = code
        self.at = {label.text: number for number, statement in enumerate(code) for label in statement.labels_here}
        self.taken = sorted(self.at[it] for it in {*self.in_data(memory), *self.in_text()} if it in self.at)
        self.returns_of = {}

    def in_data(self, memory):
        return (value.label.text for _, value in memory.waiting)

    def in_text(self):
        """The labels that instructions name otherwise than as where they go."""
        for statement in self.code:
            if statement.name not in BRANCHES | CALLS | JUMPS:
                values = (getattr(operand, "value", operand) for operand in statement.operands or ())
                yield from (value.label.text for value in values if isinstance(value, Value) and value.label)

    def named(self):
        """All labels that something names."""
        values = (operand for statement in self.code for operand in statement.operands or ())
        return {it.label.text for it in values if isinstance(it, Value) and it.label} | {self.label_of(it) for it in self.taken}

    def label_of(self, number):
        return self.code[number].labels_here[0].text

    def target(self, statement):
        """The statement at the label of a jump, if it has one."""
        last = statement.operands[-1] if statement.operands else None
        return self.at.get(last.label.text) if isinstance(last, Value) and last.label else None

    def is_return(self, statement):
        """Whether a jump goes by a register: back from a function, or to any label whose address is taken."""
        return statement.name in ("jr", "j") and (not statement.operands or isinstance(statement.operands[-1], Register))

    def is_computed(self, statement):
        return self.is_return(statement) and bool(statement.operands) and statement.operands[-1].number != RA

    def called(self, statement):
        """The functions that a statement calls."""
        if statement.name not in CALLS:
            return []
        target = self.target(statement)
        return self.taken if target is None else [target]

    def within(self, number):
        """Where a run goes on after a statement, without functions that it calls and ways back."""
        statement = self.code[number]
        if statement.name == "break":
            return []
        if statement.name in JUMPS:
            return self.taken if self.is_computed(statement) else [it for it in [self.target(statement)] if it is not None]
        after = [number + 1] if number + 1 < len(self.code) else []
        target = self.target(statement) if statement.name in BRANCHES else None
        return after + ([] if target is None else [target])

    def returns(self, entry):
        """The jumps by which a function goes back to its caller."""
        if entry not in self.returns_of:
            seen, waiting = set(), [entry]
            while waiting:
                number = waiting.pop()
                if number not in seen:
                    seen.add(number)
                    waiting += self.within(number)
            self.returns_of[entry] = [it for it in seen if self.is_return(self.code[it])]
        return self.returns_of[entry]
