"""What runs before the program's own instructions: `$sp` is set, where it is needed `$gp`, and `main` is called."""
from memory import STACK
from operands import Place, Register
from rows import target_of

GP, RA = 28, 31
BEGINS = ("__start", "_start", "main")


def registers_of(statement):
    """The numbers of the registers that a statement names."""
    for operand in statement.operands or ():
        if isinstance(operand, Place):
            yield operand.base.number
        elif isinstance(operand, Register):
            yield operand.number


class Begin:
    """The statement `at` which the program begins, and the lines before all."""

    def __init__(self, sections, flow):
        self.code, self.memory, self.symbols = sections.code, sections.data.memory, sections.symbols
        self.at = self.find(sections.globals, flow)

    def find(self, known, flow):
        """The statement at a label of that meaning which is global, as SPIM wants it. Else the one at the top, as in MARS, but for a
        label there that something names, as that of a function."""
        name = next((it for it in BEGINS if it in flow.at), None)
        top = {label.text for label in self.code[0].labels_here}
        if name is None or not top or name not in known and not top & flow.named():
            return 0
        return flow.at[name]

    def names(self, register):
        """Whether a statement names a register."""
        return any(register in registers_of(statement) for statement in self.code)

    def lines(self):
        return [f"ori   $sp,$zero,{STACK}", *self.globals(), *self.call()]

    def call(self):
        """A call of `main`, or of what stands at the top if an instruction reads the address of a return."""
        names = [label.text for label in self.code[self.at].labels_here]
        returns = self.names(RA) or any(statement.name == "jr" and not statement.operands for statement in self.code)
        if not returns and not {*names} & {*BEGINS}:
            return []
        name = self.symbols.written(names[0]) if names else self.symbols.own("begin")
        return [f"jal   {name}", "break"] + ([] if names else [f"{name}:"])

    def globals(self):
        """Bytes around `$gp`, if the program names it and does not set it."""
        if not self.names(GP) or any(target_of(statement) == GP for statement in self.code):
            return []
        places = [it for statement in self.code for it in statement.operands or () if isinstance(it, Place)]
        offsets = [0, *(it.value.number for it in places if it.base.number == GP)]
        low, high = min(offsets) & ~7, max(offsets) + 64
        self.memory.align(8, self.code[0].place)
        at = self.memory.end - low
        self.memory.grow(high - low, self.code[0].place)
        return [f"ori   $gp,$zero,{at}"]
