"""System calls: what each may be, by the numbers that `$v0` can hold there, and what stands for it."""
from faults import Fault
from flow import MAYBE_CALLS
from operands import Register, Value
from rows import target_of

V0 = 2
ENDS, MORE = (10, 17), 9
PRINTS = {1: "an integer", 4: "a text", 11: "a character", 34: "hexadecimal digits", 35: "binary digits", 36: "an unsigned integer",
          32: "a pause", 55: "a message", 56: "a message", 59: "a message"}
REFUSED = {**dict.fromkeys((2, 3, 6, 7, 43, 44, 52, 53, 57, 58), "floating point"), **dict.fromkeys((5, 8, 12, 50, 51, 54), "input"),
           **dict.fromkeys((13, 14, 15, 16), "a file"), **dict.fromkeys((30,), "the time"), **dict.fromkeys((31, 33), "sound"),
           **dict.fromkeys((40, 41, 42), "a random number")}
SUMS = {"add": int.__add__, "addu": int.__add__, "addi": int.__add__, "addiu": int.__add__, "or": int.__or__, "ori": int.__or__,
        "xor": int.__xor__, "xori": int.__xor__, "sub": int.__sub__, "subu": int.__sub__}


class Unseen(Fault):
    """A system call without a number, which may be one where all else is right."""


def writes_v0(statement):
    """Whether a statement writes `$v0`, as `ld` of the register before it does too."""
    return target_of(statement) in ((V0, V0 - 1) if statement.name == "ld" else (V0,))


class Numbers:
    """What `$v0` may hold before each statement that a run can reach: some numbers, or any where there are none."""

    ANY = None

    def __init__(self, flow, symbols):
        self.flow, self.symbols = flow, symbols
        self.before, self.waiting, self.back = {}, [], {}
        self.settled = frozenset()

    def reach(self, number, held):
        """Takes that `$v0` may hold these numbers before a statement. Those of settled statements stay."""
        if number in self.settled:
            return
        if number in self.before:
            old = self.before[number]
            held = self.ANY if old is self.ANY or held is self.ANY else old | held
            if held == old:
                return
        if number < len(self.flow.code):
            self.before[number] = held
            self.waiting.append(number)

    def settle(self):
        while self.waiting:
            number = self.waiting.pop()
            self.leave(number, self.after(self.flow.code[number], self.before[number]))

    def leave(self, number, held):
        """Goes on from a statement with these numbers; with no number at all a run ends there."""
        if held == frozenset():
            return
        flow, statement = self.flow, self.flow.code[number]
        functions = flow.called(statement)
        for entry in functions:
            self.reach(entry, held)
            for back in flow.returns(entry):
                self.link(back, number + 1)
        if not functions or statement.name in MAYBE_CALLS:
            for after in flow.within(number):
                self.reach(after, held)
        if flow.is_return(statement):
            for after in self.back.get(number, ()):
                self.reach(after, held)

    def link(self, back, after):
        """Takes that a function's last jump goes to a statement."""
        links = self.back.setdefault(back, set())
        if after not in links:
            links.add(after)
            if back in self.before:
                self.waiting.append(back)

    def after(self, statement, held):
        """What `$v0` may hold after a statement."""
        if statement.name == "syscall":
            return self.ANY if held is self.ANY or MORE in held else held - set(ENDS)
        if not writes_v0(statement):
            return held
        operands = statement.operands
        if statement.name in ("li", "la", "move") and len(operands) == 2:
            return self.of_operand(operands[1], held)
        if statement.name in SUMS:
            left, right = (self.of_operand(operand, held) for operand in (operands[-2], operands[-1]))
            if left is not self.ANY and right is not self.ANY and len(left) * len(right) <= 16:
                return frozenset(SUMS[statement.name](a, b) & 0xffffffff for a in left for b in right)
        return self.ANY

    def of_operand(self, operand, held):
        if isinstance(operand, Register):
            return frozenset([0]) if operand.number == 0 else held if operand.number == V0 else self.ANY
        return frozenset([operand.number]) if isinstance(operand, Value) and not operand.label else self.ANY


class Calls:
    """What stands for each system call of the text."""

    def __init__(self, flow, symbols, begin):
        self.flow = flow
        numbers = Numbers(flow, symbols)
        numbers.reach(begin, Numbers.ANY)
        numbers.settle()
        numbers.settled = frozenset(numbers.before)
        for number in range(len(flow.code)):
            if number not in numbers.before:
                numbers.reach(number, Numbers.ANY)
                numbers.settle()
        self.held = numbers.before

    def rows(self, number):
        """The rows for the system call at a statement, each with its number if it has one; or a fault."""
        statement, held = self.flow.code[number], self.held[number]
        if held is None:
            raise Unseen(statement.place, "What this system call does is not seen: $v0 comes from elsewhere.",
                         "Write li $v0,.. right before syscall.")
        for call in sorted(held):
            check(statement, call)
        if MORE in held and len(held) > 1:
            raise Fault(statement.place, "This system call may be one of several.", "Write li $v0,.. right before syscall.")
        if MORE in held:
            return [("(grow)", None)]
        ends = sorted(held & set(ENDS))
        return [("(end)", end) for end in ends] if len(ends) < len(held) else [("break", None)]

    def may_grow(self):
        """Whether a system call asks for more of the heap."""
        return any(self.held[number] and MORE in self.held[number] for number, it in enumerate(self.flow.code) if it.name == "syscall")


def check(statement, call):
    """Refuses a system call that has no meaning here."""
    if call in REFUSED:
        raise Fault(statement.place, f"System call {call} is {REFUSED[call]}, and there is none.")
    if call not in PRINTS and call not in ENDS and call != MORE:
        raise Fault(statement.place, f"There is no system call {call}.")
