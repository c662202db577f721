"""Operands: registers, values, places in memory and texts, read from tokens. Commas between them may be left out."""
from faults import Fault
from lexing import REGISTERS

PARTS = ("hi", "lo")


class Register:
    """A register, and how the program writes it."""

    def __init__(self, token):
        self.number, self.text, self.place = token.value, token.text.lower(), token.place


class Value:
    """A number, or a label and a number; of it the high or the low half where `%hi` or `%lo` asks for one."""

    def __init__(self, number, label, place, part=None):
        self.number, self.label, self.place, self.part = number, label, place, part


class Place:
    """A place in memory: a value, and a register in parentheses."""

    def __init__(self, value, base):
        self.value, self.base, self.place = value, base, value.place


class Text:
    """The bytes of a text."""

    def __init__(self, token):
        self.bytes, self.place = token.value, token.place


def joined(left, right, sign):
    """The sum or the difference of two values, of which one at the most has a label."""
    if left.part or right.part or (right.label and (left.label or sign == "-")):
        raise Fault(right.place, "A label stands alone, or with a number added or taken away.")
    number = left.number + right.number if sign == "+" else left.number - right.number
    return Value(number, left.label or right.label, left.place)


def scaled(left, right, sign):
    """The product or the quotient of two numbers."""
    if left.label or right.label:
        raise Fault(left.place, "A label is neither multiplied nor divided.")
    if sign == "/" and right.number == 0:
        raise Fault(right.place, "A number is divided by 0.")
    number = left.number * right.number if sign == "*" else int(left.number / right.number)
    return Value(number, None, left.place)


class Operands:
    """Reads the operands of a statement from its tokens."""

    def __init__(self, statement, in_list=False):
        self.tokens, self.at, self.in_list = statement.tokens, 0, in_list
        self.end = statement.tokens[-1].place if statement.tokens else statement.place

    def peek(self, after=0):
        return self.tokens[self.at + after] if self.at + after < len(self.tokens) else None

    def take(self):
        self.at += 1
        return self.tokens[self.at - 1]

    def is_next(self, signs, after=0):
        token = self.peek(after)
        return token is not None and token.is_sign(signs)

    def skip_commas(self):
        while self.is_next(","):
            self.take()

    def all(self):
        """All operands in turn."""
        found = []
        self.skip_commas()
        while self.peek():
            found.append(self.operand())
            self.skip_commas()
        return found

    def operand(self):
        token = self.peek()
        if token.kind == "register":
            return Register(self.take())
        if token.kind == "text":
            return Text(self.take())
        if self.has_base():
            return Place(Value(0, None, token.place), self.base())
        value = self.value()
        return Place(value, self.base()) if self.is_next("(") and not self.in_list else value

    def has_base(self):
        """Whether a register in parentheses comes next, or a name that is meant for one."""
        token = self.peek(1)
        if not self.is_next("(") or token is None:
            return False
        return token.kind == "register" or token.kind == "name" and f"${token.text.lower()}" in REGISTERS

    def base(self):
        self.take()
        token = self.take() if self.peek() else None
        if token is None or token.kind != "register":
            raise no_base(token.place if token else self.end, token.text if token else "")
        if not self.is_next(")"):
            raise Fault(token.place, "A ) stands after the register.")
        self.take()
        return Register(token)

    def value(self):
        """A sum of products."""
        found = self.product()
        while self.goes_on():
            sign = self.take().text
            found = joined(found, self.product(), sign)
        return found

    def goes_on(self):
        """Whether a sign goes on with a value. In a list without commas one that stands by the next number alone begins that."""
        if not self.is_next("+-") or self.peek(1) is None:
            return False
        sign, after, before = self.peek(), self.peek(1), self.tokens[self.at - 1]
        if not self.in_list or before.kind == "name" or before.is_sign(")") or after.is_apart:
            return True
        if not sign.is_apart:
            raise Fault(sign.place, "These are two numbers in MARS and SPIM.", "Write a comma between them, or the number that is meant.")
        return False

    def product(self):
        found = self.factor()
        while self.is_next("*/"):
            sign = self.take().text
            found = scaled(found, self.factor(), sign)
        return found

    def factor(self):
        """A number, a character, a label, or a value in parentheses, after any signs."""
        if not self.peek():
            raise Fault(self.end, "A number or a label is missing.")
        token = self.take()
        if token.is_sign("+-"):
            found = self.factor()
            if token.text == "-":
                found = joined(Value(0, None, token.place), found, "-")
            found.place = token.place
            return found
        if token.kind in ("number", "character"):
            return Value(token.value, None, token.place)
        if token.kind == "name":
            return Value(0, token, token.place)
        if token.is_sign("%"):
            return self.half(token)
        if token.is_sign("("):
            found = self.value()
            if not self.is_next(")"):
                raise Fault(self.end, "A ) is missing.")
            self.take()
            return found
        raise unfit(token)

    def half(self, token):
        """`%hi(..)` or `%lo(..)`."""
        part = self.take() if self.peek() else token
        if part.text not in PARTS or not self.is_next("("):
            raise Fault(token.place, "%hi and %lo stand before a label in parentheses.")
        found = self.factor()
        return Value(found.number, found.label, token.place, part.text)


def no_base(place, text):
    """What stands in parentheses after a value, and is no register."""
    if f"${text.lower()}" in REGISTERS:
        return Fault(place, f"A register begins with $: write ${text}.")
    return Fault(place, f"There is no register {text}." if text else "A register stands in the parentheses.")


def unfit(token):
    """A token that begins no operand."""
    if token.kind == "fraction":
        return Fault(token.place, "There is no floating point.")
    if token.text == "/":
        return Fault(token.place, "A comment begins with #.")
    if token.text in "[]":
        return Fault(token.place, "The register of an address stands in parentheses, as 4($sp).")
    return Fault(token.place, f"{token.text} begins no operand.")
