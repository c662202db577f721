"""Labels: those of data stand for a byte, those of the text for an instruction; and the numbers of values that name them."""
import re

from faults import Fault

# The address of the first instruction. Until instructions have addresses, all stand for one with as many digits.
START = 0x00400000


class Symbols:
    """The labels of a program. A name may be defined once."""

    def __init__(self):
        self.places, self.bytes, self.addresses = {}, {}, {}
        self.names, self.prefix = {}, None

    def define(self, token):
        """Takes a label, which no other line may have."""
        if token.text in self.places:
            raise Fault(token.place, f"{token.text} stands first in line {self.places[token.text][0]}.", "A label stands once.")
        self.places[token.text] = token.place

    def is_data(self, name):
        return name in self.bytes

    def is_text(self, name):
        return name in self.places and name not in self.bytes

    def own(self, name):
        """A label that no line of the program has."""
        while name in self.places:
            name += "."
        return name

    def written(self, name):
        """A label as the listing has it, which knows no `$`."""
        if "$" in name and name not in self.names:
            other = self.own(re.sub(r"^\.?(?=\d)", "L", name.replace("$", ".", 1).replace("$", "_")))
            self.names[name] = other + "." * [*self.names.values()].count(other)
        return self.names.get(name, name)

    def check(self, token):
        """Refuses a label that is not there."""
        if token.text in self.places or self.prefix and token.text.startswith(self.prefix):
            return
        if token.text.startswith("$f") and token.text[2:].isdigit():
            raise Fault(token.place, "There are no registers of floating point.")
        if token.text.startswith("$"):
            raise Fault(token.place, f"There is no register {token.text}.")
        if re.fullmatch(r"[rR]\d+", token.text):
            raise Fault(token.place, f"A register begins with $: write ${token.text[1:]}.")
        others = [name for name in self.places if name.lower() == token.text.lower()]
        advice = f"The case of letters counts: {others[0]} stands in line {self.places[others[0]][0]}." if others else ""
        raise Fault(token.place, f"No line has the label {token.text}.", advice)

    def number(self, value):
        """The number of a value, as 32 bits with a sign."""
        number = value.number
        if value.label:
            self.check(value.label)
            name = value.label.text
            number += self.bytes[name] if self.is_data(name) else self.addresses.get(name, START + 4)
        if not -2 ** 31 <= number < 2 ** 32:
            raise Fault(value.place, "The number has more than 32 bits.")
        if value.part == "hi":
            return (number + 0x8000) >> 16 & 0xffff
        number &= 0xffff if value.part == "lo" else 0xffffffff
        half = 0x8000 if value.part == "lo" else 0x80000000
        return number - 2 * half if number >= half else number
