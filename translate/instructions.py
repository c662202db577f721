"""The instructions of the listing language that stand for a statement."""
import difflib

import refused
from faults import Fault
from lexing import REGISTERS, tokens_of
from operands import Operands, Place, Register, Text, Value
from rows import ROWS, Match, what_fits
from statements import Statement

MEMORY = tuple("lb lbu lh lhu lw lwu sb sh sw ulw ulh ulhu usw ush ld sd".split())
JUMPS = tuple("b bal j jal beq bne beqz bnez blez bgtz bltz bgez blt bltu bge bgeu bgt bgtu ble bleu bltzal bgezal".split())
AT = 1


def check_word(statement):
    """Refuses a word that has no row."""
    if statement.name in ROWS:
        return
    refused.check(statement.word)
    near = difflib.get_close_matches(statement.name, ROWS, 1, 0.75)
    advice = f"Is {near[0]} meant?" if near else ""
    if not statement.tokens or statement.tokens[0].text.lower() in ROWS:
        advice = f"If it is a label, a colon stands after it: write {statement.word.text}:."
    if statement.source is None:
        advice = "A semicolon stands between two statements, and # before a comment."
    raise Fault(statement.word.place, f"{statement.word.text} is no instruction of MARS or SPIM.", advice)


def check_memory(operands, symbols):
    """Refuses a load or a store of the text."""
    for operand in operands:
        value = operand.value if isinstance(operand, Place) else operand
        if isinstance(value, Value) and value.label and not value.part and symbols.is_text(value.label.text):
            raise Fault(value.place, f"{value.label.text} stands in the text, which is neither read nor written.")


def unfit(statement, word, operands, symbols):
    """Why no row takes the operands."""
    last = operands[-1] if operands else None
    if word in JUMPS and isinstance(last, Value) and last.label is None:
        return Fault(last.place, "A jump goes to a label, and not by a number.", "Put a label before that instruction.")
    operand, advice = what_fits(word, operands, symbols)
    if isinstance(operand, Text):
        return Fault(operand.place, "A text stands in .asciiz or .ascii alone.")
    if isinstance(operand, Value) and operand.label and f"${operand.label.text.lower()}" in REGISTERS:
        return Fault(operand.place, f"A register begins with $: write ${operand.label.text}.")
    if isinstance(operand, Value) and operand.label:
        symbols.check(operand.label)
    if isinstance(operand, Register) and "a place" in advice:
        return Fault(operand.place, f"A place in memory stands here, as 0({operand.text}).")
    place = operand.place if operand else statement.place
    return Fault(place, f"{word} does not take {'this operand' if operand else 'so many operands'}.", advice)


class Translator:
    """Turns statements into instructions, by rows that may lead to other rows."""

    def __init__(self, symbols):
        self.symbols = symbols
        self.known = {}

    def of_statement(self, statement, word, operands, label):
        """The instructions for a word in the place of a statement's own, and labels of theirs, which begin with `label`."""
        check_word(statement)
        if word in MEMORY:
            check_memory(operands, self.symbols)
        return self.of_row(statement, word, operands, label)

    def of_row(self, statement, word, operands, label):
        """The same of the rows of a word that no program has."""
        self.symbols.prefix = label
        try:
            return self.made(statement, word, operands, label)
        except Fault as fault:
            # of a line of a row
            raise fault if fault.line else Fault(statement.place, fault.text, fault.advice)

    def made(self, statement, word, operands, label):
        for row in ROWS[word]:
            match = Match(row, operands, self.symbols)
            if match.fits:
                return [self.written(row, operands)] if row.is_operation else self.all_made(match, statement, label)
        raise unfit(statement, word, operands, self.symbols)

    def all_made(self, match, statement, label):
        """The instructions of a row. None reads `$at` for the statement once the row has written it."""
        made, is_spent = [], False
        for line, filled in zip(match.row.lines, match.lines(label)):
            if is_spent and match.reads(line, AT):
                raise Fault(statement.place, "$at is needed here for a number or an address.", "Take another register.")
            is_spent = is_spent or line.split(" ", 1)[-1].startswith("$at,")
            made += self.again(filled, label)
        return made

    def again(self, line, label):
        """The instructions for a line of a row. Those without labels of their own are kept."""
        if line.endswith(":"):
            return [line]
        if line in self.known:
            return self.known[line]
        statement = Statement(0, None)
        statement.word, *statement.tokens = tokens_of(line, 0)
        made = self.made(statement, statement.name, Operands(statement).all(), label)
        if not any(label in it for it in made):
            self.known[line] = made
        return made

    def written(self, row, operands):
        """An operation as the listing has it."""
        words = [self.operand(operand) for operand in operands]
        return f"{row.word:<6}{','.join(words)}".strip() if words else row.word

    def operand(self, operand):
        if isinstance(operand, Register):
            return operand.text
        if isinstance(operand, Place):
            return f"{self.symbols.number(operand.value)}({operand.base.text})"
        if operand.label and not operand.part and not self.symbols.is_data(operand.label.text):
            return self.symbols.written(operand.label.text)
        return str(self.symbols.number(operand))
