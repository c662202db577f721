"""Delay slots under `.set noreorder`: here the instruction after a jump runs only if the jump is not taken."""
from faults import Fault
from flow import BRANCHES, CALLS, JUMPS


def is_nop(statement):
    zeros = all(token.text in ("$0", "$zero", "0", ",") for token in statement.tokens)
    return statement.name == "nop" or statement.name == "sll" and zeros


def check_slots(code, faults):
    """Refuses an instruction in a delay slot that does something."""
    for jump, slot in zip(code, code[1:]):
        if not jump.is_reordered and jump.name in BRANCHES | CALLS | JUMPS and not is_nop(slot):
            faults.add(Fault(slot.place, f"This is the delay slot of line {jump.line}, and there are none here.",
                             "Put it before the jump, and nop here."))
