#!/usr/bin/env python3
"""Runs the simulator of simulator.py beside the library, instruction by instruction, and stops at the first difference.

lockstep.py LIBRARY FILE.elf     LIBRARY is a shared one, as tests/lockstep.sh makes it of libruu_step.a"""
import ctypes

from ending import run
from simulator import START, Simulator, Stop, load

WORDS, STOPS = ctypes.POINTER(ctypes.c_uint32), ["break", "overflow", "unaligned", "range", "badpc"]


class Reference:
    def __init__(self, library, text, memory):
        self.call = ctypes.CDLL(library).ruu_step
        self.call.argtypes = [WORDS, ctypes.c_size_t, ctypes.POINTER(ctypes.c_uint8), ctypes.c_size_t, WORDS, WORDS]
        self.call.restype = ctypes.c_int32
        self.text, self.memory = (ctypes.c_uint32 * len(text))(*text), (ctypes.c_uint8 * len(memory))(*memory)
        self.registers, self.pc = (ctypes.c_uint32 * 34)(), ctypes.c_uint32(START)

    def step(self):
        """None where it went on, or why it stopped."""
        answer = self.call(self.text, len(self.text), self.memory, len(self.memory), self.registers, self.pc)
        return None if answer == 0 else STOPS[answer - 1] if answer > 0 else "no operation"


def step(simulator):
    try:
        simulator.step()
    except Stop as stop:
        return str(stop).split()[0]
    return None


def differences(simulator, reference):
    for r in range(34):
        if simulator.registers[r] != reference.registers[r]:
            yield f"register {r}", simulator.registers[r], reference.registers[r]
    if simulator.pc != reference.pc.value:
        yield "pc", simulator.pc, reference.pc.value
    if bytes(simulator.memory) != bytes(reference.memory):
        at = next(k for k, (a, b) in enumerate(zip(simulator.memory, reference.memory)) if a != b)
        yield f"byte 0x{at:08x}", simulator.memory[at], reference.memory[at]


def main(words):
    text, memory = load(words[1])
    simulator, reference, count = Simulator(text, memory, "--right" in words), Reference(words[0], text, memory), 0
    while True:
        pc = reference.pc.value
        ours, theirs = step(simulator), reference.step()
        found = [("stop", ours, theirs)] if ours != theirs else [*differences(simulator, reference)]
        if found:
            what, ours, theirs = found[0]
            print(f"instruction {count} at 0x{pc:08x}: {what} is {ours}, and has to be {theirs}")
            return 1
        if theirs:
            print(f"no difference in {count} instructions, up to the stop {theirs}")
            return 0
        count += 1


if __name__ == "__main__":
    run(main, "LIBRARY FILE.elf")
