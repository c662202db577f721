#!/usr/bin/env python3
"""A small simulator of the machine, with a mistake that was planted: `sb` clears the byte behind its own.

simulator.py FILE.elf           runs an executable that examples/c/compile.sh made, and writes a line for each instruction,
                                as `./ruu commits` does
simulator.py --right FILE.elf   the same without the mistake
simulator.py --hash N FILE.elf  writes a hash after each N instructions in place of the lines, as `./ruu commits --hash N` does

lockstep.py runs it beside the library."""
import itertools
import struct

from ending import run

START, MASK, LO, HI = 0x400000, 0xFFFFFFFF, 32, 33
WIDTHS = {32: 1, 33: 2, 35: 4, 36: 1, 37: 2, 40: 1, 41: 2, 43: 4}


class Stop(Exception):
    """The instruction at the pc stops, for the reason that is named."""


def signed(n, bits=32):
    return n - (1 << bits) if n >> (bits - 1) else n


def load(file):
    """The words of the text and the bytes of data memory of an ELF file."""
    with open(file, "rb") as it:
        data = it.read()
    if data[:6] != b"\x7fELF\1\1" or len(data) < 52:
        raise ValueError(f"{file}: no little endian ELF32 file")
    at, count = struct.unpack_from("<I", data, 28)[0], struct.unpack_from("<H", data, 44)[0]
    text, memory = [], bytearray(65536)
    for k in range(count):
        kind, offset, address, _, size = struct.unpack_from("<5I", data, at + 32 * k)
        part = data[offset : offset + size]
        if kind == 1 and address == START:
            text = list(struct.unpack(f"<{size // 4}I", part))
        elif kind == 1:
            memory[address : address + size] = part
    return text, memory


class Simulator:
    def __init__(self, text, memory, is_right=False):
        self.text, self.memory, self.is_right = text, memory, is_right
        self.registers, self.pc = [0] * 34, START

    def step(self):
        """Runs one instruction, and returns what it has changed: registers with their values, or an address with what was
        stored there, and its width."""
        place, odd = divmod(self.pc - START, 4)
        if odd or not 0 <= place < len(self.text):
            raise Stop("badpc")
        word, self.next = self.text[place], (self.pc + 4) & MASK
        change = self.run(word)
        for register, value in change.get("registers", []):
            self.registers[register] = value & MASK
        if "address" in change:
            self.memory[change["address"] : change["address"] + len(change["bytes"])] = change["bytes"]
        self.pc = self.next
        return change

    def run(self, word):
        op, rs, rt, low = word >> 26, word >> 21 & 31, word >> 16 & 31, word & 0xFFFF
        a, b, near = self.registers[rs], self.registers[rt], signed(low, 16)
        if op == 0:
            return self.special(word, a, b)
        if op in (1, 4, 5, 6, 7):
            taken = {1: (signed(a) < 0) == (rt == 0), 4: a == b, 5: a != b, 6: signed(a) <= 0, 7: signed(a) > 0}[op]
            self.next = self.next + 4 * near & MASK if taken else self.next
            return {}
        if op in (2, 3):
            back, self.next = self.next, self.next & 0xF0000000 | (word & 0x3FFFFFF) << 2
            return written(31, back) if op == 3 else {}
        if op in WIDTHS:
            return self.access(op, rt, a + near & MASK, WIDTHS[op], b)
        if op == 8:
            return written(rt, fits(signed(a) + near))
        values = {9: a + near, 10: int(signed(a) < near), 11: int(a < near & MASK), 12: a & low, 13: a | low, 14: a ^ low, 15: low << 16}
        return written(rt, values[op])

    def access(self, op, rt, address, width, b):
        if address % width:
            raise Stop(f"unaligned 0x{address:08x}")
        if address + width > len(self.memory):
            raise Stop(f"range 0x{address:08x}")
        if op >= 40:
            size = width if self.is_right else max(width, 2)
            return {"address": address, "width": width, "bytes": (b & (1 << 8 * width) - 1).to_bytes(size, "little")}
        value = int.from_bytes(self.memory[address : address + width], "little")
        return written(rt, signed(value, 8 * width) if op < 35 else value) | {"loaded": address}

    def special(self, word, a, b):
        rd, amount, function = word >> 11 & 31, word >> 6 & 31, word & 63
        if function == 13:
            raise Stop("break")
        if function in (8, 9):
            back, self.next = self.next, a
            return written(rd, back) if function == 9 else {}
        if function in (17, 19):
            return written(HI if function == 17 else LO, a)
        if function in (24, 25, 26, 27):
            low, high = product(function, a, b) if function < 26 else quotient(function, a, b)
            return {"registers": [(LO, low), (HI, high)]}
        if function in (32, 34):
            return written(rd, fits(signed(a) + signed(b) if function == 32 else signed(a) - signed(b)))
        n = amount if function < 4 else a & 31
        values = {
            0: b << n, 2: b >> n, 3: signed(b) >> n, 4: b << n, 6: b >> n, 7: signed(b) >> n, 16: self.registers[HI], 18: self.registers[LO],
            33: a + b, 35: a - b, 36: a & b, 37: a | b, 38: a ^ b, 39: ~(a | b), 42: int(signed(a) < signed(b)), 43: int(a < b),
        }
        return written(rd, values[function])


def written(register, value):
    return {"registers": [(register, value & MASK)]} if register else {}


def fits(value):
    if not -(1 << 31) <= value < 1 << 31:
        raise Stop("overflow")
    return value


def product(function, a, b):
    value = signed(a) * signed(b) if function == 24 else a * b
    return value & MASK, value >> 32 & MASK


def quotient(function, a, b):
    """A division by 0 gives 0 and the dividend."""
    x, y = (a, b) if function == 27 else (signed(a), signed(b))
    if y == 0:
        return 0, a
    whole = abs(x) // abs(y) * (-1 if (x < 0) != (y < 0) else 1)
    return whole & MASK, x - whole * y & MASK


def told(change):
    """The end of a line of the log."""
    parts = [f"{ {LO: 'c32_lo', HI: 'c33_hi'}.get(r, f'x{r}') :3} 0x{value:08x}" for r, value in change.get("registers", [])]
    if "loaded" in change:
        parts.append(f"mem 0x{change['loaded']:08x}")
    if "address" in change:
        value = int.from_bytes(change["bytes"], "little")
        parts.append(f"mem 0x{change['address']:08x} 0x{value:0{2 * change['width']}x}")
    return "".join(f" {part}" for part in parts)


def hash_of(registers, memory):
    """The hash of a state: FNV-1a in 64 bits, over the 34 registers, LO and HI last, and the words of data memory."""
    h = 0xCBF29CE484222325
    for word in [*registers, *struct.unpack(f"<{len(memory) // 4}I", memory)]:
        h = (h ^ word) * 0x100000001B3 % 2**64
    return h


def main(words):
    simulator = Simulator(*load(words[-1]), is_right="--right" in words)
    each = int(words[words.index("--hash") + 1]) if "--hash" in words else 0
    try:
        for count in itertools.count(1):
            pc = simulator.pc
            change = simulator.step()
            word = simulator.text[(pc - START) // 4]
            if not each:
                print(f"core   0: 3 0x{pc:08x} (0x{word:08x}){told(change)}")
            elif count % each == 0:
                print(f"core   0: 3 0x{simulator.pc:08x} count {count} hash 0x{hash_of(simulator.registers, simulator.memory):016x}")
    except Stop as stop:
        print(f"core   0: 3 0x{simulator.pc:08x} stop {stop}")
    return 0


if __name__ == "__main__":
    run(main, "FILE.elf")
