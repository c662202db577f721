"""Reads a log of commits with its texts, and the report of the same run: commits.py LOG REPORT [LISTING].

What the lines write, one after the other, has to be what the report shows of registers, count, pc and stop; and of data
memory, where a listing is named whose data is its `.word` and `.space` lines. There a load has what memory holds at the address
that its line tells. Each line has its form, and its pc is where the line before went on, unless that was a branch or a jump."""
import re
import sys

LINE = re.compile(r"core   0: 3 0x([0-9a-f]{8}) \(0x[0-9a-f]{8}\)((?: (?:x\d+ ?|c32_lo|c33_hi) 0x[0-9a-f]{8}){0,2})(?: mem 0x([0-9a-f]{8})(?: 0x([0-9a-f]+))?)? # (\S+)(?: \S+)?")
LAST = re.compile(r"core   0: 3 (0x[0-9a-f]{8}) (limit|stop (?:break|overflow|badpc)|stop (?:unaligned|range) 0x[0-9a-f]{8})")
VALUE = re.compile(r" [xc](\d+) ?(_lo|_hi)? 0x([0-9a-f]{8})")
JUMPS = {"beq", "bne", "blez", "bgtz", "bltz", "bgez", "j", "jal", "jr", "jalr"}
LOADS = {"lb": (1, 128), "lbu": (1, 0), "lh": (2, 1 << 15), "lhu": (2, 0), "lw": (4, 0)}
STORES = {"sb": 1, "sh": 2, "sw": 4}
DATA = re.compile(r"^[^#\n]*?\.(word|space)\s+([^#\n]*)", re.M)


def data_of(listing):
    """The bytes of data memory of a listing, by its directives."""
    memory = bytearray()
    with open(listing, encoding="latin-1") as it:
        for directive, numbers in DATA.findall(it.read()):
            values = [int(number, 0) for number in numbers.split(",")]
            memory += bytes(values[0]) if directive == "space" else b"".join((value % 2**32).to_bytes(4, "little") for value in values)
    return memory


def number_of(memory, address, width):
    return int.from_bytes(memory[address : address + width], "little")


def run(line, found, registers, memory):
    """Does what a line says."""
    values, address, stored, word = found[2], found[3], found[4], found[5]
    changes = [(int(number), int(value, 16)) for number, _, value in VALUE.findall(values)]
    if word in ("mult", "multu", "div", "divu") and [number for number, _ in changes] != [32, 33]:
        sys.exit(f"{line}: a pair has LO and HI")
    if (address is not None) != (word in LOADS or word in STORES) or (stored is not None) != (word in STORES):
        sys.exit(f"{line}: loads have an address, stores an address and what they store, others none")
    if word in LOADS and memory is not None:
        width, sign = LOADS[word]
        value = ((number_of(memory, int(address, 16), width) ^ sign) - sign) & 0xFFFFFFFF
        if any(value != there for _, there in changes):
            sys.exit(f"{line}: memory has {value:#x} there")
    for number, value in changes:
        registers[number] = value
    if stored and memory is not None:
        width, value = STORES[word], int(stored, 16)
        if len(stored) != 2 * width:
            sys.exit(f"{line}: another width")
        memory[int(address, 16) : int(address, 16) + width] = value.to_bytes(width, "little")


def main():
    with open(sys.argv[1], encoding="ascii") as it:
        lines = it.read().splitlines()
    listing = sys.argv[3] if len(sys.argv) > 3 else None
    registers, memory, at = [0] * 34, data_of(listing) if listing else None, 0x400000
    last = LAST.fullmatch(lines.pop()) or sys.exit("the log has no last line")
    for line in lines:
        found = LINE.fullmatch(line) or sys.exit(f"no line of a log: {line}")
        pc, word = int(found[1], 16), found[5]
        if at not in (None, pc):
            sys.exit(f"{line}: the line before went on at {at:#x}")
        at = None if word in JUMPS else pc + 4
        run(line, found, registers, memory)
    told = [" ".join(last[2].split()[:2]), f"count {len(lines)}", f"pc {last[1]}"]
    names = [*(f"r{n}" for n in range(32)), "lo", "hi"]
    told += [f"{name} 0x{value:08x}" for name, value in zip(names, registers) if value]
    if listing:
        numbers = {a: number_of(memory, a, 4) for a in range(0, len(memory), 4)}
        told += [f"m 0x{a:08x} 0x{number:08x}" for a, number in numbers.items() if number]
    with open(sys.argv[2], encoding="ascii") as it:
        report = [line for line in it.read().splitlines() if listing or not line.startswith("m ")]
    if told != report:
        sys.exit(f"the log says {[it for it in told if it not in report]}, and the report {[it for it in report if it not in told]}")


main()
