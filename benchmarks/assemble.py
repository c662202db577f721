#!/usr/bin/env python3
"""Writes a listing as a C array of decoded instructions, and the bytes that its data memory starts with, for interpreter.c."""
import re
import sys

sys.dont_write_bytecode = True
from decode import register, statements_of  # noqa: E402

FORMS = {
    **dict.fromkeys(["addu", "subu", "add", "sub", "and", "or", "xor", "nor", "slt", "sltu"], "dst"),
    **dict.fromkeys(["addiu", "addi", "slti", "sltiu", "andi", "ori", "xori"], "dsn"),
    **dict.fromkeys(["sll", "srl", "sra"], "dtn"),
    **dict.fromkeys(["sllv", "srlv", "srav"], "dts"),
    **dict.fromkeys(["mult", "multu", "div", "divu"], "st"),
    **dict.fromkeys(["mflo", "mfhi"], "d"),
    **dict.fromkeys(["mtlo", "mthi", "jr"], "s"),
    **dict.fromkeys(["lb", "lbu", "lh", "lhu", "lw"], "dm"),
    **dict.fromkeys(["sb", "sh", "sw"], "tm"),
    **dict.fromkeys(["beq", "bne"], "stl"),
    **dict.fromkeys(["blez", "bgtz", "bltz", "bgez"], "sl"),
    **dict.fromkeys(["j", "jal"], "l"),
    **dict.fromkeys(["nop", "break"], ""),
    "lui": "dn", "jalr": "ds",
}


def main():
    labels, statements, data = statements_of(sys.argv[1])
    start = b"".join(value.to_bytes(4, "little") for value in data)
    print("#define MEMORY %d" % len(start))
    print("#define DATA {%s}" % ", ".join(map(str, start.rstrip(b"\0") or b"\0")))
    print("static const struct instr code[] = {")
    for word, parts in statements:
        fields = {"d": 31 if word in ("jal", "jalr") else 0, "s": 0, "t": 0, "n": 0}
        form = "s" if word == "jalr" and len(parts) == 1 else FORMS[word]
        for slot, text in zip(form, parts):
            if slot == "l":
                fields["n"] = labels[text]
            elif slot == "n":
                fields["n"] = int(text, 0) & 0xffffffff
            elif slot == "m":
                offset, base = re.match(r"(.*)\((.*)\)", text).groups()
                fields["n"], fields["s"] = int(offset or "0", 0) & 0xffffffff, register(base)
            else:
                fields[slot] = register(text)
        print("    {%s, %d, %d, %d, %du}," % (word.upper(), fields["d"], fields["s"], fields["t"], fields["n"]))
    print("};")


main()
