#!/usr/bin/env python3
"""Writes a listing as numbers, for twin.c: a line `memory BYTES`, a line `word ADDRESS VALUE` for each word of data that is
not 0, and a line `WORD d s t n` for each instruction: the register that it writes, its sources 1 and 2, and its number
(immediate, shift amount or target)."""
import re
import sys

FORMS = {
    **dict.fromkeys("addu subu add sub and or xor nor slt sltu".split(), "dst"),
    **dict.fromkeys("sllv srlv srav sll srl sra".split(), "dst"),
    **dict.fromkeys("addiu addi slti sltiu andi ori xori".split(), "dsn"),
    **dict.fromkeys("lb lbu lh lhu lw".split(), "dm"),
    **dict.fromkeys("sb sh sw".split(), "tm"),
    **dict.fromkeys("beq bne".split(), "stl"),
    **dict.fromkeys("blez bgtz bltz bgez".split(), "sl"),
    **dict.fromkeys("mult multu div divu".split(), "st"),
    "lui": "dn", "j": "l", "jal": "l", "jr": "s", "jalr": "ds", "break": "", "nop": "",
    "mflo": "d", "mfhi": "d", "mtlo": "s", "mthi": "s",
}
NAMES = "zero at v0 v1 a0 a1 a2 a3 t0 t1 t2 t3 t4 t5 t6 t7 s0 s1 s2 s3 s4 s5 s6 s7 t8 t9 k0 k1 gp sp fp ra".split()
LO, HI = 32, 33


def register(text):
    name = text[1:]
    return 30 if name == "s8" else NAMES.index(name) if name in NAMES else int(name)


def statements_of(file):
    labels, statements, data = {}, [], []
    with open(file, encoding="ascii", errors="replace") as lines:
        for line in lines:
            line = line.split("#")[0].strip()
            while match := re.match(r"([A-Za-z_.][A-Za-z_.0-9]*)[ \t]*:[ \t]*", line):
                labels[match[1]] = 0x400000 + 4 * len(statements)
                line = line[match.end():]
            word, _, rest = line.replace("\t", " ").partition(" ")
            parts = [it.strip() for it in rest.split(",")] if rest.strip() else []
            if word.lower() == ".space":
                data += [0] * (int(parts[0], 0) // 4)
            elif word.lower() == ".word":
                data += [int(it, 0) & 0xFFFFFFFF for it in parts]
            elif word:
                statements.append((word.lower(), parts))
    return labels, statements, data


def decoded(word, parts, labels):
    fields = {"d": {"jal": 31, "jalr": 31, "mtlo": LO, "mthi": HI}.get(word, 0), "s": {"mflo": LO, "mfhi": HI}.get(word, 0), "t": 0, "n": 0}
    slots = FORMS[word]
    if word == "jalr" and len(parts) == 1:
        slots = "s"
    if word in ("sll", "srl", "sra"):
        slots = "dsn"
    for slot, text in zip(slots, parts):
        if slot == "l":
            fields["n"] = labels[text]
        elif slot == "n":
            fields["n"] = int(text, 0) & 0xFFFFFFFF
        elif slot == "m":
            offset, base = re.match(r"(.*?)\((.*)\)", text).groups()
            fields["n"], fields["s"] = int(offset.strip() or "0", 0) & 0xFFFFFFFF, register(base.strip())
        else:
            fields[slot] = register(text)
    return f"{word} {fields['d']} {fields['s']} {fields['t']} {fields['n']}"


def main():
    labels, statements, data = statements_of(sys.argv[1])
    print(f"memory {4 * len(data)}")
    for at, value in enumerate(data):
        if value:
            print(f"word {4 * at} {value}")
    for word, parts in statements:
        print(decoded(word, parts, labels))


if __name__ == "__main__":
    main()
