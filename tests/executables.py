"""Small executables, each with the listing that it gives or with the reason why it gives none, and beginnings of each."""
import struct
import subprocess
import sys

LISTING = "crates/listing/out/listing"
START = 0x00400000
ALL_ZEROS = "\n# data\n        .space 65536\n"


def segment(offset, address, size, room, flags):
    """A program header: where its bytes are in the file, where they go, how many there are, and how much room they take."""
    return struct.pack("<8I", 1, offset, address, address, size, room, flags, 4)


def header(segments):
    ident = b"\x7fELF\x01\x01\x01" + bytes(9)
    return ident + struct.pack("<HHIIIIIHHHHHH", 2, 8, 1, START, 52, 0, 0x1001, 52, 32, segments, 0, 0, 0)


def words_of(words):
    return struct.pack(f"<{len(words)}I", *words)


def of_words(*words):
    """An executable of one segment, the text."""
    text = words_of(words)
    return header(1) + segment(84, START, len(text), len(text), 5) + text


# `addiu $2,$0,5` and `break`, and the word 42 at address 16, with 8 bytes more
WITH_DATA = header(2) + segment(116, START, 8, 8, 5) + segment(124, 16, 4, 12, 6) + words_of([0x24020005, 0x0000000D, 42])

# two symbols, a function and a variable, then their names, and the headers of both sections
SYMBOLS = struct.pack("<IIIBBH", 1, START, 8, 0x12, 0, 1) + struct.pack("<IIIBBH", 6, 16, 4, 0x11, 0, 2) + b"\0main\0x\0"
SECTIONS = struct.pack("<10I", 0, 2, 0, 0, 128, 32, 1, 0, 0, 0) + struct.pack("<10I", 0, 3, 0, 0, 160, 8, 0, 0, 0, 0)
NAMED = bytearray(WITH_DATA + SYMBOLS + SECTIONS)
struct.pack_into("<I", NAMED, 32, 168)
struct.pack_into("<HH", NAMED, 46, 40, 2)
NAMED = bytes(NAMED)

FORMS = [
    (0x3C1D0001, "lui $sp,1"), (0x27BDFFF0, "addiu $sp,$sp,-16"), (0x0C100008, "jal L00400020"), (0, "nop"),
    (0x0064001B, "divu $v1,$a0"), (0x00002010, "mfhi $a0"), (0x1480FFFD, "bne $a0,$zero,L00400010"), (0, "nop"),
    (0x0280F809, "jalr $ra,$s4"), (0, "nop"), (0x8FA20004, "lw $v0,4($sp)"), (0xA3A2FFFF, "sb $v0,-1($sp)"),
    (0x00021080, "sll $v0,$v0,2"), (0x34428000, "ori $v0,$v0,32768"), (0x00431021, "addu $v0,$v0,$v1"),
    (0x03E00008, "jr $ra"), (0, "nop"), (0x0000000D, "break"),
]
LABELS = {4: "L00400010:\n", 8: "L00400020:\n"}

# words of an assembler, one behind the other, and then each branch back to the first with a nop behind it
STRAIGHT = [
    (0x00430821, "addu $at,$v0,$v1"), (0x00430823, "subu $at,$v0,$v1"), (0x00430820, "add $at,$v0,$v1"),
    (0x00430822, "sub $at,$v0,$v1"), (0x00430824, "and $at,$v0,$v1"), (0x00430825, "or $at,$v0,$v1"),
    (0x00430826, "xor $at,$v0,$v1"), (0x00430827, "nor $at,$v0,$v1"), (0x0043082A, "slt $at,$v0,$v1"),
    (0x0043082B, "sltu $at,$v0,$v1"), (0x00020FC0, "sll $at,$v0,31"), (0x000208C2, "srl $at,$v0,3"),
    (0x000208C3, "sra $at,$v0,3"), (0x00620804, "sllv $at,$v0,$v1"), (0x00620806, "srlv $at,$v0,$v1"),
    (0x00620807, "srav $at,$v0,$v1"), (0x24418000, "addiu $at,$v0,-32768"), (0x20417FFF, "addi $at,$v0,32767"),
    (0x2841FFFF, "slti $at,$v0,-1"), (0x2C41FFFF, "sltiu $at,$v0,-1"), (0x3041FFFF, "andi $at,$v0,65535"),
    (0x344100FF, "ori $at,$v0,255"), (0x38410000, "xori $at,$v0,0"), (0x3C018000, "lui $at,32768"),
    (0x80410004, "lb $at,4($v0)"), (0x90410000, "lbu $at,0($v0)"), (0x8441FFFC, "lh $at,-4($v0)"),
    (0x94410004, "lhu $at,4($v0)"), (0x8FA80000, "lw $t0,0($sp)"), (0xA0410004, "sb $at,4($v0)"),
    (0xA4410004, "sh $at,4($v0)"), (0xAFDF7FFF, "sw $ra,32767($fp)"), (0x0000000D, "break"), (0, "nop"),
    (0x00220018, "mult $at,$v0"), (0x00220019, "multu $at,$v0"), (0x0085001A, "div $a0,$a1"), (0x0020001B, "divu $at,$zero"),
    (0x00000812, "mflo $at"), (0x0000F810, "mfhi $ra"), (0x00200013, "mtlo $at"), (0x03E00011, "mthi $ra"),
]
BACK = [
    (0x1022FFFF, "beq $at,$v0,L00400000"), (0x1422FFFD, "bne $at,$v0,L00400000"), (0x1820FFFB, "blez $at,L00400000"),
    (0x1C20FFF9, "bgtz $at,L00400000"), (0x0420FFF7, "bltz $at,L00400000"), (0x0421FFF5, "bgez $at,L00400000"),
    (0x08100000, "j L00400000"), (0x0C100000, "jal L00400000"), (0x03E00008, "jr $ra"), (0x0020F809, "jalr $ra,$at"),
    (0x00400809, "jalr $at,$v0"),
]

FOREIGN = [
    (0x0000000C, "syscall"), (0x0007000D, "break with a code"), (0x04300000, "bltzal"), (0x04310000, "bgezal"),
    (0x88410003, "lwl"), (0x98410000, "lwr"), (0xA8410003, "swl"), (0xB8410000, "swr"), (0x46000000, "of a coprocessor"),
    (0xC4410000, "of a coprocessor"), (0xE4410000, "of a coprocessor"), (0x50220000, "no operation of MIPS I"),
    (0x00000034, "no operation of MIPS I"),
    # an addu with a shift amount, a jr that names rd, a lui that names rs, a blez that names rt, a mult that names rd, an
    # mflo that names rs, one with a shift amount, and an mtlo that names rd
    (0x00430861, "no operation of MIPS I"), (0x00200808, "no operation of MIPS I"), (0x3C418000, "no operation of MIPS I"),
    (0x18210000, "no operation of MIPS I"), (0x00220818, "no operation of MIPS I"), (0x00200812, "no operation of MIPS I"),
    (0x00000852, "no operation of MIPS I"), (0x00200813, "no operation of MIPS I"),
]

PLACES = [
    ((0x10000002, 0), "the word 0x10000002 at 0x00400000 goes to 0x0040000c, outside the text"),
    ((0x10000001, 0), "the word 0x10000001 at 0x00400000 goes to 0x00400008, outside the text"),
    ((0x08100000, 0x24020005), "the word 0x24020005 at 0x00400004 is in a delay slot and is no nop"),
    ((0x03E00008, 0x0000000D), "the word 0x0000000d at 0x00400004 is in a delay slot and is no nop"),
    ((0, 0x03E00008), "the word 0x03e00008 at 0x00400004 has no delay slot behind it"),
]

# what avoids a refusal, by how it ends
REMEDIES = {
    "syscall": "there is no system to call: leave it out, and end by break",
    "break with a code": "compile with -mno-check-zero-division",
    "zal": "compile with -mno-abicalls -fno-pic",
    ("lwl", "lwr", "swl", "swr"): "compile with -fno-store-merging -fno-expensive-optimizations, and without packed structures",
    "of a coprocessor": "compile with -msoft-float",
    "no operation of MIPS I": "compile with -march=mips1 -mno-check-zero-division",
    "outside the text": "link all of it into one text, by examples/c/link.ld",
    "is in a delay slot and is no nop": "compile with -fno-delayed-branch; in assembly write nop there",
    "has no delay slot behind it": "write nop after it",
    ("this is no ELF file", "no executable", "no segment is at 0x00400000"): "link it by examples/c/compile.sh",
    ("32 bits", "not little endian", "not for MIPS"): "compile with mipsel-linux-gnu-gcc -march=mips1",
    ("not at 0x00400000", "does not fit"): "link it by examples/c/link.ld",
}

CUT = "the file ends before what it names"
NO_ELF = "this is no ELF file"
NO_TEXT = "no segment is at 0x00400000"
TEXT_UNFIT = "the segment at 0x00400000 does not fit"
# four bytes of the file that is above, changed at a place
CHANGED = [
    (0, b"\x7fELG", NO_ELF),
    (4, bytes([2, 1, 1, 0]), "the file is not of the class of 32 bits"),
    (4, bytes([1, 2, 1, 0]), "the file is not little endian"),
    (16, bytes([3, 0, 8, 0]), "the file is no executable"),
    (16, bytes([2, 0, 3, 0]), "the file is not for MIPS"),
    (24, bytes([8, 0, 0x40, 0]), "the program begins at 0x00400008, and not at 0x00400000"),
    (40, bytes([52, 0, 40, 0]), "the program headers do not have 32 bytes each"),
    (28, bytes([65, 0, 0, 0]), CUT),
    (28, b"\xff\xff\xff\xff", CUT),
    (44, bytes([0xFF, 0xFF, 0, 0]), CUT),
    (44, bytes(4), NO_TEXT),
    # the text: its offset, its size in the file, its size, its address, and that it is loaded
    (68, bytes([4, 0, 0, 0]), TEXT_UNFIT),
    (56, b"\xff\xff\xff\xff", CUT),
    (68, b"\xff\xff\xff\xff", CUT),
    (72, bytes([12, 0, 0, 0]), TEXT_UNFIT),
    (60, bytes([4, 0, 0x40, 0]), "the segment at 0x00400004 does not fit"),
    (52, bytes(4), NO_TEXT),
    # the data: its address, its size in the file, its size
    (92, bytes([0, 0, 1, 0]), "the segment at 0x00010000 does not fit"),
    (92, b"\xff\xff\xff\xff", "the segment at 0xffffffff does not fit"),
    (100, bytes([5, 0, 0, 0]), CUT),
    (104, bytes([3, 0, 0, 0]), "the segment at 0x00000010 does not fit"),
]


def changed(file, at, what):
    return file[:at] + what + file[at + len(what):]


def convert(file, *options):
    """Status, listing, and what is said."""
    path = sys.argv[1]
    with open(path, "wb") as it:
        it.write(file)
    went = subprocess.run([LISTING, *options, path], capture_output=True, text=True, check=False, stdin=subprocess.DEVNULL)
    return went.returncode, went.stdout, went.stderr.replace(f"ruu: {path}: ", "").rstrip("\n")


def with_remedy(why):
    """A reason with what avoids it."""
    for end, remedy in REMEDIES.items():
        if why.endswith(end):
            return f"{why}; {remedy}"
    return why


def gives(what, file, wanted):
    status, listing, said = convert(file)
    if (status, listing, said) != (0, wanted, ""):
        sys.exit(f"FAILED: {what}: status {status}, {said}\n{listing}")


def is_refused(what, file, why):
    status, listing, said = convert(file)
    if (status, listing, said) != (2, "", with_remedy(why)):
        sys.exit(f"FAILED: {what}: status {status}, {said!r} and not {with_remedy(why)!r}")


def check_listings():
    text = "".join(LABELS.get(k, "") + f"        {line}\n" for k, (_, line) in enumerate(FORMS))
    gives("each shape of an instruction", of_words(*(word for word, _ in FORMS)), text + ALL_ZEROS)
    text = "".join(f"        {line}\n" for _, line in STRAIGHT)
    gives("an operation in each word", of_words(*(word for word, _ in STRAIGHT)), text + ALL_ZEROS)
    text = "L00400000:\n" + "".join(f"        {line}\n        nop\n" for _, line in BACK)
    gives("a branch in each other word", of_words(*(it for word, _ in BACK for it in (word, 0))), text + ALL_ZEROS)
    code = "        addiu $v0,$zero,5\n        break\n"
    zeros = ".space 65504"
    data = f"\n# data\n        .space 16\n        .word 0x0000002a,0x00000000,0x00000000,0x00000000 # 0x00000010\n        {zeros}\n"
    gives("text and data", WITH_DATA, code + data)
    gives("data that is not loaded", changed(WITH_DATA, 84, bytes([6, 0, 0, 0])), code + ALL_ZEROS)
    gives("data without room", changed(WITH_DATA, 104, bytes(4)), code + ALL_ZEROS)
    gives("a function's name, and no variable's", NAMED, "# main\n" + code + data)
    # the number of sections, where their headers are, their size, where the symbols are, how many bytes they have, and
    # the section of their names
    for at in [49, 33, 46, 185, 189, 193]:
        gives(f"symbols that lead nowhere, by byte {at}", changed(NAMED, at, bytes([77])), code + data)
    for size in range(len(WITH_DATA), len(NAMED)):
        gives(f"symbols of which {size} bytes are there", NAMED[:size], code + data)


def check_refusals():
    for word, what in FOREIGN:
        why = f"the word {word:#010x} at 0x00400004 is no operation here: it is {what}"
        is_refused(why, of_words(0, word), why)
    for words, why in PLACES:
        is_refused(why, of_words(*words), why)
    for at, what, why in CHANGED:
        is_refused(f"{what!r} at {at}", changed(WITH_DATA, at, what), why)
    for file in [of_words(0, 0x0000000D), WITH_DATA]:
        for size in range(len(file)):
            is_refused(f"the first {size} bytes", file[:size], NO_ELF if size < 4 else CUT)


def check_places():
    """The function of a refusal, all refusals of a file, and a $gp that nobody sets."""
    slot = "the word 0x24020005 at 0x00400004 is in a delay slot and is no nop"
    named = changed(NAMED, 116, words_of([0x08100000]))
    named = changed(named, 120, words_of([0x24020005]))
    is_refused("a refusal in a function", named, f"in main: {slot}")
    words = [0x08100000, 0x24020005, 0x0000000C, 0x88410003, 0x0000000D]
    all_of_it = [slot, "the word 0x0000000c at 0x00400008 is no operation here: it is syscall",
                 "the word 0x88410003 at 0x0040000c is no operation here: it is lwl"]
    status, listing, said = convert(of_words(*words), "--all")
    if (status, listing, said.split("\n")) != (2, "", [with_remedy(why) for why in all_of_it]):
        sys.exit(f"FAILED: --all: status {status}, {said}")
    status, listing, said = convert(of_words(*[0x0000000C] * 203), "--all")
    if status != 2 or len(said.split("\n")) != 201 or not said.endswith("\n3 more are refused"):
        sys.exit(f"FAILED: --all of many: status {status}, {said[-200:]}")
    # lw $v0,-32752($gp), and with lui $gp before it; and one that moves $gp
    for words, warned in [((0x8F828010, 0x0000000D), True), ((0x3C1C0001, 0x8F828010, 0x0000000D), False), ((0x03801021, 0x0000000D), True)]:
        status, listing, said = convert(of_words(*words))
        warning = "warning: $gp is read in the text at 0x00400000 and nothing sets it, so it is 0; compile with -G0"
        if status != 0 or not listing or said != (warning if warned else ""):
            sys.exit(f"FAILED: $gp of {words}: status {status}, {said}")


check_listings()
check_refusals()
check_places()
print("executables that are made here give their listings, and others are refused with their reasons")
