"""The tests of `ruu translate`, by the word that follows:

programs [renew]  Each program of examples/translate runs, and ends as SPIM ends, which its file .spim has: registers and data are the
                  same, but for addresses, which are those of the same label, place on the stack or line. Where SPIM is there it is
                  asked again, and with `renew` those files are written anew.
rows              What the rows of translate/pseudo.txt make of a statement is what `ruu check` says to write for it.
cases             Each case of tests/translate/cases.txt becomes what stands there.
"""
import glob
import os
import re
import shutil
import subprocess
import sys

sys.path.insert(0, "translate")
import spim
import translate as translator
from rows import rows_of

NAMES = ("zero at v0 v1 a0 a1 a2 a3 t0 t1 t2 t3 t4 t5 t6 t7 s0 s1 s2 s3 s4 s5 s6 s7 t8 t9 k0 k1 gp sp fp ra").split()
FIRST, STACK, START = 16, 65472, 0x00400000
RUU, CHECKER = os.environ.get("RUU", "crates/ruu/out/ruu"), "crates/checker/out/checker"
OWN = {f"${number}" for number in spim.OWN}
found = []


def wrong(text):
    found.append(text)


def translated(program):
    """The status, the listing and standard error for a file, or for a text on standard input."""
    is_file = "\n" not in program and os.path.exists(program)
    went = subprocess.run([sys.executable, "-B", "translate/translate.py", RUU, program if is_file else "-"],
                          input=None if is_file else program.encode(), capture_output=True, check=False)
    return went.returncode, went.stdout.decode("latin-1"), went.stderr.decode("utf-8", "replace")


class Listing:
    """What a listing says: its instructions, its data, the bytes of labels, the address where each line of the program begins, and
    whether a `break` that no line has closes it."""

    def __init__(self, text):
        self.text, self.labels, self.line_at, self.code, self.words, self.end = text, {}, {}, [], [], None
        for line in text.splitlines():
            self.take(line)

    def take(self, line):
        code, _, comment = line.partition("#")
        code = re.sub(r"^\s*(?:[A-Za-z_.][\w.]*:\s*)*", "", code).strip()
        if comment in (" reserved", " the stack") and self.end is None:
            self.end = len(self.words)
        if place := re.fullmatch(r"# (\S+): byte (\d+)", line):
            self.labels[place[1]] = int(place[2])
        elif code.startswith(".space"):
            self.words += [0] * (int(code.split()[1]) // 4)
        elif code.startswith(".word"):
            self.words += [int(it, 0) for it in code.split()[1].split(",")]
        elif code:
            if source := re.match(r" (\d+): ", comment):
                self.line_at.setdefault(int(source[1]), START + 4 * len(self.code))
            self.code.append(code)
            self.is_closed = code == "break" and not comment


class Run:
    """How a listing ends on one thread: `values` has registers, words of memory by their bytes, HI and LO."""

    def __init__(self, listing):
        command = [RUU, "run", "-", "--alone", "--limit", "5000000"]
        went = subprocess.run(command, input=listing.text.encode("latin-1"), capture_output=True, check=False)
        self.lines = went.stdout.decode().splitlines()
        self.end = self.lines[0]
        self.values = dict(map(self.value, self.lines[3:]))

    @staticmethod
    def value(line):
        *name, value = line.split()
        name = f"word {int(name[1], 16) - FIRST}" if name[0] == "m" else f"${name[0][1:]}" if name[0][0] == "r" else name[0].upper()
        return name, int(value, 16)


class Comparison:
    """A listing and its run beside what SPIM told of the program."""

    def __init__(self, name, listing, told):
        self.name, self.listing, self.run = name, listing, Run(listing)
        self.count = int(told[0].split()[1])
        self.told = [re.fullmatch(r"(label \S+|word \d+|\S+) (.*)", line).groups() for line in told[1:]]
        extern = [listing.labels[name[6:]] for name, place in self.told if name.startswith("label") and place.startswith("extern")]
        self.bases = {"data": FIRST, "stack": STACK, "heap": listing.words[3], "extern": min(extern, default=0)}

    def number(self, meant):
        """The number here for what a value of SPIM is an address of, or for that value."""
        kind, _, rest = meant.partition(" ")
        if kind == "line":
            return self.listing.line_at.get(int(rest))
        if kind == "return":
            return START + 4 * self.listing.code.index("break")
        return self.bases[kind] + int(rest) if rest else int(kind, 16)

    def check(self):
        """Says what differs."""
        if self.run.end != "stop break":
            wrong(f"{self.name}: {self.run.end}")
        values = {name: value for name, value in self.run.values.items() if name not in OWN}
        for name, meant in self.told:
            here = self.listing.labels.get(name[6:]) if name.startswith("label") else values.pop(name, 0)
            if here != self.number(meant):
                wrong(f"{self.name}: {name} is {meant}, and {here} here")
        for name, value in values.items():
            if not name.startswith("word") or 0 <= int(name[5:]) < 4 * self.count:
                wrong(f"{self.name}: {name} is 0, and {value:#x} here")


def told_by_spim(file, count):
    """What SPIM tells of a program, with so many words of data."""
    with open(file, encoding="latin-1") as text:
        return [f"words {count}", *spim.Spim(text.read(), count).told()]


def programs(is_renewed):
    """All programs beside SPIM."""
    has_spim = shutil.which("spim") is not None
    files = sorted(glob.glob("examples/translate/*.s"))
    for file in files:
        status, text, said = translated(file)
        if status != 0:
            wrong(f"{file}: status {status}\n{said}")
            continue
        listing, stored = Listing(text), file.removesuffix(".s") + ".spim"
        if has_spim:
            told = told_by_spim(file, listing.end - FIRST // 4)
        if has_spim and is_renewed:
            with open(stored, "w", encoding="utf-8") as out:
                out.writelines(f"{line}\n" for line in told)
        with open(stored, encoding="utf-8") as lines:
            kept = lines.read().splitlines()
        if has_spim and told != kept:
            wrong(f"{stored} is not what SPIM tells: tests/translate.sh renew")
        Comparison(file, listing, kept).check()
    print(f"{len(files)} programs end as in SPIM" if has_spim else f"skipped: no spim; {len(files)} programs end as their files .spim have it")


def unescaped(text):
    """A text of a case: `\\n`, `\\t`, `\\r` and `\\\\` stand for one character each."""
    return re.sub(r"\\([ntr\\])", lambda found: {"n": "\n", "t": "\t", "r": "\r", "\\": "\\"}[found[1]], text)


def made_of(program, is_data):
    """What a program becomes, as a case says it."""
    lines = program.encode().decode("latin-1").replace("\r\n", "\n").split("\n")
    made = translator.Translation("-", lines)
    if made.faults:
        said = "\n".join(made.faults.told("-", lines))
        return " ; ".join(f"line {line}: {fault}" for line, fault in re.findall(r"^-:(\d+):\d+: error: (.*)", said, re.M))
    listing = Listing("\n".join(made.listing))
    if is_data:
        return " ".join(["data", *(f"0x{word & 0xffffffff:08x}" for word in listing.words[FIRST // 4:listing.end])])
    return " ; ".join(" ".join(line.split()) for line in listing.code[1:len(listing.code) - listing.is_closed])


def cases():
    """Each case becomes what stands after its arrow."""
    count = 0
    with open("tests/translate/cases.txt", encoding="utf-8") as lines:
        for number, line in enumerate(lines, 1):
            program, arrow, wanted = line.strip().partition(" => ")
            if arrow:
                count += 1
                made = made_of(unescaped(program), wanted.startswith("data"))
                if made != wanted:
                    wrong(f"tests/translate/cases.txt:{number}: {made}")
    print(f"{count} cases become what stands there")


# What stands for each kind of an operand.
SAMPLES = {"D": "$t0", "S": "$t1", "T": "$t2", "I": "10", "-I": "7", "U": "40000", "H": "3", "Z": "0", "W": "0x20000", "N": "100000",
           "L": "f", "I(S)": "4($t1)", "N(S)": "100000($t1)", "A": "4($t1)", "P": "4($t1)"}
# Words of which `ruu check` knows nothing.
UNKNOWN = set("ld sd ulh ulhu ulw ush usw mulu mulou rol ror movz movn clz clo bgezal bltzal".split())


def is_known(row):
    return row.word not in UNKNOWN


def is_other(row):
    """Whether a row says more than `ruu check`: `mulo` stops on an overflow, and a branch takes `$zero` for 0."""
    return row.word == "mulo" or "Z" in row.kinds


def statement_of(row):
    return f"{row.word} {','.join(SAMPLES[kind] for kind in row.kinds)}".strip()


def advice_of(statements):
    """What `ruu check` says to write for each statement, if it says so. It tells at most 200 faults of a listing."""
    if len(statements) > 100:
        return advice_of(statements[:100]) | advice_of(statements[100:])
    listing = "".join(f"{line}\n" for line in [*statements, "f: break"])
    went = subprocess.run([CHECKER, "check", "--all", "-"], input=listing.encode(), capture_output=True, check=False)
    told = re.findall(r"^-:(\d+):\d+: error: Write ([^:\n]*)\.$", went.stdout.decode(), re.M)
    return {statements[int(line) - 1]: advice for line, advice in told}


def made_alone(statement):
    """What a statement becomes, in the words of `ruu check`."""
    made = made_of(f"nop\n{statement}\nf: loop: ra: break", False).removesuffix(" ; break")
    return made.removeprefix("jal begin ; break ; ").removeprefix("nop ; ").replace(" ; ", " and then ")


def remedies():
    """How many statements of `remedies.txt` become what stands there. Those that are refused are of other assemblers."""
    count = 0
    with open("tests/listings/remedies.txt", encoding="utf-8") as lines:
        found = [re.fullmatch(r"([a-z]+) (.*) => Write ([^:]*)\.\n", line) for line in lines]
    for word, operands, advice in (it.groups() for it in found if it):
        made, advice = made_alone(f"{word} {operands}"), re.sub(r"\b0x[0-9a-f]+", lambda number: str(int(number[0], 16)), advice)
        count += made == advice
        if made != advice and not made.startswith("line ") and word != "mulo":
            wrong(f"{word} {operands}: it becomes {made}, and remedies.txt has {advice}")
    return count


def rows():
    """Each row makes of a statement what `ruu check` says to write for it, where that knows the statement."""
    pseudo = [row for row in rows_of("pseudo.txt") if not row.word.startswith("(")]
    statements = [statement_of(row) for row in pseudo]
    advice = advice_of(statements)
    for row, statement in zip(pseudo, statements):
        made = made_alone(statement)
        if (statement in advice) != is_known(row):
            wrong(f"{statement}: whether ruu check knows it is not as this test has it")
        elif made != advice.get(statement, made) and not is_other(row):
            wrong(f"{statement}: the row makes {made}, and ruu check says: Write {advice[statement]}.")
    count = remedies()
    with open("tests/listings/forms.txt", encoding="utf-8") as forms:
        parts = [part for line in forms for part in line.partition(" => ")[0].replace("\\t", " ").split("\\n") if not line.startswith("#")]
    words = {re.sub(r"^(\s*[\w.]+:\s*)*", "", part).split(" ")[0].lower() for part in parts}
    for word in {row.word for row in rows_of("operations.txt")} ^ {word for word in words if word[:1].isalpha()}:
        wrong(f"{word}: in one of operations.txt and forms.txt")
    print(f"{len(advice)} of {len(pseudo)} rows and {count} remedies: ruu check says the same")


def main():
    word, *more = sys.argv[1:]
    {"programs": lambda: programs(more == ["renew"]), "cases": cases, "rows": rows}[word]()
    print(*found[:40], sep="\n", end="\n" if found else "")
    sys.exit(bool(found))


if __name__ == "__main__":
    main()
