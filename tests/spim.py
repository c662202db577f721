"""What SPIM makes of a program, on a terminal of its own: the registers and the data where the program would end, each address
with the line of the program or the label that it stands for."""
import os
import pty
import re
import select
import subprocess
import tempfile
import termios

BEGIN = ("\n.text\n.globl __start\n__start: move $a0,$0\nmove $a1,$0\nmove $a2,$0\njal main\nnop\nmove $k0,$v0\nli $v0,10\nsyscall\n")
PROMPT = b"(spim) "
STEP = re.compile(r"\[0x([0-9a-f]{8})\]\t0x[0-9a-f]{8}  ([^;\n]*)(?:; (\d+): )?")
REGISTER = re.compile(r"R(\d+) +\(\w+\) = ([0-9a-f]{8})")
SYMBOL = re.compile(r"g\t(\S+) at 0x([0-9a-f]{8})")
LABEL = re.compile(r"^\s*([A-Za-z_.][\w.]*)\s*:", re.M)
TEXT, EXTERN, DATA, HEAP = 0x00400000, 0x10000000, 0x10010000, 0x10020000
# $at, the system's registers and $gp
OWN = (1, 26, 27, 28)
MOST = 2000000


class Session:
    """SPIM with a program, and its answers to commands."""

    def __init__(self, file):
        ours, theirs = pty.openpty()
        modes = termios.tcgetattr(theirs)
        modes[3] &= ~termios.ECHO
        termios.tcsetattr(theirs, termios.TCSANOW, modes)
        self.went = subprocess.Popen(["spim", "-exception_file", file], stdin=theirs, stdout=subprocess.PIPE,
                                     stderr=subprocess.STDOUT, env={"PATH": os.environ["PATH"]})
        os.close(theirs)
        self.ours, self.banner = ours, self.read()

    def read(self):
        told = b""
        while not told.endswith(PROMPT):
            ready, _, _ = select.select([self.went.stdout], [], [], 60)
            more = os.read(self.went.stdout.fileno(), 65536) if ready else b""
            if not more:
                break
            told += more
        return told.decode("latin-1")

    def ask(self, command):
        os.write(self.ours, command.encode() + b"\n")
        return self.read()

    def __enter__(self):
        return self

    def __exit__(self, *_):
        self.went.kill()
        self.went.wait()
        self.went.stdout.close()
        os.close(self.ours)


def prepared(text):
    """A program with a beginning that leaves all registers 0, and with all its labels known to `print_symbols`."""
    labels = sorted({*LABEL.findall(re.sub(r'"(\\.|[^"\\])*"|#.*', "", text))} - {"main", "__start"})
    text = re.sub(r"(?m)^(\s*)\.globl\s+main\b", r"\1#", text)
    text = re.sub(r"(?m)^(\s*)\.eqv\s+(\w+)[\s,]+(\S+)", r"\1\2 = \3", text)
    return "".join(f".globl {label}; " for label in labels) + text + BEGIN


class Spim:
    """A program at its end, with so many words of data."""

    def __init__(self, text, count):
        self.last_line = text.count("\n") + 1
        with tempfile.NamedTemporaryFile("w", suffix=".s", encoding="latin-1") as file:
            file.write(prepared(text))
            file.flush()
            with Session(file.name) as session:
                if "(parser)" in session.banner or "undefined" in session.banner:
                    raise ValueError(session.banner)
                session.ask("step 1")
                self.stack = int(re.search(r"0x([0-9a-f]{8})", session.ask("print $29"))[1], 16)
                self.steps = self.run(session)
                self.look(session, count)

    def run(self, session):
        """How many steps there are up to the end, which is a system call."""
        steps = STEP.findall(session.ask(f"step {MOST}"))
        if not steps or len(steps) >= MOST or not steps[-1][1].startswith("syscall"):
            raise ValueError("no end: " + " ".join(it[1] for it in steps[-20:]))
        self.returned = "$26, $0, $2" in steps[-3][1]
        return len(steps)

    def look(self, session, count):
        told = session.ask("print_all_regs hex")
        self.registers = {int(number): int(value, 16) for number, value in REGISTER.findall(told)}
        if self.returned:
            self.registers[2] = self.registers[26]
        self.pair = {name: int(re.search(rf"{name} +=\s+([0-9a-f]+)", told)[1], 16) for name in ("HI", "LO")}
        self.words = [int(re.search(r"= 0x([0-9a-f]+)", session.ask(f"print {DATA + 4 * at}"))[1], 16) for at in range(count)]
        self.symbols = {name: int(at, 16) for name, at in SYMBOL.findall(session.ask("print_symbols"))}
        self.lines = self.lines_of(session)

    def lines_of(self, session):
        """The line of the program at each address where the instructions of a line begin."""
        found, at = {}, TEXT
        while step := STEP.search(session.ask(f"print {at}")):
            if step[3]:
                found.setdefault(at, int(step[3]))
            at += 4
        return found

    def meant(self, value):
        """A value; an address by what it is an address of."""
        for name, first in (("data", DATA), ("heap", HEAP), ("extern", EXTERN)):
            if first <= value < first + 0x10000:
                return f"{name} {value - first}"
        if self.stack - 0x10000 < value < self.stack + 64:
            return f"stack {value - self.stack}"
        if value in self.lines:
            return f"line {self.lines[value]}" if self.lines[value] <= self.last_line else "return"
        return f"0x{value:08x}"

    def told(self):
        """Lines that say how the program ended: registers and words that are not 0, and where each label stands."""
        for number, value in sorted(self.registers.items()):
            if value and number not in OWN:
                yield f"${number} {self.meant(value)}"
        yield from (f"{name} 0x{value:08x}" for name, value in self.pair.items() if value)
        yield from (f"word {4 * at} {self.meant(value)}" for at, value in enumerate(self.words) if value)
        places = {name: self.meant(value) for name, value in sorted(self.symbols.items())}
        yield from (f"label {name} {place}" for name, place in places.items() if place.startswith(("data", "extern")))
