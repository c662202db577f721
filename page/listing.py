"""A listing as its author wrote it: the line, the labels, the text and the comment of each instruction."""
import re

START = 0x00400000
LABEL = re.compile(r"\s*([A-Za-z_.][\w.]*)\s*:")
NAMES = ("zero at v0 v1 a0 a1 a2 a3 t0 t1 t2 t3 t4 t5 t6 t7 "
         "s0 s1 s2 s3 s4 s5 s6 s7 t8 t9 k0 k1 gp sp fp ra").split()


class Line:
    """One line of the file: its labels, its code and its comment."""

    def __init__(self, text):
        code, _, comment = text.partition("#")
        self.comment = comment.strip()
        self.labels = []
        while found := LABEL.match(code):
            self.labels.append(found[1])
            code = code[found.end():]
        self.code = " ".join(code.split())


def lines_of(file):
    """The lines of the file in turn."""
    with open(file, encoding="utf-8", errors="replace", newline="") as listing:
        return [Line(line) for line in listing.read().replace("\r\n", "\n").split("\n")]


def about(lines):
    """The comment above the first label or statement."""
    said = []
    for line in lines:
        if line.code or line.labels:
            break
        said.append(line.comment)
    return " ".join(" ".join(said).split())


class Listing:
    """The instructions in turn: one for each line with code that is no directive."""

    def __init__(self, lines):
        self.about = about(lines)
        self.names_registers = any(re.search(r"\$[a-z]", line.code) for line in lines)
        self.rows, labels = [], []
        for number, line in enumerate(lines, 1):
            labels += line.labels
            if line.code and not line.code.startswith("."):
                self.rows.append({"pc": START + 4 * len(self.rows), "line": number, "labels": labels,
                                  "text": line.code, "comment": line.comment})
                labels = []
        self.row_of = {row["pc"]: row for row in self.rows}

    def code_at(self, pc):
        return self.row_of[pc]["text"]

    def place_of(self, pc):
        """The last label and the line of the instruction at an address, where there are such."""
        row = self.row_of.get(pc)
        if row is None:
            return None, None
        return (row["labels"][-1] if row["labels"] else None), row["line"]

    def register_name(self, number):
        """A register's name, by number where the listing has no names."""
        if number > 31:
            return ("LO", "HI")[number - 32]
        return "$" + (NAMES[number] if self.names_registers else str(number))
