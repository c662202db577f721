"""What is wrong in a program, each by its line, and what its reader is told beside the listing."""
import sys

MOST = 200


class Fault(Exception):
    """One mistake: where it stands, what is wrong, and what helps."""

    def __init__(self, place, text, advice=""):
        super().__init__(text)
        self.line, self.column, self.width = place
        self.text, self.advice = text, advice


class Faults:
    """The first fault of each line, in the order of lines."""

    def __init__(self):
        self.of_line = {}

    def add(self, fault):
        self.of_line.setdefault(fault.line, fault)

    def add_all(self, faults):
        for fault in faults:
            self.add(fault)

    def __bool__(self):
        return bool(self.of_line)

    def told(self, file, lines):
        """Each fault as `ruu check` shows one: its place, its line with a mark, and what helps."""
        faults = [self.of_line[line] for line in sorted(self.of_line)]
        for fault in faults[:MOST]:
            yield f"{file}:{fault.line}:{fault.column}: error: {fault.text}"
            yield from marked(fault, lines)
            if fault.advice:
                yield fault.advice
        if len(faults) > MOST:
            yield f"{file}: {len(faults) - MOST} more lines are refused"


def shown(text):
    """Characters of a line, which come one for each byte, as a terminal can show them."""
    found = text.encode("latin-1").decode("utf-8", "replace")
    return "".join(it if it.isprintable() else " " for it in found)


def marked(fault, lines):
    """The line of a fault and a mark under it."""
    if not 1 <= fault.line <= len(lines):
        return
    line = lines[fault.line - 1]
    first, width = fault.column - 1, max(1, len(shown(line[fault.column - 1:fault.column - 1 + fault.width])))
    yield shown(line)[:MOST]
    if first < MOST:
        yield " " * len(shown(line[:first])) + "^" * width


def write_error(text):
    """A line on standard error."""
    sys.stderr.buffer.write(text.encode("utf-8", "surrogateescape") + b"\n")
    sys.stderr.buffer.flush()


def end(status, text):
    """Ends the program with a line on standard error."""
    write_error(text)
    sys.exit(status)
