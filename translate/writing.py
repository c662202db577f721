"""The listing: the lines of the program in their order, each after `#`, with what stands for them."""
from memory import FIRST, LIMIT, STACK
from sections import RESERVED

COLUMN = 40
LABEL = 8
# How many words a line has of numbers, and of bytes or texts.
WIDTHS = {True: 8, False: 4}


def with_comment(text, comment):
    return f"{text:<{COLUMN - 1}} # {comment}" if comment else text.rstrip()


def indented(line):
    return line if line.endswith(":") else f"{'':<{LABEL}}{line}"


def number(word, size):
    """A word of a list in decimal digits; of bytes and texts in hexadecimal ones."""
    return str(word - (word >> 31 << 32)) if size == 4 else f"0x{word:08x}"


def words_of(memory, first, last, size):
    """Lines `.space` and `.word` for the words from a byte to another."""
    words = [int.from_bytes(memory.bytes[at:at + 4], "little") for at in range(first, last, 4)]
    at = 0
    while at < len(words):
        zeros = next((count for count, word in enumerate(words[at:]) if word), len(words) - at)
        if zeros > 8 or zeros > 1 and zeros == len(words) - at:
            yield indented(f".space {4 * zeros}")
            at += zeros
        else:
            row = words[at:at + WIDTHS[size == 4]]
            yield indented(".word " + ",".join(number(word, size) for word in row))
            at += len(row)


def source_of(statement):
    return f"{statement.line}: {statement.source}" if statement.source else ""


class Listing:
    """Writes what stands for the statements in turn."""

    def __init__(self, file, statements, sections, layout):
        self.file, self.statements, self.layout = file, statements, layout
        self.memory, self.symbols = sections.data.memory, sections.symbols
        self.items = {id(item.statement): item for item in self.memory.items}
        self.made = {id(statement): made for statement, made in zip(sections.code, layout.made)}
        self.done = FIRST

    def lines(self):
        """All lines: the comments at the head of the program, what is run before it, the program, and the rest of memory."""
        head, end = self.head(), self.end()
        for statement in self.statements[:head]:
            yield statement.source or ""
        yield f"# From {self.file} by ruu translate. Data begins at byte {FIRST}, the stack goes down from byte {STACK}."
        yield from (with_comment(line, "so that 0 is the address of no data") for line in words_of(self.memory, 0, FIRST, 4))
        yield from map(indented, self.layout.first)
        for at, statement in enumerate(self.statements[head:], head):
            yield from self.of(statement)
            if at == end:
                yield from map(indented, self.layout.last)
        yield from [] if self.made else map(indented, self.layout.last)
        yield from self.rest()

    def head(self):
        """How many statements are comments and blank lines before all others."""
        for at, statement in enumerate(self.statements):
            if not statement.is_bare or statement.labels or not (statement.source or "#").startswith("#"):
                return at if any(it.source for it in self.statements[:at]) else 0
        return 0

    def end(self):
        """The last statement that is an instruction or has a label of the text."""
        text = [at for at, statement in enumerate(self.statements) if id(statement) in self.made or self.text_labels(statement)]
        return max(text, default=-1)

    def text_labels(self, statement):
        return [self.symbols.written(label.text) for label in statement.labels if not self.symbols.is_data(label.text)]

    def of(self, statement):
        """The lines of a statement."""
        if id(statement) in self.made:
            yield from self.of_code(statement)
            return
        labels = self.text_labels(statement)
        comment = source_of(statement) if statement.is_bare and "#" in (statement.source or "") else ""
        yield from (with_comment(f"{label}:", comment if label is labels[-1] else "") for label in labels)
        yield from self.places(statement)
        if id(statement) in self.items:
            yield from self.of_item(self.items[id(statement)])
        elif statement.source is not None and not (statement.labels and statement.is_bare):
            yield self.as_comment(statement)

    def places(self, statement):
        """The bytes of a statement's labels of data."""
        tokens = [*statement.labels, *(statement.tokens[:1] if statement.name in RESERVED else [])]
        names = [token.text for token in tokens if self.symbols.is_data(token.text)]
        yield from (f"# {name}: byte {self.symbols.bytes[name]}" for name in names)

    def as_comment(self, statement):
        source = statement.source
        return source if not source or source.startswith("#") else f"# {source_of(statement)}"

    def of_item(self, item):
        """The words that data completes. The source stands after the first of them."""
        last = -(-item.last // 4) * 4 if item is self.memory.items[-1] else item.last // 4 * 4
        lines = [*words_of(self.memory, self.done, last, item.size)]
        self.done = max(self.done, last)
        comment = source_of(item.statement)
        first = [with_comment(lines[0], comment)] if lines else [f"# {comment}"] if comment else []
        yield from [*first, *lines[1:]]

    def of_code(self, statement):
        """The instructions of a statement. The source stands after the first."""
        lines, comment = self.made[id(statement)], source_of(statement)
        *alone, last = [f"{label}:" for label in self.text_labels(statement)] or [""]
        if len(last) >= LABEL or not lines or lines[0].endswith(":"):
            alone, last = [*alone, *([last] if last else [])], ""
        yield from alone
        if not lines:
            yield f"# {comment or statement.name} (left out)"
        for at, line in enumerate(lines):
            text = indented(line) if at or not last else f"{last:<{LABEL}}{line}"
            yield with_comment(text, comment if at == 0 else "")

    def rest(self):
        """The rest of memory: what was reserved, the heap and the stack."""
        last = -(-self.memory.end // 4) * 4
        yield from (with_comment(line, "reserved") for line in words_of(self.memory, self.done, last, 4))
        yield with_comment(indented(f".space {LIMIT - max(last, self.done)}"), "the stack")
