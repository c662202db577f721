"""The statements of a program: labels, a word and the tokens of its operands. Names that `.eqv` gives stand for their tokens."""
import re

from faults import Fault
from lexing import Token, tokens_of

LABEL = re.compile(r"\s*([A-Za-z_.$][\w.$]*)\s*:", re.A)
EQUATES = (".eqv", ".equ")
# Directives for debuggers and linkers, of which nothing is read.
UNREAD = (".ent .end .aent .frame .mask .fmask .file .loc .type .size .option .livereg .verstamp .vreg .alias .noalias .bgnb .endb "
          ".asm0 .ident .local .weak .abicalls .module .nan .gnu_attribute .title .sbttl").split()
WORD = re.compile(rf"(?:{LABEL.pattern})*\s*(\.\w+)", re.A)


class Statement:
    """One statement: its line, the text of that if it is the first there, its labels, word and tokens. Without a word the tokens go on
    with the list of the statement before it. An instruction also has its operands, and all labels of the text that stand for it."""

    def __init__(self, line, source):
        self.line, self.source = line, source
        self.labels, self.word, self.tokens = [], None, []
        self.operands, self.labels_here = None, []
        self.is_lost, self.is_reordered = False, True

    @property
    def name(self):
        return self.word.text.lower() if self.word else ""

    @property
    def place(self):
        first = self.word or (self.tokens or self.labels)[0]
        return first.place

    @property
    def is_bare(self):
        """Whether it has labels alone, or nothing."""
        return self.word is None and not self.tokens


def parts_of(tokens):
    """The tokens between semicolons."""
    part = []
    for token in tokens:
        if token.is_sign(";"):
            yield part
            part = []
        else:
            part.append(token)
    yield part


def labels_of(tokens):
    """The labels before a statement, and the tokens after them."""
    labels = []
    while len(tokens) > 1 and tokens[1].is_sign(":") and tokens[0].kind not in ("sign", "text", "character"):
        if tokens[0].kind != "name":
            raise Fault(tokens[0].place, "A label begins with a letter, _, . or $, and goes on with these and digits.")
        labels.append(tokens[0])
        tokens = tokens[2:]
    return labels, tokens


def labels_of_lost(text, line):
    """The labels of a line of which a token has no meaning."""
    labels = []
    while found := LABEL.match(text):
        labels.append(Token("name", found[1], line, found.start(1) + 1, True))
        text = " " * found.end() + text[found.end():]
        if not text.strip():
            break
    return labels


class Reader:
    """Reads lines in turn, and knows the names that were given by `.eqv` and the macros that were left out."""

    def __init__(self, faults):
        self.faults = faults
        self.given, self.macros = {}, set()
        self.in_macro = False

    def statements(self, lines):
        """The statements of all lines. A line of which a token has no meaning is lost, but for its labels."""
        for line, text in enumerate(lines, 1):
            source = text.strip()
            was_in_macro, word = self.in_macro, WORD.match(text)
            if word and word[2].lower() in UNREAD and not self.in_macro:
                yield self.lost(text, line)
                continue
            try:
                for part in parts_of(tokens_of(text, line)):
                    yield self.read(part, line, source)
                    source = None
            except Fault as fault:
                if not was_in_macro:
                    self.faults.add(fault)
                    yield self.lost(text, line)

    def lost(self, text, line):
        statement = Statement(line, text.strip())
        statement.labels, statement.is_lost = labels_of_lost(text, line), True
        return statement

    def read(self, tokens, line, source):
        """The statement of these tokens. One that gives a name, or is of a macro, has no word."""
        statement = Statement(line, source)
        if self.in_macro:
            self.in_macro = not (tokens and tokens[0].text.lower() in (".end_macro", ".endm"))
            return statement
        statement.labels, tokens = labels_of(tokens)
        if self.gives_name(tokens):
            return statement
        tokens = [it for token in tokens for it in self.meant(token)]
        if tokens and tokens[0].kind == "name":
            statement.word, tokens = tokens[0], tokens[1:]
            self.look_for_macro(statement.word, tokens)
        statement.tokens = tokens
        return statement

    def meant(self, token):
        """The tokens for which a name stands, at its place."""
        if token.kind != "name" or token.text not in self.given:
            return [token]
        return [moved(it, token) for it in self.given[token.text]]

    def gives_name(self, tokens):
        """Takes a name and its tokens: `.eqv NAME ..`, `.equ NAME,..`, `.set NAME,..` or `NAME = ..`."""
        word = tokens[0].text.lower() if tokens else ""
        if len(tokens) > 1 and tokens[0].kind == "name" and tokens[1].is_sign("="):
            name, rest = tokens[0], tokens[2:]
        elif word in EQUATES or (word == ".set" and len(tokens) > 3 and tokens[2].is_sign(",")):
            if len(tokens) < 3 or tokens[1].kind != "name":
                raise Fault(tokens[0].place, f"{word} takes a name and what it stands for.")
            name, rest = tokens[1], tokens[3 if tokens[2].is_sign(",") else 2:]
        else:
            return False
        self.given[name.text] = [it for token in rest for it in self.meant(token)]
        return True

    def look_for_macro(self, word, tokens):
        if word.text.lower() == ".macro":
            self.in_macro = True
            self.macros.update(token.text for token in tokens[:1])
            raise Fault(word.place, "There are no macros.", "Write the instructions where the macro is used.")
        if word.text in self.macros:
            raise Fault(word.place, f"{word.text} is a macro, and there are none.", "Write its instructions here.")


def moved(token, to):
    """A token of a given name, where that name stands."""
    found = Token(token.kind, token.text, to.place[0], to.place[1], to.is_apart or token.is_apart)
    found.place, found.value = to.place, token.value
    return found
