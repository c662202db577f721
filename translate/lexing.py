"""The tokens of a line: registers, names, numbers, characters, texts and signs. Blanks and a comment stand between them."""
import re
import unicodedata

from faults import Fault

NAMES = ("zero at v0 v1 a0 a1 a2 a3 t0 t1 t2 t3 t4 t5 t6 t7 "
         "s0 s1 s2 s3 s4 s5 s6 s7 t8 t9 k0 k1 gp sp fp ra").split()
REGISTERS = {**{f"${name}": number for number, name in enumerate(NAMES)}, "$s8": 30, **{f"${number}": number for number in range(32)}}
PATTERN = re.compile(r"""
    (?P<blank>[ \t\f\v]+) | (?P<comment>\#.*) | (?P<text>"(?:[^"\\]|\\.)*")
  | (?P<character>'(?:[^'\\]|\\x[0-9A-Fa-f]{1,2}|\\[0-7]{1,3}|\\.)'|''') | (?P<fraction>\d+\.\d*(?:[eE][+-]?\d+)?|\d+[eE][+-]?\d+\b)
  | (?P<number>\d\w*) | (?P<name>[A-Za-z_.$][\w.$]*) | (?P<sign>[][(),:;=+\-*/%]) | (?P<other>[^\x00-\x7f]+|.)""", re.X | re.A)
ESCAPES = {"n": 10, "t": 9, "r": 13, "b": 8, "f": 12, "a": 7, "v": 11}
ESCAPE = re.compile(r"\\(x[0-9A-Fa-f]{1,2}|[0-7]{1,3}|.)", re.S)


class Token:
    """A token: its kind, its text, its place, whether a blank stands before it, and what it means."""

    def __init__(self, kind, text, line, column, is_apart):
        self.kind, self.text, self.is_apart = kind, text, is_apart
        self.place = (line, column, len(text))
        self.value = None

    def is_sign(self, signs):
        return self.kind == "sign" and self.text in signs


def of_escape(found):
    """The character of an escape as in C; a backslash before any other character is dropped."""
    text = found[1]
    if text[0] in "01234567":
        return chr(int(text, 8) & 255)
    if text[0] == "x" and len(text) > 1:
        return chr(int(text[1:], 16))
    return chr(ESCAPES[text]) if text in ESCAPES else text


def unescaped(text):
    return ESCAPE.sub(of_escape, text)


def number_of(token):
    """The number that a token writes. Numbers with zeros before them are read in one way only."""
    text = token.text.lower()
    if re.fullmatch(r"0x[0-9a-f]+", text):
        value = int(text, 16)
    elif re.fullmatch(r"0b[01]+", text):
        value = int(text, 2)
    elif text.isdigit():
        value = int(text)
        if text[0] == "0" and re.fullmatch(r"[0-7]+", text) and int(text, 8) != value:
            raise Fault(token.place, f"{token.text} is {int(text, 8)} in MARS and {value} in SPIM.", f"Write {int(text, 8)} or {value}.")
    else:
        raise Fault(token.place, f"{token.text} is no number.")
    if value >= 2 ** 32:
        raise Fault(token.place, f"{token.text} has more than 32 bits.")
    return value


def other(token):
    """A character that no program has outside of texts and comments."""
    try:
        found = token.text.encode("latin-1").decode("utf-8")[0]
        name = f"U+{ord(found):04X}, {unicodedata.name(found, 'without a name').lower()}"
    except UnicodeDecodeError:
        name = repr(token.text[0])
    if token.text == '"':
        return Fault(token.place, "The text has no end.", 'A text ends with ".')
    if token.text == "'":
        return Fault(token.place, "A character stands between two ', as 'a' or '\\n'.")
    return Fault(token.place, f"The character is {name if token.text[0] > '~' else token.text}.")


def tokens_of(text, line):
    """The tokens of a line in turn. A character that has no meaning is a fault."""
    found, is_apart = [], True
    for match in PATTERN.finditer(text):
        kind = match.lastgroup
        if kind == "comment":
            break
        if kind != "blank":
            token = Token(kind, match[0], line, match.start() + 1, is_apart)
            give_value(token)
            found.append(token)
        is_apart = kind == "blank"
    return found


def give_value(token):
    """What a token means, beside its text."""
    if token.kind == "other":
        raise other(token)
    if token.kind == "number":
        token.value = number_of(token)
    elif token.kind == "character":
        token.value = ord(unescaped(token.text[1:-1]))
    elif token.kind == "text":
        token.value = unescaped(token.text[1:-1]).encode("latin-1")
    elif token.text.lower() in REGISTERS:
        token.kind, token.value = "register", REGISTERS[token.text.lower()]
