"""The functions of a source file as `rt fmt` lays it out: where each stands, and how a check names it."""
import re
from typing import NamedTuple

HEAD = re.compile(r'^( *)(?:pub(?:\([^)]*\))? )?(?:const |unsafe |extern "C" )*fn (\w+)')
IMPL = re.compile(r"^impl(?P<own><.*?>)? (?:(?P<trait>.*) for )?(?P<type>.*?)(?: where .*)? \{")
LIFETIME = re.compile(r"'\w+")


def is_end(name, whole):
    """Whether a name of a function is the end of its whole name."""
    return f"::{whole}".endswith(f"::{name}")


class Function(NamedTuple):
    """A function: the end of its name, with its type if it has one, and else its module; and its first line, the one that its
    body begins in, and its last, from 0."""

    name: str
    first: int
    body: int
    last: int

    def has(self, line):
        return self.first <= line <= self.last


def arguments(text):
    """The words between the outer angle brackets of a type, lifetimes left out: `B` and `C<D>` of `A<'a, B, C<D>>`."""
    found, depth = [""], 0
    for letter in text[text.find("<") + 1 : text.rfind(">")] if "<" in text else "":
        depth += {"<": 1, ">": -1}.get(letter, 0)
        if letter == "," and not depth:
            found.append("")
        else:
            found[-1] += letter
    return [it.strip() for it in found if it.strip() and not LIFETIME.fullmatch(it.strip())]


def last_name(text):
    return re.sub(r"<.*", "", text).split("::")[-1].strip("&' ")


def owner(head):
    """How a check names an `impl` block: by its type, the types that this is given, and its trait."""
    found = IMPL.match(head)
    if not found:
        return None
    own = {it.split(":")[0].strip() for it in arguments(found["own"] or "")}
    given = "".join(f"+{last_name(it)}" for it in arguments(found["type"]) if it not in own)
    trait = found["trait"] or ""
    of = "".join(last_name(it) for it in arguments(trait) if it not in own and it != found["type"])
    return last_name(found["type"]) + given + last_name(trait) + of


def module(path):
    """The module of a file below src/, as the parts of its name."""
    parts = path.removeprefix("src/").removesuffix(".rt").split("/")
    return [] if parts in (["lib"], ["main"]) else parts


def head_of_block(lines, at):
    """The head of an `impl` block, which may be split over lines."""
    end = next((it for it in range(at, len(lines)) if lines[it].endswith("{")), at)
    return " ".join(it.strip() for it in lines[at : end + 1])


def functions(path, text):
    """The functions of a file, in their order."""
    lines, found, block = text.split("\n"), [], None
    for at, line in enumerate(lines):
        if line.startswith("impl"):
            block = owner(head_of_block(lines, at))
        elif line.startswith("}"):
            block = None
        head = HEAD.match(line)
        if head:
            indent = head[1]
            is_end = re.compile(rf"^{indent}\}}").match
            last = at if line.endswith("}") else next((it for it in range(at + 1, len(lines)) if is_end(lines[it])), at)
            begins = re.compile(rf"^{indent}(\).*)?\{{$").match
            body = at if line.endswith(("{", "}")) else next((it for it in range(at, last) if begins(lines[it])), last)
            first = at
            while first and lines[first - 1].strip().startswith(("#[", "///", "//")):
                first -= 1
            found.append(Function("::".join([*([block] if indent and block else module(path)), head[2]]), first, body, last))
    return found
