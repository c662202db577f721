"""Lists what is promised: of each crate each public function, with the names of its conditions and clauses.

    tests/clauses.py [--text] [FOLDER]   of this repository, or of another checkout of it; with --text each clause whole
    tests/clauses.py --since FOLDER      which functions and clauses of that checkout are not here, or are others here
    tests/clauses.py --page              writes docs/CLAUSES.md: the calls that other crates can make

A line is `crate file function: requires NAME ..; ensures NAME ..`. A clause without a name has the name `-`. What is private
to its file is left out: a function counts if it is `pub`, or is of a trait that is. The page leaves out what a library does
not hand on, programs, the tests, the examples of proof, and what a trait asks for without a clause of its own; it counts the calls that
have one clause without a name, or none. A call that has conditions has a `*` there."""
import functools
import os
import re
import sys
import textwrap

ROOT = os.path.dirname(os.path.dirname(os.path.realpath(__file__)))
HEAD = re.compile(r'^( *)(pub )?(?:const )?(?:unsafe )?(?:extern "C" )?fn (\w+)')
BLOCK = re.compile(r"^( *)(?:(pub) )?(?:unsafe )?(impl|trait)\b(.*)$")
CLAUSE = re.compile(r"^\s+(requires|ensures)(?: \*)?(?: (\w+))? \{")


def closed(lines, at):
    """The text of a clause that begins in a line, to its closing brace, and the line behind it."""
    depth, text = 0, []
    for end in range(at, len(lines)):
        depth += lines[end].count("{") - lines[end].count("}")
        text.append(lines[end].strip())
        if depth <= 0:
            return " ".join(text), end + 1
    return " ".join(text), len(lines)


def owner_of(rest):
    """The type or trait that a block is of, and whether it is of a trait."""
    rest = re.sub(r"<[^<>]*(?:<[^<>]*>[^<>]*)*>", "", rest)
    of = re.match(r"\s*(?:(\w[\w:]*) for )?(\w[\w:]*)", rest)
    return (of[2], bool(of[1])) if of else ("", False)


def clauses_of(file):
    """Of each function of a file that others can call, its clauses: the kind, the name and the text of each."""
    with open(file, encoding="utf-8") as it:
        lines = it.read().split("\n")
    found, block, at = {}, ("", 0, False), 0
    while at < len(lines):
        line = lines[at]
        of, head = BLOCK.match(line), HEAD.match(line)
        at += 1
        if of:
            name, of_trait = owner_of(of[4])
            block = (name, len(of[1]), of_trait or (of[3] == "trait" and bool(of[2])))
        elif line[: block[1] + 1].strip() == "}":
            block = ("", 0, False)
        elif head:
            name = f"{block[0]}::{head[3]}" if block[0] and head[1] else head[3]
            said = []
            while at < len(lines) and not re.match(r"^\s*[{}]", lines[at]) and lines[at - 1].rstrip()[-1:] not in "{;":
                clause = CLAUSE.match(lines[at])
                if clause:
                    text, at = closed(lines, at)
                    said.append((clause[1], clause[2] or "-", text))
                else:
                    at += 1
            if head[2] or (head[1] and block[2]):
                found[name] = said
    return found


def promises(root):
    """Of each public function of each file of each crate, its clauses."""
    found = {}
    for crate in sorted(os.listdir(f"{root}/crates")):
        for folder, _, files in sorted(os.walk(f"{root}/crates/{crate}/src")):
            for name in sorted(it for it in files if it.endswith(".rt")):
                file = os.path.relpath(f"{folder}/{name}", f"{root}/crates/{crate}/src")
                for function, said in clauses_of(f"{folder}/{name}").items():
                    found[crate, file, function] = said
    return found


def line_of(key, said, whole):
    if whole:
        return "\n    ".join([" ".join(key), *(text for _, _, text in said)])
    parts = [f"{word} " + " ".join(name for it, name, _ in said if it == word) for word in ("requires", "ensures")]
    return f"{' '.join(key)}: " + "; ".join(it for it in parts if it.split()[1:])


def compare(old, new):
    """What was promised and is not now. A function that moved to another file or crate counts as there."""
    places, lost = {}, []
    for (_, _, function), said in new.items():
        places.setdefault(function, []).append(said)
    for key, said in old.items():
        now = new.get(key)
        others = [now] if now is not None else places.get(key[2], [])
        texts = {text for it in others for _, _, text in it}
        if not others:
            lost.append(f"gone: {line_of(key, said, False)}")
        lost += [f"other: {' '.join(key)}: {text}" for word, _, text in said if others and word == "ensures" and text not in texts]
        old_conditions = {text for word, _, text in said if word == "requires"}
        if now is not None:
            lost += [f"condition: {' '.join(key)}: {text}" for word, _, text in now if word == "requires" and text not in old_conditions]
    count = lambda of: sum(len([1 for word, _, _ in said if word == "ensures"]) for said in of.values())
    print("\n".join([*lost, f"before: {len(old)} functions, {count(old)} clauses; now: {len(new)}, {count(new)}"]))


def crates():
    """The crates in the order of crates.txt, in which each stands behind those that it calls."""
    with open(f"{ROOT}/crates.txt", encoding="utf-8") as it:
        return [line.split()[0].partition(":")[0] for line in it if line.split() and not line.startswith("#")]


def handed_on(crate):
    """What the root of a library hands on: names, and modules of which it hands on all that is public."""
    src = f"{ROOT}/crates/{crate}/src"
    with open(f"{src}/lib.rt", encoding="utf-8") as it:
        text = it.read()
    names = set()
    for module, items in re.findall(r"^pub use (\w+)::([^;]*);", text, re.M):
        if os.path.exists(f"{src}/{module}.rt"):
            names.update(re.findall(r"(?:\w+ as )?(\w+)", items))
    return names, set(re.findall(r"^pub mod (\w+);", text, re.M))


@functools.cache
def uses(crate):
    """By a file and a name in it, which files hand this on (`pub use FILE::NAME as OTHER`), and what they call it."""
    src, found = f"{ROOT}/crates/{crate}/src", {}
    for folder, _, files in os.walk(src):
        for name in (it for it in files if it.endswith(".rt")):
            below = folder if name == "lib.rt" else f"{folder}/{name[:-3]}"
            with open(f"{folder}/{name}", encoding="utf-8") as it:
                lines = re.findall(r"^pub use ([\w:]+)::(\w+(?: as \w+)?|\{[^}]*\});", it.read(), re.M)
            for module, items in lines:
                file = os.path.relpath(f"{below}/{module.replace('::', '/')}.rt", src)
                for old, other in re.findall(r"(\w+)(?: as (\w+))?", items):
                    found.setdefault((file, old), []).append((os.path.relpath(f"{folder}/{name}", src), other or old))
    return found


def names_at_root(crate, file, name):
    """The names by which the root of a library hands on what has a name in a file."""
    found = [(file, name)]
    for at in found:
        found += [it for it in uses(crate).get(at, []) if it not in found]
    return [name for file, name in found if file == "lib.rt"]


def names_outside(crate, file, function, said):
    """The names by which the page lists a function: other crates can call it, and it has a clause or no trait asks for it."""
    has_clause = any(kind == "ensures" for kind, _, _ in said)
    if not os.path.exists(f"{ROOT}/crates/{crate}/src/lib.rt"):
        return []
    names, modules = handed_on(crate)
    module = re.match(r"\w+", file)[0]
    with open(f"{ROOT}/crates/{crate}/src/{file}", encoding="utf-8") as it:
        is_pub = re.search(rf"^ *pub .*\bfn {function.rpartition('::')[2]}\b", it.read(), re.M)
    if not (has_clause or is_pub):
        return []
    head, *rest = function.split("::")
    found = ["::".join([name, *rest]) for name in names_at_root(crate, file, head)]
    if module == "lib" or module in modules or not names.isdisjoint([head, *rest]):
        found.append(function)
    return sorted(set(found))


def names_of(said, kind):
    """The names of the conditions or clauses of a function, each once, in their order; one without a name is `-`."""
    return list(dict.fromkeys(name for word, name, _ in said if word == kind))


def rows_of(owner, calls):
    """The lines of the page on the calls of one type, or of none, whose clauses have names: those with the same stand in one."""
    alike = {}
    for function, said in calls:
        star = "*" if names_of(said, "requires") else ""
        if has_names(said):
            alike.setdefault(tuple(names_of(said, "ensures")), []).append(function.rpartition("::")[2] + star)
    for gives, names in alike.items():
        of = ", ".join(names)
        call = f"{owner}::{{{of}}}" if owner and len(names) > 1 else f"{owner}::{of}" if owner else of
        yield textwrap.fill(f"{call}: {' '.join(gives)}", 100, initial_indent=" " * 4, subsequent_indent=" " * 8)


def has_names(said):
    return names_of(said, "ensures") not in ([], ["-"])


# crates whose calls the page leaves out: tests, and examples of proof
LEFT_OUT = ["proved_tests", "in_order_issue", "lookahead", "load_ahead", "dual_issue", "client"]
PAGE = """# Calls and their clauses

Written by `tests/clauses.py --page`; [PROMISES.md](PROMISES.md) says what the clauses mean. A line has public calls of one type, or
functions of none, and after the colon the names of their clauses (`ensures`), `-` for one without a name; `*` marks a call with
conditions (`requires`). `+ n` counts calls with one clause, without a name, or none. Without a clause too a call does nothing
undefined, and returns if it takes neither `Wait` nor `Threads`. Programs, tests and examples of proof are left out.
"""


def page():
    found, lines = promises(ROOT), [PAGE]
    for crate in crates():
        of_crate = {key[1:]: said for key, said in found.items() if key[0] == crate}
        calls = {}
        for (file, function), said in of_crate.items():
            for name in [] if crate in LEFT_OUT else names_outside(crate, file, function, said):
                calls.setdefault(name.rpartition("::")[0], []).append((name, said))
        if calls:
            others = sum(not has_names(said) for of in calls.values() for _, said in of)
            lines += [f"## {crate}\n", *(row for owner, of in calls.items() for row in rows_of(owner, of))]
            lines += [f"    + {others}", ""] if others else [""]
    return "\n".join(lines).rstrip("\n")


def main(words):
    if words == ["--page"]:
        print(page())
        return 0
    if words[:1] == ["--since"] and len(words) == 2 and os.path.isdir(f"{words[1]}/crates"):
        compare(promises(words[1]), promises(ROOT))
        return 0
    whole = words[:1] == ["--text"]
    words = words[whole:]
    if len(words) > 1 or words[:1] and not os.path.isdir(f"{words[0]}/crates"):
        print(__doc__, file=sys.stderr)
        return 2
    for key, said in promises(words[0] if words else ROOT).items():
        print(line_of(key, said, whole))
    return 0


if __name__ == "__main__":
    sys.exit(main(sys.argv[1:]))
