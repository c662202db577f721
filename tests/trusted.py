#!/usr/bin/env python3
"""Writes the page of the definitions that have to be read to believe the theorem: tests/trusted.py > docs/TRUSTED.md

From the definition of each promise it follows what that cites, file by file, and counts lines without comments and imports."""
import os
import re

ROOT = os.path.dirname(os.path.dirname(os.path.realpath(__file__)))
CITED = re.compile(r"^(?:pub )?use Rattle\.(\w+)\.specs\.([\w.]+)\.\{", re.M)
ROOTS = {
    "the unit is right": "inorder/specs/Theorem",
    "bytes to bytes": "answers/specs/Answer",
    "one legal history": "inorder/specs/OneHistory",
    "no lost wake": "inorder/specs/Wakes",
    "runs on threads": "committing/specs/RunEnds",
}

PAGE = """# What has to be read to believe it

Written by `tests/trusted.py`.

## How the parts stand on each other

1. **The theorem** (`instructions`, `lsq`, `inorder`) speaks of a unit as a list of in-flight instructions (*tenants*) and of the
   steps that may be made on it. It knows no word, thread or schedule: in each unit that legal steps reach, what has retired is the
   in-order machine's.
2. **One thread** (`one_thread`, `streaming`, `bench`): each turn is such a step, so the theorem holds of the run, and a measure says that it ends.
3. **Shared words** (`ruu_words`, `station`): a rule says of each step on a word which step of a unit it is. The rule is proved
   of each call on its own, whatever others do between its steps; so all calls together make one history of legal steps.
4. **The front and the back** (`front`, `back`, `snapshots`) hold the right to their steps, and what they have seen as a ghost value.
5. **Threads** (`pool` and below) call these and wait. No clause depends on who runs when; that a run ends is tested.
6. **Tools** read a listing and show an answer. What they write is a function of the run below them.

## The definitions

A proof says that code meets its clauses, and not that these say what is meant: for that a reader reads the {total} lines of
definitions that the five promises cite. Comments and imports are not counted. Proofs, code and other definitions need no reading:
the check reads them.

| promise | definition | lines that it cites |
|---|---|---|
{promises}

By crate and file of `specs/`, with lines:

{files}

## What is trusted beside

- The check: the toolchain's kernel, its model of machine instructions, and the clauses of the kit's libraries.
- The compilers: LLVM, and Rattle's own, with which each program is run as well.
- The C library (`libruu_judge` has three axioms on its allocator), the operating system and the processor; standard streams and
  files pass on their bytes.
"""


def cited(file):
    """The files of definitions that a file cites, of this repository."""
    with open(f"{ROOT}/crates/{file}.antt", encoding="utf-8") as it:
        found = CITED.findall(it.read())
    names = [f"{crate}/specs/{path.replace('.', '/')}" for crate, path in found if not path.startswith("declared")]
    return [it for it in names if os.path.isfile(f"{ROOT}/crates/{it}.antt")]


def below(file):
    """A file of definitions with all that it cites, directly or not."""
    found, left = set(), [file]
    while left:
        name = left.pop()
        if name not in found:
            found.add(name)
            left += cited(name)
    return found


def lines(file):
    with open(f"{ROOT}/crates/{file}.antt", encoding="utf-8") as it:
        return sum(bool(line.strip()) and not re.match(r"\s*--|(pub )?use ", line) for line in it)


def main():
    of = {promise: below(root) for promise, root in ROOTS.items()}
    every = set().union(*of.values())
    order = [line.split(":")[0] for line in open(f"{ROOT}/crates.txt", encoding="utf-8") if re.match(r"\w", line)]
    order = [it.split()[0] for it in order]
    promises = "\n".join(f"| {it} | [`{ROOTS[it]}`](../crates/{ROOTS[it]}.antt) | {sum(map(lines, of[it]))} |" for it in ROOTS)
    files = []
    for crate in order:
        own = sorted(it for it in every if it.startswith(f"{crate}/"))
        if own:
            files.append(f"- `{crate}`, {sum(map(lines, own))}: " + ", ".join(f"`{it.split('/')[-1]}` {lines(it)}" for it in own))
    print(PAGE.format(total=sum(map(lines, every)), promises=promises, files="\n".join(files)), end="")


main()
