#!/usr/bin/env python3
"""Writes the page of the crates: tests/map.py > crates/README.md

The sections are those of crates.txt: each begins with its title, as a comment, and ends with an empty line. What a crate is comes from the first
sentence of its root. A crate has to stand on crates of earlier lines alone, and each folder of crates/ has to have its line.
"""
import os
import re
import sys

ROOT = os.path.dirname(os.path.dirname(os.path.realpath(__file__)))

PAGE = """# The crates

Written by `tests/map.py` from `crates.txt` and the first sentence of each crate's root.

```text
{picture}
```

The picture has the main crates. The sections below have all, the lowest first: a crate stands on crates that come before it.

**Where to begin.** `inorder/specs/Theorem.antt` states what is proved, over the unit of `inorder/specs/Unit.antt` and the
operations of `instructions/specs/Operations.antt`. `one_thread/src/bench.rt` is that unit by one thread. What threads share
begins with the words of `ruu_words/specs`, `station` has each call on them, and `run/src/main.rt` leads through `on_threads` to
`pool`, where the threads start. [CONTRIBUTING](../docs/CONTRIBUTING.md) tells a crate's folders.

{sections}"""

PICTURE = """\
 alone    chart               ruu      run    drive            listing
   |        |                  |        |       |                 |
   +--------+-------------- command     |       |            disassembly
            |                  |        |       |                 |
          bench                +--- on_threads  |                elf
            |                           |       |
        streaming                     pool   session
            |                           |       |
       one_thread                       +---+---+
            |                               |
            |                         front   back -- snapshots
            |                             \\   /
            |                            station      seats and their calls
            |                               |
            |                           ruu_words     the shared words and their rule
            |                               |
            +---------------+---------------+
                            |
    commit_log, judge -- inorder -- lsq               the in-order machine, the unit as
                            |                         definitions, and the theorem
                      instructions -- isa -- lexical  operations; listings"""


def sections():
    """The sections of crates.txt, each a title and its lines: a crate and the libraries that it uses."""
    with open(f"{ROOT}/crates.txt", encoding="utf-8") as it:
        paragraphs = [it.split("\n") for it in it.read().strip().split("\n\n")]
    found = []
    for lines in paragraphs:
        crates = [it.partition(":")[::2] for it in lines if not it.startswith("#")]
        if crates:
            found.append((lines[0].removeprefix("# "), [(head.split()[0], libraries.split()) for head, libraries in crates]))
    return found


def faults(found):
    """What is wrong with the list: a crate above one that stands on it, a line without a folder or a folder without a line."""
    names = [name for _, lines in found for name, _ in lines]
    folders = [it for it in os.listdir(f"{ROOT}/crates") if os.path.isdir(f"{ROOT}/crates/{it}/src")]
    wrong = [f"{name} is no folder" for name in names if name not in folders]
    wrong += [f"{it} has no line" for it in sorted(folders) if it not in names]
    for at, (name, libraries) in enumerate(line for _, lines in found for line in lines):
        wrong += [f"{name} stands before {it}, which it uses" for it in libraries if it in names[at:]]
    return wrong


def first_sentence(crate):
    """What the root of a crate says of it, up to the first full stop, or to a colon or semicolon after more than two words, or to a
    comma after more than seven."""
    src = f"{ROOT}/crates/{crate}/src"
    root = next(it for it in (f"{src}/lib.rt", f"{src}/main.rt") if os.path.exists(it))
    said = []
    with open(root, encoding="utf-8") as it:
        for line in it:
            if not line.startswith("//!"):
                break
            said.append(line[3:].strip())
    sentence = re.split(r"(?<=\.)\s", " ".join(said))[0].rstrip(".")
    for end, least in (("[:;]", 3), (";", 3), (",", 8)):
        title = re.split(end, sentence)[0]
        sentence = title if len(title.split()) >= least else sentence
    return sentence


def main():
    found = sections()
    wrong = faults(found)
    if wrong:
        sys.exit("crates.txt: " + "; ".join(wrong))
    text = [f"## {title}\n\n" + "\n".join(f"- [`{name}`]({name}): {first_sentence(name)}" for name, _ in lines) for title, lines in found]
    print(PAGE.format(picture=PICTURE, sections="\n\n".join(text)))


if __name__ == "__main__":
    main()
