#!/usr/bin/env python3
"""Counts the words of the README and of each page of docs/.

    tests/words.py            of the pages as they are
    tests/words.py COMMIT     and beside it as they were at a commit

A word has a letter or a digit. Blocks of code are not counted, and pages that a script writes are counted apart.
"""
import os
import re
import subprocess
import sys

os.chdir(os.path.dirname(os.path.dirname(os.path.realpath(__file__))))
WRITTEN_BY_SCRIPTS = ["docs/CLAUSES.md", "docs/TRUSTED.md"]


def git(*words):
    return subprocess.run(["git", *words], capture_output=True, text=True, check=True).stdout


def pages_of(commit):
    """The pages at a commit, or as they are, each with its text."""
    if commit:
        names = git("ls-tree", "--name-only", commit, "README.md", "docs/").split()
        return {it: git("show", f"{commit}:{it}") for it in names if it.endswith(".md")}
    names = ["README.md", *(f"docs/{it}" for it in os.listdir("docs") if it.endswith(".md"))]
    return {it: open(it, encoding="utf-8").read() for it in names}


def count(text):
    prose = re.sub(r"^```.*\n(?:.*\n)*?```$", "", text, flags=re.M)
    return sum(1 for it in prose.split() if re.search(r"\w", it))


def main(words):
    if len(words) > 1 or words[:1] == ["--help"]:
        print(__doc__, file=sys.stderr)
        return 2
    columns = [pages_of(it) for it in [*words, None]]
    names = sorted({it for column in columns for it in column})
    rows = [(it, [count(column.get(it, "")) for column in columns]) for it in names]
    by_hand = [counts for it, counts in rows if it not in WRITTEN_BY_SCRIPTS]
    by_script = [counts for it, counts in rows if it in WRITTEN_BY_SCRIPTS]
    totals = [("written by hand", by_hand), ("written by scripts", by_script)]
    rows += [(title, [sum(column) for column in zip(*counts)]) for title, counts in totals]
    for name, counts in rows:
        print(f"{name:22}" + "".join(f"{it:8}" for it in counts))
    return 0


if __name__ == "__main__":
    sys.exit(main(sys.argv[1:]))
