#!/usr/bin/env python3
"""Writes the page of a run: page.py PROGRAM FILE OUT.html [OPTIONS], where PROGRAM takes the word `drive`. The script `ruu` starts
it, and is that program. All that a page shows was told by sessions of `ruu drive`."""
import os
import sys

import session
import words
from words import mistaken
from layout import page_text, pair_text
from listing import Listing, lines_of
from sentences import Teller
from steps import SOUGHT, gathered

NOUNS = {"blocked": "blocked load", "misprediction": "misprediction", "stale": "stale result"}
ANSWERED = {"blocked": "Blocked ", "misprediction": " MISS ", "stale": "Stale "}


def refuse(text):
    """Ends the program where a file cannot be read or written."""
    print(f"ruu: {text}", file=sys.stderr)
    sys.exit(5)


def check_files(asked):
    """Looks at all files, before anything is run."""
    for name in (asked.listing, asked.script or asked.listing):
        try:
            with open(name, "rb") as file:
                file.read(1)
        except OSError as error:
            refuse(f"{name}: {error.strerror}")
    folder = os.path.dirname(asked.out) or "."
    if os.path.isdir(asked.out):
        refuse(f"{asked.out}: the page cannot be written: Is a directory")
    if not os.path.isdir(folder):
        refuse(f"{asked.out}: the page cannot be written: No such file or directory")
    if not os.access(asked.out if os.path.exists(asked.out) else folder, os.W_OK):
        refuse(f"{asked.out}: the page cannot be written: Permission denied")


def tell_steps(run, listing, asked):
    """Puts each step into words."""
    teller = Teller(run, listing)
    for at, step in enumerate(run.steps):
        if at >= asked.first:
            step["words"] = teller.tell(at)
    if run.steps[-1]["kind"] != "end":
        run.steps[-1]["words"] += " The page ends here, and the run goes on."


def units_of(steps):
    """The units that took a job, in their order: `Z` comes before `AA`."""
    return sorted({step["unit"] for step in steps if "unit" in step}, key=lambda name: (len(name), name))


def gathered_of(program, asked, script):
    """The steps of the run in the order that the words ask for, or nothing where no answer is what `--until` looks for."""
    commands = session.shown(session.of_words(program, asked, script), asked.last)
    if asked.until and not any(ANSWERED[asked.until] in exchange.answer for exchange in commands):
        return None
    return gathered(session.with_questions(program, asked, commands), asked)


def sought(program, asked, script):
    """The steps of a run that ends with what `--until` looks for: where no order is given, of the first shuffle that shows it."""
    is_free = not (asked.is_shuffled or asked.is_alone or asked.script)
    for number in session.SHUFFLES if is_free else (asked.shuffle,):
        asked.shuffle = number
        run = gathered_of(program, asked, script)
        if run and run.steps[-1]["kind"] == SOUGHT[asked.until]:
            return run
    where = f"{session.SHUFFLES[-1]} shuffles" if is_free else asked.order
    print(f"ruu: no {NOUNS[asked.until]} in steps {asked.first} to {asked.last} of {where}", file=sys.stderr)
    sys.exit(1)


def shown_run(program, asked):
    """All that the page shows of the run that the words ask for."""
    script = None
    if asked.script:
        with open(asked.script, encoding="utf-8", errors="replace") as file:
            script = file.read()
    run = (sought if asked.until else gathered_of)(program, asked, script)
    if len(run.steps) <= asked.first:
        mistaken(f"--from is past the end: the run has the steps 0 to {len(run.steps) - 1}")
    listing = Listing(lines_of(asked.listing))
    tell_steps(run, listing, asked)
    return {
        "file": os.path.basename(asked.listing), "about": listing.about, "order": asked.order, "first": asked.first, "quiz": asked.is_quiz,
        "ring": asked.ring, "queue": asked.queue, "predictor": asked.predictor,
        "units": units_of(run.steps), "names": [listing.register_name(number) for number in range(34)],
        "listing": listing.rows, "tenants": run.tenants, "steps": run.steps[asked.first:],
    }


def main():
    program, *rest = sys.argv[1:]
    asked = words.read(rest)
    check_files(asked)
    run = shown_run(program, asked)
    other = None if asked.beside is None else shown_run(program, asked.other())
    try:
        with open(asked.out, "w", encoding="utf-8", errors="replace") as out:
            out.write(page_text(run) if other is None else pair_text(run, other))
    except OSError as error:
        refuse(f"{asked.out}: the page cannot be written: {error.strerror}")
    try:
        count = f"{len(run['steps'])} steps" + ("" if other is None else f" beside {len(other['steps'])}")
        os.write(1, os.fsencode(f"{asked.out}: {count}" + (f", {asked.order}" if asked.until else "") + "\n"))
    except OSError as error:
        refuse(f"standard output: {error.strerror}")


if __name__ == "__main__":
    try:
        main()
    except KeyboardInterrupt:
        sys.exit(130)
