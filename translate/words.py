"""The words of `ruu translate`: a file, and the words of `ruu run` after `--run`; or a mistake that is told with status 3."""
import sys


class Words:
    """The program's file, and the options of a run if one is asked for."""

    def __init__(self, file, run):
        self.file, self.run = file, run


def mistaken(text):
    """Ends the program with a mistake in its words."""
    print(f"error: {text}\n\nFor more information, try 'ruu translate --help'.", file=sys.stderr)
    sys.exit(3)


def read(words):
    """The words of the command line."""
    run = None
    if "--run" in words:
        at = words.index("--run")
        words, run = words[:at], words[at + 1:]
    if "--" in words:
        at = words.index("--")
        words, names = words[:at], words[at + 1:]
    else:
        names = []
    for word in words:
        if word.startswith("-") and word != "-":
            mistaken(f"there is no option {word}")
    files = [*words, *names]
    if len(files) != 1:
        mistaken("translate takes one file: the program")
    return Words(files[0], run)
