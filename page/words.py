"""The words of `ruu page`: the two files and the options, or a mistake that is told with status 3."""
import copy
import os
import sys

MOST = 2 ** 64 - 1
NUMBERS = {"--shuffle": (0, MOST), "--beside": (0, MOST), "--lsq-size": (2, 32), "--from": (0, 100000), "--steps": (1, 10000)}
LISTED = {"--ruu-size": ("2", "4", "8", "16", "32"), "--bpred": ("nottaken", "taken", "bimod"),
          "--until": ("blocked", "misprediction", "stale")}
FILES = {"--script"}
FLAGS = {"--alone", "--quiz"}
STANDARD = {"--ruu-size": "8", "--bpred": "bimod", "--from": "0", "--steps": "2000"}
# Each says in which order the steps come.
ORDERS = ("--shuffle", "--script", "--alone")


class Words:
    """The listing's file, the page's file and the value of each option."""

    def __init__(self, files, options):
        self.listing, self.out = files
        self.shuffle = int(options.get("--shuffle", "1"))
        self.is_shuffled = "--shuffle" in options
        self.script = options.get("--script")
        self.is_alone = "--alone" in options
        self.is_quiz = "--quiz" in options
        self.beside = int(options["--beside"]) if "--beside" in options else None
        self.first = int(options["--from"])
        self.steps = int(options["--steps"])
        self.until = options.get("--until")
        self.ring = int(options["--ruu-size"])
        self.queue = int(options.get("--lsq-size", min(8, self.ring)))
        self.predictor = options["--bpred"]

    def of_the_unit(self):
        """The options that `ruu drive` shares."""
        return ["--ruu-size", str(self.ring), "--lsq-size", str(self.queue), "--bpred", self.predictor]

    def other(self):
        """The words of the page beside this one: its order is another shuffle."""
        other = copy.copy(self)
        other.shuffle, other.script, other.is_alone = self.beside, None, False
        return other

    @property
    def last(self):
        """How many steps of the run are looked at."""
        return self.first + self.steps - 1

    @property
    def order(self):
        """The order of the steps in words."""
        return f"script {os.path.basename(self.script)}" if self.script else "the order of chart" if self.is_alone else f"shuffle {self.shuffle}"


def mistaken(text):
    """Ends the program with a mistake in its words."""
    print(f"error: {text}\n\nFor more information, try 'ruu page --help'.", file=sys.stderr)
    sys.exit(3)


def checked(name, value):
    """The value of an option, if it has one of its values."""
    if name in FILES:
        return value
    if name in LISTED:
        if value not in LISTED[name]:
            mistaken(f"{name} takes {', '.join(LISTED[name][:-1])} or {LISTED[name][-1]}")
        return value
    least, most = NUMBERS[name]
    if not (value.isascii() and value.isdigit() and len(value) <= 20 and least <= int(value) <= most):
        mistaken(f"{name} takes a number from {least} to {most}")
    return value


def value_of(name, is_joined, value, words):
    """The value that an option has, joined or as the next word."""
    if name in FLAGS:
        if is_joined:
            mistaken(f"{name} takes no value")
        return ""
    value = value if is_joined else next(words, None)
    if value is None:
        mistaken(f"{name} takes a value")
    return checked(name, value)


def split(words):
    """The files and the options, as they stand."""
    files, options, words = [], {}, iter(words)
    for word in words:
        if word == "--":
            files += words
        elif not word.startswith("-") or word == "-":
            files.append(word)
        else:
            name, is_joined, value = word.partition("=")
            if name not in NUMBERS | LISTED and name not in FILES | FLAGS:
                mistaken(f"there is no option {name}")
            if name in options:
                mistaken(f"{name} is given twice")
            options[name] = value_of(name, is_joined, value, words)
    return files, options


def read(words):
    """The words of the command line, each with its value."""
    files, options = split(words)
    if len(files) != 2:
        mistaken("page takes two files: the listing, and the page that is written")
    if files[0] == "-":
        mistaken("the listing is read twice, and FILE cannot be -")
    if files[1] == "-":
        mistaken("OUT.html takes a file")
    for name in (files[0], options.get("--script", files[0])):
        if os.path.exists(files[1]) and os.path.exists(name) and os.path.samefile(files[1], name):
            mistaken(f"OUT.html names the file of the {'listing' if name == files[0] else 'script'}")
    orders = [name for name in ORDERS if name in options]
    if len(orders) > 1:
        mistaken(f"{orders[0]} and {orders[1]} are two orders of steps: one of them can be given")
    if "--beside" in options and "--until" in options:
        mistaken("--until ends one run, and takes no --beside")
    found = Words(files, {**STANDARD, **options})
    if found.queue > found.ring:
        mistaken("--lsq-size is at most --ruu-size")
    return found
