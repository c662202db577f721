"""The edits: wrong bodies, each of which a check has to refuse.

    tests/edits.py                 looks that each edit applies: each text that it replaces stands once in its file; and tries those
                                   of the crates' folders `edits`
    tests/edits.py --all CRATE ..  tries those of `more_edits` too, of the crates named, or of all

The last line is 'N refused, M not refused'. What the crates stand on is proved first: with BUILT=1 that was done just now.

An edit is refused if a check says of the source that something is not proved: a clause, an invariant, or what a call or an
operation asks for. An answer in `proofs/` that does not fit the wrong body is no refusal, since another one may fit. Where only an
answer would be in the way, a line `unanswered: FILE GOAL` of the edit names the goal that is false of the wrong body: it is tried
without that answer, beside all others.

One check tries many. A function is proved from the contracts of those that it calls and never from their bodies, so an edit of
one body opens goals of that function alone, and a check of one takes most of its time to read what it stands on. A check takes
at most one edit of each function. If no goal is open in it, but the function calls one that is not proved, the edit waits for the
next check. If a goal is open in a function that no edit of the check changes, or if no edit would be settled, each of them is tried
alone. So is an edit of what stands in no body: by a check of what its line `function: MODULE::NAME` names, or of the whole crate."""
import concurrent.futures
import os
import re
import shutil
import subprocess
import sys
import tempfile
from typing import NamedTuple

ROOT = os.path.dirname(os.path.dirname(os.path.realpath(__file__)))
MEMORY = 2_000_000_000
FOLDERS = ("edits", "more_edits")

sys.dont_write_bytecode = True
sys.path.insert(0, f"{ROOT}/tests")
from built import rtlib  # noqa: E402
from functions import functions, is_end  # noqa: E402


class Change(NamedTuple):
    path: str
    old: str
    new: str


class Edit:
    """An edit as its file has it: its changes, each within a line, and where it has to be refused, if it says so."""

    def __init__(self, crate, folder, file):
        self.name, self.changes, self.named, self.unanswered = f"{crate}/{folder}/{file}", [], [], []
        with open(f"{ROOT}/crates/{self.name}", encoding="utf-8") as it:
            lines = it.read().split("\n")
        path, old = "", None
        for line in lines:
            word, _, rest = line.partition(": ") if not line.startswith("new:") else ("new", "", line[5:])
            if word == "function":
                self.named.append(rest.strip())
            elif word == "unanswered":
                self.unanswered.append(tuple(rest.split()))
            elif word == "file":
                path = rest.strip()
            elif word == "old":
                old = rest
            elif word == "new" and path and old:
                self.changes.append(Change(path, old, rest))
                old = None

    def apply(self, texts):
        """Makes the changes in the texts of a crate's files, by their paths, and returns why they cannot be made."""
        for path, old, new in self.changes:
            if path not in texts:
                return f"there is no file {path}"
            if texts[path].count(old) != 1:
                return f"an old text is in {path} {texts[path].count(old)} times, and not once"
            texts[path] = texts[path].replace(old, new)
        for path, goal in self.unanswered:
            answers = texts.get(path, "").split("\n\n")
            texts[path] = "\n\n".join(it for it in answers if not re.search(rf"^pub {re.escape(goal)} :", it, re.M))
            if len(texts[path].split("\n\n")) == len(answers):
                return f"there is no answer {goal} in {path}"
        return None if self.changes else "it replaces nothing"

    def bodies(self, texts):
        """The functions whose bodies it changes, or none where it changes anything else."""
        after, found = dict(texts), set()
        if self.apply(after):
            return set()
        for path in {it.path for it in self.changes}:
            pairs = zip(texts[path].split("\n"), after[path].split("\n"), strict=False)
            known = functions(path, texts[path]) if path.startswith("src/") else []
            for at in [at for at, (one, other) in enumerate(pairs) if one != other]:
                inner = next((it for it in reversed(known) if it.has(at)), None)
                if not inner or at < inner.body:
                    return set()
                found.add(inner.name)
        return found


def edits_of(crate, folders):
    at = [(folder, f"{ROOT}/crates/{crate}/{folder}") for folder in folders]
    return [Edit(crate, folder, it) for folder, path in at if os.path.isdir(path) for it in sorted(os.listdir(path)) if it.endswith(".edit")]


def texts_of(crate):
    """The texts of a crate's files, by their paths."""
    found, base = {}, f"{ROOT}/crates/{crate}"
    for part in ("src", "specs", "proofs"):
        for at, _, names in os.walk(f"{base}/{part}"):
            for path in (f"{at}/{name}" for name in names):
                with open(path, encoding="utf-8") as it:
                    found[os.path.relpath(path, base)] = it.read()
    return found


def run(words, folder):
    return subprocess.run(words, cwd=folder, stdin=subprocess.DEVNULL, stdout=subprocess.PIPE, stderr=subprocess.STDOUT, text=True, errors="replace")


class Trial:
    """What a check of some functions of a crate, or of all, says of these texts of its files."""

    # a goal of the source that is not proved; and an answer that does not fit
    OPEN = re.compile(r"note: (?:\./)?(src/\S+?):(\d+):\d+: it is not proved that")
    UNFIT = re.compile(r"(?:note: )?(?:\./)?(proofs/\S+/Answers\.antt):\d+:\d+: .*")

    def __init__(self, words, room, texts, names):
        shutil.rmtree(f"{room}/crate", ignore_errors=True)
        for path, text in texts.items():
            os.makedirs(os.path.dirname(f"{room}/crate/{path}"), exist_ok=True)
            with open(f"{room}/crate/{path}", "w", encoding="utf-8") as it:
                it.write(text)
        went = run([*words, "--incremental", f"{room}/kept", *(f"--only={it}" for it in names)], f"{room}/crate")
        self.texts, self.output = texts, went.stdout
        self.is_over = went.returncode in (0, 1) and bool(re.search(r"^(only=\d+ proved=\d+$|logic=)", self.output, re.M))
        self.told = dict(re.findall(r"^fn \w+::(\S+): (.*)$", self.output, re.M))
        lines = self.output.split("\n") if self.is_over and went.returncode else []
        self.open = [it for it in lines if self.OPEN.match(it)]
        self.unfit = {}
        for found in filter(None, map(self.UNFIT.match, lines)):
            self.unfit.setdefault(found[1], found[0])

    def is_proved(self, name):
        return any(is_end(name, whole) and told in ("proved", "proved, may wait") for whole, told in self.told.items())

    def answer_of(self, name):
        """What is said of the answers of a function, where one does not fit."""
        return next((line for path, line in self.unfit.items() if is_end(name, "::".join(path.split("/")[1:-1]))), None)

    def where(self, line):
        """The function in which a goal is open."""
        path, at = self.OPEN.match(line)[1], int(self.OPEN.match(line)[2]) - 1
        return next((it.name for it in reversed(functions(path, self.texts[path])) if it.has(at)), path)


class Trials:
    """The trials of a crate's edits."""

    def __init__(self, crate, words, room, edits):
        self.words, self.room, self.texts = words, room, texts_of(crate)
        self.refused, self.missed = [], []
        is_grouped = [not it.named and bool(it.bodies(self.texts)) for it in edits]
        self.waiting = [it for it, holds in zip(edits, is_grouped, strict=True) if holds]
        self.alone = [it for it, holds in zip(edits, is_grouped, strict=True) if not holds]

    def run(self):
        while self.waiting:
            self.try_group()
        for it in self.alone:
            self.try_alone(it)
        return len(self.refused), len(self.missed)

    def next_group(self):
        """The edits of the next check, by the functions that each changes, and the files' texts with them."""
        chosen, texts, later = {}, dict(self.texts), []
        for it in self.waiting:
            names = it.bodies(self.texts)
            if names & chosen.keys() or it.apply(texts):
                later.append(it)
            else:
                chosen.update(dict.fromkeys(names, it))
        self.waiting = later
        return chosen, texts

    def try_group(self):
        chosen, texts = self.next_group()
        trial, goals = Trial(self.words, self.room, texts, chosen), {}
        for line in trial.open:
            goals.setdefault(trial.where(line), line)
        edits, unsettled = list(dict.fromkeys(chosen.values())), []
        if not trial.is_over or goals.keys() - chosen.keys():
            self.alone += edits
            return
        for it in edits:
            names = [name for name, edit in chosen.items() if edit is it]
            goal = next((goals[name] for name in names if name in goals and not trial.is_proved(name)), None)
            unfit = next((trial.answer_of(name) for name in names if trial.answer_of(name)), None)
            if goal or unfit or all(trial.is_proved(name) for name in names):
                self.tell(it, goal, unfit or f"proved: {', '.join(names)}")
            else:
                unsettled.append(it)
        is_stuck = len(unsettled) == len(edits)
        (self.alone if is_stuck else self.waiting).extend(unsettled)

    def try_alone(self, edit):
        texts = dict(self.texts)
        fault = edit.apply(texts)
        if fault:
            self.tell(edit, None, fault)
            return
        trial = Trial(self.words, self.room, texts, edit.named or edit.bodies(self.texts))
        self.tell(edit, next(iter(trial.open), None), next(iter(trial.unfit.values()), trial.output[-2000:]))

    def tell(self, edit, goal, why):
        (self.refused if goal else self.missed).append(edit)
        print(f"{edit.name}: {f'refused, as it must be: {goal[:160]}' if goal else f'NOT REFUSED: {why}'}", flush=True)


# The kit's own module gives the words of a check: `rt check` would build anew the libraries that `rt ci` leaves, which have no stamp.
KIT = rtlib()
CRATES = {it.name: it for it in KIT.crates_below(ROOT)}


def is_built(names):
    """Whether all below these crates is built."""
    lower = sorted({it.name for name in names for it in CRATES[name].below()})
    return not lower or not subprocess.run([f"{ROOT}/prove", *lower], check=False).returncode


def trials(name, edits):
    words = [KIT.RATTLE, "check", *CRATES[name].words(["--jobs", "1"], keeps=False)]
    with tempfile.TemporaryDirectory(prefix="edits-") as room:
        return Trials(name, words, room, edits).run()


def look(names):
    """Whether each edit applies, and no two of a crate have one name."""
    wrong, count = [], 0
    for name in names:
        texts, seen = texts_of(name), set()
        for it in edits_of(name, FOLDERS):
            file, count = os.path.basename(it.name), count + 1
            fault = it.apply(dict(texts)) or (f"another is named {file}" if file in seen else None)
            seen.add(file)
            wrong += [f"{it.name}: {fault}"] if fault else []
    print("\n".join([*wrong, f"{count} edits, {count - len(wrong)} of which apply"]), flush=True)
    return bool(count) and not wrong


def try_all(names, folders):
    found = {name: edits_of(name, folders) for name in names}
    names = sorted((it for it in names if found[it]), key=lambda it: -len(found[it]))
    if not os.environ.get("BUILT") and not is_built(names):
        return 1
    lanes = min(len(os.sched_getaffinity(0)), os.sysconf("SC_PHYS_PAGES") * os.sysconf("SC_PAGE_SIZE") // MEMORY)
    with concurrent.futures.ThreadPoolExecutor(max(lanes, 1)) as pool:
        counts = [*pool.map(lambda it: trials(it, found[it]), names)]
    refused, missed = (sum(it[at] for it in counts) for at in (0, 1))
    print(f"{refused} refused, {missed} not refused")
    return 1 if missed else 0


def main(words):
    known = sorted(it for it in os.listdir(f"{ROOT}/crates") if os.path.isdir(f"{ROOT}/crates/{it}/src"))
    names = words[1:] or known
    unknown = [it for it in names if it not in known]
    if words and words[0] != "--all" or unknown:
        print(f"edits: there is no crate {unknown[0]}" if unknown else __doc__, file=sys.stderr)
        return 2
    if words:
        return try_all(names, FOLDERS)
    return try_all(known, FOLDERS[:1]) if look(known) else 1


if __name__ == "__main__":
    sys.exit(main(sys.argv[1:]))
