"""Runs the commands of the pages against the built programs. Fails where a page and a program disagree.

In a page a block `console` has commands behind `$ ` and what each writes, standard error last. Of a line of the tally
only the words and `retires` have to be right: the other numbers are those of one run. A block with `file=NAME` is a file
that later commands of the page read. A block `sh` has commands that prove or build: they are not run, and only what they
name has to be there. So has each file that a page links to or names in code, and each place in it: those of DECISIONS and
KIT, the rows of ROWS, and the calls of PROMISES with their clauses. Pages that a script writes are compared with what it writes,
and no page is longer or wider than its limits. `python3 tests/pages.py renew PAGE ..` writes what commands write into these pages.
"""
import glob
import os
import re
import shutil
import subprocess
import sys
import tempfile

from clauses import crates, promises

ROOT = os.getcwd()
PAGES = ["README.md", "crates/README.md", *sorted(f"docs/{it}" for it in os.listdir("docs") if it.endswith(".md")),
         *sorted(glob.glob("examples/lessons/*.md"))]
# what a command of a page may begin with, beside a file of the repository
TOOLS = {"cd", "rm", "git", "grep", "time", "echo", "printf"}
# what a script writes, by the words behind python3
WRITTEN = {
    "crates/README.md": ["tests/map.py"],
    "docs/CLAUSES.md": ["tests/clauses.py", "--page"],
    "docs/TRUSTED.md": ["tests/trusted.py"],
    "docs/unit.svg": ["docs/picture.py"],
}
# how many lines a page may have
MOST_LINES = {"README.md": 110, "docs/CONTRIBUTING.md": 120, "docs/DECISIONS.md": 350}
found = []


def wrong(page, text):
    found.append(f"{page}: {text}")


def blocks(page):
    """The fenced blocks of a page: the words behind the fence, and the lines."""
    with open(page, encoding="utf-8") as it:
        return [(head.split(), body.splitlines()) for head, body in re.findall(r"^```(.*)\n((?:.*\n)*?)```$", it.read(), re.M)]


def prose(page):
    with open(page, encoding="utf-8") as it:
        return re.sub(r"^```.*\n(?:.*\n)*?```$", "", it.read(), flags=re.M)


def place(room):
    """A folder that looks like the repository, where `./ruu` starts the programs that are built, and proves none, as in a package."""
    for it in os.listdir(ROOT):
        if it not in ("ruu", "crates.txt"):
            os.symlink(f"{ROOT}/{it}", f"{room}/{it}")
    shutil.copy("ruu", room)
    os.mkdir(f"{room}/bin")
    for it in os.listdir("crates"):
        if os.access(f"crates/{it}/out/{it}", os.X_OK):
            os.symlink(f"{ROOT}/crates/{it}/out/{it}", f"{room}/bin/{it}")


def told(line):
    """What of a line has to be right."""
    return re.sub(r"(?<!retires) \d+", " N", line) if line.startswith("tally ") else line


def given_by(room, command):
    """The lines that a command writes."""
    went = subprocess.run(["bash", "-c", command], cwd=room, capture_output=True, text=True, errors="replace", timeout=60, stdin=subprocess.DEVNULL)
    # what a command prints behind the program comes behind its standard error
    lines = went.stdout.splitlines()
    last = [lines.pop()] if "; echo " in command and lines else []
    return [*lines, *went.stderr.splitlines(), *last]


def run(page, room, command, wanted):
    given = given_by(room, command)
    if [*map(told, given)] != [*map(told, wanted)]:
        wrong(page, f"$ {command}\n  the page has:\n    " + "\n    ".join(wanted) + "\n  it writes:\n    " + "\n    ".join(given))


def commands_of(page, lines):
    """The commands of a block, each with the lines that the page has after it."""
    commands = []
    for line in lines:
        if line.startswith("$ "):
            commands.append((line[2:], []))
        elif commands:
            commands[-1][1].append(line)
        else:
            wrong(page, f"no command writes {line!r}")
    return commands


def console(page, room, lines):
    commands = commands_of(page, lines)
    for command, wanted in commands:
        run(page, room, command, wanted)
    return len(commands)


def store(room, head, lines):
    """Writes the file that a block is, if it is one."""
    for name in (it[5:] for it in head if it.startswith("file=")):
        with open(f"{room}/{name}", "w", encoding="utf-8") as it:
            it.write("\n".join(lines) + "\n")


def renewed(page, room, head, lines):
    """The lines of a block with what its commands write; where that is what the page has, the page stays."""
    store(room, head, lines)
    if head[:1] != ["console"]:
        return lines
    found = []
    for command, wanted in commands_of(page, lines):
        given = given_by(room, command)
        found += [f"$ {command}", *(wanted if [*map(told, given)] == [*map(told, wanted)] else given)]
    return found


def renew(page):
    """Writes a page anew, with what its commands write."""
    with open(page, encoding="utf-8") as it:
        text = it.read()
    with tempfile.TemporaryDirectory() as room:
        place(room)
        text = re.sub(r"^```(.*)\n((?:.*\n)*?)```$", lambda it: "\n".join(
            [f"```{it[1]}", *renewed(page, room, it[1].split(), it[2].splitlines()), "```"]), text, flags=re.M)
    with open(page, "w", encoding="utf-8") as it:
        it.write(text)


def subcommands():
    """The words that `rt` knows."""
    text = subprocess.run(["rt", "--help"], capture_output=True, text=True, check=False, stdin=subprocess.DEVNULL)
    words = set()
    for line in (text.stdout + text.stderr).splitlines():
        for names in re.findall(r"\brt ([a-z|-]+)", line):
            words.update(names.split("|"))
    return words


def is_command(word, second, known):
    if word == "rt":
        return second in known
    return word in TOOLS or os.access(word.removeprefix("./"), os.X_OK)


def check_commands(page, lines, known):
    """Each command of a block that is not run is one that there is."""
    count = 0
    for line in lines:
        for command in re.split(r"[|;&]+", line.partition(" #")[0].replace("(", "").replace(")", "")):
            words = [it for it in command.split() if "=" not in it]
            if words:
                count += 1
                if not is_command(words[0], words[1] if len(words) > 1 else "", known):
                    wrong(page, f"there is no command {words[0]}")
    return count


def anchors(page):
    heads = re.findall(r"^#+ (.*)$", prose(page), re.M)
    return {re.sub(r"[^\w\- ]", "", it.lower()).replace(" ", "-") for it in heads}


def check_links(page):
    text = prose(page)
    links = re.findall(r"\]\(([^)\s]+)\)", text) + re.findall(r"^\[[^\]]+\]: (\S+)$", text, re.M)
    for link in links:
        if "://" in link:
            continue
        name, _, anchor = link.partition("#")
        at = os.path.normpath(os.path.join(os.path.dirname(page), name)) if name else page
        if not os.path.exists(at):
            wrong(page, f"no file {link}")
        elif anchor and anchor not in anchors(at):
            wrong(page, f"no place {link}")
    return len(links)


def check_spans(page, known):
    """What a page names in code: a command, or a file of the repository."""
    count = 0
    for span in re.findall(r"`([^`\n]+)`", prose(page)):
        words = span.replace("(", " ").replace(")", " ").split()
        if not words or any(it in span for it in ("NAME", "CRATE", "FILE", "WHAT_", "..", "*")):
            continue
        if words[0].startswith("./") or words[0] == "rt" or re.match(r"(docs|tests|examples|benchmarks|crates)/", words[0]):
            count += 1
            second = words[1] if len(words) > 1 else ""
            if words[0] == "rt" and second and second not in known:
                wrong(page, f"there is no command {span}")
            if words[0] != "rt" and not os.path.exists(words[0]):
                wrong(page, f"there is no file {words[0]}")
    return count


def check_rooms(page, names):
    """Each place below `src/`, `specs/`, `proofs/` or `edits/` is in the crate that is named before it, or else in some crate."""
    count = 0
    for line in prose(page).splitlines():
        for span in re.findall(r"`([^`]+)`", line):
            named = re.fullmatch(r"(?:(\w+)/)?((?:src|specs|proofs|edits|more_edits)/[\w./-]+)", span)
            if not named or named[1] == "crates" or ".." in span or "FILE" in span:
                continue
            count += 1
            homes = [named[1]] if named[1] else names
            if not any(os.path.exists(f"crates/{home}/{named[2]}{ending}") for home in homes for ending in ("", ".antt")):
                wrong(page, f"no place {span}")
    return count


def check_places(page):
    """Each entry ends with its places: files below `crates/`, or of the repository, which have the names behind them."""
    count = 0
    for entry in re.findall(r"^- (.*\n(?:  .*\n)*)", prose(page), re.M):
        text = " ".join(entry.split())
        places = re.search(r"[.:] ((?:`[^`]+`(?: \((?:`[^`]+`(?:, )?)+\))?(?:, )?)+)\.$", text)
        if not places:
            wrong(page, f"no place for {text[:60]}")
            continue
        for span, names in re.findall(r"`([^`]+)`(?: \(((?:`[^`]+`(?:, )?)+)\))?", places[1]):
            at = next((it for it in sorted((f"crates/{span}", f"crates/{span}.antt", span), key=os.path.isdir) if os.path.exists(it)), None)
            count += 1
            if at is None:
                wrong(page, f"no file {span}")
            elif names:
                with open(at, encoding="utf-8") as it:
                    text = it.read()
                lost = [it for it in re.findall(r"`([^`]+)`", names) if not re.search(rf"\b{re.escape(it)}\b", text)]
                for name in lost:
                    wrong(page, f"no {name} in {span}")
    return count


def check_rows(page):
    """Each home of a row is a file, has what stands in parentheses behind it, and beside it what it is compared with."""
    rows = re.findall(r"^- (.+?): (`[^`]+/[^`]+`.*)$", prose(page), re.M)
    for row, homes in rows:
        for at, names in re.findall(r"`([^`]+/[^`]+)`(?: \(((?:`[^`]+`(?:, )?)+)\))?", homes):
            beside = re.sub(r"^(examples/drive/.*)\.txt$|^(tests/listings/check/.*)\.s$", r"\1\2.told", at)
            if not os.path.isfile(at) or not os.path.isfile(beside):
                wrong(page, f"no file {beside if os.path.isfile(at) else at}")
                continue
            with open(at, encoding="utf-8", errors="replace") as it:
                text = it.read()
            for name in re.findall(r"`([^`]+)`", names):
                if (f"fn {name}(" if at.endswith((".rt", ".rs")) else name) not in text:
                    wrong(page, f"no {name} in {at}")
    with open(page, encoding="utf-8") as it:
        lines = [line for line in it if line.startswith("- ")]
    if len(rows) != len(lines):
        wrong(page, f"{len(lines) - len(rows)} rows have no home that is a file")
    return len(rows)


def forms():
    """The forms of the page on listings, each with operands that it allows, and with a number past its range."""
    with open("docs/LISTING.md", encoding="utf-8") as it:
        rows = re.findall(r"^- `([a-z]+(?: [^`]*)?)`: ", it.read().partition("## Operations")[2].partition("## Stops")[0], re.M)
    past = {"S16": 32768, "U16": 65536, "U5": 32}
    good, bad = [], []
    for row in rows:
        filled = row
        for name, value in {"rd": "$ra", "rs": "$s0", "rt": "$31", "Label": "here"}.items():
            filled = re.sub(rf"\b{name}\b", lambda _: value, filled)
        for name in past:
            if name in filled:
                bad.append(filled.replace(name, str(past[name])))
                filled = filled.replace(name, "+0x1f")
        good.append(filled)
    return good, bad


def check_forms(room):
    page, (good, bad) = "docs/LISTING.md", forms()
    if len(good) < 44:
        wrong(page, f"{len(good)} forms of operations")
    listing = f"{room}/forms.s"
    for lines, wanted in [(["here:", *good], f"instructions {len(good)}"), *((["here:", it], "fault line 2 BadNumber") for it in bad)]:
        with open(listing, "w", encoding="ascii") as it:
            it.write("\n".join(lines) + "\n")
        went = subprocess.run([f"{room}/ruu", "check", listing], capture_output=True, text=True, check=False)
        if went.stdout.partition("\n")[0] != wanted:
            wrong(page, f"{lines[-1] if len(lines) == 2 else 'all forms'}: {went.stdout or went.stderr}")
    return len(good) + len(bad)


def check_kit():
    """The pages and the programs name one kit, whose logic is that of the kit that is here."""
    kit = subprocess.run(["rt", "version"], capture_output=True, text=True, check=False).stdout.strip()
    said = {}
    for program in ("ruu", "listing"):
        said[program] = subprocess.run([f"crates/{program}/out/{program}", "--version"], capture_output=True, text=True, check=False).stdout
    version = said["ruu"].splitlines()
    named = version[1] if len(version) == 2 else ""
    if said["listing"] != said["ruu"]:
        wrong("listing --version", said["listing"])
    if named.partition(" ")[2] != kit.partition(" ")[2]:
        wrong("ruu --version", f"the kit is {kit}")
    with open("README.md", encoding="utf-8") as it:
        if f"`{named}`" not in it.read():
            wrong("README.md", f"the program says {named}")


def check_written():
    """The pages that a script writes are as it writes them."""
    for page, words in WRITTEN.items():
        written = subprocess.run([sys.executable, *words], capture_output=True, text=True, check=False)
        with open(page, encoding="utf-8") as it:
            if it.read() != written.stdout:
                wrong(page, f"python3 {' '.join(words)} writes another{': ' if written.stderr else ''}{written.stderr.strip()}")


def check_shape(page):
    """No page is longer than its limit, no line of a block is wider than 130 columns, and no cell has over 200 characters."""
    with open(page, encoding="utf-8") as it:
        lines = len(it.readlines())
    if lines > MOST_LINES.get(page, lines):
        wrong(page, f"{lines} lines")
    for _, block in blocks(page):
        for line in block:
            if len(line.expandtabs(8)) > 130:
                wrong(page, f"{len(line.expandtabs(8))} columns: {line}")
    for line in prose(page).splitlines():
        for cell in line.split(" | ") if line.startswith("| ") else []:
            if len(cell.strip("| ")) > 200:
                wrong(page, f"a cell of {len(cell)} characters: {cell[:60]}")


def check_promises():
    """Each call that an entry of the promises names is a public function, and has the clauses that stand in parentheses behind it."""
    page, count, clauses = "docs/PROMISES.md", 0, {}
    for (_, _, function), said in promises(ROOT).items():
        clauses.setdefault(function.rpartition("::")[2], set()).update(name for kind, name, _ in said if kind == "ensures")
    for line in prose(page).splitlines():
        entry = re.match(r"- (?:\*\*.*?\*\*.*?: )?(?:laws? )?((?:`[\w:]+`(?: of `\w+`)?(?:, )?)+)(?: \(|: )", line)
        if entry:
            # behind `of` stands a crate
            names = [it.rpartition("::")[2] for it in re.findall(r"`([\w:]+)`", re.sub(r" of `\w+`", "", entry[1]))]
            named = [it for of in re.findall(r"\(((?:(?:`\w+`|\*result\*)[, ]*)+)\):", line) for it in re.findall(r"`(\w+)`", of)]
            lost = [it for it in names if it not in clauses]
            lost += [it for it in named if not any(it in clauses.get(name, ()) for name in names)]
            for it in lost:
                wrong(page, f"{' '.join(names)}: no {it}")
            count += len(names)
    if count < 70:
        wrong(page, f"{count} calls")
    return count


def has_body(crate):
    """Whether a function of a crate does something: a law does nothing, and is its contract."""
    return any(line.rstrip().endswith("{") for it in glob.glob(f"crates/{crate}/src/*.rt") for line in open(it, encoding="utf-8"))


def check_edits():
    """An edit that has to be refused changes code: one of a definition or a proof shows nothing of a body. That of a law changes it."""
    count = 0
    for crate in crates():
        for edit in sorted(glob.glob(f"crates/{crate}/edits/*.edit")):
            with open(edit, encoding="utf-8") as it:
                files = re.findall(r"^file: (.*)$", it.read(), re.M)
            count += 1
            if not all(it.startswith("src/" if has_body(crate) else "specs/") for it in files):
                wrong("docs/CONTRIBUTING.md", f"{edit} changes no code")
    return count


def main():
    if sys.argv[1:2] == ["renew"]:
        for page in sys.argv[2:]:
            renew(page)
        return 0
    known, names, ran, looked = subcommands(), crates(), 0, 0
    for page in PAGES:
        with tempfile.TemporaryDirectory() as room:
            place(room)
            for head, lines in blocks(page):
                store(room, head, lines)
                if head[:1] == ["console"]:
                    ran += console(page, room, lines)
                elif head[:1] == ["sh"]:
                    looked += check_commands(page, lines, known)
            if page == "docs/LISTING.md":
                ran += check_forms(room)
            if page in ("docs/DECISIONS.md", "docs/KIT.md"):
                looked += check_places(page)
            if page == "docs/ROWS.md":
                looked += check_rows(page)
        looked += check_links(page) + check_spans(page, known) + check_rooms(page, names)
        check_shape(page)
    check_kit()
    check_written()
    looked += check_promises() + check_edits()
    for it in found:
        print(it)
    if ran < 60 or looked < 40:
        print(f"only {ran} commands and {looked} names were found")
        return 1
    print(f"{len(PAGES)} pages: {ran} commands ran as they say, {looked} commands, files and places are there")
    return 1 if found else 0


if __name__ == "__main__":
    sys.exit(main())
