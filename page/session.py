"""Sessions of `ruu drive`: the commands of a run, shuffled, by a script or the order of one thread, and the questions asked between them."""
import subprocess
import sys

ASKED = ("table", "queue", "report")
# How many commands a shuffle may choose for each step that is shown: some change nothing.
COMMANDS_A_STEP = 10
MOST_COMMANDS = 1000000
# The greatest count before a command.
MOST_TIMES = 1000
# Shuffles that are tried until one shows what is looked for.
SHUFFLES = range(1, 201)
# First words of the answers that show in a page; another answer says that a command changed nothing.
TELLING = {"Let", "Job", "Finished", "Stale", "Loaded", "Blocked", "Retired", "Half", "Ended", "Mended", "Idle", "Renewed"}
# Commands of a script that only ask, and those that stand for several.
ASKING = {"help", "list", "look", "info", "creator", "touched", "operand", "link", "station", "ring", "table", "queue", "report"}
SEVERAL = {"step", "until"}
# Commands of a script that an undo does not take back.
STAYING = ASKING | {"quit", "undo"}


class Exchange:
    """One command and the lines of its answer."""

    def __init__(self, command, *lines):
        self.command = command
        self.lines = [*lines]

    @property
    def answer(self):
        return self.lines[0] if self.lines else ""

    @property
    def is_telling(self):
        told = self.answer.split(" ")[0]
        # a refresh is idle too, where there is no load
        return told in TELLING and (told != "Idle" or self.word == "rest")

    @property
    def word(self):
        return self.command.split(" ")[0]


def exchanges(transcript):
    """The exchanges of a transcript in which each command stands after `> `."""
    found = []
    for line in transcript.splitlines():
        if line.startswith("> "):
            found.append(Exchange(line[2:]))
        elif found:
            found[-1].lines.append(line)
    return found


def driven(program, words, more, script):
    """The transcript of a session. A listing with a fault, a script that has a line which is no command, or a file that cannot be
    read ends the program."""
    command = [program, "drive", *words.of_the_unit(), "--echo", *more, "--", words.listing]
    done = subprocess.run(command, input=script, stdout=subprocess.PIPE, stderr=None, text=True, errors="replace", check=False)
    if done.returncode == 2:
        print(f"{words.listing}: {done.stdout.strip()}", file=sys.stderr)
    if done.returncode == 1:
        wrong = next(it.answer for it in exchanges(done.stdout) if it.answer.startswith("line "))
        print(f"ruu: {words.script}: {wrong}", file=sys.stderr)
    if done.returncode != 0:
        sys.exit(done.returncode)
    return exchanges(done.stdout)


def shuffled(program, words):
    """The commands that the number chooses, with their answers, up to the end of the run."""
    count = min(MOST_COMMANDS, COMMANDS_A_STEP * (words.last + 1))
    found = driven(program, words, ["--shuffle", str(words.shuffle), "--steps", str(count)], "")
    return [exchange for exchange in found if exchange.command not in ASKED]


def command_of(line, jobs):
    """The command that one line of the answer to `step` stands for, or none. `jobs` has who holds which job."""
    told = line.split(" ")
    if told[0] == "Job":
        jobs["A"] = told[2:5:2]
        return f"claim A {told[2]}"
    if told[0] in ("Finished", "Stale"):
        unit = next(unit for unit, job in jobs.items() if job == told[2:5:2])
        del jobs[unit]
        return f"finish {unit} {told[2]}"
    return {"Let": "turn", "Mended": "recover", "Loaded": "refresh", "Blocked": "refresh", "Retired": "commit", "Half": "commit", "Ended": "commit"}.get(told[0])


def note_job(exchange, jobs):
    """Notes who holds a job after a command that stands for itself."""
    told = exchange.answer.split(" ")
    unit = exchange.command.split(" ")[1] if exchange.word in ("claim", "finish") else None
    if told[0] == "Job":
        jobs[unit] = told[2:5:2]
    elif told[0] in ("Finished", "Stale"):
        del jobs[unit]
    elif told[0] == "Renewed":
        jobs.clear()


def one_by_one(found):
    """Commands with their answers, each of which stands for itself: `step` and `until` are taken apart."""
    jobs = {}
    for exchange in found:
        if exchange.word in SEVERAL:
            for line in exchange.lines:
                if command := command_of(line, jobs):
                    yield Exchange(command, line)
        else:
            note_job(exchange, jobs)
            yield exchange


def of_script(program, words, script):
    """The commands of a script with their answers, up to `quit`, and without those that only ask."""
    for exchange in one_by_one(it for it in driven(program, words, [], script) if it.command):
        if exchange.word == "quit":
            return
        if exchange.word not in ASKING:
            yield exchange


def script_in(text):
    """The script that a text is, or the lines after `> ` of a transcript, each in its line and without its comment."""
    lines = text.splitlines()
    if any(line.startswith("> ") for line in lines):
        lines = [line[2:] if line.startswith("> ") else "" for line in lines]
    return [plain(line.partition("#")[0].split()) for line in lines]


def one_script(commands):
    """The script of these commands in which none has a count, and none is undone."""
    done = []
    for words in commands:
        times, words = (int(words[0]), words[1:]) if len(words) > 1 and words[0].isdigit() else (1, words)
        for _ in range(min(times, MOST_TIMES)):
            if words == ["undo"]:
                last = next((at for at in reversed(range(len(done))) if done[at] and done[at][0] not in STAYING), len(done))
                del done[last:last + 1]
            else:
                done.append(words)
    return text_of(done)


def text_of(commands):
    return "".join(" ".join(words) + "\n" for words in commands)


def plain(words):
    """The words of a command, with the unit's name in capital letters."""
    return [words[0], words[1].upper(), *words[2:]] if len(words) > 1 and words[0] in ("claim", "finish") else words


def of_words(program, words, script):
    """The commands of the run that is asked for, with their answers."""
    if script is not None:
        commands = script_in(script)
        # a line that is no command is told by its number
        driven(program, words, [], text_of(commands))
        return of_script(program, words, one_script(commands))
    if words.is_alone:
        return of_script(program, words, f"step {words.last + 1}\n")
    return shuffled(program, words)


def shown(commands, most):
    """As many of the commands as show `most` steps. A load may be told several times that it is held up, and that shows once."""
    count, found = 0, []
    for exchange in commands:
        count += exchange.is_telling and not exchange.answer.startswith("Blocked")
        if count > most:
            break
        found.append(exchange)
    return found


def with_questions(program, words, commands):
    """The commands once more, with all questions before the first one and after each that told something."""
    lines = [*ASKED]
    for exchange in commands:
        lines.append(exchange.command)
        if exchange.is_telling:
            lines += ASKED
    return driven(program, words, [], "\n".join(lines) + "\n")
