"""Checks the page of a run against `ruu drive`: page.py LISTING PAGE SEEN ORDER OPTION.., where SEEN is what a browser showed of the
page, or `-`, and ORDER is a shuffle, the file of a script, or `alone`. And page.py PART WHOLE: the steps of a page are those of a
longer one.

The steps come in the order of the shuffle, of the script or of one thread. They are driven once more, and after each every station,
operand, register and commit is asked for by commands of its own: `look`, `info`, `operand`, `creator`, `ring`, `report`. Nothing
of the page's own program is used."""
import json
import re
import subprocess
import sys

HALVES = {"Low": " (LO)", "High": " (HI)"}
WORDS = {"FREE": "free", "BUSY": "executes", "ADDR": "has address", "DONE": "done", "MISS": "mispredicted", "STOP": "would stop"}


def wrong(text):
    sys.exit(f"page: {text}")


def same(what, page, told):
    if page != told:
        wrong(f"{what}: the page has {page}, and drive tells {told}")


def drive(listing, options, script):
    """The answers of a session: pairs of a command and its lines."""
    done = subprocess.run(["crates/drive/out/drive", "drive", "--echo", *options, listing], input=script, stdout=subprocess.PIPE, text=True, check=True)
    blocks = ("\n" + done.stdout).split("\n> ")[1:]
    return [(lines[0], lines[1:]) for lines in (block.rstrip("\n").split("\n") for block in blocks)]


def questions(ring):
    """What is asked at each step, a command a line."""
    found = ["ring", "report"]
    found += [f"{what} {s}" for s in range(ring) for what in ("look", "info", "operand 1", "operand 2")]
    found = [re.sub(r"operand (\d) (\d+)", r"operand \2 \1", it) for it in found]
    return found + [f"creator {r}" for r in range(1, 34)]


def asked_again(listing, options, steps, commands, ring):
    """For each step of the page, the answer of its command and of each question behind it."""
    lines, ends = questions(ring), {step["number"] for step in steps}
    script = [*lines]
    for number, command in enumerate(commands[:steps[-1]["number"]], 1):
        script += [command] + (lines if number in ends else [])
    told = iter(drive(listing, options, "\n".join(script) + "\n"))
    found = [(None, dict(next(told) for _ in lines))]
    for number, command in enumerate(commands[:steps[-1]["number"]], 1):
        answer = next(told)[1]
        if number in ends:
            found.append((answer[0], dict(next(told) for _ in lines)))
    return found


def after(word, text):
    """The word behind this one in an answer, as a number where it is one."""
    found = text.split(f"{word} ", 1)[1].split(" ")[0]
    return int(found, 0) if re.fullmatch(r"\d+|0x[0-9a-f]+", found) else found


def operand_as_told(answer):
    if " VAL " in answer:
        return {"value": after("value", answer)}
    return {"from": after("station", answer), "tag": int(answer.split(" ")[-1])} if " WAIT " in answer else None


def check_station(page, step, number, told, where):
    """A station's tenant, state, value, operands and text."""
    look, info = told[f"look {number}"][0], told[f"info {number}"][0]
    shown = step["stations"].get(str(number))
    if after("state", look) == "FREE":
        return same(f"{where}, station {number}", shown, None)
    if shown is None:
        wrong(f"{where}: station {number} is missing")
    tenant = page["tenants"][shown["tenant"]]
    same(f"{where}, station {number}: state", [shown["tag"], shown["state"], shown["value"]],
         [after("tag", look), after("state", look), after("value", look)])
    same(f"{where}, station {number}: instruction", [(tenant["pc"] - 0x400000) // 4, shown["predicted"]], [after("index", info), after("predicted", info)])
    if not info.endswith(" " + tenant["text"]):
        wrong(f"{where}, station {number}: {tenant['text']} is not in {info}")
    same(f"{where}, station {number}: operands", shown["operands"],
         [operand_as_told(told[f"operand {number} {k}"][0]) for k in (1, 2)])


def check_state(step, told, where):
    """Create vector, ring and committed state."""
    made = {r: told[f"creator {r}"][0] for r in range(1, 34)}
    same(f"{where}: create vector", step["creators"],
         {str(r): [after("station", it), after("tag", it)] for r, it in made.items() if it.startswith("Made")})
    ring = told["ring"][0]
    same(f"{where}: ring", [step["head"], step["tail"], step["next"]], [after("head", ring), after("tail", ring), after("next", ring)])
    report = dict(line.rsplit(" ", 1) for line in told["report"] if not line.startswith(("limit", "stop")))
    same(f"{where}: count", step["count"], int(report.pop("count")))
    same(f"{where}: pc", step["pc"], int(report.pop("pc"), 16))
    names = {"lo": "32", "hi": "33"}
    committed = {"registers": {}, "memory": {}}
    for name, value in report.items():
        part, key = ("memory", str(int(name[2:], 16))) if name.startswith("m ") else ("registers", names.get(name, name[1:]))
        committed[part][key] = int(value, 16)
    same(f"{where}: committed", {part: step[part] for part in committed}, committed)


def check_queue(step, told, where):
    """A row for each load and store in flight, with the address that its station has told."""
    wanted = []
    for number in step["live"]:
        look, operation = told[f"look {number}"][0], told[f"info {number}"][0].split(" ")[7]
        if not re.fullmatch("l[bhw][ulr]?|s[bhw][lr]?", operation):
            continue
        row = next((it for it in step["queue"] if it["station"] == number), None)
        if row is None:
            wrong(f"{where}: station {number} is not in the queue")
        wanted.append([number, "load" if operation[0] == "l" else "store"])
        if after("state", look) == "ADDR":
            same(f"{where}: address of station {number}", row["address"], after("value", look))
        made = operand_as_told(told[f"operand {number} 2"][0]) if operation[0] == "s" else {"value": after("value", look)}
        if operation[0] == "s" or after("state", look) == "DONE":
            same(f"{where}: data of station {number}", row["data"], made.get("value"))
    same(f"{where}: queue", [[row["station"], row["kind"]] for row in step["queue"]], wanted)


def check_links(step, where):
    """Each link has a producer: an older tenant in flight, which has not made its value."""
    for number in step["live"]:
        for operand in step["stations"][str(number)]["operands"]:
            if operand and "from" in operand:
                producer = step["stations"].get(str(operand["from"]))
                is_older = operand["from"] in step["live"][:step["live"].index(number)]
                if not producer or producer["tag"] != operand["tag"] or not is_older:
                    wrong(f"{where}: station {number} waits for nobody at station {operand['from']}")


def check_event(step, answer, where):
    """What the command itself told: the step's own line, whom it woke, where a load got its value."""
    same(f"{where}: answer", step["answer"], answer)
    woke = [int(it) for it in answer.split(" woke ")[1].split(" ") if it in step["stations"]] if " woke " in answer else []
    same(f"{where}: woken", sorted({it["to"] for it in step.get("sent", [])}), sorted(woke))
    for it in step.get("sent", []):
        same(f"{where}: the value that went", it["value"], after("value", answer))
    if answer.startswith("Mended"):
        same(f"{where}: squashed", len(step["squashed"]), after("squashed", answer))
    for number, value in re.findall(r" \$(\d+)=(0x\w{8})", answer):
        same(f"{where}: register {number}", step["registers"].get(number, 0), int(value, 16))
    named = re.match(r"(Let|Job|Finished|Stale|Loaded|Mended) station (\d+)", answer)
    if named:
        same(f"{where}: station", step["station"], int(named[2]))


def check_load(page, step, before, where):
    """A load's value is made of the bytes where the page says that it comes from: of committed memory, or of a store's data."""
    tenant = page["tenants"][step["tenant"]]
    operation, rows = tenant["text"].split(" ")[0], {row["station"]: row for row in before["queue"]}
    if step["origin"] is None or operation in ("lwl", "lwr"):
        return
    size = {"b": 1, "h": 2, "w": 4}[operation[1]]
    load = rows[step["station"]]["address"]
    if step["origin"] == "memory":
        at, word = load % 4, before["memory"].get(str(load - load % 4), 0)
    else:
        store = rows[step["origin"]]
        at, word = load - store["address"], store["data"]
    value = word >> 8 * at & (1 << 8 * size) - 1
    if operation in ("lb", "lh") and value >> 8 * size - 1:
        value += (1 << 32) - (1 << 8 * size)
    same(f"{where}: a load from {step['origin']}", step["value"], value)


def check_jobs(steps):
    """Who holds which job: from its claim to its finish."""
    held = {}
    for step in steps[1:]:
        words = step["command"].split(" ")
        if words[0] == "claim" and step["answer"].startswith("Job"):
            held[words[1]] = [int(words[2]), after("tag", step["answer"])]
        if words[0] == "finish":
            del held[words[1]]
        same(f"step {step['number']}: jobs", {unit: [it["station"], it["tag"]] for unit, it in step["jobs"].items()}, held)


def read_page(file):
    """What the page shows, and the page without that."""
    with open(file, encoding="utf-8") as page:
        text = page.read()
    begin, end = '<script type="application/json" id="run">', "</script>"
    before, rest = text.split(begin)
    data, behind = rest.split(end, 1)
    page = json.loads(data)
    for step in page["steps"]:
        for name in ("creators", "queue", "registers", "memory", "jobs"):
            step[name] = page["parts"][step[name]]
        step["stations"] = {number: page["parts"][at] for number, at in step["stations"].items()}
    return page, before + behind


def check_alone(text):
    """No part of the page is anywhere else."""
    for form in (r"https?:", r"\bsrc=", r"@import", r"url\(", r"href=\"[^#]", r"\bfetch\(", r"XMLHttpRequest", r"\bimport\b"):
        if found := re.search(form, text):
            wrong(f"it asks for something else: {found[0]}")


SHOWN = "Let Job Finished Stale Loaded Retired Half Ended Mended".split(" ")


def check_order(page, listing, options, order):
    """The order of the steps: the answers are those of the shuffle, of the script or of turns on one thread, each once."""
    if order.isdigit():
        answers = drive(listing, [*options, "--shuffle", order, "--steps", "20000"], "")
    elif order == "alone":
        answers = drive(listing, options, "step 10000\n")
    else:
        with open(order, encoding="utf-8") as file:
            answers = drive(listing, options, file.read())
    told = [line for _, lines in answers for line in lines if line.split(" ")[0] in SHOWN]
    found = [step["answer"] for step in page["steps"][1:] if step["answer"].split(" ")[0] in SHOWN]
    same("the answers in their order", found, told[:len(found)])
    if page["steps"][-1]["kind"] == "end":
        same("the number of answers", len(found), len(told))


def check_content(page, listing, options, order):
    """All that is in the page, step by step."""
    check_order(page, listing, options, order)
    steps = page["steps"]
    commands = [command for step in steps[1:] for command in [*(it[0] for it in step["passed"]), step["command"]]]
    same("the number of commands", len(commands), steps[-1]["number"])
    told = asked_again(listing, options, steps, commands, page["ring"])
    for at, (step, (answer, state)) in enumerate(zip(steps, told)):
        where = f"step {at}"
        for number in range(page["ring"]):
            check_station(page, step, number, state, where)
        check_state(step, state, where)
        check_queue(step, state, where)
        check_links(step, where)
        if at:
            check_event(step, answer, where)
        if step["kind"] == "load":
            check_load(page, step, steps[at - 1], where)
    check_jobs(steps)
    return told


def text_of(page, tenant, lines):
    """An instruction as its author wrote it, without labels and comment."""
    line = next(it["line"] for it in page["listing"] if it["pc"] == tenant["pc"])
    code = re.sub(r"^(\s*[A-Za-z_.][\w.]*\s*:)*", "", lines[line - 1].split("#")[0])
    return " ".join(code.split()) + HALVES.get(tenant["half"], "")


def shown(value):
    signed = value - (value >> 31 << 32)
    return str(signed) if abs(signed) < 10000 else f"0x{value:08x}"


def check_card(page, step, number, told, card, lines, where):
    """A card in the browser: its words against what drive told of the station."""
    look = told[f"look {number}"][0]
    state = after("state", look)
    if state == "FREE":
        if card["word"] not in ("free", "retired", "squashed") or card["operands"]:
            wrong(f"{where}: the card of station {number} shows {card}, and it is free")
        return
    operands = [operand_as_told(told[f"operand {number} {k}"][0]) for k in (1, 2)]
    waits = any(it and "from" in it for it in operands)
    same(f"{where}, card {number}: state", card["word"], ("waits" if waits else "ready") if state == "OPEN" else WORDS[state])
    same(f"{where}, card {number}: tag", card["tag"], f"tag {after('tag', look)}")
    tenant = page["tenants"][step["stations"][str(number)]["tenant"]]
    same(f"{where}, card {number}: text", card["text"], text_of(page, tenant, lines))
    wanted = [f"{'ab'[k]}← station {it['from']}" if "from" in it else f"{'ab'[k]}{shown(it['value'])}" for k, it in enumerate(operands) if it]
    same(f"{where}, card {number}: operands", [it.replace(" ◂ new", "") for it in card["operands"]], wanted)


def check_seen(page, told, seen, listing):
    """What a browser showed: cards, curves and committed registers at each step."""
    with open(listing, encoding="latin-1") as file:
        lines = file.read().split("\n")
    same("steps in the browser", len(seen), len(page["steps"]))
    for at, (step, (_, state), view) in enumerate(zip(page["steps"], told, seen)):
        where = f"step {at} in the browser"
        for number, card in enumerate(view["cards"]):
            check_card(page, step, number, state, card, lines, where)
        curves = sorted([link["from"], link["to"]] for link in view["links"] if link["kind"] == "wait")
        used = [number for number in range(page["ring"]) if after("state", state[f"look {number}"][0]) != "FREE"]
        wanted = {(number, after("for station", state[f"operand {number} {k}"][0]))
                  for number in used for k in (1, 2) if " WAIT " in state[f"operand {number} {k}"][0]}
        same(f"{where}: curves", curves, sorted([list(it) for it in wanted]))
        registers = {name: value for name, value in view["registers"] if value != "0"}
        report = [line.split(" ") for line in state["report"] if re.match(r"r\d|lo|hi", line)]
        same(f"{where}: registers", registers,
             {page["names"][{"lo": 32, "hi": 33}.get(name) or int(name[1:])]: shown(int(value, 16)) for name, value in report})
        same(f"{where}: count of steps", view["count"], f"{at} / {len(seen) - 1}")
        if not view["words"]:
            wrong(f"{where}: no words")


def check_part(part, whole):
    """A page that begins later, or ends earlier, has the steps of the whole run from its first one on."""
    (part, _), (whole, _) = read_page(part), read_page(whole)
    begin, count = part["first"], len(part["steps"])
    goes_on = " The page ends here, and the run goes on."
    for at, (one, other) in enumerate(zip(part["steps"], whole["steps"][begin:]), begin):
        same(f"step {at}", {**one, "words": one["words"].replace(goes_on, "")}, other)
    same("whether the run goes on", part["steps"][-1]["words"].endswith(goes_on), begin + count < len(whole["steps"]))
    for at, (one, other) in enumerate(zip(part["tenants"], whole["tenants"])):
        same(f"tenant {at}", one, {name: value for name, value in other.items() if name in one})
    print(f"{count} steps from step {begin} on")


def main():
    if len(sys.argv) == 3:
        return check_part(*sys.argv[1:])
    listing, file, seen, order, *options = sys.argv[1:]
    page, rest = read_page(file)
    check_alone(rest)
    told = check_content(page, listing, options, order)
    if seen != "-":
        with open(seen, encoding="utf-8") as text:
            check_seen(page, told, json.load(text), listing)
    print(f"{listing}: {len(told)} steps", "in the page and in the browser" if seen != "-" else "in the page")


if __name__ == "__main__" and sys.argv[1:]:
    main()
