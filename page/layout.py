"""The page's file: the template with its style, its script and the run that they show."""
import html
import json
import os

HERE = os.path.dirname(os.path.abspath(__file__))
SCRIPTS = ("view", "listing", "follow", "ring", "links", "panes", "chart", "controls")
# Parts of a step that many steps share.
SHARED = ("creators", "queue", "registers", "memory", "jobs")


def compact(value):
    return json.dumps(value, separators=(",", ":"))


def pooled(steps):
    """The steps with a number in place of each shared part, and the list of those parts."""
    numbers = {}

    def number(part):
        return numbers.setdefault(compact(part), len(numbers))

    short = [{**step, **{name: number(step[name]) for name in SHARED},
              "stations": {at: number(station) for at, station in step["stations"].items()}} for step in steps]
    return short, [json.loads(part) for part in numbers]


def text_of(*path):
    with open(os.path.join(HERE, *path), encoding="utf-8") as file:
        return file.read()


def filled(name, fields):
    """A template with its fields."""
    begin, *rest = text_of(name).split("{{")
    return begin + "".join(fields[field] + text for field, text in (part.split("}}", 1) for part in rest))


def page_text(run):
    """The whole page. No text of a run can end its script."""
    steps, parts = pooled(run["steps"])
    return filled("page.html", {
        "TITLE": html.escape(run["file"]),
        "STYLE": text_of("style.css"),
        "RUN": compact({**run, "steps": steps, "parts": parts}).replace("<", "\\u003c"),
        "SCRIPT": "\n".join(text_of("script", name + ".js") for name in SCRIPTS),
    })


def pair_text(one, other):
    """Two pages side by side, in one file."""
    return filled("pair.html", {
        "TITLE": html.escape(one["file"]), "ONE": html.escape(page_text(one)), "OTHER": html.escape(page_text(other)),
        "FIRST": html.escape(one["order"]), "SECOND": html.escape(other["order"]),
    })
