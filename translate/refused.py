"""The words that are refused, with the reason of each, from `refused.txt`."""
import os

from faults import Fault


def reasons():
    """The reason of each word."""
    found, reason = {}, ""
    with open(os.path.join(os.path.dirname(__file__), "refused.txt"), encoding="utf-8") as lines:
        for line in lines:
            if line.startswith("  "):
                found.update((word, reason) for word in line.split())
            elif not line.startswith("#"):
                reason = line.strip() or reason
    return found


REASONS = reasons()
STARRED = tuple((word[:-1], reason) for word, reason in REASONS.items() if word.endswith("*"))


def check(token):
    """Refuses a word of the list."""
    word = token.text.lower()
    reason = REASONS.get(word) or next((it for start, it in STARRED if word.startswith(start)), None)
    if reason:
        raise Fault(token.place, f"{token.text}: {reason}")
