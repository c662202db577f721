"""The load/store queue as `queue` tells it: the loads and stores in flight, the oldest first."""
from answers import ACCESS, fields, unknown

SIZES = {"b": 1, "h": 2, "w": 4}


def value_of(text):
    """An address or data; one that nobody has told yet is none."""
    return int(text, 16) if text.startswith("0x") else None


def source_of(text):
    """Where a load would have its value from: the station of a store, or `memory`; none of what is told or held up."""
    return int(text.split(" ")[2]) if text.startswith("from station ") else "memory" if text == "from memory" else None


class Queue:
    """The rows, and of each load that can be answered where it would have its value from."""

    def __init__(self, lines):
        self.rows, self.sources = [], {}
        for line in lines:
            self.take(fields(ACCESS, line) or unknown(line))

    def take(self, told):
        operation = told["text"].split(" ")[0]
        self.rows.append({"station": told["station"], "kind": "store" if operation[0] == "s" else "load", "size": SIZES[operation[1]],
                          "address": value_of(told["address"]), "data": value_of(told["data"])})
        self.sources[told["station"]] = source_of(told["data"])
