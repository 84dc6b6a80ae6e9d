"""How the demonstration looks: a line for each thing that happens, with its moment, who did it and what."""
import datetime
import os
import sys
import time

# Of each kind of line its colour at a terminal.
COLOURS = {"quote": "36", "order": "1", "told": "", "fill": "32", "venue": "1;31", "checked": "32", "note": "2"}


class Failed(Exception):
    """What did not happen as it should, as a sentence."""


class Screen:
    """Where the lines go. At a terminal they have colours, unless NO_COLOR is set, and come slowly enough to be read."""

    def __init__(self):
        self.is_slow = sys.stdout.isatty()
        self.has_colours = self.is_slow and not os.environ.get("NO_COLOR")

    def say(self, who, what, kind="told"):
        moment = datetime.datetime.now(datetime.timezone.utc).strftime("%H:%M:%S.%f")[:-3]
        self.put(f"{moment}  {who:<6} {what}", kind)
        if self.is_slow:
            time.sleep(0.35)

    def put(self, text, kind="told"):
        colour = COLOURS[kind] if self.has_colours else ""
        print(f"\033[{colour}m{text}\033[0m" if colour else text, flush=True)


def values_of(report):
    """The fields of a report's body, by their tags; of one that stands twice the first."""
    fields = [field.split(b"=", 1) for field in report.split(b"\x01")[:-1]]
    return {int(tag): value.decode() for tag, value in reversed(fields)}


def told(report):
    """An ExecutionReport in words, and the kind of line that it is."""
    fields = values_of(report)
    left, order = fields[151], fields[37]
    if fields[150] == "F":
        did = "bought" if fields[54] == "1" else "sold"
        return f"{did} {fields[32]} {fields[55]} at {fields[31]}, {left} left", "fill"
    place = f"{left} left at {fields[839]}" if 839 in fields else f"{left} left, without a price now"
    if fields[150] == "0":
        return f"accepted as {order}, {place}", "told"
    if fields[150] == "I":
        return f"{order} has {place}", "told"
    return f"{order}: ExecType(150) is {fields[150]}, {place}", "told"
