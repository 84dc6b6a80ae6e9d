"""The evening: the day is ended, and programs that had no part in it look at it."""
import collections
import csv
import re

from live_members import judge
from world import Skipped, Wrong

# What the log of such a day has to say.
WORDS = ("logon", "ended", "bad_line", "silent", "heard", "halted", "resumed", "stopped")


def stop(world):
    """The day ends by STOP, with exit 0."""
    world.busy = False
    world.until_all_came()
    if not world.engine.missing:
        code = world.engine.end()
        world.engine.pump()
        if code:
            raise Wrong(f"QuickFIX ended with {code}: a message did not fit its dictionaries")
    for member in world.own:
        member.drain()
    code = world.venue.stop()
    if code:
        raise Wrong(f"peglive ended with {code}")
    return f"exit 0, {len(world.journal_lines()):,} lines in the journal"


def audit(world):
    """pegaudit says that the day is as the rules make it."""
    world.want("pegaudit")
    ran = world.run("pegaudit", "verify", "--journal", world.journal)
    if ran.returncode:
        raise Wrong(f"it ended with {ran.returncode}: {ran.stdout}{ran.stderr}")
    return ran.stdout.strip()


def frames(world):
    """Each member was sent what pegreplay makes of the journal, and no order that was acknowledged is lost."""
    world.want("pegreplay")
    wrong, compared = judge(world.own, world.journal_lines(), world.folder, world.programs / "pegreplay")
    if wrong:
        raise Wrong("; ".join(wrong[:3]))
    return f"{compared:,} frames of {sum(len(member.runs) for member in world.own)} connections, byte for byte"


def reports(world):
    """Each report of the day came to its member over QuickFIX, once."""
    if world.engine.missing:
        raise Skipped(world.engine.missing)
    world.want("pegaudit")
    listing = world.run("pegaudit", "journal", world.journal, "listing").stdout
    due = collections.defaultdict(set)
    for name, body in re.findall(r"^R \S+ \S+ \S+ (\S+) 8 (.*)$", listing, re.M):
        due[name].add((re.search(r"\b37=([^|]*)", body)[1], re.search(r"\b17=([^|]*)", body)[1]))
    count = 0
    for member in world.engine.members.values():
        got = {(it["37"], it["17"]) for it in member.told if it.get("35") == "8"}
        if due[member.name] - got or got - due[member.name]:
            raise Wrong(f"{member.name} is due {len(due[member.name])} reports and got {len(got)}: {sorted(due[member.name] ^ got)[:3]}")
        if member.twice():
            raise Wrong(f"{member.name} got a report twice that was not marked as sent again: {member.twice()[:3]}")
        count += len(got)
    return f"{count:,} reports, {sum(member.again for member in world.engine.members.values())} of them sent again after a break"


def trades(world):
    """The trades that pegaudit tells are the fills that members were told."""
    world.want("pegaudit")
    ran = world.run("pegaudit", "trades", "--journal", world.journal)
    if ran.returncode:
        raise Wrong(f"it ended with {ran.returncode}")
    count = len(list(csv.DictReader(ran.stdout.splitlines())))
    fills = sum(len(member.fills) for member in world.members.values())
    if fills != 2 * count:
        raise Wrong(f"{count} trades, and members were told of {fills} fills")
    return f"{count:,} trades, {fills:,} fills"


def log(world):
    """Each line of the venue's log has its moment, and the log says what happened."""
    lines = [line for line in world.told().splitlines() if not line.startswith("peglive: ")]
    other = [line for line in lines if not re.match(r"\d{4}-?\d\d-?\d\d[T-]\d\d:\d\d:\d\d\.\d{3}Z? \S", line)]
    if other:
        raise Wrong(f"lines of another form: {other[:2]}")
    words = collections.Counter(line.split(" ")[1] for line in lines)
    missing = [word for word in WORDS if not words[word]]
    if world.knows_stale and missing:
        raise Wrong(f"it does not say {missing}")
    return ", ".join(f"{words[word]} {word}" for word in WORDS) if world.knows_stale else f"{len(lines)} lines"


EVENING = (stop, audit, frames, reports, trades, log)
