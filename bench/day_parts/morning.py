"""The morning: the config is looked at, the venue begins, feeds and members come, and the first orders trade."""
import re

from live_day import TOP
from world import Wrong


def config(world):
    """The config is checked."""
    ran = world.run("peglive", "check", world.config)
    if ran.returncode:
        raise Wrong(f"peglive check ended with {ran.returncode}: {ran.stdout}{ran.stderr}")
    return ran.stdout.strip().splitlines()[0]


def start(world):
    """The venue starts, and its desk answers."""
    passed = world.venue.start(world.log)
    world.words = world.ask("HELP")
    status = world.ask("STATUS")
    if "rounds" not in status and "lines" not in status:
        raise Wrong(f"STATUS was answered by {status!r}")
    return f"listens after {passed * 1000:.0f} ms; {status}"


def feeds(world):
    """Two feeds quote."""
    world.lines.begin()
    world.source.begin()
    if world.has("pegfeed"):
        world.start_feeder()
    for market in ("NYSE", "ARCA"):
        row = f"Q ABC {market} 20.00 20.02".encode()
        world.until(lambda row=row: row in world.journal_lines(), f"no quote of {market} came into the journal")
    return "a writer of lines for NYSE, " + ("pegfeed over FIX for ARCA" if world.has("pegfeed") else "another for ARCA, since there is no pegfeed")


def logons(world):
    """Five members log on."""
    if not world.engine.missing:
        world.engine.begin()
    world.until(lambda: all(member.up for member in world.members.values()), "not all members are up")
    return f"{len(world.own)} by our client, " + (world.engine.missing or f"{len(world.engine.members)} by QuickFIX")


def members_told(world):
    """MEMBERS at the desk says that all are up."""
    world.want_word("MEMBERS")
    lines = world.ask_list("MEMBERS")
    up = [line for line in lines if "up=yes" in line]
    if len(up) != len(world.members):
        raise Wrong(f"it says {lines}")
    return up[0]


def trade(world):
    """An order rests at the midpoint, and trades there with the next."""
    fund, desk = world.members["FUND"], world.members["DESK"]
    world.resting = fund.order("buys", 1_000, "ABC")
    world.want_told("FUND", "his order rests at 20.01", e11=world.resting, e150="0", e839="20.0100", e151="1000")
    own = desk.order("sells", 200, "ABC")
    world.want_told("DESK", "his order is filled at 20.01", e11=own, e150="F", e31="20.0100", e32="200", e151="0")
    world.want_told("FUND", "200 are bought", e11=world.resting, e150="F", e31="20.0100", e32="200", e151="800")
    world.order_id = next(it["37"] for it in fund.told if it.get("11") == world.resting)
    return f"200 ABC at 20.01; 800 of {world.order_id} go on resting"


def watch(world):
    """The page and the metrics of the day are there."""
    world.want("pegwatch")
    world.start_watcher()
    world.until(lambda: world.fetched("/metrics"), "no metrics came")
    metrics, page = world.fetched("/metrics"), world.fetched("/")
    names = {line.split(" ")[2] for line in metrics.splitlines() if line.startswith("# TYPE ")}
    if not names or any(not name.startswith("lubweqad_") for name in names):
        raise Wrong(f"the metrics have the names {sorted(names)}")
    asked = set(re.findall(r"lubweqad_\w+", (TOP / "deploy/prometheus.rules.yml").read_text()))
    if asked - names:
        raise Wrong(f"the rules of deploy/ ask for metrics that there are not: {sorted(asked - names)}")
    for word in ("FUND", "ABC", "NYSE"):
        if word not in page:
            raise Wrong(f"the page does not say {word}")
    return f"{len(names)} metrics, a page of {len(page)} bytes"


def bad_lines(world):
    """A bad line costs itself alone."""
    before = world.lines.connections
    causes = []
    for line in ("Q ABC NYSE 20.00 nonsense", "Q NONE NYSE 1.00 1.01", "Q ABC NOWHERE 1.00 1.01", "Q ABC NYSE 20.00", "\\00\\ff", "x" * 20_000):
        answer = world.lines.ask(line)
        if answer in (None, "OK"):
            raise Wrong(f"{line[:30]!r} was answered by {answer!r}")
        causes.append(answer)
    if world.lines.ask("Q ABC NYSE 20.00 20.02") != "OK" or world.lines.connections != before:
        raise Wrong("the feed did not go on by its connection")
    if any(b"nonsense" in line or b"NOWHERE" in line for line in world.journal_lines()):
        raise Wrong("a bad line is in the journal")
    return f"{len(causes)} refused, each with its cause, as {causes[0]!r}; the next good one is taken"


def bad_snapshots(world):
    """A bad snapshot costs itself alone."""
    world.want("pegfeed")
    before = world.source.logons
    world.source.send_bad()
    world.source.quotes["ABC"] = ("20.00", "20.04")
    world.until(lambda: b"Q ABC ARCA 20.00 20.04" in world.journal_lines(), "the next good snapshot did not come")
    world.source.quotes["ABC"] = ("20.00", "20.02")
    world.until(lambda: [line for line in world.journal_lines() if line.startswith(b"Q ABC ARCA")][-1].endswith(b"20.02"), "the quote did not go back")
    if world.source.logons != before:
        raise Wrong("pegfeed logged on again")
    return "two refused, the next good one is taken by the same session"


MORNING = (config, start, feeds, logons, members_told, trade, watch, bad_lines, bad_snapshots)
