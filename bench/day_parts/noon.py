"""Noon: what may go wrong with the market, with connections and with the programs, while members trade."""
import signal
import time

from world import SMALL, STALE, Skipped, Wrong

# How many orders are accepted at least before the venue is killed under the members.
BUSY = 300


def rows_since(world, count, symbol):
    """The quotes of a symbol in the journal after its first so many lines."""
    head = f"Q {symbol} ".encode()
    return [line.decode() for line in world.journal_lines()[count:] if line.startswith(head)]


def stale_market(world):
    """A market that falls silent loses its prices, and the other goes on."""
    if not world.knows_stale:
        raise Skipped("peglive has no --stale")
    before, begun = len(world.journal_lines()), time.monotonic()
    world.lines.paused.set()
    world.until(lambda: "Q ABC NYSE - -" in rows_since(world, before, "ABC"), "NYSE did not lose its prices", STALE + 5)
    passed = time.monotonic() - begun
    if "Q DEF NYSE - -" not in rows_since(world, before, "DEF"):
        raise Wrong("NYSE has lost its prices of ABC alone")
    if "Q ABC ARCA - -" in rows_since(world, before, "ABC"):
        raise Wrong("ARCA has lost its prices too")
    world.until_price("FUND", world.resting, "buys", "ABC", "20.0100")
    return f"empty after {passed:.1f} s of silence by the journal; FUND's order stays at ARCA's midpoint"


def no_market(world):
    """Where no market has prices orders rest inactive, and trade when one is back."""
    if not world.knows_stale:
        raise Skipped("peglive has no --stale")
    world.source.paused.set()
    world.until_price("FUND", world.resting, "buys", "ABC", None)
    own = world.members["BANK"].order("sells", 100, "ABC")
    world.want_told("BANK", "his order is accepted", e11=own, e150="0")
    world.go_on(1)
    if any(it.get("11") == own and it.get("150") == "F" for it in world.members["BANK"].told):
        raise Wrong("it traded at a stale quote")
    world.lines.paused.clear()
    world.source.paused.clear()
    world.want_told("BANK", "his order is filled once there are prices", e11=own, e150="F", e31="20.0100", e32="100")
    return "no trade without prices; 100 ABC at 20.01 as soon as they were back"


def halt(world):
    """A halted symbol has no prices and takes no quote, until it is resumed."""
    world.want_word("HALT")
    refused, before = len(world.lines.refused), len(world.journal_lines())
    if world.ask("HALT ABC") != "OK":
        raise Wrong("HALT was not taken")
    world.until(lambda: {"Q ABC NYSE - -", "Q ABC ARCA - -"} <= set(rows_since(world, before, "ABC")), "the halt is not in the journal")
    world.until_price("FUND", world.resting, "buys", "ABC", None)
    world.until(lambda: len(world.lines.refused) > refused, "no quote was refused")
    rows = rows_since(world, before, "ABC")
    last = len(rows) - 1 - rows[::-1].index("Q ABC ARCA - -")
    if any(not row.endswith("- -") for row in rows[last + 1:]):
        raise Wrong("a quote of the halted symbol is in the journal")
    own = world.members["HEDGE"].order("sells", 100, "ABC")
    world.want_told("HEDGE", "his order is accepted", e11=own, e150="0")
    if world.ask("RESUME ABC") != "OK":
        raise Wrong("RESUME was not taken")
    world.want_told("HEDGE", "his order is filled once the symbol is resumed", e11=own, e150="F", e31="20.0100", e32="100")
    return f"quotes were refused by {world.lines.refused[-1]!r}; 100 ABC at 20.01 after RESUME"


def symbols_told(world):
    """SYMBOLS at the desk says which is halted."""
    world.want_word("SYMBOLS")
    world.ask("HALT DEF")
    halted = [line for line in world.ask_list("SYMBOLS") if "halted=yes" in line]
    world.ask("RESUME DEF")
    after = [line for line in world.ask_list("SYMBOLS") if "halted=yes" in line]
    if len(halted) != 1 or "DEF" not in halted[0] or after:
        raise Wrong(f"it says {halted}, and after RESUME {after}")
    return halted[0]


def drop(world):
    """A member is disconnected by the desk, and comes back."""
    world.want_word("DROP")
    prop = world.members["PROP"]
    runs = len(prop.runs)
    if world.ask("DROP PROP") != "OK":
        raise Wrong("DROP was not taken")
    world.until(lambda: len(prop.runs) > runs and prop.up, "PROP is not back")
    return "he logs on again with his next number"


def busy(world):
    """All trade at once in DEF."""
    def accepted():
        return sum(len(member.accepted) for member in world.members.values())

    world.busy, before, begun = True, accepted(), time.monotonic()
    world.until(lambda: accepted() >= before + BUSY, f"{BUSY} orders were not accepted", 120)
    world.go_on(max(0.0, 10 - time.monotonic() + begun))
    return f"{accepted() - before} orders accepted in {time.monotonic() - begun:.0f} s"


def kill(world):
    """The venue is killed while they trade, and goes on after a start with the same words."""
    lines = world.lines.connections
    world.venue.kill()
    passed = world.start_again()
    world.until(lambda: world.lines.connections > lines, "the writer of lines is not back")
    world.until_price("FUND", world.resting, "buys", "ABC", "20.0100")
    fund = world.members["FUND"]
    kept = next(it for it in reversed(fund.told) if it.get("150") == "I" and it.get("11") == world.resting)
    if kept["37"] != world.order_id:
        raise Wrong(f"FUND's order has another OrderID: {kept['37']}")
    return f"listens again after {passed * 1000:.0f} ms; all are back, and {world.order_id} rests with {kept['151']} left at its price"


def kill_engine(world):
    """The members' QuickFIX is killed, and goes on from its file stores."""
    if world.engine.missing:
        raise Skipped(world.engine.missing)
    own = world.members["FUND"].order("buys", 100, "ABC")
    # Once the venue has the order, whatever FUND has heard of it.
    world.until(lambda: any(b"|11=%s|" % own.encode() in line for line in world.journal_lines()[-500:]), "the order did not come into the journal")
    world.engine.kill()
    world.go_on(1)
    world.engine.begin()
    world.until(lambda: all(member.up for member in world.engine.members.values()), "they are not up again")
    world.until_price("FUND", own, "buys", "ABC", "20.0100")
    return f"{own}, taken right before the kill, rests at its price"


def kill_feed(world):
    """pegfeed is killed and started again; then its source breaks off, and it comes back by itself."""
    world.want("pegfeed")
    logons = world.source.logons
    world.feeder.send_signal(signal.SIGKILL)
    world.feeder.wait()
    world.start_feeder()
    world.until(lambda: world.source.logons > logons, "pegfeed has not logged on again")
    logons, count = world.source.logons, len(world.journal_lines())
    world.source.break_off()
    world.until(lambda: world.source.logons > logons, "pegfeed has not come back by itself")
    world.until(lambda: any("ARCA" in row and not row.endswith("- -") for row in rows_since(world, count, "ABC")), "no quote of ARCA came again")
    return f"{world.source.logons} logons at the source today"


def kill_watcher(world):
    """pegwatch is killed and started again, and the venue does not notice."""
    world.want("pegwatch")
    world.watcher.send_signal(signal.SIGKILL)
    world.watcher.wait()
    world.start_watcher()
    world.until(lambda: "FUND" in world.fetched("/"), "the page is not back")
    world.price_of("FUND", world.resting, "buys", "ABC")
    return "the page is back, and members were answered meanwhile"


def fill_up(world):
    """Sends orders in the small symbol until it must be full, and a quote then. What the quote is answered, or None where the venue has ended."""
    world.ask("Q FULL NYSE 5.00 5.02")
    for _ in range(SMALL):
        if world.venue.process.poll() is not None:
            return None
        world.members["PROP"].order("buys", 100, "FULL")
        world.go_on(0.02)
    try:
        answer = world.ask("Q FULL NYSE 5.00 5.04")
        world.go_on(1)
    except OSError:
        world.venue.process.wait(10)
    return None if world.venue.process.poll() is not None else answer


def full_symbol(world):
    """A symbol that is full costs its own orders and quotes alone."""
    told = len(world.told())
    answer = fill_up(world)
    said = [line for line in world.told()[told:].splitlines() if "full" in line.lower()]
    if answer is None:
        code = world.venue.process.returncode
        world.start_again()
        raise Wrong(f"the venue ended with {code}: {said[-1:]}; it was started again")
    taken = sum(it.get("55") == "FULL" and it.get("150") == "0" for it in world.members["PROP"].told)
    if not 0 < taken < SMALL:
        raise Wrong(f"{taken} orders of {SMALL} were accepted")
    world.until_price("FUND", world.resting, "buys", "ABC", "20.0100")
    if world.lines.ask("Q ABC NYSE 20.00 20.02") != "OK":
        raise Wrong("a quote of another symbol was not taken")
    return f"{taken} orders taken of {SMALL}, then a quote is answered by {answer!r}; other symbols go on. The log: {said[:1]}"


NOON = (stale_market, no_market, halt, symbols_told, drop, busy, kill, kill_engine, kill_feed, kill_watcher, full_symbol)
