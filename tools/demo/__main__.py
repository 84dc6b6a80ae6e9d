"""Shows the venue at work, on this machine and in less than a minute.

    ./demo              starts a live venue on a free port of 127.0.0.1, has three members trade, kills the venue and starts it again, and checks the day

What it shows is checked: each report is what the rules make of the orders, and at the end another program recomputes the day from the venue's journal.
It ends with 0 only where all of that held. It uses proved programs where bin/ has them, else those that ./try compiles; PROGRAMS names another folder.
Files of the day are left in bin/demo/. At a terminal it has colours, unless NO_COLOR is set, and goes at a reader's pace.
"""
import datetime
import os
import random
import shutil
import signal
import sys
import tempfile
import time
from pathlib import Path

HERE = Path(__file__).resolve().parent
sys.path[1:1] = [str(HERE.parent), str(HERE.parent.parent / "bench")]

from checks import Day
from live_day import Venue, free_port
from members import MID, PRIMARY, Market, Member, at
from programs import TOP, Programs, Unusable
from words import Failed, Screen

NAMES = ("FUND", "BANK", "DESK")
# How long the members trade by themselves, and when the venue is killed meanwhile, in seconds.
BUSY, KILLS = 5, (1.6, 3.3)
# The most orders of a member that are not answered yet.
WINDOW = 20


def write_config(path):
    begin = datetime.datetime.now(datetime.timezone.utc).strftime("%Y%m%d-%H:%M:%S.000")
    members = "".join(f"MEMBER {name}\n" for name in NAMES)
    path.write_text(f"PEGV 1\n{members}MARKET NYSE\nMARKET ARCA\nSYMBOL ACME 200000\nSYMBOL HOLT 200000\nBEGIN {begin}\n")


def begin(market):
    """Orders rest unseen, follow the quote, and trade at the better price first."""
    fund, bank, desk = market.members
    for member in market.members:
        market.log_on(member)
    market.quote("ACME", "NYSE", "50.00", "50.02")
    market.quote("ACME", "ARCA", "49.99", "50.03")
    market.trade(fund, "f1", "buys", 500, "ACME", MID)
    market.want(fund, "it rests, unseen", e150="0", e839="50.0100", e151="500")
    market.trade(bank, "b1", "buys", 300, "ACME", at("50.01"))
    market.want(bank, "queued after FUND's, which BANK can't see", e150="0", e839="50.0100", e151="300")
    market.quote("ACME", "NYSE", "50.00", "50.01")
    market.ask_status(fund, "f1", "buys", "ACME")
    market.want(fund, "it followed the midpoint", e150="I", e839="50.0050", e151="500")
    market.trade(desk, "d1", "sells", 200, "ACME", MID)
    market.want(desk, "", e150="0", e839="50.0050")
    market.want(desk, "", e150="F", e32="200", e31="50.0100", e151="0")
    market.want(bank, "the better price goes first", e150="F", e32="200", e31="50.0100", e151="100")


def kill(market):
    market.screen.say("venue", "is killed: kill -9", "venue")
    market.venue.kill()
    up = [member for member in market.members if member.connection]
    market.until(lambda: not any(member.connection for member in up), "a connection went on without the venue")


def start(market):
    begun = time.monotonic()
    market.venue.start(market.log)
    market.venue.ask("STATUS")
    passed = time.monotonic() - begun
    market.screen.say("venue", f"is started again over its journal, and goes on after {passed * 1000:.0f} ms", "venue")


def be_killed(market):
    """Nothing is lost: neither a report that nobody was there for, nor an order that rests."""
    fund, bank, desk = market.members
    market.screen.say("BANK", "loses his connection")
    bank.close()
    market.trade(desk, "d2", "sells", 100, "ACME", MID)
    market.want(desk, "", e150="0", e839="50.0050")
    market.want(desk, "BANK is away, and his order traded", e150="F", e32="100", e31="50.0100", e151="0")
    kill(market)
    start(market)
    market.log_on(bank)
    market.want(bank, "what he missed", e150="F", e32="100", e31="50.0100", e151="0")
    market.log_on(fund)
    market.ask_status(fund, "f1", "buys", "ACME")
    market.want(fund, "it is still there, at its price and with its time", e150="I", e839="50.0050", e151="500")
    market.log_on(desk)
    market.trade(desk, "d3", "sells", 300, "ACME", MID)
    market.want(desk, "", e150="0")
    market.want(desk, "", e150="F", e32="300", e31="50.0050", e151="0")
    market.want(fund, "an order from before the kill", e150="F", e32="300", e31="50.0050", e151="200")


def send_one(market, member, chance):
    """Sends an order, or a request for an order's status, at random."""
    member.sent += 1
    order_id, symbol, side = f"{member.name[0].lower()}-{member.sent}", chance.choice(("ACME", "HOLT")), chance.choice(("buys", "sells"))
    low = 5_000 if symbol == "ACME" else 1_250
    price = low + chance.randrange(-2, 4)
    terms = chance.choice((MID, MID, PRIMARY, at(f"{price // 100}.{price % 100:02}")))[0]
    member.send(member.order(order_id.encode(), symbol.encode(), b"1" if side == "buys" else b"2", chance.randrange(1, 10) * 100, terms))


def quote_one(market, chance):
    symbol, market_name = chance.choice(("ACME", "HOLT")), chance.choice(("NYSE", "ARCA"))
    low = (5_000 if symbol == "ACME" else 1_250) + chance.randrange(-1, 2)
    market.venue.say(f"Q {symbol} {market_name} {low // 100}.{low % 100:02} {(low + 2) // 100}.{(low + 2) % 100:02}")


def be_busy(market):
    """The members trade by themselves, and the venue is killed under them. Some orders are unanswered then; those that were answered are kept."""
    chance = random.Random(1)
    market.screen.say("all", f"trade for {BUSY} s as fast as they are answered, and the venue is killed under them", "note")
    begun, kills = time.monotonic(), list(KILLS)
    lost = {member.name: member.sent - member.answered for member in market.members}
    while time.monotonic() < begun + BUSY or not all(member.connection for member in market.members):
        if kills and time.monotonic() > begun + kills[0]:
            kills.pop(0)
            tell_counts(market)
            kill(market)
            start(market)
            market.venue.say("Q HOLT NYSE 12.50 12.52")
            for member in market.members:
                member.try_connect()
                lost[member.name] = member.sent - member.answered
        quote_one(market, chance)
        for member in market.members:
            try:
                if not member.connection:
                    member.try_connect()
                if member.up and member.sent - member.answered < lost[member.name] + WINDOW:
                    send_one(market, member, chance)
            except OSError:
                member.close()
        market.receive()
    market.until_all_came()
    tell_counts(market)


def tell_counts(market):
    accepted, fills = sum(member.accepted for member in market.members), sum(member.fills for member in market.members)
    market.screen.say("all", f"{accepted} orders accepted, {fills // 2} trades so far", "note")


def check(market, programs, folder):
    """Recomputes the day from its journal, and looks at what each member got."""
    screen = market.screen
    programs.finish(screen)
    day = Day(folder, programs, market.members)
    frames, connections = day.check_frames()
    events, said = day.audit()
    reports = day.check_reports()
    trades = day.trades()
    fills = sum(member.fills for member in market.members)
    if fills != 2 * len(trades):
        raise Failed(f"the members were told of {fills} fills, and the day has {len(trades)} trades")
    screen.put("")
    screen.put(f"The day is over. Its journal has {len(day.lines)} lines, and pegaudit recomputes it from them:")
    screen.put(f"  explain     each of the {connections} connections was sent a run of the messages that its member is due, {frames} in all, byte for byte", "checked")
    screen.put(f"  verify      {said.rpartition(': ')[2]}: its {events} events are what members and markets asked, and all its reports what the rules make of them", "checked")
    screen.put(f"  members     each of its {reports} reports came to its member once, and no other: nothing that was answered is lost", "checked")
    screen.put("")
    first = trades[:3]
    screen.put(f"The first of its {len(trades)} trades, as pegaudit has them in a table:")
    for it in first:
        screen.put(f"  {it['moment'][9:]}  {it['quantity']:>4} {it['symbol']} at {it['price']}, {it['buyer']} from {it['seller']}, "
                   f"national quote {it['bid']} by {it['offer']}")
    page = day.page(TOP / "bin/demo")
    screen.put("")
    screen.put(f"Open {page.relative_to(TOP)} in a browser to see the day. All that was shown is checked.")


def show(programs, folder):
    screen = Screen()
    write_config(folder / "day.config")
    port = free_port()
    venue = Venue(folder / "day.config", folder / "day.journal", port, folder / "desk", programs["peglive"])
    market = Market(venue, [Member(name, ("127.0.0.1", port)) for name in NAMES], screen)
    with open(folder / "venue.log", "wb") as market.log:
        try:
            venue.start(market.log)
            screen.say("venue", f"listens at 127.0.0.1:{port} ({programs.described()})", "venue")
            begin(market)
            be_killed(market)
            be_busy(market)
            code = venue.stop()
            if code:
                raise Failed(f"peglive ended with {code}: {(folder / 'venue.log').read_text()}")
            screen.say("venue", "is stopped by its operator", "venue")
        finally:
            if venue.process and venue.process.poll() is None:
                venue.process.kill()
                venue.process.wait()
            for member in market.members:
                member.close()
    check(market, programs, folder)


def main(words):
    if words:
        print(__doc__.strip(), file=sys.stdout if words in (["--help"], ["-h"]) else sys.stderr)
        return 0 if words in (["--help"], ["-h"]) else 2
    signal.signal(signal.SIGTERM, lambda *_: sys.exit(143))
    programs, folder = Programs(), Path(tempfile.mkdtemp(prefix="lubweqad-demo-"))
    try:
        programs.prepare(os.environ.get("PROGRAMS"))
        show(programs, folder)
        return 0
    except (Failed, Unusable) as why:
        print(f"demo: {why}", file=sys.stderr)
        return 1
    finally:
        programs.stop()
        shutil.rmtree(folder, ignore_errors=True)


if __name__ == "__main__":
    try:
        sys.exit(main(sys.argv[1:]))
    except KeyboardInterrupt:
        sys.exit(130)
