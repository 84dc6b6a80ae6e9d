#!/usr/bin/env python3
"""soak.py [live] [SECONDS [SEED]]: a venue under members that come and go. It is no part of the gate.

Sixteen members use bin/pegserve for so many seconds (60 if none is named), each over four connections: they send orders, cancels,
replaces, status requests and bytes that mean nothing, drop their connection in the middle of a frame, come back, and ask for what they missed.
After it, the listing that the venue prints has to hold each report that a member got, once, in order and byte for byte. PROGRAMS names another folder than bin.

With `live` they use peglive, each over as many connections as he likes; the listing is what pegvenue makes of the journal, has to be audited as `same`, and
each connection has to have been sent a run of what pegreplay prints of the journal.
"""
import collections
import os
import pathlib
import random
import re
import subprocess
import sys
import time

from fix_client import SOH, stamp
from live_day import TOP, Venue, free_port, journal_lines, scratch_folder
from live_members import Member as Trader
from live_members import judge
from serve import SYMBOLS, write_config

MEMBERS, LIVES = 16, 4
PROGRAMS = pathlib.Path(os.environ.get("PROGRAMS", TOP / "bin")).resolve()


class Member:
    """What one member does."""

    def __init__(self, number, chance, port, seconds, lives=LIVES):
        # A connection is dropped when it has had about its share of the time, so that the last one lasts to the end.
        self.share = seconds / lives
        self.until = self.back = 0.0
        self.client = Trader(f"M{number}", port)
        self.chance = chance
        self.lives = lives
        self.ids = 0
        self.orders = []

    def begin(self):
        self.client.connect()
        self.client.logon()
        self.lives -= 1
        self.until = time.monotonic() + self.share * self.chance.uniform(0.5, 1)

    def fresh(self):
        self.ids += 1
        return b"%s-%d" % (self.client.member, self.ids)

    def act(self):
        """One thing at random; it may be the end of the connection."""
        client, chance = self.client, self.chance
        kind = chance.random()
        if kind < 0.6 or not self.orders:
            symbol = b"S%d" % chance.randrange(SYMBOLS)
            own, side = self.fresh(), chance.choice([b"1", b"2"])
            terms = chance.choice([b"40=P\x011094=2\x01", b"40=P\x011094=5\x01", b"40=2\x0144=10.00\x01", b"40=2\x0144=10.01\x0159=3\x01"])
            client.send(client.order(own, symbol, side, chance.randrange(1, 20) * 100, terms))
            self.orders.append((own, symbol, side))
        elif kind < 0.95:
            place = chance.randrange(len(self.orders))
            old, symbol, side = self.orders[place]
            what = chance.choice([b"F", b"G", b"H"])
            if what == b"H":
                client.send(client.message(b"H", b"11=%s\x0155=%s\x0154=%s\x01" % (old, symbol, side)))
                return
            own = self.fresh()
            more = b"38=500\x0140=P\x011094=2\x01" if what == b"G" else b""
            client.send(client.message(what, b"11=%s\x0141=%s\x0155=%s\x0154=%s\x01%s60=%s\x01" % (own, old, symbol, side, more, stamp())))
            self.orders[place] = (own, symbol, side)
        elif kind < 0.99:
            client.send(bytes(chance.randrange(256) for _ in range(chance.randrange(40))))
        elif self.lives and self.until < time.monotonic():
            client.send(client.order(b"lost", b"S0", b"1", 100)[:chance.randrange(10, 60)])
            client.next_out -= 1
            client.close()


def trade(members, seconds):
    end = time.monotonic() + seconds
    while time.monotonic() < end:
        for member in members:
            if member.client.connection is None:
                if member.lives and member.back < time.monotonic():
                    member.begin()
                continue
            member.client.receive()
            if member.client.connection and member.client.up:
                member.act()
            if member.client.connection is None:
                # The venue ends the old connection first: a member has one at a time.
                member.back = time.monotonic() + 0.5
        time.sleep(0.001)
    # Each member comes once more for what it missed.
    for member in members:
        if member.client.connection is None and member.lives:
            member.begin()
    settle(members, 5)


def serve(seconds, seed, folder):
    """A run of pegserve. The members, and its listing."""
    port = free_port()
    write_config(folder / "config", MEMBERS)
    (folder / "quotes").write_text("".join(f"Q S{symbol} N 10.00 10.01\n" for symbol in range(SYMBOLS)))
    with open(folder / "listing", "wb") as listing:
        venue = subprocess.Popen([PROGRAMS / "pegserve", folder / "config", f"127.0.0.1:{port}", str(MEMBERS * LIVES), folder / "quotes"], stdout=listing)
    time.sleep(1)
    chance = random.Random(seed)
    members = [Member(k, chance, port, seconds) for k in range(MEMBERS)]
    trade(members, seconds)
    # The connections that are left are used up, and the venue ends.
    for member in members:
        member.client.close()
        while member.lives:
            member.client.connect()
            member.lives -= 1
            member.client.close()
    status = venue.wait(60)
    if status:
        sys.exit(f"the venue ended with status {status}")
    return members, (folder / "listing").read_bytes()


def live(seconds, seed, folder):
    """A day of peglive. The members, and the listing of its journal, which is audited."""
    port = free_port()
    write_config(folder / "config", MEMBERS)
    venue = Venue(folder / "config", folder / "journal", port, folder / "desk", PROGRAMS / "peglive")
    venue.start()
    for symbol in range(SYMBOLS):
        if venue.ask(f"Q S{symbol} N 10.00 10.01") != "OK":
            sys.exit("a quote was not taken")
    chance = random.Random(seed)
    members = [Member(k, chance, port, seconds, max(LIVES, seconds // 10)) for k in range(MEMBERS)]
    trade(members, seconds)
    peak = re.search(r"VmHWM:\s+(\d+)", pathlib.Path(f"/proc/{venue.process.pid}/status").read_text())[1]
    status = venue.stop()
    if status:
        sys.exit(f"the venue ended with status {status}")
    lines = journal_lines(folder / "journal")
    wrong, compared = judge([member.client for member in members], lines, folder, PROGRAMS / "pegreplay")
    if wrong:
        sys.exit("\n".join(wrong[:20]))
    begin = next(at for at, line in enumerate(lines) if line.startswith(b"BEGIN "))
    (folder / "feed").write_bytes(b"".join(line + b"\n" for line in lines[begin + 1:]))
    with open(folder / "listing", "wb") as listing:
        subprocess.run([PROGRAMS / "pegvenue", folder / "config", folder / "feed"], stdout=listing, check=True)
    subprocess.run([PROGRAMS / "pegaudit", "verify", folder / "config", folder / "listing", folder / "feed"], stdout=subprocess.DEVNULL, check=True)
    connections = sum(len(member.client.runs) for member in members)
    print(f"{connections} connections, {len(lines):,} lines in the journal, {compared:,} frames as it says, audited as same; {int(peak) // 1024} MB at most")
    return members, (folder / "listing").read_bytes()


def settle(members, seconds):
    """Receives until nothing comes any more."""
    end = time.monotonic() + seconds
    while time.monotonic() < end:
        for member in members:
            if member.client.connection:
                member.client.receive()
        time.sleep(0.01)


def check(members, listing):
    """Each report that a member got stands in the listing, once and in order, by symbol."""
    listed = collections.defaultdict(list)
    for line in listing.splitlines():
        if line.startswith(b"R "):
            _, symbol, _, _, member, kind, body = line.split(b" ", 6)
            listed[member, symbol].append((kind, body.replace(b"|", SOH)))
    got = 0
    for member in members:
        own = {symbol: reports for (name, symbol), reports in listed.items() if name == member.client.member}
        place = dict.fromkeys(own, 0)
        for report in member.client.reports:
            if b"\x0117=0-" in report[1]:
                continue
            # A cancel reject of no order doesn't say its symbol.
            fits = [symbol for symbol in own if own[symbol][place[symbol]:place[symbol] + 1] == [report]]
            if not fits:
                sys.exit(f"{member.client.member.decode()} got a report that the listing doesn't have there: {report[1]!r}")
            place[fits[0]] += 1
            got += 1
    return got, sum(len(reports) for reports in listed.values())


def main():
    words = sys.argv[1:]
    is_live = words[:1] == ["live"]
    seconds, seed = (int(word) for word in (words[is_live:] + ["60", "1"][len(words) - is_live:]))
    with scratch_folder() as name:
        members, listing = (live if is_live else serve)(seconds, seed, pathlib.Path(name))
        got, listed = check(members, listing)
        events = listing.count(b"\nJ ") + listing.startswith(b"J ")
        print(f"{seconds} s, {events:,} events, {listed:,} reports in the listing, {got:,} of them received, each once and in order")


if __name__ == "__main__":
    main()
