"""The venue, feeds and members of a day at the desk, and what the steps ask of them."""
import datetime
import os
import signal
import subprocess
import time
import urllib.error
import urllib.request

from quoting import LineFeed, SourceFeed, wait_until
from live_day import Venue, free_port, journal_lines
from traders import Engine, OwnMember

OURS, ENGINES = ("DESK", "HEDGE", "PROP"), ("FUND", "BANK")
QUOTES = {"ABC": ("20.00", "20.02"), "DEF": ("50.00", "50.02")}
# The events that a symbol of the day takes which is to fill.
SMALL = 60
# Seconds in which anything has to come, and those after which a silent market is stale.
PATIENCE, STALE = 30, 3


class Wrong(Exception):
    """What went otherwise, as a sentence."""


class Skipped(Exception):
    """Why a step was not tried, as a sentence."""


class World:
    """All that there is on the day."""

    def __init__(self, folder, programs, chance):
        self.folder, self.programs, self.chance = folder, programs, chance
        self.config, self.journal = folder / "day.config", folder / "day.journal"
        self.write_config()
        port = free_port()
        self.venue = Venue(self.config, self.journal, port, folder / "desk", programs / "peglive")
        self.knows_stale = "--stale" in self.help("peglive")
        if self.knows_stale:
            self.set_stale(self.venue.words)
        self.log = open(folder / "venue.log", "ab")
        self.lines = LineFeed("NYSE", QUOTES, str(folder / "desk"))
        # Without pegfeed another writer of lines stands for the second market.
        self.source = SourceFeed("ARCA", QUOTES) if self.has("pegfeed") else LineFeed("ARCA", QUOTES, str(folder / "desk"))
        self.feeder = self.watcher = None
        self.watch_port = free_port()
        self.engine = Engine(folder, port, ENGINES)
        self.own = [OwnMember(name, port) for name in OURS]
        engines = [] if self.engine.missing else list(self.engine.members.values())
        # Where there is no QuickFIX our own client trades for its members too.
        self.own += [] if engines else [OwnMember(name, port) for name in ENGINES]
        self.members = {member.name: member for member in [*self.own, *engines]}
        self.words = ""
        self.busy = False

    @staticmethod
    def set_stale(words):
        """Has a market that is silent for so many seconds lose its prices, whatever the words said before."""
        if "--stale" in words:
            words[words.index("--stale") + 1] = str(STALE)
        else:
            words += ["--stale", str(STALE)]

    def write_config(self):
        begin = datetime.datetime.now(datetime.timezone.utc).strftime("%Y%m%d-%H:%M:%S.000")
        names = "".join(f"MEMBER {name}\n" for name in (*ENGINES, *OURS))
        self.config.write_text(f"PEGV 1\n{names}MARKET NYSE\nMARKET ARCA\nSYMBOL ABC 200000\nSYMBOL DEF 200000\nSYMBOL FULL {SMALL}\nBEGIN {begin}\n")

    def has(self, program):
        return os.access(self.programs / program, os.X_OK)

    def want(self, program):
        if not self.has(program):
            raise Skipped(f"there is no {program}")

    def want_word(self, word):
        if word not in self.words:
            raise Skipped(f"the desk has no {word}")

    def help(self, program):
        return self.run(program, "--help").stdout if self.has(program) else ""

    def run(self, program, *words):
        return subprocess.run([self.programs / program, *map(str, words)], cwd=self.folder, capture_output=True, text=True, errors="replace", check=False,
                              timeout=120)

    def start_feeder(self):
        """Starts pegfeed, which connects to the source and to the desk."""
        with open(self.folder / "feed.log", "ab") as log:
            self.feeder = subprocess.Popen([self.programs / "pegfeed", self.config, f"127.0.0.1:{self.source.port}", "VENUE", "SOURCE",
                                            self.folder / "desk"], stderr=log, stdout=subprocess.DEVNULL)

    def start_watcher(self):
        with open(self.folder / "watch.log", "ab") as log:
            self.watcher = subprocess.Popen([self.programs / "pegwatch", self.journal, self.folder / "desk", f"127.0.0.1:{self.watch_port}"],
                                            stderr=log, stdout=subprocess.DEVNULL)

    def fetched(self, path):
        """What pegwatch answers to a path, or nothing where it isn't there."""
        try:
            with urllib.request.urlopen(f"http://127.0.0.1:{self.watch_port}{path}", timeout=5) as answer:
                return answer.read().decode()
        except (OSError, urllib.error.URLError):
            return ""

    def start_again(self):
        """Starts a venue that has ended, once each member has noticed, and waits until all are logged on again. How long the start took, in seconds."""
        for member in self.own:
            member.drain()
        if not wait_until(lambda: not any(member.up for member in self.engine.members.values()), PATIENCE, self.pump_engine):
            raise Wrong("QuickFIX has not noticed that the venue ended")
        passed = self.venue.start(self.log)
        self.until(lambda: all(member.up for member in self.members.values()), "not all members are up again")
        return passed

    def ask(self, word):
        """What the desk answers to a word by one line."""
        return self.venue.ask(word)

    def ask_list(self, word):
        """What the desk answers to a word by lines, up to that which begins with `end`."""
        self.venue.say(word)
        text = b""
        while not (text.endswith(b"\n") and text.splitlines()[-1].startswith(b"end")):
            piece = self.venue.desk.recv(1 << 16)
            if not piece:
                break
            text += piece
        return text.decode().splitlines()

    def journal_lines(self):
        return journal_lines(self.journal)

    def pump(self):
        """Takes what came for all, and has them trade where the day is busy."""
        for member in self.own:
            member.pump()
        self.engine.pump()
        if self.busy:
            self.trade_one()
        time.sleep(0.002)

    def pump_engine(self):
        self.engine.pump()
        time.sleep(0.01)

    def trade_one(self):
        """Now and then a member sends an order at random, in DEF alone."""
        for member in self.members.values():
            if member.up and self.chance.random() < 0.2:
                member.order(self.chance.choice(("buys", "sells")), self.chance.randrange(1, 10) * 100, "DEF")

    def until(self, holds, otherwise, seconds=PATIENCE):
        if not wait_until(holds, seconds, self.pump):
            raise Wrong(f"{otherwise} within {seconds} s")

    def go_on(self, seconds):
        wait_until(lambda: False, seconds, self.pump)

    def want_told(self, name, what, **fields):
        self.until(lambda: self.members[name].has(**fields), f"{name} was not told that {what}")

    def price_of(self, name, own, side, symbol):
        """Where an order stands, as its member asks: its price (839), or None where it has none now."""
        member = self.members[name]
        member.seen = len(member.told)
        member.ask_status(own, side, symbol)
        self.until(lambda: any(it.get("150") == "I" and it.get("11") == own for it in member.told[member.seen:]), f"no status of {own} came to {name}")
        return next(it for it in member.told[member.seen:] if it.get("150") == "I" and it.get("11") == own).get("839")

    def until_price(self, name, own, side, symbol, price):
        self.until(lambda: self.price_of(name, own, side, symbol) == price, f"{name}'s {own} is not at {price or 'no price'}")

    def until_all_came(self):
        """Waits until each member has all that is due to him: a report that he asks for at last comes after all others."""
        marks = {member.name: member.fresh() for member in self.members.values()}
        for member in self.members.values():
            member.ask_status(marks[member.name], "buys", "ABC")
        for member in self.members.values():
            self.until(lambda member=member: any(it.get("11") == marks[member.name] for it in member.told), f"{member.name} did not get what is due to him")

    def told(self):
        """The venue's log."""
        return (self.folder / "venue.log").read_text(errors="replace")

    def close(self):
        """Ends what still runs."""
        self.lines.end()
        self.source.end()
        for process in (self.feeder, self.watcher, self.engine.process, self.venue.process):
            if process and process.poll() is None:
                os.kill(process.pid, signal.SIGKILL)
                process.wait()
        self.log.close()
