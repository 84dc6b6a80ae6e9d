"""The members of the demonstration, and the market that they trade in."""
import time

from fix_client import Client
from words import Failed, told, values_of

# The terms of an order: FIX fields, and how one says it.
MID = (b"40=P\x011094=2\x01", "at the midpoint")
PRIMARY = (b"40=P\x011094=5\x01", "at its own side of the quote")
SIDES = {"buys": b"1", "sells": b"2"}
# How long anything may take to come, in seconds.
PATIENCE = 20


def at(price):
    return (b"40=2\x0144=%s\x01" % price.encode(), f"at {price} or better")


class Member(Client):
    """A member who remembers the frames of each of his connections, and which of his reports were shown."""

    def __init__(self, name, address):
        super().__init__(name, address)
        self.name, self.runs, self.shown, self.alive = name, [], 0, set()
        # Orders sent by the dozen, how many of his orders were accepted or rejected, and how often they traded.
        self.sent = self.answered = self.accepted = self.fills = 0

    def connect(self):
        super().connect()
        self.runs.append([])

    def work(self, frame):
        self.runs[-1].append(frame)
        before, count = self.next_in, len(self.reports)
        super().work(frame)
        for _, report in self.reports[count:]:
            self.accepted += b"\x01150=0\x01" in report
            self.answered += b"\x01150=0\x01" in report or b"\x01150=8\x01" in report
            self.fills += b"\x01150=F\x01" in report
        # A Heartbeat that answers a TestRequest: all messages before it have come.
        if b"\x0135=0\x01" in frame and self.next_in > before:
            self.alive.update(field[4:] for field in frame.split(b"\x01") if field.startswith(b"112="))

    def try_connect(self):
        """Logs on, where the venue is there."""
        try:
            self.connect()
            self.logon()
        except OSError:
            self.close()


class Market:
    """A venue, its members and its quotes; whatever happens is told on a screen."""

    def __init__(self, venue, members, screen):
        self.venue, self.members, self.screen = venue, members, screen

    def quote(self, symbol, market, bid, offer):
        self.screen.say(market, f"quotes {symbol} {bid} bid, {offer} offered", "quote")
        answer = self.venue.ask(f"Q {symbol} {market} {bid} {offer}")
        if answer != "OK":
            raise Failed(f"a quote of {market} was answered by {answer}")

    def log_on(self, member):
        again = bool(member.runs)
        self.screen.say(member.name, f"logs on{' again, with message ' + str(member.next_out) if again else ''}")
        member.connect()
        member.logon()
        self.until(lambda: member.up, f"{member.name} was not let in")

    def trade(self, member, order_id, side, quantity, symbol, terms):
        fields, told_terms = terms
        self.screen.say(member.name, f"{side} {quantity} {symbol} {told_terms}", "order")
        member.send(member.order(order_id.encode(), symbol.encode(), SIDES[side], quantity, fields))

    def ask_status(self, member, order_id, side, symbol):
        self.screen.say(member.name, "asks where the order stands")
        member.send(member.message(b"H", b"11=%s\x0155=%s\x0154=%s\x01" % (order_id.encode(), symbol.encode(), SIDES[side])))

    def want(self, member, note, **fields):
        """Waits for a member's next report, shows it with a note, and wants these fields in it: e150="F" is ExecType(150) F."""
        self.until(lambda: len(member.reports) > member.shown, f"no report came to {member.name}")
        report = member.reports[member.shown][1]
        member.shown += 1
        text, kind = told(report)
        self.screen.say(member.name, f"  {text}{': ' + note if note else ''}", kind)
        values = values_of(report)
        for tag, value in fields.items():
            if values.get(int(tag[1:])) != value:
                raise Failed(f"{member.name} was told {tag[1:]}={values.get(int(tag[1:]))}, and by the rules it is {value}: {report!r}")

    def receive(self):
        """Takes what came for each member. Whether anything did."""
        came = False
        for member in self.members:
            if member.connection:
                try:
                    came = bool(member.receive()) or came
                except OSError:
                    member.close()
        return came

    def until(self, holds, otherwise):
        end = time.monotonic() + PATIENCE
        while not holds():
            if time.monotonic() > end:
                raise Failed(otherwise)
            if not self.receive():
                time.sleep(0.001)

    def until_all_came(self):
        """Waits until each member has all that is due to him: he asks for a Heartbeat, and it comes with the number that he waits for."""
        for turn in range(PATIENCE * 2):
            mark = b"all%d" % turn
            for member in self.members:
                member.send(member.message(b"1", b"112=%s\x01" % mark))
            end = time.monotonic() + 0.5
            while time.monotonic() < end:
                if all(mark in member.alive for member in self.members):
                    return
                if not self.receive():
                    time.sleep(0.001)
        raise Failed("the members did not get what is due to them")
