"""Members who trade at a live venue by themselves, and what is looked at afterwards: each frame that they got, each order that was acknowledged."""
import time

from fix_client import Client
from live_day import asked_ids, transcript_by_member, wrong_run

SYMBOLS = (b"ABC", b"DEF")


class Member(Client):
    """A member who remembers the frames of each of his connections, and which of his orders were acknowledged."""

    def __init__(self, name, port):
        super().__init__(name, ("127.0.0.1", port))
        self.runs, self.acknowledged = [], set()

    def connect(self):
        super().connect()
        self.runs.append([])

    def work(self, frame):
        self.runs[-1].append(frame)
        if b"\x0135=8\x01" in frame and b"\x01150=0\x01" in frame:
            self.acknowledged.add(next(field for field in frame.split(b"\x01") if field.startswith(b"11="))[3:])
        super().work(frame)

    def log_on(self):
        """Connects and logs on, where the venue is there."""
        try:
            self.connect()
            self.logon()
        except OSError:
            self.close()

    def take(self):
        """Works what came. Whether the member may send."""
        try:
            return self.connection is not None and self.receive() is not None and self.up
        except OSError:
            self.close()
            return False

    def drain(self):
        """Works what is left on the connection, and drops it."""
        try:
            while self.connection and self.receive():
                pass
        except OSError:
            pass
        self.close()


def write_config(path, members, limit=500_000):
    symbols = "".join(f"SYMBOL {symbol.decode()} {limit}\n" for symbol in SYMBOLS)
    names = "".join(f"MEMBER M{number}\n" for number in range(members))
    path.write_text(f"PEGV 1\n{names}MARKET NYSE\n{symbols}BEGIN 20240102-14:30:00.000\n")


class Trading:
    """Members who send orders and drop their connections, while the market moves."""

    def __init__(self, venue, members, chance):
        self.venue, self.members, self.chance, self.sent = venue, members, chance, 0

    def begin(self):
        """The first quotes after a start, and everybody logs on."""
        self.venue.say("Q ABC NYSE 10.00 10.02", "Q DEF NYSE 20.00 20.02")
        for member in self.members:
            member.log_on()

    def go_on(self, seconds):
        until = time.monotonic() + seconds
        while time.monotonic() < until:
            time.sleep(0.002)
            for member in self.members:
                self.act(member)
            if self.chance.random() < 0.2:
                low = 1000 + self.chance.randrange(20)
                self.venue.say(f"Q ABC NYSE {low // 100}.{low % 100:02} {(low + 2) // 100}.{(low + 2) % 100:02}")
            if self.chance.random() < 0.02:
                # He comes back, sometimes over a connection that is still there.
                member = self.chance.choice(self.members)
                if self.chance.random() < 0.5:
                    member.close()
                member.log_on()

    def act(self, member):
        if member.take() and self.chance.random() < 0.2:
            self.sent += 1
            side, quantity = self.chance.choice([b"1", b"2"]), self.chance.choice([100, 200, 300])
            try:
                member.send(member.order(b"o%d" % self.sent, self.chance.choice(SYMBOLS), side, quantity))
            except OSError:
                member.close()


def judge(members, lines, folder, replay):
    """What is wrong with what the members got, in sentences, and how many frames were compared."""
    frames, wrong, compared, execs = transcript_by_member(lines, folder, replay), [], 0, set()
    for member in members:
        name = member.member.decode()
        begun = wrong_run(member.runs, frames.get(name, []))
        if begun:
            wrong.append(f"{name} was sent what the journal does not say, from {begun!r}")
        for frame in (frame for run in member.runs for frame in run):
            compared += 1
            if b"\x0143=Y\x01" not in frame:
                for field in frame.split(b"\x01"):
                    if field.startswith(b"17="):
                        if (name, field) in execs:
                            wrong.append(f"{name}: {field!r} came twice")
                        execs.add((name, field))
    acknowledged = set().union(*[member.acknowledged for member in members])
    wrong += [f"acknowledged and lost: {order!r}" for order in sorted(acknowledged - asked_ids(lines))]
    return wrong, compared
