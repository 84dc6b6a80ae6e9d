"""The members of a day at the desk: some by a client of our own, some by QuickFIX with its file stores; all are asked and told in one form."""
import collections
import subprocess
import threading
import time
from pathlib import Path

from live_day import TOP
from live_members import Member

QUICKFIX = TOP / "interop/quickfix"
# The program over QuickFIX, as it is compiled from there.
SPEAK = TOP / "bin/speak"
MID = "40=P|1094=2|"
SIDES = {"buys": "1", "sells": "2"}


def values_of(text):
    """The fields of a report, by their tags; of one that stands twice the first."""
    return dict(reversed([field.split("=", 1) for field in text.strip("|").split("|")]))


class Trader:
    """What a member asks and was told: `told` has each of his reports, as its fields."""

    def __init__(self, name):
        self.name, self.told, self.seen, self.count = name, [], 0, 0
        # ClOrdIDs of his orders that were accepted, and his fills by OrderID and ExecID.
        self.accepted, self.fills = set(), set()

    def hear(self, fields):
        self.told.append(fields)
        if fields.get("150") == "0":
            self.accepted.add(fields["11"])
        if fields.get("150") == "F":
            self.fills.add((fields["37"], fields["17"]))

    def fresh(self):
        self.count += 1
        return f"{self.name[0].lower()}-{self.count}"

    def order(self, side, quantity, symbol, terms=MID):
        """Sends an order. Its ClOrdID."""
        own = self.fresh()
        self.send("D", f"11={own}|55={symbol}|54={SIDES[side]}|38={quantity}|{terms}")
        return own

    def ask_status(self, own, side, symbol):
        self.send("H", f"11={own}|55={symbol}|54={SIDES[side]}|")

    def has(self, **fields):
        """Whether a report with these fields came that was not seen before: e150="F" is ExecType(150) F. All before it are seen from now on."""
        for place in range(self.seen, len(self.told)):
            if all(self.told[place].get(tag[1:]) == value for tag, value in fields.items()):
                self.seen = place + 1
                return True
        return False


class OwnMember(Trader, Member):
    """A member over our own client."""

    def __init__(self, name, port):
        Member.__init__(self, name, port)
        Trader.__init__(self, name)

    def send(self, frame, text=None):
        """Sends a frame, or a message of a type with these fields and its time."""
        if text is None:
            super().send(frame)
        elif self.up:
            try:
                moment = b"" if frame == "H" else b"60=" + self.now() + b"\x01"
                super().send(self.message(frame.encode(), text.replace("|", "\x01").encode() + moment))
            except OSError:
                self.close()

    @staticmethod
    def now():
        return time.strftime("%Y%m%d-%H:%M:%S.000", time.gmtime()).encode()

    def work(self, frame):
        before = len(self.reports)
        super().work(frame)
        for _, report in self.reports[before:]:
            self.hear(values_of(report.replace(b"\x01", b"|").decode()))

    def pump(self):
        """Takes what came; comes back where the connection has ended."""
        if not self.take() and self.connection is None:
            self.log_on()


class EngineMember(Trader):
    """A member over QuickFIX: one of those that an engine leads."""

    def __init__(self, name, engine):
        super().__init__(name)
        self.engine, self.up, self.again = engine, False, 0
        # How often each report came that was not marked as sent again, by OrderID and ExecID.
        self.first = collections.Counter()

    def send(self, kind, text):
        self.engine.say(f"{self.name} {kind} {text}")

    def hear_line(self, text):
        if text == "up":
            self.up = True
        elif text == "down":
            self.up = False
        else:
            fields = values_of(text.removesuffix(" again"))
            if text.endswith(" again"):
                self.again += 1
            elif fields["35"] == "8":
                self.first[fields["37"], fields["17"]] += 1
            self.hear(fields)

    def twice(self):
        """The reports that came more than once as if for the first time; those of the member's own questions aside, which have ExecID 0."""
        return [it for it, count in self.first.items() if count > 1]


class Engine:
    """QuickFIX, as a program that is led by lines. `missing` says why there is none."""

    def __init__(self, folder, port, names):
        self.members = {name: EngineMember(name, self) for name in names}
        self.process, self.lines, self.guard = None, [], threading.Lock()
        self.folder, self.missing = folder, None
        if not Path("/usr/include/quickfix/Session.h").is_file():
            self.missing = "QuickFIX is not installed: apt-get install libquickfix-dev g++"
            return
        text = (QUICKFIX / "session.cfg.in").read_text().partition("[SESSION]")[0]
        text = text.replace("@PORT@", str(port)).replace("@ROOM@", str(folder)).replace("@HERE@", str(QUICKFIX))
        (folder / "session.cfg").write_text(text + "".join(f"[SESSION]\nSenderCompID={name}\n" for name in names))
        sources = [QUICKFIX / "speak.cpp", QUICKFIX / "members.h"]
        if SPEAK.is_file() and all(it.stat().st_mtime < SPEAK.stat().st_mtime for it in sources):
            return
        made = subprocess.run(["g++", "-std=c++14", "-O1", "-Wno-deprecated", "-o", SPEAK, sources[0], "-lquickfix", "-lpthread"],
                              capture_output=True, text=True, check=False)
        if made.returncode:
            self.missing = f"the program over QuickFIX does not compile: {made.stderr[-200:]}"

    def begin(self):
        self.process = subprocess.Popen([SPEAK, self.folder / "session.cfg"], stdin=subprocess.PIPE, stdout=subprocess.PIPE, text=True)
        threading.Thread(target=self.read, args=(self.process,), daemon=True).start()

    def read(self, process):
        for line in process.stdout:
            with self.guard:
                self.lines.append(line.rstrip("\n"))

    def pump(self):
        with self.guard:
            lines, self.lines = self.lines, []
        for line in lines:
            name, _, text = line.partition(" ")
            if name in self.members:
                self.members[name].hear_line(text)

    def say(self, line):
        try:
            self.process.stdin.write(line + "\n")
            self.process.stdin.flush()
        except OSError:
            pass

    def kill(self):
        self.process.kill()
        self.process.wait()
        for member in self.members.values():
            member.up = False

    def end(self):
        """Has all log out. The exit of the program."""
        self.process.stdin.close()
        return self.process.wait(60)
