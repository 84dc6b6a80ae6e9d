"""What is looked at when the day is over: its journal, by a program that had no part in it."""
import csv
import re
import shutil
import subprocess

from live_day import unescaped, wrong_run
from words import Failed


class Day:
    """A day that has ended: its journal, in a folder, and what each member got of it."""

    def __init__(self, folder, programs, members):
        self.folder, self.programs, self.members = folder, programs, members
        self.lines = self.run("pegaudit", "journal", "day.journal", to="day.pegv").encode().splitlines()

    def run(self, program, *words, to=None):
        """What a program puts, or the file that it puts into."""
        with open(self.folder / (to or "out"), "wb") as out:
            ran = subprocess.run([self.programs[program], *words], cwd=self.folder, stdout=out, stderr=subprocess.PIPE, check=False)
        if ran.returncode:
            told = (self.folder / (to or "out")).read_text(errors="replace")[:300]
            raise Failed(f"{program} {' '.join(words)} ended with {ran.returncode}: {told}{ran.stderr.decode(errors='replace')}")
        return (self.folder / (to or "out")).read_text(errors="replace")

    def frames(self):
        """Of each member the frames that he is due, in order, as pegaudit explains the lines of the day."""
        frames = {}
        for line in self.run("pegaudit", "explain", "day.pegv").splitlines():
            if line.startswith("  > "):
                name, text = line[4:].split(" ", 1)
                frames.setdefault(name, []).append(unescaped(text.encode()))
        return frames

    def check_frames(self):
        """Each connection was sent a run of what its member is due by the journal. How many frames and connections."""
        frames = self.frames()
        count = connections = 0
        for member in self.members:
            wrong = wrong_run(member.runs, frames.get(member.name, []))
            if wrong:
                raise Failed(f"{member.name} was sent what the journal does not say: {wrong!r}")
            count += sum(len(run) for run in member.runs)
            connections += len(member.runs)
        return count, connections

    def check_reports(self):
        """Each report of the listing came to its member, once, and no other did. How many."""
        listed = {}
        for line in (self.folder / "day.listing").read_bytes().splitlines():
            if line.startswith(b"R "):
                _, _, _, _, name, kind, body = line.split(b" ", 6)
                listed.setdefault(name.decode(), []).append((kind, body.replace(b"|", b"\x01")))
        for member in self.members:
            due, got = sorted(listed.get(member.name, [])), sorted(member.reports)
            if due != got:
                differing = next((one for one in due + got if due.count(one) != got.count(one)), None)
                raise Failed(f"{member.name} got {len(got)} reports and is due {len(due)}; the first that differs: {differing!r}")
        return sum(len(member.reports) for member in self.members)

    def audit(self):
        """Has pegaudit recompute the day. How many events, and what it says."""
        said = self.run("pegaudit", "verify", "--journal", "day.journal").strip()
        listing = self.run("pegaudit", "journal", "day.journal", "listing", to="day.listing")
        return sum(int(count) for count in re.findall(r"^S \S+ (\d+) \d+$", listing, re.M)), said

    def trades(self):
        """The day's trades, as pegaudit has them in its table."""
        return list(csv.DictReader(self.run("pegaudit", "trades", "--journal", "day.journal").splitlines()))

    def page(self, to):
        """Leaves the day's files in a folder in the place of those of the last day, with a page to open, whose path is returned."""
        shutil.rmtree(to, ignore_errors=True)
        to.mkdir(parents=True, exist_ok=True)
        if re.search(r"^ +report\b", self.run("pegaudit", "--help"), re.M):
            name, words = "day.html", ("report", "--journal", "day.journal")
        else:
            name, words = "acme.svg", ("chart", "--journal", "day.journal", "ACME")
        self.run("pegaudit", *words, to=name)
        for made in (name, "day.pegv", "day.listing"):
            shutil.copyfile(self.folder / made, to / made)
        return to / name
