"""The programs of the demonstration: proved ones where they stand in bin/, else those that ./try compiles and keeps."""
import os
import subprocess
import sys
import tempfile
from pathlib import Path

import crates

TOP = crates.TOP
AFTERWARDS = ("pegaudit",)
# What a compilation takes at most, in KB.
MEMORY = 2_500_000


class Unusable(Exception):
    """Why there are no programs, as a sentence."""


def is_built(name):
    return os.access(TOP / "bin" / name, os.X_OK) and crates.is_kept(TOP / "bin/.sums" / name, crates.proved_mark(name))


def has_memory_for(count):
    free = next(line for line in Path("/proc/meminfo").read_text().splitlines() if line.startswith("MemAvailable:"))
    return int(free.split()[1]) >= count * MEMORY


class Programs(dict):
    """Paths by name. peglive is there from the start; what only the checks at the end need is compiled meanwhile, with less of the processors."""

    def __init__(self):
        super().__init__()
        self.meanwhile, self.log = None, None

    def prepare(self, folder=None):
        """Finds the programs in a folder, if one is named, or else where they are; compiles them where they are not."""
        every = ("peglive", *AFTERWARDS)
        if folder:
            self.take(Path(folder).resolve(), every)
        elif all(is_built(name) for name in every):
            self.take(TOP / "bin", every)
        else:
            self.compile(every)

    def take(self, folder, names):
        for name in names:
            self[name] = folder / name
            if not os.access(self[name], os.X_OK):
                raise Unusable(f"there is no {self[name]}")

    def compile(self, every):
        kept = TOP / "bin/unproved"
        if not all((kept / name).is_file() for name in every):
            print("The programs are compiled first, without their proofs; that takes a minute or two, and they are kept.", flush=True)
        if (os.cpu_count() or 1) > 1 and has_memory_for(2):
            self.log = tempfile.TemporaryFile()
            self.meanwhile = subprocess.Popen(["nice", TOP / "tools/unproved", *AFTERWARDS], stdout=subprocess.DEVNULL, stderr=self.log)
        if subprocess.run([TOP / "tools/unproved", "peglive"], stdout=subprocess.DEVNULL, check=False).returncode:
            raise Unusable("peglive could not be compiled")
        self.take(kept, ["peglive"])

    def finish(self, screen):
        """Waits until all are there."""
        if "pegaudit" in self:
            return
        if self.meanwhile and self.meanwhile.poll() is None:
            screen.put("The program that checks the day is still being compiled.", "note")
        if self.meanwhile:
            self.meanwhile.wait()
        # Kept ones are there at once; where one is not, this compiles it or says why not.
        if subprocess.run([TOP / "tools/unproved", *AFTERWARDS], stdout=subprocess.DEVNULL, check=False).returncode:
            raise Unusable("the program that checks the day could not be compiled")
        self.take(TOP / "bin/unproved", AFTERWARDS)

    def stop(self):
        if self.meanwhile and self.meanwhile.poll() is None:
            self.meanwhile.terminate()
            self.meanwhile.wait()

    def described(self):
        where = self["peglive"].parent
        kind = "proved" if where == TOP / "bin" else "compiled without its proofs" if where == TOP / "bin/unproved" else "as it stands there"
        return f"{where.relative_to(TOP) if where.is_relative_to(TOP) else where}/peglive, {kind}"


def described_machine():
    return f"{os.cpu_count()} processors, load {os.getloadavg()[0]:.1f}, Python {sys.version.split()[0]}"
