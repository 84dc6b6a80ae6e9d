#!/usr/bin/env python3
"""fuzz.py [SECONDS [SEED]]: runs the programs on inputs that were changed at random. It is no part of the gate.

It takes worked scripts, mixed scripts and recorded market data sessions, and changes bytes, words and lines of them. A run fails where a program ends
by a signal, takes more than ten seconds or 2 GB, or ends with a status that it doesn't have. Of the programs that are built, those that have
to agree are compared: pegday puts what pegreplay puts; pegvenue, given a script's header as its config and its body as its one feed, lists each report
that pegreplay sent, in the same order. What differs is kept under the name that is printed.
"""
import collections
import random
import resource
import shutil
import subprocess
import sys
import tempfile
import time
from pathlib import Path

TOP = Path(__file__).resolve().parent.parent
STATUSES = {"pegreplay": {0, 2, 3, 4, 5, 6, 7}, "pegvenue": {0, 2, 3, 4, 5, 6, 7, 8}, "pegday": {0, 2, 3, 4, 5, 6, 7, 10, 11, 12},
            "pegmarket": {0, 2, 3, 4, 5, 6, 7, 9}}


def is_built(program):
    return (TOP / "bin" / program).exists()


def limit_memory():
    resource.setrlimit(resource.RLIMIT_AS, (2 << 30, 2 << 30))


def run(program, *words):
    """What a program puts, what it tells, and its status; the status is None where it did what it may not."""
    try:
        ran = subprocess.run([TOP / "bin" / program, *words], capture_output=True, timeout=10, preexec_fn=limit_memory, check=False)
    except subprocess.TimeoutExpired:
        return b"", b"ten seconds are over", None
    return ran.stdout, ran.stderr, ran.returncode if ran.returncode in STATUSES[program] else None


def changed(chance, text):
    """The text with a few changes."""
    lines = text.split(b"\n")
    for _ in range(chance.randrange(1, 5)):
        kind, at = chance.randrange(7), chance.randrange(len(lines))
        line = lines[at]
        if kind == 0 and line:
            place = chance.randrange(len(line))
            lines[at] = line[:place] + bytes([chance.randrange(256)]) + line[place + 1:]
        elif kind == 1:
            lines.insert(at, lines[chance.randrange(len(lines))])
        elif kind == 2 and len(lines) > 1:
            del lines[at]
        elif kind == 3:
            words = line.split(b" ")
            chance.shuffle(words)
            lines[at] = b" ".join(words)
        elif kind == 4 and b"|" in line:
            fields = line.split(b"|")
            place = chance.randrange(len(fields))
            fields[place] = chance.choice([b"", b"34=1", b"43=Y", b"38=0", b"38=99999999999", b"44=-1", b"11=", b"35=2", b"7=1", b"16=0", fields[place] * 2])
            lines[at] = b"|".join(fields)
        elif kind == 5:
            other = chance.randrange(len(lines))
            lines[at], lines[other] = lines[other], lines[at]
        else:
            lines[at] = line[:chance.randrange(len(line) + 1)]
    return b"\n".join(lines)


def sent_reports(transcript):
    """By member, the bodies of a book's reports that were sent for the first time. What names no symbol of the config is refused before it reaches a book:
    a new order's and a status' report then have event 0, and a refused cancel or replace rule 1."""
    sent = collections.defaultdict(list)
    for line in transcript.splitlines():
        member, frame = line.split(b" ", 1)
        is_of_book = b"|35=8|" in frame and b"|17=0-" not in frame or b"|35=9|" in frame and b"|9702=1|" not in frame
        if is_of_book and b"|43=Y|122=" not in frame:
            sent[member].append(frame[frame.index(b"|37=") + 1:frame.rindex(b"10=")])
    return sent


def is_listed(sent, listing):
    """Whether each member's reports stand in a listing, by symbol in their order."""
    listed = collections.defaultdict(lambda: collections.defaultdict(list))
    for line in listing.splitlines():
        if line.startswith(b"R "):
            _, symbol, _, _, member, _, body = line.split(b" ", 6)
            listed[member][symbol].append(body)
    for member, bodies in sent.items():
        place = collections.Counter()
        for body in bodies:
            fits = [symbol for symbol, own in listed[member].items() if own[place[symbol]:place[symbol] + 1] == [body]]
            if not fits:
                return False
            place[fits[0]] += 1
    return True


def try_script(text, folder):
    """What is wrong with the runs of a script, if anything."""
    script, journal = folder / "script", folder / "journal"
    script.write_bytes(text)
    journal.unlink(missing_ok=True)
    out, told, status = run("pegreplay", script)
    if status is None:
        return f"pegreplay: {told[-200:]!r}"
    if is_built("pegday"):
        day = run("pegday", script, journal)
        if (day[0], day[2]) != (out, status):
            return f"pegday: {day[2]} and not {status}, {day[1][-200:]!r}"
    begin = text.find(b"\nBEGIN ")
    end = text.find(b"\n", begin + 1) + 1
    if begin < 0 or end == 0 or not is_built("pegvenue"):
        return None
    config, feed = folder / "config", folder / "feed"
    config.write_bytes(text[:end])
    feed.write_bytes(text[end:])
    listing, told, venue = run("pegvenue", config, feed)
    if venue is None:
        return f"pegvenue: {told[-200:]!r}"
    if (status == 0) != (venue == 0):
        return f"pegvenue: {venue} and not {status}, {told[-200:]!r}"
    return None if is_listed(sent_reports(out), listing) or venue else "pegvenue lists other reports"


def try_market(text, folder):
    config, feed = folder / "config", folder / "input"
    config.write_bytes(b"PEGV 1\nMARKET N\nMARKET P\nSYMBOL X 1000\nBEGIN 20240102-14:30:00.000\n")
    feed.write_bytes(text)
    out, told, status = run("pegmarket", config, "SIP", feed)
    if status is None:
        return f"pegmarket: {told[-200:]!r}"
    if not is_built("pegvenue"):
        return None
    feed.write_bytes(out)
    _, told, status = run("pegvenue", config, feed)
    return None if status in (0, 8) else f"pegvenue on what pegmarket put: {status}, {told[-200:]!r}"


def main():
    seconds = int(sys.argv[1]) if len(sys.argv) > 1 else 60
    chance = random.Random(int(sys.argv[2]) if len(sys.argv) > 2 else 1)
    scripts = [file.read_bytes() for file in sorted(TOP.glob("examples/**/*.pegv"))]
    mixed = [sys.executable, TOP / "bench/mixed_script.py"]
    scripts += [subprocess.run([*mixed, str(seed), "300"], capture_output=True, check=True).stdout for seed in range(5)]
    sessions = [(TOP / "examples/market-data/session").read_bytes()] if is_built("pegmarket") else []
    counts, end = collections.Counter(), time.monotonic() + seconds
    with tempfile.TemporaryDirectory() as room:
        folder = Path(room)
        while time.monotonic() < end:
            market = bool(sessions) and chance.random() < 0.2
            text = changed(chance, chance.choice(sessions if market else scripts))
            wrong = try_market(text, folder) if market else try_script(text, folder)
            counts["sessions" if market else "scripts"] += 1
            if wrong:
                counts["wrong"] += 1
                kept = Path(tempfile.gettempdir()) / f"fuzz-{chance.randrange(10**9)}"
                shutil.copytree(folder, kept)
                print(f"{kept}: {wrong}")
    print(f"{seconds} s: {counts['scripts']:,} scripts, {counts['sessions']:,} market data sessions, {counts['wrong']} wrong")
    sys.exit(counts["wrong"] > 0)


if __name__ == "__main__":
    main()
