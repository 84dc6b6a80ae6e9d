#!/usr/bin/env python3
"""feeds.py [PROGRAM]: times pegvenue over one feed and over four with the same lines. It is no part of the gate.

Run it at the top of the repository behind `./build pegvenue`. The lines are a million: quotes, and orders of four members
for eight symbols. In one run they stand in one feed, and in the other each member's lines, and a quarter of the quotes,
stand in a feed of their own. First each line's symbol is drawn at random (with a seed), and then all feeds go from symbol to symbol
in step, so that they meet at each. The best of three runs counts.
"""
import os
import random
import subprocess
import sys
import tempfile
import time

MEMBERS = 4
SYMBOLS = 8
LINES = 250_000
STAMP = "20240102-14:30:00"


def lines_of(member, is_in_step):
    """A quarter of the lines: the member's logon, his orders, and after each four of them a quote."""
    name, chance = f"M{member}", random.Random(member)
    yield f"M {name} 35=A|49={name}|56=PEGV|34=1|52={STAMP}|98=0|108=30|1137=9|"
    number = 1
    for i in range(LINES - 1):
        symbol = f"S{i % SYMBOLS if is_in_step else chance.randrange(SYMBOLS)}"
        if i % 5 == 0:
            bid = 1000 + (i // 5 + member) % 3
            yield f"Q {symbol} N{member} {bid // 100}.{bid % 100:02} {(bid + 4) // 100}.{(bid + 4) % 100:02}"
            continue
        number += 1
        side = 1 + (i // SYMBOLS) % 2
        yield (
            f"M {name} 35=D|49={name}|56=PEGV|34={number}|52={STAMP}|11={number}|55={symbol}|54={side}|38={100 + i % 7 * 100}|"
            f"40=P|1094={(2, 5, 5, 5)[i % 4]}|836=2|211={-(i % 5)}|60={STAMP}|"
        )


def write_files(folder, is_in_step):
    with open(f"{folder}/config", "w") as out:
        print("PEGV 1", file=out)
        for member in range(MEMBERS):
            print(f"MEMBER M{member}\nMARKET N{member}", file=out)
        for symbol in range(SYMBOLS):
            print(f"SYMBOL S{symbol} {2_097_152 // SYMBOLS}", file=out)
        print(f"BEGIN {STAMP}.000", file=out)
    with open(f"{folder}/all", "w") as whole:
        for member in range(MEMBERS):
            with open(f"{folder}/feed{member}", "w") as out:
                for line in lines_of(member, is_in_step):
                    print(line, file=out)
                    print(line, file=whole)


def measure(program, words):
    """The seconds and the greatest memory in bytes of a run whose output is dropped."""
    start = time.monotonic()
    child = subprocess.Popen([program, *words], stdout=subprocess.DEVNULL)
    _, status, usage = os.wait4(child.pid, 0)
    seconds = time.monotonic() - start
    child.returncode = os.waitstatus_to_exitcode(status)
    if child.returncode != 0:
        sys.exit(f"{program} {' '.join(words)}: exit {child.returncode}")
    return seconds, usage.ru_maxrss * 1024


def main():
    program = sys.argv[1] if len(sys.argv) > 1 else "bin/pegvenue"
    with tempfile.TemporaryDirectory() as folder:
        one = [f"{folder}/config", f"{folder}/all"]
        four = [f"{folder}/config", *(f"{folder}/feed{member}" for member in range(MEMBERS))]
        for is_in_step in (False, True):
            write_files(folder, is_in_step)
            for name, words in (("one feed", one), ("four feeds", four)):
                seconds, memory = min(measure(program, words) for _ in range(3))
                print(f"{name:11}{'in step' if is_in_step else 'at random':10} {seconds:7.2f} s {memory / 1e6:8.1f} MB")


if __name__ == "__main__":
    main()
