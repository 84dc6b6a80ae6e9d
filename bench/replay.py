#!/usr/bin/env python3
"""replay.py [PROGRAM ..]: times pegreplay and measures its memory. It is no part of the gate.

Run it at the top of the repository behind `./build`. Each PROGRAM (bin/pegreplay if none is named) works the same runs on
one processor, in turn: a mixed script of a million lines, a load of pegged orders and quotes, and a wide script of
200 members who trade 200 symbols. The next lines tell what a quote costs over an empty book, and beside 2,000 and 200,000 resting orders: the time of a
script with a million quotes, less that of the same script without them. Where several programs are named, the last lines tell how many times as long
the first one takes as each other one.
"""
import os
import subprocess
import sys
import tempfile
import time

QUOTES = 1_000_000
RUNS = 5
ROUNDS = 15
STAMP = "20240102-14:30:00"


def measure(program, words):
    """The seconds and the greatest memory in bytes of a run whose output goes to a file."""
    with tempfile.TemporaryFile() as out:
        start = time.monotonic()
        child = subprocess.Popen([program, *words], stdout=out)
        _, status, usage = os.wait4(child.pid, 0)
        seconds = time.monotonic() - start
        child.returncode = os.waitstatus_to_exitcode(status)
        if child.returncode != 0:
            sys.exit(f"{program} {' '.join(words)}: exit {child.returncode}")
        return seconds, usage.ru_maxrss * 1024


def report(programs, name, words, events):
    """Prints what a run takes, and gives the seconds of each program: the least of rounds in which all take it in turn."""
    rounds = [[measure(program, words) for program in programs] for _ in range(RUNS)]
    told = [min(times) for times in zip(*rounds)]
    for program, (seconds, memory) in zip(programs, told):
        print(f"{program:24} {name:28} {seconds:7.2f} s {memory / 1e6:8.1f} MB {memory / events:7.0f} bytes an event")
    return [seconds for seconds, _ in told]


def write_wide(path, members, symbols, orders):
    """A script in which each member has so many orders in symbols that go round, half of them to buy, half to sell."""
    with open(path, "w") as out:
        print("PEGV 1", file=out)
        for member in range(members):
            print(f"MEMBER M{member}", file=out)
        print("MARKET N", file=out)
        for symbol in range(symbols):
            print(f"SYMBOL S{symbol} 10000", file=out)
        print(f"BEGIN {STAMP}.000", file=out)
        for member in range(members):
            print(f"M M{member} 35=A|49=M{member}|56=PEGV|34=1|52={STAMP}|98=0|108=30|1137=9|", file=out)
        for symbol in range(symbols):
            print(f"Q S{symbol} N 10.00 10.02", file=out)
        for k in range(orders):
            for member in range(members):
                symbol = (member + k) % symbols
                print(
                    f"M M{member} 35=D|49=M{member}|56=PEGV|34={k + 2}|52={STAMP}|11={k}|55=S{symbol}|54={1 + k % 2}|38=100|40=P|1094=2|"
                    f"60={STAMP}|",
                    file=out,
                )


def write_resting(path, orders, quotes):
    """A script of so many orders that rest in eight peg groups, and of quotes that move them."""
    with open(path, "w") as out:
        print(f"PEGV 1\nMEMBER A\nMARKET M\nSYMBOL L 2000000\nBEGIN {STAMP}.000", file=out)
        print(f"M A 35=A|49=A|56=PEGV|34=1|52={STAMP}|98=0|108=30|1137=9|\nQ L M 10.00 10.02", file=out)
        for i in range(1, orders + 1):
            print(
                f"M A 35=D|49=A|56=PEGV|34={i + 1}|52={STAMP}|11={i}|55=L|54=1|38=100|40=P|1094=5|836=2|211={-(i % 8)}|"
                f"60={STAMP}|",
                file=out,
            )
        for k in range(quotes):
            print("Q L M 10.01 10.03" if k % 2 == 0 else "Q L M 10.00 10.02", file=out)


def quote_costs(programs, folder, orders):
    """The nanoseconds of a quote beside so many resting orders, for each program: of rounds in which all programs take both scripts in turn, each
    script's least time counts, since the speed of a machine may change between two runs."""
    scripts = {}
    for quotes in [0, QUOTES]:
        scripts[quotes] = os.path.join(folder, f"resting{orders}-{quotes}.txt")
        write_resting(scripts[quotes], orders, quotes)
    rounds = [{(program, quotes): measure(program, [script])[0] for program in programs for quotes, script in scripts.items()}
              for _ in range(ROUNDS)]
    least = {key: min(times[key] for times in rounds) for key in rounds[0]}
    return [(least[program, QUOTES] - least[program, 0]) / QUOTES * 1e9 for program in programs]


def ratios(name, programs, seconds):
    """Prints how many times as long the first program takes as each other one."""
    for program, other in zip(programs[1:], seconds[1:]):
        print(f"{name:28} {programs[0]} takes {seconds[0] / other:.1f} times as long as {program}")


def main():
    programs = sys.argv[1:] or ["bin/pegreplay"]
    os.sched_setaffinity(0, {max(os.sched_getaffinity(0))})
    here = os.path.dirname(os.path.abspath(__file__))
    told = []
    with tempfile.TemporaryDirectory() as folder:
        script = os.path.join(folder, "mixed.txt")
        with open(script, "wb") as out:
            subprocess.run([sys.executable, os.path.join(here, "mixed_script.py"), "1", "1000000"], stdout=out, check=True)
        wide = os.path.join(folder, "wide.txt")
        write_wide(wide, 200, 200, 100)
        runs = [("mixed, 1,000,000 lines", [script], 1_000_000), ("load 200000 200000", ["load", "200000", "200000"], 400_002),
                ("wide, 200 by 200", [wide], 20_200)]
        for name, words, events in runs:
            told.append((name, report(programs, name, words, events)))
        for orders in [0, 2_000, 200_000]:
            costs = quote_costs(programs, folder, orders)
            for program, cost in zip(programs, costs):
                print(f"{program:24} a quote beside {orders:>7,} resting orders: {cost:6.0f} ns")
            told.append((f"a quote beside {orders:,}", costs))
    for name, seconds in told:
        ratios(name, programs, seconds)


if __name__ == "__main__":
    main()
