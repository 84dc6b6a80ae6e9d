#!/usr/bin/env python3
"""mixed_script.py SEED LINES: writes a script that mixes quotes and orders, for timing pegreplay.

Ten symbols, twelve members and six markets; six lines of ten are quotes, the rest are new orders, cancels, replaces and
status requests, some of orders that are gone by then. The same seed and length give the same script.
"""
import random
import sys

MEMBERS = ["ALFA", "BRAVO", "CHARLIE", "DELTA", "ECHO", "FOXTROT", "GOLF", "HOTEL", "INDIA", "JULIETT", "KILO", "LIMA"]
MARKETS = ["NYSE", "NASD", "ARCA", "BATS", "EDGX", "MEMX"]
SYMBOLS = ["AAPL", "MSFT", "AMZN", "NVDA", "TSLA", "JPM", "XOM", "KO", "BRK.B", "PFE"]
STAMP = "20240102-14:30:00"


def cents(value):
    return f"{value // 100}.{value % 100:02}" if value else "-"


class Writer:
    def __init__(self, seed):
        self.random = random.Random(seed)
        self.middles = [self.random.randrange(2_000, 60_000) for _ in SYMBOLS]
        self.numbers = [0] * len(MEMBERS)
        self.ids = [0] * len(MEMBERS)
        self.orders = []

    def message(self, member, kind, fields):
        self.numbers[member] += 1
        name = MEMBERS[member]
        head = f"35={kind}|49={name}|56=PEGV|34={self.numbers[member]}|52={STAMP}|"
        print(f"M {name} {head}{fields}")

    def fresh_id(self, member):
        self.ids[member] += 1
        return f"20240102-{self.ids[member]:07}"

    def quote(self):
        symbol = self.random.randrange(len(SYMBOLS))
        if self.random.random() < 0.3:
            self.middles[symbol] += self.random.randrange(-2, 3)
        bid = self.middles[symbol] - self.random.randrange(1, 4)
        offer = self.middles[symbol] + self.random.randrange(1, 4)
        odd = self.random.randrange(200)
        if odd == 0:
            bid = 0
        elif odd == 1:
            offer = 0
        elif odd == 2:
            bid += 2
        print(f"Q {SYMBOLS[symbol]} {self.random.choice(MARKETS)} {cents(bid)} {cents(offer)}")

    def terms(self, symbol):
        """Side and quantity, and the fields from 40 on."""
        side = self.random.choice("12")
        quantity = 100 * self.random.randrange(1, 21)
        away = self.random.randrange(-2, 38)
        limit = cents(self.middles[symbol] + (away if side == "2" else -away))
        kind = self.random.randrange(100)
        if kind < 20:
            rest = "40=P|1094=2|"
        elif kind < 55:
            rest = "40=P|1094=5|"
        elif kind < 58:
            rest = "40=P|1094=4|"
        else:
            rest = f"40=2|44={limit}|"
        if kind < 58:
            if self.random.random() < 0.3:
                rest += f"44={limit}|"
            if self.random.random() < 0.3:
                rest += f"836=2|211={self.random.randrange(-3, 1)}|"
        if self.random.random() < 0.15:
            rest += f"110={100 * self.random.randrange(1, quantity // 100 + 1)}|"
        if self.random.random() < 0.05:
            rest += "59=3|"
        return side, f"54={side}|38={quantity}|{rest}60={STAMP}|"

    def new(self):
        member = self.random.randrange(len(MEMBERS))
        symbol = self.random.randrange(len(SYMBOLS))
        order = self.fresh_id(member)
        side, terms = self.terms(symbol)
        self.message(member, "D", f"11={order}|55={SYMBOLS[symbol]}|{terms}")
        self.orders.append((member, symbol, order, side))

    def change(self):
        """A cancel, a replace or a status request of an order of before."""
        place = self.random.randrange(len(self.orders))
        member, symbol, order, side = self.orders[place]
        kind = self.random.choice("FFGH")
        if kind == "H":
            self.message(member, "H", f"11={order}|55={SYMBOLS[symbol]}|54={side}|")
            return
        request = self.fresh_id(member)
        fields = f"11={request}|41={order}|55={SYMBOLS[symbol]}|"
        if kind == "F":
            self.message(member, "F", f"{fields}54={side}|60={STAMP}|")
            self.orders[place] = self.orders[-1]
            self.orders.pop()
        else:
            _, terms = self.terms(symbol)
            self.message(member, "G", f"{fields}54={side}|{terms.split('|', 1)[1]}")
            self.orders[place] = (member, symbol, request, side)

    def script(self, lines):
        print("PEGV 1")
        for name in MEMBERS:
            print(f"MEMBER {name}")
        for name in MARKETS:
            print(f"MARKET {name}")
        for name in SYMBOLS:
            print(f"SYMBOL {name} 200000")
        print(f"BEGIN {STAMP}.000")
        for member in range(len(MEMBERS)):
            self.message(member, "A", "98=0|108=30|1137=9|")
        for _ in range(lines):
            if self.random.random() < 0.6:
                self.quote()
            elif self.random.random() < 0.6 or not self.orders:
                self.new()
            else:
                self.change()


if __name__ == "__main__":
    Writer(int(sys.argv[1])).script(int(sys.argv[2]))
