"""A market that is made up for the trial: its config, how many events each symbol is expected to have, and the feeds of its days."""
import itertools
import random

MEMBERS = ("FUND", "BANK", "DESK", "ARBS", "PENS", "QUAN")
MARKETS = ("NYSE", "ARCA", "BATS", "IEXG")
STAMP = "20240102-14:30:00"
LIMIT = 200_000
ORDERS_PER_QUOTE = 0.6


def symbols(count):
    """Names, from the busiest symbol to the quietest."""
    letters = "ABCDEFGHIJKLMNOPQRSTUVWXYZ"
    return ["".join(it) for it in itertools.islice(itertools.product(letters, letters, "X"), count)]


def weights(count):
    """How busy each symbol is beside the others: few have most of the events, as in a real market."""
    return [1 / (rank + 3) ** 0.8 for rank in range(count)]


def write_market(folder, count, lines):
    """Writes the market's config and a table of how many events each symbol is expected to have, of so many lines in all."""
    with open(folder / "market.config", "w", encoding="ascii") as out:
        print("PEGV 2", file=out)
        for name in MEMBERS:
            print("MEMBER", name, file=out)
        for name in MARKETS:
            print("MARKET", name, file=out)
        for name in symbols(count):
            print("SYMBOL", name, LIMIT, "0.01", file=out)
        print(f"BEGIN {STAMP}.000", file=out)
    busy = weights(count)
    with open(folder / "expected.csv", "w", encoding="ascii") as out:
        print("symbol,events", file=out)
        for name, weight in zip(symbols(count), busy):
            print(f"{name},{round(lines * weight / sum(busy))}", file=out)


def quotes(names, busy, lines, chance):
    middles = dict.fromkeys(names, 2000)
    for name in chance.choices(names, busy, k=lines):
        middles[name] = max(500, middles[name] + chance.choice((-1, 0, 0, 0, 1)))
        bid, offer = middles[name] - 1, middles[name] + 1
        yield f"Q {name} {chance.choice(MARKETS)} {bid // 100}.{bid % 100:02} {offer // 100}.{offer % 100:02}\n"


def orders(names, busy, lines, chance):
    for member in MEMBERS:
        yield f"M {member} 35=A|49={member}|56=PEGV|34=1|52={STAMP}|98=0|108=30|1137=9|\n"
    numbers = dict.fromkeys(MEMBERS, 1)
    for at, name in enumerate(chance.choices(names, busy, k=lines)):
        member = MEMBERS[at % len(MEMBERS)]
        numbers[member] += 1
        side = chance.choice("12")
        peg = chance.choice(("1094=2|", "1094=5|836=2|211=-1|", "1094=5|836=2|211=-3|"))
        yield (f"M {member} 35=D|49={member}|56=PEGV|34={numbers[member]}|52={STAMP}|11={numbers[member]}|55={name}|54={side}|"
               f"38={chance.randrange(1, 9)}00|40=P|{peg}60={STAMP}|\n")


def write_day(place, names, count, lines, seed):
    """Writes the feeds of a day of a shard: about so many lines, quotes in one feed and members' orders in another."""
    of_all = dict(zip(symbols(count), weights(count)))
    busy = [of_all[name] for name in names]
    chance = random.Random(seed)
    of_orders = round(lines * ORDERS_PER_QUOTE / (1 + ORDERS_PER_QUOTE))
    place.mkdir(parents=True)
    for file, texts in (("quotes.feed", quotes(names, busy, lines - of_orders, chance)), ("orders.feed", orders(names, busy, of_orders, chance))):
        with open(place / file, "w", encoding="ascii") as out:
            out.writelines(texts)
