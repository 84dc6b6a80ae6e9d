#!/bin/sh
# Times a book and measures its memory: orders that rest in three peg groups, quotes over them, and pairs of orders that trade at
# once. It builds a scratch program in a temporary folder over copies of the crates below, and is no part of the gate.
# Usage: bench/book.sh [EVENTS], where EVENTS is the greatest number of events of a kind.
# shellcheck source=scratch.sh
. "$(dirname "$0")/scratch.sh"
events=${1:-100000}
scratch book_load "venue_words eager_meaning limit_tree match_core symbol_book" \
    "venue_words eager_meaning market_laws best_prices peg_price min_quantity move_history limit_tree peg_groups match_core symbol_book"
cat > src/main.rt <<'END_OF_MAIN'
//! A book under load.
#![tactic(auto)]

ghost use Rattle.std.specs.Prelude.{◌≡◌};

use eager_meaning::Order;
use limit_tree::Node;
use std::alloc::Global;
use std::env;
use std::fs;
use std::io;
use std::marker::Brand;
use std::mem::size_of;
use std::rt::{Clock, Runtime};
use std::sync::ledger::{Blank, Ledger};
use std::time::Instant;
use symbol_book::Book;
use venue_words::{BoxedTerms, Command, Event, Held, Id, NoMemory, Report, Row, Steps, Terms};

/// 100 shares as an amount, and one unit of price.
const ROUND_LOT: i128 = 10_000_000_000;

const UNIT: i128 = 500_000;

fn terms(side: u8, peg: u32, offset: Option<i128>) -> Terms {
    Terms {
        side,
        quantity: ROUND_LOT,
        kind: b'P',
        price: None,
        force: None,
        minimum: None,
        method: None,
        peg: Some(peg),
        offset,
        offset_kind: None,
        moves: None,
        round: None,
    }
}

fn new(alloc: Global, number: u32, terms: Terms) -> Result<Command, NoMemory> {
    let text = format!(in alloc; "ord-{number:06}")?;
    Ok(Command::New {
        member: number % 200,
        id: Id::copy_of(alloc, text.as_bytes())?,
        terms: BoxedTerms::new(alloc, terms)?,
    })
}

/// A buy that follows the midpoint, the bid, or the bid at a distance.
fn resting(alloc: Global, number: u32) -> Result<Command, NoMemory> {
    let third = number % 3;
    let peg = if third == 0 { 2 } else { 5 };
    let offset = if third == 2 { Some(-2 * UNIT) } else { None };
    new(alloc, number, terms(b'1', peg, offset))
}

/// A sell at the midpoint, or the buy that it trades with.
fn trading(alloc: Global, number: u32) -> Result<Command, NoMemory> {
    let side = if number % 2 == 0 { b'2' } else { b'1' };
    new(alloc, number.saturating_add(900_000), terms(side, 2, None))
}

fn quote(number: u32) -> Command {
    let cents = 1000 + number % 7;
    Command::Quote {
        market: 0,
        bid: Some(cents),
        offer: Some(cents + 2),
    }
}

fn submit<L: Ledger>(book: &mut Book, command: Command, steps: &mut Steps<L>) -> bool {
    if book.takes(&command) {
        book.submit(1, 0, &command, steps).is_ok()
    } else {
        false
    }
}

/// Submits a command that was made, and answers how many were taken now.
fn taken<L: Ledger>(
    book: &mut Book,
    command: Result<Command, NoMemory>,
    count: u32,
    steps: &mut Steps<L>,
) -> u32 {
    match command {
        Ok(command) => {
            if submit(book, command, steps) {
                count.saturating_add(1)
            } else {
                count
            }
        }
        Err(_) => count,
    }
}

fn rest<L: Ledger>(rt: &(impl Runtime + AllocGlobal), count: u32, book: &mut Book, steps: &mut Steps<L>) -> io::Result<()> {
    let start = Instant::now(rt)?;
    let mut events = 0;
    for number in 0..count {
        events = taken(book, resting(rt.alloc(), number), events, steps);
    }
    let nanos = start.elapsed(rt)?.as_nanos();
    println!(rt; "{events} resting orders in {} us", nanos / 1000)
}

fn reprice<L: Ledger>(rt: &(impl Runtime + AllocGlobal), count: u32, book: &mut Book, steps: &mut Steps<L>) -> io::Result<()> {
    let start = Instant::now(rt)?;
    let mut events = 0;
    for number in 0..count {
        events = taken(book, Ok(quote(number)), events, steps);
    }
    let nanos = start.elapsed(rt)?.as_nanos();
    println!(rt; "{events} quotes in {} us", nanos / 1000)
}

fn trade<L: Ledger>(rt: &(impl Runtime + AllocGlobal), count: u32, book: &mut Book, steps: &mut Steps<L>) -> io::Result<()> {
    let start = Instant::now(rt)?;
    let mut events = 0;
    for number in 0..count {
        events = taken(book, trading(rt.alloc(), number), events, steps);
    }
    let nanos = start.elapsed(rt)?.as_nanos();
    println!(rt; "{events} orders that trade in {} us", nanos / 1000)
}

fn load<L: Ledger>(rt: &(impl Runtime + AllocGlobal), counts: [u32; 3], blank: Blank) -> io::Result<()>
    requires name { blank.name ≡ L.name }
    requires parts { blank.parts ≡ L.parts }
    requires one { blank.parts ≡ 1 }
{
    let mut steps = Steps::<L>::start(blank);
    let Ok(mut book) = Book::new(rt.alloc(), 2, 2_097_152, 2) else {
        return Ok(());
    };
    let [orders, quotes, trades] = counts;
    taken(&mut book, Ok(quote(0)), 0, &mut steps);
    rest(rt, orders, &mut book, &mut steps)?;
    reprice(rt, quotes, &mut book, &mut steps)?;
    trade(rt, trades, &mut book, &mut steps)?;
    println!(rt; "{} reports, {} rest in {} groups", book.reports().len(), book.resting(), book.groups())
}

/// How many bytes the parts take.
fn print_sizes(rt: &impl Print) -> io::Result<()> {
    let event = size_of::<Event>();
    let terms = size_of::<Terms>();
    let order = size_of::<Order>();
    let row = size_of::<Option<Row>>();
    let report = size_of::<Report>();
    let node = size_of::<Node>();
    println!(rt; "sizes in bytes: an event {event}, terms {terms}, an order {order}, its row {row}, its node {node}, a report {report}")
}

fn main(rt: HostRuntime) -> io::Result<()> {
    let mut counts = [0u32; 3];
    let mut place = 0;
    for word in env::args(&rt)?.skip(1) {
        if place < 3 {
            counts[place] = word.parse::<u32>().unwrap_or(0);
            place += 1;
        }
    }
    if counts == [0, 0, 0] {
        print_sizes(&rt)?;
    }
    load::<Brand>(&rt, counts, Blank::new(1))?;
    let status = fs::read_to_string(&rt, "/proc/self/status")?;
    for line in status.lines() {
        if let Some(peak) = line.strip_prefix("VmHWM:") {
            println!(rt; "peak {}", peak.trim())?;
        }
    }
    Ok(())
}
END_OF_MAIN
mkdir -p proofs/main
cat > proofs/main/Invariants.antt <<'END_OF_PROOF'
use Rattle.book_load.proofs.main.Given as goal

abbrev pub ghosts-load : goal.ghosts-load
ghosts-load a = record { name = a.blank.name; parts = a.blank.parts }
END_OF_PROOF
rt fmt > /dev/null
rt run -- 0 0 0 > "$work/log" 2>&1 || true
program=$(find out -type f -perm -u+x -name 'book_load' | head -1)
[ -n "$program" ] || { tail -n 40 "$work/log"; exit 1; }
python3 - "$program" "$events" <<'END_OF_MEASURE'
import subprocess, sys

program, most = sys.argv[1], int(sys.argv[2])


def run(*counts):
    """What the program prints, and its greatest resident memory in bytes."""
    told = subprocess.run([program, *map(str, counts)], capture_output=True, text=True).stdout.splitlines()
    return "; ".join(told[:-1]), int(told[-1].split()[1]) * 1024


text, base = run(0, 0, 0)
print(f"{text}; {base} bytes in all")
for share in (most // 10, most // 2, most):
    for counts in ((share, 0, 0), (0, share, 0), (0, 0, share), (share, share, 0), (share, share, share)):
        text, used = run(*counts)
        print(f"{text}: {(used - base) / sum(counts):.0f} bytes an event")
END_OF_MEASURE
