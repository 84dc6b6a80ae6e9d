#!/bin/sh
# Times the tree of rows by limit beside std's BTreeMap over the same pairs: 200,000 puts, look-ups and cuts in
# random order. It builds a scratch crate in a temporary folder over copies of the crates below, and is no part of
# the gate. Usage: bench/limit_tree.sh
# shellcheck source=scratch.sh
. "$(dirname "$0")/scratch.sh"
scratch tree_times "venue_words limit_tree" "venue_words limit_tree"
cat > src/main.rt <<'END'
//! Times of the tree of rows by limit and of std's BTreeMap.
#![tactic(auto)]

ghost use Rattle.std.specs.Prelude.{◌≡◌, ◌<◌};

use limit_tree::{LimitTree, leaf};
use std::collections::BTreeMap;
use std::io;
use std::marker::Brand;
use std::rt::{Clock, Runtime};
use std::sync::ledger::{Blank, Ledger};
use std::time::Instant;
use venue_words::{Key, Method, Reference, Rounding, Row, Side, Steps};

const COUNT: u32 = 200_000;

/// A number that looks random, one for each number below a prime.
fn mixed(number: u32) -> u32 {
    u32::try_from(u64::from(number) * 103_841 % 200_003).unwrap_or(0)
}

/// The limit of a row.
fn cap_of(entry: u32) -> u32 {
    1 + u32::try_from(u64::from(entry) * 48_271 % 20_011).unwrap_or(0)
}

fn row(entry: u32) -> Row {
    let key = Key {
        side: Side::Buy,
        reference: Reference::Mid,
        offset: 0,
        rounding: Rounding::Unrounded,
        grid: 2,
    };
    Row {
        order: entry,
        member: 0,
        key,
        cap: cap_of(entry),
        entry,
        leaves: 100,
        minimum: 0,
        method: Method::Once,
        traded: false,
    }
}

fn line(rt: &impl Runtime, what: &str, start: Instant, sum: u64) -> io::Result<()> {
    let nanos = start.elapsed(rt)?.as_nanos() / 200_000;
    println!(rt; "{what}: {nanos} ns a call (sum {sum})")
}

fn tree_times<L: Ledger>(rt: &(impl Runtime + AllocGlobal), steps: &mut Steps<L>) -> io::Result<()> {
    let mut tree = LimitTree::new();
    let start = Instant::now(rt)?;
    for i in 0..COUNT {
        let row = row(mixed(i));
        let node = match Box::new(rt.alloc(), leaf(row)) {
            Ok(node) => node,
            Err(_) => return Ok(()),
        };
        if !tree.holds(node.cap, node.entry, steps) {
            tree.put(node, steps);
        }
    }
    line(rt, "tree: a test and a put", start, 0)?;
    let mut sum = 0u64;
    let start = Instant::now(rt)?;
    for i in 0..COUNT {
        let entry = mixed(COUNT - 1 - i);
        if tree.holds(cap_of(entry), entry, steps) {
            sum = sum.wrapping_add(1);
        }
    }
    line(rt, "tree: holds", start, sum)?;
    let start = Instant::now(rt)?;
    for i in 0..COUNT {
        if let Some((_, entry)) = tree.first_at(cap_of(mixed(i)), steps) {
            sum = sum.wrapping_add(u64::from(entry));
        }
    }
    line(rt, "tree: first_at", start, sum)?;
    let start = Instant::now(rt)?;
    for i in 0..COUNT {
        if let Some((_, entry)) = tree.highest_below(cap_of(mixed(i)), steps) {
            sum = sum.wrapping_add(u64::from(entry));
        }
    }
    line(rt, "tree: highest_below", start, sum)?;
    let start = Instant::now(rt)?;
    for i in 0..COUNT {
        if let Some((_, entry)) = tree.first_above(cap_of(mixed(i)), steps) {
            sum = sum.wrapping_add(u64::from(entry));
        }
    }
    line(rt, "tree: first_above", start, sum)?;
    let start = Instant::now(rt)?;
    for i in 0..COUNT {
        let entry = mixed(COUNT - 1 - i);
        if let Some(node) = tree.cut(cap_of(entry), entry, steps) {
            sum = sum.wrapping_add(u64::from(node.entry));
        }
    }
    line(rt, "tree: cut", start, sum)
}

fn map_times(rt: &(impl Runtime + AllocGlobal)) -> io::Result<()> {
    let mut map: BTreeMap<(u32, u32), Row> = BTreeMap::new(rt.alloc());
    let start = Instant::now(rt)?;
    for i in 0..COUNT {
        let row = row(mixed(i));
        if map.insert((row.cap, row.entry), row).is_err() {
            return Ok(());
        }
    }
    line(rt, "BTreeMap: insert", start, 0)?;
    let mut sum = 0u64;
    let start = Instant::now(rt)?;
    for i in 0..COUNT {
        let entry = mixed(COUNT - 1 - i);
        if map.contains_key(&(cap_of(entry), entry)) {
            sum = sum.wrapping_add(1);
        }
    }
    line(rt, "BTreeMap: contains_key", start, sum)?;
    let start = Instant::now(rt)?;
    for i in 0..COUNT {
        if let Some((pair, _)) = map.range((cap_of(mixed(i)), 0)..).next() {
            sum = sum.wrapping_add(u64::from(pair.1));
        }
    }
    line(rt, "BTreeMap: first of a range", start, sum)?;
    let start = Instant::now(rt)?;
    for i in 0..COUNT {
        let entry = mixed(COUNT - 1 - i);
        if let Some(row) = map.remove(&(cap_of(entry), entry)) {
            sum = sum.wrapping_add(u64::from(row.entry));
        }
    }
    line(rt, "BTreeMap: remove", start, sum)
}

fn counted<L: Ledger>(rt: &(impl Runtime + AllocGlobal), blank: Blank) -> io::Result<()>
    requires name { blank.name ≡ L.name }
    requires parts { blank.parts ≡ L.parts }
    requires one { blank.parts ≡ 1 }
{
    let mut steps = Steps::<L>::start(blank);
    tree_times(rt, &mut steps)
}

fn main(rt: HostRuntime) -> io::Result<()> {
    counted::<Brand>(&rt, Blank::new(1))?;
    map_times(&rt)
}
END
mkdir -p proofs/main
cat > proofs/main/Invariants.antt <<'END'
use Rattle.tree_times.proofs.main.Given as goal

abbrev pub ghosts-counted : goal.ghosts-counted
ghosts-counted a = record { name = a.blank.name; parts = a.blank.parts }
END
rt fmt > /dev/null
rt run > "$work/log" 2>&1 || true
grep -E 'ns a call|: error|no proof' "$work/log"
