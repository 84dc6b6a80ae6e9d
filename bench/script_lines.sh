#!/bin/sh
# Times `read_line` over lines of each kind: quotes of the first and of the last of 256 symbols, moments, and messages.
# It builds a scratch crate in a temporary folder over copies of the crates below, and is no part of the gate.
# Usage: bench/script_lines.sh
# shellcheck source=scratch.sh
. "$(dirname "$0")/scratch.sh"
scratch line_times "venue_words script_text" "venue_words fix_fields fix_write quote_intake script_text"
cat > src/main.rt <<'END'
//! Times of reading lines.
#![tactic(auto)]

use script_text::{Line, read_header, read_line};
use std::alloc::Global;
use std::io;
use std::rt::{Clock, Runtime};
use std::time::Instant;
use venue_words::Config;

const COUNT: u32 = 1_000_000;

/// Reads a line many times, and prints how long each took.
fn line_times(rt: &(impl Runtime + AllocGlobal), what: &str, config: &Config, line: &[u8]) -> io::Result<()> {
    if config.members.len() > 256 || config.markets.len() > 32 || config.symbols.len() > 256 {
        return Ok(());
    }
    let start = Instant::now(rt)?;
    let mut taken = 0u32;
    for _ in 0..COUNT {
        match read_line(rt.alloc(), line, config) {
            Ok(Line::Moment(_)) => taken = taken.wrapping_add(1),
            Ok(Line::Quote { symbol, .. }) => taken = taken.wrapping_add(symbol).wrapping_add(1),
            Ok(Line::Piece { member, .. }) => taken = taken.wrapping_add(member).wrapping_add(1),
            _ => {}
        }
    }
    let nanos = start.elapsed(rt)?.as_nanos() / u128::from(COUNT);
    println!(rt; "{what}: {nanos} ns a line (sum {taken})")
}

/// A header of 256 symbols, 32 markets and 256 members.
fn header(alloc: Global) -> io::Result<String> {
    let mut text = String::from_str(alloc, "PEGV 1\n")?;
    for i in 0..256 {
        text.push_str(format!(in alloc; "SYMBOL SYM{i} 8192\nMEMBER BROKER{i}\n")?.as_str())?;
    }
    for i in 0..32 {
        text.push_str(format!(in alloc; "MARKET M{i}\n")?.as_str())?;
    }
    text.push_str("BEGIN 20240102-14:30:00.000\n")?;
    Ok(text)
}

fn main(rt: HostRuntime) -> io::Result<()> {
    let text = header(rt.alloc())?;
    if text.len() > 1_000_000 {
        return Ok(());
    }
    let Ok((config, _)) = read_header(rt.alloc(), text.as_bytes()) else {
        return Ok(());
    };
    line_times(&rt, "quote of the first symbol", &config, b"Q SYM0 M0 150.10 150.14")?;
    line_times(&rt, "quote of the last symbol", &config, b"Q SYM255 M31 150.10 150.14")?;
    line_times(&rt, "moment", &config, b"T 20240102-14:30:00.250")?;
    line_times(&rt, "message", &config, b"M BROKER0 35=D|49=BROKER0|56=PEGV|34=2|52=20240102-14:30:00|11=a1|55=SYM0|54=1|38=100|40=P|1094=2|60=20240102-14:30:00|")
}
END
rt fmt > /dev/null
rt run > "$work/log" 2>&1 || true
grep -E 'ns a line|: error|no proof' "$work/log" || cat "$work/log"
