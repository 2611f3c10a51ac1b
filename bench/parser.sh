#!/bin/sh
# How many tokens per second `parse` reads, in a program built as a release is, and how much stack a unit at every limit takes.
#
# Usage: bench/parser.sh [FOLDER]. The folder, a temporary one by default, gets a copy of the crates that the parser stands on and a
# program that parses units of 1,000,000 tokens of one byte each: assignments, empty statements, data. Nothing of it belongs to the repository.
set -eu
. "$(dirname "$0")/copy_crates.sh"
work=${1:-$(mktemp -d)}
copy_crates "$work" parser_speed cmm_lexer cmm_ast cmm_parser cmm_items
cat >"$work/crates/parser_speed/src/main.rt" <<'PROGRAM'
//! Parses a unit made of one piece, five times, and prints how long one time takes; and units that are as deep as the limits allow.
#![tactic(auto)]

use std::io;
use std::rt::Clock;
use std::time::Instant;

use cmm_lexer::{Tokens, lex};
use cmm_parser::parse;

fn unit(rt: &impl AllocGlobal, head: &[u8], piece: &[u8], count: u32, tail: &[u8]) -> io::Result<Vec<u8>> {
    let mut bytes = Vec::new(rt.alloc());
    bytes.extend_from_slice(head)?;
    for _ in 0..count {
        bytes.extend_from_slice(piece)?;
    }
    bytes.extend_from_slice(tail)?;
    Ok(bytes)
}

/// Whether the tokens are a unit.
fn parses(rt: &impl AllocGlobal, tokens: &Tokens) -> bool {
    if tokens.list.len() > 2_000_000 {
        return false;
    }
    parse(rt.alloc(), tokens).is_ok()
}

fn measure(rt: &(impl AllocGlobal + Clock + Print), name: &str, bytes: &[u8]) -> io::Result<()> {
    let Ok(tokens) = lex(rt.alloc(), bytes) else {
        return println!(rt; "{name}: a lexical fault");
    };
    let start = Instant::now(rt)?;
    let mut parsed = true;
    for _ in 0..5u8 {
        parsed = parsed && parses(rt, &tokens);
    }
    let each = start.elapsed(rt)?.as_micros() / 5;
    let count = tokens.list.len();
    println!(rt; "{name}: {count} tokens, a unit: {parsed}, {each} microseconds")
}

fn main(rt: HostRuntime) -> io::Result<()> {
    measure(&rt, "assignments", unit(&rt, b"f(){", b"a=b+c;", 166_665, b"}")?.as_slice())?;
    measure(&rt, "empty statements", unit(&rt, b"f(){", b";", 999_995, b"}")?.as_slice())?;
    measure(&rt, "data", unit(&rt, b"section\"d\"{T[]{1", b",1", 499_990, b"};}")?.as_slice())?;
    let mut deep = unit(&rt, b"f(){", b"if a {", 99, b"a=")?;
    deep.extend_from_slice(unit(&rt, b"", b"1-(-", 100, b"1")?.as_slice())?;
    deep.extend_from_slice(unit(&rt, b"", b")", 100, b"")?.as_slice())?;
    deep.extend_from_slice(unit(&rt, b"", b"-1", 300, b";")?.as_slice())?;
    deep.extend_from_slice(unit(&rt, b"", b"}", 100, b"")?.as_slice())?;
    measure(&rt, "every limit at once", deep.as_slice())?;
    let mut blocks = unit(&rt, b"f(){", b"if a {", 199, b"")?;
    blocks.extend_from_slice(unit(&rt, b"", b"}", 200, b"")?.as_slice())?;
    measure(&rt, "199 nested ifs", blocks.as_slice())?;
    let mut both = unit(&rt, b"f(){", b"if a {", 190, b"a=")?;
    both.extend_from_slice(unit(&rt, b"", b"-", 500, b"1;")?.as_slice())?;
    both.extend_from_slice(unit(&rt, b"", b"}", 191, b"")?.as_slice())?;
    measure(&rt, "190 nested ifs round 500 prefix operators", both.as_slice())
}
PROGRAM
(cd "$work/crates/parser_speed" && rt run)
program=$(find "$work/crates/parser_speed/out" -maxdepth 2 -type f -perm -u+x | head -1)
for kilobytes in 8192 4096 2048 1536 1024 512; do
    if (ulimit -s "$kilobytes" && "$program" >/dev/null 2>&1); then echo "stack of $kilobytes KiB: enough"; else echo "stack of $kilobytes KiB: too small"; fi
done
