#!/bin/sh
# How many bytes per second `lex` reads, in a program built as a release is, beside `wc -w` on the same bytes.
#
# Usage: bench/lexer.sh [FOLDER]. The folder, a temporary one by default, gets a copy of the crates that the lexer stands on and a
# program that lexes units of 1 MiB: names, different names, symbols, numbers, one text, one comment. Nothing of it belongs to the repository.
set -eu
. "$(dirname "$0")/copy_crates.sh"
work=${1:-$(mktemp -d)}
copy_crates "$work" lexer_speed cmm_lexer cmm_items
cat >"$work/crates/lexer_speed/src/main.rt" <<'PROGRAM'
//! Lexes a unit made of one piece, over and over, and prints how long one time takes.
#![tactic(auto)]

use std::io;
use std::rt::Clock;
use std::time::Instant;

use cmm_lexer::lex;

fn unit(rt: &impl AllocGlobal, piece: &[u8], head: &[u8], tail: &[u8]) -> io::Result<Vec<u8>> {
    let mut bytes = Vec::new(rt.alloc());
    bytes.extend_from_slice(head)?;
    for _ in 0..1_048_576u32 {
        if bytes.len() >= 1_048_560 {
            break;
        }
        bytes.extend_from_slice(piece)?;
    }
    bytes.extend_from_slice(tail)?;
    Ok(bytes)
}

fn letter(number: u32, worth: u32) -> u8 {
    b'a' + (number / worth.max(1) % 26) as u8
}

/// As many different names as fit.
fn different_names(rt: &impl AllocGlobal) -> io::Result<Vec<u8>> {
    let mut bytes = Vec::new(rt.alloc());
    for number in 0..209_715u32 {
        let name = [letter(number, 17576), letter(number, 676), letter(number, 26), letter(number, 1), b' '];
        bytes.extend_from_slice(&name)?;
    }
    Ok(bytes)
}

fn measure(rt: &(impl AllocGlobal + Clock + Print), name: &str, bytes: &[u8]) -> io::Result<()> {
    let start = Instant::now(rt)?;
    let mut tokens = 0usize;
    for _ in 0..10u8 {
        match lex(rt.alloc(), bytes) {
            Ok(found) => tokens = found.list.len(),
            Err(_) => tokens = 0,
        }
    }
    let each = start.elapsed(rt)?.as_micros() / 10;
    let size = bytes.len();
    println!(rt; "{name}: {size} bytes, {tokens} tokens, {each} microseconds")
}

fn main(rt: HostRuntime) -> io::Result<()> {
    measure(&rt, "names", unit(&rt, b"ab1 c.d ", b"", b"")?.as_slice())?;
    measure(&rt, "different names", different_names(&rt)?.as_slice())?;
    measure(&rt, "symbols", unit(&rt, b"<=;:", b"", b"")?.as_slice())?;
    measure(&rt, "numbers", unit(&rt, b"0x1f 77 ", b"", b"")?.as_slice())?;
    measure(&rt, "text", unit(&rt, b"a\\x41", b"\"", b"\"")?.as_slice())?;
    measure(&rt, "comment", unit(&rt, b"* /\n", b"/*", b"*/")?.as_slice())
}
PROGRAM
(cd "$work/crates/lexer_speed" && rt run)
head -c 786432 /dev/urandom | base64 | tr '+/' '  ' | head -c 1048576 >"$work/words"
start=$(date +%s%N)
for _ in 1 2 3 4 5 6 7 8 9 10; do wc -w "$work/words" >/dev/null; done
end=$(date +%s%N)
echo "wc -w: 1048576 bytes, $(((end - start) / 10000)) microseconds"
