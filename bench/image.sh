#!/bin/sh
# How many bytes of an image a second are read and written, in a program built as a release is.
#
# Usage: bench/image.sh [FOLDER]. The folder, a temporary one by default, gets a copy of the crates that images stand on and a program that
# makes the bytes of an image of 50 MiB, most of them call sites, reads them and writes them again. Nothing of it belongs to the repository.
set -eu
. "$(dirname "$0")/copy_crates.sh"
work=${1:-$(mktemp -d)}
copy_crates "$work" image_speed cmm_image

cat >"$work/crates/image_speed/src/main.rt" <<'PROGRAM'
//! Makes the bytes of an image, reads and writes it, and prints how long each takes.
#![tactic(auto)]

use std::alloc::{AllocError, Global};
use std::io;
use std::rt::Clock;
use std::time::Instant;

use cmm_image::{ImageFault, read_image, write_image};

/// How many sites the image has. A site is 63 bytes, and has an instruction of its own.
const SITES: u32 = 782_000;

/// The words of the code.
const WORDS: u32 = SITES + 1;

fn header(out: &mut Vec<u8>) -> Result<(), AllocError> {
    for n in [0x494d_4d43u32, 1] {
        out.extend_from_slice(&n.to_le_bytes())?;
    }
    for n in [4 * WORDS as u64, 0, 0x1_0000, 0x1_0000] {
        out.extend_from_slice(&n.to_le_bytes())?;
    }
    for n in [1u32, SITES, 0, 0, 0, 0] {
        out.extend_from_slice(&n.to_le_bytes())?;
    }
    Ok(())
}

/// A procedure with four variables, in a frame of 64 bytes.
fn procedure(out: &mut Vec<u8>) -> Result<(), AllocError> {
    out.extend_from_slice(&0x1_0000u64.to_le_bytes())?;
    out.extend_from_slice(b"\x04main")?;
    for n in [64u32, 56] {
        out.extend_from_slice(&n.to_le_bytes())?;
    }
    out.extend_from_slice(&[0, 4, 0])?;
    for _ in 0..4u8 {
        out.extend_from_slice(&[64, 0, 0])?;
    }
    out.extend_from_slice(&[0, 0, 0, 0])?;
    Ok(())
}

/// A site with one result, every variable in a slot, and one span.
fn site(out: &mut Vec<u8>, number: u32) -> Result<(), AllocError> {
    out.extend_from_slice(&(0x1_0004 + 4 * number as u64).to_le_bytes())?;
    for n in [0, number] {
        out.extend_from_slice(&n.to_le_bytes())?;
    }
    out.extend_from_slice(&[0, 255, 1, 64, 0, 0, 0, 0, 0])?;
    for offset in [0u32, 8, 16, 24] {
        out.extend_from_slice(&[1])?;
        out.extend_from_slice(&offset.to_le_bytes())?;
    }
    out.extend_from_slice(&[1, 0])?;
    for n in [7u64, 40] {
        out.extend_from_slice(&n.to_le_bytes())?;
    }
    Ok(())
}

fn bytes(alloc: Global) -> Result<Vec<u8>, AllocError> {
    let mut out = Vec::new(alloc);
    header(&mut out)?;
    for _ in 0..WORDS {
        out.extend_from_slice(&0x13u32.to_le_bytes())?;
    }
    procedure(&mut out)?;
    for number in 0..SITES {
        site(&mut out, number)?;
    }
    Ok(out)
}

fn main(rt: HostRuntime) -> io::Result<()> {
    let bytes = bytes(rt.alloc())?;
    let size = bytes.len();
    let start = Instant::now(&rt)?;
    match read_image(rt.alloc(), bytes.as_slice()) {
        Ok(image) => {
            let read = start.elapsed(&rt)?.as_micros();
            let start = Instant::now(&rt)?;
            let again = write_image(rt.alloc(), &image)?;
            let written = start.elapsed(&rt)?.as_micros();
            let same = again.as_slice() == bytes.as_slice();
            println!(rt; "{size} bytes: read in {read} microseconds, written in {written}, the same: {same}")
        }
        Err(ImageFault::At { offset, .. }) => println!(rt; "refused at {offset}"),
        Err(ImageFault::Memory) => println!(rt; "out of memory"),
    }
}
PROGRAM
(cd "$work/crates/image_speed" && rt run)
