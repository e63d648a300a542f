#!/usr/bin/env bash
# Times the calls of dp_blend on rows of 64 and of 4096 pixels, in each mode, beside the plain loops over `blend` and `fade`
# that they are equal to: nanoseconds a pixel, the least of some runs. The program is made in a temporary folder, proved
# and built there, on a copy of the crate; that takes some minutes.
set -eu
top=$(cd "$(dirname "$0")/.." && pwd)
work=$(mktemp -d)
trap 'rm -rf "$work"' EXIT
mkdir -p "$work/crates/rows/src"
cp -r "$top/crates/dp_blend" "$work/crates/dp_blend"
printf 'dp_blend:\nrows: dp_blend\n' >"$work/crates.txt"
cat >"$work/crates/rows/src/main.rt" <<'RT'
//! Times calls on rows, and the plain loops that they are equal to.
#![tactic(auto)]

ghost use Rattle.std.specs.Prelude.{◌≡◌, ◌≤◌, ◌↔◌, length, All, IsTrue};

use dp_blend::{Mode, ONE, Pixel, blend, fade, row_blend, row_fill, row_merge};
use std::alloc::{AllocError, Global};
use std::env;
use std::io;
use std::time::{Clock, Duration, Instant};

const RUNS: usize = 15;
const PIXELS: usize = 2_000_000;
const MODES: [Mode; 6] = [
    Mode::Erase,
    Mode::Normal,
    Mode::Multiply,
    Mode::Add,
    Mode::Recolor,
    Mode::Replace,
];

#[derive(Clone, Copy, Debug)]
enum Call {
    Fill,
    Blend,
    Merge,
}

fn is_mask(mask: &[u16]) -> bool
    ensures { IsTrue result ↔ All (λ m. m ≤ 32768) mask.now }
{
    mask.iter().all(|m| *m <= 32768)
}

/// A number of each kind in turn: 0, one and others.
fn number(n: usize) -> u16 {
    match n % 11 {
        0 => 0,
        1 => ONE,
        _ => (n % 4096 * 7919 % 32769) as u16,
    }
}

fn pixel(n: usize) -> Pixel {
    let a = number(n);
    Pixel::new(a / 2, a / 3, a, a).unwrap_or(Pixel::CLEAR)
}

fn pixels(alloc: Global, len: usize, first: usize) -> Result<Vec<Pixel>, AllocError> {
    let mut made = Vec::new(alloc);
    for n in 0..len {
        made.push(pixel(n.wrapping_add(first)))?;
    }
    Ok(made)
}

fn masks(alloc: Global, len: usize) -> Result<Vec<u16>, AllocError> {
    let mut made = Vec::new(alloc);
    for n in 0..len {
        made.push(number(n))?;
    }
    Ok(made)
}

fn plain(call: Call, mode: Mode, src: Pixel, mask: &[u16], sources: &[Pixel], row: &mut [Pixel]) {
    match call {
        Call::Fill => plain_fill(mode, src, row),
        Call::Blend => plain_blend(mode, src, mask, row),
        Call::Merge => plain_merge(mode, src.a(), sources, row),
    }
}

fn plain_fill(mode: Mode, src: Pixel, row: &mut [Pixel]) {
    for p in row.iter_mut() {
        *p = blend(mode, src, *p);
    }
}

fn plain_blend(mode: Mode, src: Pixel, mask: &[u16], row: &mut [Pixel]) {
    for (p, m) in row.iter_mut().zip(mask) {
        if *m > 0 && *m <= ONE {
            *p = blend(mode, fade(src, *m), *p);
        }
    }
}

fn plain_merge(mode: Mode, by: u16, sources: &[Pixel], row: &mut [Pixel]) {
    if by <= ONE {
        for (p, s) in row.iter_mut().zip(sources) {
            *p = blend(mode, fade(*s, by), *p);
        }
    }
}

fn fast(call: Call, mode: Mode, src: Pixel, mask: &[u16], sources: &[Pixel], row: &mut [Pixel])
    requires masks { length mask.now ≡ length row.old }
    requires sources { length sources.now ≡ length row.old }
    requires within { All (λ m. m ≤ 32768) mask.now }
{
    match call {
        Call::Fill => row_fill(mode, src, row),
        Call::Blend => row_blend(mode, src, mask, row),
        Call::Merge => row_merge(mode, src.a().min(ONE), sources, row),
    }
}

/// A duration of one run over the pixels, a pixel, in picoseconds.
fn a_pixel(took: Duration) -> u64 {
    let nanos = took.as_secs().saturating_mul(1_000_000_000);
    nanos.saturating_add(took.subsec_nanos() as u64).saturating_mul(1000) / PIXELS as u64
}

/// The least time of a call, and of the plain loop, and whether both left the same row.
fn measured<R: Clock>(
    rt: &R,
    alloc: Global,
    call: Call,
    mode: Mode,
    src: &[Pixel; 2],
    len: usize,
) -> io::Result<(u64, u64, bool)> {
    let (mask, sources) = (masks(alloc, len)?, pixels(alloc, len, 5)?);
    let (mut row, mut copy) = (pixels(alloc, len, 7)?, pixels(alloc, len, 7)?);
    let (mask, sources) = (mask.as_slice(), sources.as_slice());
    let (row, copy) = (row.as_mut_slice(), copy.as_mut_slice());
    if mask.len() != row.len() || sources.len() != row.len() || !is_mask(mask) {
        return Ok((0, 0, false));
    }
    let times = PIXELS / row.len().max(1);
    let (mut least, mut least_plain) = (u64::MAX, u64::MAX);
    for _ in 0..RUNS {
        let start = Instant::now(rt)?;
        for k in 0..times {
            fast(call, mode, src[k % 2], mask, sources, row);
        }
        least = least.min(a_pixel(start.elapsed(rt)?));
        let start = Instant::now(rt)?;
        for k in 0..times {
            plain(call, mode, src[k % 2], mask, sources, copy);
        }
        least_plain = least_plain.min(a_pixel(start.elapsed(rt)?));
    }
    Ok((least, least_plain, &*row == &*copy))
}

fn main(rt: HostRuntime) -> io::Result<()> {
    // Not known to the compiler, as the sources of a caller are.
    let mut first = 0;
    for word in env::args(&rt)? {
        first = word.len();
    }
    let src = [pixel(first.wrapping_add(20)), pixel(first.wrapping_add(37))];
    println!(rt; "mode call: 64 pixels, plain; 4096 pixels, plain (ns a pixel)")?;
    for mode in MODES {
        for call in [Call::Fill, Call::Blend, Call::Merge] {
            let (short, short_plain, same) = measured(&rt, rt.alloc(), call, mode, &src, 64)?;
            let (long, long_plain, alike) = measured(&rt, rt.alloc(), call, mode, &src, 4096)?;
            let verdict = if same && alike { "" } else { " NOT THE SAME" };
            print!(rt; "{mode:?} {call:?}: {}.{:03}, ", short / 1000, short % 1000)?;
            print!(rt; "{}.{:03}; ", short_plain / 1000, short_plain % 1000)?;
            print!(rt; "{}.{:03}, ", long / 1000, long % 1000)?;
            println!(rt; "{}.{:03}{verdict}", long_plain / 1000, long_plain % 1000)?;
        }
    }
    Ok(())
}
RT
cd "$work/crates/rows"
if ! rt run -- rows >out.txt 2>log.txt; then
  tail -n 20 log.txt >&2
  exit 1
fi
cat out.txt
