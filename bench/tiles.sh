#!/usr/bin/env bash
# Times commands on a grid of 4096 by 4096 pixels: small fills at any places, one by one and waiting
# for each other, fills of all of it, and round dabs. The program is made in a temporary folder,
# proved and built there, on copies of the crates; that takes some minutes.
set -eu
top=$(cd "$(dirname "$0")/.." && pwd)
work=$(mktemp -d)
trap 'rm -rf "$work"' EXIT
mkdir -p "$work/crates/tiles/src" "$work/crates/tiles/proofs/main"
for name in $("$top/bench/below.py" dp_blend dp_msg_draw dp_paint dp_steps dp_tile); do
  mkdir "$work/crates/$name"
  for part in src specs proofs; do
    [ ! -d "$top/crates/$name/$part" ] || cp -r "$top/crates/$name/$part" "$work/crates/$name/$part"
  done
  grep "^$name:" "$top/crates.txt" >>"$work/crates.txt"
done
echo "tiles: dp_blend dp_msg_draw dp_paint dp_steps dp_tile" >>"$work/crates.txt"
cat >"$work/crates/tiles/proofs/main/Invariants.antt" <<'ANTT'
use Rattle.tiles.proofs.main.Given as goal

abbrev pub ghosts-measure : goal.ghosts-measure
ghosts-measure a = record { name = a.blank.name; parts = a.blank.parts }
ANTT
cat >"$work/crates/tiles/src/main.rt" <<'RT'
//! Times commands on a grid of 4096 by 4096 pixels.
#![tactic(auto)]

ghost use Rattle.std.specs.Prelude.{◌≡◌, ◌<◌};

use dp_msg_draw::{Dab, Dabs, Draw};
use dp_paint::{DeferredGrid, paint_in_place};
use dp_steps::Steps;
use dp_tile::Grid;
use std::alloc::Global;
use std::io;
use std::marker::Brand;
use std::sync::ledger::{Blank, Ledger};
use std::time::{Clock, Duration, Instant};

const SIDE: u32 = 4096;
const FILLS: u32 = 1_000_000;
const MESSAGES: u32 = 1000;
const DABS: usize = 100;

/// Microseconds of a duration.
fn micros(took: Duration) -> u64 {
    let micros = took.as_secs().saturating_mul(1_000_000);
    micros.saturating_add(took.subsec_nanos() as u64 / 1000)
}

/// A fill, blended normal.
fn fill(x: u32, y: u32, side: u32, color: u32) -> Draw {
    Draw::FillRect {
        layer: 1,
        mode: 1,
        x,
        y,
        w: side,
        h: side,
        color,
    }
}

/// Paints a fill or round dabs.
fn draw<T: Ledger>(grid: &mut Grid, command: &Draw, tiles: &mut Steps<T>) -> io::Result<()> {
    if grid.cols() != 64 || grid.rows() != 64 {
        return Ok(());
    }
    match command {
        Draw::FillRect { .. } | Draw::DabsRound { .. } => {
            paint_in_place(grid, SIDE, SIDE, command, tiles)?;
            Ok(())
        }
        _ => Ok(()),
    }
}

/// The next of numbers that look like any.
fn next(seed: u64) -> u64 {
    seed.wrapping_mul(6364136223846793005).wrapping_add(1442695040888963407)
}

/// Fills at any places.
fn fills(alloc: Global) -> io::Result<Vec<Draw>> {
    let mut list = Vec::with_capacity(alloc, FILLS as usize)?;
    let mut seed = 7;
    for _made in 0..FILLS {
        seed = next(seed);
        let (x, y) = ((seed >> 33) as u32 % (SIDE - 8), (seed >> 45) as u32 % (SIDE - 8));
        list.push(fill(x, y, 8, 0x80ff_4020 ^ (seed >> 40) as u32 % 256))?;
    }
    Ok(list)
}

/// Paints commands one by one.
fn draw_each<T: Ledger>(
    grid: &mut Grid,
    commands: &[Draw],
    tiles: &mut Steps<T>,
) -> io::Result<()> {
    for command in commands {
        draw(grid, command, tiles)?;
    }
    Ok(())
}

/// Draws a fill or round dabs on a layer on which fills wait.
fn put<T: Ledger>(
    layer: &mut DeferredGrid,
    command: &Draw,
    tiles: &mut Steps<T>,
) -> io::Result<()> {
    match command {
        Draw::FillRect { .. } | Draw::DabsRound { .. } => {
            layer.draw(command, tiles)?;
            Ok(())
        }
        _ => Ok(()),
    }
}

/// Has fills wait for each other, and then paints them all, before a stroke.
fn put_all<T: Ledger>(
    layer: &mut DeferredGrid,
    commands: &[Draw],
    last: &Draw,
    tiles: &mut Steps<T>,
) -> io::Result<()> {
    for command in commands {
        put(layer, command, tiles)?;
    }
    put(layer, last, tiles)
}

/// Dabs one after the other.
fn dabs_from(alloc: Global, seed: u64) -> io::Result<Dabs> {
    let mut dabs = Vec::with_capacity(alloc, DABS)?;
    let mut seed = seed;
    for _made in 0..DABS {
        seed = next(seed);
        dabs.push(Dab {
            dx: (seed >> 61) as i8,
            dy: (seed >> 57 & 7) as i8 - 3,
            size: 30,
            opacity: 200,
        })?;
    }
    if dabs.len() > 16380 {
        return Ok(Dabs::new(alloc));
    }
    Ok(Dabs::from_vec(dabs))
}

/// A message of round dabs.
fn stroke(alloc: Global, seed: u64) -> io::Result<Draw> {
    Ok(Draw::DabsRound {
        layer: 1,
        x: (seed >> 33) as i32 % 4096,
        y: (seed >> 45) as i32 % 4096,
        r: 200,
        g: 30,
        b: 60,
        mode: 1,
        dabs: dabs_from(alloc, seed)?,
    })
}

/// Microseconds of a fill of all.
fn time_all<R: Clock, T: Ledger>(
    rt: &R,
    grid: &mut Grid,
    times: u64,
    tiles: &mut Steps<T>,
) -> io::Result<u64> {
    let all = fill(0, 0, SIDE, 0x8020_4060);
    let start = Instant::now(rt)?;
    for _ in 0..times {
        draw(grid, &all, tiles)?;
    }
    Ok(micros(start.elapsed(rt)?) / times.max(1))
}

/// Microseconds of commands, one by one.
fn time_each<R: Clock, T: Ledger>(
    rt: &R,
    grid: &mut Grid,
    commands: &[Draw],
    tiles: &mut Steps<T>,
) -> io::Result<u64> {
    let start = Instant::now(rt)?;
    draw_each(grid, commands, tiles)?;
    Ok(micros(start.elapsed(rt)?))
}

/// Microseconds of commands that wait for each other.
fn time_together<R: Clock, T: Ledger>(
    rt: &R,
    layer: &mut DeferredGrid,
    commands: &[Draw],
    last: &Draw,
    tiles: &mut Steps<T>,
) -> io::Result<u64> {
    let start = Instant::now(rt)?;
    put_all(layer, commands, last, tiles)?;
    Ok(micros(start.elapsed(rt)?))
}

/// Microseconds of the dabs.
fn time_dabs<R: Clock, T: Ledger>(
    rt: &R,
    alloc: Global,
    grid: &mut Grid,
    tiles: &mut Steps<T>,
) -> io::Result<u64> {
    let mut seed = 3;
    let start = Instant::now(rt)?;
    for _ in 0..MESSAGES {
        seed = next(seed);
        let command = stroke(alloc, seed)?;
        draw(grid, &command, tiles)?;
    }
    Ok(micros(start.elapsed(rt)?))
}

/// The times of all rows.
fn measure<R: Clock, T: Ledger>(rt: &R, alloc: Global, blank: Blank) -> io::Result<[u64; 7]>
    requires name { blank.name ≡ T.name }
    requires parts { blank.parts ≡ T.parts }
    requires some { 0 < blank.parts }
{
    let mut tiles = Steps::<T>::new(blank);
    let list = fills(alloc)?;
    let mut grid = Grid::new(alloc, 64, 64)?;
    let plain = time_all(rt, &mut grid, 100, &mut tiles)?;
    let first = time_each(rt, &mut grid, &list, &mut tiles)?;
    let each = time_each(rt, &mut grid, &list, &mut tiles)?;
    let mixed = time_all(rt, &mut grid, 10, &mut tiles)?;
    let dabs = time_dabs(rt, alloc, &mut grid, &mut tiles)?;
    let last = stroke(alloc, 3)?;
    let mut layer = DeferredGrid::blank(alloc, SIDE, SIDE)?;
    let made = time_together(rt, &mut layer, &list, &last, &mut tiles)?;
    let together = time_together(rt, &mut layer, &list, &last, &mut tiles)?;
    Ok([plain, first, each, made, together, mixed, dabs])
}

fn main(rt: HostRuntime) -> io::Result<()> {
    let times = measure::<_, Brand>(&rt, rt.alloc(), Blank::new(1))?;
    println!(rt; "fill of all, tiles of one colour: {} us", times[0])?;
    println!(rt; "1,000,000 fills of 8 by 8 one by one, tiles made on the way: {} us", times[1])?;
    println!(rt; "1,000,000 fills of 8 by 8 one by one: {} us", times[2])?;
    println!(rt; "1,000,000 fills of 8 by 8 together, tiles made on the way: {} us", times[3])?;
    println!(rt; "1,000,000 fills of 8 by 8 together: {} us", times[4])?;
    println!(rt; "fill of all, tiles not of one colour: {} us", times[5])?;
    println!(rt; "100,000 round dabs of size 30: {} us", times[6])
}
RT
cd "$work/crates/tiles"
if ! rt run >out.txt 2>log.txt; then
  tail -n 20 log.txt >&2
  exit 1
fi
cat out.txt
