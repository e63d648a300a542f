#!/usr/bin/env bash
# Times a session that goes on from the rows of a store in memory, beside one to which the same
# events come, with the most memory that each takes: an Open, and then chats whose rows have 35
# bytes. The program is made in a temporary folder and built without a proof (bench/unproved.py).
set -eu
top=$(cd "$(dirname "$0")/.." && pwd)
work=$(mktemp -d)
trap 'rm -rf "$work"' EXIT
mkdir -p "$work/crates/resumes/src"
cp -r "$top"/crates/* "$work/crates"
cp "$top/HANDLES" "$work"
cp "$top/crates.txt" "$work"
echo "resumes: dp_epochs dp_keeper dp_machine dp_session" >>"$work/crates.txt"
cat >"$work/crates/resumes/src/main.rt" <<'RT'
//! Acts events on a session, or resumes one from their rows.
#![tactic(auto)]

use dp_epochs::read_row;
use dp_keeper::{MemKeeper, Row, RowBytes, Rows};
use dp_machine::Machine;
use dp_session::Session;
use std::alloc::Global;
use std::process::Abort;
use std::{env, io};

const COUNT: u64 = 1_000_000;
const OPEN: &[u8] = b"\x00\x00a";
const CHAT: &[u8] = b"\x03\x00\x00\x00\x01\x23an argument of 29 bytes, is it";

/// The bytes of the row of a number.
fn bytes_of(n: u64) -> &'static [u8] {
    if n == 0 { OPEN } else { CHAT }
}

/// So many rows.
fn rows(rt: &impl Abort, alloc: Global, count: u64) -> Rows {
    let mut rows = Rows::new(alloc);
    for n in 0..count {
        let mut bytes = RowBytes::new(alloc);
        for byte in bytes_of(n) {
            bytes.push(*byte).expect(rt, "memory");
        }
        rows.push(Row { n, bytes }).expect(rt, "memory");
    }
    rows
}

/// Acts this number of events on a session.
fn act(rt: &impl Abort, alloc: Global, count: u64) {
    let keeper = MemKeeper::new(Rows::new(alloc), Vec::new(alloc), Vec::new(alloc));
    let mut session = Session::new(alloc, keeper).expect(rt, "memory");
    for n in 0..count {
        let event = read_row(alloc, bytes_of(n)).expect(rt, "memory");
        let event = event.expect(rt, "an event");
        let _reply = session.step(&event).expect(rt, "memory");
    }
}

/// Resumes a session from this number of rows.
fn resume(rt: &impl Abort, alloc: Global, count: u64) {
    let keeper = MemKeeper::new(rows(rt, alloc, count), Vec::new(alloc), Vec::new(alloc));
    assert!(rt; Session::resume(alloc, keeper).is_ok());
}

/// A million events acted, or their rows resumed, or only these made.
fn main(rt: HostRuntime) -> io::Result<()> {
    let alloc = rt.alloc();
    for word in env::args(&rt)?.skip(1) {
        match word.as_bytes() {
            b"act" => act(&rt, alloc, COUNT),
            b"resume" => resume(&rt, alloc, COUNT),
            _ => drop(rows(&rt, alloc, COUNT)),
        }
    }
    Ok(())
}
RT
"$top/bench/unproved.py" "$work/resumes" "$work/crates/resumes" rows >&2
for what in rows act resume; do
  /usr/bin/time -f "$what: %U s of a processor, %M KB at most" "$work/resumes" "$what"
done
