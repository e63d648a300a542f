#!/usr/bin/env bash
# Times the feed of a link: 1,000,000 small entries that a session has, to a sink in memory. Nanoseconds an entry, the
# least of some runs. The program is made in a temporary folder, proved and built there, on a copy of the crates.
set -eu
top=$(cd "$(dirname "$0")/.." && pwd)
work=$(mktemp -d)
trap 'rm -rf "$work"' EXIT
git -C "$top" archive HEAD | tar -x -C "$work"
mkdir -p "$work/crates/feeds/src"
printf 'feeds: dp_any_session dp_epochs dp_hall dp_io dp_keeper dp_link dp_session dp_session_laws dp_split dp_wire\n' >>"$work/crates.txt"
cd "$work/crates/feeds"
cat >src/main.rt <<'RT'
//! Times the feed of a link.
#![tactic(auto)]

ghost use Rattle.std.specs.Prelude.{List};
ghost use Rattle.dp_hall.specs.Calls.{IsOf};
ghost use Rattle.dp_hall.specs.Laws.{Continues};
ghost use Rattle.dp_epochs.specs.Laws.{ShutBefore};
ghost use Rattle.dp_session_laws.specs.Logs.{LogEntry};

use dp_any_session::AnySession;
use dp_epochs::{Event, Reply};
use dp_hall::{Hall, HallError, Seat, calls_add_up, seats_come_back};
use dp_io::{MemSink, MemSource};
use dp_keeper::{Rows, SureKeeper};
use dp_link::{DownEnd, Worker, greet, greetings_are_seen, pump_down, pump_up};
use dp_session::Session;
use dp_split::Splitter;
use dp_wire::OpenGate;
use std::alloc::{AllocError, Global};
use std::io;
use std::sync::Wait;
use std::time::{Clock, Duration, Instant};

const ENTRIES: usize = 1_000_000;

const RUNS: u32 = 5;

/// What a painter gives: a Hello, and small chats.
fn given(alloc: Global) -> Result<Vec<u8>, AllocError> {
    let mut bytes = Vec::from_slice(alloc, b"\x00\x03\x00\x00ann")?;
    for _ in 0..ENTRIES {
        bytes.extend_from_slice(b"\x00\x02\x23\x00hi")?;
    }
    Ok(bytes)
}

/// Serves one link, its feed last, and answers how the feed ended and how long it took.
fn serve_link<W: Wait + Clock>(
    rt: &W,
    alloc: Global,
    hall: &Hall<AnySession<Session<SureKeeper>>>,
    seat: &mut Seat<AnySession<Session<SureKeeper>>>,
    rx: &mut MemSource,
    tx: &mut MemSink,
) -> io::Result<Option<(DownEnd, Duration)>>
    requires of { IsOf hall.now seat.old }
    requires start { ShutBefore hall.now.start }
    ensures of { IsOf hall.now seat.new }
    ensures calls { (acts : List LogEntry) × Continues seat.old.view acts seat.new.view }
{
    calls_add_up::<Event, Result<Reply, AllocError>, AnySession<Session<SureKeeper>>>();
    let gate = OpenGate;
    let worker = Worker { rt, alloc, hall, who: 0, gate: &gate };
    let mut split = Splitter::new(alloc);
    match greet(&worker, seat, rx, tx, &mut split) {
        Ok(greeting) => {
            greetings_are_seen(seat);
            let _end = pump_up(&worker, seat, rx, &mut split, greeting.conn);
            let start = Instant::now(rt);
            let end = pump_down(rt, alloc, hall, seat, tx, &greeting);
            Ok(Some((end, start?.elapsed(rt)?)))
        }
        Err(_) => Ok(None),
    }
}

/// The time of a feed, and how many bytes the peer took.
fn feed<W: Wait + Clock>(rt: &W, alloc: Global) -> io::Result<(Option<(DownEnd, Duration)>, usize)> {
    seats_come_back::<Event, Result<Reply, AllocError>, AnySession<Session<SureKeeper>>>();
    let mut rx = MemSource::new(given(alloc)?, 4096, Vec::new(alloc));
    let mut tx = MemSink::new(alloc, 1 << 24, 1 << 24, Vec::new(alloc))?;
    let session = AnySession::new(Session::new(alloc, SureKeeper::new(Rows::new(alloc)))?);
    match Hall::start(alloc, session) {
        Ok((hall, mut seat)) => {
            let end = serve_link(rt, alloc, &hall, &mut seat, &mut rx, &mut tx);
            let (keeper, journal, shut) = hall.close(seat).into_parts();
            drop((keeper, journal, shut));
            Ok((end?, tx.as_slice().len()))
        }
        Err(HallError { machine }) => {
            drop(machine);
            Err(AllocError.into())
        }
    }
}

/// In picoseconds an entry.
fn each(took: Duration) -> u64 {
    let nanos = took.as_secs().saturating_mul(1_000_000_000);
    nanos.saturating_add(took.subsec_nanos() as u64).saturating_mul(1000) / ENTRIES as u64
}

fn main(rt: HostRuntime) -> io::Result<()> {
    let mut least = u64::MAX;
    for _ in 0..RUNS {
        match feed(&rt, rt.alloc())? {
            (Some((DownEnd::Gone, took)), 6_000_044) => least = least.min(each(took)),
            (_, taken) => println!(rt; "NOT THE WHOLE FEED: {taken} bytes")?,
        }
    }
    println!(rt; "{}.{:03} ns an entry", least / 1000, least % 1000)
}
RT
if ! rt run -- feeds >out.txt 2>log.txt; then
  tail -n 40 log.txt >&2
  exit 1
fi
cat out.txt
