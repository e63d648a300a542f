#!/usr/bin/env bash
# Times an act on a hall that nobody else acts on, and one of many in a turn, beside the step of its machine alone:
# nanoseconds each, the least of some runs. The program is made in a temporary folder, proved and built there, on a copy of the crates; that takes some
# minutes.
set -eu
top=$(cd "$(dirname "$0")/.." && pwd)
work=$(mktemp -d)
trap 'rm -rf "$work"' EXIT
mkdir -p "$work/crates/turns/src" "$work/crates/turns/specs" "$work/crates/turns/proofs/act_often" "$work/crates/turns/proofs/act_in_turns"
for name in dp_machine dp_hall; do
  cp -r "$top/crates/$name" "$work/crates/$name"
done
cp "$top/HANDLES" "$work"
printf 'dp_machine:\ndp_hall: atomic_table dp_machine\nturns: dp_hall\n' >"$work/crates.txt"
cd "$work/crates/turns"
cat >specs/Lib.antt <<'ANTT'
pub mod Working
ANTT
cat >specs/Working.antt <<'ANTT'
use Rattle.std.specs.Prelude.{◌≡◌, ℕ, Bool, true, List}
use Rattle.dp_hall.specs.declared.view.Entry.{Entry}
use Rattle.dp_hall.specs.declared.view.View.{View}
use Rattle.dp_hall.specs.Laws.{Continues, AllBackBut}

module _ {E O M : Type 0} where
  -- the seat keeps its name, and each seat that it split off was joined again
  pub record Returns (v w : View E O M) : Type 0 where
    pub name : w.name ≡ v.name
    pub back : (out : List (List ℕ)) → AllBackBut out v → AllBackBut out w

  -- some acts of one seat
  abbrev pub Acted : View E O M → View E O M → Type 0
  Acted v w = (entries : List (Entry E O M)) × Continues v entries w

-- every act is followed by the next one
abbrev pub always : {O : Type 0} → O → Bool
always outcome = true
ANTT
cat >proofs/act_often/Invariants.antt <<'ANTT'
use Rattle.dp_hall.specs.Calls.{IsOf}
use Rattle.turns.specs.Working.{Acted}
use Rattle.turns.proofs.act_often.Given as goal

abbrev pub invariant-loop : goal.invariant-loop
invariant-loop g l = IsOf l.hall l.seat × Acted l.fn.seat.view l.seat.view
ANTT
cat >proofs/act_in_turns/Invariants.antt <<'ANTT'
use Rattle.dp_hall.specs.Calls.{IsOf}
use Rattle.turns.specs.Working.{Acted}
use Rattle.turns.proofs.act_in_turns.Given as goal

abbrev pub invariant-loop : goal.invariant-loop
invariant-loop g l = IsOf l.hall l.seat × Acted l.fn.seat.view l.seat.view
ANTT
cat >src/main.rt <<'RT'
//! Times acts on a hall, and steps of its machine alone.
#![tactic(auto)]

ghost use Rattle.dp_hall.specs.Calls.{IsOf};
ghost use Rattle.turns.specs.Working.{Acted, Returns, always};

use dp_hall::{Hall, HallError, Listener, Machine, Seat, calls_add_up, seats_come_back};
use std::alloc::{AllocError, Global};
use std::io;
use std::sync::Wait;
use std::time::{Clock, Duration, Instant};

const RUNS: usize = 5;
const ACTS: u64 = 1_000_000;
const ACTS_IN_A_TURN: usize = 100;
const EVENT: u64 = 7;

#[derive(Drop)]
struct Counter {
    count: u64,
}

impl Machine for Counter {
    ghost use Rattle.std.specs.Prelude.{⊤};

    type Event = u64;

    type Reply = u64;

    type Query = ();

    type Answer = ();

    ghost may_step = { λ _ _ _ _. ⊤ };

    ghost answer = { λ _ q. q };

    fn step(&mut self, event: &u64) -> Result<u64, AllocError> {
        self.count = self.count.wrapping_mul(3).wrapping_add(*event);
        Ok(self.count)
    }

    fn ask(&self, query: &()) -> Result<(), AllocError> {
        Ok(*query)
    }
}

fn act_often<R: Wait>(rt: &R, hall: &Hall<Counter>, seat: &mut Seat<Counter>)
    requires { IsOf hall.now seat.old }
    ensures of { IsOf hall.now seat.new }
    ensures acted { Acted seat.old.view seat.new.view }
{
    calls_add_up::<u64, Result<u64, AllocError>, Counter>();
    for _ in 0..ACTS {
        let _ = hall.act(rt, seat, &EVENT);
    }
}

#[derive(Drop)]
struct Deaf;

impl Listener<Counter> for Deaf {
    ghost follows = { always };

    fn hear(&mut self, _outcome: &Result<u64, AllocError>) -> bool {
        true
    }
}

/// Acts as often, with many acts in each turn.
fn act_in_turns<R: Wait>(rt: &R, hall: &Hall<Counter>, seat: &mut Seat<Counter>)
    requires { IsOf hall.now seat.old }
    ensures of { IsOf hall.now seat.new }
    ensures acted { Acted seat.old.view seat.new.view }
{
    calls_add_up::<u64, Result<u64, AllocError>, Counter>();
    let events = [EVENT; ACTS_IN_A_TURN];
    for _ in 0..ACTS / ACTS_IN_A_TURN as u64 {
        let _ = hall.act_each(rt, seat, &events, &mut Deaf);
    }
}

fn act_all<R: Wait>(rt: &R, hall: &Hall<Counter>, seat: &mut Seat<Counter>, in_turns: bool)
    requires { IsOf hall.now seat.old }
    ensures of { IsOf hall.now seat.new }
    ensures returns { Returns seat.old.view seat.new.view }
{
    seats_come_back::<u64, Result<u64, AllocError>, Counter>();
    if in_turns {
        act_in_turns(rt, hall, seat);
    } else {
        act_often(rt, hall, seat);
    }
}

fn step_often(counter: &mut Counter) {
    for _ in 0..ACTS {
        let _ = counter.step(&EVENT);
    }
}

/// The time of all acts, and the count that they leave.
fn acts<R: Wait + Clock>(rt: &R, alloc: Global, in_turns: bool) -> io::Result<(Duration, u64)> {
    seats_come_back::<u64, Result<u64, AllocError>, Counter>();
    let (hall, mut seat) = match Hall::start(alloc, Counter { count: 0 }) {
        Ok(started) => started,
        Err(HallError { machine }) => {
            drop(machine);
            return Err(AllocError.into());
        }
    };
    let start = Instant::now(rt);
    act_all(rt, &hall, &mut seat, in_turns);
    let end = Instant::now(rt);
    let counter = hall.close(seat);
    Ok((end?.duration_since(start?), counter.count))
}

/// Times the acts of the machine alone.
fn steps<R: Clock>(rt: &R) -> io::Result<(Duration, u64)> {
    let mut counter = Counter { count: 0 };
    let start = Instant::now(rt)?;
    step_often(&mut counter);
    Ok((start.elapsed(rt)?, counter.count))
}

/// In picoseconds an act.
fn each(took: Duration) -> u64 {
    let nanos = took.as_secs().saturating_mul(1_000_000_000);
    nanos.saturating_add(took.subsec_nanos() as u64).saturating_mul(1000) / ACTS
}

fn main(rt: HostRuntime) -> io::Result<()> {
    let (mut act, mut inside, mut step) = (u64::MAX, u64::MAX, u64::MAX);
    for _ in 0..RUNS {
        let (acting, count) = acts(&rt, rt.alloc(), false)?;
        let (turning, turned) = acts(&rt, rt.alloc(), true)?;
        let (stepping, alone) = steps(&rt)?;
        if count != alone || turned != alone {
            println!(rt; "NOT THE SAME")?;
        }
        act = act.min(each(acting));
        inside = inside.min(each(turning));
        step = step.min(each(stepping));
    }
    println!(rt; "act {}.{:03} ns", act / 1000, act % 1000)?;
    println!(rt; "act in a turn of {} {}.{:03} ns", ACTS_IN_A_TURN, inside / 1000, inside % 1000)?;
    println!(rt; "step {}.{:03} ns", step / 1000, step % 1000)
}
RT
if ! rt run -- turns >out.txt 2>log.txt; then
  tail -n 40 log.txt >&2
  exit 1
fi
cat out.txt
