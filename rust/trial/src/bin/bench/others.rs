//! Loops, triggers and the clock.

use crate::timing::race;
use crate::{Table, SEED};
use khumsafil::clock::lent;
use std::hint::black_box;
use trial::clocks::{encode, for_us};
use trial::random::Random;
use trial::triggers::Parts;

pub fn table() -> Table {
    let mut table = Table::new(
        "Loops, triggers and the clock",
        "A walk is of 41 descriptors or about as many. A call on a clock is timed with the copying of its record.\n\
         The library's record is 67 numbers, the other's a structure and a list.",
    );
    table.row("walk of a 1,000-byte loop", walks);
    table.row("mark of a trigger Tap", marks);
    table.row("trigger of 64 bytes", triggers);
    table.row("offer that waits, 16 held", waiting_offer);
    table.row("move that applies 32", full_move);
    table
}

/// One call for each step, as through the boundary.
#[inline(never)]
fn their_step(bytes: &[u8], at: usize) -> Result<opinion::descriptors::Step, u8> {
    opinion::descriptors::step(bytes, at)
}

#[inline(never)]
fn their_mark(bytes: &[u8], at: usize) -> bool {
    opinion::descriptors::is_trigger_tap(bytes, at)
}

#[inline(never)]
fn their_trigger(payload: &[u8]) -> Result<opinion::trigger::Trigger, u8> {
    opinion::trigger::read(payload)
}

#[inline(never)]
fn their_offer(
    clock: &mut opinion::clock::Clock,
    a: opinion::clock::Activation,
) -> Result<opinion::clock::Heard, u8> {
    opinion::clock::offer(clock, a)
}

#[inline(never)]
fn their_move(clock: &mut opinion::clock::Clock, to: u32) -> Result<u32, u8> {
    opinion::clock::move_to(clock, to)
}

/// Descriptors of 0 to 48 bytes, a thousand bytes in all.
fn a_loop(random: &mut Random) -> Vec<u8> {
    let mut bytes = Vec::new();
    while bytes.len() < 950 {
        let length = random.below(48);
        bytes.extend([random.byte(), length as u8]);
        bytes.extend(random.bytes(length));
    }
    let left = 1_000 - bytes.len() - 2;
    bytes.extend([random.byte(), left as u8]);
    bytes.extend(random.bytes(left));
    bytes
}

/// Walks a loop by our steps, and then by theirs.
fn walks() -> (f64, f64) {
    let random = &mut Random::new(SEED);
    let loops: Vec<_> = (0..64).map(|_| a_loop(random)).collect();
    race(
        loops.len(),
        40,
        || {
            for bytes in &loops {
                let (bytes, mut at) = (black_box(bytes), 0);
                use khumsafil::descriptor::{step, Step};
                while let Ok(Step::Descriptor(d)) = step(bytes, at) {
                    black_box(d.tag);
                    at = d.next;
                }
                black_box(at);
            }
        },
        || {
            for bytes in &loops {
                let (bytes, mut at) = (black_box(bytes), 0);
                use opinion::descriptors::Step;
                while let Ok(Step::Descriptor { tag, next, .. }) = their_step(bytes, at) {
                    black_box(tag);
                    at = next;
                }
                black_box(at);
            }
        },
    )
}

/// Asks ours and then theirs of marks in any case, behind another descriptor.
fn marks() -> (f64, f64) {
    let random = &mut Random::new(SEED);
    let one = |random: &mut Random| {
        let mut bytes = vec![1, 0];
        bytes.extend(trial::loops::mark_in_any_case(random));
        bytes
    };
    let list: Vec<_> = (0..256).map(|_| one(random)).collect();
    race(
        list.len(),
        400,
        || {
            for bytes in &list {
                black_box(khumsafil::descriptor::is_trigger_tap(black_box(bytes), 2));
            }
        },
        || {
            for bytes in &list {
                black_box(their_mark(black_box(bytes), 2));
            }
        },
    )
}

/// A trigger of 64 bytes with an id of 16, an http URI of 32 and user data.
fn triggers() -> (f64, f64) {
    let random = &mut Random::new(SEED);
    let one = |random: &mut Random| {
        let parts = Parts {
            event: 0,
            id: Some((1, random.bytes(16))),
            kind: 5,
            target: trial::triggers::ascii(random, 32),
            user: random.bytes(6),
            off: [0; 3],
        };
        let bytes = parts.bytes();
        assert_eq!(bytes.len(), 64);
        bytes
    };
    let list: Vec<_> = (0..256).map(|_| one(random)).collect();
    race(
        list.len(),
        100,
        || {
            for payload in &list {
                let _ = black_box(khumsafil::trigger::read(black_box(payload)));
            }
        },
        || {
            for payload in &list {
                let _ = black_box(their_trigger(black_box(payload)));
            }
        },
    )
}

/// A clock at 1,000 that holds so many waiting ones.
fn waiting(random: &mut Random, count: u16) -> opinion::clock::Clock {
    let mut clock = opinion::clock::fresh();
    opinion::clock::move_to(&mut clock, 1_000).expect("a move");
    for event in 0..count {
        let a = opinion::clock::Activation {
            application: random.below(8) as u8,
            event,
            action: opinion::clock::Action::Exec,
            time: 1_001 + random.below(500) as u32,
        };
        opinion::clock::offer(&mut clock, a).expect("one more");
    }
    clock
}

/// A call on a copy of each record, the copying timed with it on both sides. Theirs has room for what is held.
fn calls(
    clocks: &[opinion::clock::Clock],
    our_call: impl Fn(&mut [u32]),
    their_call: impl Fn(&mut opinion::clock::Clock),
) -> (f64, f64) {
    let records: Vec<_> = clocks.iter().map(encode).collect();
    let mut ours = records[0];
    let mut theirs = clocks[0].clone();
    theirs.held.reserve(32);
    race(
        clocks.len(),
        20,
        || {
            for record in &records {
                ours.copy_from_slice(black_box(record));
                our_call(&mut ours);
                black_box(&ours);
            }
        },
        || {
            for record in clocks {
                let record = black_box(record);
                theirs.now = record.now;
                theirs.states = record.states;
                theirs.held.clear();
                theirs.held.extend_from_slice(&record.held);
                their_call(&mut theirs);
                black_box(&theirs);
            }
        },
    )
}

fn waiting_offer() -> (f64, f64) {
    let random = &mut Random::new(SEED);
    let clocks: Vec<_> = (0..64).map(|_| waiting(random, 16)).collect();
    let a = opinion::clock::Activation {
        application: 3,
        event: 999,
        action: opinion::clock::Action::Kill,
        time: 1_250,
    };
    calls(
        &clocks,
        |record| {
            let _ = black_box(lent::offer(record, for_us(black_box(a))));
        },
        |clock| {
            let _ = black_box(their_offer(clock, black_box(a)));
        },
    )
}

fn full_move() -> (f64, f64) {
    let random = &mut Random::new(SEED);
    let clocks: Vec<_> = (0..64).map(|_| waiting(random, 32)).collect();
    calls(
        &clocks,
        |record| assert_eq!(lent::move_to(record, black_box(2_000)), Ok(32)),
        |clock| assert_eq!(their_move(clock, black_box(2_000)), Ok(32)),
    )
}
