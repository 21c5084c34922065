//! The clock: the library beside the independent program.

use khumsafil::clock::{lent, State, RECORD};
use khumsafil::Refusal;
use opinion::clock as theirs;
use trial::beside::clock::{equal, Both};
use trial::clocks::{encode, litter, shuffle, spoil, Way, SPOILS};
use trial::random::Random;
use trial::tally::{common, share, Tally};

/// The seed of every random comparison here.
const SEED: u64 = 0x4B68_756D_7361_0006;

const HISTORIES: usize = 200_000;

/// The most calls of a history.
const CALLS: usize = 300;

/// Where a history begins: near 0, near the top of time, or anywhere.
fn start(random: &mut Random, both: &mut Both) {
    let near = random.below(130_000) as u32;
    let to = match random.below(4) {
        0 => return,
        1 => near,
        2 => u32::MAX - near,
        _ => random.word() as u32,
    };
    assert_eq!(both.move_to(to), 0);
}

#[test]
fn random_histories() {
    let mut random = Random::new(SEED);
    let mut tally = Tally::default();
    let (mut full, mut forgot) = (0u64, 0u64);
    for _ in 0..share(HISTORIES) {
        let mut both = Both::fresh();
        start(&mut random, &mut both);
        let way = Way::random(&mut random);
        let calls = 1 + random.below(CALLS) * random.below(CALLS) / CALLS;
        for _ in 0..calls {
            let held = both.clock.held.len();
            let now = both.clock.now;
            if way.moves(&mut random) {
                tally.note("move", both.move_to(way.to(&mut random, now)));
            } else {
                tally.note("offer", both.offer(way.activation(&mut random, now)));
            }
            forgot += u64::from(both.clock.held.len() < held);
            full += u64::from(both.clock.held.len() == 32);
            if random.once_in(8) {
                let application = random.below(10) as u8;
                tally.note("ask", both.ask(application));
            }
        }
        (0..8).for_each(|application| {
            both.ask(application);
        });
    }
    println!("{full} calls left a full record, {forgot} forgot");
    common(full.min(forgot), 100_000);
    tally.show(
        &format!(
            "{} histories of 1 to {CALLS} calls, seed {SEED:#018X}",
            share(HISTORIES)
        ),
        &[0, 30, 31, 32, 33, 34],
    );
}

/// Records that a history left, spoiled in every way that 35 names, and not.
#[test]
fn spoiled_records() {
    let mut random = Random::new(SEED);
    let mut tally = Tally::default();
    for _ in 0..share(60_000) {
        let mut both = Both::fresh();
        start(&mut random, &mut both);
        let way = Way::random(&mut random);
        for _ in 0..random.below(40) {
            let now = both.clock.now;
            both.offer(way.activation(&mut random, now));
        }
        for spoiled in SPOILS {
            let record = spoil(&mut random, spoiled, &both.clock);
            let mut one = Both::new(record);
            let now = one.clock.now;
            one.ask_any(random.below(9) as u8);
            let answer = match random.below(4) {
                0 => one.move_to(way.to(&mut random, now)),
                _ => one.offer(way.activation(&mut random, now)),
            };
            tally.note(spoiled, answer);
            let asked = lent::time(&record).map_err(Refusal::number);
            assert_eq!(asked.is_err(), answer == 35, "{record:?}");
            let named = &SPOILS[1..SPOILS.len() - 1];
            if named.contains(&spoiled) && now > 60_010 && now < u32::MAX - 10 {
                assert_eq!(answer, 35, "{spoiled}: {record:?}");
            }
        }
    }
    tally.show(
        &format!("records spoiled, seed {SEED:#018X}"),
        &[0, 30, 31, 32, 33, 34, 35],
    );
}

/// Records of one clock in other places and with other bits around them, and records in which one number is another.
#[test]
fn equal_clocks() {
    let mut random = Random::new(SEED);
    let mut counts = [[0u64; 3]; 2];
    let mut differ = 0u64;
    for _ in 0..share(60_000) {
        let mut both = Both::fresh();
        start(&mut random, &mut both);
        let way = Way::random(&mut random);
        for _ in 0..random.below(60) {
            let now = both.clock.now;
            if way.moves(&mut random) {
                both.move_to(way.to(&mut random, now));
            } else {
                both.offer(way.activation(&mut random, now));
            }
        }
        let mut other = encode(&both.clock);
        shuffle(&mut random, &mut other);
        litter(&mut random, &mut other);
        assert_eq!(equal(&both.record, &other), Some(true), "one clock");
        for (row, record) in [(0, both.record), (1, other)] {
            let mut changed = record;
            let held = 3 + 2 * record[2] as usize;
            let at = match random.below(4) {
                0 => random.below(RECORD),
                1 => random.below(3),
                _ => random.below(held),
            };
            changed[at] = match random.below(4) {
                0 => random.word() as u32,
                1 => changed[at].wrapping_add(random.pick(&[1, u32::MAX])),
                _ => changed[at] ^ 1 << random.below(32),
            };
            // With the other's places and leftovers, or with its own.
            let against = random.pick(&[both.record, other]);
            let found = equal(&against, &changed).map_or(2, usize::from);
            counts[row][found] += 1;
        }
        // One activation fewer, one with another action, or another state.
        let mut changed = both.clock.clone();
        match changed.held.first_mut() {
            Some(first) if random.once_in(2) => {
                first.activation.action = match first.activation.action {
                    theirs::Action::Prep => theirs::Action::Kill,
                    _ => theirs::Action::Prep,
                };
            }
            Some(_) => {
                changed.held.pop();
            }
            None => {
                let state = &mut changed.states[random.below(8)];
                *state = match *state {
                    theirs::State::Ready => theirs::State::Active,
                    _ => theirs::State::Ready,
                };
            }
        }
        assert_eq!(equal(&both.record, &encode(&changed)), Some(false));
        differ += 1;
    }
    for (row, name) in counts.iter().zip(["it", "it in other places"]) {
        let [differ, same, spoiled] = row;
        println!("clocks compared, a number of {name} changed: {differ} differ, {same} are equal, {spoiled} spoiled");
    }
    println!("clocks compared, what is held or a state changed: {differ} differ");
    counts.iter().flatten().for_each(|n| common(*n, 1_000));
}

/// Another size than 67 numbers is no record.
#[test]
fn another_size() {
    for size in (0..67).chain(68..80) {
        let a = theirs::Activation {
            application: 9,
            event: 0,
            action: theirs::Action::Exec,
            time: 1,
        };
        Both::with_size(size, a);
    }
}

/// Document 01: clock 70,000: time 10,000 is applied on arrival, 9,999 gives 32.
#[test]
fn the_example() {
    let mut both = Both::fresh();
    assert_eq!(both.move_to(70_000), 0);
    let at = |time| theirs::Activation {
        application: 2,
        event: 7,
        action: theirs::Action::Exec,
        time,
    };
    assert_eq!(both.offer(at(9_999)), 32);
    assert_eq!(both.offer(at(10_000)), 0);
    assert_eq!(lent::state(&both.record, 2), Ok(State::Active));
    assert_eq!(both.offer(at(10_000)), 33);
}
