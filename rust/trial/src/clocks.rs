//! Clock records as they are lent, and random calls on them.

use crate::random::Random;
use khumsafil::clock as ours;
use khumsafil::clock::RECORD;
use opinion::clock as theirs;

/// The places of a record.
const PLACES: usize = 32;

const STATES: [theirs::State; 4] = [
    theirs::State::Released,
    theirs::State::Ready,
    theirs::State::Active,
    theirs::State::Suspended,
];

const ACTIONS: [theirs::Action; 4] = [
    theirs::Action::Prep,
    theirs::Action::Exec,
    theirs::Action::Susp,
    theirs::Action::Kill,
];

/// The second number of a place.
pub fn mark(held: &theirs::Held) -> u32 {
    let a = held.activation;
    u32::from(a.event)
        | u32::from(a.application) << 16
        | (a.action as u32) << 24
        | u32::from(held.applied) << 26
}

/// The record of a clock that holds at most 32.
pub fn encode(clock: &theirs::Clock) -> [u32; RECORD] {
    let mut record = [0; RECORD];
    record[0] = clock.now;
    for (i, state) in clock.states.iter().enumerate() {
        record[1] |= (*state as u32) << (2 * i);
    }
    record[2] = clock.held.len() as u32;
    for (i, held) in clock.held.iter().enumerate() {
        record[3 + 2 * i] = held.activation.time;
        record[4 + 2 * i] = mark(held);
    }
    record
}

/// The clock that a record is. One that claims over 32 gets 33, whatever they are.
pub fn decode(record: &[u32; RECORD]) -> theirs::Clock {
    let held = (0..(record[2] as usize).min(PLACES + 1)).map(|i| {
        let i = i.min(PLACES - 1);
        let word = record[4 + 2 * i];
        theirs::Held {
            activation: theirs::Activation {
                application: (word >> 16) as u8,
                event: word as u16,
                action: ACTIONS[(word >> 24) as usize % 4],
                time: record[3 + 2 * i],
            },
            applied: word >> 26 & 1 == 1,
        }
    });
    theirs::Clock {
        now: record[0],
        states: std::array::from_fn(|i| STATES[(record[1] >> (2 * i)) as usize % 4]),
        held: held.collect(),
    }
}

/// An activation as the library takes it.
pub fn for_us(a: theirs::Activation) -> ours::Activation {
    ours::Activation {
        application: a.application,
        event: a.event,
        action: match a.action {
            theirs::Action::Prep => ours::Action::Prep,
            theirs::Action::Exec => ours::Action::Exec,
            theirs::Action::Susp => ours::Action::Susp,
            theirs::Action::Kill => ours::Action::Kill,
        },
        time: a.time,
    }
}

/// How a history is drawn: few values, so that repeats and ties are common.
pub struct Way {
    applications: usize,
    events: usize,
    times: usize,
    moves: usize,
}

impl Way {
    pub fn random(random: &mut Random) -> Way {
        Way {
            applications: random.pick(&[1, 2, 3, 8]),
            events: random.pick(&[1, 2, 3, 12]),
            times: random.pick(&[1, 3, 16, 200]),
            moves: random.pick(&[2, 4, 10, 60]),
        }
    }

    /// Whether the next call is a move.
    pub fn moves(&self, random: &mut Random) -> bool {
        random.once_in(self.moves)
    }

    pub fn activation(&self, random: &mut Random, now: u32) -> theirs::Activation {
        let application = match random.below(60) {
            0 => random.pick(&[8, 9, 255]),
            _ => random.below(self.applications) as u8,
        };
        let near = random.below(self.times) as u32;
        let time = match random.below(16) {
            0 => now,
            1 => now.saturating_sub(near),
            2 => now.saturating_sub(60_000).saturating_add(near),
            3 => now.saturating_sub(60_000),
            4 => now.saturating_sub(60_001).saturating_sub(near),
            5 => now.saturating_add(60_000).saturating_add(near),
            6 if random.once_in(4) => random.pick(&[0, u32::MAX, u32::MAX - near]),
            // A few times that stay where they are, whatever the clock does.
            7..=10 => (now - now % 64).saturating_add(near),
            _ => now.saturating_add(1).saturating_add(near),
        };
        theirs::Activation {
            application,
            event: match random.below(40) {
                0 => 65_535,
                _ => random.below(self.events) as u16,
            },
            action: random.pick(&ACTIONS),
            time,
        }
    }

    pub fn to(&self, random: &mut Random, now: u32) -> u32 {
        match random.below(16) {
            0 => now,
            1 => now.saturating_sub(1),
            2 => now.saturating_sub(random.word() as u32 % 100_000),
            3 => now.saturating_add(60_000),
            4 => now.saturating_add(60_001),
            5 if random.once_in(8) => random.word() as u32,
            6 if random.once_in(8) => u32::MAX,
            7..=9 => now.saturating_add(random.below(20_000) as u32),
            _ => now.saturating_add(random.below(self.times + 1) as u32),
        }
    }
}

/// The ways in which a record is spoiled, and one in which it is not.
pub const SPOILS: [&str; 8] = [
    "as it was",
    "over 32 held",
    "an application above 7",
    "two alike",
    "waiting, not ahead",
    "applied, ahead",
    "applied, past memory",
    "any numbers",
];

/// Spoils a record in a way. What a way needs that the record lacks, as one that is held, is put there.
pub fn spoil(random: &mut Random, way: &str, clock: &theirs::Clock) -> [u32; RECORD] {
    let mut clock = clock.clone();
    let one = |random: &mut Random, time: u32, applied: bool| theirs::Held {
        activation: theirs::Activation {
            application: random.below(8) as u8,
            event: random.word() as u16,
            action: random.pick(&ACTIONS),
            time,
        },
        applied,
    };
    let put = |random: &mut Random, clock: &mut theirs::Clock, held: theirs::Held| {
        if clock.held.len() == PLACES {
            clock.held[random.below(PLACES)] = held;
        } else {
            let at = random.below(clock.held.len() + 1);
            clock.held.insert(at, held);
        }
    };
    let near = random.pick(&[0, 1, 5]);
    let now = clock.now;
    match way {
        "an application above 7" => {
            let mut held = one(random, now, true);
            held.activation.application = random.pick(&[8, 9, 128, 255]);
            put(random, &mut clock, held);
        }
        "two alike" => {
            let mut held = match clock.held.first() {
                Some(first) => *first,
                None => one(random, now, true),
            };
            if clock.held.is_empty() {
                clock.held.push(held);
            }
            held.activation.action = random.pick(&ACTIONS);
            clock.held.truncate(PLACES - 1);
            put(random, &mut clock, held);
        }
        "waiting, not ahead" => {
            let held = one(random, now.saturating_sub(near), false);
            put(random, &mut clock, held);
        }
        "applied, ahead" => {
            let held = one(random, now.saturating_add(1 + near), true);
            put(random, &mut clock, held);
        }
        "applied, past memory" => {
            let held = one(random, now.saturating_sub(60_001 + near), true);
            put(random, &mut clock, held);
        }
        _ => {}
    }
    let mut record = encode(&clock);
    match way {
        "over 32 held" => record[2] = random.pick(&[33, 34, 1 << 16, u32::MAX]),
        "any numbers" => {
            record.iter_mut().for_each(|n| *n = random.word() as u32);
            record[2] = random.pick(&[0, 1, 2, 33]);
        }
        _ if random.once_in(2) => litter(random, &mut record),
        _ => {}
    }
    record
}

/// Sets bits that have no part in a record, and the places past those held. It is the same record then.
pub fn litter(random: &mut Random, record: &mut [u32; RECORD]) {
    record[1] |= (random.word() as u32) << 16;
    for i in 0..PLACES {
        record[4 + 2 * i] |= (random.word() as u32) << 27;
    }
    let held = (record[2] as usize).min(PLACES);
    for number in record.iter_mut().skip(3 + 2 * held) {
        *number = random.word() as u32;
    }
}

/// Puts what a record holds in other places of it.
pub fn shuffle(random: &mut Random, record: &mut [u32; RECORD]) {
    let held = (record[2] as usize).min(PLACES);
    for i in (1..held).rev() {
        let j = random.below(i + 1);
        record.swap(3 + 2 * i, 3 + 2 * j);
        record.swap(4 + 2 * i, 4 + 2 * j);
    }
}
