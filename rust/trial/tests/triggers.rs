//! Triggers: the library beside the independent program.

use khumsafil::trigger::{self, Target};
use opinion::trigger as theirs;
use trial::beside::triggers::{belongs_by_any, compare};
use trial::random::Random;
use trial::tally::{common, share, Tally};
use trial::triggers::{self, KINDS};

/// The seed of every random comparison here.
const SEED: u64 = 0x4B68_756D_7361_0005;

/// How often each kind is drawn; the long ones less often.
const ROUNDS: usize = 90_000;
const LONG_ROUNDS: usize = 24_000;

const ANSWERS: [u8; 8] = [0, 20, 21, 22, 23, 24, 25, 26];

#[test]
fn random_triggers() {
    let mut random = Random::new(SEED);
    let (mut tally, mut targets) = (Tally::default(), Tally::default());
    for kind in KINDS {
        let rounds = if kind == "long" { LONG_ROUNDS } else { ROUNDS };
        for _ in 0..share(rounds) {
            let payload = triggers::payload(&mut random, kind);
            tally.note(kind, compare(&payload, &mut targets));
        }
    }
    // Every place at which a trigger can be cut, and each length field off by one in it.
    for _ in 0..share(6_000) {
        let parts = triggers::sound(&mut random);
        let payload = parts.bytes();
        for size in 0..=payload.len() {
            tally.note(
                "cut at every place",
                compare(&payload[..size], &mut targets),
            );
        }
        for field in 0..3 {
            for by in [1, 0xFFFF] {
                let mut other = parts.clone();
                other.off[field] = by;
                tally.note("each length off", compare(&other.bytes(), &mut targets));
            }
        }
    }
    common(tally.total(), 1_000_000);
    tally.show(&format!("triggers, seed {SEED:#018X}"), &ANSWERS);
    targets.show("kinds of target", &[0, 1, 2, 3, 4, 5, 6]);
}

/// Every type with every target length up to 8, all bytes there and not.
#[test]
fn every_type_and_length() {
    let (mut tally, mut targets) = (Tally::default(), Tally::default());
    for kind in 0..=255 {
        for length in 0..=8 {
            for there in 0..=length {
                for byte in [0, 127, 128] {
                    let mut payload = vec![0, 0, 0, kind, 0, length];
                    payload.extend(vec![byte; there.into()]);
                    tally.note("no user data", compare(&payload, &mut targets));
                    payload.extend([0, 0]);
                    tally.note("user data", compare(&payload, &mut targets));
                    payload.push(byte);
                    tally.note("one byte more", compare(&payload, &mut targets));
                }
            }
        }
    }
    tally.show(
        "triggers, every type and target length",
        &[0, 20, 23, 24, 25],
    );
}

/// Whether a trigger belongs to an application: by both, also of numbers that no trigger has.
#[test]
fn belonging() {
    let mut random = Random::new(SEED);
    let mut counts = [0u64; 2];
    for _ in 0..share(300_000) {
        let payload = triggers::payload(&mut random, "sound");
        let Ok(other) = theirs::read(&payload) else {
            panic!("a sound trigger: {payload:02X?}")
        };
        let ours = trigger::read(&payload).expect("a sound trigger");
        let mut id = ours.id.to_vec();
        match random.below(6) {
            0 => id.push(0),
            1 => {
                id.pop();
            }
            2 if !id.is_empty() => {
                let at = random.below(id.len());
                id[at] ^= 1;
            }
            3 => id.clear(),
            _ => {}
        }
        let its = theirs::belongs(&payload, &other, &id);
        assert_eq!(ours.belongs_to(&id), its, "{payload:02X?}, {id:02X?}");
        counts[usize::from(its)] += 1;
        let mut fields = [0; trigger::FIELDS];
        trigger::fields(&payload, &mut fields).expect("a sound trigger");
        assert_eq!(belongs_by_any(&payload, &fields, &id), its, "as it was read");
        // Numbers that no trigger has, and others where none has a part in it.
        if random.once_in(2) {
            fields.iter_mut().for_each(|n| *n = random.word() as u16);
        }
        fields[0] = random.pick(&[0, 1, 2, 65_535, fields[0]]);
        fields[2] = random.pick(&[0, 3, 5, payload.len() as u16, 65_535]);
        fields[3] = random.pick(&[0, 1, payload.len() as u16, 65_535, id.len() as u16]);
        // User data that ends with the payload, more often than not: elsewhere it is no application's.
        if !random.once_in(4) {
            fields[9] = random.below(payload.len() + 1) as u16;
            fields[10] = payload.len() as u16 - fields[9];
        }
        let given = belongs_by_any(&payload, &fields, &id);
        counts[usize::from(given)] += 1;
    }
    println!("belonging: {} not, {} do", counts[0], counts[1]);
    counts.iter().for_each(|n| common(*n, 10_000));
}

#[test]
fn examples_p9_to_p11() {
    let mut targets = Tally::default();
    let p9 = trigger::read(&[0; 8]).expect("P9 is a trigger");
    assert_eq!(
        (
            p9.id_length,
            p9.description,
            p9.id.len(),
            p9.target,
            p9.user.len()
        ),
        (0, 0, 0, Target::None, 0)
    );
    let p10 = [0, 0, 2, 0, 1, 2, 0, 2, 0, 0x17, 0, 1, 0x41];
    let read = trigger::read(&p10).expect("P10 is a trigger");
    assert_eq!((read.target, read.user), (Target::Tap(23), &[0x41][..]));
    assert_eq!(compare(&p10, &mut targets), 0);
    assert_eq!(compare(&[0, 0, 1, 0, 0, 0, 0, 0], &mut targets), 22, "P11");
    assert_eq!(compare(&[], &mut targets), 20);
    assert_eq!(compare(&vec![0; 4_097], &mut targets), 26);
}
