//! Descriptor loops: the library beside the independent program.

use khumsafil::descriptor;
use trial::beside::loops::{step, walk};
use trial::loops::{self, KINDS};
use trial::random::Random;
use trial::tally::{common, share, Tally};

/// The seed of every random comparison here.
const SEED: u64 = 0x4B68_756D_7361_0004;

/// How often each kind is drawn.
const ROUNDS: usize = 160_000;

#[test]
fn random_loops() {
    let mut random = Random::new(SEED);
    let mut tally = Tally::default();
    let mut steps = 0;
    for kind in KINDS {
        for _ in 0..share(ROUNDS) {
            let bytes = loops::make(&mut random, kind);
            tally.note(kind, walk(&bytes, &mut steps));
            let size = bytes.len();
            let any = random.below(size + 1);
            let at = random.pick(&[size, size + 1, size + 2, usize::MAX, any]);
            tally.note("any place", step(&bytes, at).0);
            if kind == "the mark in any case" {
                let mut places = loops::places(&bytes).into_iter();
                assert!(places.any(|at| descriptor::is_trigger_tap(&bytes, at)));
            }
        }
    }
    // Every place at which a sound loop can be cut.
    for _ in 0..share(4_000) {
        let bytes = loops::sound(&mut random, 6);
        for size in 0..=bytes.len() {
            tally.note("cut at every place", walk(&bytes[..size], &mut steps));
        }
    }
    common(tally.total(), 1_000_000);
    println!("{steps} steps of walks");
    tally.show(&format!("loops, seed {SEED:#018X}"), &[0, 19]);
}

/// The mark in small letters, in capitals, and as the second station writes it.
const SPELLINGS: [&[u8; 24]; 3] = [
    b"application/atsc-trigger",
    b"APPLICATION/ATSC-TRIGGER",
    b"Application/ATSC-Trigger",
];

/// Every byte value at each place of the mark, of its tag and of its length, beside the other bytes in every spelling.
#[test]
fn every_change_of_the_mark() {
    let random = &mut Random::new(SEED);
    let mut spellings = SPELLINGS.map(loops::spelled).to_vec();
    spellings.extend((0..share(64)).map(|_| loops::mark_in_any_case(random)));
    for mark in spellings {
        let mut found = 0;
        for i in 0..mark.len() {
            for value in 0..=255 {
                let mut bytes = mark.to_vec();
                bytes[i] = value;
                bytes.extend([value; 40]);
                step(&bytes, 0);
                found += u32::from(descriptor::is_trigger_tap(&bytes, 0));
            }
        }
        assert_eq!(
            found, 48,
            "22 letters in two cases, `/`, `-`, tag and length"
        );
    }
}

/// Every two places of the mark changed at once, by bits that letters of two cases differ in, or nearly.
#[test]
fn every_two_changes_of_the_mark() {
    for mark in SPELLINGS.map(loops::spelled) {
        for i in 2..mark.len() {
            for k in 2..i {
                for first in [0x20, 0x40, 0x60, 0x80, 0xA0] {
                    for second in [0x20, 0x40, 0x60, 0x80, 0xA0] {
                        let mut bytes = mark;
                        bytes[i] ^= first;
                        bytes[k] ^= second;
                        step(&bytes, 0);
                    }
                }
            }
        }
    }
}
