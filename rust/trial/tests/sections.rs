//! Sections: the library beside the independent program.

mod raw;

use trial::beside::sections as beside;
use trial::keys::{self, Key, NRT_IT, NRT_IT_KEY_END};
use trial::random::Random;
use trial::sections::{self, Fields, KINDS, LONGEST};
use trial::tally::{common, one_in, share, Cases, Tally};

/// The seed of every random comparison here.
const SEED: u64 = 0x4B68_756D_7361_0001;

/// How often each kind is drawn at each length: above a million payloads in all.
const ROUNDS: usize = 120;

/// The numbers that a reading can give, 0 for a sound section.
const ANSWERS: [u8; 10] = [0, 1, 2, 3, 4, 5, 6, 7, 8, 46];

/// Reads the payload by both, and the rest of its key by itself, whatever its table is.
fn compare(payload: &[u8]) -> u8 {
    let number = beside::compare(payload);
    let other = opinion::section::read(payload).map(|s| (s.service_id, s.time_span_start));
    assert_eq!(raw::section_key(payload), other, "{payload:02X?}");
    number
}

#[test]
fn random_payloads() {
    let mut random = Random::new(SEED);
    let mut tally = Tally::default();
    for size in 0..=LONGEST {
        for kind in KINDS {
            for _ in 0..share(ROUNDS) {
                let payload = sections::payload(&mut random, kind, size);
                tally.note(kind, compare(&payload));
            }
        }
    }
    common(tally.total(), 1_000_000);
    tally.show(
        &format!("sections, seed {SEED:#018X}, sizes 0 to {LONGEST}"),
        &ANSWERS,
    );
}

/// NRT-ITs of 0 to 30 bytes under each change: 46 is given of 8 to 13 bytes where nothing before it is, and the key of longer ones
/// is what stands there.
#[test]
fn short_nrt_its() {
    let mut random = Random::new(SEED);
    let (mut tally, mut cases) = (Tally::default(), Cases::default());
    for size in 0..=30 {
        for kind in KINDS {
            for _ in 0..share(4_000) {
                let key = Key {
                    table_id: NRT_IT,
                    ..keys::any(&mut random)
                };
                let fields = Fields {
                    key,
                    ..Fields::random(&mut random)
                };
                let payload = sections::payload_of(&mut random, kind, size, fields);
                let number = compare(&payload);
                tally.note(kind, number);
                if kind == "sound" {
                    let expected = match size {
                        0..=7 => 1,
                        8..NRT_IT_KEY_END => 46,
                        _ => 0,
                    };
                    assert_eq!(number, expected, "{payload:02X?}");
                    cases.note_if(size == 8, "of 8 bytes, 46");
                    cases.note_if((9..13).contains(&size), "of 9 to 12 bytes, 46");
                    cases.note_if(size == 13, "of 13 bytes, 46");
                    cases.note_if(size == 14, "of 14 bytes, sound");
                    cases.note_if((15..=20).contains(&size), "of 15 to 20 bytes, sound");
                }
                if number == 0 && payload[0] == NRT_IT {
                    let read = khumsafil::section::read(&payload).expect("a sound section");
                    assert_eq!(sections::rest(keys::for_them(read.key)), payload[8..14]);
                }
            }
        }
    }
    tally.show(
        &format!("NRT-ITs of 0 to 30 bytes, seed {SEED:#018X}"),
        &ANSWERS,
    );
    cases.show("sound but for 46", &SHORT, 1_000);
}

const SHORT: [&str; 5] = [
    "of 8 bytes, 46",
    "of 9 to 12 bytes, 46",
    "of 13 bytes, 46",
    "of 14 bytes, sound",
    "of 15 to 20 bytes, sound",
];

/// Every pair of values in two bytes of the header or of the key, around sections of some sizes: of another table three, of NRT-ITs
/// six, of which two are too short.
#[test]
fn every_pair_of_bytes() {
    let mut random = Random::new(SEED);
    let mut tally = Tally::default();
    for (table_id, size) in [
        (201, 8),
        (201, 300),
        (201, 1_024),
        (NRT_IT, 8),
        (NRT_IT, 13),
        (NRT_IT, 14),
        (NRT_IT, 15),
        (NRT_IT, 300),
        (NRT_IT, 1_024),
    ] {
        let any = keys::any(&mut random);
        let key = Key { table_id, ..any }.proper();
        let fields = Fields {
            key,
            ..Fields::random(&mut random)
        };
        let sound = sections::section(&mut random, size, fields);
        for (kind, i, j) in [
            ("bytes 1 and 2", 1, 2),
            ("bytes 6 and 7", 6, 7),
            ("bytes 1 and 5", 1, 5),
            ("bytes 0 and 2", 0, 2),
            ("bytes 0 and 5", 0, 5),
            ("bytes 3 and 4", 3, 4),
            ("bytes 8 and 9", 8, 9),
            ("bytes 10 and 11", 10, 11),
            ("bytes 12 and 13", 12, 13),
        ] {
            if j >= size {
                continue;
            }
            let mut payload = sound.clone();
            for pair in (0..=u16::MAX).step_by(one_in()) {
                payload[i] = (pair >> 8) as u8;
                payload[j] = pair as u8;
                tally.note(kind, compare(&payload));
            }
        }
    }
    tally.show(
        "sections, every pair of two bytes",
        &[0, 2, 3, 4, 5, 6, 7, 8, 46],
    );
}

const P1: [u8; 8] = [0xC9, 0x70, 0x05, 0x12, 0x34, 0xC7, 0x00, 0x00];

#[test]
fn examples_p1_to_p8() {
    let p1 = khumsafil::section::read(&P1).expect("P1 is sound");
    assert_eq!(
        (p1.key, p1.version, p1.number, p1.last, p1.body.len()),
        (khumsafil::Key::new(0xC9, 0x1234), 3, 0, 0, 0)
    );
    assert_eq!(compare(&P1), 0);
    assert_eq!(compare(&P1[..7]), 1, "P2");
    assert_eq!(
        compare(&[0xC9, 0x70, 0x06, 0x12, 0x34, 0xC7, 0x00, 0x00]),
        4,
        "P3"
    );
    assert_eq!(
        compare(&[0xC9, 0x70, 0x05, 0x12, 0x34, 0xC7, 0x00, 0x00, 0x00]),
        5,
        "P4"
    );
    assert_eq!(
        compare(&[0xC9, 0xF0, 0x05, 0x12, 0x34, 0xC7, 0x00, 0x00]),
        2,
        "P5"
    );
    assert_eq!(
        compare(&[0xC9, 0x70, 0x05, 0x12, 0x34, 0xC6, 0x00, 0x00]),
        8,
        "P6"
    );
    assert_eq!(
        compare(&[0xC9, 0x70, 0x05, 0x12, 0x34, 0xC7, 0x01, 0x00]),
        6,
        "P7"
    );
    assert_eq!(
        compare(&[0xC9, 0x70, 0x05, 0x12, 0x34, 0xC7, 0x00, 0x10]),
        7,
        "P8"
    );
    assert_eq!(
        compare(&[0xC9, 0x70, 0x05, 0x12, 0x34, 0xC7, 0x00, 0x0F]),
        0,
        "P8 with 0F"
    );
}

#[test]
fn examples_on_length() {
    let mut longest = vec![0x5A; 1_024];
    longest[..8].copy_from_slice(&[0xC9, 0x73, 0xFD, 0x12, 0x34, 0xC7, 0x00, 0x00]);
    assert_eq!(compare(&longest), 0, "1,021 with 1,024 bytes");
    longest[2] = 0xFE;
    assert_eq!(compare(&longest), 3, "1,022 with 1,024 bytes");
    longest.push(0);
    assert_eq!(compare(&longest), 3, "1,022 with 1,025 bytes");
}

/// Readings that are easy to get wrong.
#[test]
fn order_of_refusals() {
    let with = |i: usize, a: u8, j: usize, b: u8| {
        let mut payload = P1;
        payload[i] = a;
        payload[j] = b;
        compare(&payload)
    };
    assert_eq!(with(6, 17, 7, 16), 6, "number 17 under last 16");
    assert_eq!(with(6, 3, 7, 16), 7, "number 3 under last 16");
    assert_eq!(with(1, 0xF0, 2, 0x04), 2, "an indicator before the length");
    assert_eq!(
        with(1, 0x30, 2, 0x04),
        2,
        "the other indicator before the length"
    );
    assert_eq!(
        with(5, 0xC6, 7, 0x10),
        7,
        "current/next behind the last number"
    );
    assert_eq!(with(0, NRT_IT, 2, 0x05), 46, "an NRT-IT without a key");
    assert_eq!(with(0, NRT_IT, 5, 0xC6), 8, "current/next before the key");
    assert_eq!(
        with(0, NRT_IT, 7, 0x10),
        7,
        "the last number before the key"
    );
    assert_eq!(with(0, NRT_IT, 2, 0x06), 4, "the length before the key");
    assert_eq!(compare(&[]), 1, "no payload");
}
