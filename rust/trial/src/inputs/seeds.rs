//! What the fuzzer starts from.

use crate::files::{damaged, Parts};
use crate::keys::{self, Key, NRT_IT};
use crate::random::Random;
use crate::sections::Fields;
use crate::shelf::RESTS;
use crate::{files, loops, programmes, sections, top, triggers};
use khumsafil::shelf::PLACES;
use std::fs;

const SEED: u64 = 0x4B68_756D_7361_000A;

/// The fields of an NRT-IT.
fn nrt_it(random: &mut Random) -> Fields {
    Fields {
        key: Key {
            table_id: NRT_IT,
            ..keys::any(random)
        },
        ..Fields::random(random)
    }
}

/// Keys as [`super::feed::Feed::key`] takes them: NRT-ITs of one extension, of one service and of one start, tables of another id
/// with numbers that mean nothing, and both.
const KEYS: [&[u8]; 7] = [
    &[0x80, 0x82],
    &[0x80, 0x84, 0x88, 0x8C, 0x90],
    &[0x80, 0x81, 0x83],
    &[0xC0, 0xD0, 0xE0, 0x00],
    &[0xC0, 0xC1],
    &[0x80, 0xC0, 0x82, 0xC8],
    &[0x97, 0x93, 0x8F, 0x8B, 0x87],
];

/// A history of these keys: each is offered twice, asked, saved and loaded; each number of a key's rest is for one call that of the
/// next place, or has this bit changed; and all are released.
fn history(keys: &[u8], bit: u8) -> Vec<u8> {
    let mut bytes = Vec::new();
    let offer = |key: u8, version: u8, number: u8, size: u8| [0, 0, key, version, number, size];
    // Section 0 and then 1 of a table of two, of the smallest size.
    for number in [0x01, 0x01, 0x11] {
        keys.iter()
            .for_each(|key| bytes.extend(offer(*key, 0, number, 0)));
    }
    for key in keys {
        // Whether it is complete, its lowest missing number, section 0 and its file, each with just enough room.
        bytes.extend([0, 16, *key, 0, 18, *key, 0, 20, *key, 0, 4, 0, 24, *key, 4]);
    }
    for number in 0..3 * keys.len().min(PLACES) {
        let (at, key) = ((RESTS + number) as u8, keys[number / 3]);
        // A question, an offer and a file that was saved.
        for call in [
            &[16, key][..],
            &[0, key, 0, 0x01, 0],
            &[26, number as u8 / 3],
        ] {
            bytes.extend([&[0xE2, at], call].concat());
            bytes.extend([&[0xE1, at, bit], call].concat());
        }
    }
    // A length that the record may have and an NRT-IT's section may not. Then another service in the first place, which stays, and
    // for one call the extension of the second.
    bytes.extend([0xE0, 0, 0, 8, 16, keys[0]]);
    bytes.extend([0xE4, RESTS as u8, 0x12, 0x34, 16, keys[0]]);
    bytes.extend([0xE2, 65, 16, keys[1]]);
    // Another version of the first, a larger section, and all released and loaded again.
    bytes.extend(offer(keys[0], 2, 0x01, 0x04));
    for (place, key) in keys.iter().enumerate() {
        bytes.extend([0, 23, *key, 0, 26, place as u8]);
    }
    // Sections too short for a key: 8 and 13 bytes by a byte more.
    for size in [0, 5] {
        bytes.extend(offer(keys[0], 0, 0x00, 0x05));
        bytes.push(size);
    }
    bytes
}

/// Each generator's kinds with the bytes before them that the target takes for its own choices, and histories of random
/// choices.
pub fn seeds(target: &str) -> Vec<Vec<u8>> {
    let random = &mut Random::new(SEED);
    let with = |front: &[u8], input: &[u8]| [front, input].concat();
    let mut all = Vec::new();
    match target {
        "sections" => {
            for kind in sections::KINDS {
                for size in [8, 20, 1_024] {
                    all.push(with(&[0], &sections::payload(random, kind, size)));
                }
                for size in [8, 13, 14, 20] {
                    let fields = nrt_it(random);
                    let payload = sections::payload_of(random, kind, size, fields);
                    all.push(with(&[0], &payload));
                }
            }
        }
        "loops" => {
            for kind in loops::KINDS {
                for at in [[0, 0], [0, 2], [255, 255]] {
                    all.push(with(&at, &loops::make(random, kind)));
                }
            }
        }
        "triggers" => {
            for kind in triggers::KINDS {
                for front in [[2, 11, 0, 4, 0, 5, 0, 2], [1, 10, 0, 0, 0, 3, 0, 0]] {
                    all.push(with(&front, &triggers::payload(random, kind)));
                }
                // One at the greatest size, and one byte to either side.
                if kind == "long" {
                    (0..8).for_each(|_| all.push(with(&[0; 8], &triggers::payload(random, kind))));
                }
            }
        }
        "programmes" => {
            // The first place and another, number 0 and 1, too little room and enough; the payload as it is.
            for kind in programmes::KINDS {
                for front in [[0, 12, 0, 17, 0], [0, 3, 0, 25, 1], [0, 11, 255, 255, 0]] {
                    all.push(with(&front, &programmes::payload(random, kind)));
                }
            }
            // Lists that end inside or behind their key.
            for size in 8..=18 {
                let list = random.bytes(size);
                all.push(with(&[3, 12, 0, 17, 0], &list));
            }
        }
        "files" => {
            for name in ["whole", "gaps", "damaged", "programmes"] {
                let file = fs::read(top(&format!("samples/{name}.shelf"))).expect(name);
                all.push(with(&[0, 0], &file));
            }
            for kind in files::KINDS {
                let fields = Fields::random(random);
                let parts = Parts::random(random, fields);
                all.push(with(&[0, 0], &damaged(random, kind, parts)));
                let fields = nrt_it(random);
                let parts = Parts::random(random, fields);
                all.push(with(&[0, 0], &damaged(random, kind, parts)));
            }
            // Three sections of an NRT-IT and of another table, of which one differs in one field or is too short for a key.
            for key in [0x80, 0xD0] {
                for other in [0x10, 0x91, 0x92, 0x93, 0x95, 0x96, 0x97, 0x98] {
                    let table = [key, 0, 0x02];
                    let sections = [0x10, 0, other, 0, 0x10, 4];
                    all.push(with(&[0, 1], &[&table[..], &sections].concat()));
                    all.push(with(
                        &[0, 1],
                        &[&table[..], &[other, 5, 5], &sections].concat(),
                    ));
                }
            }
            for how in 0..32 {
                let size = 20 + random.below(40);
                all.push(with(&[random.byte(), how << 3 | 1], &random.bytes(size)));
            }
            for kind in files::KINDS {
                all.push(with(&[0, 0], &programmes::file(random, kind)));
            }
        }
        "writer" => {
            // Lengths around each number of full bodies; one version in four is 32, the others are 31.
            for full in 0..=16 {
                for more in 0..5 {
                    let [table_id, high, low, first, second] = [(); 5].map(|()| random.byte());
                    let version = 31 + u8::from(random.once_in(4));
                    let front = [
                        table_id, high, low, version, full, more, 0x80, first, second,
                    ];
                    all.push(with(&front, &random.bytes(60)));
                }
            }
            // An NRT-IT's label, with bodies around one section, around the largest and far longer.
            for (full, more) in [(0, 2), (1, 2), (16, 2), (16, 3), (255, 0)] {
                for version in [3, 32] {
                    let front = [0xF0, 0x10, 1, version, full, more, 0x80, 7, 7];
                    all.push(with(&front, &random.bytes(60)));
                }
            }
            for size in [10, 20, 50, 100, 200] {
                (0..8).for_each(|_| all.push(random.bytes(size)));
            }
        }
        "shelf" => {
            for keys in KEYS {
                (0..16).for_each(|bit| all.push(history(keys, bit)));
            }
            for size in [10, 20, 50, 100, 200, 500] {
                (0..8).for_each(|_| all.push(random.bytes(size)));
            }
        }
        _ => {
            for size in [10, 20, 50, 100, 200, 500] {
                (0..8).for_each(|_| all.push(random.bytes(size)));
            }
        }
    }
    all
}
