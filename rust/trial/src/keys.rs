//! Keys of tables: any four numbers.

use crate::random::Random;
pub use opinion::key::{Key, NRT_IT, NRT_IT_KEY_END};

/// The same four numbers for the library, whatever the table id is.
pub fn for_us(key: Key) -> khumsafil::Key {
    let mut four = khumsafil::Key::new(key.table_id, key.extension);
    four.service_id = key.service_id;
    four.time_span_start = key.time_span_start;
    four
}

/// The same four numbers for the independent program.
pub fn for_them(key: khumsafil::Key) -> Key {
    Key {
        table_id: key.table_id,
        extension: key.extension,
        service_id: key.service_id,
        time_span_start: key.time_span_start,
    }
}

/// Whether the library answers this key, number by number: of every table but an NRT-IT the added two are 0.
pub fn answered(ours: khumsafil::Key, other: Key) -> bool {
    for_them(ours) == other && other == other.proper()
}

/// A table id: often the NRT-IT's, and sometimes one that is near to it.
pub fn table_id(random: &mut Random) -> u8 {
    match random.below(16) {
        0..=3 => NRT_IT,
        4 => random.pick(&[0xDE, 0xE0, 0xE1, 0xDD, 0x5F, 0xCF]),
        _ => random.byte(),
    }
}

/// Any key; of another table than an NRT-IT the added numbers are 0.
pub fn random(random: &mut Random) -> Key {
    any(random).proper()
}

/// Any four numbers.
pub fn any(random: &mut Random) -> Key {
    Key {
        table_id: table_id(random),
        extension: random.word() as u16,
        service_id: random.word() as u16,
        time_span_start: random.word() as u32,
    }
}

/// The fields of a key, the start in its two halves.
pub const FIELDS: [&str; 5] = [
    "another table id",
    "another extension",
    "another service",
    "another start, high",
    "another start, low",
];

/// The key with one bit of one field changed.
pub fn another(random: &mut Random, field: &str, key: Key) -> Key {
    let bit = random.below(16);
    let mut other = key;
    match field {
        "another table id" => other.table_id ^= 1 << (bit % 8),
        "another extension" => other.extension ^= 1 << bit,
        "another service" => other.service_id ^= 1 << bit,
        "another start, high" => other.time_span_start ^= 1 << (16 + bit),
        "another start, low" => other.time_span_start ^= 1 << bit,
        _ => panic!("no such field: {field}"),
    }
    other
}

/// The one field in which two keys differ, the start's halves each by itself.
pub fn differ_in(a: Key, b: Key) -> Option<&'static str> {
    let halves = a.time_span_start ^ b.time_span_start;
    let differ = [
        a.table_id != b.table_id,
        a.extension != b.extension,
        a.service_id != b.service_id,
        halves >> 16 != 0,
        halves as u16 != 0,
    ];
    let mut found = FIELDS.iter().zip(differ).filter(|(_, so)| *so);
    match (found.next(), found.next()) {
        (Some((field, _)), None) => Some(field),
        _ => None,
    }
}

/// Six keys, of which a history has some.
pub type Six = [Key; 6];

const fn four(table_id: u8, extension: u16, service_id: u16, time_span_start: u32) -> Key {
    Key {
        table_id,
        extension,
        service_id,
        time_span_start,
    }
}

/// A start whose halves differ, and the same with another in each half, with both exchanged, and the ends.
pub const START: u32 = 1_000_000_800;
pub const STARTS: [u32; 6] = [
    START,
    START ^ 0x0001_0000,
    START ^ 1,
    START << 16 | START >> 16,
    0,
    u32::MAX,
];

/// The keys of histories, by name: tables that share a table id or an extension; NRT-ITs of one extension and several services;
/// NRT-ITs of one service and several starts; tables of other ids whose bodies stand for those fields, of which three are one
/// table; and all of them.
pub const SETS: [(&str, Six); 5] = [
    (
        "other ids",
        [
            four(201, 4_660, 0, 0),
            four(201, 52, 0, 0),
            four(7, 4_660, 0, 0),
            four(7, 52, 0, 0),
            four(0, 0, 0, 0),
            four(255, 65_535, 0, 0),
        ],
    ),
    (
        "services",
        [
            four(NRT_IT, 4_097, 7, START),
            four(NRT_IT, 4_097, 8, START),
            four(NRT_IT, 4_097, 0x0700, START),
            four(NRT_IT, 4_096, 7, START),
            four(NRT_IT, 4_097, 0, START),
            four(NRT_IT, 4_097, 65_535, START),
        ],
    ),
    (
        "starts",
        [
            four(NRT_IT, 4_097, 7, STARTS[0]),
            four(NRT_IT, 4_097, 7, STARTS[1]),
            four(NRT_IT, 4_097, 7, STARTS[2]),
            four(NRT_IT, 4_097, 7, STARTS[3]),
            four(NRT_IT, 4_097, 7, STARTS[4]),
            four(NRT_IT, 4_097, 7, STARTS[5]),
        ],
    ),
    (
        "bodies",
        [
            four(201, 4_660, 7, START),
            four(201, 4_660, 8, START),
            four(0xDE, 4_660, 7, START),
            four(0xE0, 4_660, 7, START),
            four(201, 4_660, 7, STARTS[1]),
            four(0xE0, 4_660, 7, STARTS[2]),
        ],
    ),
    (
        "mixed",
        [
            four(NRT_IT, 4_660, 7, START),
            four(201, 4_660, 7, START),
            four(NRT_IT, 4_660, 8, START),
            four(NRT_IT, 4_660, 7, STARTS[1]),
            four(201, 4_660, 8, START),
            four(NRT_IT, 52, 7, START),
        ],
    ),
];
