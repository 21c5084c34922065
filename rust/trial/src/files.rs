//! Files that are tables, or nearly.

use crate::keys::{NRT_IT, NRT_IT_KEY_END};
use crate::programmes::mend;
use crate::random::Random;
use crate::sections::{self, Fields};
use opinion::file::write_number;

/// A file in its parts, each number as it is spelled.
#[derive(Clone)]
pub struct Parts {
    pub form: Vec<u8>,
    pub count: Vec<u8>,
    pub sections: Vec<(Vec<u8>, Vec<u8>)>,
}

impl Parts {
    /// A sound file of these sections.
    pub fn of(sections: Vec<Vec<u8>>) -> Parts {
        let with_length = |bytes: Vec<u8>| (write_number(bytes.len() as u16), bytes);
        Parts {
            form: vec![1],
            count: write_number(sections.len() as u16),
            sections: sections.into_iter().map(with_length).collect(),
        }
    }

    /// A sound file of a table with these fields. Bodies are mostly small, as the size of one changes little.
    pub fn random(random: &mut Random, table: Fields) -> Parts {
        let all = random.once_in(6);
        let least = table.least();
        let mut sections = Vec::new();
        for number in 0..=table.last {
            if all || random.once_in(2) || number == table.number {
                let size = match random.below(60) {
                    0 => random.pick(&[127, 128, 129, 1_023, 1_024]),
                    1 => least + random.below(1_025 - least),
                    2..=20 => least,
                    _ => least + random.below(12),
                };
                let fields = Fields { number, ..table };
                sections.push(sections::section(random, size, fields));
            }
        }
        Parts::of(sections)
    }

    pub fn bytes(&self) -> Vec<u8> {
        let mut bytes = [&self.form[..], &self.count[..]].concat();
        for (length, section) in &self.sections {
            bytes.extend(length);
            bytes.extend(section);
        }
        bytes.shrink_to_fit();
        bytes
    }
}

/// What is done to a file before both read it.
pub const KINDS: [&str; 20] = [
    "noise",
    "sound",
    "a byte changed",
    "a bit flipped",
    "cut",
    "bytes added",
    "two swapped",
    "a long spelling",
    "another form",
    "another count",
    "another length",
    "a section broken",
    "another table's",
    "two alike",
    "another table id",
    "another extension",
    "another service",
    "another start, high",
    "another start, low",
    "too short for a key",
];

/// A file of the kind from a sound one.
pub fn damaged(random: &mut Random, kind: &str, mut parts: Parts) -> Vec<u8> {
    let many = parts.sections.len();
    let one = random.below(many);
    let other = random.below(many);
    match kind {
        "two swapped" => parts.sections.swap(one, other),
        "a long spelling" => {
            let number = match random.below(many + 2) {
                0 => &mut parts.form,
                1 => &mut parts.count,
                i => &mut parts.sections[i - 2].0,
            };
            spell(random, number);
        }
        "another form" => {
            parts.form = write_number(random.pick(&[0, 2, 127, 128, 129, 16_385, 65_535]));
        }
        "another count" => {
            let near = [many as u16 - 1, many as u16 + 1];
            let count = random.pick(&[0, 1, 16, 17, near[0], near[1], 129, 65_535]);
            parts.count = write_number(count);
        }
        "another length" => {
            let size = parts.sections[one].1.len() as u16;
            let length = random.pick(&[0, 7, 8, 1_024, 1_025, size - 1, size + 1, 65_535]);
            parts.sections[one].0 = write_number(length);
            // Bytes that are there to be taken for the section's, or not.
            if random.once_in(2) {
                parts.sections[one]
                    .1
                    .resize(usize::from(length.min(1_025)), 0);
            }
        }
        "a section broken" => sections::break_field(random, &mut parts.sections[one].1),
        "another table's" => {
            // The key, the reserved bits and the version, or the last number.
            let at = random.pick(&[0, 3, 4, 5, 7]);
            let bytes = &mut parts.sections[one].1;
            bytes[at] ^= 1 << random.below(8);
        }
        // One field of one section's key, or of another table the bytes that stand there.
        "another table id" => {
            let bytes = &mut parts.sections[one].1;
            bytes[0] = match bytes[0] {
                NRT_IT => NRT_IT ^ 1 << random.below(8),
                _ => NRT_IT,
            };
        }
        "another extension" => change(random, &mut parts, one, 3),
        "another service" => change(random, &mut parts, one, 8),
        "another start, high" => change(random, &mut parts, one, 10),
        "another start, low" => change(random, &mut parts, one, 12),
        "too short for a key" => {
            let mut bytes = parts.sections[one].1.clone();
            bytes.truncate(8 + random.below(NRT_IT_KEY_END - 8));
            mend(&mut bytes);
            parts.sections[one] = (write_number(bytes.len() as u16), bytes);
            // Another fault of it, or one before or behind it.
            if random.once_in(3) {
                let at = random.pick(&[0, 3, 4, 5, 6, 7]);
                parts.sections[other].1[at] ^= 1 << random.below(8);
            }
        }
        "two alike" => {
            let again = parts.sections[one].clone();
            parts.sections.insert(one, again);
            parts.count = write_number(many as u16 + 1);
        }
        _ => {}
    }
    let mut bytes = parts.bytes();
    match kind {
        "noise" => {
            bytes.truncate(1 + random.below(40));
            let from = random.below(3).min(bytes.len());
            let noise = random.bytes(bytes.len() - from);
            bytes[from..].copy_from_slice(&noise);
        }
        "a byte changed" => {
            let at = random.below(bytes.len());
            bytes[at] = random.byte();
        }
        "a bit flipped" => sections::flip(random, &mut bytes, usize::MAX),
        "cut" => bytes.truncate(random.below(bytes.len())),
        "bytes added" => {
            let more = 1 + random.below(12);
            bytes.extend(random.bytes(more));
        }
        _ => {}
    }
    bytes.shrink_to_fit();
    bytes
}

/// Changes a bit of the two bytes from a place of one section, where they are there.
fn change(random: &mut Random, parts: &mut Parts, one: usize, place: usize) {
    let bit = random.below(16);
    if let Some(byte) = parts.sections[one].1.get_mut(place + bit / 8) {
        *byte ^= 1 << (bit % 8);
    }
}

/// Spells a number in more bytes than it needs, or one that is too great.
fn spell(random: &mut Random, number: &mut Vec<u8>) {
    let end = number.len() - 1;
    number[end] |= 0x80;
    let more = random.pick(&[
        &[0][..],
        &[0x80, 0],
        &[0x80, 0x80, 0],
        &[4],
        &[0x80, 4],
        &[0xFF, 3],
        &[],
    ]);
    number.extend(more);
}
