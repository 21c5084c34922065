//! Payloads that are sections, or nearly.

use crate::keys::{self, Key, NRT_IT, NRT_IT_KEY_END};
use crate::random::Random;

/// The longest payload that is tried; the longest section is 1,024 bytes.
pub const LONGEST: usize = 1_100;

/// What a section says that is not set by its size. Of another table than an NRT-IT the added numbers of the key are the first
/// bytes of the body, which mean nothing.
#[derive(Clone, Copy)]
pub struct Fields {
    pub key: Key,
    pub version: u8,
    pub number: u8,
    pub last: u8,
}

impl Fields {
    /// Fields that are all in range.
    pub fn random(random: &mut Random) -> Fields {
        let last = random.below(16) as u8;
        Fields {
            key: keys::random(random),
            version: random.below(32) as u8,
            number: random.below(usize::from(last) + 1) as u8,
            last,
        }
    }

    pub fn is_nrt_it(&self) -> bool {
        self.key.table_id == NRT_IT
    }

    /// The fewest bytes of a sound section of this table.
    pub fn least(&self) -> usize {
        if self.is_nrt_it() {
            NRT_IT_KEY_END
        } else {
            8
        }
    }
}

/// Writes the header of a section of `payload.len()` bytes over its first eight, as far as they are there. The
/// reserved bits are taken from `reserved`. A size that the length field cannot say loses its high bits. Behind the header follow
/// the added numbers of the key, as far as there is room; of another table than an NRT-IT where they are not 0.
pub fn put_header(payload: &mut [u8], fields: Fields, reserved: u8) {
    put_rest(payload, fields.key);
    let length = payload.len().wrapping_sub(3) as u16 & 0x0FFF;
    let header = [
        fields.key.table_id,
        0x40 | reserved & 0x30 | (length >> 8) as u8,
        length as u8,
        (fields.key.extension >> 8) as u8,
        fields.key.extension as u8,
        reserved & 0xC0 | fields.version << 1 | 1,
        fields.number,
        fields.last,
    ];
    let there = payload.len().min(8);
    payload[..there].copy_from_slice(&header[..there]);
}

/// The added numbers of a key as they stand behind the header.
pub fn rest(key: Key) -> [u8; 6] {
    let ([a, b], [c, d, e, f]) = (
        key.service_id.to_be_bytes(),
        key.time_span_start.to_be_bytes(),
    );
    [a, b, c, d, e, f]
}

fn put_rest(payload: &mut [u8], key: Key) {
    let added = rest(key);
    if key.table_id == NRT_IT || added != [0; 6] {
        let there = payload.iter_mut().skip(8).zip(added);
        there.for_each(|(byte, value)| *byte = value);
    }
}

/// A section of `size` bytes with a random body and random reserved bits: sound if `size` is 8 to 1,024, of an NRT-IT 14 to 1,024.
pub fn section(random: &mut Random, size: usize, fields: Fields) -> Vec<u8> {
    let mut payload = random.bytes(size);
    put_header(&mut payload, fields, random.byte());
    payload
}

/// What is done to a section before it is offered to both readers.
pub const KINDS: [&str; 8] = [
    "noise",
    "sound",
    "a field broken",
    "a header bit flipped",
    "a bit flipped",
    "clipped at 512",
    "clipped by one",
    "one byte more",
];

/// A payload of the kind from a section of `size` bytes of any table.
pub fn payload(random: &mut Random, kind: &str, size: usize) -> Vec<u8> {
    let fields = Fields::random(random);
    payload_of(random, kind, size, fields)
}

/// A payload of the kind from a section of `size` bytes.
pub fn payload_of(random: &mut Random, kind: &str, size: usize, fields: Fields) -> Vec<u8> {
    let mut payload = section(random, size, fields);
    match kind {
        "noise" => payload = random.bytes(size),
        "sound" => {}
        "a field broken" => break_field(random, &mut payload),
        "a header bit flipped" => flip(random, &mut payload, 64),
        "a bit flipped" => flip(random, &mut payload, usize::MAX),
        "clipped at 512" => payload.truncate(512),
        "clipped by one" => payload.truncate(size.saturating_sub(1)),
        "one byte more" => payload.push(random.byte()),
        _ => panic!("no such kind: {kind}"),
    }
    payload.shrink_to_fit();
    payload
}

/// Gives one of the fields that can be refused another value, near the edge of its range or far from it.
pub fn break_field(random: &mut Random, payload: &mut [u8]) {
    if payload.len() < 8 {
        return;
    }
    let any = random.byte();
    match random.below(6) {
        0 => payload[1] = payload[1] & 0x3F | random.pick(&[0x00, 0x80, 0xC0]),
        1 => set_length(payload, random.pick(&[0, 4, 5, 1_021, 1_022, 4_095])),
        2 => set_length(payload, random.below(4_096) as u16),
        3 => payload[6] = random.pick(&[payload[7].wrapping_add(1), 15, 16, any]),
        4 => payload[7] = random.pick(&[payload[6].wrapping_sub(1), 15, 16, any]),
        _ => payload[5] &= 0xFE,
    }
}

fn set_length(payload: &mut [u8], length: u16) {
    payload[1] = payload[1] & 0xF0 | (length >> 8) as u8;
    payload[2] = length as u8;
}

/// Flips one bit among the first `bits`.
pub fn flip(random: &mut Random, payload: &mut [u8], bits: usize) {
    let bits = bits.min(payload.len() * 8);
    if bits > 0 {
        let bit = random.below(bits);
        payload[bit / 8] ^= 0x80 >> (bit % 8);
    }
}
