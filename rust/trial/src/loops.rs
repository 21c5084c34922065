//! Descriptor loops, or nearly.

use crate::random::Random;

/// The tag, the length and the bytes that mark a trigger Tap.
pub const MARK: [u8; 26] = *b"\x72\x18application/atsc-trigger";

/// What is done to a loop before it is walked by both.
pub const KINDS: [&str; 7] = [
    "noise",
    "sound",
    "cut",
    "a length off by one",
    "with the mark",
    "the mark changed",
    "the mark in any case",
];

/// The mark in these letters.
pub fn spelled(letters: &[u8; 24]) -> [u8; 26] {
    let mut mark = MARK;
    mark[2..].copy_from_slice(letters);
    mark
}

/// The mark with each letter small or capital, as it falls.
pub fn mark_in_any_case(random: &mut Random) -> [u8; 26] {
    let mut mark = MARK;
    for byte in &mut mark[2..] {
        if random.once_in(2) {
            byte.make_ascii_uppercase();
        }
    }
    mark
}

fn descriptor(random: &mut Random, bytes: &mut Vec<u8>) {
    let length = match random.below(8) {
        0 => 0,
        1 => 24,
        2 => random.below(256),
        _ => random.below(12),
    };
    bytes.push(if random.once_in(4) {
        MARK[0]
    } else {
        random.byte()
    });
    bytes.push(length as u8);
    bytes.extend(random.bytes(length));
}

/// A loop of up to `most` descriptors.
pub fn sound(random: &mut Random, most: usize) -> Vec<u8> {
    let mut bytes = Vec::new();
    for _ in 0..random.below(most + 1) {
        descriptor(random, &mut bytes);
    }
    bytes.shrink_to_fit();
    bytes
}

/// The places of the descriptors of a sound loop.
pub fn places(bytes: &[u8]) -> Vec<usize> {
    let mut found = Vec::new();
    let mut at = 0;
    while at < bytes.len() {
        found.push(at);
        at += 2 + usize::from(bytes[at + 1]);
    }
    found
}

/// A loop of the kind.
pub fn make(random: &mut Random, kind: &str) -> Vec<u8> {
    let most = random.pick(&[1, 3, 6, 20]);
    let mut bytes = sound(random, most);
    match kind {
        "noise" => {
            let size = random.below(40);
            bytes = random.bytes(size);
            bytes.iter_mut().for_each(|b| *b %= 8);
        }
        "sound" => {}
        "cut" => bytes.truncate(random.below(bytes.len() + 1)),
        "a length off by one" => {
            let places = places(&bytes);
            if !places.is_empty() {
                let at = random.pick(&places) + 1;
                bytes[at] = bytes[at].wrapping_add(random.pick(&[1, 255]));
            }
        }
        _ => {
            let mut places = places(&bytes);
            places.push(bytes.len());
            let at = random.pick(&places);
            let mut mark = match kind {
                "with the mark" => MARK,
                _ => mark_in_any_case(random),
            };
            if kind == "the mark changed" {
                mark[random.below(26)] ^= random.pick(&[0x20, 0x01, 0x40, 0x80]);
            }
            let rest = bytes.split_off(at);
            bytes.extend(mark);
            bytes.extend(rest);
        }
    }
    bytes.shrink_to_fit();
    bytes
}
