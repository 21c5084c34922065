//! Triggers, or nearly.

use crate::random::Random;

/// The most bytes of a trigger.
pub const MOST: usize = 4_096;

/// The fields of a trigger. The length fields say what the bytes are, plus what is added to them here.
#[derive(Clone)]
pub struct Parts {
    pub event: u8,
    /// The description and the id, or none: an id length of 0.
    pub id: Option<(u16, Vec<u8>)>,
    pub kind: u8,
    pub target: Vec<u8>,
    pub user: Vec<u8>,
    /// Added to the lengths of id, target and user data.
    pub off: [u16; 3],
}

impl Parts {
    pub fn bytes(&self) -> Vec<u8> {
        let mut bytes = vec![self.event];
        let id = match &self.id {
            None => 0,
            Some((_, id)) => id.len() as u16 + 2,
        };
        bytes.extend(id.wrapping_add(self.off[0]).to_be_bytes());
        if let Some((description, id)) = &self.id {
            bytes.extend(description.to_be_bytes());
            bytes.extend(id);
        }
        bytes.push(self.kind);
        bytes.extend(
            (self.target.len() as u16)
                .wrapping_add(self.off[1])
                .to_be_bytes(),
        );
        bytes.extend(&self.target);
        bytes.extend(
            (self.user.len() as u16)
                .wrapping_add(self.off[2])
                .to_be_bytes(),
        );
        bytes.extend(&self.user);
        bytes.shrink_to_fit();
        bytes
    }
}

/// Bytes of a URI.
pub fn ascii(random: &mut Random, length: usize) -> Vec<u8> {
    let mut bytes = random.bytes(length);
    bytes.iter_mut().for_each(|b| *b &= 0x7F);
    bytes
}

/// A sound trigger whose lists are short.
pub fn sound(random: &mut Random) -> Parts {
    let kind = random.pick(&[0, 1, 1, 2, 2, 3, 4, 5, 6, 7, 255]);
    let length = random.below(12);
    let target = match kind {
        _ if random.once_in(6) => Vec::new(),
        0 => Vec::new(),
        1 => random.bytes(6),
        2 => random.bytes(2),
        3..=5 => ascii(random, length),
        _ => random.bytes(length),
    };
    let (id, user) = (random.below(8), random.below(8));
    Parts {
        event: 0,
        id: match random.below(4) {
            0 => None,
            _ => Some((random.word() as u16, random.bytes(id))),
        },
        kind,
        target,
        user: random.bytes(user),
        off: [0; 3],
    }
}

/// What is done to a trigger before it is read by both.
pub const KINDS: [&str; 11] = [
    "noise",
    "sound",
    "a length off by one",
    "any length",
    "another event",
    "any type",
    "any target length",
    "a URI byte",
    "one byte more",
    "long",
    "a bit flipped",
];

/// A payload of the kind.
pub fn payload(random: &mut Random, kind: &str) -> Vec<u8> {
    let mut parts = sound(random);
    match kind {
        "noise" => {
            let size = random.below(24);
            let mut bytes = random.bytes(size);
            bytes
                .iter_mut()
                .for_each(|b| *b = [0, 0, 0, 1, 2, 3, 6, 128][usize::from(*b % 8)]);
            return bytes;
        }
        "a length off by one" => {
            let field = random.below(3);
            parts.off[field] = random.pick(&[1, 0xFFFF]);
        }
        "any length" => {
            let field = random.below(3);
            let any = random.word() as u16;
            parts.off[field] = random.pick(&[2, 256, 0x8000, any]);
        }
        "another event" => parts.event = random.byte(),
        "any type" => parts.kind = random.byte() % 9,
        "any target length" => {
            let length = random.below(9);
            parts.target = ascii(random, length);
        }
        "a URI byte" => {
            let length = 1 + random.below(40);
            parts.kind = 3 + random.below(4) as u8;
            parts.target = ascii(random, length);
            let any = random.below(length);
            let at = random.pick(&[0, length - 1, any]);
            parts.target[at] = random.pick(&[127, 128, 255]);
        }
        "one byte more" => {
            let mut bytes = parts.bytes();
            bytes.push(random.byte());
            return bytes;
        }
        "long" => long(random, &mut parts),
        "a bit flipped" => {
            let mut bytes = parts.bytes();
            let bit = random.below(bytes.len() * 8);
            bytes[bit / 8] ^= 0x80 >> (bit % 8);
            return bytes;
        }
        _ => {}
    }
    parts.bytes()
}

/// Makes the whole 4,095, 4,096 or 4,097 bytes, by its id, its target or its user data.
fn long(random: &mut Random, parts: &mut Parts) {
    let whole = random.pick(&[MOST - 1, MOST, MOST + 1]);
    match random.below(3) {
        0 => parts.id = Some((random.word() as u16, Vec::new())),
        1 => {
            parts.kind = random.pick(&[3, 4, 5, 6]);
            parts.target = Vec::new();
        }
        _ => parts.user = Vec::new(),
    }
    let room = whole - parts.bytes().len();
    if let Some((_, id)) = parts.id.as_mut().filter(|(_, id)| id.is_empty()) {
        *id = random.bytes(room);
    } else if parts.target.is_empty() && parts.kind > 2 {
        parts.target = ascii(random, room);
        if random.once_in(4) {
            parts.target[room - 1] = 128;
        }
    } else {
        let old = parts.user.len();
        parts.user = random.bytes(room + old);
    }
}
