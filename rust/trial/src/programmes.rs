//! Programme lists, or nearly.

use crate::files::{self, Parts};
use crate::keys::{self, Key, NRT_IT};
use crate::loops;
use crate::random::Random;
use crate::sections::{self, put_header, Fields};

/// The table id of a programme list, the place of its first item, and the most bytes of a section.
pub const TABLE: u8 = NRT_IT;
pub const FIRST: usize = 17;
pub const MOST: usize = 1_024;

/// The flags that tell of a field, and how many bytes it is, in the order in which they stand.
const INCLUDED: [(u16, usize); 4] = [(0x20, 3), (0x10, 3), (0x08, 4), (0x04, 5)];

/// A payload, with the places in it that can be wrong: of each count, with the bytes that it counts, and of each length.
#[derive(Clone)]
pub struct Made {
    pub payload: Vec<u8>,
    /// The place of each number of descriptors, and the size of that loop.
    pub counts: Vec<(usize, usize)>,
    /// The place of each name's length.
    pub names: Vec<usize>,
    /// The place of the first flag byte of each item.
    pub flags: Vec<usize>,
    /// The place of the table's own loop.
    pub own: usize,
}

/// Items of one kind: how many at most, which optional fields, how long a name and how many descriptors.
#[derive(Clone, Copy, Debug)]
pub struct Shape {
    pub items: usize,
    /// The flags that an item has; the others are as they fall where `any` is set.
    pub flags: u16,
    pub any: bool,
    pub name: usize,
    pub descriptors: usize,
}

/// The smallest item: no field and no descriptor, an empty name.
pub const SMALLEST: Shape = Shape {
    items: 255,
    flags: 0,
    any: false,
    name: 0,
    descriptors: 0,
};

impl Shape {
    fn random(random: &mut Random) -> Shape {
        Shape {
            items: random.pick(&[0, 1, 1, 2, 3, 8, 255]),
            flags: 0,
            any: !random.once_in(8),
            name: random.pick(&[0, 1, 5, 20, 255]),
            descriptors: random.pick(&[0, 1, 2, 5, 40]),
        }
    }
}

/// Descriptors, so many, and their number before them.
fn put_loop(random: &mut Random, bytes: &mut Vec<u8>, count: usize) -> (usize, usize) {
    let at = bytes.len();
    bytes.push(count as u8);
    for _ in 0..count {
        // Most are short, so that many fit.
        let length = match random.below(12) {
            0 => random.below(256),
            1..=4 => random.below(12),
            _ => random.below(3),
        };
        bytes.extend([random.byte(), length as u8]);
        bytes.extend(random.bytes(length));
    }
    (at, bytes.len() - at - 1)
}

/// An item, behind what stands there.
fn put_item(random: &mut Random, made: &mut Made, shape: Shape) {
    let any = if shape.any { random.word() as u16 } else { 0 };
    // Ten flags, and six reserved bits as they fall.
    let flags = shape.flags | any & 0x03FF;
    let reserved = random.word() as u16 & 0x3F;
    let bytes = &mut made.payload;
    let linkage = random.pick(&[0, 1, u32::MAX]) ^ random.word() as u32;
    bytes.extend(linkage.to_be_bytes());
    made.flags.push(bytes.len());
    bytes.extend((flags << 6 | reserved).to_be_bytes());
    for (flag, size) in INCLUDED {
        if flags & flag != 0 {
            bytes.extend(random.bytes(size));
        }
    }
    made.names.push(bytes.len());
    let length = match random.below(4) {
        0 => shape.name,
        _ => random.below(shape.name + 1),
    };
    bytes.push(length as u8);
    bytes.extend(random.bytes(length));
    let count = random.below(shape.descriptors + 1);
    made.counts.push(put_loop(random, bytes, count));
}

/// The fields of a section of any list.
fn fields(random: &mut Random) -> Fields {
    Fields {
        key: Key {
            table_id: TABLE,
            ..keys::any(random)
        },
        ..Fields::random(random)
    }
}

/// A sound list of items of a shape, as many as fit, up to so many bytes before its own loop.
pub fn of_shape(random: &mut Random, shape: Shape, room: usize) -> Made {
    let fields = fields(random);
    let mut made = Made {
        payload: random.bytes(FIRST),
        counts: Vec::new(),
        names: Vec::new(),
        flags: Vec::new(),
        own: FIRST,
    };
    let wanted = match random.below(2) {
        0 => shape.items,
        _ => random.below(shape.items + 1),
    };
    let mut items = 0;
    while items < wanted {
        let before = made.clone();
        put_item(random, &mut made, shape);
        if made.payload.len() > room {
            made = before;
            break;
        }
        items += 1;
    }
    made.payload[FIRST - 1] = items as u8;
    made.own = made.payload.len();
    let most = random.pick(&[0, 1, 3, 255]).min((MOST - made.own - 1) / 2);
    let mut own = Vec::new();
    let count = random.below(most + 1);
    put_loop(random, &mut own, count);
    if made.own + own.len() > MOST {
        own = vec![0];
    }
    made.counts.push((made.own, own.len() - 1));
    made.payload.extend(own);
    put_header(&mut made.payload, fields, random.byte());
    made.payload.shrink_to_fit();
    made
}

/// A sound list.
pub fn sound(random: &mut Random) -> Made {
    let shape = Shape::random(random);
    let room = random.pick(&[40, 100, 300, MOST - 1]);
    of_shape(random, shape, room)
}

/// Descriptors of so many bytes, which are not 1: as few as will do.
fn filling(random: &mut Random, mut room: usize) -> (u8, Vec<u8>) {
    let (mut count, mut bytes) = (0, Vec::new());
    while room > 0 {
        let mut size = room.min(257);
        if room - size == 1 {
            size -= 1;
        }
        bytes.extend([random.byte(), (size - 2) as u8]);
        bytes.extend(random.bytes(size - 2));
        count += 1;
        room -= size;
    }
    (count, bytes)
}

/// A sound list of items of a shape and of exactly 1,024 bytes, which its own loop fills up.
pub fn full(random: &mut Random, shape: Shape) -> Made {
    loop {
        let mut made = of_shape(random, shape, MOST - 1);
        let room = MOST - 1 - made.own;
        if room == 1 {
            continue;
        }
        made.payload.truncate(made.own);
        let (count, bytes) = filling(random, room);
        made.payload.push(count);
        made.payload.extend(bytes);
        made.counts.pop();
        made.counts.push((made.own, room));
        mend(&mut made.payload);
        return made;
    }
}

/// Puts a payload's size in its length field, where it is there.
pub fn mend(payload: &mut [u8]) {
    if payload.len() >= 3 {
        let length = (payload.len() - 3) as u16;
        payload[1] = payload[1] & 0xF0 | (length >> 8) as u8 & 0x0F;
        payload[2] = length as u8;
    }
}

/// The first bytes, so many, with the length that they are.
pub fn cut(payload: &[u8], size: usize) -> Vec<u8> {
    let mut payload = payload[..size].to_vec();
    mend(&mut payload);
    payload
}

/// What is done to a list before it is read by both.
pub const KINDS: [&str; 15] = [
    "noise",
    "a body of noise",
    "sound",
    "of 1,024 bytes",
    "cut",
    "cut, and not mended",
    "bytes left over",
    "one item more or fewer",
    "a count off by one",
    "a count of bytes",
    "a length off by one",
    "other flags",
    "another table",
    "a header field broken",
    "a bit flipped",
];

/// A payload of the kind.
pub fn payload(random: &mut Random, kind: &str) -> Vec<u8> {
    let mut made = sound(random);
    let payload = &mut made.payload;
    let size = payload.len();
    let off = random.pick(&[1, 255]);
    match kind {
        "noise" => {
            let size = random.below(60);
            return random.bytes(size);
        }
        "a body of noise" => {
            // Small numbers, so that names, counts and lengths often end inside.
            let size = 8 + random.below(120);
            let fields = fields(random);
            *payload = random.bytes(size);
            payload.iter_mut().for_each(|b| *b %= 8);
            put_header(payload, fields, random.byte());
        }
        "of 1,024 bytes" => {
            let shape = Shape::random(random);
            return full(random, shape).payload;
        }
        "cut" => return cut(payload, 8 + random.below(size - 7)),
        "cut, and not mended" => payload.truncate(random.below(size + 1)),
        "bytes left over" => {
            let most = (MOST - size).clamp(1, 20);
            let more = 1 + random.below(most);
            payload.extend(random.bytes(more));
            mend(payload);
        }
        "one item more or fewer" => {
            payload[FIRST - 1] = payload[FIRST - 1].wrapping_add(off);
        }
        "a count off by one" => {
            let (at, _) = random.pick(&made.counts);
            payload[at] = payload[at].wrapping_add(off);
        }
        "a count of bytes" => {
            let (at, bytes) = random.pick(&made.counts);
            payload[at] = bytes as u8;
        }
        "a length off by one" => {
            // Of a name, or of a descriptor of a loop.
            let (at, bytes) = random.pick(&made.counts);
            let places = loops::places(&payload[at + 1..at + 1 + bytes]);
            let mut lengths: Vec<_> = places.iter().map(|place| at + 2 + place).collect();
            lengths.extend(&made.names);
            if !lengths.is_empty() {
                let at = random.pick(&lengths);
                payload[at] = payload[at].wrapping_add(off);
            }
        }
        "other flags" => {
            if !made.flags.is_empty() {
                payload[random.pick(&made.flags)] ^= 1 << random.below(8);
            }
        }
        "another table" => {
            let any = random.byte();
            payload[0] = random.pick(&[0xDE, 0xE0, 0xDD, 0x5F, 0, 255, any]);
        }
        "a header field broken" => sections::break_field(random, payload),
        "a bit flipped" => sections::flip(random, payload, usize::MAX),
        _ => {}
    }
    made.payload.shrink_to_fit();
    made.payload
}

/// The places at which a step is asked of a payload: every one in it, those behind its end, and those that no payload has.
pub fn places(size: usize) -> impl Iterator<Item = usize> {
    let far = [1 << 16, 1 << 31, 1 << 32, 1 << 40, usize::MAX / 2];
    let last = (0..=20).map(|less| usize::MAX - less);
    (0..=size + 20).chain(far).chain(last)
}

/// The kinds of a list whose section is sound, so that a file can hold it.
const IN_A_FILE: [&str; 9] = [
    "sound",
    "sound",
    "a body of noise",
    "cut",
    "one item more or fewer",
    "a count off by one",
    "a count of bytes",
    "a length off by one",
    "other flags",
];

/// A shelf file of a programme list, or of another table, of the kind that [`files::damaged`] makes. Its lists are whole, or not.
pub fn file(random: &mut Random, kind: &str) -> Vec<u8> {
    let mut table = match random.below(10) {
        0 => Fields::random(random),
        _ => fields(random),
    };
    table.last = random.pick(&[0, 0, 1, 2, table.last]);
    table.number = random.below(usize::from(table.last) + 1) as u8;
    let (all, sound) = (random.once_in(2), random.once_in(2));
    let mut sections = Vec::new();
    for number in 0..=table.last {
        if all || random.once_in(2) || number == table.number {
            let list = if sound {
                "sound"
            } else {
                random.pick(&IN_A_FILE)
            };
            let mut payload = payload(random, list);
            // Bytes left over, where there is room for them.
            if !sound && random.once_in(8) && payload.len() + 3 < MOST {
                let more = 1 + random.below(3);
                payload.extend(random.bytes(more));
            }
            put_header(&mut payload, Fields { number, ..table }, random.byte());
            sections.push(payload);
        }
    }
    files::damaged(random, kind, Parts::of(sections))
}

/// A shelf file of sixteen sound lists of items of a shape, each of exactly 1,024 bytes: as large as a file can be.
pub fn full_file(random: &mut Random, shape: Shape) -> Vec<u8> {
    let mut table = fields(random);
    table.last = 15;
    let sections = (0..=table.last).map(|number| {
        let mut payload = full(random, shape).payload;
        put_header(&mut payload, Fields { number, ..table }, random.byte());
        payload
    });
    Parts::of(sections.collect()).bytes()
}
