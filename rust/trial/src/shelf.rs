//! Shelf records as they are lent, and random calls on them.

use crate::files::{self, Parts};
use crate::keys::{self, Key, NRT_IT};
use crate::random::Random;
use crate::sections::{self, Fields};
use khumsafil::shelf::{Key as OurKey, LARGEST_SECTION, RECORD};
use opinion::shelf::{Place, Record, PLACES, SECTIONS};

/// Where the heads begin, of four numbers each, where the masks do, and where the rests of the keys do, of three numbers each.
/// Before them are the lengths, sixteen for each place.
const HEADS: usize = 64;
const MASKS: usize = 80;
pub const RESTS: usize = 84;

/// Where the head of a place begins, the rest of its key, and its lengths.
fn head(p: usize) -> usize {
    HEADS + 4 * p
}

pub fn rest(p: usize) -> std::ops::Range<usize> {
    RESTS + 3 * p..RESTS + 3 * p + 3
}

fn lengths(p: usize) -> usize {
    SECTIONS * p
}

fn taken(numbers: &[u16; RECORD], p: usize) -> bool {
    numbers[head(p)] >> 8 == 1
}

/// Whether the place is taken by an NRT-IT, of which alone the rest of the key means something.
fn nrt_it(numbers: &[u16; RECORD], p: usize) -> bool {
    taken(numbers, p) && numbers[head(p)] as u8 == NRT_IT
}

/// The rest of a key in the three numbers of a record.
pub fn rest_of(key: Key) -> [u16; 3] {
    let start = key.time_span_start;
    [key.service_id, (start >> 16) as u16, start as u16]
}

/// A number of 16 bits as one of 8, which cannot show more than 255.
fn capped(n: u16) -> u8 {
    u8::try_from(n).unwrap_or(255)
}

/// The record that numbers are. A held length of 0 is shown as 1, since 0 shows that a section is not held; both are spoiled.
pub fn decode(numbers: &[u16; RECORD]) -> Record {
    let place = |p: usize| {
        let of = &numbers[head(p)..head(p) + 4];
        let [service_id, high, low] = numbers[rest(p)].try_into().expect("three numbers");
        let held = |n: usize| numbers[MASKS + p] >> n & 1 == 1;
        let length = |n: usize| {
            if held(n) {
                numbers[lengths(p) + n].max(1)
            } else {
                0
            }
        };
        Place {
            taken: taken(numbers, p),
            key: Key {
                table_id: of[0] as u8,
                extension: of[1],
                service_id,
                time_span_start: u32::from(high) << 16 | u32::from(low),
            },
            version: capped(of[2]),
            last: capped(of[3]),
            lengths: std::array::from_fn(length),
        }
    };
    Record {
        places: std::array::from_fn(place),
    }
}

/// Whether [`decode`] shows a record as it shows no other: each number of a taken place stands there as it is.
pub fn shown(numbers: &[u16; RECORD]) -> bool {
    (0..PLACES).filter(|p| taken(numbers, *p)).all(|p| {
        let small = numbers[head(p) + 2..head(p) + 4].iter().all(|n| *n < 255);
        let held = |n: usize| numbers[MASKS + p] >> n & 1 == 1;
        small && (0..SECTIONS).all(|n| !held(n) || numbers[lengths(p) + n] > 1)
    })
}

/// Writes a place into a record as the library promises to: of a table its head, its mask and the lengths of what it holds;
/// of a free place a head that has its number and zeros, and a mask of 1.
fn write_place(numbers: &mut [u16; RECORD], p: usize, place: &Place) {
    let mut mask = 1;
    let mut of = [p as u16, 0, 0, 0];
    if place.taken {
        mask = 0;
        of = [
            256 + u16::from(place.key.table_id),
            place.key.extension,
            place.version.into(),
            place.last.into(),
        ];
        for (n, length) in place.lengths.iter().enumerate().filter(|(_, l)| **l > 0) {
            mask |= 1 << n;
            numbers[lengths(p) + n] = *length;
        }
    }
    numbers[head(p)..head(p) + 4].copy_from_slice(&of);
    numbers[MASKS + p] = mask;
}

/// The record that is promised after a call that did this to the places: nothing is written but what changed. The rest of the key
/// is written where a table begins, begins again or is loaded, and is 0 of every table but an NRT-IT.
pub fn promised(before: &[u16; RECORD], from: &Record, to: &Record) -> [u16; RECORD] {
    let mut numbers = *before;
    for p in (0..PLACES).filter(|p| from.places[*p] != to.places[*p]) {
        let (was, is) = (&from.places[p], &to.places[p]);
        write_place(&mut numbers, p, is);
        let added = was.taken && was.version == is.version;
        if is.taken && !added {
            numbers[rest(p)].copy_from_slice(&rest_of(is.key.proper()));
        }
    }
    numbers
}

/// The record that is promised of a fresh shelf, whatever stood there.
pub fn begun() -> [u16; RECORD] {
    let mut numbers = [0; RECORD];
    numbers[..HEADS].fill(8);
    let free = opinion::shelf::fresh();
    (0..PLACES).for_each(|p| write_place(&mut numbers, p, &free.places[p]));
    numbers
}

/// Writes anything where a record has no meaning: in the numbers of a free place, which stays free, in the lengths of
/// what is not held, and in the rest of the key of a table that is no NRT-IT. It is the same record then.
pub fn litter(random: &mut Random, numbers: &mut [u16; RECORD]) {
    for p in 0..PLACES {
        let free = !taken(numbers, p);
        if free {
            let any = random.word() as u16;
            let mark = random.pick(&[0, 2, 3, 128, 255]) << 8;
            numbers[head(p)] = any & 0xFF | mark;
            for at in (head(p) + 1..head(p) + 4).chain([MASKS + p]) {
                numbers[at] = random.word() as u16;
            }
        }
        if !nrt_it(numbers, p) {
            scatter(random, &mut numbers[rest(p)]);
        }
        for n in 0..SECTIONS {
            if free || numbers[MASKS + p] >> n & 1 == 0 {
                numbers[lengths(p) + n] = random.pick(&[0, 1, 8, 1_024, 65_535]);
            }
        }
    }
}

/// Any numbers, or those of a key that histories have.
fn scatter(random: &mut Random, rest: &mut [u16]) {
    match random.below(2) {
        0 => rest.iter_mut().for_each(|n| *n = random.word() as u16),
        _ => {
            let (_, six) = random.pick(&keys::SETS);
            rest.copy_from_slice(&rest_of(random.pick(&six)));
        }
    }
}

/// A call on a shelf. `room` is the size of the output that is lent.
#[derive(Clone, Debug)]
pub enum Call {
    Begin,
    Offer(Vec<u8>),
    Complete(OurKey),
    Missing(OurKey),
    Copy {
        key: OurKey,
        number: u8,
        room: usize,
    },
    Release(OurKey),
    Save {
        key: OurKey,
        room: usize,
    },
    Load(Vec<u8>),
}

impl Call {
    pub fn name(&self) -> &'static str {
        match self {
            Call::Begin => "begin",
            Call::Offer(_) => "offer",
            Call::Complete(_) => "complete",
            Call::Missing(_) => "lowest missing",
            Call::Copy { .. } => "copy",
            Call::Release(_) => "release",
            Call::Save { .. } => "save",
            Call::Load(_) => "load",
        }
    }
}

/// How a history is drawn: few keys, versions, numbers and bodies, so that repeats and conflicts are common.
pub struct Way {
    /// The name of its keys among [`keys::SETS`].
    pub of: &'static str,
    keys: Vec<Key>,
    versions: usize,
    last: u8,
    bodies: usize,
    sizes: [usize; 2],
    releases: usize,
    /// Whether the host writes on the store between calls.
    pub scribbles: bool,
}

impl Way {
    pub fn random(random: &mut Random) -> Way {
        let size = 8 + random.below(1_017);
        let (of, six) = random.pick(&keys::SETS);
        let some = random.pick(&[1, 2, 4, 5, 6]);
        Way {
            of,
            keys: six[..some].to_vec(),
            versions: random.pick(&[1, 1, 2, 3]),
            last: random.pick(&[0, 1, 2, 3, 15]),
            bodies: random.pick(&[1, 1, 2, 4]),
            sizes: random.pick(&[[8, 8], [8, 20], [9, 20], [8, 1_024], [8, size]]),
            releases: random.pick(&[8, 20, 60]),
            scribbles: random.once_in(4),
        }
    }

    fn key(&self, random: &mut Random) -> Key {
        random.pick(&self.keys)
    }

    /// A key to ask with: of the history, near one of its keys, or any. Of another table than an NRT-IT the added numbers are often
    /// others than those that stand in its sections.
    fn asked(&self, random: &mut Random) -> Key {
        let mut key = match random.below(30) {
            0 => keys::any(random),
            1..=5 => {
                let (field, key) = (random.pick(&keys::FIELDS), self.key(random));
                keys::another(random, field, key)
            }
            _ => self.key(random),
        };
        if key.table_id != NRT_IT && random.once_in(3) {
            key.service_id = random.word() as u16;
            key.time_span_start = random.word() as u32;
        }
        key
    }

    fn fields(&self, random: &mut Random) -> Fields {
        let key = self.key(random);
        let last = match random.below(30) {
            0 => random.below(16) as u8,
            _ => self.last,
        };
        let version = match random.below(40) {
            0 => 31,
            _ => random.below(self.versions) as u8,
        };
        Fields {
            key,
            version,
            number: random.below(usize::from(last) + 1) as u8,
            last,
        }
    }

    /// A section whose bytes are told by few choices.
    fn section(&self, random: &mut Random) -> Vec<u8> {
        let fields = self.fields(random);
        let body = random.below(self.bodies);
        let mut size = self.sizes[body % 2];
        // Few NRT-ITs are too short for their key.
        if fields.is_nrt_it() && !random.once_in(16) {
            size = (size + fields.least() - 8).min(LARGEST_SECTION);
        }
        let mut bytes = vec![body as u8; size];
        // Reserved bits have no meaning, and yet are bytes that a repeat has to have.
        let reserved = match random.below(30) {
            0 => random.byte(),
            _ => 0xFF,
        };
        sections::put_header(&mut bytes, fields, reserved);
        bytes
    }

    fn payload(&self, random: &mut Random) -> Vec<u8> {
        let mut bytes = self.section(random);
        match random.below(24) {
            0 => sections::break_field(random, &mut bytes),
            1 => sections::flip(random, &mut bytes, usize::MAX),
            2 => bytes.truncate(random.below(bytes.len())),
            3 => bytes.push(random.byte()),
            _ => {}
        }
        bytes.shrink_to_fit();
        bytes
    }

    fn file(&self, random: &mut Random, saved: &[Vec<u8>]) -> Vec<u8> {
        if !saved.is_empty() && random.once_in(2) {
            let mut bytes = saved[random.below(saved.len())].clone();
            match random.below(6) {
                0 => sections::flip(random, &mut bytes, usize::MAX),
                1 => bytes.truncate(random.below(bytes.len())),
                2 => bytes.push(random.byte()),
                _ => {}
            }
            bytes.shrink_to_fit();
            return bytes;
        }
        let fields = self.fields(random);
        let parts = Parts::random(random, fields);
        let kind = match random.below(2) {
            0 => "sound",
            _ => random.pick(&files::KINDS),
        };
        files::damaged(random, kind, parts)
    }

    /// The next call on a record, with the files that were saved before.
    pub fn call(&self, random: &mut Random, record: &Record, saved: &[Vec<u8>]) -> Call {
        let asked = self.asked(random);
        let key = keys::for_us(asked);
        if random.once_in(self.releases) {
            return Call::Release(key);
        }
        let mut places = record.places.iter();
        let held = places.find(|p| p.taken && p.key.proper() == asked.proper());
        let around = |random: &mut Random, size: usize| match random.below(6) {
            0 => size + 1 + random.below(9),
            1 => size.saturating_sub(1),
            2 => random.below(size + 1),
            _ => size,
        };
        match random.below(32) {
            0..=1 => Call::Complete(key),
            2..=3 => Call::Missing(key),
            4..=6 => {
                let number = match random.below(12) {
                    0 => random.pick(&[15, 16, 17, 128, 255]),
                    _ => random.below(usize::from(self.last) + 1) as u8,
                };
                let size = held.and_then(|p| p.lengths.get(usize::from(number)));
                let room = around(random, usize::from(*size.unwrap_or(&0)));
                Call::Copy { key, number, room }
            }
            7 => {
                let lengths = held.map_or([0; SECTIONS], |p| p.lengths);
                let size = |length: &u16| usize::from(*length) + 1 + usize::from(*length > 127);
                let size = 2 + lengths.iter().filter(|l| **l > 0).map(size).sum::<usize>();
                let room = around(random, size);
                Call::Save { key, room }
            }
            8..=9 => Call::Load(self.file(random, saved)),
            10 if random.once_in(8) => Call::Begin,
            _ => Call::Offer(self.payload(random)),
        }
    }
}

/// The ways in which a record is spoiled, and some in which it is not.
pub const SPOILS: [&str; 17] = [
    "another mark of taken",
    "a free place filled",
    "a length changed",
    "another key",
    "a version above 31",
    "a last above 15",
    "held above the last",
    "a length under 8",
    "a length over 1,024",
    "nothing held",
    "two of one key",
    "two NRT-ITs of one key",
    "two of another id's key",
    "two services",
    "two starts, high",
    "two starts, low",
    "any numbers",
];

/// The ways that 18 names, each of which spoils every record that has a taken place.
pub const NAMED: std::ops::Range<usize> = 4..13;

/// The ways in which two NRT-ITs are alike but for one field of their keys, which spoil no record.
pub const APART: std::ops::Range<usize> = 13..16;

/// Puts what a place has into another place too, with any version, which is no part of the key.
fn put_twice(random: &mut Random, numbers: &mut [u16; RECORD], p: usize) -> usize {
    let other = (p + 1 + random.below(PLACES - 1)) % PLACES;
    numbers.copy_within(lengths(p)..lengths(p + 1), lengths(other));
    numbers.copy_within(head(p)..head(p) + 4, head(other));
    numbers.copy_within(rest(p), rest(other).start);
    numbers[MASKS + other] = numbers[MASKS + p];
    numbers[head(other) + 2] = random.pick(&[0, 31]);
    other
}

/// Makes a taken place an NRT-IT's, or another table's, where it is not.
fn put_table_id(random: &mut Random, numbers: &mut [u16; RECORD], p: usize, as_nrt_it: bool) {
    let id = match as_nrt_it {
        true => NRT_IT,
        false => random.pick(&[0xDE, 201, 0, 255]),
    };
    if nrt_it(numbers, p) != as_nrt_it {
        numbers[head(p)] = 256 + u16::from(id);
    }
}

/// Spoils a record in a way. Of what the way needs, a taken place is put there first if there is none.
pub fn spoil(random: &mut Random, way: &str, record: &[u16; RECORD]) -> [u16; RECORD] {
    let mut numbers = *record;
    if !(0..PLACES).any(|p| taken(&numbers, p)) {
        let p = random.below(PLACES);
        numbers[head(p)..head(p) + 4].copy_from_slice(&[0x0100, 0, 0, 0]);
        numbers[MASKS + p] = 1;
        numbers[lengths(p)] = 8;
    }
    let places: Vec<_> = (0..PLACES).filter(|p| taken(&numbers, *p)).collect();
    let free: Vec<_> = (0..PLACES).filter(|p| !taken(&numbers, *p)).collect();
    let p = random.pick(&places);
    let number = random.below(usize::from(numbers[head(p) + 3]).min(15) + 1);
    let hold = |numbers: &mut [u16; RECORD], length: u16| {
        numbers[lengths(p) + number] = length;
        numbers[MASKS + p] |= 1 << number;
    };
    match way {
        "another mark of taken" => {
            numbers[head(p)] = numbers[head(p)] & 0xFF | random.pick(&[0, 2, 128, 255]) << 8;
        }
        "a free place filled" => {
            if !free.is_empty() {
                let p = random.pick(&free);
                for at in [
                    head(p)..head(p) + 4,
                    MASKS + p..MASKS + p + 1,
                    lengths(p)..lengths(p + 1),
                    rest(p),
                ] {
                    numbers[at]
                        .iter_mut()
                        .for_each(|n| *n = random.word() as u16);
                }
                if taken(&numbers, p) {
                    numbers[head(p)] &= 0xFF;
                }
            }
        }
        "a length changed" => hold(&mut numbers, random.pick(&[8, 9, 13, 14, 20, 1_023, 1_024])),
        // The table id, the extension, or one of the numbers that mean something of an NRT-IT alone.
        "another key" => {
            let rest = rest(p).start;
            let at = random.pick(&[head(p), head(p) + 1, rest, rest + 1, rest + 2]);
            let bits = if at == head(p) { 8 } else { 16 };
            numbers[at] ^= 1 << random.below(bits);
        }
        "a version above 31" => {
            numbers[head(p) + 2] = random.pick(&[32, 33, 64, 255, 256, 287, 65_535])
        }
        "a last above 15" => {
            numbers[head(p) + 3] = random.pick(&[16, 17, 128, 255, 256, 271, 65_535])
        }
        "held above the last" => {
            let last = random.below(15);
            numbers[head(p) + 3] = last as u16;
            numbers[MASKS + p] |= 1 << (last + 1 + random.below(15 - last));
        }
        "a length under 8" => hold(&mut numbers, random.pick(&[0, 1, 2, 7])),
        "a length over 1,024" => hold(&mut numbers, random.pick(&[1_025, 1_026, 32_768, 65_535])),
        "nothing held" => numbers[MASKS + p] = 0,
        "two of one key" => {
            put_twice(random, &mut numbers, p);
        }
        "two NRT-ITs of one key" => {
            put_table_id(random, &mut numbers, p, true);
            put_twice(random, &mut numbers, p);
        }
        "two of another id's key" => {
            put_table_id(random, &mut numbers, p, false);
            let other = put_twice(random, &mut numbers, p);
            // What stands there tells no two of them apart.
            scatter(random, &mut numbers[rest(p)]);
            scatter(random, &mut numbers[rest(other)]);
        }
        "two services" | "two starts, high" | "two starts, low" => {
            put_table_id(random, &mut numbers, p, true);
            let other = put_twice(random, &mut numbers, p);
            let at = SPOILS[APART].iter().position(|apart| *apart == way);
            let at = rest(other).start + at.expect("a number of a key");
            // Another key than that of each place.
            while same_key(&numbers, other) {
                numbers[at] = match random.below(2) {
                    0 => numbers[at] ^ 1 << random.below(16),
                    _ => random.word() as u16,
                };
            }
            // Nor may the place itself have become one key with another.
            if same_key(&numbers, p) {
                return *record;
            }
        }
        _ => numbers.iter_mut().for_each(|n| *n = random.word() as u16),
    }
    numbers
}

/// Whether another taken place has the key of this one.
fn same_key(numbers: &[u16; RECORD], p: usize) -> bool {
    let Record { places } = decode(numbers);
    let key = |q: usize| places[q].key.proper();
    (0..PLACES).any(|q| q != p && places[q].taken && key(q) == key(p))
}
