//! Files: the library's list beside the independent program's.

use khumsafil::file::LARGEST_LIST;
use khumsafil::shelf::LARGEST_FILE;
use opinion::lister;
use trial::beside::files::{list, number};
use trial::files::{damaged, Parts, KINDS};
use trial::keys::{self, Key, NRT_IT};
use trial::random::Random;
use trial::sections::{section, Fields};
use trial::tally::{common, one_in, share, Tally};

/// The seed of every random comparison here.
const SEED: u64 = 0x4B68_756D_7361_0008;

/// Files of each kind.
const EACH: usize = 30_000;

/// The answers of a file, 0 for a sound one.
const ANSWERS: [u8; 11] = [0, 2, 3, 4, 5, 6, 7, 8, 11, 12, 46];

#[test]
fn random_files() {
    let mut random = Random::new(SEED);
    let (mut tally, mut nrt_its) = (Tally::default(), Tally::default());
    let (mut complete, mut missing) = (0u64, 0u64);
    for kind in KINDS {
        for _ in 0..share(EACH) {
            let fields = Fields::random(&mut random);
            let parts = Parts::random(&mut random, fields);
            let bytes = damaged(&mut random, kind, parts);
            let less = random.below(2) * random.below(LARGEST_LIST);
            let answer = list(&bytes, less);
            match fields.is_nrt_it() {
                true => nrt_its.note(kind, answer),
                false => tally.note(kind, answer),
            }
            if kind == "sound" {
                assert_eq!(answer, 0);
                let whole = lister::list(&bytes).ends_with("complete\n");
                complete += u64::from(whole);
                missing += u64::from(!whole);
            }
        }
    }
    println!("of the sound files {complete} hold a complete table, {missing} do not");
    common(complete.min(missing), 1_000);
    tally.show(
        &format!("files of other tables, seed {SEED:#018X}"),
        &ANSWERS,
    );
    nrt_its.show("files of NRT-ITs", &ANSWERS);
    // Each field of the key of one section, and a section without its key; of other tables the body tells nothing.
    for kind in keys::FIELDS {
        common(nrt_its.met(kind, 12), 1_000);
    }
    common(nrt_its.met("too short for a key", 46), 1_000);
    for kind in &keys::FIELDS[2..] {
        common(tally.met(kind, 0), 1_000);
        assert_eq!(tally.met(kind, 12), 0, "{kind} of another table");
    }
    assert_eq!(tally.met("another service", 46), 0);
    common(tally.met("too short for a key", 0), 1_000);
}

/// Two sections that differ in every single bit of the key, or of what stands in its place, with either of them first: 12 of an
/// NRT-IT; of another table only the bits of its old key.
#[test]
fn every_bit_of_a_key() {
    let mut random = Random::new(SEED);
    let mut tally = Tally::default();
    for _ in 0..share(400) {
        let key = keys::any(&mut random);
        for table_id in [NRT_IT, 201] {
            for at in [3, 4, 8, 9, 10, 11, 12, 13] {
                for bit in 0..8 {
                    let size = 14 + random.below(8);
                    let fields = Fields {
                        key: Key { table_id, ..key },
                        version: 3,
                        number: 0,
                        last: 1,
                    };
                    let mut both = [0, 1].map(|number| {
                        let fields = Fields { number, ..fields };
                        section(&mut random, size, fields)
                    });
                    both[random.below(2)][at] ^= 1 << bit;
                    let answer = list(&Parts::of(both.to_vec()).bytes(), 0);
                    let differ = table_id == NRT_IT || at < 8;
                    assert_eq!(answer, if differ { 12 } else { 0 }, "{at} of {table_id}");
                    tally.note(
                        if table_id == NRT_IT {
                            "an NRT-IT"
                        } else {
                            "another"
                        },
                        answer,
                    );
                }
            }
        }
    }
    tally.show("two sections that differ in one bit", &[0, 12]);
}

/// A file of an NRT-IT whose sections have each length from 8 to 20: 46 where one is shorter than 14, at its place.
#[test]
fn every_short_section() {
    let mut random = Random::new(SEED);
    let mut tally = Tally::default();
    for first in 8..=20 {
        for second in 8..=20 {
            for _ in 0..share(40) {
                let fields = Fields {
                    key: Key {
                        table_id: NRT_IT,
                        ..keys::any(&mut random)
                    },
                    version: random.byte() % 32,
                    number: 0,
                    last: 1,
                };
                let one = section(&mut random, first, fields);
                // The second has the same key, or one of another field, or another version.
                let field = random.pick(&keys::FIELDS);
                let mut other = Fields {
                    number: 1,
                    ..fields
                };
                let kind = random.pick(&["one key", "two keys", "two versions"]);
                match kind {
                    "two keys" => other.key = keys::another(&mut random, field, fields.key),
                    "two versions" => other.version ^= 1,
                    _ => {}
                }
                let two = section(&mut random, second, other);
                let answer = list(&Parts::of(vec![one, two]).bytes(), 0);
                let expected = match kind {
                    _ if first < 14 => 46,
                    _ if second < 14 && other.is_nrt_it() => 46,
                    "one key" => 0,
                    _ => 12,
                };
                assert_eq!(answer, expected, "{kind}, {first} and {second} bytes");
                tally.note(kind, answer);
            }
        }
    }
    tally.show("sections of 8 to 20 bytes", &[0, 12, 46]);
}

/// The number at the front of every string of at most three bytes, and of longer ones whose third byte is not the last.
#[test]
fn every_short_number() {
    let mut counts = [0u64; 2];
    let mut try_one = |bytes: &[u8]| counts[usize::from(number(bytes) == 0)] += 1;
    try_one(&[]);
    (0..=255).for_each(|a| try_one(&[a]));
    (0..=u16::MAX).for_each(|two| try_one(&two.to_be_bytes()));
    for three in (0..1u32 << 24).step_by(one_in()) {
        try_one(&three.to_be_bytes()[1..]);
    }
    for groups in (0..1u32 << 21).step_by(one_in()) {
        let front = [groups, groups >> 7, groups >> 14].map(|group| group as u8 | 0x80);
        for next in [0, 1, 3, 0x80, 0xFF] {
            try_one(&[front[0], front[1], front[2], next]);
        }
    }
    let [refused, read] = counts;
    println!("numbers: {read} read, {refused} answered 11");
    common(refused.min(read), 1_000_000);
}

/// Small files of another table and of an NRT-IT cut at every place, and with every value of every byte.
#[test]
fn small_files() {
    a_small_file(Key::new(201, 4_660, 0, 0));
    a_small_file(Key::new(NRT_IT, 4_097, 7, keys::START));
}

fn a_small_file(key: Key) {
    let mut random = Random::new(SEED);
    let fields = Fields {
        key,
        version: 3,
        number: 0,
        last: 2,
    };
    let least = fields.least();
    let first = section(&mut random, least, fields);
    let second = section(
        &mut random,
        least + 1,
        Fields {
            number: 2,
            ..fields
        },
    );
    let bytes = Parts::of(vec![first, second]).bytes();
    assert_eq!(list(&bytes, 0), 0);
    let mut tried = 0;
    for cut in 0..bytes.len() {
        assert_ne!(list(&bytes[..cut], 0), 0);
        for value in 0..=255 {
            let mut other = bytes.clone();
            other[cut] = value;
            list(&other, 0);
            tried += 1;
        }
    }
    println!("{} cuts, {tried} bytes changed", bytes.len());
}

/// The largest file of an NRT-IT has the largest list, that of another table one without service and start, and a byte more is a
/// byte too many.
#[test]
fn the_largest_file() {
    let mut random = Random::new(SEED);
    let words = " service 65535 start 4294967295".len();
    for (key, size) in [
        (Key::new(NRT_IT, 65_535, 65_535, u32::MAX), LARGEST_LIST),
        (Key::new(255, 65_535, 0, 0), LARGEST_LIST - words),
    ] {
        let of = |number| Fields {
            key,
            version: 31,
            number,
            last: 15,
        };
        let all = (0..16).map(|number| section(&mut random, 1_024, of(number)));
        let mut bytes = Parts::of(all.collect()).bytes();
        assert_eq!(bytes.len(), LARGEST_FILE);
        assert_eq!(lister::list(&bytes).len(), size);
        assert_eq!(list(&bytes, 0), 0);
        for _ in 0..3 {
            bytes.push(0);
            assert_eq!(list(&bytes, 0), 12);
        }
    }
}
