//! The shelf: four tables of sixteen sections each, kept in a lent store
//! (document 01, "The shelf"; document 02, request 4).

use crate::berth;
use crate::key::Key;
use crate::section::{self, Section};

/// Tables on the shelf.
pub const PLACES: usize = 4;
/// Sections of a table.
pub const SECTIONS: usize = 16;
/// Bytes of a berth.
pub const BERTH: usize = 1024;
/// Bytes of the lent store.
pub const STORE: usize = 65_536;

/// One place of the shelf. Length 0 at a number: that number is not held. In a lent
/// record the key may be one that `Key::new` did not make: what stands in the added
/// fields of another table than the NRT-IT means nothing.
#[derive(Clone, Copy, Debug, PartialEq, Eq)]
pub struct Place {
    pub taken: bool,
    pub key: Key,
    pub version: u8,
    pub last: u8,
    pub lengths: [u16; SECTIONS],
}

/// The shelf record: what is held, without the bytes.
#[derive(Clone, Copy, Debug, PartialEq, Eq)]
pub struct Record {
    pub places: [Place; PLACES],
}

/// What an accepted section did.
#[derive(Clone, Copy, Debug, PartialEq, Eq)]
pub enum Accepted {
    /// The key was not held; the section begins the table.
    Began,
    /// The key was held with another version; the section begins it again.
    BeganAgain,
    /// The number was not held; the section is added.
    Added,
    /// The same section was held; nothing changes.
    Repeat,
}

/// A free place.
const FREE: Place = Place {
    taken: false,
    key: Key::new(0, 0, 0, 0),
    version: 0,
    last: 0,
    lengths: [0; SECTIONS],
};

impl Place {
    /// Whether a table of this key is here. Both keys may be of any four numbers.
    fn has_key(&self, key: Key) -> bool {
        self.taken && self.key.proper() == key.proper()
    }

    /// The same place with the key that its own means.
    fn proper(&self) -> Place {
        Place {
            key: self.key.proper(),
            ..*self
        }
    }

    fn is_complete(&self) -> bool {
        self.first_missing().is_none()
    }

    /// The lowest number from 0 to last that is not held.
    fn first_missing(&self) -> Option<u8> {
        (0..=self.last).find(|&number| self.lengths[usize::from(number)] == 0)
    }

    /// The five faults of a taken place under refusal 18.
    fn is_spoiled(&self) -> bool {
        if self.version > 31 || self.last > 15 {
            return true;
        }
        let mut nothing_held = true;
        for (number, &length) in self.lengths.iter().enumerate() {
            if length != 0 {
                if number > usize::from(self.last) || !(8..=1024).contains(&length) {
                    return true;
                }
                nothing_held = false;
            }
        }
        nothing_held
    }
}

/// A fresh shelf's record: four free places. Its store is zeroed by the caller.
pub fn fresh() -> Record {
    Record {
        places: [FREE; PLACES],
    }
}

/// Refusal 18.
fn is_spoiled(record: &Record) -> bool {
    for (p, place) in record.places.iter().enumerate() {
        if place.taken {
            if place.is_spoiled() {
                return true;
            }
            for other in &record.places[p + 1..] {
                if other.has_key(place.key) {
                    return true;
                }
            }
        }
    }
    false
}

/// 17, then 18: the two refusals that come before all others at every call.
pub(crate) fn check(record: &Record, store: &[u8]) -> Result<(), u8> {
    if store.len() != STORE {
        return Err(17);
    }
    if is_spoiled(record) {
        return Err(18);
    }
    Ok(())
}

/// The place that holds this key.
pub(crate) fn find(record: &Record, key: Key) -> Option<usize> {
    record.places.iter().position(|place| place.has_key(key))
}

/// The lowest free place.
pub(crate) fn lowest_free(record: &Record) -> Option<usize> {
    record.places.iter().position(|place| !place.taken)
}

/// Begins a table, or begins it again, with this one section.
fn begin(record: &mut Record, store: &mut [u8], p: usize, section: &Section, payload: &[u8]) {
    record.places[p] = Place {
        taken: true,
        key: section.key(),
        version: section.version,
        last: section.last,
        lengths: [0; SECTIONS],
    };
    add(record, store, p, section, payload);
}

/// Stores a section of the table in place p and notes its length.
fn add(record: &mut Record, store: &mut [u8], p: usize, section: &Section, payload: &[u8]) {
    let number = usize::from(section.number);
    berth::put(store, p, number, payload);
    record.places[p].lengths[number] = payload.len() as u16;
}

/// Offers a payload to the shelf. Refusals: 17, 18, 1 to 8 rising, 46, 9, 10.
pub fn offer(record: &mut Record, store: &mut [u8], payload: &[u8]) -> Result<Accepted, u8> {
    check(record, store)?;
    let section = section::read(payload)?;
    let number = usize::from(section.number);

    // Key not held: it begins the table in the lowest free place, or 9.
    let Some(p) = find(record, section.key()) else {
        let Some(p) = lowest_free(record) else {
            return Err(9);
        };
        begin(record, store, p, &section, payload);
        return Ok(Accepted::Began);
    };
    let place = &record.places[p];

    // Key held, other version: the held sections go and this one begins it again.
    if place.version != section.version {
        for held in 0..SECTIONS {
            if place.lengths[held] != 0 {
                berth::clear(store, p, held);
            }
        }
        begin(record, store, p, &section, payload);
        return Ok(Accepted::BeganAgain);
    }

    // Same version with another last number.
    if place.last != section.last {
        return Err(10);
    }

    // Number not held: it is added.
    let length = usize::from(place.lengths[number]);
    if length == 0 {
        add(record, store, p, &section, payload);
        return Ok(Accepted::Added);
    }

    // Number held: the same bytes throughout, or 10.
    if berth::part(store, p, number, length) != payload {
        return Err(10);
    }
    Ok(Accepted::Repeat)
}

/// The place asked for, after 17, 18 and 14.
fn asked(record: &Record, store: &[u8], key: Key) -> Result<usize, u8> {
    check(record, store)?;
    find(record, key).ok_or(14)
}

/// Copies a held section out and answers how many bytes it has.
/// Refusals: 17, 18, 14, 16, 15.
pub fn copy_section(
    record: &Record,
    store: &[u8],
    key: Key,
    number: u8,
    out: &mut [u8],
) -> Result<usize, u8> {
    let p = asked(record, store, key)?;
    let number = usize::from(number);
    let length = match record.places[p].lengths.get(number) {
        None | Some(0) => return Err(16),
        Some(&length) => usize::from(length),
    };
    if out.len() < length {
        return Err(15);
    }
    out[..length].copy_from_slice(berth::part(store, p, number, length));
    Ok(length)
}

/// Whether every section from 0 to last is held. Refusals: 17, 18, 14.
pub fn complete(record: &Record, store: &[u8], key: Key) -> Result<bool, u8> {
    let p = asked(record, store, key)?;
    Ok(record.places[p].is_complete())
}

/// The lowest missing number; a complete table has none. Refusals: 17, 18, 14.
pub fn lowest_missing(record: &Record, store: &[u8], key: Key) -> Result<Option<u8>, u8> {
    let p = asked(record, store, key)?;
    Ok(record.places[p].first_missing())
}

/// A table as it is told: its key, as `Key::new` makes it, its version and last
/// number, and the length of each section, 0 where it is not held.
#[derive(Clone, Copy, Debug, PartialEq, Eq)]
pub struct Table {
    pub key: Key,
    pub version: u8,
    pub last: u8,
    pub lengths: [u16; SECTIONS],
}

/// Which table is in a place, counted from 0. A place that is free holds no
/// table, and neither does one that there is not. Refusals: 17, 18, 14.
pub fn table(record: &Record, store: &[u8], place: u8) -> Result<Table, u8> {
    check(record, store)?;
    match record.places.get(usize::from(place)) {
        Some(held) if held.taken => Ok(Table {
            key: held.key.proper(),
            version: held.version,
            last: held.last,
            lengths: held.lengths,
        }),
        _ => Err(14),
    }
}

/// Whether two records are equal: they are when their taken places are. What a
/// free place happens to hold has no part in it, nor have the added fields of
/// another table than the NRT-IT.
pub fn equal(a: &Record, b: &Record) -> bool {
    for (one, other) in a.places.iter().zip(&b.places) {
        if one.taken != other.taken {
            return false;
        }
        if one.taken && one.proper() != other.proper() {
            return false;
        }
    }
    true
}

/// Frees a table's place and zeroes its 16 berths. Refusals: 17, 18, 14.
pub fn release(record: &mut Record, store: &mut [u8], key: Key) -> Result<(), u8> {
    let p = asked(record, store, key)?;
    for number in 0..SECTIONS {
        berth::clear(store, p, number);
    }
    record.places[p] = FREE;
    Ok(())
}

#[cfg(test)]
mod tests {
    use super::*;
    use crate::testing::{self, Dice};

    const P1: [u8; 8] = [0xC9, 0x70, 0x05, 0x12, 0x34, 0xC7, 0x00, 0x00];

    /// The table that `of` makes sections of.
    const KEY: Key = plain(0x40, 7);

    /// The key of a table other than the NRT-IT.
    const fn plain(table_id: u8, extension: u16) -> Key {
        Key::new(table_id, extension, 0, 0)
    }

    fn zeroed() -> Vec<u8> {
        vec![0; STORE]
    }

    /// A section of table 0x40, extension 7.
    fn of(version: u8, number: u8, last: u8, body: &[u8]) -> Vec<u8> {
        testing::section(0x40, 7, version, number, last, body)
    }

    /// Offers, and checks that a refusal leaves record and store untouched.
    fn offer_strictly(
        record: &mut Record,
        store: &mut [u8],
        payload: &[u8],
    ) -> Result<Accepted, u8> {
        let record_before = *record;
        let store_before = store.to_vec();
        let answer = offer(record, store, payload);
        if answer.is_err() || answer == Ok(Accepted::Repeat) {
            assert_eq!(*record, record_before);
            assert!(store == &store_before[..]);
        }
        answer
    }

    /// Every call on this record and store is refused by `number` and changes nothing.
    fn all_refused(record: &Record, store: &[u8], key: Key, number: u8) {
        let (mut r, mut s, mut out) = (*record, store.to_vec(), [7; 2000]);
        assert_eq!(offer(&mut r, &mut s, &P1), Err(number));
        assert_eq!(offer(&mut r, &mut s, &[]), Err(number));
        assert_eq!(copy_section(&r, &s, key, 0, &mut out), Err(number));
        assert_eq!(complete(&r, &s, key), Err(number));
        assert_eq!(lowest_missing(&r, &s, key), Err(number));
        for place in 0..6 {
            assert_eq!(table(&r, &s, place), Err(number));
        }
        assert_eq!(release(&mut r, &mut s, key), Err(number));
        assert_eq!(r, *record);
        assert!(s == store);
        assert_eq!(out, [7; 2000]);
    }

    #[test]
    fn p1_begins_a_table_and_repeats() {
        let (mut record, mut store) = (fresh(), zeroed());
        assert_eq!(offer(&mut record, &mut store, &P1), Ok(Accepted::Began));
        let mut lengths = [0; 16];
        lengths[0] = 8;
        assert_eq!(
            record.places[0],
            Place {
                taken: true,
                key: plain(0xC9, 0x1234),
                version: 3,
                last: 0,
                lengths,
            }
        );
        assert_eq!(store[..8], P1);
        assert!(store[8..].iter().all(|&byte| byte == 0));
        assert_eq!(
            offer_strictly(&mut record, &mut store, &P1),
            Ok(Accepted::Repeat)
        );
        assert_eq!(complete(&record, &store, plain(0xC9, 0x1234)), Ok(true));
        assert_eq!(
            lowest_missing(&record, &store, plain(0xC9, 0x1234)),
            Ok(None)
        );
    }

    #[test]
    fn unsound_payloads_answer_1_to_8() {
        let (mut record, mut store) = (fresh(), zeroed());
        let faults: [(&[u8], u8); 8] = [
            (&P1[..7], 1),
            (&[0xC9, 0xF0, 0x05, 0x12, 0x34, 0xC7, 0, 0], 2),
            (&[0xC9, 0x70, 0x04, 0x12, 0x34, 0xC7, 0, 0], 3),
            (&[0xC9, 0x70, 0x06, 0x12, 0x34, 0xC7, 0, 0], 4),
            (&[0xC9, 0x70, 0x05, 0x12, 0x34, 0xC7, 0, 0, 0], 5),
            (&[0xC9, 0x70, 0x05, 0x12, 0x34, 0xC7, 1, 0], 6),
            (&[0xC9, 0x70, 0x05, 0x12, 0x34, 0xC7, 0, 0x10], 7),
            (&[0xC9, 0x70, 0x05, 0x12, 0x34, 0xC6, 0, 0], 8),
        ];
        for (payload, number) in faults {
            assert_eq!(
                offer_strictly(&mut record, &mut store, payload),
                Err(number)
            );
        }
    }

    #[test]
    fn a_repeat_does_not_fill_a_gap() {
        let (mut record, mut store) = (fresh(), zeroed());
        assert_eq!(
            offer(&mut record, &mut store, &of(0, 1, 2, &[1])),
            Ok(Accepted::Began)
        );
        for _ in 0..3 {
            assert_eq!(
                offer_strictly(&mut record, &mut store, &of(0, 1, 2, &[1])),
                Ok(Accepted::Repeat)
            );
            assert_eq!(complete(&record, &store, KEY), Ok(false));
            assert_eq!(lowest_missing(&record, &store, KEY), Ok(Some(0)));
        }
        assert_eq!(
            offer(&mut record, &mut store, &of(0, 0, 2, &[0])),
            Ok(Accepted::Added)
        );
        assert_eq!(complete(&record, &store, KEY), Ok(false));
        assert_eq!(lowest_missing(&record, &store, KEY), Ok(Some(2)));
        assert_eq!(
            offer(&mut record, &mut store, &of(0, 2, 2, &[2])),
            Ok(Accepted::Added)
        );
        assert_eq!(complete(&record, &store, KEY), Ok(true));
        assert_eq!(lowest_missing(&record, &store, KEY), Ok(None));
    }

    #[test]
    fn keys_are_table_id_with_extension() {
        let (mut record, mut store) = (fresh(), zeroed());
        for (table_id, extension) in [(1, 1), (1, 2), (2, 1), (2, 2)] {
            let payload = testing::section(table_id, extension, 0, 0, 0, &[]);
            assert_eq!(
                offer(&mut record, &mut store, &payload),
                Ok(Accepted::Began)
            );
        }
        // 9: new key, no free place.
        let fifth = testing::section(3, 3, 0, 0, 0, &[]);
        assert_eq!(offer_strictly(&mut record, &mut store, &fifth), Err(9));
        // A full shelf still takes other versions and repeats of its own tables.
        let again = testing::section(2, 1, 1, 0, 0, &[]);
        assert_eq!(
            offer(&mut record, &mut store, &again),
            Ok(Accepted::BeganAgain)
        );
        // The lowest free place is taken next.
        assert_eq!(release(&mut record, &mut store, plain(2, 1)), Ok(()));
        assert_eq!(release(&mut record, &mut store, plain(1, 2)), Ok(()));
        assert_eq!(offer(&mut record, &mut store, &fifth), Ok(Accepted::Began));
        assert_eq!(find(&record, plain(3, 3)), Some(1));
        assert_eq!(store[BERTH * 16..BERTH * 16 + 8], fifth[..]);
    }

    #[test]
    fn the_berth_rule() {
        // A scribbled store: only the berths that document 01 names change.
        let (mut record, mut store) = (fresh(), vec![0xEE; STORE]);
        let first = of(0, 3, 9, &[1, 2, 3]);
        let second = of(0, 9, 9, &[4; 1016]);
        let mut expected = store.clone();
        assert_eq!(offer(&mut record, &mut store, &first), Ok(Accepted::Began));
        expected[3 * 1024..4 * 1024].fill(0);
        expected[3 * 1024..3 * 1024 + 11].copy_from_slice(&first);
        assert!(store == expected);
        assert_eq!(offer(&mut record, &mut store, &second), Ok(Accepted::Added));
        expected[9 * 1024..10 * 1024].copy_from_slice(&second);
        assert!(store == expected);

        // Another version: the two held berths are zeroed and the new one written.
        let third = of(1, 0, 0, &[5]);
        assert_eq!(
            offer(&mut record, &mut store, &third),
            Ok(Accepted::BeganAgain)
        );
        expected[3 * 1024..4 * 1024].fill(0);
        expected[9 * 1024..10 * 1024].fill(0);
        expected[..1024].fill(0);
        expected[..9].copy_from_slice(&third);
        assert!(store == expected);
        assert_eq!(record.places[0].lengths[0], 9);
        assert_eq!(record.places[0].lengths[1..], [0; 15]);
        assert_eq!((record.places[0].version, record.places[0].last), (1, 0));

        // Releasing zeroes all sixteen berths of the place, and no other.
        assert_eq!(release(&mut record, &mut store, KEY), Ok(()));
        expected[..16 * 1024].fill(0);
        assert!(store == expected);
        assert_eq!(record, fresh());
    }

    #[test]
    fn any_other_version_begins_again_none_is_older() {
        let (mut record, mut store) = (fresh(), zeroed());
        assert_eq!(
            offer(&mut record, &mut store, &of(5, 0, 0, &[])),
            Ok(Accepted::Began)
        );
        for version in [4, 6, 0, 31] {
            assert_eq!(
                offer(&mut record, &mut store, &of(version, 0, 1, &[version])),
                Ok(Accepted::BeganAgain)
            );
            assert_eq!(complete(&record, &store, KEY), Ok(false));
        }
        // Back to the first version: what was held then is gone.
        assert_eq!(
            offer(&mut record, &mut store, &of(5, 1, 1, &[])),
            Ok(Accepted::BeganAgain)
        );
        assert_eq!(lowest_missing(&record, &store, KEY), Ok(Some(0)));
    }

    #[test]
    fn differences_are_refused_10() {
        let (mut record, mut store) = (fresh(), zeroed());
        let held = of(2, 1, 3, &[1, 2, 3]);
        assert_eq!(offer(&mut record, &mut store, &held), Ok(Accepted::Began));
        // Another last number, at a held and at a free section number.
        assert_eq!(
            offer_strictly(&mut record, &mut store, &of(2, 1, 2, &[1, 2, 3])),
            Err(10)
        );
        assert_eq!(
            offer_strictly(&mut record, &mut store, &of(2, 0, 4, &[])),
            Err(10)
        );
        // Other bytes, fewer bytes, more bytes, and other reserved bits.
        assert_eq!(
            offer_strictly(&mut record, &mut store, &of(2, 1, 3, &[1, 2, 4])),
            Err(10)
        );
        assert_eq!(
            offer_strictly(&mut record, &mut store, &of(2, 1, 3, &[1, 2])),
            Err(10)
        );
        assert_eq!(
            offer_strictly(&mut record, &mut store, &of(2, 1, 3, &[1, 2, 3, 0])),
            Err(10)
        );
        let mut reserved = held.clone();
        reserved[1] &= 0xCF;
        assert_eq!(offer_strictly(&mut record, &mut store, &reserved), Err(10));
        reserved = held.clone();
        reserved[5] &= 0x3F;
        assert_eq!(offer_strictly(&mut record, &mut store, &reserved), Err(10));
        assert_eq!(
            offer_strictly(&mut record, &mut store, &held),
            Ok(Accepted::Repeat)
        );
    }

    #[test]
    fn a_scribbled_berth_is_what_is_compared_and_copied() {
        let (mut record, mut store) = (fresh(), zeroed());
        let held = of(2, 1, 3, &[1, 2, 3]);
        assert_eq!(offer(&mut record, &mut store, &held), Ok(Accepted::Began));
        store[1024 + 10] = 4;
        assert_eq!(offer_strictly(&mut record, &mut store, &held), Err(10));
        assert_eq!(
            offer_strictly(&mut record, &mut store, &of(2, 1, 3, &[1, 2, 4])),
            Ok(Accepted::Repeat)
        );
        let mut out = [9; 20];
        assert_eq!(copy_section(&record, &store, KEY, 1, &mut out), Ok(11));
        assert_eq!(out[..11], of(2, 1, 3, &[1, 2, 4])[..]);
        assert_eq!(out[11..], [9; 9]);
        // Scribble past the section's own bytes is not looked at.
        store[1024 + 11] = 1;
        assert_eq!(
            offer_strictly(&mut record, &mut store, &of(2, 1, 3, &[1, 2, 4])),
            Ok(Accepted::Repeat)
        );
    }

    #[test]
    fn asking_answers_14_then_16_then_15() {
        let (mut record, mut store) = (fresh(), zeroed());
        let held = of(0, 1, 3, &[1, 2, 3]);
        assert_eq!(offer(&mut record, &mut store, &held), Ok(Accepted::Began));
        let mut out = [9; 11];
        assert_eq!(
            copy_section(&record, &store, plain(0x41, 7), 0, &mut []),
            Err(14)
        );
        assert_eq!(
            copy_section(&record, &store, plain(0x40, 8), 0, &mut []),
            Err(14)
        );
        assert_eq!(complete(&record, &store, plain(0x41, 7)), Err(14));
        assert_eq!(lowest_missing(&record, &store, plain(0x41, 7)), Err(14));
        let before = (record, store.clone());
        assert_eq!(release(&mut record, &mut store, plain(0x41, 7)), Err(14));
        assert!((record, store.clone()) == before);
        for number in [0, 2, 3, 4, 15, 16, 255] {
            assert_eq!(copy_section(&record, &store, KEY, number, &mut []), Err(16));
        }
        assert_eq!(
            copy_section(&record, &store, KEY, 1, &mut out[..10]),
            Err(15)
        );
        assert_eq!(out, [9; 11]);
        assert_eq!(copy_section(&record, &store, KEY, 1, &mut out), Ok(11));
        assert_eq!(out[..], held[..]);
    }

    #[test]
    fn a_store_of_another_size_is_17_before_all() {
        let mut record = fresh();
        for size in [0, 1024, STORE - 1, STORE + 1] {
            all_refused(&record, &vec![0; size], plain(0, 0), 17);
        }
        record.places[0].taken = true;
        all_refused(&record, &[], plain(0, 0), 17);
    }

    #[test]
    fn a_spoiled_record_is_18() {
        let store = zeroed();
        let mut good = fresh();
        good.places[2] = Place {
            taken: true,
            key: KEY,
            version: 31,
            last: 15,
            lengths: [8, 1024, 0, 0, 0, 0, 0, 0, 0, 0, 0, 0, 0, 0, 0, 8],
        };
        assert_eq!(complete(&good, &store, KEY), Ok(false));

        let mut bad = good;
        bad.places[2].version = 32;
        all_refused(&bad, &store, KEY, 18);
        bad = good;
        bad.places[2].last = 16;
        all_refused(&bad, &store, KEY, 18);
        bad = good;
        bad.places[2].last = 14;
        all_refused(&bad, &store, KEY, 18);
        for length in [1, 7, 1025, 65535] {
            bad = good;
            bad.places[2].lengths[4] = length;
            all_refused(&bad, &store, KEY, 18);
        }
        bad = good;
        bad.places[2].lengths = [0; 16];
        all_refused(&bad, &store, KEY, 18);
        bad = good;
        bad.places[3] = bad.places[2];
        bad.places[3].version = 1;
        all_refused(&bad, &store, KEY, 18);

        // A free place may hold anything.
        for place in 0..4 {
            let mut free = good;
            if place != 2 {
                free.places[place] = Place {
                    taken: false,
                    key: KEY,
                    version: 200,
                    last: 200,
                    lengths: [5; 16],
                };
                assert_eq!(complete(&free, &store, KEY), Ok(false));
            }
        }
    }

    #[test]
    fn which_table_is_in_a_place() {
        let (mut record, mut store) = (fresh(), zeroed());
        for place in 0..=255 {
            assert_eq!(table(&record, &store, place), Err(14));
        }
        offer(&mut record, &mut store, &P1).unwrap();
        offer(&mut record, &mut store, &of(5, 2, 9, &[1, 2])).unwrap();
        offer(&mut record, &mut store, &of(5, 9, 9, &[3; 1016])).unwrap();
        let first = table(&record, &store, 0).unwrap();
        assert_eq!(first.key, plain(0xC9, 0x1234));
        assert_eq!((first.version, first.last), (3, 0));
        assert_eq!(
            first.lengths,
            [8, 0, 0, 0, 0, 0, 0, 0, 0, 0, 0, 0, 0, 0, 0, 0]
        );
        let second = Table {
            key: KEY,
            version: 5,
            last: 9,
            lengths: [0, 0, 10, 0, 0, 0, 0, 0, 0, 1024, 0, 0, 0, 0, 0, 0],
        };
        assert_eq!(table(&record, &store, 1), Ok(second));
        // A table stays in its place when one before it goes.
        release(&mut record, &mut store, plain(0xC9, 0x1234)).unwrap();
        assert_eq!(table(&record, &store, 0), Err(14));
        assert_eq!(table(&record, &store, 1), Ok(second));
        for place in 2..=255 {
            assert_eq!(table(&record, &store, place), Err(14));
        }
    }

    #[test]
    fn records_are_equal_when_their_taken_places_are() {
        let (mut record, mut store) = (fresh(), zeroed());
        offer(&mut record, &mut store, &P1).unwrap();
        offer(&mut record, &mut store, &of(5, 2, 9, &[1, 2])).unwrap();
        assert!(equal(&record, &record));
        assert!(!equal(&record, &fresh()) && !equal(&fresh(), &record));
        // A free place may hold anything.
        let mut other = record;
        other.places[3] = Place {
            taken: false,
            ..record.places[1]
        };
        assert!(equal(&record, &other) && equal(&other, &record));
        other.places[3].taken = true;
        assert!(!equal(&record, &other) && !equal(&other, &record));
        // Each part of a taken place is a part of what is compared.
        let changes: [fn(&mut Place); 7] = [
            |place| place.taken = false,
            |place| place.key.table_id ^= 1,
            |place| place.key.extension ^= 0x100,
            |place| place.version ^= 1,
            |place| place.last += 1,
            |place| place.lengths[2] += 1,
            |place| place.lengths[0] = 8,
        ];
        for change in changes {
            let mut other = record;
            change(&mut other.places[1]);
            assert!(!equal(&record, &other) && !equal(&other, &record));
        }
        // So is which place it is.
        let mut other = record;
        other.places.swap(1, 2);
        assert!(!equal(&record, &other));
    }

    #[test]
    fn a_free_place_with_leftovers_begins_clean() {
        let (mut record, mut store) = (fresh(), zeroed());
        record.places[0].lengths = [77; 16];
        assert_eq!(offer(&mut record, &mut store, &P1), Ok(Accepted::Began));
        assert_eq!(record.places[0].lengths[1..], [0; 15]);
    }

    #[test]
    fn more_reception_takes_nothing_away() {
        // Demand 3, with sections in any order, repeats and broken payloads between.
        let mut dice = Dice(0x9E37_79B9_7F4A_7C15);
        for _ in 0..30 {
            let last = dice.below(16) as u8;
            let bodies: Vec<Vec<u8>> = (0..=last)
                .map(|_| {
                    let size = dice.below(1017);
                    dice.bytes(size)
                })
                .collect();
            let (mut record, mut store) = (fresh(), zeroed());
            let mut heard = vec![false; usize::from(last) + 1];
            while heard.contains(&false) {
                let number = dice.below(heard.len());
                let payload = of(9, number as u8, last, &bodies[number]);
                let answer = offer_strictly(&mut record, &mut store, &payload);
                assert_eq!(answer == Ok(Accepted::Repeat), heard[number]);
                heard[number] = true;
                let _ = offer_strictly(&mut record, &mut store, &payload[1..]);
                assert_eq!(
                    lowest_missing(&record, &store, KEY),
                    Ok(heard.iter().position(|&h| !h).map(|n| n as u8))
                );
                assert_eq!(complete(&record, &store, KEY), Ok(!heard.contains(&false)));
            }
            for (number, body) in bodies.iter().enumerate() {
                let mut out = [0; 1024];
                let expected = of(9, number as u8, last, body);
                let answer = copy_section(&record, &store, KEY, number as u8, &mut out);
                assert_eq!(answer, Ok(expected.len()));
                assert_eq!(out[..expected.len()], expected[..]);
            }
        }
    }

    /// The key of an NRT-IT.
    const fn list(extension: u16, service_id: u16, time_span_start: u32) -> Key {
        Key::new(0xDF, extension, service_id, time_span_start)
    }

    /// A section of the NRT-IT with this key.
    fn list_of(key: Key, version: u8, number: u8, last: u8, rest: &[u8]) -> Vec<u8> {
        assert_eq!(key.table_id, 0xDF);
        let key = (key.extension, key.service_id, key.time_span_start);
        testing::nrt_it(key, version, number, last, rest)
    }

    /// Key 0 and one for each field that may differ from it.
    const FIVE: [Key; 5] = [
        list(0x1001, 7, 3600),
        list(0x1002, 7, 3600),
        list(0x1001, 8, 3600),
        list(0x1001, 7, 7200),
        plain(0xDE, 0x1001),
    ];

    /// A section of one of the five, with this version.
    fn of_five(key: Key, version: u8, number: u8, last: u8) -> Vec<u8> {
        let list = Key {
            table_id: 0xDF,
            ..key
        };
        let mut payload = list_of(list, version, number, last, &[number]);
        payload[0] = key.table_id;
        payload
    }

    #[test]
    fn two_services_no_longer_drive_each_other_off() {
        // One extension, two services, two versions, heard in turn all Sunday.
        let keys = [list(0x1001, 7, 3600), list(0x1001, 8, 3600)];
        let (mut record, mut store) = (fresh(), zeroed());
        for number in 0..4 {
            for (service, &key) in keys.iter().enumerate() {
                let payload = list_of(key, service as u8, number, 3, &[number; 100]);
                let expected = if number == 0 {
                    Accepted::Began
                } else {
                    Accepted::Added
                };
                assert_eq!(offer(&mut record, &mut store, &payload), Ok(expected));
                assert_eq!(complete(&record, &store, key), Ok(number == 3));
            }
        }
        for number in 0..4 {
            for (service, &key) in keys.iter().enumerate() {
                let payload = list_of(key, service as u8, number, 3, &[number; 100]);
                assert_eq!(
                    offer_strictly(&mut record, &mut store, &payload),
                    Ok(Accepted::Repeat)
                );
            }
        }
        // Another version of the one begins that one again, and not the other.
        let payload = list_of(keys[0], 1, 0, 3, &[]);
        let answer = offer(&mut record, &mut store, &payload);
        assert_eq!(answer, Ok(Accepted::BeganAgain));
        assert_eq!(lowest_missing(&record, &store, keys[0]), Ok(Some(1)));
        assert_eq!(complete(&record, &store, keys[1]), Ok(true));
        // Releasing the one leaves the other.
        assert_eq!(release(&mut record, &mut store, keys[0]), Ok(()));
        assert_eq!(complete(&record, &store, keys[0]), Err(14));
        assert_eq!(complete(&record, &store, keys[1]), Ok(true));
        assert!(store[..16 * 1024].iter().all(|&byte| byte == 0));
    }

    #[test]
    fn two_starts_of_one_service_are_two_tables() {
        let (mut record, mut store) = (fresh(), zeroed());
        for start in [0, 1, 0xFFFF_FFFF] {
            let key = list(0x1001, 7, start);
            let payload = list_of(key, 3, 1, 2, &[1, 2, 3]);
            assert_eq!(
                offer(&mut record, &mut store, &payload),
                Ok(Accepted::Began)
            );
            let mut out = [0; 20];
            assert_eq!(copy_section(&record, &store, key, 1, &mut out), Ok(17));
            assert_eq!(out[..17], payload[..]);
        }
        assert_eq!(complete(&record, &store, list(0x1001, 7, 2)), Err(14));
        assert_eq!(complete(&record, &store, list(0x1001, 6, 0)), Err(14));
        assert_eq!(complete(&record, &store, list(0x1000, 7, 0)), Err(14));
    }

    #[test]
    fn time_span_length_is_none_of_the_key() {
        let (mut record, mut store) = (fresh(), zeroed());
        let key = list(0x1001, 7, 3600);
        offer(
            &mut record,
            &mut store,
            &list_of(key, 3, 0, 1, &[0xF8, 60, 0]),
        )
        .unwrap();
        let other = list_of(key, 3, 0, 1, &[0xF8, 61, 0]);
        assert_eq!(offer_strictly(&mut record, &mut store, &other), Err(10));
        let second = list_of(key, 3, 1, 1, &[0xF8, 61, 0]);
        assert_eq!(offer(&mut record, &mut store, &second), Ok(Accepted::Added));
        assert_eq!(complete(&record, &store, key), Ok(true));
    }

    #[test]
    fn other_tables_never_differ_by_their_bodies() {
        // The bodies would be other services and starts of an NRT-IT. 0xE1 too has
        // such fields in document 004, and keeps the old key.
        let bodies: [&[u8]; 4] = [&[], &[1], &[0, 7, 0, 0, 0, 9], &[0, 8, 0, 0, 0, 9]];
        for table_id in [0, 0x40, 0xDE, 0xE0, 0xE1, 0xFF] {
            let (mut record, mut store) = (fresh(), zeroed());
            for (version, body) in (0..).zip(bodies) {
                let payload = testing::section(table_id, 7, version, 0, 1, body);
                let expected = if version == 0 {
                    Accepted::Began
                } else {
                    Accepted::BeganAgain
                };
                assert_eq!(offer(&mut record, &mut store, &payload), Ok(expected));
                let second = testing::section(table_id, 7, version, 1, 1, &[9, version]);
                assert_eq!(offer(&mut record, &mut store, &second), Ok(Accepted::Added));
                assert_eq!(complete(&record, &store, plain(table_id, 7)), Ok(true));
                assert_eq!(find(&record, plain(table_id, 7)), Some(0));
                let other = testing::section(table_id, 7, version, 0, 1, &[0, 9, 0, 0, 0, 0]);
                assert_eq!(offer_strictly(&mut record, &mut store, &other), Err(10));
            }
        }
    }

    #[test]
    fn a_new_key_by_any_one_field_takes_a_place_or_is_9() {
        for left_out in 0..5 {
            let (mut record, mut store) = (fresh(), zeroed());
            for (which, &key) in FIVE.iter().enumerate() {
                if which != left_out {
                    let payload = of_five(key, which as u8, 0, 0);
                    let answer = offer(&mut record, &mut store, &payload);
                    assert_eq!(answer, Ok(Accepted::Began));
                }
            }
            let payload = of_five(FIVE[left_out], 0, 0, 0);
            assert_eq!(offer_strictly(&mut record, &mut store, &payload), Err(9));
            assert_eq!(complete(&record, &store, FIVE[left_out]), Err(14));
            // Held keys still begin again.
            for (which, &key) in FIVE.iter().enumerate() {
                if which != left_out {
                    let payload = of_five(key, 31, 0, 0);
                    let answer = offer(&mut record, &mut store, &payload);
                    assert_eq!(answer, Ok(Accepted::BeganAgain));
                }
            }
        }
    }

    #[test]
    fn an_nrt_it_without_its_key_is_46_before_9_and_10() {
        let (mut record, mut store) = (fresh(), zeroed());
        let short = |size: usize, version, last| {
            testing::section(0xDF, 0x1001, version, 0, last, &vec![0; size - 8])
        };
        let key = list(0x1001, 0, 0);
        for size in [8, 13] {
            let payload = short(size, 0, 0);
            assert_eq!(offer_strictly(&mut record, &mut store, &payload), Err(46));
        }
        assert_eq!(
            offer(&mut record, &mut store, &short(14, 0, 0)),
            Ok(Accepted::Began)
        );
        assert_eq!(complete(&record, &store, key), Ok(true));
        // Beside the table that its bytes could begin: as a repeat cut short, with
        // another last number (10), with another version; and on a full shelf (9).
        for filled in 0..4 {
            if filled > 0 {
                let other = testing::section(filled, 0, 0, 0, 0, &[]);
                offer(&mut record, &mut store, &other).unwrap();
            }
            for size in 8..14 {
                for (version, last) in [(0, 0), (0, 1), (1, 0)] {
                    let payload = short(size, version, last);
                    assert_eq!(offer_strictly(&mut record, &mut store, &payload), Err(46));
                }
            }
        }
        let ten = short(14, 0, 1);
        assert_eq!(offer_strictly(&mut record, &mut store, &ten), Err(10));
        let nine = list_of(list(0x1001, 0, 1), 0, 0, 0, &[]);
        assert_eq!(offer_strictly(&mut record, &mut store, &nine), Err(9));
        // 1 to 8 come first, and 17 and 18 before them.
        let mut next = short(13, 0, 0);
        next[5] &= 0xFE;
        assert_eq!(offer_strictly(&mut record, &mut store, &next), Err(8));
        let mut other = record;
        other.places[3].version = 32;
        assert_eq!(offer(&mut other, &mut store, &short(13, 0, 0)), Err(18));
        assert_eq!(offer(&mut other, &mut [], &short(13, 0, 0)), Err(17));
    }

    #[test]
    fn two_places_of_one_key_are_18() {
        let store = zeroed();
        let place = |key| Place {
            taken: true,
            key,
            version: 0,
            last: 0,
            lengths: [14, 0, 0, 0, 0, 0, 0, 0, 0, 0, 0, 0, 0, 0, 0, 0],
        };
        // Keys that differ in one field alone stand side by side.
        for one in FIVE {
            for other in FIVE {
                let mut record = fresh();
                record.places[1] = place(one);
                record.places[3] = place(other);
                if one == other {
                    all_refused(&record, &store, one, 18);
                } else {
                    assert_eq!(complete(&record, &store, one), Ok(true));
                    assert_eq!(complete(&record, &store, other), Ok(true));
                }
            }
        }
        // The added fields of another table do not keep two places apart.
        for table_id in (0..=255).filter(|&table_id| table_id != 0xDF) {
            let by_hand = |service_id, time_span_start| Key {
                table_id,
                extension: 7,
                service_id,
                time_span_start,
            };
            for other in [by_hand(0, 0), by_hand(1, 0), by_hand(0, 1), by_hand(5, 6)] {
                let mut record = fresh();
                record.places[0] = place(by_hand(5, 0));
                record.places[2] = place(other);
                assert_eq!(check(&record, &store), Err(18));
                record.places[2].key.extension = 8;
                assert_eq!(check(&record, &store), Ok(()));
                record.places[2].key.extension = 7;
                record.places[2].taken = false;
                assert_eq!(check(&record, &store), Ok(()));
            }
        }
        // The lengths that 18 allows are the same for the NRT-IT.
        let mut record = fresh();
        record.places[0] = place(FIVE[0]);
        for (length, answer) in [(7, Err(18)), (8, Ok(())), (13, Ok(())), (14, Ok(()))] {
            record.places[0].lengths[0] = length;
            assert_eq!(check(&record, &store), answer);
        }
    }

    #[test]
    fn a_question_may_be_put_with_any_four_numbers() {
        let (mut record, mut store) = (fresh(), zeroed());
        let held = list(7, 5, 6);
        offer(&mut record, &mut store, &of(0, 0, 1, &[])).unwrap();
        offer(&mut record, &mut store, &list_of(held, 0, 0, 1, &[])).unwrap();
        let mut out = [0; 14];
        for (service_id, time_span_start) in [(0, 0), (5, 6), (1, 0), (0, 1), (0xFFFF, u32::MAX)] {
            let asked = |table_id, extension| Key {
                table_id,
                extension,
                service_id,
                time_span_start,
            };
            // Of another table the added numbers are disregarded.
            let key = asked(0x40, 7);
            assert_eq!(complete(&record, &store, key), Ok(false));
            assert_eq!(lowest_missing(&record, &store, key), Ok(Some(1)));
            assert_eq!(copy_section(&record, &store, key, 0, &mut out), Ok(8));
            let (mut other, mut other_store) = (record, store.clone());
            assert_eq!(release(&mut other, &mut other_store, key), Ok(()));
            assert_eq!(other.places[0], FREE);
            assert_eq!(complete(&record, &store, asked(0x41, 7)), Err(14));
            assert_eq!(complete(&record, &store, asked(0x40, 8)), Err(14));
            // Of the NRT-IT they are not.
            let key = asked(0xDF, 7);
            let this = key == held;
            let answer = |answer| if this { Ok(answer) } else { Err(14) };
            assert_eq!(complete(&record, &store, key), answer(false));
            assert_eq!(
                lowest_missing(&record, &store, key),
                if this { Ok(Some(1)) } else { Err(14) }
            );
            assert_eq!(
                copy_section(&record, &store, key, 0, &mut out),
                if this { Ok(14) } else { Err(14) }
            );
            let (mut other, mut other_store) = (record, store.clone());
            assert_eq!(
                release(&mut other, &mut other_store, key),
                if this { Ok(()) } else { Err(14) }
            );
            assert_eq!(other.places[1].taken, !this);
        }
    }

    #[test]
    fn the_key_told_is_a_proper_one() {
        let (mut record, mut store) = (fresh(), zeroed());
        let held = list(7, 5, 6);
        offer(&mut record, &mut store, &of(0, 0, 1, &[])).unwrap();
        offer(&mut record, &mut store, &list_of(held, 0, 0, 1, &[])).unwrap();
        for (p, key) in [(0, KEY), (1, held)] {
            assert_eq!(record.places[p].key, key);
            assert_eq!(table(&record, &store, p as u8).unwrap().key, key);
        }
        // A lent record with something in the fields that mean nothing.
        let clean = record;
        (record.places[0].key.service_id, record.places[3].key) = (9, held);
        record.places[0].key.time_span_start = 10;
        assert_eq!(table(&record, &store, 0).unwrap().key, KEY);
        assert_eq!(
            table(&record, &store, 0).unwrap(),
            table(&clean, &store, 0).unwrap()
        );
        assert!(equal(&record, &clean) && equal(&clean, &record));
        // Of the NRT-IT they mean another table.
        for change in [
            (|place| place.key.service_id ^= 1) as fn(&mut Place),
            |place| place.key.time_span_start ^= 0x8000_0000,
        ] {
            let mut other = clean;
            change(&mut other.places[1]);
            assert!(!equal(&clean, &other) && !equal(&other, &clean));
            assert_ne!(table(&other, &store, 1), table(&clean, &store, 1));
            assert_eq!(complete(&other, &store, held), Err(14));
        }
    }

    /// A key straight from a sound section's bytes.
    fn bytes_of_key(payload: &[u8]) -> Vec<u8> {
        if payload[0] == 0xDF {
            [&payload[..1], &payload[3..5], &payload[8..14]].concat()
        } else {
            [&payload[..1], &payload[3..5]].concat()
        }
    }

    /// What a plain list of the held sections would answer to an offer. A table is
    /// its sections; place p of the shelf is place p of the list.
    fn model_offer(model: &mut [Vec<Vec<u8>>; 4], payload: &[u8]) -> Result<Accepted, u8> {
        if payload[0] == 0xDF && payload.len() < 14 {
            return Err(46);
        }
        let key = bytes_of_key(payload);
        let held = model
            .iter_mut()
            .find(|table| table.first().is_some_and(|one| bytes_of_key(one) == key));
        let Some(table) = held else {
            let free = model.iter_mut().find(|table| table.is_empty()).ok_or(9)?;
            free.push(payload.to_vec());
            return Ok(Accepted::Began);
        };
        if table[0][5] != payload[5] {
            *table = vec![payload.to_vec()];
            return Ok(Accepted::BeganAgain);
        }
        if table[0][7] != payload[7] {
            return Err(10);
        }
        match table.iter().find(|one| one[6] == payload[6]) {
            None => {
                table.push(payload.to_vec());
                Ok(Accepted::Added)
            }
            Some(one) if one == payload => Ok(Accepted::Repeat),
            Some(_) => Err(10),
        }
    }

    /// The record and the store agree with the plain list, question by question.
    fn agrees(record: &Record, store: &[u8], model: &[Vec<Vec<u8>>; 4], noise: u32) {
        for (p, sections) in model.iter().enumerate() {
            let Some(first) = sections.first() else {
                assert_eq!(table(record, store, p as u8), Err(14));
                continue;
            };
            let key = section::read(first).unwrap().key();
            let told = table(record, store, p as u8).unwrap();
            assert_eq!(told.key, key);
            assert_eq!((told.version, told.last), (first[5] >> 1 & 31, first[7]));
            // Asked with something in the numbers that mean nothing.
            let mut asked = key;
            if key.table_id != 0xDF {
                (asked.service_id, asked.time_span_start) = (noise as u16, noise);
            }
            let holds = |number| sections.iter().find(|one| one[6] == number);
            let missing = (0..=first[7]).find(|&number| holds(number).is_none());
            assert_eq!(lowest_missing(record, store, asked), Ok(missing));
            assert_eq!(complete(record, store, asked), Ok(missing.is_none()));
            for number in 0..16 {
                let mut out = [0; 1024];
                let answer = copy_section(record, store, asked, number, &mut out);
                let length = holds(number).map(Vec::len);
                assert_eq!(answer, length.ok_or(16));
                assert_eq!(
                    usize::from(told.lengths[usize::from(number)]),
                    length.unwrap_or(0)
                );
                if let Some(one) = holds(number) {
                    assert!(out[..one.len()] == one[..]);
                }
            }
        }
    }

    #[test]
    fn random_histories_with_nrt_its() {
        let mut dice = Dice(0xDF);
        let mut seen = [0; 7];
        for _ in 0..60 {
            let (mut record, mut store) = (fresh(), zeroed());
            let mut model: [Vec<Vec<u8>>; 4] = Default::default();
            for _ in 0..120 {
                // Mostly NRT-ITs, of two extensions, services and starts.
                let table_id = [0xDF, 0xDF, 0xDF, 0xE1][dice.below(4)];
                let extension = 0x1000 + (dice.below(8) == 0) as u16;
                let service_id = dice.below(2) as u16 * 0x100;
                let time_span_start = dice.below(2) as u32 * 0x0100_0000;
                let version = (dice.below(12) == 0) as u8;
                let last = 2 + (dice.below(20) == 0) as u8;
                let number = dice.below(3) as u8;
                let mut payload = testing::nrt_it(
                    (extension, service_id, time_span_start),
                    version,
                    number,
                    last,
                    &[number, (dice.below(20) == 0) as u8],
                );
                payload[0] = table_id;
                if dice.below(12) == 0 {
                    let size = 8 + dice.below(7);
                    payload.truncate(size);
                    payload[2] = (size - 3) as u8;
                }
                let answer = offer_strictly(&mut record, &mut store, &payload);
                assert_eq!(answer, model_offer(&mut model, &payload));
                seen[match answer {
                    Ok(Accepted::Began) => 0,
                    Ok(Accepted::BeganAgain) => 1,
                    Ok(Accepted::Added) => 2,
                    Ok(Accepted::Repeat) => 3,
                    Err(9) => 4,
                    Err(10) => 5,
                    _ => 6,
                }] += 1;

                // What means nothing may change between two calls.
                let noise = dice.next() as u32;
                for place in &mut record.places {
                    if !place.taken || place.key.table_id != 0xDF {
                        place.key.service_id = noise as u16;
                        place.key.time_span_start = noise >> 3;
                    }
                }
                if dice.below(15) == 0 {
                    let p = dice.below(4);
                    if let Some(first) = model[p].first() {
                        let key = section::read(first).unwrap().key();
                        assert_eq!(release(&mut record, &mut store, key), Ok(()));
                        assert_eq!(release(&mut record, &mut store, key), Err(14));
                        assert!(store[p * 16 * 1024..][..16 * 1024].iter().all(|&b| b == 0));
                        model[p].clear();
                    }
                }
                agrees(&record, &store, &model, noise);
            }
        }
        assert!(seen.iter().all(|&count| count > 20), "{seen:?}");
    }
}
