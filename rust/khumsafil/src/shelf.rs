//! The shelf: four tables of sixteen sections each, kept in a lent store.
//!
//! A [`Shelf`] keeps the record, and borrows the store of [`STORE`] bytes for as long as it lives, so that the two stay
//! together. [`Record`] is the record by itself, to put away beside the store and to take up again. [`lent`] has the same
//! calls for a host that keeps both itself. A refused call leaves record, store and output as they were.
//!
//! ```
//! use khumsafil::shelf::{self, Accepted, Key, Shelf};
//!
//! let mut store = vec![0; shelf::STORE];
//! let mut shelf = Shelf::begin(&mut store)?;
//! let datagram = [0xC9, 0x70, 0x05, 0x12, 0x34, 0xC7, 0x00, 0x00];
//! assert_eq!(shelf.offer(&datagram)?, Accepted::Began);
//! assert_eq!(shelf.offer(&datagram)?, Accepted::Repeat);
//! let key = Key::new(0xC9, 0x1234);
//! assert!(shelf.is_complete(key));
//! let mut file = [0; shelf::LARGEST_FILE];
//! assert_eq!(shelf.save(key, &mut file)?, 11);
//! # Ok::<(), khumsafil::Refusal>(())
//! ```

use crate::{file, Refusal};
use core::fmt;

pub use crate::Key;

pub mod lent;
mod record;

pub use record::Record;

/// How many numbers a record is.
pub const RECORD: usize = 96;

/// How many bytes a store is.
pub const STORE: usize = 65_536;

/// How many places a shelf has.
pub const PLACES: usize = 4;

/// How many sections a table has at most.
pub const SECTIONS: usize = 16;

/// The most bytes of a section.
pub const LARGEST_SECTION: usize = 1_024;

/// The most bytes of a file.
pub const LARGEST_FILE: usize = 16_418;

/// How many numbers a table is answered in.
pub const TABLE_FIELDS: usize = 23;

/// What an accepted section did.
#[derive(Clone, Copy, Debug, PartialEq, Eq)]
pub enum Accepted {
    /// The key was not held; the section begins its table.
    Began = 1,
    /// The key was held with another version; the section begins its table again.
    BeganAgain = 2,
    /// The number was not held; the section is added.
    Added = 3,
    /// The same section was held; nothing changes.
    Repeat = 4,
}

/// A table as a shelf or a file has it.
///
/// Made by the library's answers alone.
#[non_exhaustive]
#[derive(Clone, Debug, PartialEq, Eq)]
pub struct Table {
    /// Its key.
    pub key: Key,
    /// The version, at most 31.
    pub version: u8,
    /// The last section number, at most 15.
    pub last: u8,
    /// The length of each section in bytes, 0 where it is not held.
    pub lengths: [u16; SECTIONS],
}

impl Table {
    /// The table that an answer's numbers are.
    pub(crate) fn of(fields: [u16; TABLE_FIELDS]) -> Table {
        let [table_id, extension, service_id, start_high, start_low, version, last, lengths @ ..] =
            fields;
        let start = u32::from(start_high) << 16 | u32::from(start_low);
        Table {
            key: Key::of(table_id as u8, extension, service_id, start),
            version: version as u8,
            last: last as u8,
            lengths,
        }
    }

    /// Whether section `n` is held.
    pub fn holds(&self, n: u8) -> bool {
        self.length(n).is_some()
    }

    /// How many bytes section `n` is, where it is held.
    pub fn length(&self, n: u8) -> Option<usize> {
        let length = *self.lengths.get(usize::from(n))?;
        (length > 0).then_some(length.into())
    }

    /// The numbers from 0 to the last that are not held, rising.
    pub fn missing(&self) -> impl Iterator<Item = u8> + '_ {
        (0..=self.last).filter(|n| !self.holds(*n))
    }

    /// Whether every section from 0 to the last is held.
    pub fn is_complete(&self) -> bool {
        self.missing().next().is_none()
    }
}

/// An answer that is a number of refusal, or 0.
pub(crate) fn done(number: u8) -> Result<(), Refusal> {
    match number {
        0 => Ok(()),
        number => Err(Refusal::of(number)),
    }
}

/// The low 8 bits of an answer are the refusal, and those above them its value.
pub(crate) fn answered(word: u32) -> Result<u32, Refusal> {
    done(word as u8).map(|()| word >> 8)
}

/// A shelf: its record, and the store that it borrows.
///
/// [`Shelf::begin`] and [`Shelf::resume`] refuse a store of another size and a spoiled record, so no other call does.
///
/// The store is the shelf's while that lives. This does not compile:
///
/// ```compile_fail,E0499
/// # use khumsafil::shelf::{Shelf, STORE};
/// let mut store = vec![0; STORE];
/// let mut shelf = Shelf::begin(&mut store)?;
/// store[0] = 1;
/// shelf.offer(&[])?;
/// # Ok::<(), khumsafil::Refusal>(())
/// ```
///
/// Nor does this, since a copy of a shelf would go out of step with the store:
///
/// ```compile_fail,E0599
/// # use khumsafil::shelf::{Shelf, STORE};
/// let mut store = vec![0; STORE];
/// let shelf = Shelf::begin(&mut store)?;
/// let second = shelf.clone();
/// # Ok::<(), khumsafil::Refusal>(())
/// ```
///
/// ```compile_fail,E0382
/// # use khumsafil::shelf::{Shelf, STORE};
/// let mut store = vec![0; STORE];
/// let shelf = Shelf::begin(&mut store)?;
/// let second = shelf;
/// shelf.store();
/// # Ok::<(), khumsafil::Refusal>(())
/// ```
pub struct Shelf<'a> {
    record: Record,
    store: &'a mut [u8],
}

impl<'a> Shelf<'a> {
    /// A fresh shelf: four free places; the store becomes zeros. Refused: 17.
    pub fn begin(store: &'a mut [u8]) -> Result<Shelf<'a>, Refusal> {
        let mut record = Record::from([0; RECORD]);
        lent::begin(record.numbers_mut(), store)?;
        Ok(Shelf { record, store })
    }

    /// Takes up a record that was put away, with the store that was put away beside it. Another store of the right size is taken as
    /// it stands, since nothing tells the two apart: whether a table is whole is told by the record alone, and copies and files
    /// have what stands in the store. Refused: 17, 18.
    pub fn resume(record: Record, store: &'a mut [u8]) -> Result<Shelf<'a>, Refusal> {
        // There is no such place, so the answer is 14 unless store or record is refused.
        match lent::table(record.numbers(), store, PLACES as u8) {
            Err(refusal) if refusal != Refusal::TABLE_NOT_HELD => Err(refusal),
            _ => Ok(Shelf { record, store }),
        }
    }

    /// The record.
    pub fn record(&self) -> &Record {
        &self.record
    }

    /// The store.
    pub fn store(&self) -> &[u8] {
        self.store
    }

    /// The record and the store, to put them away.
    pub fn into_parts(self) -> (Record, &'a mut [u8]) {
        (self.record, self.store)
    }

    /// Offers a payload. Refused: 1 to 8, 46, 9, 10.
    #[inline]
    pub fn offer(&mut self, payload: &[u8]) -> Result<Accepted, Refusal> {
        lent::offer(self.record.numbers_mut(), self.store, payload)
    }

    /// The lamp: whether the table is held and every section of it, from 0 to its last, is.
    #[inline]
    pub fn is_complete(&self, key: Key) -> bool {
        lent::is_complete(self.record.numbers(), self.store, key)
    }

    /// The same of a held table; one that is not held is told apart. Refused: 14.
    #[inline]
    pub fn complete(&self, key: Key) -> Result<bool, Refusal> {
        lent::complete(self.record.numbers(), self.store, key)
    }

    /// The lowest number of a table that is not held, if there is one. Refused: 14.
    #[inline]
    pub fn lowest_missing(&self, key: Key) -> Result<Option<u8>, Refusal> {
        lent::lowest_missing(self.record.numbers(), self.store, key)
    }

    /// Which table is in a place. Refused: 14, where the place is free or is none of 0 to 3.
    #[inline]
    pub fn table(&self, place: u8) -> Result<Table, Refusal> {
        lent::table(self.record.numbers(), self.store, place)
    }

    /// The tables that are held, by rising place.
    pub fn tables(&self) -> impl Iterator<Item = Table> + '_ {
        (0..PLACES as u8).filter_map(|place| self.table(place).ok())
    }

    /// Copies a held section to the front of `out`, and says how many bytes it is. Refused: 14, 16, 15.
    #[inline]
    pub fn copy_section(&self, key: Key, number: u8, out: &mut [u8]) -> Result<usize, Refusal> {
        lent::copy_section(self.record.numbers(), self.store, key, number, out)
    }

    /// Frees a table's place and zeroes its sixteen berths. Refused: 14.
    #[inline]
    pub fn release(&mut self, key: Key) -> Result<(), Refusal> {
        lent::release(self.record.numbers_mut(), self.store, key)
    }

    /// Saves a held table as a file at the front of `out`, and says how many bytes it is. Refused: 14, 15.
    #[inline]
    pub fn save(&self, key: Key, out: &mut [u8]) -> Result<usize, Refusal> {
        lent::save(self.record.numbers(), self.store, key, out)
    }

    /// Loads a file's table into the lowest free place, and gives that table. Refused: a fault of the file (11, 12, 2
    /// to 8, 46), 13, 9.
    #[inline]
    pub fn load(&mut self, file: &[u8]) -> Result<Table, Refusal> {
        lent::load(self.record.numbers_mut(), self.store, file)?;
        file::table(file)
    }
}

/// The tables, and not the bytes of the store.
impl fmt::Debug for Shelf<'_> {
    fn fmt(&self, f: &mut fmt::Formatter<'_>) -> fmt::Result {
        f.debug_list().entries(self.tables()).finish()
    }
}
