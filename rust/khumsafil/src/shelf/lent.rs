//! The shelf's calls over a record and a store that are lent apart, each of any size.
//!
//! The record is [`RECORD`](super::RECORD) numbers that the host keeps, and the store [`STORE`](super::STORE) bytes. Every
//! value of that many numbers is some record; one that is spoiled, and any other number of them, is refused by 18, and
//! another size of the store by 17 before that. A refused call leaves record, store and output as they were.
//!
//! ```
//! use khumsafil::shelf::{self, lent, Accepted};
//!
//! let (mut record, mut store) = ([0; shelf::RECORD], vec![0; shelf::STORE]);
//! lent::begin(&mut record, &mut store)?;
//! let datagram = [0xC9, 0x70, 0x05, 0x12, 0x34, 0xC7, 0x00, 0x00];
//! assert_eq!(lent::offer(&mut record, &mut store, &datagram)?, Accepted::Began);
//! # Ok::<(), khumsafil::Refusal>(())
//! ```

use super::{answered, done, Accepted, Table, TABLE_FIELDS};
use crate::{boundary, Key, Refusal};

/// What the answers have for a complete table, and for one that nothing is missing of.
const WHOLE: u8 = 1;

/// Makes record and store a fresh shelf: four free places and a store of zeros. Refused: 17, 18.
#[inline]
pub fn begin(record: &mut [u16], store: &mut [u8]) -> Result<(), Refusal> {
    // SAFETY: pointers and lengths are those of slices, of which none is part of another.
    done(unsafe {
        boundary::khumsafil_raw_shelf_begin(
            record.as_mut_ptr(),
            record.len(),
            store.as_mut_ptr(),
            store.len(),
        )
    })
}

/// Offers a payload. Refused: 17, 18, 1 to 8, 46, 9, 10.
#[inline]
pub fn offer(record: &mut [u16], store: &mut [u8], payload: &[u8]) -> Result<Accepted, Refusal> {
    // SAFETY: pointers and lengths are those of slices, of which none that is written is part of another.
    let word = unsafe {
        boundary::khumsafil_raw_shelf_offer(
            record.as_mut_ptr(),
            record.len(),
            store.as_mut_ptr(),
            store.len(),
            payload.as_ptr(),
            payload.len(),
        )
    };
    // What was done stands from bit 8 up. A refused call did nothing, and has its number below.
    match word >> 8 {
        1 => Ok(Accepted::Began),
        2 => Ok(Accepted::BeganAgain),
        3 => Ok(Accepted::Added),
        4 => Ok(Accepted::Repeat),
        _ => Err(Refusal::of(word as u8)),
    }
}

/// Whether the table is held and every section of it, from 0 to its last, is. What [`complete`] refuses is not.
#[inline]
pub fn is_complete(record: &[u16], store: &[u8], key: Key) -> bool {
    // SAFETY: pointers and lengths are those of slices, and the library only reads.
    unsafe {
        boundary::khumsafil_raw_shelf_is_complete(
            record.as_ptr(),
            record.len(),
            store.as_ptr(),
            store.len(),
            key.table_id,
            key.extension,
            key.service_id,
            key.time_span_start,
        )
    }
}

/// Whether every section of a held table, from 0 to its last, is held. Refused: 17, 18, 14.
#[inline]
pub fn complete(record: &[u16], store: &[u8], key: Key) -> Result<bool, Refusal> {
    // SAFETY: pointers and lengths are those of slices, and the library only reads.
    let word = unsafe {
        boundary::khumsafil_raw_shelf_complete(
            record.as_ptr(),
            record.len(),
            store.as_ptr(),
            store.len(),
            key.table_id,
            key.extension,
            key.service_id,
            key.time_span_start,
        )
    };
    answered(word.into()).map(|found| found as u8 == WHOLE)
}

/// The lowest number of a table that is not held, if there is one. Refused: 17, 18, 14.
#[inline]
pub fn lowest_missing(record: &[u16], store: &[u8], key: Key) -> Result<Option<u8>, Refusal> {
    // SAFETY: pointers and lengths are those of slices, and the library only reads.
    let word = unsafe {
        boundary::khumsafil_raw_shelf_lowest_missing(
            record.as_ptr(),
            record.len(),
            store.as_ptr(),
            store.len(),
            key.table_id,
            key.extension,
            key.service_id,
            key.time_span_start,
        )
    };
    answered(word).map(|found| (found as u8 != WHOLE).then_some((found >> 8) as u8))
}

/// Which table is in a place. Refused: 17, 18, and 14 where the place is free or is none of 0 to 3.
#[inline]
pub fn table(record: &[u16], store: &[u8], place: u8) -> Result<Table, Refusal> {
    let mut fields = [0; TABLE_FIELDS];
    table_fields(record, store, place, &mut fields)?;
    Ok(Table::of(fields))
}

/// Puts which table is in a place into the first [`TABLE_FIELDS`] numbers of `fields`, in the header's order. Refused: as
/// [`table`], and then 15 where fewer are lent.
#[inline]
pub fn table_fields(
    record: &[u16],
    store: &[u8],
    place: u8,
    fields: &mut [u16],
) -> Result<(), Refusal> {
    // SAFETY: pointers and lengths are those of slices, and the one that is written is part of no other.
    done(unsafe {
        boundary::khumsafil_raw_shelf_table(
            record.as_ptr(),
            record.len(),
            store.as_ptr(),
            store.len(),
            place,
            fields.as_mut_ptr(),
            fields.len(),
        )
    })
}

/// Copies a held section to the front of `out`, and says how many bytes it is. Refused: 17, 18, 14, 16, 15.
#[inline]
pub fn copy_section(
    record: &[u16],
    store: &[u8],
    key: Key,
    number: u8,
    out: &mut [u8],
) -> Result<usize, Refusal> {
    // SAFETY: pointers and lengths are those of slices, and the one that is written is part of no other.
    let word = unsafe {
        boundary::khumsafil_raw_shelf_copy_section(
            record.as_ptr(),
            record.len(),
            store.as_ptr(),
            store.len(),
            key.table_id,
            key.extension,
            key.service_id,
            key.time_span_start,
            number,
            out.as_mut_ptr(),
            out.len(),
        )
    };
    answered(word).map(|size| size as usize)
}

/// Frees a table's place and zeroes its sixteen berths. Refused: 17, 18, 14.
#[inline]
pub fn release(record: &mut [u16], store: &mut [u8], key: Key) -> Result<(), Refusal> {
    // SAFETY: pointers and lengths are those of slices, of which none is part of another.
    done(unsafe {
        boundary::khumsafil_raw_shelf_release(
            record.as_mut_ptr(),
            record.len(),
            store.as_mut_ptr(),
            store.len(),
            key.table_id,
            key.extension,
            key.service_id,
            key.time_span_start,
        )
    })
}

/// Saves a held table as a file at the front of `out`, and says how many bytes it is. Refused: 17, 18, 14, 15.
#[inline]
pub fn save(record: &[u16], store: &[u8], key: Key, out: &mut [u8]) -> Result<usize, Refusal> {
    // SAFETY: pointers and lengths are those of slices, and the one that is written is part of no other.
    let word = unsafe {
        boundary::khumsafil_raw_shelf_save(
            record.as_ptr(),
            record.len(),
            store.as_ptr(),
            store.len(),
            key.table_id,
            key.extension,
            key.service_id,
            key.time_span_start,
            out.as_mut_ptr(),
            out.len(),
        )
    };
    answered(word).map(|size| size as usize)
}

/// Loads a file's table into the lowest free place. Refused: 17, 18, a fault of the file (11, 12, 2 to 8, 46), 13,
/// 9.
#[inline]
pub fn load(record: &mut [u16], store: &mut [u8], file: &[u8]) -> Result<(), Refusal> {
    // SAFETY: pointers and lengths are those of slices, of which none that is written is part of another.
    done(unsafe {
        boundary::khumsafil_raw_shelf_load(
            record.as_mut_ptr(),
            record.len(),
            store.as_mut_ptr(),
            store.len(),
            file.as_ptr(),
            file.len(),
        )
    })
}
