//! What a shelf file says. [`crate::shelf`] saves and loads such files.

use crate::shelf::{self, Table, TABLE_FIELDS};
use crate::{boundary, Refusal};

/// The most bytes of a file's list.
pub const LARGEST_LIST: usize = 421;

/// Which table the file is, with what it has of it. Refused: the file's first fault (11, 12, 2 to 8, 46).
///
/// ```
/// use khumsafil::{file, Key, Refusal};
///
/// let saved = [1, 1, 8, 0xC9, 0x70, 0x05, 0x12, 0x34, 0xC7, 0x00, 0x00];
/// let table = file::table(&saved)?;
/// assert_eq!((table.key, table.version, table.last), (Key::new(201, 4_660), 3, 0));
/// assert!(table.is_complete());
/// assert_eq!(file::table(&saved[..10]), Err(Refusal::BAD_FILE));
/// # Ok::<(), Refusal>(())
/// ```
#[inline]
pub fn table(file: &[u8]) -> Result<Table, Refusal> {
    let mut fields = [0; TABLE_FIELDS];
    table_fields(file, &mut fields)?;
    Ok(Table::of(fields))
}

/// Puts which table the file is into the first [`TABLE_FIELDS`] numbers of `fields`, in the header's order. Refused: as
/// [`table`], and then 15 where fewer are lent.
#[inline]
pub fn table_fields(file: &[u8], fields: &mut [u16]) -> Result<(), Refusal> {
    // SAFETY: pointers and lengths are those of slices, and the one that is written is not part of the other.
    shelf::done(unsafe {
        boundary::khumsafil_raw_file_table(
            file.as_ptr(),
            file.len(),
            fields.as_mut_ptr(),
            fields.len(),
        )
    })
}

/// Puts at the front of `out` what the file holds, or by which number it is refused, and gives that text. Refused: 15.
///
/// ```
/// use khumsafil::file;
///
/// let mut out = [0; file::LARGEST_LIST];
/// assert_eq!(file::list(&[], &mut out), Ok("refused 11\n"));
/// let saved = [1, 1, 8, 0xC9, 0x70, 0x05, 0x12, 0x34, 0xC7, 0x00, 0x00];
/// let text = "table 201 key 4660 version 3 last 0\nsection 0 bytes 8\ncomplete\n";
/// assert_eq!(file::list(&saved, &mut out), Ok(text));
/// ```
#[inline]
pub fn list<'a>(file: &[u8], out: &'a mut [u8]) -> Result<&'a str, Refusal> {
    // SAFETY: pointers and lengths are those of slices, and the one that is written is not part of the other.
    let word = unsafe {
        boundary::khumsafil_raw_file_list(file.as_ptr(), file.len(), out.as_mut_ptr(), out.len())
    };
    let size = shelf::answered(word)? as usize;
    let text = out.get(..size).unwrap_or_default();
    Ok(core::str::from_utf8(text).unwrap_or_default())
}

/// A seven-bit number, and how many bytes it takes.
#[derive(Clone, Copy, Debug, PartialEq, Eq)]
pub struct Number {
    /// The number.
    pub value: u16,
    /// How many bytes it takes, 1 to 3.
    pub size: usize,
}

/// The seven-bit number at the front of some bytes; what follows it is not looked at. Refused: 11.
///
/// ```
/// use khumsafil::file::{self, Number};
/// use khumsafil::Refusal;
///
/// assert_eq!(file::number(&[0x80, 0x01, 9]), Ok(Number { value: 128, size: 2 }));
/// assert_eq!(file::number(&[0x80, 0x00]), Err(Refusal::BAD_NUMBER));
/// ```
#[inline]
pub fn number(bytes: &[u8]) -> Result<Number, Refusal> {
    // SAFETY: the pointer and the length are those of a slice, and the library only reads.
    let word = unsafe { boundary::khumsafil_raw_file_number(bytes.as_ptr(), bytes.len()) };
    shelf::answered(word).map(|found| Number {
        value: found as u16,
        size: (found >> 16) as usize,
    })
}
