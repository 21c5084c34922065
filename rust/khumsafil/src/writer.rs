//! The bench's section writer: the sections of a table that carries a body, and the file of them all.
//!
//! ```
//! use khumsafil::writer::{self, Label};
//! use khumsafil::{section, shelf, Key, Refusal};
//!
//! let label = Label::new(Key::new(0xC9, 0x1234), 3);
//! let body = [7; 1_017];
//! assert_eq!(writer::count(0xC9, body.len())?, 2);
//! let mut out = [0; shelf::LARGEST_SECTION];
//! let size = writer::section(label, &body, 1, &mut out)?;
//! assert_eq!(out[..size], [0xC9, 0x70, 0x06, 0x12, 0x34, 0xC7, 1, 1, 7]);
//! assert_eq!(section::read(&out[..size])?.number, 1);
//! // It writes no NRT-IT.
//! assert_eq!(writer::count(Key::NRT_IT, body.len()), Err(Refusal::ASKED_FOR_NRT_IT));
//! # Ok::<(), Refusal>(())
//! ```

use crate::{boundary, shelf, Key, Refusal};

/// The most bytes of a body: 16 bodies of 1,016.
pub const LARGEST_BODY: usize = 16_256;

/// What every section of a table has.
///
/// Made by [`Label::new`] alone. The writer writes no NRT-IT, so table id and extension are all that it takes of the key.
#[non_exhaustive]
#[derive(Clone, Copy, Debug, PartialEq, Eq, Hash)]
pub struct Label {
    /// The table's key.
    pub key: Key,
    /// The version, at most 31.
    pub version: u8,
}

impl Label {
    /// The label with a key and a version.
    pub const fn new(key: Key, version: u8) -> Label {
        Label { key, version }
    }
}

/// How many sections a body of so many bytes makes in a table with that id, 1 to 16: as few as will do. Refused: 59, 40.
#[inline]
pub fn count(table_id: u8, length: usize) -> Result<u8, Refusal> {
    // SAFETY: the call takes numbers and gives a number.
    let word = unsafe { boundary::khumsafil_raw_writer_count(table_id, length) };
    shelf::answered(u32::from(word)).map(|count| count as u8)
}

/// Writes section `k` of the table that carries the body to the front of `out`, and gives its size. Bytes of `out` past it stay
/// as they were. Refused: 59, 40, 41, 42, 15.
#[inline]
pub fn section(label: Label, body: &[u8], k: u8, out: &mut [u8]) -> Result<usize, Refusal> {
    // SAFETY: pointers and lengths are those of slices, and the one that is written is not part of the other.
    let word = unsafe {
        boundary::khumsafil_raw_writer_section(
            label.key.table_id,
            label.key.extension,
            label.version,
            body.as_ptr(),
            body.len(),
            k,
            out.as_mut_ptr(),
            out.len(),
        )
    };
    shelf::answered(word).map(|size| size as usize)
}

/// Writes the shelf file of the table that carries the body, with all its sections, to the front of `out`, and gives its size.
/// Bytes of `out` past it stay as they were. Refused: 59, 40, 41, 15.
///
/// ```
/// use khumsafil::writer::{self, Label};
/// use khumsafil::{file, shelf, Key};
///
/// let label = Label::new(Key::new(0xC9, 0x1234), 3);
/// let mut out = [0; shelf::LARGEST_FILE];
/// let size = writer::file(label, &[], &mut out)?;
/// let mut text = [0; file::LARGEST_LIST];
/// let listed = "table 201 key 4660 version 3 last 0\nsection 0 bytes 8\ncomplete\n";
/// assert_eq!(file::list(&out[..size], &mut text)?, listed);
/// # Ok::<(), khumsafil::Refusal>(())
/// ```
#[inline]
pub fn file(label: Label, body: &[u8], out: &mut [u8]) -> Result<usize, Refusal> {
    // SAFETY: pointers and lengths are those of slices, and the one that is written is not part of the other.
    let word = unsafe {
        boundary::khumsafil_raw_writer_file(
            label.key.table_id,
            label.key.extension,
            label.version,
            body.as_ptr(),
            body.len(),
            out.as_mut_ptr(),
            out.len(),
        )
    };
    shelf::answered(word).map(|size| size as usize)
}
