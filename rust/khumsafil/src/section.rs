//! One table section read from a payload.

use crate::{boundary, Key, Refusal};

/// What a sound section's header says, and its body.
///
/// Made by [`read`] alone.
#[non_exhaustive]
#[derive(Clone, Copy, Debug, PartialEq, Eq)]
pub struct Section<'a> {
    /// The key of its table.
    pub key: Key,
    /// The version, at most 31.
    pub version: u8,
    /// The section number, at most `last`.
    pub number: u8,
    /// The last section number, at most 15.
    pub last: u8,
    /// The part of the payload after the header.
    pub body: &'a [u8],
}

/// The bytes before the body.
pub const HEADER: usize = 8;

/// Reads the payload as one section, or says by which of the numbers 1 to 8 and 46 it is refused.
///
/// ```
/// use khumsafil::{section, Key, Refusal};
///
/// let datagram = [0xC9, 0x70, 0x05, 0x12, 0x34, 0xC7, 0x00, 0x00];
/// let read = section::read(&datagram).expect("a sound section");
/// assert_eq!((read.key, read.version), (Key::new(0xC9, 0x1234), 3));
/// assert_eq!(section::read(&datagram[..7]), Err(Refusal::PAYLOAD_SHORT));
///
/// // An NRT-IT has service and start in its key.
/// let list = [0xDF, 0x70, 0x0B, 0x10, 0x01, 0xC7, 0, 0, 0, 7, 0x3B, 0x9A, 0xCD, 0x20];
/// assert_eq!(section::read(&list)?.key, Key::nrt_it(4_097, 7, 1_000_000_800));
/// let short = [0xDF, 0x70, 0x0A, 0x10, 0x01, 0xC7, 0, 0, 0, 7, 0x3B, 0x9A, 0xCD];
/// assert_eq!(section::read(&short), Err(Refusal::KEY_SHORT));
/// # Ok::<(), Refusal>(())
/// ```
#[inline]
pub fn read(payload: &[u8]) -> Result<Section<'_>, Refusal> {
    // SAFETY: the pointer and the length are those of a slice, and the library only reads.
    let word = unsafe { boundary::khumsafil_raw_section_read(payload.as_ptr(), payload.len()) };
    match word as u8 {
        0 => Ok(Section {
            key: key_of(payload, (word >> 8) as u8, (word >> 16) as u16),
            version: (word >> 32) as u8,
            number: (word >> 40) as u8,
            last: (word >> 48) as u8,
            body: payload.get(HEADER..).unwrap_or_default(),
        }),
        number => Err(Refusal::of(number)),
    }
}

/// The key of a sound section. The library is asked for the rest of it where there is one.
#[inline]
fn key_of(payload: &[u8], table_id: u8, extension: u16) -> Key {
    if table_id != Key::NRT_IT {
        return Key::new(table_id, extension);
    }
    // SAFETY: the pointer and the length are those of a slice, and the library only reads.
    let rest = unsafe { boundary::khumsafil_raw_section_key(payload.as_ptr(), payload.len()) };
    Key::nrt_it(extension, (rest >> 8) as u16, (rest >> 24) as u32)
}
