//! The bench's section writer (document 02, request 1, and 59 of request 4).

use crate::key::NRT_IT;
use crate::section::HEADER;

/// Bytes of a full body.
pub const BODY: usize = 1016;
/// Bytes of the longest table body: 16 bodies of 1,016.
pub const MOST: usize = 16_256;

/// How many sections of this table a body of this length takes: as few as will do,
/// and one for an empty body. Refusals: 59, 40.
pub fn count(table_id: u8, body_length: usize) -> Result<u8, u8> {
    // The bodies of an NRT-IT would each have to begin with its key.
    if table_id == NRT_IT {
        return Err(59);
    }
    if body_length > MOST {
        return Err(40);
    }
    let full_or_part = body_length.div_ceil(BODY);
    Ok(full_or_part.max(1) as u8)
}

/// Writes section k of the table and answers how many bytes it has.
/// Refusals: 59, 40, 41, 42, 15.
pub fn write(
    table_id: u8,
    extension: u16,
    version: u8,
    body: &[u8],
    k: u8,
    out: &mut [u8],
) -> Result<usize, u8> {
    let last = count(table_id, body.len())? - 1;
    if version > 31 {
        return Err(41);
    }
    if k > last {
        return Err(42);
    }

    // Each body is full but the last.
    let start = BODY * usize::from(k);
    let end = body.len().min(start + BODY);
    let part = &body[start..end];
    let size = HEADER + part.len();
    if out.len() < size {
        return Err(15);
    }

    // Syntax indicator 0, private indicator 1, reserved bits 1, current/next 1.
    let section_length = size - 3;
    out[0] = table_id;
    out[1] = 0x70 | (section_length >> 8) as u8;
    out[2] = (section_length & 0xFF) as u8;
    out[3..5].copy_from_slice(&extension.to_be_bytes());
    out[5] = 0xC1 | (version << 1);
    out[6] = k;
    out[7] = last;
    out[HEADER..size].copy_from_slice(part);
    Ok(size)
}

#[cfg(test)]
mod tests {
    use super::*;
    use crate::key::Key;
    use crate::section;
    use crate::shelf::{self, STORE};
    use crate::testing::Dice;

    #[test]
    fn as_few_as_will_do() {
        assert_eq!(count(0x42, 0), Ok(1));
        assert_eq!(count(0x42, 1), Ok(1));
        assert_eq!(count(0x42, 1016), Ok(1));
        assert_eq!(count(0x42, 1017), Ok(2));
        assert_eq!(count(0x42, 2032), Ok(2));
        assert_eq!(count(0x42, 15_240), Ok(15));
        assert_eq!(count(0x42, 15_241), Ok(16));
        assert_eq!(count(0x42, 16_256), Ok(16));
        assert_eq!(count(0x42, 16_257), Err(40));
        assert_eq!(count(0x42, usize::MAX), Err(40));
    }

    #[test]
    fn the_nrt_it_is_59_before_all() {
        let mut out = [9; 1024];
        for size in [0, 6, 1016, 16_256, 16_257, usize::MAX] {
            assert_eq!(count(0xDF, size), Err(59));
        }
        let (most, more) = ([0; 16_256], [0; 16_257]);
        // Beside nothing, 40, 41, 42, 15, and all of them.
        assert_eq!(write(0xDF, 2, 31, &[], 0, &mut out), Err(59));
        assert_eq!(write(0xDF, 2, 31, &more, 0, &mut out), Err(59));
        assert_eq!(write(0xDF, 2, 32, &[], 0, &mut out), Err(59));
        assert_eq!(write(0xDF, 2, 31, &[], 1, &mut out), Err(59));
        assert_eq!(write(0xDF, 2, 31, &most, 15, &mut out[..1023]), Err(59));
        assert_eq!(write(0xDF, 2, 255, &more, 255, &mut []), Err(59));
        assert_eq!(out, [9; 1024]);
        // A body that begins with a key does not help.
        assert_eq!(
            write(0xDF, 2, 31, &[1, 2, 3, 4, 5, 6], 0, &mut out),
            Err(59)
        );
        // Every other id is written.
        for table_id in (0..=255).filter(|&table_id| table_id != 0xDF) {
            assert_eq!(count(table_id, 1017), Ok(2));
            assert_eq!(count(table_id, 16_257), Err(40));
            assert_eq!(write(table_id, 2, 31, &[], 0, &mut out), Ok(8));
            assert_eq!(out[0], table_id);
        }
    }

    #[test]
    fn an_empty_body_gives_one_section_of_8_bytes() {
        let mut out = [9; 10];
        assert_eq!(write(0xC9, 0x1234, 3, &[], 0, &mut out), Ok(8));
        assert_eq!(out, [0xC9, 0x70, 0x05, 0x12, 0x34, 0xC7, 0, 0, 9, 9]);
        assert_eq!(write(0xC9, 0x1234, 3, &[], 1, &mut out), Err(42));
    }

    #[test]
    fn refusals_40_41_42_15() {
        let mut out = [9; 1023];
        assert_eq!(write(1, 2, 32, &[0; 16_257], 16, &mut []), Err(40));
        assert_eq!(write(1, 2, 32, &[0; 16_256], 16, &mut []), Err(41));
        assert_eq!(write(1, 2, 255, &[], 0, &mut out), Err(41));
        assert_eq!(write(1, 2, 31, &[0; 16_256], 16, &mut []), Err(42));
        assert_eq!(write(1, 2, 31, &[0; 16_256], 15, &mut out), Err(15));
        assert_eq!(write(1, 2, 31, &[0; 1017], 0, &mut out), Err(15));
        assert_eq!(out, [9; 1023]);
        assert_eq!(write(1, 2, 31, &[0; 1017], 1, &mut out), Ok(9));
        assert_eq!(out[9..], [9; 1014]);
    }

    #[test]
    fn offered_in_any_order_they_make_the_table() {
        let key = Key::new(0x42, 0xFFFE, 0, 0);
        let mut dice = Dice(3);
        for size in [0, 1, 1015, 1016, 1017, 2032, 5000, 16_255, 16_256] {
            let body = dice.bytes(size);
            let sections = count(0x42, size).unwrap();
            let mut order: Vec<u8> = (0..sections).collect();
            for place in (1..order.len()).rev() {
                order.swap(place, dice.below(place + 1));
            }
            let (mut record, mut store) = (shelf::fresh(), vec![0; STORE]);
            let mut out = [0; 1024];
            for (done, &k) in order.iter().enumerate() {
                let length = write(0x42, 0xFFFE, 17, &body, k, &mut out).unwrap();
                let read = section::read(&out[..length]).unwrap();
                assert_eq!((read.number, read.last), (k, sections - 1));
                assert!(read.body_length == BODY || k == sections - 1);
                assert_eq!((out[1] & 0x30, out[5] & 0xC0), (0x30, 0xC0));
                shelf::offer(&mut record, &mut store, &out[..length]).unwrap();
                assert_eq!(
                    shelf::complete(&record, &store, key),
                    Ok(done + 1 == order.len())
                );
            }
            let mut joined = Vec::new();
            for k in 0..sections {
                let length = shelf::copy_section(&record, &store, key, k, &mut out).unwrap();
                joined.extend_from_slice(&out[HEADER..length]);
            }
            assert!(joined == body);
        }
    }
}
