//! One table section read from a payload (document 01, "A section"; document 02,
//! request 4).

use crate::key::{Key, NRT_IT, NRT_IT_KEY_END};

/// Bytes of the header that stands before the body.
pub const HEADER: usize = 8;

/// The fields of a sound section, and where its body lies in the payload. Of every
/// table but the NRT-IT, service_id and time_span_start are 0.
#[derive(Clone, Copy, Debug, PartialEq, Eq)]
pub struct Section {
    pub table_id: u8,
    pub extension: u16,
    pub service_id: u16,
    pub time_span_start: u32,
    pub version: u8,
    pub number: u8,
    pub last: u8,
    pub body_start: usize,
    pub body_length: usize,
}

impl Section {
    /// The key of the table that this section belongs to.
    pub fn key(&self) -> Key {
        Key::new(
            self.table_id,
            self.extension,
            self.service_id,
            self.time_span_start,
        )
    }
}

/// Reads the payload as one section. The rules 1 to 8 are tried in rising order,
/// then 46; the reserved bits are disregarded.
pub fn read(payload: &[u8]) -> Result<Section, u8> {
    // 1: payload under 8 bytes.
    if payload.len() < HEADER {
        return Err(1);
    }

    // 2: syntax indicator 1 or private indicator 0.
    let syntax_indicator = payload[1] >> 7;
    let private_indicator = (payload[1] >> 6) & 1;
    if syntax_indicator == 1 || private_indicator == 0 {
        return Err(2);
    }

    // 3: section length under 5 or over 1,021.
    let section_length = (usize::from(payload[1] & 0x0F) << 8) | usize::from(payload[2]);
    if !(5..=1021).contains(&section_length) {
        return Err(3);
    }

    // 4 and 5: section longer, or shorter, than its payload.
    let whole = section_length + 3;
    if whole > payload.len() {
        return Err(4);
    }
    if whole < payload.len() {
        return Err(5);
    }

    // 6: section number above last. 7: last number above 15.
    let number = payload[6];
    let last = payload[7];
    if number > last {
        return Err(6);
    }
    if last > 15 {
        return Err(7);
    }

    // 8: current/next is 0.
    if payload[5] & 1 == 0 {
        return Err(8);
    }

    // 46: an NRT-IT too short to hold its key. What stands in the body of another
    // table is not looked at.
    let table_id = payload[0];
    let mut service_id = 0;
    let mut time_span_start = 0;
    if table_id == NRT_IT {
        if whole < NRT_IT_KEY_END {
            return Err(46);
        }
        service_id = u16::from_be_bytes([payload[8], payload[9]]);
        time_span_start = u32::from_be_bytes([payload[10], payload[11], payload[12], payload[13]]);
    }

    Ok(Section {
        table_id,
        extension: u16::from_be_bytes([payload[3], payload[4]]),
        service_id,
        time_span_start,
        version: (payload[5] >> 1) & 0x1F,
        number,
        last,
        body_start: HEADER,
        body_length: whole - HEADER,
    })
}

#[cfg(test)]
mod tests {
    use super::*;

    const P1: [u8; 8] = [0xC9, 0x70, 0x05, 0x12, 0x34, 0xC7, 0x00, 0x00];

    /// A payload of `size` bytes whose section length is `length`.
    fn of_length(length: u16, size: usize) -> Vec<u8> {
        let mut payload = vec![0x5A; size];
        payload[..8].copy_from_slice(&P1);
        payload[1] = 0x70 | (length >> 8) as u8;
        payload[2] = length as u8;
        payload
    }

    #[test]
    fn p1_is_sound() {
        assert_eq!(
            read(&P1),
            Ok(Section {
                table_id: 0xC9,
                extension: 0x1234,
                service_id: 0,
                time_span_start: 0,
                version: 3,
                number: 0,
                last: 0,
                body_start: 8,
                body_length: 0,
            })
        );
    }

    #[test]
    fn p2_one_byte_less_is_1() {
        assert_eq!(read(&P1[..7]), Err(1));
        assert_eq!(read(&[]), Err(1));
    }

    #[test]
    fn p3_longer_than_its_payload_is_4() {
        assert_eq!(read(&[0xC9, 0x70, 0x06, 0x12, 0x34, 0xC7, 0, 0]), Err(4));
    }

    #[test]
    fn p4_one_byte_more_is_5() {
        assert_eq!(read(&[0xC9, 0x70, 0x05, 0x12, 0x34, 0xC7, 0, 0, 0]), Err(5));
    }

    #[test]
    fn p5_syntax_indicator_is_2() {
        assert_eq!(read(&[0xC9, 0xF0, 0x05, 0x12, 0x34, 0xC7, 0, 0]), Err(2));
    }

    #[test]
    fn private_indicator_0_is_2() {
        assert_eq!(read(&[0xC9, 0x30, 0x05, 0x12, 0x34, 0xC7, 0, 0]), Err(2));
        assert_eq!(read(&[0xC9, 0xB0, 0x05, 0x12, 0x34, 0xC7, 0, 0]), Err(2));
    }

    #[test]
    fn p6_next_is_8() {
        assert_eq!(read(&[0xC9, 0x70, 0x05, 0x12, 0x34, 0xC6, 0, 0]), Err(8));
    }

    #[test]
    fn p7_number_above_last_is_6() {
        assert_eq!(read(&[0xC9, 0x70, 0x05, 0x12, 0x34, 0xC7, 1, 0]), Err(6));
    }

    #[test]
    fn p8_last_above_15_is_7_and_15_is_sound() {
        assert_eq!(read(&[0xC9, 0x70, 0x05, 0x12, 0x34, 0xC7, 0, 0x10]), Err(7));
        let sound = read(&[0xC9, 0x70, 0x05, 0x12, 0x34, 0xC7, 0, 0x0F]).unwrap();
        assert_eq!(sound.last, 15);
    }

    #[test]
    fn section_length_1021_is_sound_and_1022_is_3() {
        let sound = read(&of_length(1021, 1024)).unwrap();
        assert_eq!((sound.body_start, sound.body_length), (8, 1016));
        assert_eq!(read(&of_length(1022, 1025)), Err(3));
        assert_eq!(read(&of_length(1022, 1024)), Err(3));
        assert_eq!(read(&of_length(4095, 1024)), Err(3));
    }

    #[test]
    fn section_length_5_is_sound_and_4_is_3() {
        assert!(read(&of_length(5, 8)).is_ok());
        assert_eq!(read(&of_length(4, 8)), Err(3));
        assert_eq!(read(&of_length(0, 8)), Err(3));
    }

    #[test]
    fn the_payload_size_is_not_the_section_size() {
        // "The clipped fare table": the section's own length decides.
        assert_eq!(read(&of_length(1021, 1000)), Err(4));
        assert_eq!(read(&of_length(1021, 1025)), Err(5));
        assert_eq!(read(&of_length(20, 65_000)), Err(5));
    }

    #[test]
    fn reserved_bits_are_disregarded() {
        let sound = read(&P1).unwrap();
        for first in [0x40, 0x50, 0x60, 0x70] {
            for second in [0x07, 0x47, 0x87, 0xC7] {
                let mut payload = P1;
                payload[1] = first;
                payload[5] = second;
                assert_eq!(read(&payload), Ok(sound));
            }
        }
    }

    #[test]
    fn every_version_is_read() {
        for version in 0..32 {
            let mut payload = P1;
            payload[5] = 0xC1 | (version << 1);
            assert_eq!(read(&payload).unwrap().version, version);
        }
    }

    #[test]
    fn faults_answer_in_rising_order() {
        // Every fault from 2 on at once, then mended one after another.
        let mut payload = vec![0xC9, 0xF0, 0x04, 0x12, 0x34, 0xC6, 0x11, 0x10];
        assert_eq!(read(&payload[..7]), Err(1));
        assert_eq!(read(&payload), Err(2));
        payload[1] = 0x70;
        assert_eq!(read(&payload), Err(3));
        payload[2] = 0x06;
        assert_eq!(read(&payload), Err(4));
        payload[2] = 0x05;
        payload.push(0);
        assert_eq!(read(&payload), Err(5));
        payload.pop();
        assert_eq!(read(&payload), Err(6));
        payload[6] = 0x10;
        assert_eq!(read(&payload), Err(7));
        payload[6] = 0x0F;
        payload[7] = 0x0F;
        assert_eq!(read(&payload), Err(8));
        payload[5] = 0xC7;
        assert!(read(&payload).is_ok());
    }

    /// An NRT-IT of 14 bytes: extension 0x1001, service 7, start 1,000,000,800.
    const LIST: [u8; 14] = [
        0xDF, 0x70, 0x0B, 0x10, 0x01, 0xC7, 0, 0, 0, 7, 0x3B, 0x9A, 0xCD, 0x20,
    ];

    /// LIST cut or filled up to `size` bytes, with its section length made to fit.
    fn list_of(size: usize) -> Vec<u8> {
        let mut payload = LIST.to_vec();
        payload.resize(size, 0x5A);
        payload[1] = 0x70 | ((size - 3) >> 8) as u8;
        payload[2] = (size - 3) as u8;
        payload
    }

    #[test]
    fn an_nrt_it_of_14_bytes_is_sound() {
        let section = Section {
            table_id: 0xDF,
            extension: 0x1001,
            service_id: 7,
            time_span_start: 1_000_000_800,
            version: 3,
            number: 0,
            last: 0,
            body_start: 8,
            body_length: 6,
        };
        assert_eq!(read(&LIST), Ok(section));
        assert_eq!(section.key(), Key::new(0xDF, 0x1001, 7, 1_000_000_800));
        // What follows the key has no part in it.
        for size in [15, 17, 100, 1024] {
            let read = read(&list_of(size)).unwrap();
            assert_eq!(read.body_length, size - 8);
            assert_eq!(read.key(), section.key());
        }
        assert_eq!(read(&list_of(1025)), Err(3));
    }

    #[test]
    fn a_shorter_nrt_it_is_46() {
        for size in 8..14 {
            assert_eq!(read(&list_of(size)), Err(46));
            // Any other table of that size is sound.
            let mut other = list_of(size);
            for table_id in (0..=255).filter(|&table_id| table_id != 0xDF) {
                other[0] = table_id;
                assert!(read(&other).is_ok());
            }
        }
        assert_eq!(read(&LIST[..7]), Err(1));
    }

    #[test]
    fn only_the_nrt_it_has_the_added_fields() {
        for table_id in 0..=255 {
            let mut payload = LIST;
            payload[0] = table_id;
            let section = read(&payload).unwrap();
            let added = (section.service_id, section.time_span_start);
            if table_id == 0xDF {
                assert_eq!(added, (7, 1_000_000_800));
            } else {
                assert_eq!(added, (0, 0));
                assert_eq!(section.key(), Key::new(table_id, 0x1001, 7, 9));
                // Its body may be anything, or nothing.
                payload[8..].fill(0xFF);
                assert_eq!(read(&payload), Ok(section));
                let mut short = list_of(8);
                short[0] = table_id;
                assert_eq!(read(&short).unwrap().key(), section.key());
            }
        }
    }

    #[test]
    fn the_added_fields_are_read_high_byte_first() {
        let mut payload = LIST;
        payload[8..].copy_from_slice(&[0x12, 0x34, 0x56, 0x78, 0x9A, 0xBC]);
        let section = read(&payload).unwrap();
        assert_eq!(section.service_id, 0x1234);
        assert_eq!(section.time_span_start, 0x5678_9ABC);
        // Each byte of them, and no reserved bit, makes another key.
        for place in 8..14 {
            let mut other = payload;
            other[place] ^= 1;
            assert_ne!(read(&other).unwrap().key(), section.key());
        }
        for (place, kept) in [(1, 0xCF), (5, 0x3F)] {
            let mut other = payload;
            other[place] &= kept;
            assert_eq!(read(&other).unwrap().key(), section.key());
        }
        payload[8..].fill(0xFF);
        let section = read(&payload).unwrap();
        assert_eq!(section.service_id, 65_535);
        assert_eq!(section.time_span_start, 4_294_967_295);
    }

    #[test]
    fn a_key_is_made_of_four_fields_whatever_the_section_says() {
        // A section that `read` did not make.
        let mut section = read(&P1).unwrap();
        (section.service_id, section.time_span_start) = (5, 6);
        assert_eq!(section.key(), Key::new(0xC9, 0x1234, 0, 0));
        section.table_id = 0xDF;
        let key = section.key();
        assert_eq!((key.table_id, key.extension), (0xDF, 0x1234));
        assert_eq!((key.service_id, key.time_span_start), (5, 6));
    }

    #[test]
    fn an_nrt_it_answers_1_to_8_before_46() {
        // Every fault from 2 on at once, then mended one after another.
        let mut payload = vec![0xDF, 0xF0, 0x04, 0x12, 0x34, 0xC6, 0x11, 0x10];
        assert_eq!(read(&payload[..7]), Err(1));
        assert_eq!(read(&payload), Err(2));
        payload[1] = 0x70;
        assert_eq!(read(&payload), Err(3));
        payload[2] = 0x06;
        assert_eq!(read(&payload), Err(4));
        payload[2] = 0x05;
        payload.push(0);
        assert_eq!(read(&payload), Err(5));
        payload.pop();
        assert_eq!(read(&payload), Err(6));
        payload[6] = 0x10;
        assert_eq!(read(&payload), Err(7));
        payload[6] = 0x0F;
        payload[7] = 0x0F;
        assert_eq!(read(&payload), Err(8));
        payload[5] = 0xC7;
        assert_eq!(read(&payload), Err(46));
        // A section length of 13 bytes in a payload of 14, and the other way round.
        let mut payload = LIST.to_vec();
        payload[2] = 0x0A;
        assert_eq!(read(&payload), Err(5));
        assert_eq!(read(&payload[..13]), Err(46));
        payload[2] = 0x0B;
        assert_eq!(read(&payload[..13]), Err(4));
    }
}
