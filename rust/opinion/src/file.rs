//! The shelf file: one table written and loaded (document 01, "The shelf file";
//! document 02, request 4).

use crate::berth;
use crate::key::Key;
use crate::section;
use crate::shelf::{self, Place, Record, SECTIONS};

/// Bytes of the largest file.
pub const LARGEST: usize = 16_418;

/// The form number of every file.
const FORM: u16 = 1;

/// A number as groups of seven bits, and how many of the groups it takes.
fn groups(n: u16) -> ([u8; 3], usize) {
    let low = (n & 0x7F) as u8;
    let middle = ((n >> 7) & 0x7F) as u8;
    let high = (n >> 14) as u8;
    if n < 1 << 7 {
        ([low, 0, 0], 1)
    } else if n < 1 << 14 {
        ([low | 0x80, middle, 0], 2)
    } else {
        ([low | 0x80, middle | 0x80, high], 3)
    }
}

/// A number as the file has it: groups of seven bits, lowest group first, top bit
/// set on every group but the last, shortest form.
pub fn write_number(n: u16) -> Vec<u8> {
    let (bytes, count) = groups(n);
    bytes[..count].to_vec()
}

/// Reads the number at the place `at`: its value and the place after it.
/// Refusal: 11, cut off, not shortest, or above 65,535.
pub fn read_number(bytes: &[u8], at: usize) -> Result<(u16, usize), u8> {
    let mut value = 0u32;
    for group in 0..3 {
        let Some(&byte) = bytes.get(at + group) else {
            return Err(11);
        };
        value |= u32::from(byte & 0x7F) << (7 * group);
        if byte & 0x80 == 0 {
            if group > 0 && byte == 0 {
                return Err(11);
            }
            let value = u16::try_from(value).map_err(|_| 11)?;
            return Ok((value, at + group + 1));
        }
    }
    // A fourth group is cut off, not shortest, or takes the number above 65,535.
    Err(11)
}

/// A sound file's table, and the place and length in the file of each section.
#[derive(Clone, Debug, PartialEq, Eq)]
pub struct Table {
    pub key: Key,
    pub version: u8,
    pub last: u8,
    pub sections: Vec<(usize, usize)>,
}

/// The number of a sound section that begins at this place in the file.
pub(crate) fn section_number(file: &[u8], start: usize) -> u8 {
    file[start + 6]
}

/// Reads a file from left to right; the first fault gives the answer.
/// Refusals: 11, 12, and 2 to 8 and 46 for a section's own.
pub fn read(file: &[u8]) -> Result<Table, u8> {
    let (form, at) = read_number(file, 0)?;
    if form != FORM {
        return Err(12);
    }
    let (count, mut at) = read_number(file, at)?;
    if !(1..=16).contains(&count) {
        return Err(12);
    }

    let mut sections = Vec::with_capacity(usize::from(count));
    let mut before: Option<section::Section> = None;
    for _ in 0..count {
        // 11, then the length and running past the file.
        let (length, start) = read_number(file, at)?;
        if !(8..=1024).contains(&length) {
            return Err(12);
        }
        let length = usize::from(length);
        if file.len() - start < length {
            return Err(12);
        }

        // The section's own number.
        let this = section::read(&file[start..start + length])?;

        // Key, version, last and rising number.
        if let Some(before) = before {
            if this.key() != before.key()
                || this.version != before.version
                || this.last != before.last
                || this.number <= before.number
            {
                return Err(12);
            }
        }
        before = Some(this);
        sections.push((start, length));
        at = start + length;
    }

    // Bytes left over.
    if at != file.len() {
        return Err(12);
    }
    // The count is 1 or more, so there was a section.
    let Some(shared) = before else {
        return Err(12);
    };
    Ok(Table {
        key: shared.key(),
        version: shared.version,
        last: shared.last,
        sections,
    })
}

/// Which table a file is: what loading it would put in a place.
/// Refusals: 11, 12, and 2 to 8 and 46 for a section's own.
pub fn table(file: &[u8]) -> Result<shelf::Table, u8> {
    let read = read(file)?;
    let mut lengths = [0; SECTIONS];
    for &(start, length) in &read.sections {
        lengths[usize::from(section_number(file, start))] = length as u16;
    }
    Ok(shelf::Table {
        key: read.key,
        version: read.version,
        last: read.last,
        lengths,
    })
}

/// Writes a held table as a file and answers how many bytes it has.
/// Refusals: 17, 18, 14, 15.
pub fn save(record: &Record, store: &[u8], key: Key, out: &mut [u8]) -> Result<usize, u8> {
    shelf::check(record, store)?;
    let p = shelf::find(record, key).ok_or(14)?;
    let lengths = &record.places[p].lengths;

    let mut count = 0;
    let mut size = 2;
    for &length in lengths {
        if length != 0 {
            count += 1;
            size += groups(length).1 + usize::from(length);
        }
    }
    if out.len() < size {
        return Err(15);
    }

    let mut at = put_number(out, 0, FORM);
    at = put_number(out, at, count);
    for (number, &length) in lengths.iter().enumerate() {
        if length != 0 {
            at = put_number(out, at, length);
            let length = usize::from(length);
            out[at..at + length].copy_from_slice(berth::part(store, p, number, length));
            at += length;
        }
    }
    Ok(at)
}

/// Writes a number at the place `at` and answers the place after it.
fn put_number(out: &mut [u8], at: usize, n: u16) -> usize {
    let (bytes, count) = groups(n);
    out[at..at + count].copy_from_slice(&bytes[..count]);
    at + count
}

/// Loads a file's table on the shelf. Refusals: 17, 18, file faults, 13, 9.
pub fn load(record: &mut Record, store: &mut [u8], file: &[u8]) -> Result<(), u8> {
    shelf::check(record, store)?;
    let table = read(file)?;
    if shelf::find(record, table.key).is_some() {
        return Err(13);
    }
    let Some(p) = shelf::lowest_free(record) else {
        return Err(9);
    };

    let mut lengths = [0; SECTIONS];
    for &(start, length) in &table.sections {
        let number = usize::from(section_number(file, start));
        berth::put(store, p, number, &file[start..start + length]);
        lengths[number] = length as u16;
    }
    record.places[p] = Place {
        taken: true,
        key: table.key,
        version: table.version,
        last: table.last,
        lengths,
    };
    Ok(())
}

#[cfg(test)]
mod tests {
    use super::*;
    use crate::shelf::{fresh, offer, STORE};
    use crate::testing::{self, Dice};

    const EXAMPLE: [u8; 11] = [1, 1, 8, 0xC9, 0x70, 0x05, 0x12, 0x34, 0xC7, 0, 0];
    const EXAMPLE_KEY: Key = Key::new(0xC9, 0x1234, 0, 0);

    /// The table that `of` makes sections of.
    const KEY: Key = Key::new(0x40, 7, 0, 0);

    /// A file of these sections.
    fn file_of(sections: &[Vec<u8>]) -> Vec<u8> {
        let mut file = vec![1, sections.len() as u8];
        for section in sections {
            file.extend(write_number(section.len() as u16));
            file.extend_from_slice(section);
        }
        file
    }

    fn of(number: u8, last: u8, body: &[u8]) -> Vec<u8> {
        testing::section(0x40, 7, 5, number, last, body)
    }

    /// Loading is refused by `number` and changes nothing; reading says the same.
    fn refused(file: &[u8], number: u8) {
        assert_eq!(read(file), Err(number));
        assert_eq!(table(file), Err(number));
        let (mut record, mut store) = (fresh(), vec![3; STORE]);
        assert_eq!(load(&mut record, &mut store, file), Err(number));
        assert_eq!(record, fresh());
        assert!(store == vec![3; STORE]);
    }

    #[test]
    fn p12_number_128_is_80_01_and_80_00_is_11() {
        assert_eq!(write_number(128), [0x80, 0x01]);
        assert_eq!(read_number(&[0x80, 0x01], 0), Ok((128, 2)));
        assert_eq!(read_number(&[0x80, 0x00], 0), Err(11));
    }

    #[test]
    fn every_number_is_read_as_written() {
        for n in 0..=u16::MAX {
            let mut bytes = vec![0x85];
            bytes.extend(write_number(n));
            bytes.push(0x7F);
            assert_eq!(read_number(&bytes, 1), Ok((n, bytes.len() - 1)));
            assert_eq!(read_number(&bytes[..bytes.len() - 2], 1), Err(11));
        }
        assert_eq!(write_number(0), [0]);
        assert_eq!(write_number(127), [0x7F]);
        assert_eq!(write_number(1024), [0x80, 0x08]);
        assert_eq!(write_number(16_383), [0xFF, 0x7F]);
        assert_eq!(write_number(16_384), [0x80, 0x80, 0x01]);
        assert_eq!(write_number(65_535), [0xFF, 0xFF, 0x03]);
    }

    #[test]
    fn bad_numbers_are_11() {
        let bad: [&[u8]; 10] = [
            &[],
            &[0x80],
            &[0xFF, 0xFF],
            &[0x81, 0x00],
            &[0xFF, 0x80, 0x00],
            &[0x80, 0x80, 0x04],
            &[0xFF, 0xFF, 0x7F],
            &[0xFF, 0xFF, 0x83],
            &[0x81, 0x80, 0x80, 0x00],
            &[0x80, 0x80, 0x80, 0x80, 0x80, 0x80, 0x80, 0x80, 0x80, 0x01],
        ];
        for bytes in bad {
            assert_eq!(read_number(bytes, 0), Err(11));
        }
        assert_eq!(read_number(&[1], 1), Err(11));
        assert_eq!(read_number(&[1], 2), Err(11));
        assert_eq!(read_number(&[1], usize::MAX), Err(11));
    }

    #[test]
    fn every_short_byte_string_has_one_number_or_11() {
        // Accepted exactly when it is what some number is written as.
        for a in 0..=255u8 {
            for b in 0..=255u8 {
                for c in [0, 1, 3, 4, 0x7F, 0x80, 0xFF] {
                    match read_number(&[a, b, c], 0) {
                        Ok((n, next)) => assert_eq!(write_number(n), [a, b, c][..next]),
                        Err(number) => {
                            assert_eq!(number, 11);
                            let not_shortest = a >= 0x80 && (b == 0 || (b >= 0x80 && c == 0));
                            let too_large = a >= 0x80 && b >= 0x80 && c > 3;
                            assert!(not_shortest || too_large);
                        }
                    }
                }
            }
        }
    }

    #[test]
    fn the_listers_example_is_a_file() {
        assert_eq!(
            read(&EXAMPLE),
            Ok(Table {
                key: EXAMPLE_KEY,
                version: 3,
                last: 0,
                sections: vec![(3, 8)],
            })
        );
        let (mut record, mut store) = (fresh(), vec![0; STORE]);
        offer(&mut record, &mut store, &EXAMPLE[3..]).unwrap();
        let mut out = [9; 12];
        assert_eq!(save(&record, &store, EXAMPLE_KEY, &mut out), Ok(11));
        assert_eq!(out[..11], EXAMPLE);
        assert_eq!(out[11], 9);
    }

    #[test]
    fn cut_off_files() {
        // The form, the count and the length are numbers; the rest runs past the file.
        for size in 0..EXAMPLE.len() {
            refused(&EXAMPLE[..size], if size < 3 { 11 } else { 12 });
        }
        refused(&[1, 0x80], 11);
        refused(&[1, 1, 0x88], 11);
        refused(&[1, 1, 0x88, 0], 11);
        refused(&[0x81, 0], 11);
    }

    #[test]
    fn form_count_and_length_are_12() {
        let change = |place: usize, byte: u8| {
            let mut file = EXAMPLE;
            file[place] = byte;
            file
        };
        refused(&change(0, 0), 12);
        refused(&change(0, 2), 12);
        refused(&[2], 12);
        refused(&[0x81, 0x01, 0x80, 0x00], 12);
        refused(&change(1, 0), 12);
        refused(&change(1, 17), 12);
        refused(&[1, 0], 12);
        refused(&[1, 17], 12);
        refused(&change(2, 7), 12);
        refused(&change(2, 0), 12);
        refused(&change(2, 9), 12);
        let mut long = vec![1, 1];
        long.extend(write_number(1025));
        long.extend(of(0, 0, &[0; 1016]));
        long.push(0);
        refused(&long, 12);
        // A count higher than the sections: the next length is cut off.
        refused(&change(1, 2), 11);
        // Bytes left over.
        let mut over = EXAMPLE.to_vec();
        over.push(0);
        refused(&over, 12);
    }

    #[test]
    fn a_sections_own_number_is_2_to_8() {
        let faults = [
            (1, 0xF0, 2),
            (1, 0x30, 2),
            (2, 4, 3),
            (2, 6, 4),
            (6, 1, 6),
            (7, 0x10, 7),
            (5, 0xC6, 8),
        ];
        for (place, byte, number) in faults {
            let mut file = EXAMPLE;
            file[3 + place] = byte;
            refused(&file, number);
        }
        let mut shorter = EXAMPLE.to_vec();
        shorter[2] = 9;
        shorter.push(0);
        refused(&shorter, 5);
    }

    #[test]
    fn sections_that_differ_are_12() {
        let first = of(1, 3, &[1]);
        assert!(read(&file_of(&[first.clone(), of(3, 3, &[])])).is_ok());
        let others = [
            testing::section(0x41, 7, 5, 2, 3, &[]),
            testing::section(0x40, 8, 5, 2, 3, &[]),
            testing::section(0x40, 7, 6, 2, 3, &[]),
            testing::section(0x40, 7, 5, 2, 4, &[]),
            of(1, 3, &[1]),
            of(0, 3, &[]),
        ];
        for other in others {
            refused(&file_of(&[first.clone(), other]), 12);
        }
    }

    #[test]
    fn the_first_fault_from_the_left_gives_the_answer() {
        // The second section is not current, and differs: its own number comes first.
        let mut second = testing::section(0x41, 7, 5, 0, 3, &[]);
        second[5] &= 0xFE;
        refused(&file_of(&[of(1, 3, &[1]), second.clone()]), 8);
        // It differs, and the third is cut off: the second answers.
        second[5] |= 1;
        let mut file = file_of(&[of(1, 3, &[1]), second, of(3, 3, &[])]);
        file.truncate(file.len() - 1);
        refused(&file, 12);
        // The second runs past the file before its own fault is seen.
        let mut file = file_of(&[of(1, 3, &[1]), of(2, 3, &[])]);
        let place = file.len() - 7;
        file[place] = 0xF0;
        refused(&file, 2);
        file.pop();
        refused(&file, 12);
        // An unsound first section comes before a bad number after it.
        let mut file = EXAMPLE.to_vec();
        file[1] = 2;
        file[8] = 0xC6;
        file.extend([0x80, 0x00]);
        refused(&file, 8);
    }

    #[test]
    fn the_largest_file() {
        let sections: Vec<Vec<u8>> = (0..16).map(|n| of(n, 15, &[n; 1016])).collect();
        let file = file_of(&sections);
        assert_eq!(file.len(), LARGEST);
        let (mut record, mut store) = (fresh(), vec![0; STORE]);
        assert_eq!(load(&mut record, &mut store, &file), Ok(()));
        assert_eq!(shelf::complete(&record, &store, KEY), Ok(true));
        let mut out = vec![0; LARGEST];
        assert_eq!(save(&record, &store, KEY, &mut out), Ok(LARGEST));
        assert!(out == file);
    }

    #[test]
    fn loading_answers_17_18_file_13_9() {
        let mut spoiled = fresh();
        spoiled.places[0].taken = true;
        assert_eq!(load(&mut spoiled, &mut [], &[]), Err(17));
        assert_eq!(load(&mut fresh(), &mut [0; STORE + 1], &EXAMPLE), Err(17));
        let mut store = vec![0; STORE];
        assert_eq!(load(&mut spoiled, &mut store, &[]), Err(18));

        let mut record = fresh();
        assert_eq!(load(&mut record, &mut store, &EXAMPLE), Ok(()));
        let before = (record, store.clone());
        assert_eq!(load(&mut record, &mut store, &EXAMPLE[..10]), Err(12));
        assert_eq!(load(&mut record, &mut store, &EXAMPLE), Err(13));
        // Another version of the key is a key already held.
        let mut other = EXAMPLE;
        other[8] = 0xC9;
        assert_eq!(load(&mut record, &mut store, &other), Err(13));
        assert!((record, store.clone()) == before);

        for table_id in 1..=3 {
            let payload = testing::section(table_id, 0, 0, 0, 0, &[]);
            offer(&mut record, &mut store, &payload).unwrap();
        }
        let before = (record, store.clone());
        assert_eq!(load(&mut record, &mut store, &EXAMPLE), Err(13));
        assert_eq!(
            load(&mut record, &mut store, &file_of(&[of(0, 0, &[])])),
            Err(9)
        );
        assert!((record, store.clone()) == before);
    }

    #[test]
    fn saving_answers_17_18_14_15() {
        let (mut record, mut store) = (fresh(), vec![0; STORE]);
        load(&mut record, &mut store, &EXAMPLE).unwrap();
        let mut out = [9; 10];
        let mut spoiled = record;
        spoiled.places[0].version = 32;
        assert_eq!(save(&spoiled, &[], KEY, &mut out), Err(17));
        assert_eq!(save(&spoiled, &store, KEY, &mut out), Err(18));
        assert_eq!(
            save(&record, &store, Key::new(0xC9, 0x1235, 0, 0), &mut out),
            Err(14)
        );
        assert_eq!(save(&record, &store, EXAMPLE_KEY, &mut out), Err(15));
        assert_eq!(out, [9; 10]);
    }

    #[test]
    fn saving_writes_the_bytes_that_stand_in_the_berths() {
        let (mut record, mut store) = (fresh(), vec![0; STORE]);
        load(&mut record, &mut store, &EXAMPLE).unwrap();
        store[..8].fill(0xAA);
        let mut out = [0; 11];
        assert_eq!(save(&record, &store, EXAMPLE_KEY, &mut out), Ok(11));
        assert_eq!(
            out,
            [1, 1, 8, 0xAA, 0xAA, 0xAA, 0xAA, 0xAA, 0xAA, 0xAA, 0xAA]
        );
    }

    #[test]
    fn loading_changes_only_the_berths_of_its_sections() {
        let (mut record, mut store) = (fresh(), vec![0xEE; STORE]);
        let first = testing::section(1, 1, 0, 0, 0, &[]);
        offer(&mut record, &mut store, &first).unwrap();
        let mut expected = store.clone();
        let sections = [of(2, 5, &[1, 2]), of(5, 5, &[3; 1016])];
        assert_eq!(load(&mut record, &mut store, &file_of(&sections)), Ok(()));
        expected[18 * 1024..19 * 1024].fill(0);
        expected[18 * 1024..18 * 1024 + 10].copy_from_slice(&sections[0]);
        expected[21 * 1024..22 * 1024].copy_from_slice(&sections[1]);
        assert!(store == expected);
        assert_eq!(shelf::lowest_missing(&record, &store, KEY), Ok(Some(0)));
    }

    #[test]
    fn what_was_saved_is_restored() {
        let mut dice = Dice(99);
        for _ in 0..40 {
            let (mut record, mut store) = (fresh(), vec![0; STORE]);
            let last = dice.below(16) as u8;
            for _ in 0..=dice.below(20) {
                let number = dice.below(usize::from(last) + 1) as u8;
                let size = dice.below(1017);
                let body = dice.bytes(size);
                let _ = offer(&mut record, &mut store, &of(number, last, &body));
            }
            let mut out = vec![0; LARGEST];
            let size = save(&record, &store, KEY, &mut out).unwrap();
            let (mut again, mut again_store) = (fresh(), vec![0; STORE]);
            assert_eq!(load(&mut again, &mut again_store, &out[..size]), Ok(()));
            assert_eq!(again, record);
            assert!(again_store == store);
            assert_eq!(table(&out[..size]), shelf::table(&record, &store, 0));
            let mut twice = vec![0; LARGEST];
            assert_eq!(save(&again, &again_store, KEY, &mut twice), Ok(size));
            assert!(twice == out);
        }
    }

    #[test]
    fn damaged_files_are_answered() {
        let mut dice = Dice(1234);
        let good = file_of(&[of(0, 3, &[1, 2, 3]), of(1, 3, &[]), of(3, 3, &[4; 200])]);
        let list = file_of(&[
            list_of(LIST, 0, 3, &[1, 2, 3]),
            list_of(LIST, 1, 3, &[]),
            list_of(LIST, 3, 3, &[4; 100]),
        ]);
        for round in 0..20_000 {
            let mut file = if round % 2 == 0 {
                good.clone()
            } else {
                list.clone()
            };
            for _ in 0..=dice.below(3) {
                let place = dice.below(file.len());
                file[place] = dice.next() as u8;
            }
            file.truncate(file.len() - dice.below(3));
            let (mut record, mut store) = (fresh(), vec![0; STORE]);
            match read(&file) {
                Ok(table) => {
                    assert_eq!(load(&mut record, &mut store, &file), Ok(()));
                    let mut out = vec![0; file.len()];
                    let saved = save(&record, &store, table.key, &mut out);
                    assert_eq!(saved, Ok(file.len()));
                    assert!(out == file);
                }
                Err(number) => {
                    assert!([11, 12, 2, 3, 4, 5, 6, 7, 8, 46].contains(&number));
                    if dice.below(50) == 0 {
                        refused(&file, number);
                    }
                }
            }
        }
    }

    /// The NRT-IT that `list_of` is mostly asked for.
    const LIST: Key = Key::new(0xDF, 0x1001, 7, 1_000_000_800);

    /// A section of the NRT-IT with this key, of version 5.
    fn list_of(key: Key, number: u8, last: u8, rest: &[u8]) -> Vec<u8> {
        assert_eq!(key.table_id, 0xDF);
        let key = (key.extension, key.service_id, key.time_span_start);
        testing::nrt_it(key, 5, number, last, rest)
    }

    /// A section of the NRT-IT of this many bytes in all, with the key's bytes of
    /// LIST as far as they go.
    fn list_of_size(size: usize, number: u8, last: u8) -> Vec<u8> {
        let mut body = list_of(LIST, 0, 0, &[0; 10])[8..].to_vec();
        body.resize(size - 8, 0);
        testing::section(0xDF, LIST.extension, 5, number, last, &body)
    }

    #[test]
    fn an_nrt_its_file() {
        let file = file_of(&[list_of_size(14, 1, 3), list_of(LIST, 3, 3, &[1; 1010])]);
        let sections = vec![(3, 14), (19, 1024)];
        assert_eq!(
            read(&file),
            Ok(Table {
                key: LIST,
                version: 5,
                last: 3,
                sections,
            })
        );
        let mut lengths = [0; 16];
        (lengths[1], lengths[3]) = (14, 1024);
        assert_eq!(
            table(&file),
            Ok(shelf::Table {
                key: LIST,
                version: 5,
                last: 3,
                lengths,
            })
        );
        let (mut record, mut store) = (fresh(), vec![0; STORE]);
        assert_eq!(load(&mut record, &mut store, &file), Ok(()));
        assert_eq!(record.places[0].key, LIST);
        assert_eq!(shelf::table(&record, &store, 0), table(&file));
        assert_eq!(shelf::lowest_missing(&record, &store, LIST), Ok(Some(0)));
        let mut out = vec![0; file.len()];
        assert_eq!(save(&record, &store, LIST, &mut out), Ok(file.len()));
        assert!(out == file);
    }

    #[test]
    fn a_file_of_another_table_tells_no_added_fields() {
        let mut file = file_of(&[list_of(LIST, 0, 0, &[])]);
        for table_id in (0..=255).filter(|&table_id| table_id != 0xDF) {
            file[3] = table_id;
            let key = Key::new(table_id, 0x1001, 0, 0);
            assert_eq!(read(&file).unwrap().key, key);
            assert_eq!(table(&file).unwrap().key, key);
            assert_eq!((key.service_id, key.time_span_start), (0, 0));
        }
    }

    #[test]
    fn an_nrt_it_without_its_key_is_46_in_a_file() {
        for size in 8..14 {
            refused(&file_of(&[list_of_size(size, 0, 0)]), 46);
            // As the second and the third section too.
            let sections = [
                list_of(LIST, 0, 3, &[]),
                list_of(LIST, 1, 3, &[]),
                list_of_size(size, 2, 3),
            ];
            refused(&file_of(&sections), 46);
            refused(&file_of(&[sections[0].clone(), sections[2].clone()]), 46);
        }
        assert!(read(&file_of(&[list_of_size(14, 0, 0)])).is_ok());
    }

    #[test]
    fn where_46_stands_among_the_faults_of_a_file() {
        let short = list_of_size(13, 0, 3);
        // After the section's own 2 to 8.
        let faults = [
            (1, 0xF0, 2),
            (2, 4, 3),
            (2, 11, 4),
            (2, 9, 5),
            (6, 4, 6),
            (7, 16, 7),
            (5, 0xC6, 8),
        ];
        for (place, byte, number) in faults {
            let mut section = short.clone();
            section[place] = byte;
            refused(&file_of(&[section]), number);
        }
        // After running past the file, and after the length.
        let file = file_of(&[short.clone()]);
        refused(&file, 46);
        refused(&file[..file.len() - 1], 12);
        let mut seven = file.clone();
        seven[2] = 7;
        refused(&seven, 12);
        let mut not_shortest = file.clone();
        not_shortest[2] = 0x8D;
        not_shortest.insert(3, 0);
        refused(&not_shortest, 11);
        // Before key, version, last and rising number.
        let first = list_of(LIST, 1, 3, &[]);
        let others = [
            testing::section(0xDF, 9, 5, 2, 3, &[0; 5]),
            testing::section(0xDF, 0x1001, 6, 2, 3, &[0; 5]),
            testing::section(0xDF, 0x1001, 5, 2, 4, &[0; 5]),
            testing::section(0xDF, 0x1001, 5, 1, 3, &[0; 5]),
            testing::section(0xDF, 0x1001, 5, 0, 3, &[0; 5]),
        ];
        for other in others {
            refused(&file_of(&[first.clone(), other]), 46);
        }
        // Also where the first section is of another table.
        let plain = testing::section(0xDE, 0x1001, 5, 0, 3, &[]);
        refused(&file_of(&[plain, list_of_size(13, 1, 3)]), 46);
        // Before what follows it, and after what stands before it.
        let mut file = file_of(&[short.clone(), first.clone()]);
        file.truncate(file.len() - 1);
        refused(&file, 46);
        refused(&[&file_of(&[short.clone()])[..], &[0]].concat(), 46);
        let mut unlike = first.clone();
        unlike[9] ^= 1;
        refused(&file_of(&[first, unlike, list_of_size(13, 3, 3)]), 12);
    }

    #[test]
    fn sections_of_two_keys_are_12() {
        let first = list_of(LIST, 0, 2, &[]);
        let other = |service_id, time_span_start| {
            let key = Key::new(0xDF, 0x1001, service_id, time_span_start);
            list_of(key, 1, 2, &[])
        };
        let same = other(7, 1_000_000_800);
        assert!(read(&file_of(&[first.clone(), same.clone()])).is_ok());
        // Each single field of the key, and each byte of the added ones.
        let mut others = vec![other(8, 1_000_000_800), other(7, 1_000_000_801)];
        for place in [0, 3, 4, 8, 9, 10, 11, 12, 13] {
            let mut unlike = same.clone();
            unlike[place] ^= 1;
            others.push(unlike);
        }
        for unlike in others {
            refused(&file_of(&[first.clone(), unlike.clone()]), 12);
            // Wherever among three the unlike ones stand.
            let (like_third, unlike_third) = (as_third(&same), as_third(&unlike));
            let three = [first.clone(), same.clone(), like_third.clone()];
            assert!(read(&file_of(&three)).is_ok());
            refused(
                &file_of(&[first.clone(), same.clone(), unlike_third.clone()]),
                12,
            );
            refused(&file_of(&[first.clone(), unlike.clone(), like_third]), 12);
            refused(&file_of(&[first.clone(), unlike, unlike_third]), 12);
        }
        // What follows the key may differ.
        let mut longer = list_of(LIST, 1, 2, &[0xF8, 60, 0]);
        assert!(read(&file_of(&[first.clone(), longer.clone()])).is_ok());
        longer[15] = 61;
        assert!(read(&file_of(&[first, longer])).is_ok());
    }

    /// The same section with the number 2.
    fn as_third(section: &[u8]) -> Vec<u8> {
        let mut third = section.to_vec();
        third[6] = 2;
        third
    }

    #[test]
    fn sections_of_another_table_may_have_any_bodies() {
        for table_id in (0..=255).filter(|&table_id| table_id != 0xDF) {
            let bodies: [&[u8]; 4] = [&[0, 7, 0, 0, 0, 9], &[0, 8, 0, 0, 0, 9], &[], &[1; 20]];
            let sections: Vec<Vec<u8>> = (0..)
                .zip(bodies)
                .map(|(number, body)| testing::section(table_id, 7, 5, number, 3, body))
                .collect();
            let answer = read(&file_of(&sections)).unwrap();
            assert_eq!(answer.key, Key::new(table_id, 7, 0, 0));
            assert_eq!(answer.sections.len(), 4);
        }
    }

    #[test]
    fn loading_is_13_and_9_by_the_whole_key() {
        let (mut record, mut store) = (fresh(), vec![0; STORE]);
        let keys = [
            LIST,
            Key::new(0xDF, 0x1001, 8, 1_000_000_800),
            Key::new(0xDF, 0x1001, 7, 1_000_004_400),
            Key::new(0xDF, 0x1002, 7, 1_000_000_800),
            Key::new(0xDF, 0x1001, 8, 1_000_004_400),
        ];
        for key in &keys[..4] {
            let file = file_of(&[list_of(*key, 0, 1, &[])]);
            assert_eq!(load(&mut record, &mut store, &file), Ok(()));
            let before = (record, store.clone());
            // The same key with another version, number and last.
            let again = testing::nrt_it(
                (key.extension, key.service_id, key.time_span_start),
                6,
                2,
                2,
                &[1],
            );
            assert_eq!(load(&mut record, &mut store, &file), Err(13));
            assert_eq!(load(&mut record, &mut store, &file_of(&[again])), Err(13));
            assert!((record, store.clone()) == before);
        }
        let before = (record, store.clone());
        let fifth = file_of(&[list_of(keys[4], 0, 1, &[])]);
        assert_eq!(load(&mut record, &mut store, &fifth), Err(9));
        // On a full shelf 13 still comes first, and 46 before both.
        let held = file_of(&[list_of(LIST, 0, 1, &[])]);
        assert_eq!(load(&mut record, &mut store, &held), Err(13));
        let short = file_of(&[list_of_size(13, 0, 1)]);
        assert_eq!(load(&mut record, &mut store, &short), Err(46));
        assert!((record, store.clone()) == before);
        // 17 and 18 come before 46.
        let mut spoiled = record;
        spoiled.places[1].key = LIST;
        assert_eq!(load(&mut spoiled, &mut store, &short), Err(18));
        assert_eq!(load(&mut spoiled, &mut [], &short), Err(17));
        // The four are saved each by its own key.
        for key in &keys[..4] {
            let file = file_of(&[list_of(*key, 0, 1, &[])]);
            let mut out = vec![0; file.len()];
            assert_eq!(save(&record, &store, *key, &mut out), Ok(file.len()));
            assert!(out == file);
        }
        assert_eq!(save(&record, &store, keys[4], &mut [0; 100]), Err(14));
    }

    #[test]
    fn the_added_fields_of_another_table_mean_nothing() {
        let (mut record, mut store) = (fresh(), vec![0; STORE]);
        let file = file_of(&[of(0, 0, &[1, 2])]);
        assert_eq!(load(&mut record, &mut store, &file), Ok(()));
        assert_eq!(record.places[0].key, KEY);
        for (service_id, time_span_start) in [(0, 0), (1, 0), (0, 1), (0xFFFF, u32::MAX)] {
            let by_hand = Key {
                service_id,
                time_span_start,
                ..KEY
            };
            // In a question and in a lent record.
            let mut out = vec![0; file.len()];
            assert_eq!(save(&record, &store, by_hand, &mut out), Ok(file.len()));
            assert!(out == file);
            let mut lent = record;
            lent.places[0].key = by_hand;
            let mut out = vec![0; file.len()];
            assert_eq!(save(&lent, &store, KEY, &mut out), Ok(file.len()));
            assert!(out == file);
            assert_eq!(load(&mut lent, &mut store, &file), Err(13));
            assert_eq!(shelf::table(&lent, &store, 0), table(&file));
            // Two places of one key.
            lent.places[1] = record.places[0];
            assert_eq!(save(&lent, &store, KEY, &mut out), Err(18));
            assert_eq!(load(&mut lent, &mut store, &file), Err(18));
        }
    }

    #[test]
    fn an_older_file_of_an_nrt_it() {
        // Sections that agree in the whole key stay readable; a service's section
        // that was added to another's table is 12, and a short one 46.
        let other = Key::new(0xDF, 0x1001, 8, 1_000_000_800);
        let agreeing = [list_of(LIST, 0, 1, &[1]), list_of(LIST, 1, 1, &[2])];
        assert_eq!(read(&file_of(&agreeing)).unwrap().key, LIST);
        let mixed = [list_of(LIST, 0, 1, &[1]), list_of(other, 1, 1, &[2])];
        refused(&file_of(&mixed), 12);
        let short = [list_of(LIST, 0, 1, &[1]), list_of_size(8, 1, 1)];
        refused(&file_of(&short), 46);
    }

    #[test]
    fn what_was_saved_is_restored_for_every_key() {
        let mut dice = Dice(104);
        for _ in 0..40 {
            let (mut record, mut store) = (fresh(), vec![0; STORE]);
            let last = dice.below(16) as u8;
            for _ in 0..=dice.below(60) {
                let key = Key::new(
                    0xDF,
                    0x1000 + dice.below(2) as u16,
                    dice.below(3) as u16,
                    dice.below(2) as u32 * 3600,
                );
                let number = dice.below(usize::from(last) + 1) as u8;
                let size = dice.below(1011);
                let mut payload = list_of(key, number, last, &dice.bytes(size));
                if dice.below(8) == 0 {
                    payload[0] = 0xE1;
                }
                let _ = offer(&mut record, &mut store, &payload);
            }
            // Each table is saved, and loaded beside the others that are left.
            let (mut again, mut again_store) = (fresh(), vec![0; STORE]);
            for p in 0..4 {
                let Ok(told) = shelf::table(&record, &store, p) else {
                    continue;
                };
                let mut out = vec![0; LARGEST];
                let size = save(&record, &store, told.key, &mut out).unwrap();
                assert_eq!(table(&out[..size]), Ok(told));
                assert_eq!(load(&mut again, &mut again_store, &out[..size]), Ok(()));
                assert_eq!(load(&mut again, &mut again_store, &out[..size]), Err(13));
                let mut twice = vec![0; LARGEST];
                assert_eq!(save(&again, &again_store, told.key, &mut twice), Ok(size));
                assert!(twice == out);
                // Released and loaded, it is as it was.
                let (mut other, mut other_store) = (record, store.clone());
                shelf::release(&mut other, &mut other_store, told.key).unwrap();
                let same = (record, store.clone());
                assert!((other, other_store.clone()) != same);
                assert_eq!(load(&mut other, &mut other_store, &out[..size]), Ok(()));
                assert!((other, other_store) == same);
            }
            assert_eq!(again, record);
            assert!(again_store == store);
        }
    }
}
