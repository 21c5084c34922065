//! What the lister prints for a shelf file (document 01, "The lister"; document 02,
//! request 4).

use crate::file;
use crate::key::NRT_IT;
use crate::shelf::SECTIONS;
use std::fmt::Write;

/// The lister's whole output for this file.
pub fn list(file: &[u8]) -> String {
    let table = match file::read(file) {
        Ok(table) => table,
        Err(number) => return format!("refused {number}\n"),
    };

    let mut text = first_line(&table);
    let mut held = [false; SECTIONS];
    for &(start, length) in &table.sections {
        let number = file::section_number(file, start);
        held[usize::from(number)] = true;
        // Writing into a String cannot fail.
        let _ = writeln!(text, "section {number} bytes {length}");
    }

    let mut complete = true;
    for number in 0..=table.last {
        if !held[usize::from(number)] {
            complete = false;
            let _ = writeln!(text, "missing {number}");
        }
    }
    if complete {
        text.push_str("complete\n");
    }
    text
}

/// The line that names the table; the text for staff begins with it too. The added
/// fields of the key are printed for the NRT-IT alone.
pub(crate) fn first_line(table: &file::Table) -> String {
    let key = table.key;
    let mut line = format!("table {} key {}", key.table_id, key.extension);
    if key.table_id == NRT_IT {
        let (service, start) = (key.service_id, key.time_span_start);
        let _ = write!(line, " service {service} start {start}");
    }
    let _ = writeln!(line, " version {} last {}", table.version, table.last);
    line
}

#[cfg(test)]
mod tests {
    use super::*;
    use crate::testing;

    const EXAMPLE: [u8; 11] = [1, 1, 8, 0xC9, 0x70, 0x05, 0x12, 0x34, 0xC7, 0, 0];

    #[test]
    fn the_example() {
        assert_eq!(
            list(&EXAMPLE),
            "table 201 key 4660 version 3 last 0\nsection 0 bytes 8\ncomplete\n"
        );
    }

    /// An NRT-IT of extension 4097 and version 3 in one section.
    fn list_of(service_id: u16, time_span_start: u32) -> Vec<u8> {
        let section = testing::nrt_it((4097, service_id, time_span_start), 3, 0, 0, &[]);
        [&[1, 1, 14][..], &section].concat()
    }

    #[test]
    fn an_nrt_it_has_its_whole_key() {
        assert_eq!(
            list(&list_of(7, 1_000_000_800)),
            "table 223 key 4097 service 7 start 1000000800 version 3 last 0\n\
             section 0 bytes 14\n\
             complete\n"
        );
        // Printed also where they are 0, and at their largest.
        assert_eq!(
            list(&list_of(0, 0)),
            "table 223 key 4097 service 0 start 0 version 3 last 0\n\
             section 0 bytes 14\n\
             complete\n"
        );
        assert!(list(&list_of(65_535, 4_294_967_295))
            .starts_with("table 223 key 4097 service 65535 start 4294967295 version 3 last 0\n"));
    }

    #[test]
    fn every_other_table_has_the_old_line() {
        for table_id in (0..=255).filter(|&table_id| table_id != 223) {
            let mut file = list_of(7, 1_000_000_800);
            file[3] = table_id;
            let expected = format!(
                "table {table_id} key 4097 version 3 last 0\nsection 0 bytes 14\ncomplete\n"
            );
            assert_eq!(list(&file), expected);
        }
    }

    #[test]
    fn an_nrt_it_without_its_key_is_46() {
        for size in 8..14u8 {
            let mut file = vec![1, 1, size];
            file.extend(testing::section(
                0xDF,
                1,
                0,
                0,
                0,
                &vec![0; size as usize - 8],
            ));
            assert_eq!(list(&file), "refused 46\n");
            file[3] = 0xDE;
            assert!(list(&file).ends_with("complete\n"));
        }
    }

    #[test]
    fn missing_numbers_replace_complete() {
        let mut file = vec![1, 2, 9];
        file.extend(testing::section(0, 65_535, 31, 1, 4, &[0]));
        file.extend(file::write_number(1024));
        file.extend(testing::section(0, 65_535, 31, 3, 4, &[0; 1016]));
        assert_eq!(
            list(&file),
            "table 0 key 65535 version 31 last 4\n\
             section 1 bytes 9\n\
             section 3 bytes 1024\n\
             missing 0\n\
             missing 2\n\
             missing 4\n"
        );
    }

    #[test]
    fn all_sixteen() {
        let mut file = vec![1, 16];
        let mut expected = String::from("table 7 key 1 version 0 last 15\n");
        for number in 0..16 {
            file.push(8);
            file.extend(testing::section(7, 1, 0, number, 15, &[]));
            expected.push_str(&format!("section {number} bytes 8\n"));
        }
        expected.push_str("complete\n");
        assert_eq!(list(&file), expected);
    }

    #[test]
    fn a_bad_file_prints_its_refusal_and_no_more() {
        assert_eq!(list(&[]), "refused 11\n");
        assert_eq!(list(&EXAMPLE[..10]), "refused 12\n");
        let mut next = EXAMPLE;
        next[8] = 0xC6;
        assert_eq!(list(&next), "refused 8\n");
        assert_eq!(list(&[1; 20_000]), "refused 12\n");
    }

    #[test]
    fn a_file_longer_than_the_buffer_has_bytes_left_over() {
        // The largest file and one byte fill the buffer of 16,419; more cannot
        // change the answer.
        let mut file = vec![1, 16];
        for number in 0..16 {
            file.extend(file::write_number(1024));
            file.extend(testing::section(7, 1, 0, number, 15, &[0; 1016]));
        }
        assert_eq!(file.len(), file::LARGEST);
        assert!(list(&file).ends_with("complete\n"));
        file.push(0);
        assert_eq!(list(&file), "refused 12\n");
        file.push(0);
        assert_eq!(list(&file), "refused 12\n");
    }
}
