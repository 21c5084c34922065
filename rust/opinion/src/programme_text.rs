//! The text for staff: what a programme list on a shelf file holds (the house
//! paper beside document 02, request 3; its first line by request 4).

use crate::file;
use crate::lister;
use crate::programme::{self, Item};
use crate::shelf::SECTIONS;
use std::fmt::Write;

/// The whole text for this file. It is ASCII throughout.
pub fn programmes(file: &[u8]) -> String {
    let table = match file::read(file) {
        Ok(table) => table,
        Err(number) => return format!("refused {number}\n"),
    };

    let mut text = lister::first_line(&table);
    if table.key.table_id != programme::TABLE_ID {
        text.push_str("no programme list\n");
        return text;
    }

    let mut whole = true;
    let mut held = [false; SECTIONS];
    for &(start, length) in &table.sections {
        let number = file::section_number(file, start);
        held[usize::from(number)] = true;
        let payload = &file[start..start + length];
        if let Err((refusal, place)) = section(&mut text, number, payload) {
            whole = false;
            // Writing into a String cannot fail.
            let _ = writeln!(text, "section {number} refused {refusal} place {place}");
        }
    }

    for number in 0..=table.last {
        if !held[usize::from(number)] {
            whole = false;
            let _ = writeln!(text, "missing {number}");
        }
    }
    text.push_str(if whole { "whole\n" } else { "not whole\n" });
    text
}

/// The lines of one section, up to its end or to what is refused: the refusal and
/// its place, which the caller prints.
fn section(text: &mut String, number: u8, payload: &[u8]) -> Result<(), (u8, usize)> {
    // The fixed fields are refused as one, at the body's first byte.
    let at_body = |refusal| (refusal, crate::section::HEADER);
    let fixed = programme::read(payload).map_err(at_body)?;
    let _ = writeln!(
        text,
        "section {number} service {} start {} minutes {} items {}",
        fixed.service_id, fixed.time_span_start, fixed.time_span_length, fixed.items
    );

    let mut items = programme::items(payload).map_err(at_body)?;
    let mut of_section = 0;
    while let Some(answer) = items.next() {
        let found = answer.map_err(|refusal| (refusal, items.place()))?;
        item(text, of_section, &found, payload);
        of_section += 1;
    }

    let own = programme::own_or_place(payload, items.place())?;
    let _ = writeln!(text, "list descriptors {} bytes {}", own.count, own.length);
    Ok(())
}

/// The lines of one item.
fn item(text: &mut String, number: usize, item: &Item, payload: &[u8]) {
    let has = |flag| item.flags & flag != 0;
    let bit = |flag| u8::from(has(flag));
    let _ = writeln!(text, "item {number} linkage {}", item.content_linkage);
    let _ = writeln!(
        text,
        "updates {} fragment {} protected {} master {} internet {} broadcast {}",
        bit(programme::UPDATES_AVAILABLE),
        bit(programme::TF_AVAILABLE),
        bit(programme::CONTENT_SECURITY_CONDITIONS),
        bit(programme::MASTER_ITEM),
        bit(programme::AVAILABLE_ON_INTERNET),
        bit(programme::AVAILABLE_IN_BROADCAST),
    );
    // A field that is there is printed also where it is 0.
    if has(programme::PLAYBACK_LENGTH_INCLUDED) {
        let _ = writeln!(text, "playback {}", item.playback_length);
    }
    if has(programme::PLAYBACK_DELAY_INCLUDED) {
        let _ = writeln!(text, "delay {}", item.playback_delay);
    }
    if has(programme::EXPIRATION_INCLUDED) {
        let _ = writeln!(text, "expires {}", item.expiration);
    }
    if has(programme::CONTENT_SIZE_INCLUDED) {
        let _ = writeln!(text, "size {}", item.content_size);
    }
    text.push_str("name ");
    for &byte in &payload[item.name_place..item.name_place + item.name_length] {
        match byte {
            b'\\' => text.push_str("\\x5C"),
            32..=126 => text.push(char::from(byte)),
            _ => {
                let _ = write!(text, "\\x{byte:02X}");
            }
        }
    }
    text.push('\n');
    let _ = writeln!(
        text,
        "descriptors {} bytes {}",
        item.descriptors.count, item.descriptors.length
    );
}

#[cfg(test)]
mod tests {
    use super::*;
    use crate::testing::{self, Dice};

    /// service_id 3152, time_span_start 1,000,000,800, 1,440 minutes.
    const FIXED: [u8; 8] = [0x0C, 0x50, 0x3B, 0x9A, 0xCD, 0x20, 0xFD, 0xA0];

    /// The paper's item up to its name: linkage 66, flags 10 0111 1101, playback
    /// 5,400, delay 30, expires 1,300,000,000, size 73,400,320. 21 bytes.
    const LONG: [u8; 21] = [
        0x00, 0x00, 0x00, 0x42, 0x9F, 0x7F, 0xF0, 0x15, 0x18, 0xF0, 0x00, 0x1E, 0x4D, 0x7C, 0x6D,
        0x00, 0x00, 0x04, 0x60, 0x00, 0x00,
    ];
    const LONG_LINES: &str = "item 0 linkage 66\n\
        updates 1 fragment 0 protected 0 master 1 internet 0 broadcast 1\n\
        playback 5400\n\
        delay 30\n\
        expires 1300000000\n\
        size 73400320\n";

    /// Two descriptors in 14 bytes, with their number.
    const TWO: [u8; 15] = [2, 0xC8, 8, 1, 2, 3, 4, 5, 6, 7, 8, 0xC6, 2, 9, 10];
    /// One descriptor in 6 bytes, with its number.
    const ONE: [u8; 7] = [1, 0x05, 4, 0x41, 0x42, 0x43, 0x44];
    /// Linkage 7, no flag, no name, no descriptor.
    const SHORT: [u8; 8] = [0, 0, 0, 7, 0, 0x3F, 0, 0];

    /// A file of programme list sections of key 4096 and version 3: the number and
    /// the body of each.
    fn file_of(last: u8, sections: &[(u8, Vec<u8>)]) -> Vec<u8> {
        let mut file = vec![1, sections.len() as u8];
        for (number, body) in sections {
            let section = testing::section(0xDF, 0x1000, 3, *number, last, body);
            file.extend(file::write_number(section.len() as u16));
            file.extend(section);
        }
        file
    }

    /// A body of the fixed fields above, this count, and what follows.
    fn body(items: u8, rest: &[&[u8]]) -> Vec<u8> {
        [&FIXED[..], &[items], &rest.concat()].concat()
    }

    /// A name of this many bytes with its length before it.
    fn name(bytes: &[u8]) -> Vec<u8> {
        [&[bytes.len() as u8], bytes].concat()
    }

    #[test]
    fn every_line_of_the_paper() {
        let first = body(2, &[&LONG, &name(b"Ferry 3"), &TWO, &SHORT, &ONE]);
        let file = file_of(1, &[(0, first), (1, FIXED.to_vec())]);
        assert_eq!(
            programmes(&file),
            "table 223 key 4096 service 3152 start 1000000800 version 3 last 1\n\
             section 0 service 3152 start 1000000800 minutes 1440 items 2\n\
             item 0 linkage 66\n\
             updates 1 fragment 0 protected 0 master 1 internet 0 broadcast 1\n\
             playback 5400\n\
             delay 30\n\
             expires 1300000000\n\
             size 73400320\n\
             name Ferry 3\n\
             descriptors 2 bytes 14\n\
             item 1 linkage 7\n\
             updates 0 fragment 0 protected 0 master 0 internet 0 broadcast 0\n\
             name \n\
             descriptors 0 bytes 0\n\
             list descriptors 1 bytes 6\n\
             section 1 refused 43 place 8\n\
             not whole\n"
        );
    }

    #[test]
    fn the_paper_refusal_at_140() {
        // The item at 17 has 21 bytes, 1 and 86 of name, and 15: it ends at 140.
        let long_name = [b'n'; 86];
        let file = file_of(0, &[(0, body(2, &[&LONG, &name(&long_name), &TWO]))]);
        let before = format!(
            "table 223 key 4096 service 3152 start 1000000800 version 3 last 0\n\
             section 0 service 3152 start 1000000800 minutes 1440 items 2\n\
             {LONG_LINES}name {}\ndescriptors 2 bytes 14\n",
            "n".repeat(86)
        );
        let refused = format!("{before}section 0 refused 43 place 140\nnot whole\n");
        assert_eq!(programmes(&file), refused);
        // The place is the item's first byte, wherever in it the fault lies.
        for size in 0..SHORT.len() {
            let body = body(2, &[&LONG, &name(&long_name), &TWO, &SHORT[..size]]);
            assert_eq!(programmes(&file_of(0, &[(0, body)])), refused);
        }
        // With the item whole, the own loop is what lacks, at 148.
        let body = body(2, &[&LONG, &name(&long_name), &TWO, &SHORT]);
        assert!(programmes(&file_of(0, &[(0, body)]))
            .ends_with("descriptors 0 bytes 0\nsection 0 refused 43 place 148\nnot whole\n"));
    }

    #[test]
    fn a_whole_table() {
        let file = file_of(
            1,
            &[
                (0, body(0, &[&[0]])),
                (1, body(1, &[&LONG, &name(b""), &[0], &ONE])),
            ],
        );
        assert_eq!(
            programmes(&file),
            format!(
                "table 223 key 4096 service 3152 start 1000000800 version 3 last 1\n\
                 section 0 service 3152 start 1000000800 minutes 1440 items 0\n\
                 list descriptors 0 bytes 0\n\
                 section 1 service 3152 start 1000000800 minutes 1440 items 1\n\
                 {LONG_LINES}name \n\
                 descriptors 0 bytes 0\n\
                 list descriptors 1 bytes 6\n\
                 whole\n"
            )
        );
    }

    #[test]
    fn a_refused_file_prints_its_refusal_and_no_more() {
        assert_eq!(programmes(&[]), "refused 11\n");
        assert_eq!(programmes(&[2]), "refused 12\n");
        let sound = file_of(0, &[(0, body(0, &[&[0]]))]);
        assert!(programmes(&sound).ends_with("whole\n"));
        assert_eq!(programmes(&sound[..sound.len() - 1]), "refused 12\n");
        let mut next = sound.clone();
        next[8] = 0xC6;
        assert_eq!(programmes(&next), "refused 8\n");
        assert_eq!(programmes(&[&sound[..], &[0]].concat()), "refused 12\n");
    }

    #[test]
    fn a_section_without_its_key_refuses_the_file() {
        let good = body(0, &[&[0]]);
        for size in 0..6 {
            let short = FIXED[..size].to_vec();
            let alone = file_of(0, &[(0, short.clone())]);
            assert_eq!(programmes(&alone), "refused 46\n");
            let second = file_of(1, &[(0, good.clone()), (1, short)]);
            assert_eq!(programmes(&second), "refused 46\n");
        }
        // The key alone is a file; what lacks is said of the section.
        for size in 6..9 {
            let text = programmes(&file_of(0, &[(0, FIXED[..size].to_vec())]));
            assert_eq!(
                text,
                "table 223 key 4096 service 3152 start 1000000800 version 3 last 0\n\
                 section 0 refused 43 place 8\n\
                 not whole\n"
            );
        }
    }

    #[test]
    fn sections_of_two_lists_refuse_the_file() {
        let good = body(0, &[&[0]]);
        for place in 0..6 {
            let mut other = good.clone();
            other[place] ^= 1;
            let file = file_of(1, &[(0, good.clone()), (1, other)]);
            assert_eq!(programmes(&file), "refused 12\n");
        }
        // Another time_span_length is none of the key.
        let mut other = good.clone();
        other[7] ^= 1;
        let file = file_of(1, &[(0, good.clone()), (1, other)]);
        assert_eq!(
            programmes(&file),
            "table 223 key 4096 service 3152 start 1000000800 version 3 last 1\n\
             section 0 service 3152 start 1000000800 minutes 1440 items 0\n\
             list descriptors 0 bytes 0\n\
             section 1 service 3152 start 1000000800 minutes 1441 items 0\n\
             list descriptors 0 bytes 0\n\
             whole\n"
        );
    }

    #[test]
    fn the_first_line_is_the_listers() {
        let mut file = file_of(0, &[(0, body(0, &[&[0]]))]);
        for table_id in 0..=255 {
            file[3] = table_id;
            let line = lister::list(&file).lines().next().map(String::from);
            assert_eq!(programmes(&file).lines().next(), line.as_deref());
            assert_eq!(line.unwrap().contains(" service "), table_id == 223);
        }
    }

    #[test]
    fn another_table_with_a_programme_lists_body_has_two_lines() {
        // The body of another table is not looked at, though it could be a key.
        let mut file = file_of(0, &[(0, body(0, &[&[0]]))]);
        file[3] = 0xE1;
        assert_eq!(
            programmes(&file),
            "table 225 key 4096 version 3 last 0\nno programme list\n"
        );
    }

    #[test]
    fn another_table_has_two_lines() {
        let example = [1, 1, 8, 0xC9, 0x70, 0x05, 0x12, 0x34, 0xC7, 0, 0];
        assert_eq!(
            programmes(&example),
            "table 201 key 4660 version 3 last 0\nno programme list\n"
        );
        // Missing sections are none of it.
        let mut lacking = example;
        lacking[10] = 15;
        assert_eq!(
            programmes(&lacking),
            "table 201 key 4660 version 3 last 15\nno programme list\n"
        );
    }

    #[test]
    fn each_flag_and_field_has_its_word() {
        // The bytes of the flags with a field of zeros where one is due, and the
        // lines they give.
        let none = "updates 0 fragment 0 protected 0 master 0 internet 0 broadcast 0\n";
        let cases: [(u16, usize, String); 10] = [
            (0x8000, 0, none.replace("updates 0", "updates 1")),
            (0x4000, 0, none.replace("fragment 0", "fragment 1")),
            (0x2000, 0, none.replace("protected 0", "protected 1")),
            (0x1000, 0, none.replace("master 0", "master 1")),
            (0x0800, 3, format!("{none}playback 0\n")),
            (0x0400, 3, format!("{none}delay 0\n")),
            (0x0200, 4, format!("{none}expires 0\n")),
            (0x0100, 5, format!("{none}size 0\n")),
            (0x0080, 0, none.replace("internet 0", "internet 1")),
            (0x0040, 0, none.replace("broadcast 0", "broadcast 1")),
        ];
        for (flags, field, lines) in cases {
            let field = vec![0; field];
            let body = body(1, &[&[0; 4], &flags.to_be_bytes(), &field, &[0, 0, 0]]);
            assert_eq!(
                programmes(&file_of(0, &[(0, body)])),
                format!(
                    "table 223 key 4096 service 3152 start 1000000800 version 3 last 0\n\
                     section 0 service 3152 start 1000000800 minutes 1440 items 1\n\
                     item 0 linkage 0\n\
                     {lines}name \n\
                     descriptors 0 bytes 0\n\
                     list descriptors 0 bytes 0\n\
                     whole\n"
                )
            );
        }
    }

    #[test]
    fn sixteen_combinations_of_lines() {
        let fields: [(u8, &[u8], &str); 4] = [
            (8, &[0xF0, 0x15, 0x18], "playback 5400\n"),
            (4, &[0xF0, 0x00, 0x1E], "delay 30\n"),
            (2, &[0x4D, 0x7C, 0x6D, 0x00], "expires 1300000000\n"),
            (1, &[0x00, 0x04, 0x60, 0x00, 0x00], "size 73400320\n"),
        ];
        for combination in 0..16 {
            let mut bytes = vec![0, 0, 0, 9, combination, 0];
            let mut lines = String::new();
            for (bit, field, line) in fields {
                if combination & bit != 0 {
                    bytes.extend(field);
                    lines.push_str(line);
                }
            }
            bytes.extend([1, b'x', 0, 0]);
            let text = programmes(&file_of(0, &[(0, body(1, &[&bytes]))]));
            assert!(text.contains(&format!("broadcast 0\n{lines}name x\n")));
            assert!(text.ends_with("whole\n"));
        }
    }

    #[test]
    fn all_256_bytes_of_a_name() {
        let plain = concat!(
            " !\"#$%&'()*+,-./0123456789:;<=>?@ABCDEFGHIJKLMNOPQRSTUVWXYZ[",
            "]^_`abcdefghijklmnopqrstuvwxyz{|}~"
        );
        assert_eq!(plain.len(), 94);
        let digits = b"0123456789ABCDEF";
        let mut all = [String::new(), String::new()];
        for byte in 0..=255u8 {
            let shown = if plain.as_bytes().contains(&byte) {
                String::from(char::from(byte))
            } else {
                let high = char::from(digits[usize::from(byte / 16)]);
                let low = char::from(digits[usize::from(byte % 16)]);
                format!("\\x{high}{low}")
            };
            all[usize::from(byte / 128)].push_str(&shown);

            let one = body(1, &[&SHORT[..6], &name(&[byte]), &[0, 0]]);
            let text = programmes(&file_of(0, &[(0, one)]));
            assert!(text.is_ascii());
            assert_eq!(text.lines().count(), 8);
            assert_eq!(text.lines().nth(4), Some(&*format!("name {shown}")));
        }
        // The paper's three.
        let three = body(1, &[&SHORT[..6], &name(&[0x0A, 0x5C, 0xFF]), &[0, 0]]);
        assert!(programmes(&file_of(0, &[(0, three)])).contains("\nname \\x0A\\x5C\\xFF\n"));

        // All of them in two names.
        let low: Vec<u8> = (0..128).collect();
        let high: Vec<u8> = (128..=255).collect();
        let two = body(
            2,
            &[
                &SHORT[..6],
                &name(&low),
                &[0],
                &SHORT[..6],
                &name(&high),
                &[0, 0],
            ],
        );
        let text = programmes(&file_of(0, &[(0, two)]));
        let names: Vec<&str> = text.lines().filter(|l| l.starts_with("name ")).collect();
        assert_eq!(
            names,
            [format!("name {}", all[0]), format!("name {}", all[1])]
        );
        assert!(all[0].starts_with("\\x00\\x01"));
        assert!(all[0].ends_with("|}~\\x7F"));
        assert!(all[0].contains("Z[\\x5C]^"));
        assert!(all[1].starts_with("\\x80\\x81"));
        assert!(all[1].ends_with("\\xFE\\xFF"));
    }

    #[test]
    fn the_largest_numbers() {
        // Ones throughout, but for one item without name and descriptors.
        let mut section = vec![0xFF; 8 + 1 + 21];
        section[8] = 1;
        section.extend([0, 0, 0]);
        let text = programmes(&file_of(0, &[(0, section)]));
        assert_eq!(
            text,
            "table 223 key 4096 service 65535 start 4294967295 version 3 last 0\n\
             section 0 service 65535 start 4294967295 minutes 2047 items 1\n\
             item 0 linkage 4294967295\n\
             updates 1 fragment 1 protected 1 master 1 internet 1 broadcast 1\n\
             playback 1048575\n\
             delay 1048575\n\
             expires 4294967295\n\
             size 1099511627775\n\
             name \n\
             descriptors 0 bytes 0\n\
             list descriptors 0 bytes 0\n\
             whole\n"
        );
    }

    #[test]
    fn bad_sections_among_good_ones() {
        let good = "list descriptors 0 bytes 0\n";
        let head = |number: u8, items: u8| {
            format!("section {number} service 3152 start 1000000800 minutes 1440 items {items}\n")
        };
        let file = file_of(
            9,
            &[
                // A body of the key alone, then a good one.
                (0, FIXED[..6].to_vec()),
                (2, body(0, &[&[0]])),
                // The second item's name runs out.
                (3, body(2, &[&SHORT, &[0, 0, 0, 8, 0, 0, 9, b'n']])),
                // The own loop lacks, runs out, and leaves two bytes.
                (4, body(0, &[])),
                (5, body(0, &[&[2, 9, 0]])),
                (6, body(0, &[&ONE, &[0, 0]])),
                // An item whose descriptor runs out.
                (7, body(1, &[&SHORT[..7], &[1, 9, 1]])),
                (8, body(0, &[&[0]])),
            ],
        );
        let short = "item 0 linkage 7\n\
            updates 0 fragment 0 protected 0 master 0 internet 0 broadcast 0\n\
            name \n\
            descriptors 0 bytes 0\n";
        let expected = [
            "table 223 key 4096 service 3152 start 1000000800 version 3 last 9\n",
            "section 0 refused 43 place 8\n",
            &head(2, 0),
            good,
            &head(3, 2),
            short,
            "section 3 refused 43 place 25\n",
            &head(4, 0),
            "section 4 refused 43 place 17\n",
            &head(5, 0),
            "section 5 refused 43 place 17\n",
            &head(6, 0),
            "section 6 refused 44 place 24\n",
            &head(7, 1),
            "section 7 refused 43 place 17\n",
            &head(8, 0),
            good,
            "missing 1\n",
            "missing 9\n",
            "not whole\n",
        ];
        assert_eq!(programmes(&file), expected.concat());
    }

    #[test]
    fn each_refusal_alone_is_not_whole() {
        let good = body(0, &[&[0]]);
        for bad in [
            FIXED[..6].to_vec(),
            FIXED[..7].to_vec(),
            FIXED.to_vec(),
            body(1, &[]),
            body(0, &[]),
            body(0, &[&[0, 0]]),
        ] {
            let text = programmes(&file_of(1, &[(0, good.clone()), (1, bad)]));
            assert!(text.contains("\nsection 1 refused 4"));
            assert!(text.ends_with("\nnot whole\n"));
            assert!(!text.contains("missing"));
        }
    }

    #[test]
    fn missing_sections() {
        let good = body(0, &[&[0]]);
        for number in 0..16 {
            let mut expected = String::from(
                "table 223 key 4096 service 3152 start 1000000800 version 3 last 15\n",
            );
            expected.push_str(&format!(
                "section {number} service 3152 start 1000000800 minutes 1440 items 0\n\
                 list descriptors 0 bytes 0\n"
            ));
            for other in (0..16).filter(|&other| other != number) {
                expected.push_str(&format!("missing {other}\n"));
            }
            expected.push_str("not whole\n");
            assert_eq!(
                programmes(&file_of(15, &[(number, good.clone())])),
                expected
            );
        }
        let all: Vec<_> = (0..16).map(|number| (number, good.clone())).collect();
        let text = programmes(&file_of(15, &all));
        assert_eq!(text.lines().count(), 1 + 16 * 2 + 1);
        assert!(text.ends_with("\nwhole\n"));
    }

    #[test]
    fn the_largest_file() {
        // Sixteen sections of 1,024 bytes: 125 items each, and 7 bytes behind them.
        let full = body(125, &[&SHORT.repeat(125), &ONE]);
        assert_eq!(full.len(), 1016);
        let all: Vec<_> = (0..16).map(|number| (number, full.clone())).collect();
        let file = file_of(15, &all);
        assert_eq!(file.len(), file::LARGEST);
        let text = programmes(&file);
        assert_eq!(text.lines().count(), 1 + 16 * (1 + 125 * 4 + 1) + 1);
        assert!(text.contains("\nitem 124 linkage 7\n"));
        assert!(!text.contains("item 125"));
        assert!(text.ends_with("list descriptors 1 bytes 6\nwhole\n"));
    }

    #[test]
    fn random_files_are_ascii_lines() {
        let mut dice = Dice(103);
        for _ in 0..3000 {
            let mut sections = Vec::new();
            let last = dice.below(4) as u8;
            for number in 0..=last {
                let size = dice.below(54);
                let mut body = [&FIXED[..6], &dice.bytes(size)].concat();
                if size > 2 {
                    body[8] %= 3;
                }
                sections.push((number, body));
            }
            let file = file_of(last, &sections);
            let text = programmes(&file);
            assert!(text.is_ascii());
            assert!(text.ends_with("whole\n"));
            // Every line is of one kind or another, and none is cut.
            let words = [
                "table ",
                "section ",
                "item ",
                "updates ",
                "playback ",
                "delay ",
                "expires ",
                "size ",
                "name ",
                "descriptors ",
                "list ",
                "whole",
                "not whole",
            ];
            assert!(text
                .lines()
                .all(|line| words.iter().any(|word| line.starts_with(word))));
            let cut = dice.below(file.len());
            assert!(programmes(&file[..cut]).starts_with("refused 1"));
        }
    }
}
