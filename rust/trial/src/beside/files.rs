//! Files.

use super::shelf::{fields, same_table};
use khumsafil::file::{self, Number, LARGEST_LIST};
use khumsafil::shelf::TABLE_FIELDS;
use khumsafil::Refusal;
use opinion::file as theirs;
use opinion::lister;

/// Reads the number at the front of some bytes by both, and gives its number of refusal, or 0.
pub fn number(bytes: &[u8]) -> u8 {
    let answer = file::number(bytes).map_err(Refusal::number);
    let other = theirs::read_number(bytes, 0).map(|(value, size)| Number { value, size });
    assert_eq!(answer, other, "{bytes:02X?}");
    other.err().unwrap_or(0)
}

/// Asks both which table a file is, with `less` numbers fewer than a table's lent, and gives the number of refusal, or 0.
pub fn table(bytes: &[u8], less: usize) -> u8 {
    const UNWRITTEN: u16 = 0xABCD;
    let other = theirs::table(bytes);
    let answer = file::table(bytes).map_err(Refusal::number);
    let same = match (&answer, &other) {
        (Ok(a), Ok(b)) => same_table(a, b),
        (Err(a), Err(b)) => a == b,
        _ => false,
    };
    assert!(same, "{answer:?} is not {other:?}: {bytes:02X?}");
    let short = TABLE_FIELDS - 1 - less % TABLE_FIELDS;
    for room in [short, TABLE_FIELDS, TABLE_FIELDS + 3] {
        let mut given = vec![UNWRITTEN; room];
        let answer = file::table_fields(bytes, &mut given).map_err(Refusal::number);
        let number = match &other {
            Err(number) => *number,
            Ok(_) if room < TABLE_FIELDS => 15,
            Ok(_) => 0,
        };
        assert_eq!(answer.err().unwrap_or(0), number, "{room}: {bytes:02X?}");
        let written = if number == 0 { TABLE_FIELDS } else { 0 };
        if let (0, Ok(table)) = (number, &other) {
            assert_eq!(given[..TABLE_FIELDS], fields(table), "{bytes:02X?}");
        }
        let kept = given[written..].iter().all(|n| *n == UNWRITTEN);
        assert!(kept, "{room}: past the answer of {bytes:02X?}");
    }
    other.err().unwrap_or(0)
}

/// Lists a file with exact room, with a byte and then `less` less, and with more, asks which table it is and for the numbers
/// at its front, and gives its number of refusal, or 0.
pub fn list(bytes: &[u8], less: usize) -> u8 {
    let text = lister::list(bytes);
    let size = text.len();
    assert!(size <= LARGEST_LIST, "{text}");
    let mut out = vec![0xA5; size];
    assert_eq!(file::list(bytes, &mut out), Ok(&text[..]), "{bytes:?}");
    let mut out = vec![0xA5; size - 1 - less % size];
    let answer = file::list(bytes, &mut out);
    assert_eq!(answer, Err(Refusal::OUTPUT_TOO_SMALL), "{bytes:?}");
    assert!(out.iter().all(|b| *b == 0xA5), "a refused call wrote");
    let mut out = [0xA5; LARGEST_LIST + 10];
    assert_eq!(file::list(bytes, &mut out), Ok(&text[..]), "{bytes:?}");
    assert!(out[size..].iter().all(|b| *b == 0xA5), "past the text");
    let refused = text.strip_prefix("refused ").map(str::trim_end);
    let refused = refused.map_or(0, |n| n.parse().expect("a number"));
    assert_eq!(table(bytes, less), refused, "listed and told: {bytes:02X?}");
    for at in 0..=bytes.len().min(3) {
        number(&bytes[at..]);
    }
    refused
}
