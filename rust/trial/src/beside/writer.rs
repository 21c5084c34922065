//! The bench's writer.

use super::shelf::UNWRITTEN;
use crate::files::Parts;
use khumsafil::shelf::LARGEST_SECTION;
use khumsafil::writer::{self as ours, Label};
use khumsafil::Refusal;
use opinion::writer as theirs;

/// How many sections a body of so many bytes makes in a table with that id.
pub fn count(table_id: u8, length: usize) -> Result<u8, u8> {
    let answer = ours::count(table_id, length).map_err(Refusal::number);
    let other = theirs::count(table_id, length);
    assert_eq!(answer, other, "{length} bytes of table {table_id}");
    answer
}

/// A call of the library with a body and an output of so much room, and the output at exit. It is made three times: with the
/// two apart, with the output directly after the body, and with the body directly after the output.
fn lent(
    body: &[u8],
    room: usize,
    call: impl Fn(&[u8], &mut [u8]) -> Result<usize, Refusal>,
) -> (Result<usize, u8>, Vec<u8>) {
    let mut out = vec![UNWRITTEN; room];
    let answer = call(body, &mut out);
    for after in [true, false] {
        let mut whole = vec![UNWRITTEN; body.len() + room];
        let (first, second) = whole.split_at_mut(if after { body.len() } else { room });
        let (given, touching) = if after {
            (first, second)
        } else {
            (second, first)
        };
        given.copy_from_slice(body);
        assert_eq!(call(given, touching), answer, "where the two touch");
        assert!(*touching == out[..], "an output that touches the body");
        assert!(*given == *body, "a body that touches the output");
    }
    (answer.map_err(Refusal::number), out)
}

/// Writes section `k` on both sides with so much room, compares answer and output, and gives what was answered.
pub fn section(label: Label, body: &[u8], k: u8, room: usize) -> (Result<usize, u8>, Vec<u8>) {
    let (answer, out) = lent(body, room, |body, out| ours::section(label, body, k, out));
    let mut other = vec![UNWRITTEN; room];
    let expected = their_section(label, body, k, &mut other);
    let case = || format!("{label:?}, {} bytes, k {k}, room {room}", body.len());
    assert_eq!(answer, expected, "{}", case());
    assert!(out == other, "{}: output", case());
    kept(answer, &out);
    (answer, out)
}

/// The same of the file, beside the file of the independent program's sections.
pub fn file(label: Label, body: &[u8], room: usize) -> (Result<usize, u8>, Vec<u8>) {
    let (answer, out) = lent(body, room, |body, out| ours::file(label, body, out));
    let file = their_file(label, body);
    let expected = match &file {
        Ok(file) if room < file.len() => Err(15),
        Ok(file) => Ok(file.len()),
        Err(number) => Err(*number),
    };
    let case = || format!("{label:?}, {} bytes, room {room}", body.len());
    assert_eq!(answer, expected, "{}", case());
    if let (Ok(size), Ok(file)) = (answer, &file) {
        assert!(out[..size] == file[..], "{}: output", case());
    }
    kept(answer, &out);
    (answer, out)
}

/// A refused call writes nothing, and one that is answered nothing past what it wrote.
fn kept(answer: Result<usize, u8>, out: &[u8]) {
    let from = answer.unwrap_or(0);
    assert!(out[from..].iter().all(|b| *b == UNWRITTEN), "past the end");
}

/// A section by the independent program.
fn their_section(label: Label, body: &[u8], k: u8, out: &mut [u8]) -> Result<usize, u8> {
    let (table_id, extension) = (label.key.table_id, label.key.extension);
    theirs::write(table_id, extension, label.version, body, k, out)
}

/// The file of the independent program's sections, or its refusal.
pub fn their_file(label: Label, body: &[u8]) -> Result<Vec<u8>, u8> {
    let mut sections = Vec::new();
    for k in 0..theirs::count(label.key.table_id, body.len())? {
        let mut out = vec![0; LARGEST_SECTION];
        let size = their_section(label, body, k, &mut out)?;
        out.truncate(size);
        sections.push(out);
    }
    Ok(Parts::of(sections).bytes())
}
