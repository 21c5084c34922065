//! Bytes as inputs: what the fuzzer, and the replay of what it found, hand to both. Every list of bytes is an input of
//! each target, and most of them are a long history or a nearly sound file.

mod clock;
mod feed;
mod file;
mod seeds;
mod shelf;
mod writer;

use crate::beside;
use crate::files::Parts;
use crate::programmes::TABLE;
use crate::tally::Tally;
use feed::Feed;
use khumsafil::trigger::{self, FIELDS};
pub use seeds::seeds;

/// A target's name and what it does with bytes.
pub type Target = (&'static str, fn(&[u8]));

/// What can be tried.
pub const TARGETS: [Target; 8] = [
    ("sections", sections),
    ("loops", loops),
    ("triggers", triggers),
    ("programmes", programmes),
    ("files", file::files),
    ("shelf", shelf::shelf),
    ("clock", clock::clock),
    ("writer", writer::writer),
];

/// The target of that name.
pub fn target(name: &str) -> Option<fn(&[u8])> {
    let found = TARGETS.iter().find(|(known, _)| *known == name);
    found.map(|(_, run)| *run)
}

/// A payload; where the first byte is odd, with the length that it has in its length field.
fn sections(bytes: &[u8]) {
    let mut feed = Feed::new(bytes);
    let mended = feed.byte() & 1 == 1;
    let mut payload = feed.rest();
    if mended {
        feed::put_length(&mut payload);
    }
    beside::sections::compare(&payload);
}

/// A loop that is walked, and a place in it or past it that is asked.
fn loops(bytes: &[u8]) {
    let mut feed = Feed::new(bytes);
    let at = match feed.half() {
        0xFFFF => usize::MAX,
        at => at.into(),
    };
    let bytes = feed.rest();
    beside::loops::walk(&bytes, &mut 0);
    beside::loops::step(&bytes, at);
}

/// A payload that is read with room for so many numbers, and an application that it may belong to.
fn triggers(bytes: &[u8]) {
    let mut feed = Feed::new(bytes);
    let how = feed.byte();
    let room = usize::from(feed.byte() % 16);
    let (idlength, place, size) = (feed.half(), feed.half(), feed.half());
    let payload = feed.rest();
    beside::triggers::compare(&payload, &mut Tally::default());
    beside::triggers::fields(&payload, room);
    let from = usize::from(place).min(payload.len());
    let to = from + usize::from(size).min(payload.len() - from);
    let mut application = payload[from..to].to_vec();
    match how % 4 {
        0 => application.push(how),
        1 => {
            application.pop();
        }
        _ => {}
    }
    // The numbers that have no part in it are those of the payload where it is a trigger.
    let mut fields = [0xFFFF; FIELDS];
    if trigger::fields(&payload, &mut fields).is_ok() {
        beside::triggers::belongs_by_any(&payload, &fields, &application);
    }
    (fields[0], fields[2], fields[3]) = (idlength, place, size);
    beside::triggers::belongs_by_any(&payload, &fields, &application);
}

/// A list that is walked, and a place in it or past it that is asked for items and for the table's own loop, with room for so
/// many numbers; and the staff's text of a file that holds the list alone. Where the first byte is odd, the payload has the length
/// that it has in its length field, and where the bit above is 1 the header of a programme list.
fn programmes(bytes: &[u8]) {
    let mut feed = Feed::new(bytes);
    let (how, room) = (feed.byte(), usize::from(feed.byte()));
    let at = match feed.half() {
        0xFFFF => usize::MAX,
        at => at.into(),
    };
    let number = feed.byte();
    let mut payload = feed.rest();
    if how & 2 == 2 {
        let header = [TABLE, 0x70, 0, 0x10, 0, 0xC7, 0, 0];
        let there = payload.len().min(header.len());
        payload[..there].copy_from_slice(&header[..there]);
    }
    if how & 1 == 1 {
        feed::put_length(&mut payload);
    }
    beside::programmes::walk(&payload, &mut Tally::default());
    beside::programmes::read(&payload, room);
    beside::programmes::step(&payload, at, number);
    beside::programmes::in_room(&payload, at, number, room);
    beside::programmes::own(&payload, at);
    beside::programmes::text(&Parts::of(vec![payload]).bytes(), room);
}
