//! A body: its sections and their file written, read back, offered to a fresh shelf and loaded into one.

use super::feed::Feed;
use super::shelf::{room, with};
use crate::beside::{self, writer};
use crate::keys::NRT_IT;
use crate::random::Random;
use crate::shelf::Call;
use khumsafil::section::{self, HEADER};
use khumsafil::shelf::{Key, LARGEST_FILE, LARGEST_SECTION, STORE};
use khumsafil::writer::Label;
use opinion::writer::BODY;

/// The most calls for one body.
const CALLS: usize = 16;

/// Any label, more often than others an NRT-IT's, and every value of a version; those above 31 are seldom.
fn label(feed: &mut Feed) -> Label {
    let table_id = match feed.byte() {
        0xF0..=0xFE => NRT_IT,
        any => any,
    };
    let key = Key::new(table_id, feed.half());
    let version = match feed.byte() {
        few @ 0..=0xDF => few % 33,
        _ => feed.byte(),
    };
    Label::new(key, version)
}

/// A body's length: at most two bytes from a number of full bodies, small, any, or far too long.
fn length(feed: &mut Feed) -> usize {
    let (full, more) = (usize::from(feed.byte()), usize::from(feed.byte()));
    match full {
        0..=16 => (full * BODY + more % 5).saturating_sub(2),
        17..=31 => more,
        32..=254 => (full << 8 | more) % 16_300,
        _ => full << 8 | more,
    }
}

/// A body of that length: a few bytes over and over, or by a seed, and then some bytes of it changed.
fn body(feed: &mut Feed, length: usize) -> Vec<u8> {
    let how = feed.byte();
    let mut body = match how {
        0..=0x7F => {
            let some = feed.part(1 + usize::from(how));
            let times = length / some.len().max(1) + 1;
            some.repeat(times)
        }
        _ => Random::new(feed.half().into()).bytes(length),
    };
    body.resize(length, 0);
    for _ in 0..how & 3 {
        let at = usize::from(feed.half()) % length.max(1);
        if let Some(byte) = body.get_mut(at) {
            *byte = feed.byte();
        }
    }
    body.shrink_to_fit();
    body
}

/// A section that was written is read as what it was written from.
fn reads_back(bytes: &[u8], label: Label, body: &[u8], k: u8) {
    assert_eq!(beside::sections::compare(bytes), 0, "a sound section");
    let read = section::read(bytes).expect("a sound section");
    assert_eq!((read.key, read.version), (label.key, label.version));
    let count = body.chunks(BODY).len().max(1);
    let numbers = (read.number, usize::from(read.last) + 1);
    assert_eq!(numbers, (k, count), "its numbers");
    let part = body.chunks(BODY).nth(k.into()).unwrap_or(&[]);
    assert!(read.body == part, "its body");
}

/// Offers all sections to a fresh shelf, the next by a byte each time, until none is missing. What the shelf then saves is
/// the file that is written.
fn offered(feed: &mut Feed, label: Label, body: &[u8]) {
    let key = label.key;
    let count = body.chunks(BODY).len().max(1);
    let mut left: Vec<u8> = (0..count as u8).collect();
    with(|both| {
        while !left.is_empty() {
            let next = usize::from(feed.byte());
            let k = left.remove(next % left.len());
            let (answer, mut out) = writer::section(label, body, k, LARGEST_SECTION);
            out.truncate(answer.expect("a section"));
            out.shrink_to_fit();
            let first = left.len() + 1 == count;
            let payload = Call::Offer(out);
            let did = both.call(&payload, STORE);
            assert_eq!(did, Ok(if first { 1 } else { 3 }), "began or added");
            if next > 0xF0 {
                assert_eq!(both.call(&payload, STORE), Ok(4), "a repeat");
            }
            let whole = both.call(&Call::Complete(key), STORE);
            assert_eq!(whole, Ok(usize::from(left.is_empty())));
            let lowest = left.iter().min().map_or(99, |k| (*k).into());
            assert_eq!(both.call(&Call::Missing(key), STORE), Ok(lowest));
        }
        let (answer, out) = writer::file(label, body, LARGEST_FILE);
        let save = Call::Save {
            key,
            room: LARGEST_FILE,
        };
        assert_eq!(both.call(&save, STORE), answer);
        assert!(both.out == out, "saved and written");
        both.stores_agree();
    });
}

/// Loads the file into a fresh shelf, whose sections then join to the body.
fn loaded(label: Label, body: &[u8]) {
    let key = label.key;
    let (answer, mut file) = writer::file(label, body, LARGEST_FILE);
    file.truncate(answer.expect("a file"));
    file.shrink_to_fit();
    assert_eq!(beside::files::list(&file, 0), 0, "a sound file");
    with(|both| {
        assert_eq!(both.call(&Call::Load(file), STORE), Ok(0));
        assert_eq!(both.call(&Call::Complete(key), STORE), Ok(1));
        let mut joined = Vec::new();
        for number in 0..=both.held.places[0].last {
            let room = LARGEST_SECTION;
            let size = both.call(&Call::Copy { key, number, room }, STORE);
            joined.extend_from_slice(&both.out[HEADER..size.expect("a section")]);
        }
        assert!(joined == body, "the joined bodies");
        both.stores_agree();
    });
}

/// One call for the body, with the output exact, near it or any.
fn call(feed: &mut Feed, label: Label, body: &[u8], count: Result<u8, u8>) {
    let how = feed.byte();
    match how % 8 {
        0 => {
            let far = how >> 3 & 3;
            let length = u64::from(feed.half()) << (16 * far);
            let table_id = if how >> 5 == 7 {
                NRT_IT
            } else {
                label.key.table_id
            };
            let _ = writer::count(table_id, length as usize);
        }
        1..=3 => {
            let number = feed.byte();
            let k = match number {
                0..=0xDF => number % (count.unwrap_or(16) + 1),
                _ => number,
            };
            let (most, _) = writer::section(label, body, k, LARGEST_SECTION);
            let room = room(feed, most.unwrap_or(LARGEST_SECTION));
            let (answer, out) = writer::section(label, body, k, room);
            if let Ok(size) = answer {
                reads_back(&out[..size], label, body, k);
            }
        }
        4..=5 => {
            let file = writer::their_file(label, body);
            let room = room(feed, file.map_or(LARGEST_FILE, |file| file.len()));
            let _ = writer::file(label, body, room);
        }
        _ if count.is_err() || label.version > 31 => {}
        6 => offered(feed, label, body),
        _ => loaded(label, body),
    }
}

/// A body and calls for it. Every answer and every byte of each output is compared.
pub fn writer(bytes: &[u8]) {
    let mut feed = Feed::new(bytes);
    let label = label(&mut feed);
    let length = length(&mut feed);
    let count = writer::count(label.key.table_id, length);
    let body = body(&mut feed, length);
    for _ in 0..CALLS {
        if feed.over() {
            break;
        }
        call(&mut feed, label, &body, count);
    }
}
