//! A file: listed, told to staff, put on a fresh shelf, saved from it and loaded again.

use super::feed::Feed;
use crate::beside;
use crate::files::Parts;
use crate::keys::for_us;
use crate::sections::Fields;
use crate::shelf::Call;
use khumsafil::shelf::{LARGEST_FILE, STORE};

/// A file as it stands in the bytes, or one that is built from choices: sections of one table in any order, sound or
/// nearly.
pub fn build(feed: &mut Feed) -> Vec<u8> {
    let how = feed.byte();
    if how & 1 == 0 {
        return feed.rest();
    }
    built(feed, how)
}

/// A file from choices. It ends where `how` lets it, at a section of the choice 0 or where the bytes end.
pub fn built(feed: &mut Feed, how: u8) -> Vec<u8> {
    let table = feed.fields();
    let mut all = Vec::new();
    let mut number: u8 = 0;
    while !feed.over() && all.len() < 18 {
        let choice = feed.byte();
        match choice >> 4 {
            0 => break,
            1..=9 => {}
            10 => number = number.saturating_add(1),
            11 => number = number.saturating_sub(1),
            12 => number = choice & 0x0F,
            13 => number = number.saturating_add(choice & 0x0F),
            _ => number = 15,
        }
        let mut fields = Fields { number, ..table };
        match choice {
            0x91 => fields.version ^= 1,
            0x92 => fields.key.extension ^= 1,
            0x93 => fields.last ^= 1,
            0x95 => fields.key.service_id ^= 1,
            0x96 => fields.key.time_span_start ^= 1,
            0x97 => fields.key.time_span_start ^= 0x0001_0000,
            0x98 => fields.key.table_id ^= 1,
            _ => {}
        }
        let mut bytes = feed.section(fields);
        if choice == 0x94 {
            let at = usize::from(feed.byte()) % bytes.len().max(1);
            if let Some(byte) = bytes.get_mut(at) {
                *byte ^= feed.byte();
            }
        }
        all.push(bytes);
        number = number.saturating_add(1);
    }
    let mut parts = Parts::of(all);
    match how >> 1 & 0x0F {
        1 => parts.count = feed.part(2),
        2 => parts.form = feed.part(2),
        3 => {
            let at = usize::from(feed.byte());
            let many = parts.sections.len().max(1);
            if let Some((length, _)) = parts.sections.get_mut(at % many) {
                *length = feed.part(3);
            }
        }
        _ => {}
    }
    let mut bytes = parts.bytes();
    match how >> 5 {
        1 => bytes.push(feed.byte()),
        2 => {
            bytes.pop();
        }
        3 => bytes.truncate(feed.half().into()),
        _ => {}
    }
    bytes.shrink_to_fit();
    bytes
}

/// Lists the file and tells it to staff by both; where it is loaded, the same bytes are saved again.
pub fn files(bytes: &[u8]) {
    let mut feed = Feed::new(bytes);
    let less = feed.byte();
    let file = build(&mut feed);
    let listed = beside::files::list(&file, less.into());
    beside::programmes::text(&file, less.into());
    super::shelf::with(|both| {
        both.stores_agree();
        let loaded = both.call(&Call::Load(file.clone()), STORE);
        assert_eq!(loaded.err().unwrap_or(0), listed, "listed and loaded");
        both.stores_agree();
        if loaded.is_err() {
            return;
        }
        let key = for_us(both.held.places[0].key);
        for room in [file.len() - 1, usize::from(less).min(file.len() - 1)] {
            assert_eq!(both.call(&Call::Save { key, room }, STORE), Err(15));
        }
        for room in [file.len(), LARGEST_FILE + 1] {
            let saved = both.call(&Call::Save { key, room }, STORE);
            assert_eq!(saved, Ok(file.len()));
            assert!(both.out[..file.len()] == file, "saved again");
        }
        let whole = both.call(&Call::Complete(key), STORE);
        let lowest = both.call(&Call::Missing(key), STORE);
        assert_eq!(whole == Ok(1), lowest == Ok(99), "whole and missing");
        for number in 0..17 {
            let room = both.held.places[0].lengths.get(number).copied();
            let number = number as u8;
            let room = room.unwrap_or(0).into();
            let _ = both.call(&Call::Copy { key, number, room }, STORE);
        }
        assert_eq!(both.call(&Call::Load(file.clone()), STORE), Err(13));
        assert_eq!(both.call(&Call::Release(key), STORE), Ok(0));
        both.stores_agree();
    });
}
