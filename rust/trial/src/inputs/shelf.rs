//! A history of calls on a shelf, by a host that may write on the store, spoil a record or lend too little.

use super::feed::Feed;
use super::file;
use crate::beside::shelf::{equal, Both};
use crate::keys::for_us;
use crate::shelf::{decode, Call, RESTS};
use khumsafil::shelf::{LARGEST_FILE, RECORD, STORE};
use std::cell::RefCell;

/// The most calls of a history.
const CALLS: usize = 300;

thread_local! {
    static BOTH: RefCell<Both> = RefCell::new(Both::new());
}

/// Gives a fresh shelf, whose buffers last from one history to the next.
pub fn with(run: impl FnOnce(&mut Both)) {
    BOTH.with(|both| {
        let mut both = both.borrow_mut();
        assert_eq!(both.call(&Call::Begin, STORE), Ok(0));
        run(&mut both);
    });
}

/// A size of output: exact for what the call would give, near it or any.
pub fn room(feed: &mut Feed, exact: usize) -> usize {
    match feed.byte() % 8 {
        0 => exact.saturating_sub(1),
        1 => exact + 1,
        2 => usize::from(feed.half()) % (LARGEST_FILE + 10),
        3 => 0,
        _ => exact,
    }
}

fn call(feed: &mut Feed, both: &Both, saved: &[Vec<u8>]) -> Call {
    match feed.byte() % 32 {
        0..=13 => {
            let fields = feed.fields();
            Call::Offer(feed.section(fields))
        }
        14 => {
            let fields = feed.fields();
            let mut payload = feed.section(fields);
            let at = usize::from(feed.byte());
            let change = feed.byte();
            match payload.get_mut(at) {
                Some(byte) => *byte ^= change,
                None if change & 1 == 0 => payload.push(change),
                None => payload.truncate(usize::from(change)),
            }
            payload.shrink_to_fit();
            Call::Offer(payload)
        }
        15 => {
            let length = feed.byte();
            Call::Offer(feed.part(length.into()))
        }
        16..=17 => Call::Complete(for_us(feed.key())),
        18..=19 => Call::Missing(for_us(feed.key())),
        20..=22 => {
            let key = feed.key();
            let number = feed.byte();
            let number = if number < 0xE0 { number % 17 } else { number };
            let mut places = both.held.places.iter();
            let held = places.find(|p| p.key.proper() == key.proper());
            let length = held.and_then(|p| p.lengths.get(usize::from(number)));
            let room = room(feed, length.copied().unwrap_or(0).into());
            let key = for_us(key);
            Call::Copy { key, number, room }
        }
        23 => Call::Release(for_us(feed.key())),
        24..=25 => {
            let key = feed.key();
            let mut places = both.held.places.iter();
            let held = places.find(|p| p.key.proper() == key.proper());
            let size = |length: &u16| usize::from(*length) + 1 + usize::from(*length > 127);
            let lengths = held.map_or([0; 16], |p| p.lengths);
            let exact = 2 + lengths.iter().filter(|l| **l > 0).map(size).sum::<usize>();
            let room = room(feed, exact);
            let key = for_us(key);
            Call::Save { key, room }
        }
        26..=27 if !saved.is_empty() => {
            let which = usize::from(feed.byte());
            Call::Load(saved[which % saved.len()].clone())
        }
        26..=28 => {
            let how = feed.byte();
            Call::Load(file::built(feed, how))
        }
        29 => {
            let length = feed.byte();
            Call::Load(feed.part(length.into()))
        }
        30 => Call::Begin,
        _ => Call::Offer(Vec::new()),
    }
}

/// The size of the store that is lent: seldom another than a store's.
fn lent(how: u8) -> usize {
    match how {
        0xF8 => 0,
        0xF9 => 1,
        0xFA => STORE - 1,
        0xFB => STORE + 1,
        _ => STORE,
    }
}

/// A history. Answers, records, outputs and every byte of the stores are compared after each call.
pub fn shelf(bytes: &[u8]) {
    let mut feed = Feed::new(bytes);
    let mut saved: Vec<Vec<u8>> = Vec::new();
    with(|both| {
        both.stores_agree();
        for _ in 0..CALLS {
            if feed.over() {
                break;
            }
            let how = feed.byte();
            let kept = (both.record, both.held);
            let spoils = how & 0xF0 == 0xE0;
            match how {
                0xE0..=0xEF => {
                    let at = usize::from(feed.byte()) % RECORD;
                    both.record[at] = match how & 3 {
                        0 => feed.half(),
                        1 => both.record[at] ^ 1 << (feed.byte() % 16),
                        // The same number of the next place, where heads or rests of keys stand.
                        2 => both.record[(at + if at < RESTS { 4 } else { 3 }) % RECORD],
                        _ => u16::from(feed.byte()),
                    };
                    both.held = decode(&both.record);
                    equal(&both.record, &kept.0, &both.store[..STORE]);
                }
                0xFC..=0xFF => {
                    let at = usize::from(feed.half());
                    let bytes = feed.part(usize::from(how - 0xFB).min(STORE - at));
                    both.scribble(at, &bytes);
                }
                _ => {}
            }
            let call = call(&mut feed, both, &saved);
            if how & 0xFC == 0xF4 {
                let count = usize::from(feed.byte());
                if count != RECORD {
                    let size = if how == 0xF4 { STORE - 1 } else { STORE };
                    both.call_with(count, &call, size);
                }
            }
            let answer = both.call(&call, lent(how));
            if let (Call::Save { .. }, Ok(size)) = (&call, answer) {
                if saved.len() < 4 {
                    saved.push(both.out[..size].to_vec());
                }
            }
            both.stores_agree();
            if spoils && how & 4 == 0 {
                (both.record, both.held) = kept;
            }
        }
    });
}
