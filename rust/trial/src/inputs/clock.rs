//! A history of calls on a clock, by a host that may spoil the record.

use super::feed::Feed;
use crate::beside::clock::{equal, Both};
use crate::clocks::decode;
use khumsafil::clock::RECORD;
use opinion::clock::{Action, Activation};

/// The most calls of a history.
const CALLS: usize = 400;

/// A time by the clock's: near it, near the edge of memory on either side, or any.
fn time(feed: &mut Feed, now: u32) -> u32 {
    let how = feed.byte();
    let near = u32::from(how & 0x0F);
    match how >> 4 {
        0..=3 => now.saturating_add(near),
        4..=5 => now.saturating_sub(near),
        6 => now.saturating_sub(60_000).saturating_add(near),
        7 => now.saturating_sub(60_000).saturating_sub(near),
        8 => now.saturating_add(60_000).saturating_add(near),
        9 => now.saturating_add(60_000).saturating_sub(near),
        10 => now.saturating_add(feed.half().into()),
        11 => now.saturating_sub(feed.half().into()),
        12 => near,
        13 => u32::MAX - near,
        14 => u32::MAX - u32::from(feed.half()),
        _ => feed.word(),
    }
}

fn activation(feed: &mut Feed, now: u32) -> Activation {
    let who = feed.byte();
    let event = feed.byte();
    Activation {
        application: if who < 0xF8 {
            who % 8
        } else {
            8 + who % 8 * 31
        },
        event: if event < 0xF0 {
            u16::from(event) / 4
        } else {
            feed.half()
        },
        action: [Action::Prep, Action::Exec, Action::Susp, Action::Kill][usize::from(who >> 3) % 4],
        time: time(feed, now),
    }
}

/// One call, on a record that may be spoiled.
fn call(feed: &mut Feed, both: &mut Both, how: u8) {
    let now = both.clock.now;
    match how % 8 {
        0..=4 => {
            let a = activation(feed, now);
            both.offer(a);
        }
        5..=6 => {
            let to = time(feed, now);
            both.move_to(to);
        }
        _ => {
            let asked = feed.byte();
            let application = if asked < 0xF0 { asked % 9 } else { asked };
            both.ask_any(application);
            both.no_action(application, asked);
            let count = usize::from(asked);
            if count != RECORD {
                Both::with_size(count, activation(feed, now));
            }
        }
    }
}

/// A history. Answers and the whole record are compared after each call.
pub fn clock(bytes: &[u8]) {
    let mut feed = Feed::new(bytes);
    let mut both = Both::fresh();
    let first = time(&mut feed, 0);
    both.move_to(first);
    for _ in 0..CALLS {
        if feed.over() {
            break;
        }
        let how = feed.byte();
        if how < 0xE0 {
            call(&mut feed, &mut both, how);
            continue;
        }
        // The host changes a number, and the record may be spoiled. It puts the number back, or not.
        let kept = (both.record, both.clock.clone());
        let at = usize::from(feed.byte()) % RECORD;
        both.record[at] = match how >> 3 & 3 {
            0 => feed.word(),
            1 => both.record[at] ^ 1 << (feed.byte() % 32),
            2 => both.record[(at + 2) % RECORD],
            _ => feed.byte().into(),
        };
        both.clock = decode(&both.record);
        equal(&both.record, &kept.0);
        let how = feed.byte();
        call(&mut feed, &mut both, how);
        if how < 0xC0 {
            (both.record, both.clock) = kept;
        }
    }
}
