//! Triggers.

use crate::tally::Tally;
use khumsafil::trigger::{self, Target};
use opinion::trigger as theirs;

/// Whether two are one part of the payload.
fn same(ours: &[u8], payload: &[u8], start: usize, length: usize) -> bool {
    ours.as_ptr_range() == payload[start..start + length].as_ptr_range()
}

/// The kind of target, 0 to 6, if both found the same.
fn target(ours: Target, other: theirs::Target, payload: &[u8]) -> Option<u8> {
    use theirs::Target as T;
    match (ours, other) {
        (Target::None, T::None) => Some(0),
        (
            Target::Module {
                download: a,
                group: b,
                module: c,
            },
            T::Module {
                download,
                group,
                module,
            },
        ) if (a, b, c) == (download, group, module) => Some(1),
        (Target::Tap(a), T::Tap(b)) if a == b => Some(2),
        (Target::AbsoluteUri(a), T::AbsoluteUri { start, length })
            if same(a, payload, start, length) =>
        {
            Some(3)
        }
        (Target::LidUri(a), T::LidUri { start, length }) if same(a, payload, start, length) => {
            Some(4)
        }
        (Target::HttpUri(a), T::HttpUri { start, length }) if same(a, payload, start, length) => {
            Some(5)
        }
        (
            Target::Reserved { kind: k, bytes },
            T::Reserved {
                kind,
                start,
                length,
            },
        ) if k == kind && same(bytes, payload, start, length) => Some(6),
        _ => None,
    }
}

/// Reads the payload by both, fails where they differ, and gives the number that both gave.
pub fn compare(payload: &[u8], targets: &mut Tally) -> u8 {
    match (trigger::read(payload), theirs::read(payload)) {
        (Err(refusal), Err(number)) if refusal.number() == number => number,
        (Ok(a), Ok(b)) => {
            assert_eq!(
                (a.id_length, a.description),
                (b.id_length, b.description),
                "{payload:02X?}"
            );
            assert!(
                same(a.id, payload, b.id_start, b.id_bytes),
                "id of {payload:02X?}"
            );
            assert!(
                same(a.user, payload, b.user_start, b.user_length),
                "user data of {payload:02X?}"
            );
            let kind = target(a.target, b.target, payload);
            targets.note(
                "target",
                kind.unwrap_or_else(|| panic!("target of {payload:02X?}")),
            );
            0
        }
        (ours, theirs) => panic!("{ours:?} is not {theirs:?}: {payload:02X?}"),
    }
}

/// Asks both whether a trigger of these numbers belongs to the application. With fewer than eleven it is none's, and more
/// are not looked at. Nor is it any's where the numbers cannot be this payload's: an id before place 3, or user data that does
/// not end where the payload does.
pub fn belongs(payload: &[u8], fields: &[u16], application: &[u8]) -> bool {
    let ours = trigger::belongs(payload, fields, application);
    let other = match fields {
        [id_length, description, place, size, _, _, _, _, _, user, bytes, ..]
            if *place >= 3 && usize::from(*user) + usize::from(*bytes) == payload.len() =>
        {
            let numbers = theirs::Trigger {
                id_length: *id_length,
                description: *description,
                id_start: usize::from(*place),
                id_bytes: usize::from(*size),
                target: theirs::Target::None,
                user_start: 0,
                user_length: 0,
            };
            theirs::belongs(payload, &numbers, application)
        }
        _ => false,
    };
    assert_eq!(
        ours, other,
        "{fields:?} of {payload:02X?}, {application:02X?}"
    );
    ours
}

/// The same with the numbers as they are, with each fewer and with more behind them; gives what the numbers as they are gave.
pub fn belongs_by_any(payload: &[u8], fields: &[u16; trigger::FIELDS], application: &[u8]) -> bool {
    for fewer in 0..trigger::FIELDS {
        assert!(!belongs(payload, &fields[..fewer], application));
    }
    let given = belongs(payload, fields, application);
    let mut more = fields.to_vec();
    more.extend([0, 3, 0]);
    assert_eq!(belongs(payload, &more, application), given);
    given
}

/// Reads the payload with room for so many numbers: fewer than a trigger's stay as they were, and so do those past them.
pub fn fields(payload: &[u8], room: usize) -> u8 {
    const UNWRITTEN: u16 = 0xABCD;
    let mut out = vec![UNWRITTEN; room];
    let answer = trigger::fields(payload, &mut out).map_err(|refusal| refusal.number());
    let number = match theirs::read(payload) {
        Err(number) => number,
        Ok(_) if room < trigger::FIELDS => 15,
        Ok(_) => 0,
    };
    assert_eq!(
        answer.err().unwrap_or(0),
        number,
        "{room} for {payload:02X?}"
    );
    let written = if number == 0 { trigger::FIELDS } else { 0 };
    assert!(
        out[written..].iter().all(|n| *n == UNWRITTEN),
        "{payload:02X?}"
    );
    number
}
