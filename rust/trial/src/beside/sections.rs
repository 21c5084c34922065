//! Sections.

use crate::keys::answered;

/// Reads the payload by both, fails where they differ, and gives the number that both gave.
pub fn compare(payload: &[u8]) -> u8 {
    let ours = khumsafil::section::read(payload);
    let theirs = opinion::section::read(payload);
    match (ours, theirs) {
        (Err(refusal), Err(number)) if refusal.number() == number => number,
        (Ok(a), Ok(b)) => {
            assert!(answered(a.key, b.key()), "{a:?} is not {b:?}");
            assert_eq!(
                (b.service_id, b.time_span_start),
                (a.key.service_id, a.key.time_span_start),
                "the rest of the key of {payload:02X?}"
            );
            assert_eq!(
                (a.version, a.number, a.last),
                (b.version, b.number, b.last),
                "fields of {payload:02X?}"
            );
            let body = &payload[b.body_start..b.body_start + b.body_length];
            assert_eq!(
                a.body.as_ptr_range(),
                body.as_ptr_range(),
                "body of {payload:02X?}"
            );
            0
        }
        _ => panic!("{ours:?} is not {theirs:?}: {payload:02X?}"),
    }
}
