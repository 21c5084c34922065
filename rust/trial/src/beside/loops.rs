//! Descriptor loops.

use khumsafil::descriptor::{self, Step};
use opinion::descriptors as theirs;

/// Asks both for a step at a place, fails where they differ, and gives the number and the next place.
pub fn step(bytes: &[u8], at: usize) -> (u8, Option<usize>) {
    let marked = descriptor::is_trigger_tap(bytes, at);
    assert_eq!(
        marked,
        theirs::is_trigger_tap(bytes, at),
        "{at} of {bytes:02X?}"
    );
    match (descriptor::step(bytes, at), theirs::step(bytes, at)) {
        (Err(refusal), Err(number)) if refusal.number() == number => (number, None),
        (Ok(Step::Over), Ok(theirs::Step::Over)) => (0, None),
        (
            Ok(Step::Descriptor(ours)),
            Ok(theirs::Step::Descriptor {
                tag,
                start,
                length,
                next,
            }),
        ) => {
            assert_eq!((ours.tag, ours.next), (tag, next), "{at} of {bytes:02X?}");
            let view = theirs::view(bytes, at);
            assert_eq!(
                view.as_ptr_range(),
                bytes[start..start + length].as_ptr_range()
            );
            assert_eq!(
                ours.content.as_ptr_range(),
                view.as_ptr_range(),
                "{at} of {bytes:02X?}"
            );
            (0, Some(next))
        }
        (ours, theirs) => panic!("{ours:?} is not {theirs:?} at {at} of {bytes:02X?}"),
    }
}

/// Walks the loop by both, and gives the number that the walk ended with.
pub fn walk(bytes: &[u8], steps: &mut u64) -> u8 {
    let mut at = 0;
    loop {
        *steps += 1;
        match step(bytes, at) {
            (number, None) => return number,
            (_, Some(next)) => at = next,
        }
    }
}
