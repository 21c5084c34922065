//! The walk over a loop of descriptors, and the mark of a trigger Tap.

use crate::{boundary, Refusal};

/// A descriptor of a loop.
#[derive(Clone, Copy, Debug, PartialEq, Eq)]
pub struct Descriptor<'a> {
    /// The tag.
    pub tag: u8,
    /// The content: the part of the loop's bytes that is this descriptor's, and no other.
    pub content: &'a [u8],
    /// The place of the next step.
    pub next: usize,
}

/// What a step finds.
#[derive(Clone, Copy, Debug, PartialEq, Eq)]
pub enum Step<'a> {
    /// The descriptor at the place asked.
    Descriptor(Descriptor<'a>),
    /// The place asked is the loop's end.
    Over,
}

/// The bytes of a tag and a length.
pub const HEAD: usize = 2;

/// What the answer has for the end of a walk.
const OVER: u8 = 2;

/// Where the next step is asked. The answer has the low 40 bits of that place, which is all of it but in a loop of a
/// terabyte or more; there the low 8 bits tell how long the content is.
#[inline]
fn next_of(word: u64, size: usize, start: usize) -> usize {
    if (size as u64) < 1 << 40 {
        (word >> 24) as usize
    } else {
        by_length(word, start)
    }
}

#[cold]
#[inline(never)]
fn by_length(word: u64, start: usize) -> usize {
    start + usize::from(((word >> 24) as u8).wrapping_sub(start as u8))
}

/// What stands at a place of the loop, or 19. Any place may be asked.
#[inline]
pub fn step(bytes: &[u8], at: usize) -> Result<Step<'_>, Refusal> {
    // SAFETY: the pointer and the length are those of a slice, and the library only reads.
    let word = unsafe { boundary::khumsafil_raw_descriptor_step(bytes.as_ptr(), bytes.len(), at) };
    match word as u8 {
        0 if (word >> 8) as u8 == OVER => Ok(Step::Over),
        0 => {
            let start = at + HEAD;
            let next = next_of(word, bytes.len(), start);
            Ok(Step::Descriptor(Descriptor {
                tag: (word >> 16) as u8,
                content: bytes.get(start..next).unwrap_or_default(),
                next,
            }))
        }
        number => Err(Refusal::of(number)),
    }
}

/// Whether the descriptor at a place marks a trigger Tap: tag 0x72, length 24 and `application/atsc-trigger`, its letters
/// small or capital. Where no descriptor can be read, it does not.
///
/// ```
/// use khumsafil::descriptor::is_trigger_tap;
///
/// assert!(is_trigger_tap(b"\x72\x18application/atsc-trigger", 0));
/// assert!(is_trigger_tap(b"\x72\x18Application/ATSC-Trigger", 0));
/// assert!(!is_trigger_tap(b"\x72\x18application/atsc\rtrigger", 0));
/// ```
#[inline]
pub fn is_trigger_tap(bytes: &[u8], at: usize) -> bool {
    // SAFETY: the pointer and the length are those of a slice, and the library only reads.
    unsafe { boundary::khumsafil_raw_descriptor_is_trigger_tap(bytes.as_ptr(), bytes.len(), at) }
}

/// The descriptors of a loop, from its first to its last or to the first refusal.
///
/// ```
/// use khumsafil::{descriptor, Refusal};
///
/// let tags = |bytes: &[u8]| descriptor::walk(bytes).map(|d| d.map(|d| d.tag)).collect::<Vec<_>>();
/// assert_eq!(tags(&[1, 0, 2, 1, 9]), [Ok(1), Ok(2)]);
/// assert_eq!(tags(&[1, 0, 2, 2, 9]), [Ok(1), Err(Refusal::DESCRIPTOR_RUNS_PAST)]);
/// ```
pub fn walk(bytes: &[u8]) -> Walk<'_> {
    Walk { bytes, at: Some(0) }
}

/// A walk over a loop.
#[derive(Clone, Debug)]
pub struct Walk<'a> {
    bytes: &'a [u8],
    at: Option<usize>,
}

impl<'a> Iterator for Walk<'a> {
    type Item = Result<Descriptor<'a>, Refusal>;

    fn next(&mut self) -> Option<Self::Item> {
        let at = self.at.take()?;
        match step(self.bytes, at) {
            Ok(Step::Descriptor(found)) => {
                self.at = Some(found.next);
                Some(Ok(found))
            }
            Ok(Step::Over) => None,
            Err(refusal) => Some(Err(refusal)),
        }
    }
}

#[cfg(test)]
mod tests {
    use super::next_of;

    #[test]
    fn a_place_past_40_bits_is_told_by_the_length() {
        let word = |next: u64| (next % (1 << 40)) << 24;
        for start in [2, 255, 256, 4_000, (1 << 40) - 1, 1 << 40, (3 << 40) + 200] {
            for length in [0, 1, 127, 255] {
                let next = start + length;
                assert_eq!(
                    next_of(word(next), usize::MAX, start as usize),
                    next as usize
                );
                assert_eq!(next_of(word(next), 1 << 40, start as usize), next as usize);
                if next < 1 << 40 {
                    assert_eq!(
                        next_of(word(next), (1 << 40) - 1, start as usize),
                        next as usize
                    );
                }
            }
        }
    }
}
