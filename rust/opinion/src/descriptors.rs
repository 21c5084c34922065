//! The walk over a loop of descriptors (document 01, "Descriptors").

/// What a step gives.
#[derive(Clone, Copy, Debug, PartialEq, Eq)]
pub enum Step {
    /// The descriptor at the place asked: its tag, where its content lies, and
    /// the place of the next step.
    Descriptor {
        tag: u8,
        start: usize,
        length: usize,
        next: usize,
    },
    /// The place asked is the loop's end.
    Over,
}

/// Tag and content of the descriptor that marks a trigger Tap (A/93, clause 9.1.2).
const TRIGGER_TAG: u8 = 0x72;
const TRIGGER_MARK: &[u8] = b"application/atsc-trigger";

/// One step of the walk at the place `at`. Refusal: 19.
pub fn step(bytes: &[u8], at: usize) -> Result<Step, u8> {
    if at > bytes.len() {
        return Err(19);
    }
    let rest = &bytes[at..];
    if rest.is_empty() {
        return Ok(Step::Over);
    }
    if rest.len() < 2 {
        return Err(19);
    }
    let length = usize::from(rest[1]);
    if rest.len() < 2 + length {
        return Err(19);
    }
    Ok(Step::Descriptor {
        tag: rest[0],
        start: at + 2,
        length,
        next: at + 2 + length,
    })
}

/// The content of the descriptor at the place `at`; empty where none can be read.
pub fn view(bytes: &[u8], at: usize) -> &[u8] {
    match step(bytes, at) {
        Ok(Step::Descriptor { start, length, .. }) => &bytes[start..start + length],
        Ok(Step::Over) | Err(_) => &[],
    }
}

/// Whether the descriptor at the place `at` marks a trigger Tap: tag 0x72, length
/// 24 and the bytes `application/atsc-trigger`, its letters in either case
/// (document 02, request 2).
pub fn is_trigger_tap(bytes: &[u8], at: usize) -> bool {
    match step(bytes, at) {
        Ok(Step::Descriptor { tag, length, .. }) => {
            tag == TRIGGER_TAG
                && length == TRIGGER_MARK.len()
                && view(bytes, at)
                    .iter()
                    .zip(TRIGGER_MARK)
                    .all(|(&found, &wanted)| bytes_match(found, wanted))
        }
        Ok(Step::Over) | Err(_) => false,
    }
}

/// Whether two bytes match: letters across case, any other byte itself alone.
fn bytes_match(one: u8, other: u8) -> bool {
    match (letter(one), letter(other)) {
        (Some(one), Some(other)) => one == other,
        _ => one == other,
    }
}

/// Which letter a byte is, 0 to 25, the same for A to Z as for a to z; none for
/// every other byte.
fn letter(byte: u8) -> Option<u8> {
    match byte {
        b'A'..=b'Z' => Some(byte - b'A'),
        b'a'..=b'z' => Some(byte - b'a'),
        _ => None,
    }
}

#[cfg(test)]
mod tests {
    use super::*;
    use crate::testing::Dice;

    /// The bytes that may stand at each of the 24 places: a letter in its two
    /// cases, `/` and `-` alone.
    const ACCEPTED: [&[u8]; 24] = [
        b"aA", b"pP", b"pP", b"lL", b"iI", b"cC", b"aA", b"tT", b"iI", b"oO", b"nN", b"/", b"aA",
        b"tT", b"sS", b"cC", b"-", b"tT", b"rR", b"iI", b"gG", b"gG", b"eE", b"rR",
    ];

    /// The mark in small letters, in capitals, as the second station writes it,
    /// and mixed.
    const SPELLINGS: [&[u8; 24]; 5] = [
        b"application/atsc-trigger",
        b"APPLICATION/ATSC-TRIGGER",
        b"Application/ATSC-Trigger",
        b"aPpLiCaTiOn/AtSc-TrIgGeR",
        b"APPLICATION/atsc-triggeR",
    ];

    /// A descriptor of tag 0x72 with this content.
    fn tagged(content: &[u8]) -> Vec<u8> {
        let mut bytes = vec![0x72, content.len() as u8];
        bytes.extend_from_slice(content);
        bytes
    }

    /// Whether a descriptor of tag 0x72 with this content is the mark.
    fn marks(content: &[u8]) -> bool {
        is_trigger_tap(&tagged(content), 0)
    }

    /// Whether the mark, in any of the spellings, stands with `byte` at `place`.
    /// All spellings must say the same.
    fn marks_with(place: usize, byte: u8) -> bool {
        let answers = SPELLINGS.map(|spelling| {
            let mut content = *spelling;
            content[place] = byte;
            marks(&content)
        });
        assert!(answers.iter().all(|&answer| answer == answers[0]));
        answers[0]
    }

    #[test]
    fn an_empty_loop_has_no_step() {
        assert_eq!(step(&[], 0), Ok(Step::Over));
        assert_eq!(view(&[], 0), &[] as &[u8]);
        assert_eq!(step(&[], 1), Err(19));
        assert_eq!(step(&[], usize::MAX), Err(19));
    }

    #[test]
    fn steps_give_tag_and_view() {
        let bytes = [1, 0, 2, 3, 10, 11, 12, 3, 1, 20];
        assert_eq!(
            step(&bytes, 0),
            Ok(Step::Descriptor {
                tag: 1,
                start: 2,
                length: 0,
                next: 2
            })
        );
        assert_eq!(
            step(&bytes, 2),
            Ok(Step::Descriptor {
                tag: 2,
                start: 4,
                length: 3,
                next: 7
            })
        );
        assert_eq!(
            step(&bytes, 7),
            Ok(Step::Descriptor {
                tag: 3,
                start: 9,
                length: 1,
                next: 10
            })
        );
        assert_eq!(step(&bytes, 10), Ok(Step::Over));
        assert_eq!(view(&bytes, 0), &[] as &[u8]);
        assert_eq!(view(&bytes, 2), &[10, 11, 12]);
        assert_eq!(view(&bytes, 7), &[20]);
        assert_eq!(view(&bytes, 10), &[] as &[u8]);
    }

    #[test]
    fn running_out_or_past_the_end_is_19() {
        assert_eq!(step(&[5], 0), Err(19));
        assert_eq!(step(&[5, 1], 0), Err(19));
        assert_eq!(step(&[5, 3, 1, 2], 0), Err(19));
        assert_eq!(step(&[5, 0], 3), Err(19));
        assert_eq!(step(&[5, 255], usize::MAX), Err(19));
        assert_eq!(view(&[5], 0), &[] as &[u8]);
        assert_eq!(view(&[5, 3, 1, 2], 0), &[] as &[u8]);
        assert_eq!(view(&[5, 0], 3), &[] as &[u8]);
        assert_eq!(view(&[5, 0], usize::MAX), &[] as &[u8]);
    }

    #[test]
    fn the_longest_descriptor() {
        let mut bytes = vec![9; 257];
        bytes[1] = 255;
        assert_eq!(
            step(&bytes, 0),
            Ok(Step::Descriptor {
                tag: 9,
                start: 2,
                length: 255,
                next: 257
            })
        );
        assert_eq!(step(&bytes[..256], 0), Err(19));
    }

    #[test]
    fn views_with_their_heads_tile_the_loop() {
        let mut dice = Dice(7);
        for _ in 0..200 {
            let mut bytes = Vec::new();
            for _ in 0..dice.below(6) {
                let length = dice.below(256);
                bytes.push(dice.next() as u8);
                bytes.push(length as u8);
                bytes.extend(dice.bytes(length));
            }
            let mut tiled = Vec::new();
            let mut at = 0;
            while let Step::Descriptor {
                tag, length, next, ..
            } = step(&bytes, at).unwrap()
            {
                tiled.push(tag);
                tiled.push(length as u8);
                tiled.extend_from_slice(view(&bytes, at));
                at = next;
            }
            assert_eq!(at, bytes.len());
            assert_eq!(tiled, bytes);
        }
    }

    #[test]
    fn the_trigger_tap_is_found_at_its_place() {
        for spelling in SPELLINGS {
            let bytes = tagged(spelling);
            assert_eq!(bytes.len(), 26);
            assert!(is_trigger_tap(&bytes, 0));
            assert!(!is_trigger_tap(&bytes, 1));
            assert!(!is_trigger_tap(&bytes, 26));
            assert!(!is_trigger_tap(&bytes, 27));
            assert!(!is_trigger_tap(&bytes, usize::MAX));
            assert!(!is_trigger_tap(&bytes[..25], 0));
            let mut walk = vec![1, 1, 1];
            walk.extend(bytes);
            walk.extend([0x72, 0]);
            assert!(!is_trigger_tap(&walk, 0));
            assert!(is_trigger_tap(&walk, 3));
            assert!(!is_trigger_tap(&walk, 29));
        }
    }

    #[test]
    fn the_mark_in_any_case() {
        assert!(marks(b"application/atsc-trigger"));
        assert!(marks(b"APPLICATION/ATSC-TRIGGER"));
        assert!(marks(b"Application/ATSC-Trigger"));
        assert!(marks(b"aPpLiCaTiOn/AtSc-TrIgGeR"));
        assert!(marks(b"applicatioN/Atsc-Trigger"));
        assert!(!marks(b"Application/ATSC-Triggers"));
        assert!(!marks(b"Application/ATSC-Trigge"));
        assert!(!marks(b"Application/ATSC-Rtigger"));
        assert!(!marks(b"Application-ATSC/Trigger"));
    }

    #[test]
    fn the_view_keeps_the_case_sent() {
        for spelling in SPELLINGS {
            assert_eq!(view(&tagged(spelling), 0), spelling);
        }
    }

    #[test]
    fn every_byte_at_every_place() {
        let mut accepted = 0;
        for (place, values) in ACCEPTED.iter().enumerate() {
            for byte in 0..=255 {
                assert_eq!(marks_with(place, byte), values.contains(&byte));
                accepted += usize::from(marks_with(place, byte));
            }
        }
        // 22 letters in two cases and 2 separators.
        assert_eq!(accepted, 46);
    }

    #[test]
    fn separators_have_no_equal() {
        assert!(marks_with(11, 0x2F));
        assert!(marks_with(16, 0x2D));
        // 32 below, 32 and 64 above, the other separator, and what looks alike.
        for byte in [0x0F, 0x4F, 0x6F, b'-', b'\\', b'|', b' ', 0, 0xAF] {
            assert!(!marks_with(11, byte));
        }
        for byte in [0x0D, 0x4D, 0x6D, b'/', b'_', b'~', b' ', 0, 0xAD] {
            assert!(!marks_with(16, byte));
        }
    }

    #[test]
    fn only_letters_match_32_apart() {
        // Every pair of bytes: itself, or one letter in two cases.
        let capitals = b"ABCDEFGHIJKLMNOPQRSTUVWXYZ";
        let small = b"abcdefghijklmnopqrstuvwxyz";
        for one in 0..=255 {
            for other in 0..=255 {
                let two_cases = capitals
                    .iter()
                    .zip(small)
                    .any(|(&c, &s)| (one, other) == (c, s) || (one, other) == (s, c));
                assert_eq!(bytes_match(one, other), one == other || two_cases);
            }
        }
        // The neighbours of the letters, 32 apart, match neither each other nor
        // any place of the mark.
        for (one, other) in [
            (b'@', b'`'),
            (b'[', b'{'),
            (b'\\', b'|'),
            (b']', b'}'),
            (b'^', b'~'),
            (b'_', 0x7F),
        ] {
            assert_eq!(one + 32, other);
            assert!(!bytes_match(one, other));
            assert!(!bytes_match(other, one));
            for place in 0..24 {
                assert!(!marks_with(place, one));
                assert!(!marks_with(place, other));
            }
        }
        // 32 above a small letter, or 32 below a capital, is no letter.
        for (place, values) in ACCEPTED.iter().enumerate() {
            if let [small, capital] = values {
                assert!(!marks_with(place, small + 32));
                assert!(!marks_with(place, capital - 32));
            }
        }
    }

    #[test]
    fn bytes_of_128_or_more_are_never_the_mark() {
        for place in 0..24 {
            for byte in 128..=255 {
                assert!(!marks_with(place, byte));
            }
        }
        for spelling in SPELLINGS {
            assert!(!marks(&spelling.map(|byte| byte | 0x80)));
        }
    }

    #[test]
    fn tag_and_length_are_unchanged() {
        for spelling in SPELLINGS {
            for tag in 0..=255 {
                let mut bytes = tagged(spelling);
                bytes[0] = tag;
                // 0x52 is no other 0x72, though as letters they are R and r.
                assert_eq!(is_trigger_tap(&bytes, 0), tag == 0x72);
            }
            for length in 0..=255 {
                let mut bytes = tagged(spelling);
                bytes[1] = length;
                // Too short for a length above 24, then long enough for any.
                assert_eq!(is_trigger_tap(&bytes, 0), length == 24);
                bytes.resize(257, b'r');
                assert_eq!(is_trigger_tap(&bytes, 0), length == 24);
            }
            assert!(!marks(&spelling[..23]));
            assert!(!marks(&[&spelling[..], b"R"].concat()));
            assert!(!marks(&[&spelling[..], &[0]].concat()));
        }
    }

    #[test]
    fn random_mixtures_of_case() {
        let mut dice = Dice(2045);
        for _ in 0..500 {
            let mut content = ACCEPTED.map(|values| values[dice.below(values.len())]);
            assert!(marks(&content));
            let place = dice.below(24);
            let byte = dice.next() as u8;
            content[place] = byte;
            assert_eq!(marks(&content), ACCEPTED[place].contains(&byte));
        }
    }
}
