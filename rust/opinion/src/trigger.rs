//! An A/93 trigger (document 01, "A trigger").

/// The most bytes a trigger may have (refusal 26).
pub const MOST: usize = 4096;

/// The seven kinds of target. Bytes are given as place and length in the payload.
#[derive(Clone, Copy, Debug, PartialEq, Eq)]
pub enum Target {
    None,
    Module {
        download: u16,
        group: u16,
        module: u16,
    },
    Tap(u16),
    AbsoluteUri {
        start: usize,
        length: usize,
    },
    LidUri {
        start: usize,
        length: usize,
    },
    HttpUri {
        start: usize,
        length: usize,
    },
    Reserved {
        kind: u8,
        start: usize,
        length: usize,
    },
}

/// A sound trigger.
#[derive(Clone, Copy, Debug, PartialEq, Eq)]
pub struct Trigger {
    /// The application id length as read: 0, or 2 and more.
    pub id_length: u16,
    pub description: u16,
    /// Place and length of the id bytes.
    pub id_start: usize,
    pub id_bytes: usize,
    pub target: Target,
    pub user_start: usize,
    pub user_length: usize,
}

/// A walk over the fields from the left. A field that ends past the payload is 20.
struct Fields<'a> {
    payload: &'a [u8],
    at: usize,
}

impl Fields<'_> {
    /// Steps over `length` bytes and answers the place where they begin.
    fn skip(&mut self, length: usize) -> Result<usize, u8> {
        if self.payload.len() - self.at < length {
            return Err(20);
        }
        let start = self.at;
        self.at += length;
        Ok(start)
    }

    fn byte(&mut self) -> Result<u8, u8> {
        let start = self.skip(1)?;
        Ok(self.payload[start])
    }

    fn word(&mut self) -> Result<u16, u8> {
        let start = self.skip(2)?;
        Ok(word_at(self.payload, start))
    }
}

fn word_at(payload: &[u8], start: usize) -> u16 {
    u16::from_be_bytes([payload[start], payload[start + 1]])
}

/// Reads the payload as one trigger. Refusals: 26, then field by field 20 to 25.
pub fn read(payload: &[u8]) -> Result<Trigger, u8> {
    if payload.len() > MOST {
        return Err(26);
    }
    let mut fields = Fields { payload, at: 0 };

    let event_type = fields.byte()?;
    if event_type != 0 {
        return Err(21);
    }

    let id_length = fields.word()?;
    if id_length == 1 {
        return Err(22);
    }
    let mut description = 0;
    let mut id_bytes = 0;
    if id_length >= 2 {
        description = fields.word()?;
        id_bytes = usize::from(id_length) - 2;
    }
    let id_start = fields.skip(id_bytes)?;

    let target = read_target(&mut fields)?;

    let user_length = usize::from(fields.word()?);
    let user_start = fields.skip(user_length)?;
    if fields.at != payload.len() {
        return Err(25);
    }

    Ok(Trigger {
        id_length,
        description,
        id_start,
        id_bytes,
        target,
        user_start,
        user_length,
    })
}

/// Target type, target length and target bytes. 23 precedes the target bytes' 20,
/// and 24 follows it.
fn read_target(fields: &mut Fields) -> Result<Target, u8> {
    let kind = fields.byte()?;
    let length = usize::from(fields.word()?);

    let allowed = match kind {
        0 => length == 0,
        1 => length == 0 || length == 6,
        2 => length == 0 || length == 2,
        _ => true,
    };
    if !allowed {
        return Err(23);
    }

    let start = fields.skip(length)?;
    let payload = fields.payload;
    if (3..=5).contains(&kind) && !payload[start..start + length].is_ascii() {
        return Err(24);
    }

    // Length 0 under any type means no explicit target.
    if length == 0 {
        return Ok(Target::None);
    }
    Ok(match kind {
        0 => Target::None,
        1 => Target::Module {
            download: word_at(payload, start),
            group: word_at(payload, start + 2),
            module: word_at(payload, start + 4),
        },
        2 => Target::Tap(word_at(payload, start)),
        3 => Target::AbsoluteUri { start, length },
        4 => Target::LidUri { start, length },
        5 => Target::HttpUri { start, length },
        _ => Target::Reserved {
            kind,
            start,
            length,
        },
    })
}

/// Whether the trigger belongs to the application: its id length is 0, or its id
/// bytes equal the application's (A/93, clause 9.1). Places that do not lie in the
/// payload hold no id, and equal none.
pub fn belongs(payload: &[u8], trigger: &Trigger, application_id: &[u8]) -> bool {
    if trigger.id_length == 0 {
        return true;
    }
    let Some(end) = trigger.id_start.checked_add(trigger.id_bytes) else {
        return false;
    };
    payload.get(trigger.id_start..end) == Some(application_id)
}

#[cfg(test)]
mod tests {
    use super::*;
    use crate::testing::Dice;

    /// A trigger without application: the target as given, and no user data.
    fn with_target(kind: u8, length: u16, bytes: &[u8]) -> Vec<u8> {
        let mut payload = vec![0, 0, 0, kind, (length >> 8) as u8, length as u8];
        payload.extend_from_slice(bytes);
        payload.extend([0, 0]);
        payload
    }

    fn target_of(kind: u8, bytes: &[u8]) -> Result<Target, u8> {
        read(&with_target(kind, bytes.len() as u16, bytes)).map(|trigger| trigger.target)
    }

    #[test]
    fn p9_eight_zero_bytes() {
        assert_eq!(
            read(&[0; 8]),
            Ok(Trigger {
                id_length: 0,
                description: 0,
                id_start: 3,
                id_bytes: 0,
                target: Target::None,
                user_start: 8,
                user_length: 0,
            })
        );
    }

    #[test]
    fn p10_tap_23_and_data_41() {
        let payload = [0, 0, 2, 0, 1, 2, 0, 2, 0, 0x17, 0, 1, 0x41];
        assert_eq!(
            read(&payload),
            Ok(Trigger {
                id_length: 2,
                description: 1,
                id_start: 5,
                id_bytes: 0,
                target: Target::Tap(23),
                user_start: 12,
                user_length: 1,
            })
        );
    }

    #[test]
    fn p11_application_id_length_1_is_22() {
        for size in 3..20 {
            let mut payload = vec![0; size];
            payload[2] = 1;
            assert_eq!(read(&payload), Err(22));
        }
    }

    #[test]
    fn a_zero_length_tap_is_no_target() {
        for kind in 0..=255 {
            assert_eq!(target_of(kind, &[]), Ok(Target::None));
        }
    }

    #[test]
    fn the_seven_kinds() {
        assert_eq!(target_of(0, &[]), Ok(Target::None));
        assert_eq!(
            target_of(1, &[1, 2, 3, 4, 5, 6]),
            Ok(Target::Module {
                download: 0x0102,
                group: 0x0304,
                module: 0x0506
            })
        );
        assert_eq!(target_of(2, &[1, 2]), Ok(Target::Tap(0x0102)));
        assert_eq!(
            target_of(3, b"dvb://x"),
            Ok(Target::AbsoluteUri {
                start: 6,
                length: 7
            })
        );
        assert_eq!(
            target_of(4, b"x"),
            Ok(Target::LidUri {
                start: 6,
                length: 1
            })
        );
        assert_eq!(
            target_of(5, &[0, 127]),
            Ok(Target::HttpUri {
                start: 6,
                length: 2
            })
        );
        assert_eq!(
            target_of(6, &[200]),
            Ok(Target::Reserved {
                kind: 6,
                start: 6,
                length: 1
            })
        );
        assert_eq!(
            target_of(255, &[255; 9]),
            Ok(Target::Reserved {
                kind: 255,
                start: 6,
                length: 9
            })
        );
    }

    #[test]
    fn application_id_and_user_data_lie_where_they_stand() {
        let payload = [0, 0, 5, 0xAB, 0xCD, b'x', b'y', b'z', 0, 0, 0, 0, 2, 8, 9];
        assert_eq!(
            read(&payload),
            Ok(Trigger {
                id_length: 5,
                description: 0xABCD,
                id_start: 5,
                id_bytes: 3,
                target: Target::None,
                user_start: 13,
                user_length: 2,
            })
        );
    }

    #[test]
    fn a_trigger_that_ends_inside_a_field_is_20() {
        let whole = [0, 0, 3, 0, 1, 77, 2, 0, 2, 0, 0x17, 0, 1, 0x41];
        assert!(read(&whole).is_ok());
        for size in 0..whole.len() {
            assert_eq!(read(&whole[..size]), Err(20), "{size}");
        }
        assert_eq!(read(&[0, 0xFF, 0xFF, 0, 0, 0, 0, 0]), Err(20));
        assert_eq!(read(&with_target(3, 0xFFFF, b"abc")), Err(20));
        assert_eq!(read(&[0, 0, 0, 0, 0, 0, 0xFF, 0xFF]), Err(20));
    }

    #[test]
    fn event_type_not_0_is_21() {
        for event_type in 1..=255 {
            assert_eq!(read(&[event_type]), Err(21));
            assert_eq!(read(&[event_type, 0, 1, 9, 9]), Err(21));
        }
    }

    #[test]
    fn target_lengths_are_23() {
        for length in 0..12 {
            let bytes = vec![0; length];
            assert_eq!(target_of(0, &bytes) == Err(23), length != 0);
            assert_eq!(target_of(1, &bytes) == Err(23), length != 0 && length != 6);
            assert_eq!(target_of(2, &bytes) == Err(23), length != 0 && length != 2);
            assert!(target_of(3, &bytes).is_ok());
            assert!(target_of(6, &bytes).is_ok());
        }
        // 23 precedes the target bytes' 20; the length's own 20 precedes 23.
        assert_eq!(read(&[0, 0, 0, 2, 0, 3]), Err(23));
        assert_eq!(read(&[0, 0, 0, 0, 0, 1]), Err(23));
        assert_eq!(read(&[0, 0, 0, 1, 0]), Err(20));
        assert_eq!(read(&[0, 0, 0, 1, 0, 6, 1, 2, 3, 4, 5]), Err(20));
    }

    #[test]
    fn uri_bytes_above_127_are_24() {
        for kind in 3..=5 {
            assert_eq!(target_of(kind, &[0x80]), Err(24));
            assert_eq!(target_of(kind, b"ab\xFFcd"), Err(24));
            // 24 follows the target bytes' 20 and precedes the user data's.
            assert_eq!(read(&[0, 0, 0, kind, 0, 3, 0x80, 0x80]), Err(20));
            assert_eq!(read(&[0, 0, 0, kind, 0, 2, 0x80, 0x80]), Err(24));
            assert_eq!(read(&[0, 0, 0, kind, 0, 2, 0x41, 0x41]), Err(20));
        }
    }

    #[test]
    fn bytes_after_the_user_data_are_25() {
        assert_eq!(read(&[0; 9]), Err(25));
        assert_eq!(read(&[0, 0, 0, 0, 0, 0, 0, 1, 5, 6]), Err(25));
    }

    #[test]
    fn over_4096_bytes_is_26_before_all() {
        let mut payload = vec![0; 4096];
        assert_eq!(read(&payload), Err(25));
        payload[6] = 0x0F;
        payload[7] = 0xF8;
        assert_eq!(
            read(&payload).map(|t| (t.user_start, t.user_length)),
            Ok((8, 4088))
        );
        payload.push(0);
        assert_eq!(read(&payload), Err(26));
        payload[0] = 1;
        assert_eq!(read(&payload), Err(26));
    }

    #[test]
    fn a_trigger_belongs_by_its_id_bytes() {
        let none = [0; 8];
        let trigger = read(&none).unwrap();
        assert!(belongs(&none, &trigger, b""));
        assert!(belongs(&none, &trigger, b"xyz"));

        let payload = [0, 0, 5, 0, 1, b'x', b'y', b'z', 0, 0, 0, 0, 0];
        let trigger = read(&payload).unwrap();
        assert!(belongs(&payload, &trigger, b"xyz"));
        assert!(!belongs(&payload, &trigger, b"xyZ"));
        assert!(!belongs(&payload, &trigger, b"xy"));
        assert!(!belongs(&payload, &trigger, b"xyza"));
        assert!(!belongs(&payload, &trigger, b""));

        // Id length 2: an id of no bytes is not "no id".
        let empty_id = [0, 0, 2, 0, 1, 0, 0, 0, 0, 0];
        let trigger = read(&empty_id).unwrap();
        assert!(belongs(&empty_id, &trigger, b""));
        assert!(!belongs(&empty_id, &trigger, b"x"));

        // Places beyond the payload equal nothing.
        let mut odd = trigger;
        odd.id_start = usize::MAX;
        odd.id_bytes = 2;
        assert!(!belongs(&empty_id, &odd, b"xy"));
        odd.id_start = 9;
        assert!(!belongs(&empty_id, &odd, b"xy"));
    }

    #[test]
    fn any_bytes_are_answered() {
        let mut dice = Dice(11);
        for _ in 0..20_000 {
            let size = dice.below(40);
            let mut payload = dice.bytes(size);
            for byte in payload.iter_mut() {
                if dice.below(3) > 0 {
                    *byte &= 7;
                }
            }
            if let Some(first) = payload.first_mut() {
                *first = 0;
            }
            if let Ok(trigger) = read(&payload) {
                assert_eq!(trigger.user_start + trigger.user_length, payload.len());
            }
        }
    }
}
