//! A/93 triggers.

use crate::{boundary, Refusal};

/// What a trigger is aimed at. Bytes are parts of the payload.
#[derive(Clone, Copy, Debug, PartialEq, Eq)]
pub enum Target<'a> {
    /// No explicit target.
    None,
    /// A module, by three numbers.
    Module {
        /// The download's.
        download: u16,
        /// The group's.
        group: u16,
        /// The module's own.
        module: u16,
    },
    /// A tap, by its number.
    Tap(u16),
    /// An absolute URI.
    AbsoluteUri(&'a [u8]),
    /// A lid URI.
    LidUri(&'a [u8]),
    /// An http URI.
    HttpUri(&'a [u8]),
    /// A type that A/93 keeps for later.
    Reserved {
        /// The type, 6 or more.
        kind: u8,
        /// The target's bytes.
        bytes: &'a [u8],
    },
}

/// What a trigger says.
#[derive(Clone, Copy, Debug)]
pub struct Trigger<'a> {
    /// The application id's length as read: 0 where the trigger is for every application.
    pub id_length: u16,
    /// The description, 0 where the id's length is 0.
    pub description: u16,
    /// The application id.
    pub id: &'a [u8],
    /// The target.
    pub target: Target<'a>,
    /// The user data.
    pub user: &'a [u8],
    payload: &'a [u8],
    fields: [u16; FIELDS],
}

/// The most bytes of a trigger.
pub const LARGEST: usize = 4_096;

/// How many numbers a trigger is answered in.
pub const FIELDS: usize = 11;

/// Reads the payload as a trigger into the first [`FIELDS`] numbers of `fields`, in the header's order. Refused: 26, 20 to
/// 25, and 15 where fewer are lent.
#[inline]
pub fn fields(payload: &[u8], fields: &mut [u16]) -> Result<(), Refusal> {
    // SAFETY: pointers and lengths are those of slices, and the one that is written is not part of the other.
    let number = unsafe {
        boundary::khumsafil_raw_trigger_read(
            payload.as_ptr(),
            payload.len(),
            fields.as_mut_ptr(),
            fields.len(),
        )
    };
    match number {
        0 => Ok(()),
        number => Err(Refusal::of(number)),
    }
}

/// Reads the payload as a trigger, or says by which of the numbers 20 to 26 it is refused.
///
/// ```
/// use khumsafil::{trigger, Refusal};
/// use trigger::Target;
///
/// let payload = [0, 0, 2, 0, 1, 2, 0, 2, 0, 0x17, 0, 1, 0x41];
/// let read = trigger::read(&payload).expect("a trigger");
/// assert_eq!((read.description, read.target, read.user), (1, Target::Tap(23), &[0x41][..]));
/// assert_eq!(trigger::read(&payload[..12]), Err(Refusal::TRIGGER_CUT_OFF));
/// ```
#[inline]
pub fn read(payload: &[u8]) -> Result<Trigger<'_>, Refusal> {
    let mut read = [0; FIELDS];
    fields(payload, &mut read)?;
    let [id_length, description, id, id_bytes, kind, of, first, second, third, user, user_bytes] =
        read;
    let part = |place: u16, length: u16| {
        let place = usize::from(place);
        payload
            .get(place..place + usize::from(length))
            .unwrap_or_default()
    };
    Ok(Trigger {
        id_length,
        description,
        id: part(id, id_bytes),
        target: match kind {
            0 => Target::None,
            1 => Target::Module {
                download: first,
                group: second,
                module: third,
            },
            2 => Target::Tap(first),
            3 => Target::AbsoluteUri(part(first, second)),
            4 => Target::LidUri(part(first, second)),
            5 => Target::HttpUri(part(first, second)),
            _ => Target::Reserved {
                kind: of as u8,
                bytes: part(first, second),
            },
        },
        user: part(user, user_bytes),
        payload,
        fields: read,
    })
}

/// Whether a trigger belongs to the application with an id, by the numbers that [`fields`] gave of its payload. Any numbers
/// may be given: a trigger whose id length is 0 is every application's, and an id that does not lie in the payload is none's.
/// Numbers that cannot be this payload's are none's: fewer than [`FIELDS`], an id before place 3, or user data that does not end
/// where the payload does. Whether the payload is a trigger is not asked, so ask after a reading that was not refused, or by
/// [`Trigger::belongs_to`]. Numbers past the eleventh are not looked at.
#[inline]
pub fn belongs(payload: &[u8], fields: &[u16], application: &[u8]) -> bool {
    // SAFETY: pointers and lengths are those of slices, and the library only reads.
    unsafe {
        boundary::khumsafil_raw_trigger_belongs(
            payload.as_ptr(),
            payload.len(),
            fields.as_ptr(),
            fields.len(),
            application.as_ptr(),
            application.len(),
        )
    }
}

impl Trigger<'_> {
    /// Whether the trigger belongs to the application with that id.
    pub fn belongs_to(&self, application: &[u8]) -> bool {
        belongs(self.payload, &self.fields, application)
    }
}

/// Two triggers are equal where they say the same, wherever their parts stand.
impl PartialEq for Trigger<'_> {
    fn eq(&self, other: &Trigger<'_>) -> bool {
        self.id_length == other.id_length
            && self.description == other.description
            && self.id == other.id
            && self.target == other.target
            && self.user == other.user
    }
}

impl Eq for Trigger<'_> {}
