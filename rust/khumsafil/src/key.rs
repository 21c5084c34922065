//! What tells one table from another.

use core::cmp::Ordering;
use core::fmt;
use core::hash::{Hash, Hasher};

/// What tells one table from another: its table id and its table id extension, and of an NRT-IT also its service and the start of
/// its time span.
///
/// Of every other table these two mean nothing: a call disregards them, an answer has 0 there, and two keys that differ in them
/// alone are equal. A key is made by [`Key::new`], [`Key::nrt_it`] or [`Key::of`], or is an answer's.
///
/// ```
/// use khumsafil::Key;
///
/// assert_eq!(Key::new(201, 4_660).to_string(), "table 201 key 4660");
/// let list = Key::nrt_it(4_097, 7, 1_000_000_800);
/// assert_eq!(list.to_string(), "table 223 key 4097 service 7 start 1000000800");
/// assert_ne!(list, Key::nrt_it(4_097, 8, 1_000_000_800));
/// assert_eq!(Key::of(201, 4_660, 7, 1_000_000_800), Key::new(201, 4_660));
/// ```
#[non_exhaustive]
#[derive(Clone, Copy, Debug)]
pub struct Key {
    /// The table id.
    pub table_id: u8,
    /// The table id extension.
    pub extension: u16,
    /// The service that an NRT-IT tells of; 0 of every other table.
    pub service_id: u16,
    /// When the time span of an NRT-IT begins, in GPS seconds; 0 of every other table.
    pub time_span_start: u32,
}

impl Key {
    /// The table id of an NRT-IT.
    pub const NRT_IT: u8 = 0xDF;

    /// The key of any table but an NRT-IT. With [`Key::NRT_IT`] it is the key of service 0 from second 0 on.
    pub const fn new(table_id: u8, extension: u16) -> Key {
        Key {
            table_id,
            extension,
            service_id: 0,
            time_span_start: 0,
        }
    }

    /// The key of an NRT-IT.
    pub const fn nrt_it(extension: u16, service_id: u16, time_span_start: u32) -> Key {
        Key {
            table_id: Key::NRT_IT,
            extension,
            service_id,
            time_span_start,
        }
    }

    /// The key with any four numbers. The last two become 0 where the table id is not [`Key::NRT_IT`].
    pub const fn of(table_id: u8, extension: u16, service_id: u16, time_span_start: u32) -> Key {
        match table_id {
            Key::NRT_IT => Key::nrt_it(extension, service_id, time_span_start),
            _ => Key::new(table_id, extension),
        }
    }

    /// The numbers that tell it from others, whatever a host wrote into its fields.
    #[inline]
    const fn numbers(&self) -> (u8, u16, u16, u32) {
        let one = Key::of(
            self.table_id,
            self.extension,
            self.service_id,
            self.time_span_start,
        );
        (
            one.table_id,
            one.extension,
            one.service_id,
            one.time_span_start,
        )
    }
}

impl PartialEq for Key {
    #[inline]
    fn eq(&self, other: &Key) -> bool {
        self.numbers() == other.numbers()
    }
}

impl Eq for Key {}

impl Hash for Key {
    fn hash<H: Hasher>(&self, state: &mut H) {
        self.numbers().hash(state);
    }
}

impl PartialOrd for Key {
    #[inline]
    fn partial_cmp(&self, other: &Key) -> Option<Ordering> {
        Some(self.cmp(other))
    }
}

impl Ord for Key {
    #[inline]
    fn cmp(&self, other: &Key) -> Ordering {
        self.numbers().cmp(&other.numbers())
    }
}

impl fmt::Display for Key {
    fn fmt(&self, f: &mut fmt::Formatter<'_>) -> fmt::Result {
        write!(f, "table {} key {}", self.table_id, self.extension)?;
        match self.table_id {
            Key::NRT_IT => write!(
                f,
                " service {} start {}",
                self.service_id, self.time_span_start
            ),
            _ => Ok(()),
        }
    }
}
