//! Programme lists: the sections of an NRT-IT.
//!
//! ```
//! use khumsafil::{programme, Refusal};
//!
//! // Service 3,152 from a GPS second on for 1,440 minutes, with one item named `Ferry`, an icon's descriptor, no loop of its own.
//! let payload = b"\xDF\x70\x1F\x10\x00\xC7\x00\x00\x0C\x50\x3B\x9A\xCD\x20\xFD\xA0\x01\
//!     \x00\x00\x00\x42\x10\x7F\x05Ferry\x01\xC6\x01\x09\x00";
//! let list = programme::read(payload)?;
//! assert_eq!((list.service_id, list.time_span_length, list.count), (3_152, 1_440, 1));
//! let mut items = list.items();
//! for item in &mut items {
//!     let item = item?;
//!     assert_eq!((item.content_linkage(), item.name(), item.content_size()), (66, &b"Ferry"[..], None));
//!     assert!(item.flags().master_item());
//!     for descriptor in item.descriptors().walk() {
//!         assert_eq!(descriptor?.tag, 0xC6);
//!     }
//! }
//! assert_eq!(items.own_loop()?.count, 0);
//! # Ok::<(), Refusal>(())
//! ```

use crate::{boundary, descriptor, Key, Refusal};
use core::fmt;

/// The table id of a programme list.
pub const TABLE_ID: u8 = Key::NRT_IT;

/// The place of the first item.
pub const FIRST_ITEM: usize = 17;

/// How many numbers the fields before the items are answered in.
pub const FIELDS: usize = 4;

/// How many numbers an item is answered in.
pub const ITEM_FIELDS: usize = 10;

/// The most items that a section has room for: with [`ITEM_FIELDS`] numbers for each one call takes all items of any section, up to
/// one that is refused.
pub const MOST_ITEMS: usize = 125;

/// Room for any text of [`list`].
pub const TEXT: usize = 327_768;

/// What the answer is where a list has no item of the number asked.
const OVER: u64 = 2 << 8;

/// How many items a walk takes with each call.
const AT_ONCE: usize = 16;

/// The fields of a programme list before its items.
///
/// Made by [`read`] alone. Two are equal where these fields are, whatever items follow them.
#[non_exhaustive]
#[derive(Clone, Copy, Debug)]
pub struct Programme<'a> {
    /// The service that offers the items.
    pub service_id: u16,
    /// When the time span begins, in GPS seconds; 0 for the indefinite past.
    pub time_span_start: u32,
    /// Its length in minutes; 0 for the indefinite future. Without meaning where the start is 0.
    pub time_span_length: u16,
    /// How many items the list has.
    pub count: u8,
    payload: &'a [u8],
}

/// The ten flags of an item, the first of Table 6.5 highest.
#[derive(Clone, Copy, Debug, PartialEq, Eq, Hash)]
pub struct Flags(pub u16);

macro_rules! flags {
    ($($name:ident, $test:ident = $bit:literal: $what:literal;)*) => {
        impl Flags {
            $(#[doc = $what] pub const $name: Flags = Flags($bit);)*

            $(#[doc = $what] #[inline] pub const fn $test(self) -> bool {
                self.0 & $bit != 0
            })*
        }
    };
}

flags! {
    UPDATES_AVAILABLE, updates_available = 0x200: "The item will be updated.";
    TF_AVAILABLE, tf_available = 0x100: "There is a text fragment for it.";
    CONTENT_SECURITY_CONDITIONS_INDICATOR, content_security_conditions_indicator = 0x080: "A file of it is protected.";
    MASTER_ITEM, master_item = 0x040: "It is the one to be launched with the service.";
    PLAYBACK_LENGTH_INCLUDED, playback_length_included = 0x020: "It has a playback length.";
    PLAYBACK_DELAY_INCLUDED, playback_delay_included = 0x010: "It has a playback delay.";
    EXPIRATION_INCLUDED, expiration_included = 0x008: "It has an expiration.";
    CONTENT_SIZE_INCLUDED, content_size_included = 0x004: "It has a content size.";
    AVAILABLE_ON_INTERNET, available_on_internet = 0x002: "All its files are on the internet; not set, it says nothing of it.";
    AVAILABLE_IN_BROADCAST, available_in_broadcast = 0x001: "All its files are in the broadcast; not set, it says nothing of it.";
}

/// A loop of a programme list.
#[derive(Clone, Copy, Debug, PartialEq, Eq)]
pub struct Loop<'a> {
    /// How many descriptors it has.
    pub count: u8,
    /// Their bytes: the part of the payload behind that number.
    pub bytes: &'a [u8],
}

impl<'a> Loop<'a> {
    /// Walks the descriptors: there are as many as the count says, and none is refused.
    #[inline]
    pub fn walk(&self) -> descriptor::Walk<'a> {
        descriptor::walk(self.bytes)
    }
}

/// A content item. Its values are as they stand there, also those that the papers say shall not be used.
///
/// It keeps places, and makes parts of them when they are asked for, so that a walk which looks at few costs little. Two items are
/// equal where they say the same, wherever they stand.
#[derive(Clone, Copy)]
pub struct Item<'a> {
    payload: &'a [u8],
    // As wide as the numbers that they are told in: a copy costs less than narrowing each.
    content_linkage: u64,
    flags: u64,
    playback_length: u64,
    playback_delay: u64,
    expiration: u64,
    content_size: u64,
    name: u64,
    count: u64,
    descriptors: u64,
    next: u64,
}

impl<'a> Item<'a> {
    /// The item out of its numbers.
    #[inline]
    fn of(payload: &'a [u8], numbers: &[u64; ITEM_FIELDS]) -> Item<'a> {
        Item {
            payload,
            content_linkage: numbers[0],
            flags: numbers[1],
            playback_length: numbers[2],
            playback_delay: numbers[3],
            expiration: numbers[4],
            content_size: numbers[5],
            name: numbers[6],
            count: numbers[7],
            descriptors: numbers[8],
            next: numbers[9],
        }
    }

    /// The number that links the item to its files.
    #[inline]
    pub fn content_linkage(&self) -> u32 {
        self.content_linkage as u32
    }

    /// Its flags.
    #[inline]
    pub fn flags(&self) -> Flags {
        Flags(self.flags as u16)
    }

    /// How long it plays, in seconds, where it says so.
    #[inline]
    pub fn playback_length(&self) -> Option<u32> {
        let there = self.flags().playback_length_included();
        there.then_some(self.playback_length as u32)
    }

    /// How long playing waits for what is received, in seconds, where it says so.
    #[inline]
    pub fn playback_delay(&self) -> Option<u32> {
        let there = self.flags().playback_delay_included();
        there.then_some(self.playback_delay as u32)
    }

    /// When it expires, in GPS seconds, where it says so.
    #[inline]
    pub fn expiration(&self) -> Option<u32> {
        let there = self.flags().expiration_included();
        there.then_some(self.expiration as u32)
    }

    /// Its size in bytes, where it says so.
    #[inline]
    pub fn content_size(&self) -> Option<u64> {
        let there = self.flags().content_size_included();
        there.then_some(self.content_size)
    }

    /// The name, a multiple string structure of A/65, which the library does not read.
    #[inline]
    pub fn name(&self) -> &'a [u8] {
        // The byte between the name and the descriptors counts these.
        part(self.payload, self.name, self.descriptors.saturating_sub(1))
    }

    /// Its descriptors.
    #[inline]
    pub fn descriptors(&self) -> Loop<'a> {
        Loop {
            count: self.count as u8,
            bytes: part(self.payload, self.descriptors, self.next),
        }
    }

    /// The place after the item.
    #[inline]
    pub fn next(&self) -> usize {
        self.next as usize
    }
}

impl PartialEq for Item<'_> {
    fn eq(&self, other: &Item<'_>) -> bool {
        (self.content_linkage, self.flags) == (other.content_linkage, other.flags)
            && self.playback_length == other.playback_length
            && self.playback_delay == other.playback_delay
            && self.expiration == other.expiration
            && self.content_size == other.content_size
            && self.name() == other.name()
            && self.descriptors() == other.descriptors()
    }
}

impl Eq for Item<'_> {}

impl fmt::Debug for Item<'_> {
    fn fmt(&self, f: &mut fmt::Formatter<'_>) -> fmt::Result {
        f.debug_struct("Item")
            .field("content_linkage", &self.content_linkage())
            .field("flags", &self.flags())
            .field("playback_length", &self.playback_length())
            .field("playback_delay", &self.playback_delay())
            .field("expiration", &self.expiration())
            .field("content_size", &self.content_size())
            .field("name", &self.name())
            .field("descriptors", &self.descriptors())
            .field("next", &self.next())
            .finish()
    }
}

/// What is found at a place of a list.
#[derive(Clone, Copy, Debug, PartialEq, Eq)]
pub enum Step<'a> {
    /// The item at the place asked.
    Item(Item<'a>),
    /// The section has no item of that number.
    Over,
}

/// Reads the payload as a programme list into the first [`FIELDS`] numbers of `fields`, in the header's order. Refused: 1 to 8,
/// 46, 45, 43, and 15 where fewer are lent.
#[inline]
pub fn fields(payload: &[u8], fields: &mut [u32]) -> Result<(), Refusal> {
    // SAFETY: pointers and lengths are those of slices, and the one that is written is not part of the other.
    let number = unsafe {
        boundary::khumsafil_raw_programme_read(
            payload.as_ptr(),
            payload.len(),
            fields.as_mut_ptr(),
            fields.len(),
        )
    };
    match number {
        0 => Ok(()),
        number => Err(Refusal::of(number)),
    }
}

/// Reads the payload as a programme list, or says by which of the numbers 1 to 8, 46, 45 and 43 it is refused.
///
/// ```
/// use khumsafil::{programme, Refusal};
///
/// let mut payload = [0xDF, 0x70, 0x0F, 0, 0, 0xC7, 0, 0, 12, 80, 0, 0, 0, 0, 0xF8, 60, 0, 0];
/// let list = programme::read(&payload).expect("a programme list");
/// assert_eq!((list.service_id, list.time_span_length, list.count), (3_152, 60, 0));
/// payload[0] = 0xDE;
/// assert_eq!(programme::read(&payload), Err(Refusal::PROGRAMME_OTHER_TABLE));
/// ```
#[inline]
pub fn read(payload: &[u8]) -> Result<Programme<'_>, Refusal> {
    let mut read = [0; FIELDS];
    fields(payload, &mut read)?;
    let [service_id, time_span_start, time_span_length, count] = read;
    Ok(Programme {
        service_id: service_id as u16,
        time_span_start,
        time_span_length: time_span_length as u16,
        count: count as u8,
        payload,
    })
}

/// How many items a call told.
#[derive(Clone, Copy, Debug, PartialEq, Eq)]
pub struct Told {
    /// How many there are; 0 where the section has no item of the number asked.
    pub count: usize,
    /// The place after the last of them; where there is none, the place asked.
    pub next: usize,
}

/// Puts the items from a place on, the one there taken for the item of that number from 0 on, at the front of `fields`, each in
/// [`ITEM_FIELDS`] numbers in the header's order: as many as there is room for, up to and with the section's last, or up to the
/// first that is refused, without it. Numbers past theirs stay as they were. Any place and any number may be asked. Refused: 1 to
/// 8, 46, 45; 43 where the fields before the items, or the item at the place asked, pass the end; and last 15 where fewer than
/// [`ITEM_FIELDS`] are lent for that item. One further on that is refused is so when its own place is asked.
#[inline]
pub fn item_fields(
    payload: &[u8],
    at: usize,
    number: u8,
    fields: &mut [u64],
) -> Result<Told, Refusal> {
    // SAFETY: pointers and lengths are those of slices, and the one that is written is not part of the other.
    let answer = unsafe {
        boundary::khumsafil_raw_programme_items(
            payload.as_ptr(),
            payload.len(),
            at,
            number,
            fields.as_mut_ptr(),
            fields.len(),
        )
    };
    match answer as u8 {
        0 if answer == OVER => Ok(Told { count: 0, next: at }),
        0 => Ok(Told {
            count: usize::from((answer >> 16) as u16),
            next: (answer >> 32) as usize,
        }),
        number => Err(Refusal::of(number)),
    }
}

/// The part of the payload from a place to another. The library's places lie in it.
#[inline]
fn part(payload: &[u8], place: u64, end: u64) -> &[u8] {
    let part = payload.get(place as usize..end as usize);
    part.unwrap_or_default()
}

/// What stands at a place of a list, taken for the item of that number from 0 on: the first at [`FIRST_ITEM`], each other at the
/// place after the one before. Any place and any number may be asked. Refused: 1 to 8, 46, 45, 43.
#[inline]
pub fn item_at(payload: &[u8], at: usize, number: u8) -> Result<Step<'_>, Refusal> {
    let mut numbers = [0; ITEM_FIELDS];
    let told = item_fields(payload, at, number, &mut numbers)?;
    Ok(match told.count {
        0 => Step::Over,
        _ => Step::Item(Item::of(payload, &numbers)),
    })
}

/// The items from a place on, as [`item_fields`] puts them into `numbers`, of which each element has room for one; none where the
/// section has no item of that number.
///
/// One call is no walk, also not with room for [`MOST_ITEMS`]: an item that is refused behind others is not told with them, but when
/// its own place is asked. Fewer items than the list says are what that looks like. [`Several::own_loop`] is then refused;
/// [`Programme::items`] walks to the end by itself.
///
/// ```
/// use khumsafil::programme::{self, FIRST_ITEM, ITEM_FIELDS, MOST_ITEMS};
/// use khumsafil::Refusal;
///
/// // Two of the smallest items, of linkage 7 and 8.
/// let payload = b"\xDF\x70\x1F\x10\x00\xC7\x00\x00\x0C\x50\x3B\x9A\xCD\x20\xFD\xA0\x02\
///     \0\0\0\x07\0\0\0\0\0\0\0\x08\0\0\0\0\0";
/// // All items of any section in one call.
/// let mut numbers = [[0; ITEM_FIELDS]; MOST_ITEMS];
/// let items = programme::items_at(payload, FIRST_ITEM, 0, &mut numbers)?;
/// assert_eq!((items.len(), items.place()), (2, 33));
/// // Nothing is refused behind them, and the section is read to its end.
/// assert_eq!(items.own_loop()?.count, 0);
/// assert!(items.map(|item| item.content_linkage()).eq([7, 8]));
/// // With room for one it is a step, and the next goes on behind it.
/// let first = programme::items_at(payload, FIRST_ITEM, 0, &mut numbers[..1])?;
/// assert_eq!((first.len(), first.place()), (1, 25));
/// let second = programme::items_at(payload, first.place(), 1, &mut numbers)?;
/// assert!(second.map(|item| item.content_linkage()).eq([8]));
/// # Ok::<(), Refusal>(())
/// ```
#[inline]
pub fn items_at<'a, 'n>(
    payload: &'a [u8],
    at: usize,
    number: u8,
    numbers: &'n mut [[u64; ITEM_FIELDS]],
) -> Result<Several<'a, 'n>, Refusal> {
    let told = item_fields(payload, at, number, numbers.as_flattened_mut())?;
    Ok(Several {
        payload,
        numbers: numbers.get(..told.count).unwrap_or_default().iter(),
        place: told.next,
        // A list has at most 255 items, so this is no more than their count.
        number: number.saturating_add(told.count as u8),
    })
}

/// Items that one call told, in their order.
#[derive(Clone, Debug)]
pub struct Several<'a, 'n> {
    payload: &'a [u8],
    numbers: core::slice::Iter<'n, [u64; ITEM_FIELDS]>,
    place: usize,
    /// The number of the item behind them.
    number: u8,
}

impl<'a> Several<'a, '_> {
    /// The place after the last of them; where there was none, the place asked.
    #[inline]
    pub fn place(&self) -> usize {
        self.place
    }

    /// The table's own loop, as [`own_loop_at`] finds it behind these items and those that follow them.
    pub fn own_loop(&self) -> Result<Loop<'a>, Refusal> {
        own_loop_at(self.payload, self.place, self.number)
    }
}

impl<'a> Iterator for Several<'a, '_> {
    type Item = Item<'a>;

    #[inline]
    fn next(&mut self) -> Option<Item<'a>> {
        let numbers = self.numbers.next()?;
        Some(Item::of(self.payload, numbers))
    }

    #[inline]
    fn size_hint(&self) -> (usize, Option<usize>) {
        self.numbers.size_hint()
    }
}

impl ExactSizeIterator for Several<'_, '_> {}

impl core::iter::FusedIterator for Several<'_, '_> {}

/// The table's own loop, which stands behind the last item, from the place and the number of any item: where a walk came to, or
/// [`FIRST_ITEM`] and 0. The items from there on are passed over, so that from the first item on the loop is answered only where the
/// whole section is read. Any place and any number may be asked. Refused: 1 to 8, 46, 45; 43 where one of these items, or the loop, passes
/// the end; 44 where bytes are left over after it.
pub fn own_loop_at(payload: &[u8], at: usize, number: u8) -> Result<Loop<'_>, Refusal> {
    Items::walk_from(payload, at, number, number).own_loop()
}

/// The own loop whose number of descriptors stands at a place.
#[inline]
fn own_loop(payload: &[u8], at: usize) -> Result<Loop<'_>, Refusal> {
    // SAFETY: the pointer and the length are those of a slice, and the library only reads.
    let word =
        unsafe { boundary::khumsafil_raw_programme_own(payload.as_ptr(), payload.len(), at) };
    match word as u8 {
        0 => {
            let (place, length) = (word >> 16 & 0xFFFF, word >> 32);
            Ok(Loop {
                count: (word >> 8) as u8,
                bytes: part(payload, place, place + length),
            })
        }
        number => Err(Refusal::of(number)),
    }
}

impl<'a> Programme<'a> {
    /// The items in their order, to the last or to the first that is refused.
    #[inline]
    pub fn items(&self) -> Items<'a> {
        Items::walk_from(self.payload, FIRST_ITEM, 0, self.count)
    }
}

impl PartialEq for Programme<'_> {
    fn eq(&self, other: &Programme<'_>) -> bool {
        self.service_id == other.service_id
            && self.time_span_start == other.time_span_start
            && self.time_span_length == other.time_span_length
            && self.count == other.count
    }
}

impl Eq for Programme<'_> {}

/// A walk over the items of a list. It ends behind the last of them, or behind the first that is refused.
///
/// It asks for 16 items with one call, and keeps their numbers, which are 1,280 bytes; [`item_at`] asks for one.
#[derive(Clone)]
pub struct Items<'a> {
    payload: &'a [u8],
    /// The place of the first item that was told.
    at: usize,
    /// The number of the first item that was not asked for.
    number: u8,
    /// The number that the walk ends at.
    end: u8,
    /// How many items were told, and how many of them have been taken.
    told: usize,
    taken: usize,
    numbers: [[u64; ITEM_FIELDS]; AT_ONCE],
}

impl<'a> Items<'a> {
    /// A walk from the item of a number at a place to that of another number.
    #[inline]
    fn walk_from(payload: &'a [u8], at: usize, number: u8, end: u8) -> Items<'a> {
        Items {
            payload,
            at,
            number,
            end,
            told: 0,
            taken: 0,
            numbers: [[0; ITEM_FIELDS]; AT_ONCE],
        }
    }

    /// The place of the next item; behind the last, of the table's own loop; after a refusal, of the item refused. A walk by
    /// `while let Some(item) = items.next()` can ask for it at each step, one by `for` cannot.
    #[inline]
    pub fn place(&self) -> usize {
        // It is not kept, since a walk seldom asks for it.
        match self.numbers.get(self.taken.wrapping_sub(1)) {
            Some([.., next]) => *next as usize,
            None => self.at,
        }
    }

    /// Asks for the items behind those that were told, which have been taken, and says how many are.
    #[inline]
    fn ask(&mut self) -> Result<usize, Refusal> {
        let at = self.place();
        let numbers = self.numbers.as_flattened_mut();
        let told = item_fields(self.payload, at, self.number, numbers)?;
        self.at = at;
        (self.told, self.taken) = (told.count, 0);
        // A list has at most 255 items, so this is no more than their count.
        self.number = self.number.saturating_add(told.count as u8);
        Ok(told.count)
    }

    /// The table's own loop, which stands behind the last item: items that the walk has not come to are passed over. Refused: 43
    /// where one of these is, or the loop; 44 where bytes are left over after it.
    pub fn own_loop(mut self) -> Result<Loop<'a>, Refusal> {
        self.taken = self.told;
        // An item that was refused is so again.
        while self.ask()? > 0 {
            self.taken = self.told;
        }
        own_loop(self.payload, self.place())
    }
}

impl<'a> Iterator for Items<'a> {
    type Item = Result<Item<'a>, Refusal>;

    #[inline]
    fn next(&mut self) -> Option<Self::Item> {
        if self.taken == self.told {
            if self.number == self.end {
                return None;
            }
            match self.ask() {
                Ok(0) => return None,
                Ok(_) => {}
                Err(refusal) => {
                    self.end = self.number;
                    return Some(Err(refusal));
                }
            }
        }
        let numbers = self.numbers.get(self.taken)?;
        self.taken += 1;
        Some(Ok(Item::of(self.payload, numbers)))
    }
}

impl fmt::Debug for Items<'_> {
    fn fmt(&self, f: &mut fmt::Formatter<'_>) -> fmt::Result {
        f.debug_struct("Items")
            .field("payload", &self.payload)
            .field("place", &self.place())
            .finish_non_exhaustive()
    }
}

impl core::iter::FusedIterator for Items<'_> {}

/// Puts at the front of `out` what the programme lists of a shelf file hold, in lines for staff, and gives that text: a file that
/// is refused says by which number, and another table that it is no programme list. Refused: 15.
///
/// ```
/// use khumsafil::{programme, Refusal};
///
/// let saved = [
///     1, 1, 18, 0xDF, 0x70, 0x0F, 0x10, 0, 0xC7, 0, 0, 12, 80, 0, 0, 0, 0, 0xF8, 60, 0, 0,
/// ];
/// let mut out = [0; 200];
/// let text = "table 223 key 4096 service 3152 start 0 version 3 last 0\n\
///             section 0 service 3152 start 0 minutes 60 items 0\n\
///             list descriptors 0 bytes 0\n\
///             whole\n";
/// assert_eq!(programme::list(&saved, &mut out), Ok(text));
/// assert_eq!(programme::list(&[], &mut out), Ok("refused 11\n"));
/// assert_eq!(programme::list(&saved, &mut out[..9]), Err(Refusal::OUTPUT_TOO_SMALL));
/// ```
#[inline]
pub fn list<'a>(file: &[u8], out: &'a mut [u8]) -> Result<&'a str, Refusal> {
    // SAFETY: pointers and lengths are those of slices, and the one that is written is not part of the other.
    let answer = unsafe {
        boundary::khumsafil_raw_programme_list(
            file.as_ptr(),
            file.len(),
            out.as_mut_ptr(),
            out.len(),
        )
    };
    match answer as u8 {
        0 => {
            let text = out.get(..(answer >> 8) as usize).unwrap_or_default();
            Ok(core::str::from_utf8(text).unwrap_or_default())
        }
        number => Err(Refusal::of(number)),
    }
}
