//! The body of a programme list, the NRT-IT, by Table 6.5 of document 004
//! (document 02, requests 3 and 4).

use crate::descriptors;
use crate::key;
use crate::section;

/// The table id of the NRT-IT.
pub const TABLE_ID: u8 = key::NRT_IT;
/// The place of the first item: the header (8), service_id (2), time_span_start
/// (4), time_span_length with its reserved bits (2) and the count of items (1).
pub const FIRST_ITEM: usize = 17;

/// The ten flags of an item, the first of Table 6.5 highest.
pub const UPDATES_AVAILABLE: u16 = 1 << 9;
pub const TF_AVAILABLE: u16 = 1 << 8;
pub const CONTENT_SECURITY_CONDITIONS: u16 = 1 << 7;
pub const MASTER_ITEM: u16 = 1 << 6;
pub const PLAYBACK_LENGTH_INCLUDED: u16 = 1 << 5;
pub const PLAYBACK_DELAY_INCLUDED: u16 = 1 << 4;
pub const EXPIRATION_INCLUDED: u16 = 1 << 3;
pub const CONTENT_SIZE_INCLUDED: u16 = 1 << 2;
pub const AVAILABLE_ON_INTERNET: u16 = 1 << 1;
pub const AVAILABLE_IN_BROADCAST: u16 = 1;

/// The fixed fields before the items.
#[derive(Clone, Copy, Debug, PartialEq, Eq)]
pub struct Programme {
    pub service_id: u16,
    pub time_span_start: u32,
    pub time_span_length: u16,
    /// num_content_items_in_section.
    pub items: u8,
}

/// A descriptor loop: how many descriptors, and where their bytes lie in the
/// payload. The number before them is not part of it.
#[derive(Clone, Copy, Debug, PartialEq, Eq)]
pub struct Loop {
    pub count: u8,
    pub place: usize,
    pub length: usize,
}

/// One content item. An optional field that is not there is 0; the flags tell it
/// from one that is there with the value 0.
#[derive(Clone, Copy, Debug, PartialEq, Eq)]
pub struct Item {
    pub content_linkage: u32,
    pub flags: u16,
    pub playback_length: u32,
    pub playback_delay: u32,
    pub expiration: u32,
    pub content_size: u64,
    pub name_place: usize,
    pub name_length: usize,
    pub descriptors: Loop,
    /// The place after the item.
    pub next: usize,
}

/// What is found where an item is asked for.
#[derive(Clone, Copy, Debug, PartialEq, Eq)]
pub enum Step {
    Item(Item),
    /// The section has no item of that number.
    Over,
}

/// Reads the fixed fields before the items. Refusals: 1 to 8, 46, 45, 43.
pub fn read(payload: &[u8]) -> Result<Programme, u8> {
    let section = section::read(payload)?;
    if section.table_id != TABLE_ID {
        return Err(45);
    }

    // The first two fields are of the key, and the section has them. A sound
    // section ends with its payload.
    let mut fields = Fields {
        payload,
        at: key::NRT_IT_KEY_END,
    };
    // Five reserved bits stand before the eleven of the length.
    let time_span_length = u16::from_be_bytes(fields.take()?) & 0x07FF;
    let [items] = fields.take()?;
    Ok(Programme {
        service_id: section.service_id,
        time_span_start: section.time_span_start,
        time_span_length,
        items,
    })
}

/// What stands at the place `at`, taken for item `number` of the section.
/// Refusals: 1 to 8, 46, 45, 43.
pub fn item(payload: &[u8], at: usize, number: u8) -> Result<Step, u8> {
    let programme = read(payload)?;
    if number >= programme.items {
        return Ok(Step::Over);
    }
    if at < FIRST_ITEM {
        return Err(43);
    }
    item_at(payload, at).map(Step::Item)
}

/// The table's own loop, where num_descriptors stands at the place `at`.
/// Refusals: 1 to 8, 46, 45, 43, 44.
pub fn own(payload: &[u8], at: usize) -> Result<Loop, u8> {
    read(payload)?;
    if at < FIRST_ITEM {
        return Err(43);
    }
    own_or_place(payload, at).map_err(|(number, _)| number)
}

/// The items of a section in their order. The header and the fixed fields are
/// read once. Refusals: 1 to 8, 46, 45, 43.
pub fn items(payload: &[u8]) -> Result<Items<'_>, u8> {
    let programme = read(payload)?;
    Ok(Items {
        payload,
        at: FIRST_ITEM,
        left: programme.items,
    })
}

/// A walk over the items of one section. It ends after the last of them, or after
/// the first that is refused.
#[derive(Clone, Debug, PartialEq, Eq)]
pub struct Items<'a> {
    payload: &'a [u8],
    at: usize,
    left: u8,
}

impl Items<'_> {
    /// The place of the next item; behind the last, of the table's own loop; after
    /// a refusal, of the item refused.
    pub fn place(&self) -> usize {
        self.at
    }
}

impl Iterator for Items<'_> {
    type Item = Result<Item, u8>;

    fn next(&mut self) -> Option<Self::Item> {
        if self.left == 0 {
            return None;
        }
        let answer = item_at(self.payload, self.at);
        match answer {
            Ok(item) => {
                self.at = item.next;
                self.left -= 1;
            }
            Err(_) => self.left = 0,
        }
        Some(answer)
    }
}

impl std::iter::FusedIterator for Items<'_> {}

/// The item that begins at the place `at`. Refusal: 43.
fn item_at(payload: &[u8], at: usize) -> Result<Item, u8> {
    let mut fields = Fields { payload, at };
    let content_linkage = u32::from_be_bytes(fields.take()?);
    // Ten flags, then six reserved bits.
    let flags = u16::from_be_bytes(fields.take()?) >> 6;

    let mut playback_length = 0;
    if flags & PLAYBACK_LENGTH_INCLUDED != 0 {
        playback_length = fields.take_20()?;
    }
    let mut playback_delay = 0;
    if flags & PLAYBACK_DELAY_INCLUDED != 0 {
        playback_delay = fields.take_20()?;
    }
    let mut expiration = 0;
    if flags & EXPIRATION_INCLUDED != 0 {
        expiration = u32::from_be_bytes(fields.take()?);
    }
    let mut content_size = 0;
    if flags & CONTENT_SIZE_INCLUDED != 0 {
        let [a, b, c, d, e] = fields.take()?;
        content_size = u64::from_be_bytes([0, 0, 0, a, b, c, d, e]);
    }

    let [name_length] = fields.take()?;
    let name_length = usize::from(name_length);
    let name_place = fields.pass(name_length)?;
    let descriptors = fields.descriptors()?;
    Ok(Item {
        content_linkage,
        flags,
        playback_length,
        playback_delay,
        expiration,
        content_size,
        name_place,
        name_length,
        descriptors,
        next: fields.at,
    })
}

/// The table's own loop at the place `at`, or the refusal with its place: for 43
/// that of num_descriptors, for 44 that of the first byte left over.
pub(crate) fn own_or_place(payload: &[u8], at: usize) -> Result<Loop, (u8, usize)> {
    let mut fields = Fields { payload, at };
    let own = fields.descriptors().map_err(|number| (number, at))?;
    if fields.at < payload.len() {
        return Err((44, fields.at));
    }
    Ok(own)
}

/// Fields taken from the left. One that passes the end is 43, at any place.
struct Fields<'a> {
    payload: &'a [u8],
    at: usize,
}

impl Fields<'_> {
    /// A field of N bytes.
    fn take<const N: usize>(&mut self) -> Result<[u8; N], u8> {
        let rest = self.payload.get(self.at..).ok_or(43)?;
        let field = rest.first_chunk().ok_or(43)?;
        self.at += N;
        Ok(*field)
    }

    /// Four reserved bits and a field of 20.
    fn take_20(&mut self) -> Result<u32, u8> {
        let [a, b, c] = self.take()?;
        Ok(u32::from_be_bytes([0, a & 0x0F, b, c]))
    }

    /// Passes over `length` bytes and answers their place.
    fn pass(&mut self, length: usize) -> Result<usize, u8> {
        let place = self.at;
        let rest = self.payload.get(place..).ok_or(43)?;
        if rest.len() < length {
            return Err(43);
        }
        self.at += length;
        Ok(place)
    }

    /// A number of descriptors and so many of them.
    fn descriptors(&mut self) -> Result<Loop, u8> {
        let [count] = self.take()?;
        let place = self.at;
        for _ in 0..count {
            match descriptors::step(self.payload, self.at) {
                Ok(descriptors::Step::Descriptor { next, .. }) => self.at = next,
                Ok(descriptors::Step::Over) | Err(_) => return Err(43),
            }
        }
        Ok(Loop {
            count,
            place,
            length: self.at - place,
        })
    }
}

#[cfg(test)]
mod tests {
    use super::*;
    use crate::testing::{self, Dice};

    /// service_id 3152, time_span_start 1,000,000,800, 1,440 minutes.
    const FIXED: [u8; 8] = [0x0C, 0x50, 0x3B, 0x9A, 0xCD, 0x20, 0xFD, 0xA0];

    /// Linkage 66; flags 10 0111 1101; all four optional fields; the name `Ferry`;
    /// two descriptors of 8 and 2 bytes. 42 bytes.
    const LONG: [u8; 42] = [
        0x00, 0x00, 0x00, 0x42, // 0 content_linkage
        0x9F, 0x7F, // 4 flags and six reserved bits
        0xF0, 0x15, 0x18, // 6 playback_length_in_seconds 5,400
        0xF0, 0x00, 0x1E, // 9 playback_delay 30
        0x4D, 0x7C, 0x6D, 0x00, // 12 expiration 1,300,000,000
        0x00, 0x04, 0x60, 0x00, 0x00, // 16 content_size 73,400,320
        0x05, 0x46, 0x65, 0x72, 0x72, 0x79, // 21 length and name
        0x02, // 27 num_content_descriptors
        0xC8, 0x08, 1, 2, 3, 4, 5, 6, 7, 8, // 28
        0xC6, 0x02, 9, 10, // 38
    ];

    /// Linkage 0xFFFFFFFF; flag available_on_internet alone; nothing else. 8 bytes.
    const SHORT: [u8; 8] = [0xFF, 0xFF, 0xFF, 0xFF, 0x00, 0xBF, 0x00, 0x00];

    /// One descriptor of 4 bytes. 7 bytes.
    const OWN: [u8; 7] = [0x01, 0x05, 0x04, 0x41, 0x42, 0x43, 0x44];

    /// A section with the fixed fields above, this count and what follows it.
    fn counted(items: u8, rest: &[u8]) -> Vec<u8> {
        let body = [&FIXED[..], &[items], rest].concat();
        testing::section(0xDF, 0x1000, 3, 0, 1, &body)
    }

    /// LONG at 17, SHORT at 59, OWN at 67; 74 bytes in all.
    fn whole() -> Vec<u8> {
        counted(2, &[&LONG[..], &SHORT[..], &OWN[..]].concat())
    }

    /// What LONG reads as where it begins at 17.
    const LONG_AT_17: Item = Item {
        content_linkage: 66,
        flags: 0b10_0111_1101,
        playback_length: 5400,
        playback_delay: 30,
        expiration: 1_300_000_000,
        content_size: 73_400_320,
        name_place: 39,
        name_length: 5,
        descriptors: Loop {
            count: 2,
            place: 45,
            length: 14,
        },
        next: 59,
    };

    /// What SHORT reads as where it begins at 59.
    const SHORT_AT_59: Item = Item {
        content_linkage: 0xFFFF_FFFF,
        flags: 0b00_0000_0010,
        playback_length: 0,
        playback_delay: 0,
        expiration: 0,
        content_size: 0,
        name_place: 66,
        name_length: 0,
        descriptors: Loop {
            count: 0,
            place: 67,
            length: 0,
        },
        next: 67,
    };

    const OWN_AT_67: Loop = Loop {
        count: 1,
        place: 68,
        length: 6,
    };

    /// The section cut to its first `size` bytes, its section length made to fit.
    fn cut(section: &[u8], size: usize) -> Vec<u8> {
        let mut payload = section[..size].to_vec();
        payload[1] = 0x70 | ((size - 3) >> 8) as u8;
        payload[2] = (size - 3) as u8;
        payload
    }

    /// The same refusal for every question.
    fn all_refuse(payload: &[u8], number: u8) {
        assert_eq!(read(payload), Err(number));
        assert_eq!(items(payload), Err(number));
        for at in [0, 16, 17, 18, 59, payload.len(), usize::MAX] {
            assert_eq!(own(payload, at), Err(number));
            for of in [0, 1, 255] {
                assert_eq!(item(payload, at, of), Err(number));
            }
        }
    }

    #[test]
    fn a_whole_section() {
        let payload = whole();
        assert_eq!(payload.len(), 74);
        assert_eq!(
            read(&payload),
            Ok(Programme {
                service_id: 3152,
                time_span_start: 1_000_000_800,
                time_span_length: 1440,
                items: 2,
            })
        );
        assert_eq!(item(&payload, 17, 0), Ok(Step::Item(LONG_AT_17)));
        assert_eq!(item(&payload, 59, 1), Ok(Step::Item(SHORT_AT_59)));
        assert_eq!(item(&payload, 67, 2), Ok(Step::Over));
        assert_eq!(own(&payload, 67), Ok(OWN_AT_67));

        let mut walk = items(&payload).unwrap();
        assert_eq!(walk.place(), 17);
        assert_eq!(walk.next(), Some(Ok(LONG_AT_17)));
        assert_eq!(walk.place(), 59);
        assert_eq!(walk.next(), Some(Ok(SHORT_AT_59)));
        assert_eq!((walk.next(), walk.next(), walk.place()), (None, None, 67));
    }

    #[test]
    fn views_are_the_bytes_meant() {
        let payload = whole();
        assert_eq!(&payload[39..39 + 5], b"Ferry");
        assert_eq!(payload[45..45 + 14], LONG[28..]);
        assert_eq!(payload[68..68 + 6], OWN[1..]);

        // The loop handed to the walk has its count of descriptors and ends there.
        let part = &payload[45..45 + 14];
        assert_eq!(descriptors::view(part, 0), [1, 2, 3, 4, 5, 6, 7, 8]);
        assert_eq!(descriptors::view(part, 10), [9, 10]);
        assert_eq!(descriptors::step(part, 14), Ok(descriptors::Step::Over));
    }

    #[test]
    fn cut_at_every_place() {
        let payload = whole();
        for size in 8..74 {
            let payload = cut(&payload, size);
            // Up to 13 bytes the key lacks, and up to 16 the fixed fields behind it.
            if size < 17 {
                all_refuse(&payload, if size < 14 { 46 } else { 43 });
                continue;
            }
            assert!(read(&payload).is_ok());
            // The first item is there whole, or refused; so is the second, asked
            // at its place whatever stands before it; and so is the loop.
            let first = if size < 59 {
                Err(43)
            } else {
                Ok(Step::Item(LONG_AT_17))
            };
            let second = if size < 67 {
                Err(43)
            } else {
                Ok(Step::Item(SHORT_AT_59))
            };
            assert_eq!(item(&payload, 17, 0), first);
            assert_eq!(item(&payload, 59, 1), second);
            assert_eq!(own(&payload, 67), Err(43));
            assert_eq!(own_or_place(&payload, 67), Err((43, 67)));

            // The items before the bad one stay readable.
            let mut walk = items(&payload).unwrap();
            let all: Vec<_> = walk.by_ref().collect();
            match size {
                17..=58 => assert_eq!((all, walk.place()), (vec![Err(43)], 17)),
                59..=66 => assert_eq!((all, walk.place()), (vec![Ok(LONG_AT_17), Err(43)], 59)),
                _ => assert_eq!(
                    (all, walk.place()),
                    (vec![Ok(LONG_AT_17), Ok(SHORT_AT_59)], 67)
                ),
            }
            assert_eq!(walk.next(), None);
        }
    }

    #[test]
    fn bytes_left_over_are_44() {
        for more in 1..20 {
            let mut payload = whole();
            payload.extend(vec![0; more]);
            let payload = cut(&payload, 74 + more);
            assert_eq!(own(&payload, 67), Err(44));
            assert_eq!(own_or_place(&payload, 67), Err((44, 74)));
            assert_eq!(items(&payload).unwrap().count(), 2);
        }
        // A loop of none, with and without a byte behind it.
        assert_eq!(
            own(&counted(0, &[0]), 17),
            Ok(Loop {
                count: 0,
                place: 18,
                length: 0
            })
        );
        assert_eq!(own(&counted(0, &[0, 0]), 17), Err(44));
        // 43 of a descriptor that runs out comes before any question of 44.
        assert_eq!(own(&counted(0, &[2, 9, 0, 9]), 17), Err(43));
    }

    #[test]
    fn all_sixteen_combinations() {
        for combination in 0..16u8 {
            let has = |bit: u8| combination & bit != 0;
            // The four flags are the low four bits of the first flag byte; the two
            // bits behind them and the four before are 0, the reserved bits 1.
            let mut bytes = vec![0x01, 0x02, 0x03, 0x04, combination, 0x3F];
            let mut expected = Item {
                content_linkage: 0x0102_0304,
                flags: u16::from(combination) << 2,
                playback_length: 0,
                playback_delay: 0,
                expiration: 0,
                content_size: 0,
                name_place: 24,
                name_length: 3,
                descriptors: Loop {
                    count: 1,
                    place: 28,
                    length: 2,
                },
                next: 30,
            };
            let mut added = 0;
            if has(8) {
                bytes.extend([0xFA, 0xBC, 0xDE]);
                expected.playback_length = 0xA_BCDE;
                added += 3;
            }
            if has(4) {
                bytes.extend([0xF1, 0x23, 0x45]);
                expected.playback_delay = 0x1_2345;
                added += 3;
            }
            if has(2) {
                bytes.extend([0xFE, 0xDC, 0xBA, 0x98]);
                expected.expiration = 0xFEDC_BA98;
                added += 4;
            }
            if has(1) {
                bytes.extend([0xFF, 0x11, 0x22, 0x33, 0x44]);
                expected.content_size = 0xFF_1122_3344;
                added += 5;
            }
            bytes.extend([3, b'a', b'b', b'c', 1, 0xAD, 0]);
            expected.name_place += added;
            expected.descriptors.place += added;
            expected.next += added;

            let end = bytes.len();
            bytes.push(0);
            let payload = counted(1, &bytes);
            assert_eq!(item(&payload, 17, 0), Ok(Step::Item(expected)));
            assert_eq!(expected.next, 17 + end);
            assert!(own(&payload, expected.next).is_ok());
            for size in 17..17 + end {
                assert_eq!(item(&cut(&payload, size), 17, 0), Err(43));
            }
        }
    }

    #[test]
    fn each_flag_has_its_own_bit() {
        // The ten flags in the order of Table 6.5, and the two bytes that set each
        // of them alone. The four that bring a field find it zero.
        let alone = [
            (UPDATES_AVAILABLE, [0x80, 0x00]),
            (TF_AVAILABLE, [0x40, 0x00]),
            (CONTENT_SECURITY_CONDITIONS, [0x20, 0x00]),
            (MASTER_ITEM, [0x10, 0x00]),
            (PLAYBACK_LENGTH_INCLUDED, [0x08, 0x00]),
            (PLAYBACK_DELAY_INCLUDED, [0x04, 0x00]),
            (EXPIRATION_INCLUDED, [0x02, 0x00]),
            (CONTENT_SIZE_INCLUDED, [0x01, 0x00]),
            (AVAILABLE_ON_INTERNET, [0x00, 0x80]),
            (AVAILABLE_IN_BROADCAST, [0x00, 0x40]),
        ];
        for (flag, [high, low]) in alone {
            let payload = counted(1, &[0, 0, 0, 1, high, low, 0, 0, 0, 0, 0, 0, 0]);
            let Ok(Step::Item(item)) = item(&payload, 17, 0) else {
                panic!("an item");
            };
            assert_eq!(item.flags, flag);
            let field = match high {
                0x08 | 0x04 => 3,
                0x02 => 4,
                0x01 => 5,
                _ => 0,
            };
            assert_eq!(item.next, 17 + 8 + field);
        }
        assert_eq!(alone.iter().map(|(flag, _)| flag).sum::<u16>(), 1023);
    }

    #[test]
    fn reserved_bits_are_disregarded() {
        let sound = whole();
        for bits in 0..=255u8 {
            let mut payload = sound.clone();
            payload[14] = bits & 0xF8 | 0x05;
            payload[22] = 0x40 | bits & 0x3F;
            payload[23] = bits & 0xF0;
            payload[26] = bits << 4;
            assert_eq!(read(&payload), read(&sound));
            assert_eq!(item(&payload, 17, 0), Ok(Step::Item(LONG_AT_17)));
            assert_eq!(item(&payload, 59, 1), Ok(Step::Item(SHORT_AT_59)));
            assert_eq!(own(&payload, 67), Ok(OWN_AT_67));
        }
    }

    #[test]
    fn values_that_shall_not_be_used_are_read() {
        // All ones: 2,047 minutes is above 1,440, and nothing refuses it.
        let payload = testing::section(0xDF, 0, 0, 0, 0, &[0xFF; 9]);
        assert_eq!(
            read(&payload),
            Ok(Programme {
                service_id: 65_535,
                time_span_start: 4_294_967_295,
                time_span_length: 2047,
                items: 255,
            })
        );
        // All zero, protocol_version and linkage too.
        let payload = testing::section(0xDF, 0, 0, 0, 0, &[0; 18]);
        assert_eq!(
            read(&payload),
            Ok(Programme {
                service_id: 0,
                time_span_start: 0,
                time_span_length: 0,
                items: 0,
            })
        );
        let mut payload = payload;
        payload[16] = 1;
        let Ok(Step::Item(item)) = item(&payload, 17, 0) else {
            panic!("an item");
        };
        assert_eq!((item.content_linkage, item.flags, item.next), (0, 0, 25));
        // Fields at their largest.
        let mut bytes = vec![0xFF; 21];
        bytes.extend([0, 0]);
        let payload = counted(1, &bytes);
        let Ok(Step::Item(item)) = super::item(&payload, 17, 0) else {
            panic!("an item");
        };
        assert_eq!(item.flags, 1023);
        assert_eq!(item.playback_length, 1_048_575);
        assert_eq!(item.playback_delay, 1_048_575);
        assert_eq!(item.expiration, 4_294_967_295);
        assert_eq!(item.content_size, 1_099_511_627_775);
    }

    #[test]
    fn counts_are_of_descriptors_not_of_bytes() {
        // Three descriptors in 261 bytes: empty, of 255 bytes, empty.
        let mut bytes = vec![0, 0, 0, 1, 0, 0, 0, 3, 0x0A, 0, 0x36, 255];
        bytes.extend([7; 255]);
        bytes.extend([0x86, 0, 0]);
        let payload = counted(1, &bytes);
        let Ok(Step::Item(item)) = item(&payload, 17, 0) else {
            panic!("an item");
        };
        let expected = Loop {
            count: 3,
            place: 25,
            length: 261,
        };
        assert_eq!((item.descriptors, item.next), (expected, 286));
        assert_eq!(payload.len(), 287);
        assert!(own(&payload, 286).is_ok());

        // 255 empty descriptors are 510 bytes.
        let payload = counted(0, &[&[255][..], &[0; 510]].concat());
        let expected = Loop {
            count: 255,
            place: 18,
            length: 510,
        };
        assert_eq!(own(&payload, 17), Ok(expected));
        assert_eq!(own(&cut(&payload, payload.len() - 1), 17), Err(43));

        // Two counted where one stands is 43; one where two stand is 44.
        assert_eq!(own(&counted(0, &[2, 1, 0]), 17), Err(43));
        assert_eq!(own(&counted(0, &[1, 1, 0, 1, 0]), 17), Err(44));
    }

    #[test]
    fn no_items() {
        let payload = counted(0, &OWN);
        assert_eq!(items(&payload).unwrap().next(), None);
        // Over at any place, for any number.
        for at in [0, 16, 17, payload.len(), payload.len() + 1, usize::MAX] {
            for number in [0, 1, 255] {
                assert_eq!(item(&payload, at, number), Ok(Step::Over));
            }
        }
        let expected = Loop {
            count: 1,
            place: 18,
            length: 6,
        };
        assert_eq!(own(&payload, 17), Ok(expected));
        // The fixed fields alone: the own loop's number is missing.
        let payload = counted(0, &[]);
        assert_eq!(items(&payload).unwrap().count(), 0);
        assert_eq!(own(&payload, 17), Err(43));
    }

    #[test]
    fn items_255() {
        // No section can hold so many: 125 of 8 bytes fill it to place 1,017.
        let mut bytes = SHORT.repeat(125);
        bytes.extend([0; 7]);
        let payload = counted(255, &bytes);
        assert_eq!(payload.len(), 1024);
        let mut walk = items(&payload).unwrap();
        assert_eq!(walk.by_ref().filter(Result::is_ok).count(), 125);
        assert_eq!(walk.place(), 1017);
        assert_eq!(items(&payload).unwrap().count(), 126);
        assert_eq!(item(&payload, 1017, 125), Err(43));
        assert!(matches!(item(&payload, 17, 254), Ok(Step::Item(_))));
        assert_eq!(item(&payload, 17, 255), Ok(Step::Over));
    }

    #[test]
    fn a_section_of_1024_bytes() {
        // 125 items end at 1,017; the own loop takes the 7 bytes left.
        let payload = counted(125, &[&SHORT.repeat(125)[..], &OWN].concat());
        assert_eq!(payload.len(), 1024);
        let mut walk = items(&payload).unwrap();
        assert!(walk.by_ref().all(|answer| answer.is_ok()));
        assert_eq!(walk.place(), 1017);
        let expected = Loop {
            count: 1,
            place: 1018,
            length: 6,
        };
        assert_eq!(own(&payload, 1017), Ok(expected));

        // One item with the longest name and the longest descriptors.
        let mut bytes = vec![0, 0, 0, 1, 0, 0, 255];
        bytes.extend([b'n'; 255]);
        bytes.push(3);
        for length in [255, 255, 226] {
            bytes.extend([0xC5, length]);
            bytes.extend(vec![0; usize::from(length)]);
        }
        // The own loop's number, and one byte left over.
        bytes.extend([0, 0]);
        let payload = counted(1, &bytes);
        assert_eq!(payload.len(), 1024);
        let Ok(Step::Item(item)) = item(&payload, 17, 0) else {
            panic!("an item");
        };
        assert_eq!((item.name_place, item.name_length), (24, 255));
        let expected = Loop {
            count: 3,
            place: 280,
            length: 742,
        };
        assert_eq!((item.descriptors, item.next), (expected, 1022));
        assert_eq!(own_or_place(&payload, 1022), Err((44, 1023)));
    }

    #[test]
    fn another_table_id_is_45() {
        for table_id in 0..=255 {
            let mut payload = whole();
            payload[0] = table_id;
            if table_id == 223 {
                assert!(read(&payload).is_ok());
            } else {
                all_refuse(&payload, 45);
                // 45 comes before 43.
                all_refuse(&cut(&payload, 8), 45);
            }
        }
    }

    #[test]
    fn the_section_comes_first() {
        // Of another id and too short for the fixed fields, with each fault of its
        // own.
        let mut payload = vec![0xC9, 0xF0, 0x04, 0x12, 0x34, 0xC6, 0x11, 0x10];
        all_refuse(&[], 1);
        all_refuse(&payload[..7], 1);
        all_refuse(&payload, 2);
        payload[1] = 0x70;
        all_refuse(&payload, 3);
        payload[2] = 0x06;
        all_refuse(&payload, 4);
        payload.push(0);
        payload[2] = 0x05;
        all_refuse(&payload, 5);
        payload.pop();
        all_refuse(&payload, 6);
        payload[6] = 0x10;
        all_refuse(&payload, 7);
        (payload[6], payload[7]) = (0, 0);
        all_refuse(&payload, 8);
        payload[5] = 0xC7;
        all_refuse(&payload, 45);
        payload[0] = 0xDF;
        all_refuse(&payload, 46);
    }

    #[test]
    fn the_nrt_its_section_comes_first_too() {
        // 1 to 8, then 46, then 43.
        let mut payload = vec![0xDF, 0xF0, 0x04, 0x12, 0x34, 0xC6, 0x11, 0x10];
        all_refuse(&payload[..7], 1);
        all_refuse(&payload, 2);
        payload[1] = 0x70;
        all_refuse(&payload, 3);
        payload[2] = 0x06;
        all_refuse(&payload, 4);
        payload.push(0);
        payload[2] = 0x05;
        all_refuse(&payload, 5);
        payload.pop();
        all_refuse(&payload, 6);
        payload[6] = 0x10;
        all_refuse(&payload, 7);
        (payload[6], payload[7]) = (0, 0);
        all_refuse(&payload, 8);
        payload[5] = 0xC7;
        for size in 8..17 {
            payload.resize(size, 0);
            payload[2] = (size - 3) as u8;
            all_refuse(&payload, if size < 14 { 46 } else { 43 });
        }
        payload.push(0);
        payload[2] = 14;
        assert!(read(&payload).is_ok());
    }

    #[test]
    fn the_key_is_the_sections() {
        let payload = whole();
        let section = section::read(&payload).unwrap();
        let programme = read(&payload).unwrap();
        assert_eq!(section.service_id, programme.service_id);
        assert_eq!(section.time_span_start, programme.time_span_start);
    }

    #[test]
    fn places_asked() {
        let payload = whole();
        // Below 17 nothing begins, though the bytes there could be read so.
        for at in 0..17 {
            assert_eq!(item(&payload, at, 0), Err(43));
            assert_eq!(item(&payload, at, 2), Ok(Step::Over));
            assert_eq!(own(&payload, at), Err(43));
        }
        // At and beyond the end.
        for at in [74, 75, 1024, usize::MAX - 6, usize::MAX - 1, usize::MAX] {
            assert_eq!(item(&payload, at, 0), Err(43));
            assert_eq!(item(&payload, at, 1), Err(43));
            assert_eq!(item(&payload, at, 255), Ok(Step::Over));
            assert_eq!(own(&payload, at), Err(43));
        }
        // The number decides only whether there is such an item.
        assert_eq!(item(&payload, 59, 0), Ok(Step::Item(SHORT_AT_59)));
        assert_eq!(item(&payload, 17, 1), Ok(Step::Item(LONG_AT_17)));
        // The own loop may be asked anywhere from 17 on: at 59 the linkage's first
        // byte counts 255 descriptors, at 66 the name's length counts none.
        assert_eq!(own(&payload, 59), Err(43));
        assert_eq!(own(&payload, 66), Err(44));
    }

    /// Table 6.5 bit by bit, by its names and widths.
    struct Bits<'a> {
        payload: &'a [u8],
        bit: usize,
    }

    impl Bits<'_> {
        fn field(&mut self, width: usize) -> Option<u64> {
            let mut value = 0;
            for _ in 0..width {
                let byte = *self.payload.get(self.bit / 8)?;
                value = value << 1 | u64::from(byte >> (7 - self.bit % 8) & 1);
                self.bit += 1;
            }
            Some(value)
        }

        fn descriptors(&mut self) -> Option<Loop> {
            let count = self.field(8)? as u8;
            let place = self.bit / 8;
            for _ in 0..count {
                self.field(8)?;
                let length = self.field(8)? as usize;
                self.field(8 * length)?;
            }
            Some(Loop {
                count,
                place,
                length: self.bit / 8 - place,
            })
        }

        fn item(&mut self) -> Option<Item> {
            let content_linkage = self.field(32)? as u32;
            let flags: Vec<u64> = (0..10).map(|_| self.field(1)).collect::<Option<_>>()?;
            self.field(6)?;
            let mut optional = [0; 4];
            for (which, (reserved, width)) in
                [(4, 20), (4, 20), (0, 32), (0, 40)].into_iter().enumerate()
            {
                if flags[4 + which] == 1 {
                    self.field(reserved)?;
                    optional[which] = self.field(width)?;
                }
            }
            let name_length = self.field(8)? as usize;
            let name_place = self.bit / 8;
            self.field(8 * name_length)?;
            let descriptors = self.descriptors()?;
            Some(Item {
                content_linkage,
                flags: flags.iter().fold(0, |all, &flag| 2 * all + flag as u16),
                playback_length: optional[0] as u32,
                playback_delay: optional[1] as u32,
                expiration: optional[2] as u32,
                content_size: optional[3],
                name_place,
                name_length,
                descriptors,
                next: self.bit / 8,
            })
        }
    }

    /// A body that is often sound: items of small parts, sometimes spoiled.
    fn likely_body(dice: &mut Dice) -> Vec<u8> {
        fn some_descriptors(dice: &mut Dice, body: &mut Vec<u8>) {
            let count = dice.below(4);
            body.push(count as u8);
            for _ in 0..count {
                let length = dice.below(6);
                body.extend([dice.next() as u8, length as u8]);
                body.extend(dice.bytes(length));
            }
        }
        let mut body = dice.bytes(8);
        let count = dice.below(6);
        body.push(count as u8);
        for _ in 0..count {
            body.extend(dice.bytes(6));
            let flags = body[body.len() - 2];
            for (bit, length) in [(8, 3), (4, 3), (2, 4), (1, 5)] {
                if flags & bit != 0 {
                    body.extend(dice.bytes(length));
                }
            }
            let length = dice.below(12);
            body.push(length as u8);
            body.extend(dice.bytes(length));
            some_descriptors(dice, &mut body);
        }
        some_descriptors(dice, &mut body);
        match dice.below(4) {
            0 => body.truncate(dice.below(body.len() + 1)),
            1 => body.extend(vec![0; dice.below(4)]),
            2 => {
                let place = dice.below(body.len());
                body[place] = dice.next() as u8;
            }
            _ => {}
        }
        body
    }

    #[test]
    fn against_the_table_bit_by_bit() {
        let mut dice = Dice(605);
        let mut seen = [0; 3];
        for round in 0..20_000 {
            let body = if round % 4 == 0 {
                let size = dice.below(120);
                dice.bytes(size)
            } else {
                likely_body(&mut dice)
            };
            let payload = testing::section(0xDF, dice.next() as u16, 3, 0, 0, &body);

            let mut bits = Bits {
                payload: &payload,
                bit: 64,
            };
            let fixed = (|| {
                let service_id = bits.field(16)? as u16;
                let time_span_start = bits.field(32)? as u32;
                bits.field(5)?;
                Some(Programme {
                    service_id,
                    time_span_start,
                    time_span_length: bits.field(11)? as u16,
                    items: bits.field(8)? as u8,
                })
            })();
            // The first two fields are of the key: 46 where they pass the end.
            let lacking = if body.len() < 6 { 46 } else { 43 };
            assert_eq!(read(&payload), fixed.ok_or(lacking));
            let Some(fixed) = fixed else {
                all_refuse(&payload, lacking);
                continue;
            };

            // In order, each beginning where the one before it ended.
            let mut walk = items(&payload).unwrap();
            let mut place = 17;
            let mut refused = false;
            for number in 0..fixed.items {
                let expected = bits.item();
                assert_eq!(walk.next(), Some(expected.ok_or(43)));
                assert_eq!(
                    item(&payload, place, number),
                    expected.map(Step::Item).ok_or(43)
                );
                let Some(expected) = expected else {
                    refused = true;
                    break;
                };
                // No view leaves its item.
                assert!(place + 7 <= expected.name_place);
                assert_eq!(
                    expected.name_place + expected.name_length + 1,
                    expected.descriptors.place
                );
                assert_eq!(
                    expected.descriptors.place + expected.descriptors.length,
                    expected.next
                );
                place = expected.next;
            }
            assert_eq!((walk.next(), walk.place()), (None, place));
            if !refused {
                let expected = bits.descriptors();
                let end = bits.bit / 8;
                let expected = match expected {
                    None => Err(43),
                    Some(_) if end < payload.len() => Err(44),
                    Some(own) => Ok(own),
                };
                assert_eq!(own(&payload, place), expected);
                seen[match expected {
                    Ok(_) => 0,
                    Err(43) => 1,
                    Err(_) => 2,
                }] += 1;
            }

            // And at any other place.
            let at = dice.below(payload.len() + 3);
            let expected = Bits {
                payload: &payload,
                bit: 8 * at,
            }
            .item()
            .filter(|_| at >= 17);
            if fixed.items > 0 {
                assert_eq!(item(&payload, at, 0), expected.map(Step::Item).ok_or(43));
            }
        }
        assert!(seen.iter().all(|&count| count > 100), "{seen:?}");
    }

    #[test]
    fn no_input_is_too_strange() {
        let mut dice = Dice(1980);
        for _ in 0..20_000 {
            let size = dice.below(40);
            let mut payload = dice.bytes(size);
            if payload.len() >= 8 && dice.below(2) == 0 {
                payload[0] = 0xDF;
                payload[1] = 0x70;
                payload[2] = (size - 3) as u8;
                payload[5] |= 1;
                (payload[6], payload[7]) = (0, 0);
            }
            let at = match dice.below(3) {
                0 => dice.below(size + 2),
                1 => usize::MAX - dice.below(size + 2),
                _ => dice.next() as usize,
            };
            let number = dice.next() as u8;
            let first = read(&payload).err();
            assert_eq!(items(&payload).err(), first);
            let answers = [item(&payload, at, number).err(), own(&payload, at).err()];
            if first.is_some() {
                assert_eq!(answers, [first; 2]);
            }
            if let Ok(walk) = items(&payload) {
                assert!(walk.count() <= 256);
            }
        }
    }
}
