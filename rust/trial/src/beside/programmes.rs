//! Programme lists.

use crate::tally::Tally;
use khumsafil::programme::{
    self, Flags, Item, Loop, Step, FIELDS, FIRST_ITEM, ITEM_FIELDS, MOST_ITEMS, TEXT,
};
use khumsafil::Refusal;
use opinion::programme as theirs;

/// What is answered where nothing is refused, in numbers that no refusal has: an item, that the items are over, the table's own
/// loop.
pub const ITEM: u8 = 101;
pub const OVER: u8 = 102;
pub const OWN: u8 = 103;

/// What a number is before a call.
const UNWRITTEN: u64 = 0xABCD_EF01_2345_6789;

/// Whether two are one part of the payload.
fn same(ours: &[u8], payload: &[u8], place: usize, length: usize) -> bool {
    ours.as_ptr_range() == payload[place..place + length].as_ptr_range()
}

/// Whether two are one loop. Walked as any loop is, it has as many descriptors as its count says, and none is refused.
fn same_loop(ours: &Loop, other: theirs::Loop, payload: &[u8]) -> bool {
    let mut walked = 0;
    for descriptor in ours.walk() {
        match descriptor {
            Ok(_) => walked += 1,
            Err(_) => return false,
        }
    }
    ours.count == other.count
        && walked == usize::from(other.count)
        && same(ours.bytes, payload, other.place, other.length)
}

/// Whether two are one item.
fn same_item(ours: &Item, other: &theirs::Item, payload: &[u8]) -> bool {
    let included = |flag: u16| other.flags & flag != 0;
    let Flags(flags) = ours.flags();
    (ours.content_linkage(), flags, ours.next()) == (other.content_linkage, other.flags, other.next)
        && ours.playback_length()
            == included(theirs::PLAYBACK_LENGTH_INCLUDED).then_some(other.playback_length)
        && ours.playback_delay()
            == included(theirs::PLAYBACK_DELAY_INCLUDED).then_some(other.playback_delay)
        && ours.expiration() == included(theirs::EXPIRATION_INCLUDED).then_some(other.expiration)
        && ours.content_size()
            == included(theirs::CONTENT_SIZE_INCLUDED).then_some(other.content_size)
        && same(ours.name(), payload, other.name_place, other.name_length)
        && same_loop(&ours.descriptors(), other.descriptors, payload)
}

/// The numbers that an item is answered in.
pub fn numbers(item: &theirs::Item) -> [u64; ITEM_FIELDS] {
    [
        item.content_linkage.into(),
        item.flags.into(),
        item.playback_length.into(),
        item.playback_delay.into(),
        item.expiration.into(),
        item.content_size,
        item.name_place as u64,
        item.descriptors.count.into(),
        item.descriptors.place as u64,
        item.next as u64,
    ]
}

/// Reads the fields before the items by both, and gives the number that both gave. `room` numbers are lent as well: fewer than
/// the list's stay as they were, and so do those past them.
pub fn read(payload: &[u8], room: usize) -> u8 {
    let other = theirs::read(payload);
    let list =
        |p: &theirs::Programme| (p.service_id, p.time_span_start, p.time_span_length, p.items);
    match (programme::read(payload), &other) {
        (Err(refusal), Err(number)) if refusal.number() == *number => {}
        (Ok(a), Ok(b)) => {
            assert_eq!(
                (a.service_id, a.time_span_start, a.time_span_length, a.count),
                list(b),
                "{payload:02X?}"
            );
            let key = khumsafil::section::read(payload).expect("a section").key;
            assert_eq!(
                (key.service_id, key.time_span_start),
                (a.service_id, a.time_span_start),
                "the rest of the key of {payload:02X?}"
            );
        }
        (ours, other) => panic!("{ours:?} is not {other:?}: {payload:02X?}"),
    }
    let mut out = [UNWRITTEN as u32; FIELDS + 4];
    let room = room % (out.len() + 1);
    let answer = programme::fields(payload, &mut out[..room]).map_err(Refusal::number);
    let number = match &other {
        Err(number) => *number,
        Ok(_) if room < FIELDS => 15,
        Ok(_) => 0,
    };
    assert_eq!(
        answer.err().unwrap_or(0),
        number,
        "{room} for {payload:02X?}"
    );
    let written = if number == 0 { FIELDS } else { 0 };
    if let (0, Ok(p)) = (number, &other) {
        let (service, start, minutes, items) = list(p);
        let numbers = [service.into(), start, minutes.into(), items.into()];
        assert_eq!(out[..FIELDS], numbers, "{payload:02X?}");
    }
    let kept = out[written..].iter().all(|n| *n == UNWRITTEN as u32);
    assert!(kept, "{room}: past the answer of {payload:02X?}");
    other.err().unwrap_or(0)
}

/// Asks both what stands at a place, taken for that item, fails where they differ, and gives what both said.
pub fn step(payload: &[u8], at: usize, number: u8) -> u8 {
    match (
        programme::item_at(payload, at, number),
        theirs::item(payload, at, number),
    ) {
        (Err(refusal), Err(number)) if refusal.number() == number => number,
        (Ok(Step::Over), Ok(theirs::Step::Over)) => OVER,
        (Ok(Step::Item(a)), Ok(theirs::Step::Item(b))) => {
            let same = same_item(&a, &b, payload);
            assert!(same, "{a:?} is not {b:?}: {at} of {payload:02X?}");
            ITEM
        }
        (ours, other) => {
            panic!("{ours:?} is not {other:?}: item {number} at {at} of {payload:02X?}")
        }
    }
}

/// The items from a place on as the independent program says them one by one, and the place after them: as many as fit in so many
/// numbers, up to the last or to the first that is refused.
pub fn their_items(
    payload: &[u8],
    at: usize,
    number: u8,
    room: usize,
) -> Result<(Vec<theirs::Item>, usize), u8> {
    let (mut items, mut place) = (Vec::new(), at);
    let mut asked = number;
    loop {
        match theirs::item(payload, place, asked) {
            Ok(theirs::Step::Item(item)) if room / ITEM_FIELDS > items.len() => {
                place = item.next;
                items.push(item);
                // It was below the list's count.
                asked += 1;
            }
            Ok(theirs::Step::Item(_)) if items.is_empty() => return Err(15),
            Err(number) if items.is_empty() => return Err(number),
            _ => return Ok((items, place)),
        }
    }
}

/// Asks both for the items from a place on in so many numbers, fails where they differ in an item, in how many there are, in the
/// place after them or in a number past theirs, and gives what both said.
pub fn in_room(payload: &[u8], at: usize, number: u8, room: usize) -> u8 {
    let asked = || format!("{room} for item {number} at {at} of {payload:02X?}");
    let expected = their_items(payload, at, number, room);
    // An item more than is lent, which no call may touch.
    let mut out = vec![UNWRITTEN; room + ITEM_FIELDS];
    let told = programme::item_fields(payload, at, number, &mut out[..room]);
    let (written, rest) = match (told, &expected) {
        (Ok(told), Ok((items, next))) => {
            assert_eq!((told.count, told.next), (items.len(), *next), "{}", asked());
            out.split_at(items.len() * ITEM_FIELDS)
        }
        (Err(refusal), Err(number)) if refusal.number() == *number => out.split_at(0),
        (ours, other) => panic!("{ours:?} is not {other:?}: {}", asked()),
    };
    assert!(rest.iter().all(|n| *n == UNWRITTEN), "{}", asked());
    let Ok((items, next)) = expected else {
        return told.expect_err("a refusal").number();
    };
    let numbers: Vec<_> = items.iter().flat_map(numbers).collect();
    assert_eq!(written, numbers, "{}", asked());
    let mut out = vec![[UNWRITTEN; ITEM_FIELDS]; room / ITEM_FIELDS];
    let several = programme::items_at(payload, at, number, &mut out);
    let several = several.expect("what was told before");
    assert_eq!((several.len(), several.place()), (items.len(), next));
    for (a, b) in several.zip(&items) {
        assert!(same_item(&a, b, payload), "{a:?} is not {b:?}: {}", asked());
    }
    match items.is_empty() {
        true => OVER,
        false => ITEM,
    }
}

/// Goes through the items by calls with room for so many, each from where the one before ended, beside the independent program's
/// walk from the first, fails where they differ, and gives what both ended with.
pub fn walk_in_room(payload: &[u8], room: usize) -> u8 {
    let mut numbers = vec![[UNWRITTEN; ITEM_FIELDS]; room];
    let (mut at, mut number) = (FIRST_ITEM, 0);
    let mut others = match theirs::items(payload) {
        Ok(items) => items,
        Err(number) => {
            let ours = programme::items_at(payload, at, 0, &mut numbers);
            assert_eq!(ours.err().map(Refusal::number), Some(number));
            return number;
        }
    };
    loop {
        let several = match programme::items_at(payload, at, number, &mut numbers) {
            Ok(several) => several,
            Err(refusal) => {
                assert_eq!(others.next(), Some(Err(refusal.number())), "{payload:02X?}");
                assert_eq!(others.place(), at, "{payload:02X?}");
                return refusal.number();
            }
        };
        at = several.place();
        number += several.len() as u8;
        let count = several.len();
        assert!(count <= room, "{count} in {room}: {payload:02X?}");
        for item in several {
            match others.next() {
                Some(Ok(other)) => assert!(same_item(&item, &other, payload), "{payload:02X?}"),
                other => panic!("{item:?} is not {other:?}: {payload:02X?}"),
            }
        }
        assert_eq!(others.place(), at, "{payload:02X?}");
        // Where fewer are told than there is room for, no other can be.
        let next = others.clone().next();
        assert!(
            count == room || !matches!(next, Some(Ok(_))),
            "{count} in {room}: {payload:02X?}"
        );
        if count == 0 {
            assert_eq!(next, None, "{payload:02X?}");
            return OVER;
        }
    }
}

/// Asks both for the table's own loop from a place, fails where they differ, and gives what both said. No section has an item of
/// number 255, so that none is passed over.
pub fn own(payload: &[u8], at: usize) -> u8 {
    match (
        programme::own_loop_at(payload, at, u8::MAX),
        theirs::own(payload, at),
    ) {
        (Err(refusal), Err(number)) if refusal.number() == number => number,
        (Ok(a), Ok(b)) => {
            let same = same_loop(&a, b, payload);
            assert!(same, "{a:?} is not {b:?}: {at} of {payload:02X?}");
            OWN
        }
        (ours, other) => panic!("{ours:?} is not {other:?}: {at} of {payload:02X?}"),
    }
}

/// Reads the payload and walks its items and its own loop by both, fails where they differ, and gives the number that the walk
/// ended with, or 0 of a list that is whole. Every answer on the way is noted.
pub fn walk(payload: &[u8], found: &mut Tally) -> u8 {
    let number = read(payload, payload.len());
    if number != 0 {
        found.note("reading", number);
        return number;
    }
    let list = programme::read(payload).expect("a list that was read");
    let mut ours = list.items();
    let mut others = theirs::items(payload).expect("a list that was read");
    // All in one call, and by calls for some at a time.
    let all = walk_in_room(payload, MOST_ITEMS);
    let some = walk_in_room(payload, 1 + payload.len() % 20);
    assert_eq!(some, all, "{payload:02X?}");
    for number in 0..=255 {
        assert_eq!(ours.place(), others.place(), "{payload:02X?}");
        let at = ours.place();
        let met = step(payload, at, number);
        found.note("walk", met);
        // Up to four items, and numbers that are part of none.
        in_room(payload, at, number, (at + usize::from(number)) % 48);
        match (ours.next(), others.next()) {
            (Some(Ok(a)), Some(Ok(b))) => {
                assert!(met == ITEM && same_item(&a, &b, payload), "{payload:02X?}");
            }
            (Some(Err(a)), Some(Err(b))) => {
                assert_eq!((a.number(), b), (met, met), "{payload:02X?}");
                assert_eq!((ours.place(), others.place()), (at, at), "{payload:02X?}");
                assert!(ours.next().is_none() && others.next().is_none());
                assert_eq!(ours.own_loop(), Err(a), "behind a refused item");
                assert_eq!(all, met, "{payload:02X?}");
                return met;
            }
            (None, None) => {
                assert_eq!((met, all), (OVER, OVER), "{payload:02X?}");
                assert_eq!(number, list.count, "{payload:02X?}");
                break;
            }
            (a, b) => panic!("{a:?} is not {b:?}: item {number} of {payload:02X?}"),
        }
    }
    let met = own(payload, ours.place());
    found.note("own loop", met);
    let told = ours.own_loop().map_err(Refusal::number);
    let (told, from_first) = (told.map(|own| own.bytes), list.items().own_loop());
    assert_eq!(
        from_first.map(|own| own.bytes).map_err(Refusal::number),
        told
    );
    assert_eq!(told.err().unwrap_or(OWN), met, "{payload:02X?}");
    if met == OWN {
        0
    } else {
        met
    }
}

/// Asks for the staff's text of a shelf file with exact room, with a byte and then `less` less, and with more, and gives the
/// independent program's, which each is compared with.
pub fn text(file: &[u8], less: usize) -> String {
    const UNWRITTEN: u8 = 0xA5;
    let text = opinion::programme_text::programmes(file);
    let size = text.len();
    assert!(size <= TEXT, "{size} bytes of {file:02X?}");
    let small = size - 1 - less % size;
    for room in [size, small, size + 10] {
        let mut out = vec![UNWRITTEN; room];
        let answer = programme::list(file, &mut out);
        let answer = answer.map(str::len).map_err(Refusal::number);
        let written = if room < size { Err(15) } else { Ok(size) };
        assert_eq!(answer, written, "{room} for {file:02X?}");
        let (told, rest) = out.split_at(answer.unwrap_or(0));
        let said = if room < size { "" } else { &text };
        assert_eq!(told, said.as_bytes(), "{file:02X?}");
        assert!(rest.iter().all(|b| *b == UNWRITTEN), "past the text");
    }
    text
}
