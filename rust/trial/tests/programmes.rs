//! Programme lists: the library beside the independent program.

use khumsafil::programme::{self, ITEM_FIELDS, MOST_ITEMS};
use std::collections::BTreeMap;
use trial::beside::programmes::{
    in_room, own, read, step, text, walk, walk_in_room, ITEM, OVER, OWN,
};
use trial::files;
use trial::programmes::{self, Made, Shape, KINDS, MOST, SMALLEST};
use trial::random::Random;
use trial::sections::{self, Fields};
use trial::tally::{common, share, Tally};

/// The seed of every random comparison here.
const SEED: u64 = 0x4B68_756D_7361_000B;

/// How often each kind is drawn.
const ROUNDS: usize = 22_000;

/// What a walk can end with, 0 for a whole list.
const ANSWERS: [u8; 13] = [0, 1, 2, 3, 4, 5, 6, 7, 8, 43, 44, 45, 46];

/// What a step can answer, and the table's own loop.
const STEPS: [u8; 15] = [ITEM, OVER, OWN, 1, 2, 3, 4, 5, 6, 7, 8, 43, 44, 45, 46];

/// What a call for items can answer.
const SEVERAL: [u8; 14] = [ITEM, OVER, 1, 2, 3, 4, 5, 6, 7, 8, 15, 43, 45, 46];

/// How many numbers are lent for items: fewer than one takes, those of one, some or all, and numbers that are part of none.
fn room(random: &mut Random) -> usize {
    let items = random.pick(&[0, 1, 1, 2, 3, 16, 124, MOST_ITEMS, 126, 255]);
    items * ITEM_FIELDS + random.pick(&[0, 0, 1, 5, 9])
}

#[test]
fn random_lists() {
    let mut random = Random::new(SEED);
    let (mut tally, mut found) = (Tally::default(), Tally::default());
    for kind in KINDS {
        for _ in 0..share(ROUNDS) {
            let payload = programmes::payload(&mut random, kind);
            tally.note(kind, walk(&payload, &mut found));
            // Any place, of which many are no item's, with any number and any room.
            let (size, any) = (payload.len(), random.byte());
            let inside = random.below(size + 1);
            let far = usize::MAX - random.below(300);
            let at = random.pick(&[inside, inside, 16, 17, size, size + 1, far]);
            let number = random.pick(&[0, 0, 1, any]);
            found.note("any place", step(&payload, at, number));
            found.note("any own loop", own(&payload, at));
            in_room(&payload, at, number, room(&mut random));
            read(&payload, random.below(20));
        }
    }
    common(tally.total(), 300_000);
    tally.show(&format!("lists, seed {SEED:#018X}"), &ANSWERS);
    found.show("lists, each answer", &STEPS);
    common(tally.of(46).min(found.met("any own loop", 46)), 1_000);
    // Of another table 45 comes, however short it is.
    assert_eq!(tally.met("another table", 46), 0);
}

/// Payloads of 8 to 20 bytes, of the NRT-IT and of other tables, with every header field broken or none: 46 is given where nothing
/// before it is, and 45 only of other tables.
#[test]
fn short_lists() {
    let mut random = Random::new(SEED);
    let (mut tally, mut found) = (Tally::default(), Tally::default());
    for size in 8..=20 {
        for _ in 0..share(5_000) {
            let fields = Fields::random(&mut random);
            let mut payload = sections::section(&mut random, size, fields);
            // No item and few descriptors.
            let small = payload.iter_mut().skip(16);
            small.for_each(|byte| *byte &= random.byte() & 1);
            let mut kind = match fields.is_nrt_it() {
                true => "an NRT-IT",
                false => "another table",
            };
            if random.once_in(3) {
                sections::break_field(&mut random, &mut payload);
                kind = "a field broken";
            }
            let number = walk(&payload, &mut found);
            let expected = match (kind, size) {
                ("an NRT-IT", 8..=13) => Some(46),
                ("an NRT-IT", 14..=16) => Some(43),
                ("another table", _) => Some(45),
                _ => None,
            };
            assert!(expected.is_none_or(|n| n == number), "{payload:02X?}");
            tally.note(kind, number);
            let (at, item) = (random.below(size + 2), random.byte());
            found.note("any place", step(&payload, at, item));
            found.note("any own loop", own(&payload, at));
            in_room(&payload, at, item, room(&mut random));
        }
    }
    tally.show(&format!("short lists, seed {SEED:#018X}"), &SHORT);
    ["an NRT-IT", "a field broken"]
        .iter()
        .for_each(|kind| common(tally.met(kind, 46), 100));
    common(
        tally
            .met("an NRT-IT", 43)
            .min(tally.met("another table", 45)),
        1_000,
    );
}

/// What a walk over a short list can end with.
const SHORT: [u8; 12] = [0, 2, 3, 4, 5, 6, 7, 8, 43, 44, 45, 46];

/// Calls for several items of any list from the place of any of its items and from any other, taken for any number, in any room.
#[test]
fn several_items() {
    let mut random = Random::new(SEED);
    let mut found = Tally::default();
    for kind in KINDS {
        for _ in 0..share(8_000) {
            let mut payload = programmes::payload(&mut random, kind);
            // A list without items is over everywhere, so fewer of those.
            for _ in 0..3 {
                if payload.get(16) == Some(&0) {
                    payload = programmes::payload(&mut random, kind);
                }
            }
            let mut places = vec![17];
            if let Ok(items) = opinion::programme::items(&payload) {
                places.extend(items.flatten().map(|item| item.next));
            }
            for _ in 0..4 {
                // Mostly an item's place and number; sometimes those behind the last.
                let behind = places.len() - 1;
                let n = match random.below(8) {
                    0 => behind,
                    _ => random.below(behind.max(1)),
                };
                let inside = random.below(payload.len() + 2);
                let at = random.pick(&[places[n], places[n], places[n], inside, 16, usize::MAX]);
                let any = random.byte();
                let number = random.pick(&[n as u8, n as u8, n as u8, 0, any]);
                found.note(kind, in_room(&payload, at, number, room(&mut random)));
            }
            found.note("walks", walk_in_room(&payload, 1 + random.below(130)));
        }
    }
    common(found.total(), 500_000);
    found.show(&format!("several items, seed {SEED:#018X}"), &SEVERAL);
}

/// An item in the middle that is refused: those before it are told from any of their places in any room, it is refused at its own
/// place, and those behind it are told at theirs.
#[test]
fn a_refused_item_in_the_middle() {
    let mut random = Random::new(SEED);
    let mut found = Tally::default();
    for _ in 0..share(60) {
        // Items of 8 bytes, so few that a name of 255 bytes passes the end from any of them.
        let count = 2 + random.below(28);
        let mut payload = vec![0xDF, 0x70, 0, 0x10, 0, 0xC7, 0, 0];
        payload.extend(random.bytes(8));
        payload.push(count as u8);
        payload.resize(17 + 8 * count, 0);
        payload.push(0);
        programmes::mend(&mut payload);
        let at = |n: usize| 17 + 8 * n;
        for refused in 0..count {
            let mut payload = payload.clone();
            payload[at(refused) + 6] = 255;
            for first in 0..count {
                let lent = room(&mut random);
                let fit = lent / ITEM_FIELDS;
                let met = in_room(&payload, at(first), first as u8, lent);
                let expected = match first {
                    _ if first == refused => 43,
                    _ if fit == 0 => 15,
                    _ => ITEM,
                };
                assert_eq!(met, expected, "{first} of {payload:02X?}");
                found.note("from each item", met);
                let mut numbers = vec![[0; ITEM_FIELDS]; fit];
                if let Ok(told) =
                    programme::items_at(&payload, at(first), first as u8, &mut numbers)
                {
                    let end = if first < refused { refused } else { count };
                    assert_eq!(told.len(), fit.min(end - first));
                    assert_eq!(told.place(), at(first + told.len()));
                }
            }
            found.note("walks", walk_in_room(&payload, 1 + random.below(40)));
        }
    }
    found.show("a refused item", &[ITEM, 15, 43]);
}

/// Each sound list shortened to every length, with the length that it then has: every field and every descriptor is cut at each
/// of its bytes, and no list but the whole one is read to its end.
#[test]
fn cut_at_every_place() {
    let mut random = Random::new(SEED);
    let (mut tally, mut found) = (Tally::default(), Tally::default());
    let every = |made: &Made, tally: &mut Tally, found: &mut Tally| {
        let whole = made.payload.len();
        for size in 0..=whole {
            let payload = programmes::cut(&made.payload, size);
            let number = walk(&payload, found);
            let expected = match size {
                0..=7 => 1,
                8..=13 => 46,
                _ if size < whole => 43,
                _ => 0,
            };
            assert_eq!(number, expected, "{size} of {:02X?}", made.payload);
            tally.note("cut at every place", number);
        }
    };
    for _ in 0..share(1_400) {
        every(&programmes::sound(&mut random), &mut tally, &mut found);
    }
    for shape in shapes().into_iter().flat_map(|s| vec![s; share(3)]) {
        let made = programmes::full(&mut random, shape);
        every(&made, &mut tally, &mut found);
    }
    common(tally.total(), 200_000);
    tally.show(&format!("lists cut, seed {SEED:#018X}"), &[0, 1, 43, 46]);
    found.show("lists cut, each answer", &[ITEM, OVER, OWN, 1, 43, 46]);
}

/// The smallest items, all fields with two descriptors at most, long names, long loops.
fn shapes() -> [Shape; 4] {
    let all = Shape {
        flags: 0x03FF,
        name: 5,
        descriptors: 2,
        ..SMALLEST
    };
    [
        SMALLEST,
        all,
        Shape { name: 255, ..all },
        Shape {
            descriptors: 255,
            ..SMALLEST
        },
    ]
}

/// Steps at every place and at places that no list has, taken for every kind of number.
#[test]
fn steps_at_every_place() {
    let mut random = Random::new(SEED);
    let mut found = Tally::default();
    for _ in 0..share(160) {
        for kind in KINDS {
            let payload = programmes::payload(&mut random, kind);
            let items = payload.get(16).copied().unwrap_or(0);
            let numbers = [0, items.wrapping_sub(1), items, random.byte(), 255];
            for at in programmes::places(payload.len()) {
                let number = random.pick(&numbers);
                found.note("step", step(&payload, at, number));
                found.note("own loop", own(&payload, at));
                in_room(&payload, at, number, random.below(40));
            }
        }
    }
    common(found.total(), 500_000);
    found.show(&format!("steps, seed {SEED:#018X}"), &STEPS);
}

/// Every number of an item with every count of items, at the first item's place.
#[test]
fn every_number_and_count() {
    let mut payload = programmes::of_shape(&mut Random::new(SEED), SMALLEST, MOST - 1).payload;
    let mut found = Tally::default();
    for count in 0..=255 {
        payload[16] = count;
        for number in 0..=255 {
            let met = step(&payload, 17, number);
            assert_eq!(met, if number < count { ITEM } else { OVER });
            found.note("number and count", met);
        }
    }
    found.show("every number and count", &[ITEM, OVER]);
}

/// Lists of exactly 1,024 bytes are whole, and one byte more makes them too long for a section.
#[test]
fn of_1024_bytes() {
    let mut random = Random::new(SEED);
    let mut found = Tally::default();
    let mut most = 0;
    for shape in shapes() {
        for _ in 0..share(200) {
            let mut payload = programmes::full(&mut random, shape).payload;
            assert_eq!(payload.len(), MOST);
            assert_eq!(walk(&payload, &mut found), 0, "{payload:02X?}");
            most = most.max(programme::read(&payload).expect("a list").count);
            payload.push(0);
            programmes::mend(&mut payload);
            assert_eq!(walk(&payload, &mut found), 3, "{payload:02X?}");
        }
    }
    // 17 bytes, 125 items of 8, and the own loop's number and 6 bytes of its descriptors.
    assert_eq!(usize::from(most), MOST_ITEMS);
    found.show("lists of 1,024 bytes", &[ITEM, OVER, OWN, 3]);
}

/// Every value of each reserved bit, of a list whose fields are all there, changes no answer.
#[test]
fn reserved_bits() {
    let mut random = Random::new(SEED);
    let mut found = Tally::default();
    let all = shapes()[1];
    for _ in 0..share(40) {
        let made = programmes::of_shape(&mut random, Shape { items: 3, ..all }, 300);
        let payload = made.payload;
        let told = |payload: &[u8]| {
            let list = programme::read(payload).expect("a list");
            let items = list.items().map(|item| item.expect("an item"));
            let items = items.map(|item| (format!("{item:?}"), item.next()));
            let head = (list.service_id, list.time_span_start);
            (head, list.time_span_length, items.collect::<Vec<_>>())
        };
        let before = told(&payload);
        for bits in 0..=255u8 {
            let mut other = payload.clone();
            other[1] = other[1] & 0xCF | bits & 0x30;
            other[5] = other[5] & 0x3F | bits & 0xC0;
            other[14] = other[14] & 0x07 | bits & 0xF8;
            for at in &made.flags {
                other[at + 1] = other[at + 1] & 0xC0 | bits & 0x3F;
                other[at + 2] = other[at + 2] & 0x0F | bits & 0xF0;
                other[at + 5] = other[at + 5] & 0x0F | bits << 4;
            }
            assert_eq!(walk(&other, &mut found), 0);
            assert_eq!(told(&other), before);
        }
    }
    found.show("reserved bits", &[ITEM, OVER, OWN]);
}

/// The refusals in their order: the section's own, then 46, then 45, then 43 of the fields from the left.
#[test]
fn the_order_of_refusals() {
    let mut random = Random::new(SEED);
    let mut found = Tally::default();
    let sound = programmes::sound(&mut random).payload;
    let mut with = |size: usize, changes: &[(usize, u8)]| {
        let mut payload = programmes::cut(&sound, size);
        changes.iter().for_each(|(at, value)| payload[*at] = *value);
        walk(&payload, &mut found)
    };
    assert_eq!(with(16, &[]), 43);
    assert_eq!(with(16, &[(0, 0xDE)]), 45, "45 before 43");
    assert_eq!(with(16, &[(0, 0xDE), (5, 0xC6)]), 8, "8 before 45");
    assert_eq!(with(16, &[(0, 0xDE), (1, 0xF0)]), 2, "2 before 45");
    assert_eq!(with(16, &[(0, 0xDE), (6, 17), (7, 16)]), 6, "6 before 45");
    assert_eq!(with(7, &[(0, 0xDE)]), 1, "1 before 45");
    assert_eq!(with(8, &[]), 46, "46 before 43");
    assert_eq!(with(13, &[]), 46, "46 before 43");
    assert_eq!(with(13, &[(0, 0xDE)]), 45, "46 of the NRT-IT alone");
    assert_eq!(with(13, &[(5, 0xC6)]), 8, "8 before 46");
    assert_eq!(with(13, &[(6, 3), (7, 2)]), 6, "6 before 46");
    assert_eq!(with(14, &[]), 43);
    // 43 of an item before 44 of the loop, 43 of the loop before 44.
    let mut body = vec![0; 8];
    body.extend([1, 0, 0, 0, 1, 0, 0, 200, 0]);
    let listed = |body: &[u8]| {
        let mut payload = vec![0xDF, 0x70, 0, 0x10, 0, 0xC7, 0, 0];
        payload.extend(body);
        programmes::mend(&mut payload);
        payload
    };
    assert_eq!(walk(&listed(&body), &mut found), 43);
    assert_eq!(
        walk(
            &listed(&[0, 0, 0, 0, 0, 0, 0, 0, 0, 2, 9, 0, 9]),
            &mut found
        ),
        43
    );
    assert_eq!(
        walk(
            &listed(&[0, 0, 0, 0, 0, 0, 0, 0, 0, 1, 9, 0, 9]),
            &mut found
        ),
        44
    );
    assert_eq!(
        walk(&listed(&[0, 0, 0, 0, 0, 0, 0, 0, 0, 1, 9, 0]), &mut found),
        0
    );
    // An item is over before its place is looked at.
    assert_eq!(step(&listed(&[0; 10]), 0, 0), OVER);
    assert_eq!(step(&listed(&[0; 10]), usize::MAX, 255), OVER);
    assert_eq!(own(&listed(&[0; 10]), 16), 43);
    assert_eq!(own(&listed(&[0; 10]), 17), OWN);
    assert_eq!(own(&listed(&[0; 10]), 18), 43);
}

/// The words that a line of the staff's text begins with.
const LINES: [&str; 17] = [
    "refused",
    "table",
    "no programme list",
    "section",
    "item",
    "updates",
    "playback",
    "delay",
    "expires",
    "size",
    "name",
    "descriptors",
    "list descriptors",
    "missing",
    "whole",
    "not whole",
    "section refused",
];

/// The word of [`LINES`] that a line begins with; the last one for a section's refusal.
fn word(line: &str) -> &'static str {
    if line.starts_with("section ") && line.contains(" refused ") {
        return LINES[LINES.len() - 1];
    }
    let mut known = LINES.iter().filter(|word| line.starts_with(**word));
    known.next().unwrap_or_else(|| panic!("{line}"))
}

/// Files of programme lists, whole and damaged: their texts have every kind of line, and 43 and 44 at their places.
#[test]
fn files_have_every_line() {
    let mut random = Random::new(SEED);
    let mut lines: BTreeMap<&str, u64> = BTreeMap::new();
    let (mut longest, mut refused) = (0, [0u64; 4]);
    for kind in files::KINDS {
        for _ in 0..share(1_000) {
            let file = programmes::file(&mut random, kind);
            let said = text(&file, random.below(400));
            longest = longest.max(said.len());
            for line in said.lines() {
                *lines.entry(word(line)).or_default() += 1;
                refused[0] += u64::from(line.contains(" refused 43 place "));
                refused[1] += u64::from(line.contains(" refused 44 place "));
                refused[2] += u64::from(line == "refused 46");
                let service = line.starts_with("table 223 ") && line.contains(" service ");
                refused[3] += u64::from(service);
                assert_eq!(service, line.starts_with("table 223 "), "{line}");
            }
        }
    }
    println!(
        "texts of files, seed {SEED:#018X}: the longest {longest} bytes, 43, 44, 46 and tables with a service {refused:?}, {lines:?}"
    );
    LINES
        .iter()
        .for_each(|word| common(lines.get(word).copied().unwrap_or(0), 100));
    refused.iter().for_each(|n| common(*n, 100));
}

/// The text of the largest files is compared too, of which the room for any text is enough.
#[test]
fn full_files() {
    let mut random = Random::new(SEED);
    let (mut least, mut longest) = (usize::MAX, 0);
    for shape in shapes() {
        for _ in 0..share(60) {
            let file = programmes::full_file(&mut random, shape);
            assert_eq!(file.len(), khumsafil::shelf::LARGEST_FILE);
            let said = text(&file, random.below(400));
            assert!(said.ends_with("\nwhole\n"), "{said}");
            (least, longest) = (least.min(said.len()), longest.max(said.len()));
        }
    }
    println!("texts of full files, seed {SEED:#018X}: {least} to {longest} bytes");
}
