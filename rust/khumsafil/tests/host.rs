//! The wrapper as a host in Rust has it: a shelf with its store, records put away and taken up again, equality, the clock,
//! programme lists.

use khumsafil::clock::{self, Action, Activation, Clock, Heard, State};
use khumsafil::shelf::{self, lent, Accepted, Record, Shelf, Table, LARGEST_FILE, RECORD, STORE};
use khumsafil::{file, programme, section, trigger, writer, Key, Refusal};
use std::collections::HashSet;

const LIST: Key = Key::new(201, 4_660);

/// Two services that have one extension, and the first with two later starts, of which one differs in the higher bits alone.
const LISTS: [Key; 4] = [
    Key::nrt_it(4_097, 7, 1_000_000_800),
    Key::nrt_it(4_097, 8, 1_000_000_800),
    Key::nrt_it(4_097, 7, 1_000_000_801),
    Key::nrt_it(4_097, 7, 1_000_000_800 + 65_536),
];

/// Section `number` of 0 to `last` of a table as it is sent, with a body of so many bytes. That of an NRT-IT begins with the rest of
/// its key.
fn sent(key: Key, version: u8, number: u8, last: u8, body: usize) -> Vec<u8> {
    let mut bytes = vec![number; 8 + body];
    let length = (bytes.len() - 3) as u16;
    let [high, low] = key.extension.to_be_bytes();
    let header = [
        key.table_id,
        0x70 | (length >> 8) as u8,
        length as u8,
        high,
        low,
        0xC1 | version << 1,
        number,
        last,
    ];
    bytes[..8].copy_from_slice(&header);
    if key.table_id == Key::NRT_IT {
        bytes[8..10].copy_from_slice(&key.service_id.to_be_bytes());
        bytes[10..14].copy_from_slice(&key.time_span_start.to_be_bytes());
    }
    bytes
}

/// A file of sections.
fn file_of(sections: &[Vec<u8>]) -> Vec<u8> {
    let mut file = vec![1, sections.len() as u8];
    for section in sections {
        assert!(section.len() < 128, "one byte for its length");
        file.push(section.len() as u8);
        file.extend(section);
    }
    file
}

#[test]
fn one_version_everywhere() {
    let parts = env!("CARGO_PKG_VERSION").split('.');
    let parts: Vec<u32> = parts.map(|part| part.parse().expect("a number")).collect();
    let [major, minor, patch] = parts[..] else {
        panic!("{parts:?} is no version")
    };
    assert_eq!(khumsafil::VERSION, 65_536 * major + 256 * minor + patch);
    assert_eq!(khumsafil::version(), khumsafil::VERSION);
}

#[test]
fn refusals_have_their_words() {
    assert!(Refusal::ALL.windows(2).all(|two| two[0].1 < two[1].1));
    for (name, refusal) in Refusal::ALL {
        let said = format!("refused {}: {}", refusal.number(), refusal.text());
        assert_eq!(refusal.to_string(), said, "{name}");
        assert_ne!(refusal.text(), "no number of this library", "{name}");
    }
    let spoken: &dyn std::error::Error = &Refusal::KEY_HELD;
    assert_eq!(spoken.to_string(), "refused 13: loading a key already held");
}

/// The lamp is dark for what is not held, for what is not whole, and where anything is refused.
#[test]
fn the_lamp() {
    let mut store = vec![0; STORE];
    let mut shelf = Shelf::begin(&mut store).expect("a store");
    assert!(!shelf.is_complete(LIST));
    assert_eq!(shelf.complete(LIST), Err(Refusal::TABLE_NOT_HELD));
    shelf.offer(&sent(LIST, 3, 0, 1, 5)).expect("a section");
    assert!(!shelf.is_complete(LIST));
    assert_eq!(shelf.complete(LIST), Ok(false));
    shelf.offer(&sent(LIST, 3, 1, 1, 5)).expect("a section");
    assert!(shelf.is_complete(LIST));
    assert_eq!(shelf.complete(LIST), Ok(true));
    assert!(!shelf.is_complete(Key::new(201, 4_661)));
    assert!(!shelf.is_complete(Key::new(202, 4_660)));
    let record = *shelf.record().numbers();
    let (_, store) = shelf.into_parts();
    assert!(lent::is_complete(&record, store, LIST));
    assert!(!lent::is_complete(&record, &store[1..], LIST), "17");
    assert!(!lent::is_complete(&record[1..], store, LIST), "18");
    let mut spoiled = record;
    spoiled[66] = 32;
    assert!(!lent::is_complete(&spoiled, store, LIST), "18");
}

/// Which tables are held, which one a file is, and which one was loaded.
#[test]
fn the_tables() {
    let mut store = vec![0; STORE];
    let mut shelf = Shelf::begin(&mut store).expect("a store");
    assert_eq!(shelf.tables().count(), 0);
    let other = Key::new(7, 52);
    shelf.offer(&sent(LIST, 3, 2, 4, 5)).expect("a section");
    shelf.offer(&sent(LIST, 3, 0, 4, 0)).expect("a section");
    shelf
        .offer(&sent(other, 31, 0, 0, 1_016))
        .expect("a section");
    let tables: Vec<Table> = shelf.tables().collect();
    assert_eq!(tables.len(), 2);
    let list = &tables[0];
    assert_eq!((list.key, list.version, list.last), (LIST, 3, 4));
    assert_eq!(list.lengths[..5], [8, 0, 13, 0, 0]);
    assert_eq!(list.missing().collect::<Vec<_>>(), [1, 3, 4]);
    assert_eq!((list.length(2), list.length(1)), (Some(13), None));
    assert_eq!((list.length(16), list.length(255)), (None, None));
    assert!(list.holds(0) && !list.holds(4) && !list.is_complete());
    assert_eq!((tables[1].key, tables[1].version), (other, 31));
    assert!(tables[1].is_complete() && tables[1].missing().next().is_none());
    assert_eq!(format!("{shelf:?}"), format!("{tables:?}"));
    for place in 0..=255 {
        let table = tables.get(usize::from(place)).cloned();
        assert_eq!(shelf.table(place), table.ok_or(Refusal::TABLE_NOT_HELD));
    }
    let mut saved = [0; LARGEST_FILE];
    let size = shelf.save(LIST, &mut saved).expect("room");
    assert_eq!(file::table(&saved[..size]).as_ref(), Ok(list));
    assert_eq!(shelf.load(&saved[..size]), Err(Refusal::KEY_HELD));
    shelf.release(LIST).expect("a held table");
    assert_eq!(shelf.tables().collect::<Vec<_>>(), tables[1..]);
    assert_eq!(shelf.load(&saved[..size]).as_ref(), Ok(list));
    assert_eq!(shelf.tables().collect::<Vec<_>>(), tables);
    assert_eq!(shelf.load(&saved[..size - 1]), Err(Refusal::BAD_FILE));
}

/// A record and a store are put away and taken up again, and the shelf goes on as one that never was.
#[test]
fn put_away_and_taken_up() {
    let (mut store, mut kept) = (vec![0; STORE], vec![0; STORE]);
    let mut lasting = Shelf::begin(&mut kept).expect("a store");
    let mut record = Record::from([0xFFFF; RECORD]);
    for number in 0..16 {
        let mut shelf = match number {
            0 => Shelf::begin(&mut store),
            _ => Shelf::resume(record, &mut store),
        }
        .expect("a record as it was left");
        let payload = sent(LIST, 3, number, 15, number.into());
        let did = shelf.offer(&payload).expect("a section");
        assert_eq!(did == Accepted::Began, number == 0);
        assert_eq!(lasting.offer(&payload), Ok(did));
        assert!(shelf.record() == lasting.record() && shelf.store() == lasting.store());
        // As numbers in a file of the host's, and back.
        let (put_away, _) = shelf.into_parts();
        record = Record::from(*put_away.numbers());
    }
    let shelf = Shelf::resume(record, &mut store).expect("a record as it was left");
    assert!(shelf.is_complete(LIST));
}

#[test]
fn what_is_no_shelf_is_not_taken_up() {
    for size in [0, 1, STORE - 1, STORE + 1] {
        let mut store = vec![7; size];
        assert_eq!(Shelf::begin(&mut store).err(), Some(Refusal::STORE_SIZE));
        let spoiled = Record::from([0x0101; RECORD]);
        let answer = Shelf::resume(spoiled, &mut store);
        assert_eq!(answer.err(), Some(Refusal::STORE_SIZE));
        assert!(store.iter().all(|b| *b == 7), "a refused call wrote");
    }
    let mut store = vec![7; STORE];
    let spoiled = Record::from([0x0101; RECORD]);
    let answer = Shelf::resume(spoiled, &mut store);
    assert_eq!(answer.err(), Some(Refusal::SHELF_SPOILED));
    // Four free places, whatever else stands there.
    let free = Record::from([0xFFFF; RECORD]);
    let shelf = Shelf::resume(free, &mut store).expect("no place is taken");
    assert_eq!(shelf.tables().count(), 0);
    assert!(store.iter().all(|b| *b == 7), "a question wrote");
}

/// Records are equal where their taken places are: by one history or another, and whatever free places hold.
#[test]
fn equal_records() {
    let (mut one, mut two) = (vec![0; STORE], vec![0; STORE]);
    let (first, second) = (sent(LIST, 3, 0, 1, 9), sent(LIST, 3, 1, 1, 2));
    let mut a = Shelf::begin(&mut one).expect("a store");
    let mut b = Shelf::begin(&mut two).expect("a store");
    assert!(a.record() == b.record());
    a.offer(&first).expect("a section");
    assert!(a.record() != b.record());
    // Another history, whose places were used before and whose numbers are others.
    b.offer(&sent(Key::new(9, 9), 1, 3, 5, 100))
        .expect("a section");
    b.offer(&sent(LIST, 3, 0, 1, 9)).expect("a section");
    b.release(Key::new(9, 9)).expect("a held table");
    assert!(a.record() != b.record(), "one table in two places");
    b.release(LIST).expect("a held table");
    b.offer(&sent(LIST, 2, 1, 1, 500)).expect("a section");
    b.offer(&first).expect("a section");
    assert!(a.record().numbers() != b.record().numbers());
    assert!(
        a.record() == b.record(),
        "{:?} and {:?}",
        a.record(),
        b.record()
    );
    assert!(a.tables().eq(b.tables()));
    a.offer(&second).expect("a section");
    assert!(a.record() != b.record());
    b.offer(&second).expect("a section");
    assert!(a.record() == b.record());
    // A spoiled record is equal to itself, also with two tables of one key.
    let spoiled = |number: u16| Record::from([number; RECORD]);
    assert!(spoiled(0x0101) == spoiled(0x0101) && spoiled(0x0101) != spoiled(0x0102));
    assert!(spoiled(0) == spoiled(0xFFFF), "four free places each");
}

fn exec(event: u16, time: u32) -> Activation {
    Activation {
        application: 3,
        event,
        action: Action::Exec,
        time,
    }
}

#[test]
fn a_clock() {
    let mut clock = Clock::fresh();
    assert_eq!(clock.offer(exec(1, 500)), Ok(Heard::Waiting));
    assert_eq!(clock.offer(exec(1, 500)), Err(Refusal::CLOCK_ALREADY_HELD));
    // A clone goes its own way.
    let before = clock.clone();
    assert_eq!(clock.move_to(700), Ok(1));
    assert_eq!((clock.time(), clock.state(3)), (700, Ok(State::Active)));
    assert_eq!((before.time(), before.state(3)), (0, Ok(State::Released)));
    assert_eq!(clock.state(8), Err(Refusal::CLOCK_ABOVE));
    assert_eq!(clock.move_to(699), Err(Refusal::CLOCK_MOVED_BACK));
    assert_eq!(clock.offer(exec(2, 700)), Ok(Heard::Applied));
    // Put away and taken up again.
    let record = *clock.record();
    let again = Clock::resume(record).expect("a record as it was left");
    assert!(again == clock && before != clock);
    let mut spoiled = record;
    spoiled[2] = 33;
    assert_eq!(Clock::resume(spoiled).err(), Some(Refusal::CLOCK_SPOILED));
    let fresh = Clock::resume([0; clock::RECORD]).expect("a fresh clock");
    assert!(fresh == Clock::fresh());
}

/// Clocks are equal where time, states and the set held are: heard in any order.
#[test]
fn equal_clocks() {
    let heard = |events: [u16; 3]| {
        let mut clock = Clock::fresh();
        for event in events {
            clock.offer(exec(event, 500)).expect("one more");
        }
        clock
    };
    let (one, mut two) = (heard([1, 2, 3]), heard([3, 1, 2]));
    assert!(one.record() != two.record() && one == two);
    assert!(one != heard([1, 2, 4]));
    assert_eq!(two.move_to(1), Ok(0));
    assert!(one != two);
    // The action counts, though it does not tell two activations apart.
    let mut three = heard([1, 2, 3]);
    let mut record = *three.record();
    record[4] ^= 3 << 24;
    three = Clock::resume(record).expect("another action");
    assert!(one != three);
}

/// A trigger is asked by the numbers that the reading gave; two are equal where they say the same.
#[test]
fn a_trigger() {
    let payload = [0, 0, 4, 0, 1, 7, 8, 2, 0, 2, 0, 0x17, 0, 1, 0x41];
    let read = trigger::read(&payload).expect("a trigger");
    assert!(read.belongs_to(&[7, 8]) && !read.belongs_to(&[7]) && !read.belongs_to(&[]));
    let again = payload;
    assert_eq!(trigger::read(&again), Ok(read));
    // No explicit target under any type is one saying.
    let none = trigger::read(&[0; 8]).expect("a trigger");
    let typed = [0, 0, 0, 3, 0, 0, 0, 0];
    assert_eq!(trigger::read(&typed), Ok(none));
    assert!(none != read && none.belongs_to(&[]) && none.belongs_to(&[7]));
}

/// A writer's label and a section's key are one thing.
#[test]
fn a_key() {
    let mut out = [0; shelf::LARGEST_SECTION];
    let label = writer::Label::new(LIST, 3);
    let size = writer::section(label, b"Ferry", 0, &mut out).expect("room");
    let read = section::read(&out[..size]).expect("a section");
    assert_eq!(
        (read.key, read.version, read.body),
        (LIST, 3, &b"Ferry"[..])
    );
    assert_eq!(read.key.to_string(), "table 201 key 4660");
    assert!(Key::new(1, 65_535) < Key::new(2, 0) && Key::new(1, 1) < Key::new(1, 2));
}

/// A key by its four numbers: all of them tell an NRT-IT, and the first two every other table, whatever stands in the rest.
#[test]
fn one_key_and_another() {
    for (i, one) in LISTS.iter().enumerate() {
        for (j, other) in LISTS.iter().enumerate() {
            assert_eq!(one == other, i == j);
            let rest = |key: &Key| (key.service_id, key.time_span_start);
            assert_eq!(one.cmp(other), rest(one).cmp(&rest(other)));
        }
        assert_ne!(*one, Key::new(Key::NRT_IT, 4_097));
        let again = Key::of(223, 4_097, one.service_id, one.time_span_start);
        assert_eq!(again, *one);
    }
    assert_eq!(Key::nrt_it(9, 0, 0), Key::new(Key::NRT_IT, 9));
    let said = "table 223 key 4097 service 8 start 1000000800";
    assert_eq!(LISTS[1].to_string(), said);
    assert_eq!(HashSet::from(LISTS).len(), 4);
    for table_id in (0..=255).filter(|id| *id != Key::NRT_IT) {
        let key = Key::of(table_id, 4_097, 7, 1_000_000_800);
        assert_eq!((key.service_id, key.time_span_start), (0, 0));
        let mut by_hand = Key::new(table_id, 4_097);
        (by_hand.service_id, by_hand.time_span_start) = (7, 1_000_000_800);
        assert_eq!(key, by_hand);
        assert!(key <= by_hand && by_hand <= key);
        assert_eq!(key.to_string(), format!("table {table_id} key 4097"));
        assert_eq!(by_hand.to_string(), key.to_string());
        assert_eq!(HashSet::from([key, by_hand]).len(), 1);
    }
}

/// Lists of two services, and of two starts, stay beside each other whatever their versions, and each is asked for by its own key.
#[test]
fn two_services() {
    let mut store = vec![0; STORE];
    let mut shelf = Shelf::begin(&mut store).expect("a store");
    let sections = [0, 1, 2, 3].map(|n| sent(LISTS[n], n as u8, 0, 1, 6 + n));
    for (section, key) in sections.iter().zip(LISTS) {
        assert_eq!(section::read(section).map(|read| read.key), Ok(key));
        assert!(!shelf.is_complete(key));
        assert_eq!(shelf.complete(key), Err(Refusal::TABLE_NOT_HELD));
        assert_eq!(shelf.offer(section), Ok(Accepted::Began));
    }
    for section in &sections {
        assert_eq!(shelf.offer(section), Ok(Accepted::Repeat));
    }
    let fifth = Key::nrt_it(4_097, 8, 1_000_000_801);
    let none = [fifth, Key::new(Key::NRT_IT, 4_097)];
    for key in none {
        let refused = shelf.offer(&sent(key, 0, 0, 1, 6));
        assert_eq!(refused, Err(Refusal::NO_FREE_PLACE));
        assert_eq!(shelf.release(key), Err(Refusal::TABLE_NOT_HELD));
    }
    assert!(shelf.tables().map(|table| table.key).eq(LISTS));

    // One becomes whole, and another begins again; the rest are as they were.
    let whole = sent(LISTS[1], 1, 1, 1, 6);
    assert_eq!(shelf.offer(&whole), Ok(Accepted::Added));
    assert_eq!(
        LISTS.map(|key| shelf.is_complete(key)),
        [false, true, false, false]
    );
    assert_eq!(
        LISTS.map(|key| shelf.complete(key)),
        [Ok(false), Ok(true), Ok(false), Ok(false)]
    );
    let again = shelf.offer(&sent(LISTS[2], 9, 1, 1, 6));
    assert_eq!(again, Ok(Accepted::BeganAgain));
    assert_eq!(
        LISTS.map(|key| shelf.lowest_missing(key)),
        [Ok(Some(1)), Ok(None), Ok(Some(0)), Ok(Some(1))]
    );
    let mut out = [0; LARGEST_FILE];
    assert_eq!(shelf.copy_section(LISTS[1], 1, &mut out), Ok(14));
    assert_eq!(out[..14], whole);
    assert_eq!(shelf.copy_section(LISTS[3], 0, &mut out), Ok(17));
    assert_eq!(out[..17], sections[3]);

    // Each goes round by its file, which tells its whole key.
    for (place, key) in LISTS.into_iter().enumerate() {
        let size = shelf.save(key, &mut out).expect("room");
        let table = shelf.table(place as u8).expect("a table");
        assert_eq!(
            (table.key, file::table(&out[..size])),
            (key, Ok(table.clone()))
        );
        let mut text = [0; file::LARGEST_LIST];
        let text = file::list(&out[..size], &mut text).expect("room");
        assert!(text.starts_with(&format!("{key} version {} last 1\n", table.version)));
        assert_eq!(shelf.load(&out[..size]), Err(Refusal::KEY_HELD));
        assert_eq!(shelf.release(key), Ok(()));
        assert_eq!(shelf.complete(key), Err(Refusal::TABLE_NOT_HELD));
        assert_eq!(shelf.tables().count(), 3);
        assert_eq!(shelf.load(&out[..size]), Ok(table));
        let other = file_of(&[sent(fifth, 0, 0, 0, 6)]);
        assert_eq!(shelf.load(&other), Err(Refusal::NO_FREE_PLACE));
    }
    assert!(shelf.tables().map(|table| table.key).eq(LISTS));
}

/// A question about another table is answered by its first two numbers, whatever the last two are.
#[test]
fn numbers_that_mean_nothing() {
    let mut store = vec![0; STORE];
    let mut shelf = Shelf::begin(&mut store).expect("a store");
    let payload = sent(LIST, 3, 0, 0, 20);
    shelf.offer(&payload).expect("a section");
    let mut key = LIST;
    (key.service_id, key.time_span_start) = (0x0707, 0x0809_0A0B);
    assert!(shelf.is_complete(key));
    assert_eq!(shelf.complete(key), Ok(true));
    assert_eq!(shelf.lowest_missing(key), Ok(None));
    let mut out = [0; LARGEST_FILE];
    assert_eq!(shelf.copy_section(key, 0, &mut out), Ok(28));
    assert_eq!(shelf.save(key, &mut out), Ok(31));
    let mut fields = [7; shelf::TABLE_FIELDS];
    assert_eq!(file::table_fields(&out[..31], &mut fields), Ok(()));
    assert_eq!(fields[..8], [201, 4_660, 0, 0, 0, 3, 0, 28]);
    // Nor in a record: not for an answer, not for 18, and not where records are compared.
    let mut lent = *shelf.record().numbers();
    lent[84..87].copy_from_slice(&[7, 8, 9]);
    assert!(Record::from(lent) == *shelf.record());
    let (record, store) = shelf.into_parts();
    let mut shelf = Shelf::resume(Record::from(lent), store).expect("a record");
    assert_eq!(shelf.table(0).map(|table| table.key), Ok(LIST));
    assert_eq!(shelf.offer(&payload), Ok(Accepted::Repeat));
    assert_eq!(shelf.release(key), Ok(()));
    assert!(*shelf.record() != record);
}

/// A record by its numbers: the rest of a key where an NRT-IT is, and one key in two places.
#[test]
fn a_record_of_lists() {
    let mut store = vec![0; STORE];
    let mut shelf = Shelf::begin(&mut store).expect("a store");
    assert_eq!(shelf.record().numbers()[84..], [0; 12]);
    for key in &LISTS[..2] {
        shelf.offer(&sent(*key, 3, 0, 0, 6)).expect("a section");
    }
    let numbers = *shelf.record().numbers();
    let start = [0x3B9A, 0xCD20];
    let rest = [[7, start[0], start[1]], [8, start[0], start[1]]];
    assert_eq!(numbers[84..90], rest.concat());
    let mut fields = [7; shelf::TABLE_FIELDS + 1];
    assert_eq!(
        lent::table_fields(&numbers, shelf.store(), 1, &mut fields),
        Ok(())
    );
    assert_eq!(fields[..8], [223, 4_097, 8, start[0], start[1], 3, 0, 14]);
    assert_eq!(fields[8..], [[0; 15].as_slice(), &[7]].concat());
    let (_, store) = shelf.into_parts();
    let others = [
        Key::nrt_it(4_097, 6, 1_000_000_800),
        Key::nrt_it(4_097, 7, 1_000_000_800 ^ 65_536),
        Key::nrt_it(4_097, 7, 1_000_000_800 ^ 1),
    ];
    for (at, key) in (84..87).zip(others) {
        let mut other = numbers;
        other[at] ^= 1;
        assert!(Record::from(other) != Record::from(numbers), "{at}");
        let moved = [LISTS[0], key].map(|key| lent::complete(&other, store, key));
        assert_eq!(moved, [Err(Refusal::TABLE_NOT_HELD), Ok(true)], "{at}");
    }
    let mut twice = numbers;
    twice[87] = 7;
    let one = lent::complete(&twice, store, LISTS[0]);
    assert_eq!(one, Err(Refusal::SHELF_SPOILED));
    assert!(!lent::is_complete(&twice, store, LISTS[0]));
    // Fewer numbers, as an older record has, and one more or less.
    let more = [&numbers[..], &[0]].concat();
    for record in [&numbers[..84], &numbers[..95], &more] {
        let refused = lent::complete(record, store, LISTS[0]);
        assert_eq!(refused, Err(Refusal::SHELF_SPOILED));
    }
    assert_eq!(lent::complete(&more[..96], store, LISTS[0]), Ok(true));
    // A release leaves the rest of the key where it was.
    let mut shelf = Shelf::resume(Record::from(numbers), store).expect("a record");
    shelf.release(LISTS[0]).expect("a held table");
    assert_eq!(shelf.record().numbers()[84..], numbers[84..]);
    // Another table in that place has none.
    shelf.offer(&sent(LIST, 3, 0, 0, 6)).expect("a section");
    assert_eq!(shelf.record().numbers()[84..87], [0; 3]);
}

/// An NRT-IT that has no room for its key, wherever it is met.
#[test]
fn a_list_without_its_key() {
    let mut store = vec![0; STORE];
    let mut shelf = Shelf::begin(&mut store).expect("a store");
    let whole = sent(LISTS[0], 3, 0, 1, 6);
    let refused = Refusal::KEY_SHORT;
    assert_eq!(refused.number(), 46);
    for size in 8..14 {
        let mut short = whole[..size].to_vec();
        short[2] = (size - 3) as u8;
        assert_eq!(section::read(&short), Err(refused));
        assert_eq!(shelf.offer(&short), Err(refused));
        assert_eq!(programme::read(&short), Err(refused));
        assert_eq!(programme::item_at(&short, 17, 0), Err(refused));
        assert_eq!(programme::own_loop_at(&short, 17, 0), Err(refused));
        let file = file_of(&[whole.clone(), short.clone()]);
        assert_eq!(shelf.load(&file), Err(refused));
        assert_eq!(file::table(&file), Err(refused));
        let mut out = [0; file::LARGEST_LIST];
        assert_eq!(file::list(&file, &mut out), Ok("refused 46\n"));
        assert_eq!(programme::list(&file, &mut out), Ok("refused 46\n"));
        // 1 to 8 come first, and of another table it is a section.
        short[5] &= 0xFE;
        assert_eq!(section::read(&short), Err(Refusal::NOT_CURRENT));
        (short[0], short[5]) = (0xDE, 0xC7);
        assert_eq!(
            section::read(&short).map(|read| read.body.len()),
            Ok(size - 8)
        );
    }
    assert_eq!(shelf.tables().count(), 0);
    assert_eq!(programme::read(&whole), Err(Refusal::PROGRAMME_PASSES_END));
    // A file whose sections have two keys.
    let file = |other| file_of(&[whole.clone(), sent(other, 3, 1, 1, 6)]);
    assert_eq!(
        shelf.load(&file(LISTS[0])).map(|table| table.key),
        Ok(LISTS[0])
    );
    for other in &LISTS[1..] {
        assert_eq!(shelf.load(&file(*other)), Err(Refusal::BAD_FILE));
    }
}

/// The writer writes no NRT-IT, and says so before all else.
#[test]
fn no_list_is_written() {
    let refused = Refusal::ASKED_FOR_NRT_IT;
    assert_eq!(refused.number(), 59);
    let long = vec![0; writer::LARGEST_BODY + 1];
    for (key, version) in [(LISTS[0], 3), (Key::new(Key::NRT_IT, 9), 32)] {
        let label = writer::Label::new(key, version);
        for body in [&long[..0], &long[..20], &long] {
            let mut out = [7; 64];
            assert_eq!(writer::count(key.table_id, body.len()), Err(refused));
            assert_eq!(writer::section(label, body, 99, &mut out), Err(refused));
            assert_eq!(writer::file(label, body, &mut out[..1]), Err(refused));
            assert_eq!(out, [7; 64]);
        }
    }
    for table_id in (0..=255).filter(|id| *id != Key::NRT_IT) {
        assert_eq!(writer::count(table_id, 1_017), Ok(2));
        let too_long = writer::count(table_id, long.len());
        assert_eq!(too_long, Err(Refusal::WRITER_BODY_TOO_LONG));
    }
    // A label has no use for the rest of a key.
    let mut key = LIST;
    key.service_id = 7;
    let mut out = [[0; 16]; 2];
    let by_hand = writer::section(writer::Label::new(key, 3), b"Ferry", 0, &mut out[0]);
    assert_eq!(
        by_hand,
        writer::section(writer::Label::new(LIST, 3), b"Ferry", 0, &mut out[1])
    );
    assert_eq!(out[0], out[1]);
}

/// The body of a list before its items: service 3,152, a start, 1,440 minutes, and so many items.
fn listed(items: u8, rest: &[u8]) -> Vec<u8> {
    let mut payload = vec![0xDF, 0x70, 0, 0x10, 0, 0xC7, 0, 0];
    payload.extend([0x0C, 0x50, 0x3B, 0x9A, 0xCD, 0x20, 0xFD, 0xA0, items]);
    payload.extend(rest);
    payload[2] = (payload.len() - 3) as u8;
    payload
}

/// A list is read, its items are walked, and its own loop stands behind them, also where the walk was never gone.
#[test]
fn a_programme_list() {
    let with_all = b"\0\0\0\x42\x9F\x7F\xF0\x15\x18\xF0\0\x1E\x4D\x7C\x6D\0\0\x04\x60\0\0\x05Ferry\x02\xC8\x01\x09\xC6\0";
    let smallest = b"\xFF\xFF\xFF\xFF\0\xBF\0\0";
    let own = b"\x01\xAD\x02\x07\x08";
    let payload = listed(2, &[&with_all[..], smallest, own].concat());
    let list = programme::read(&payload).expect("a list");
    assert_eq!(
        (list.service_id, list.time_span_start),
        (3_152, 1_000_000_800)
    );
    assert_eq!((list.time_span_length, list.count), (1_440, 2));
    let items: Vec<_> = list.items().map(|item| item.expect("an item")).collect();
    let (first, second) = (items[0], items[1]);
    assert_eq!(
        (first.content_linkage(), first.flags().0, first.next()),
        (66, 0x27D, 50)
    );
    assert_eq!(
        (first.playback_length(), first.playback_delay()),
        (Some(5_400), Some(30))
    );
    assert_eq!(
        (first.expiration(), first.content_size()),
        (Some(1_300_000_000), Some(73_400_320))
    );
    assert!(first.flags().updates_available() && first.flags().master_item());
    assert!(first.flags().available_in_broadcast() && !first.flags().available_on_internet());
    assert!(!first.flags().tf_available());
    assert!(!first.flags().content_security_conditions_indicator());
    assert_eq!(
        (first.name(), first.descriptors().count),
        (&b"Ferry"[..], 2)
    );
    let tags = first
        .descriptors()
        .walk()
        .map(|d| d.expect("a descriptor").tag);
    assert_eq!(tags.collect::<Vec<_>>(), [0xC8, 0xC6]);
    assert_eq!((second.content_linkage(), second.flags().0), (u32::MAX, 2));
    assert_eq!(
        (second.playback_length(), second.playback_delay()),
        (None, None)
    );
    assert_eq!((second.expiration(), second.content_size()), (None, None));
    assert_eq!((second.name().len(), second.descriptors().count), (0, 0));
    assert_eq!(second.descriptors().walk().count(), 0);
    let mut walk = list.items();
    assert_eq!(walk.by_ref().count(), 2);
    assert_eq!(walk.place(), 58);
    let loop_of = walk.own_loop().expect("a loop");
    assert_eq!((loop_of.count, loop_of.bytes), (1, &own[1..]));
    assert_eq!(list.items().own_loop(), Ok(loop_of));

    // One that is refused ends the walk, and those before it stay; an item says the same wherever it stands.
    let cut = listed(2, &[&smallest[..], &with_all[..30]].concat());
    let list = programme::read(&cut).expect("a list");
    let mut walk = list.items();
    assert_eq!(walk.next(), Some(Ok(second)));
    assert_eq!(walk.next(), Some(Err(Refusal::PROGRAMME_PASSES_END)));
    assert_eq!((walk.next(), walk.place()), (None, 25));
    assert_eq!(walk.own_loop(), Err(Refusal::PROGRAMME_PASSES_END));
    assert!(first != second && format!("{first:?}").contains("playback_delay: Some(30)"));

    // Bytes left over, another table, and no list at all.
    let left = listed(0, &[0, 0]);
    let list = programme::read(&left).expect("a list");
    assert_eq!(list.items().own_loop(), Err(Refusal::PROGRAMME_BYTES_LEFT));
    assert_eq!(
        programme::item_at(&left, usize::MAX, 0),
        Ok(programme::Step::Over)
    );
    let mut other = left.clone();
    other[0] = 0xDE;
    assert_eq!(programme::read(&other), Err(Refusal::PROGRAMME_OTHER_TABLE));
    assert_eq!(programme::read(&[]), Err(Refusal::PAYLOAD_SHORT));
    assert_eq!(
        programme::fields(&left, &mut [0; 3]),
        Err(Refusal::OUTPUT_TOO_SMALL)
    );
}

/// Items of 8 bytes and of linkage 0 and up, behind them an empty loop.
fn of_smallest(items: u8, there: u8) -> Vec<u8> {
    let mut rest: Vec<u8> = (0..there).flat_map(|n| [0, 0, 0, n, 0, 0, 0, 0]).collect();
    rest.push(0);
    let mut payload = listed(items, &rest);
    payload[1] |= ((payload.len() - 3) >> 8) as u8;
    payload
}

/// A walk that is left anywhere knows its place, and goes on from there as often as it is copied; its own loop is behind all items.
#[test]
fn a_walk_left_anywhere() {
    for count in [0, 1, 15, 16, 17, 31, 32, 33, 40, 125] {
        let payload = of_smallest(count, count);
        let list = programme::read(&payload).expect("a list");
        let mut walk = list.items();
        for n in 0..=count {
            let at = 17 + 8 * usize::from(n);
            assert_eq!(walk.place(), at);
            let rest = walk.clone().map(|item| item.expect("an item"));
            let rest = rest.map(|item| item.content_linkage());
            assert!(rest.eq(u32::from(n)..count.into()));
            assert_eq!(walk.clone().own_loop().map(|own| own.count), Ok(0));
            let next = walk.next().map(|item| item.expect("an item"));
            let expected = (n < count).then_some((n.into(), at + 8));
            assert_eq!(next.map(|i| (i.content_linkage(), i.next())), expected);
        }
        assert!(walk.next().is_none() && format!("{walk:?}").contains("place: "));
    }
}

/// The same where an item is refused, before, at and behind the end of what a walk takes at once.
#[test]
fn a_walk_to_a_refused_item() {
    for there in [0, 1, 15, 16, 17, 31, 32, 33] {
        let payload = of_smallest(there + 2, there);
        let list = programme::read(&payload).expect("a list");
        let mut walk = list.items();
        for n in 0..there {
            let refused = walk.clone().own_loop();
            assert_eq!(refused, Err(Refusal::PROGRAMME_PASSES_END));
            let item = walk.next().expect("an item").expect("an item");
            assert_eq!(item.content_linkage(), n.into());
        }
        assert_eq!(walk.next(), Some(Err(Refusal::PROGRAMME_PASSES_END)));
        let at = 17 + 8 * usize::from(there);
        assert_eq!((walk.next(), walk.place()), (None, at));
        assert_eq!(walk.own_loop(), Err(Refusal::PROGRAMME_PASSES_END));

        // In one call nothing is refused, and the loop behind the items is: at the refused item's place one could be read.
        let mut numbers = [[0; programme::ITEM_FIELDS]; programme::MOST_ITEMS];
        let refused = Err(Refusal::PROGRAMME_PASSES_END);
        if there > 0 {
            let told = programme::items_at(&payload, programme::FIRST_ITEM, 0, &mut numbers);
            let told = told.expect("items");
            assert_eq!((told.len(), told.place()), (there.into(), at));
            assert_eq!(told.own_loop(), refused);
        }
        assert_eq!(
            programme::own_loop_at(&payload, programme::FIRST_ITEM, 0),
            refused
        );
        assert_eq!(programme::own_loop_at(&payload, at, there), refused);
        let own = programme::own_loop_at(&payload, at, there + 2).expect("a loop");
        assert_eq!((own.count, own.bytes.len()), (0, 0));
    }
}

/// All items of a section in the numbers that are lent for them, some of them, and none.
#[test]
fn items_in_lent_numbers() {
    use programme::{items_at, FIRST_ITEM, ITEM_FIELDS, MOST_ITEMS};
    let payload = of_smallest(125, 125);
    let mut numbers = [[7; ITEM_FIELDS]; MOST_ITEMS];
    let all = items_at(&payload, FIRST_ITEM, 0, &mut numbers).expect("items");
    assert_eq!((all.len(), all.place()), (125, 17 + 8 * 125));
    let walked = programme::read(&payload).expect("a list").items();
    assert!(all.clone().map(Ok).eq(walked));
    assert!(all.map(|item| item.content_linkage()).eq(0..125));
    let some = items_at(&payload, 25, 1, &mut numbers[..3]).expect("items");
    assert_eq!((some.len(), some.place()), (3, 49));
    assert!(some.map(|item| item.content_linkage()).eq(1..4));
    // Those past what was lent, and all where none is told, stay.
    let mut numbers = [[7; ITEM_FIELDS]; 4];
    let last = items_at(&payload, 1_009, 124, &mut numbers).expect("an item");
    assert_eq!((last.len(), last.place()), (1, 1_017));
    assert_eq!(numbers[1..], [[7; ITEM_FIELDS]; 3]);
    let mut numbers = [[7; ITEM_FIELDS]; 4];
    let over = items_at(&payload, 1_017, 125, &mut numbers).expect("none");
    assert_eq!((over.len(), over.place()), (0, 1_017));
    let refused = items_at(&payload, 16, 0, &mut numbers).err();
    assert_eq!(refused, Some(Refusal::PROGRAMME_PASSES_END));
    let refused = items_at(&payload, FIRST_ITEM, 0, &mut []).err();
    assert_eq!(refused, Some(Refusal::OUTPUT_TOO_SMALL));
    assert_eq!(numbers, [[7; ITEM_FIELDS]; 4]);
}

/// A list of 255 items, which no section has room for, is walked as far as it goes.
#[test]
fn more_items_than_there_are() {
    let payload = listed(255, &[0; 80]);
    let list = programme::read(&payload).expect("a list");
    let mut walk = list.items();
    assert_eq!(walk.by_ref().filter(|item| item.is_ok()).count(), 10);
    assert_eq!((walk.place(), walk.next()), (97, None));
}
