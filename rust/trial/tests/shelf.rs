//! The shelf and its files: the library beside the independent program.

use khumsafil::shelf::{Key, LARGEST_FILE, RECORD, STORE};
use opinion::shelf::{Record, BERTH, PLACES, SECTIONS};
use std::collections::hash_map::DefaultHasher;
use std::hash::{Hash, Hasher};
use trial::beside::shelf::{equal, Both};
use trial::keys::{self, for_them, for_us, NRT_IT};
use trial::random::Random;
use trial::shelf::{decode, litter, rest, spoil, Call, Way, APART, NAMED, SPOILS};
use trial::tally::{common, share, Cases, Tally};

/// The seed of every random comparison here.
const SEED: u64 = 0x4B68_756D_7361_0007;

const HISTORIES: usize = 200_000;

/// The most calls of a history.
const CALLS: usize = 200;

/// The answers that a shelf gives.
const ANSWERS: [u8; 20] = [
    0, 1, 2, 3, 4, 5, 6, 7, 8, 9, 10, 11, 12, 13, 14, 15, 16, 17, 46, 18,
];

fn number<T>(answer: Result<T, u8>) -> u8 {
    answer.err().unwrap_or(0)
}

/// The host writes on the store: often at the front of a berth, where a section may stand.
fn scribble(both: &mut Both, random: &mut Random) {
    let berth = random.below(PLACES * SECTIONS) * BERTH;
    let any = random.below(BERTH);
    let at = berth + random.pick(&[0, 7, 8, any]);
    let length = random.pick(&[1, 1, 8, 64]).min(STORE - at);
    both.scribble(at, &random.bytes(length));
}

/// The cases of the key that histories are to meet, each by what a call found or left.
const CASES: [&str; 22] = [
    "left two extensions of one service and start",
    "left two services of one extension and start",
    "left two starts of one service, high",
    "left two starts of one service, low",
    "left an NRT-IT beside another table of its extension",
    "offered, and began beside an NRT-IT of its extension",
    "offered, and no place for an NRT-IT of a held extension",
    "offered, and began again beside an NRT-IT of its extension",
    "offered, and other bytes of another table",
    "offered, and too short for its key",
    "loaded beside an NRT-IT of its extension",
    "loaded, and the NRT-IT was held",
    "loaded, and too short for its key",
    "another table where an NRT-IT's key stood",
    "an NRT-IT where another key's stood",
    "asked another table with numbers that mean nothing",
    "asked with the service of none",
    "asked with the start of none, high",
    "asked with the start of none, low",
    "asked one of two NRT-ITs of one extension",
    "released one of two NRT-ITs of one extension",
    "saved one of two NRT-ITs of one extension",
];

/// Whether two taken places have NRT-ITs of one extension.
fn siblings(record: &Record, extension: u16) -> bool {
    let here = |p: &&opinion::shelf::Place| {
        p.taken && (p.key.table_id, p.key.extension) == (NRT_IT, extension)
    };
    record.places.iter().filter(here).count() > 1
}

/// Notes what a record holds.
fn note_held(cases: &mut Cases, record: &Record) {
    let mut met = [false; 5];
    for (p, one) in record.places.iter().enumerate().filter(|(_, p)| p.taken) {
        for other in record.places[p + 1..].iter().filter(|p| p.taken) {
            let (one, other) = (one.key, other.key);
            let both = (one.table_id == NRT_IT, other.table_id == NRT_IT);
            let field = match both {
                (true, true) => keys::differ_in(one, other),
                _ => None,
            };
            met[0] |= field == Some("another extension");
            met[1] |= field == Some("another service");
            met[2] |= field == Some("another start, high");
            met[3] |= field == Some("another start, low");
            met[4] |= both.0 != both.1 && one.extension == other.extension;
        }
    }
    // The first five of them.
    met.iter()
        .zip(CASES)
        .for_each(|(met, case)| cases.note_if(*met, case));
}

/// Notes what a call met: it found one record and left another.
fn note_call(
    cases: &mut Cases,
    call: &Call,
    answer: Result<usize, u8>,
    [found, left]: [&Record; 2],
) {
    let nrt_it = |payload: &[u8]| match payload {
        [NRT_IT, _, _, high, low, ..] => Some(u16::from_be_bytes([*high, *low])),
        _ => None,
    };
    let held = |extension: u16| {
        let mut places = found.places.iter();
        places.any(|p| p.taken && (p.key.table_id, p.key.extension) == (NRT_IT, extension))
    };
    match (call, answer) {
        (Call::Offer(payload), answer) => match (nrt_it(payload), answer) {
            (Some(extension), Ok(1)) => cases.note_if(
                held(extension),
                "offered, and began beside an NRT-IT of its extension",
            ),
            (Some(extension), Err(9)) => cases.note_if(
                held(extension),
                "offered, and no place for an NRT-IT of a held extension",
            ),
            (Some(extension), Ok(2)) => cases.note_if(
                siblings(found, extension),
                "offered, and began again beside an NRT-IT of its extension",
            ),
            (None, Err(10)) => cases.note("offered, and other bytes of another table"),
            (_, Err(46)) => cases.note("offered, and too short for its key"),
            _ => {}
        },
        (Call::Load(file), Ok(_)) => {
            let key = opinion::file::table(file).expect("a file").key;
            let beside = key.table_id == NRT_IT && held(key.extension);
            cases.note_if(beside, "loaded beside an NRT-IT of its extension");
        }
        (Call::Load(file), Err(13)) => {
            let key = opinion::file::table(file).expect("a file").key;
            cases.note_if(key.table_id == NRT_IT, "loaded, and the NRT-IT was held");
        }
        (Call::Load(_), Err(46)) => cases.note("loaded, and too short for its key"),
        (
            Call::Complete(key)
            | Call::Missing(key)
            | Call::Copy { key, .. }
            | Call::Release(key)
            | Call::Save { key, .. },
            _,
        ) => note_asked(cases, for_them(*key), answer, call, found),
        _ => {}
    }
    // The rest of a key is written where a table begins.
    for (was, is) in found.places.iter().zip(&left.places) {
        if !was.taken && is.taken {
            let stood = (was.key.service_id, was.key.time_span_start);
            let stands = (is.key.service_id, is.key.time_span_start);
            let other = stood != (0, 0) && stood != stands;
            cases.note_if(
                other && is.key.table_id != NRT_IT,
                "another table where an NRT-IT's key stood",
            );
            cases.note_if(
                other && is.key.table_id == NRT_IT,
                "an NRT-IT where another key's stood",
            );
        }
    }
}

/// Notes a question: what was asked, and what is near it.
fn note_asked(
    cases: &mut Cases,
    key: keys::Key,
    answer: Result<usize, u8>,
    call: &Call,
    found: &Record,
) {
    let none = answer == Err(14);
    if key.table_id != NRT_IT {
        let numbers = (key.service_id, key.time_span_start) != (0, 0);
        cases.note_if(
            numbers && !none && answer != Err(17),
            "asked another table with numbers that mean nothing",
        );
        return;
    }
    let mut taken = found.places.iter().filter(|p| p.taken);
    let near = |field: &str| {
        let mut places = found.places.iter().filter(|p| p.taken);
        places.any(|p| keys::differ_in(p.key, key) == Some(field))
    };
    cases.note_if(
        none && near("another service"),
        "asked with the service of none",
    );
    cases.note_if(
        none && near("another start, high"),
        "asked with the start of none, high",
    );
    cases.note_if(
        none && near("another start, low"),
        "asked with the start of none, low",
    );
    let one_of_two = taken.any(|p| p.key == key) && siblings(found, key.extension);
    match call {
        _ if !one_of_two || answer.is_err() => {}
        Call::Release(_) => cases.note("released one of two NRT-ITs of one extension"),
        Call::Save { .. } => cases.note("saved one of two NRT-ITs of one extension"),
        _ => cases.note("asked one of two NRT-ITs of one extension"),
    }
}

#[test]
fn random_histories() {
    let mut random = Random::new(SEED);
    let (mut tally, mut spoils) = (Tally::default(), Tally::default());
    let (mut by_keys, mut cases) = (Tally::default(), Cases::default());
    let mut both = Both::new();
    let mut accepted = [0u64; 5];
    let mut littered = 0u64;
    let (mut scribbles, mut exact, mut short, mut full) = (0u64, 0u64, 0u64, 0u64);
    let mut saved: Vec<Vec<u8>> = Vec::new();
    for _ in 0..share(HISTORIES) {
        let way = Way::random(&mut random);
        saved.clear();
        // A shelf begins on whatever stands in the buffers, mostly what the history before left.
        assert_eq!(both.call(&Call::Begin, STORE), Ok(0));
        both.stores_agree();
        let calls =
            1 + random.below(CALLS) * random.below(CALLS) * random.below(CALLS) / (CALLS * CALLS);
        for _ in 0..calls {
            if way.scribbles && random.once_in(8) {
                scribble(&mut both, &mut random);
                scribbles += 1;
            }
            if random.once_in(50) {
                // What means nothing in a record is another, and the history goes on with it.
                litter(&mut random, &mut both.record);
                both.held = decode(&both.record);
                littered += 1;
            }
            let call = way.call(&mut random, &both.held, &saved);
            if random.once_in(40) {
                // A spoiled record, and some of them with a store that is none. What was lent is as it was after.
                let kept = (both.record, both.held);
                let how = random.pick(&SPOILS);
                both.record = spoil(&mut random, how, &both.record);
                both.held = decode(&both.record);
                let size = match random.below(8) {
                    0 => random.pick(&[0, 1, 1_024, STORE - 1, STORE + 1]),
                    _ => STORE,
                };
                let answer = both.call(&call, size);
                spoils.note(how, number(answer));
                let begin = matches!(call, Call::Begin);
                if SPOILS[NAMED].contains(&how) && size == STORE && !begin {
                    assert_eq!(answer, Err(18), "{how}: {call:?} on {:?}", both.record);
                }
                if SPOILS[APART].contains(&how) {
                    assert_ne!(answer, Err(18), "{how}: {call:?} on {:?}", both.record);
                }
                (both.record, both.held) = kept;
            }
            let any = random.below(STORE);
            let size = match random.below(200) {
                0 => random.pick(&[0, 1, STORE - 1, STORE + 1, any]),
                _ => STORE,
            };
            // What stands in the rest of a free place's key, which a record keeps and the independent program does not.
            let found = decode(&both.record);
            let answer = both.call(&call, size);
            tally.note(call.name(), number(answer));
            by_keys.note(way.of, number(answer));
            note_call(&mut cases, &call, answer, [&found, &both.held]);
            note_held(&mut cases, &both.held);
            match (&call, answer) {
                (Call::Offer(_), Ok(did)) => accepted[did] += 1,
                (Call::Save { .. }, Ok(size)) if saved.len() < 4 => {
                    saved.push(both.out[..size].to_vec());
                }
                _ => {}
            }
            match (&call, answer) {
                (Call::Copy { room, .. } | Call::Save { room, .. }, Ok(size)) => {
                    exact += u64::from(size == *room);
                }
                (Call::Copy { .. } | Call::Save { .. }, Err(15)) => short += 1,
                _ => {}
            }
            full += u64::from(both.held.places.iter().all(|p| p.taken));
            if random.once_in(64) {
                both.stores_agree();
            }
        }
        both.stores_agree();
    }
    println!(
        "offers: {} began, {} began again, {} added, {} repeats; {full} calls left four tables; \
         outputs: {exact} exact, {short} too small; {scribbles} scribbles; {littered} times other leftovers",
        accepted[1], accepted[2], accepted[3], accepted[4]
    );
    let [held, none, room, size, spoiled] = both.tables;
    println!(
        "places asked after each call: {held} tables, {none} answered 14, {room} 15, {size} 17, {spoiled} 18"
    );
    both.tables.iter().for_each(|n| common(*n, 10_000));
    accepted[1..].iter().for_each(|n| common(*n, 10_000));
    common(exact.min(scribbles).min(full), 10_000);
    common(short, 1_000);
    tally.show(
        &format!(
            "{} histories of 1 to {CALLS} calls, seed {SEED:#018X}",
            share(HISTORIES)
        ),
        // Records as they were left are never spoiled.
        &ANSWERS[..19],
    );
    by_keys.show("the same calls by the history's keys", &ANSWERS[..19]);
    for (of, six) in keys::SETS {
        // Those of one table that differ in their bodies are refused 10, and what is too short for its key 46.
        common(by_keys.met(of, 10), 1_000);
        let nrt_its = six.iter().any(|key| key.table_id == NRT_IT);
        common(if nrt_its { by_keys.met(of, 46) } else { 1_000 }, 1_000);
    }
    cases.show("calls that met a case of the key", &CASES, 1_000);
    spoils.show(
        "calls on records that were spoiled between two of them",
        &ANSWERS,
    );
    for how in &SPOILS[NAMED] {
        common(spoils.met(how, 18), 1_000);
    }
    for how in &SPOILS[APART] {
        common(spoils.met(how, 0), 1_000);
    }
}

/// Keys that differ in one number or in none, of any table: the wrapper calls equal what the independent program calls one key,
/// hashes it alike and orders it so, and prints the numbers that tell it from others.
#[test]
fn equal_keys() {
    let mut random = Random::new(SEED);
    let mut cases = Cases::default();
    let hash = |key: Key| {
        let mut hasher = DefaultHasher::new();
        key.hash(&mut hasher);
        hasher.finish()
    };
    for _ in 0..share(400_000) {
        let one = keys::any(&mut random);
        for field in keys::FIELDS {
            let other = keys::another(&mut random, field, one);
            let same = one.proper() == other.proper();
            let (a, b) = (for_us(one), for_us(other));
            assert_eq!((a == b, b == a), (same, same), "{one:?} and {other:?}");
            assert_eq!(a.cmp(&b).is_eq(), same, "{one:?} and {other:?}");
            assert_eq!(a.cmp(&b), b.cmp(&a).reverse());
            assert!(hash(a) == hash(b) || !same, "{one:?} and {other:?}");
            assert_eq!(a.to_string() == b.to_string(), same);
            let case = match (one.table_id == NRT_IT, same) {
                (true, _) => "an NRT-IT's",
                (_, true) => "another table's, and equal",
                (_, false) => "another table's, and not equal",
            };
            cases.note(case);
        }
        let key = one.proper();
        let made = Key::of(
            one.table_id,
            one.extension,
            one.service_id,
            one.time_span_start,
        );
        assert!(keys::answered(made, key) && made == for_us(one), "{one:?}");
        let added = format!(" service {} start {}", key.service_id, key.time_span_start);
        let added = if key.table_id == NRT_IT {
            added
        } else {
            String::new()
        };
        let line = format!("table {} key {}{added}", key.table_id, key.extension);
        assert_eq!(for_us(one).to_string(), line);
    }
    cases.show(
        &format!("pairs of keys, seed {SEED:#018X}"),
        &[
            "an NRT-IT's",
            "another table's, and equal",
            "another table's, and not equal",
        ],
        100_000,
    );
}

/// Whose rest of a key is changed.
const RESTS: [&str; 3] = ["an NRT-IT's", "another table's", "a free place's"];

/// Records that hold the same with other leftovers, and records in which one number is another, sound and spoiled.
#[test]
fn equal_records() {
    let mut random = Random::new(SEED);
    let mut both = Both::new();
    let mut counts = [[0u64; 2]; 4];
    let mut cases = Cases::default();
    for _ in 0..share(20_000) {
        let way = Way::random(&mut random);
        assert_eq!(both.call(&Call::Begin, STORE), Ok(0));
        for _ in 0..random.below(40) {
            let call = way.call(&mut random, &both.held, &[]);
            let _ = both.call(&call, STORE);
        }
        let store = &both.store[..STORE];
        let mut other = both.record;
        litter(&mut random, &mut other);
        let same = equal(&both.record, &other, store);
        assert!(same, "{:?} and {other:?}", both.record);
        counts[0][usize::from(same)] += 1;
        // One number is another, beside the record itself and beside the same with other leftovers.
        for at in 0..RECORD {
            let mut changed = other;
            changed[at] = match random.below(3) {
                0 => random.word() as u16,
                1 => changed[at].wrapping_add(random.pick(&[1, u16::MAX, 256])),
                _ => changed[at] ^ 1 << random.below(16),
            };
            let against = random.pick(&[both.record, other]);
            let same = equal(&against, &changed, store);
            counts[1][usize::from(same)] += 1;
            let place = (0..PLACES).find(|p| rest(*p).contains(&at));
            if let Some(place) = place.map(|p| both.held.places[p]) {
                let nrt_it = place.taken && place.key.table_id == NRT_IT;
                let case = match (nrt_it, place.taken) {
                    (true, _) => RESTS[0],
                    (_, true) => RESTS[1],
                    (_, false) => RESTS[2],
                };
                assert_eq!(
                    same,
                    !nrt_it || changed[at] == other[at],
                    "{case}: {changed:?}"
                );
                cases.note(case);
            }
        }
        // Spoiled records are equal to themselves, and to no sound one.
        let how = random.pick(&SPOILS);
        let spoiled = spoil(&mut random, how, &both.record);
        counts[2][usize::from(equal(&both.record, &spoiled, store))] += 1;
        let mut littered = spoiled;
        litter(&mut random, &mut littered);
        assert!(equal(&spoiled, &littered, store), "{how}: {spoiled:?}");
        littered[random.below(RECORD)] ^= 1 << random.below(16);
        counts[3][usize::from(equal(&spoiled, &littered, store))] += 1;
    }
    let rows = [
        "other leftovers",
        "one number changed",
        "one of them spoiled, or not",
        "a spoiled one and a number of it changed",
    ];
    for (row, [differ, same]) in rows.iter().zip(counts) {
        println!("records compared, {row}: {differ} differ, {same} are equal");
    }
    counts[1].iter().for_each(|n| common(*n, 100_000));
    cases.show(
        "of the numbers changed, those of a key's rest",
        &RESTS,
        1_000,
    );
    common(counts[2][0].min(counts[3][0]).min(counts[3][1]), 1_000);
}

/// A call of each kind.
fn each() -> Vec<Call> {
    let key = Key::new(201, 4_660);
    let section = vec![0xC9, 0x70, 0x05, 0x12, 0x34, 0xC7, 0x00, 0x00];
    let file = [&[1, 1, 8][..], &section].concat();
    let list = vec![0xDF, 0x70, 0x0B, 0x10, 1, 0xC7, 0, 0, 0, 7, 1, 2, 3, 4];
    let number = 0;
    let room = 20;
    vec![
        Call::Begin,
        Call::Offer(section),
        Call::Offer(list),
        Call::Complete(Key::nrt_it(4_097, 7, 0x0102_0304)),
        Call::Offer(Vec::new()),
        Call::Complete(key),
        Call::Missing(key),
        Call::Copy { key, number, room },
        Call::Release(key),
        Call::Save { key, room },
        Call::Load(file),
        Call::Load(Vec::new()),
    ]
}

/// Another number of numbers than 96 is no record: 18, where the store's size does not give 17.
#[test]
fn another_number_of_numbers() {
    let mut both = Both::new();
    assert_eq!(RECORD, 96);
    for count in (0..RECORD).chain(RECORD + 1..112) {
        for call in each() {
            for size in [STORE, 0, STORE - 1, STORE + 1] {
                both.call_with(count, &call, size);
            }
        }
    }
    both.stores_agree();
}

/// The largest tables are saved, and loaded on a shelf that then holds the same.
#[test]
fn the_largest_table() {
    largest(Key::new(255, 65_535));
    largest(Key::nrt_it(65_535, 65_535, u32::MAX));
}

fn largest(key: Key) {
    let mut random = Random::new(SEED);
    let mut both = Both::new();
    assert_eq!(both.call(&Call::Begin, STORE), Ok(0));
    for number in (0..16).rev() {
        let fields = trial::sections::Fields {
            key: for_them(key),
            version: 31,
            number,
            last: 15,
        };
        let section = trial::sections::section(&mut random, 1_024, fields);
        assert!(both.call(&Call::Offer(section), STORE).is_ok());
    }
    let room = LARGEST_FILE;
    assert_eq!(
        both.call(
            &Call::Save {
                key,
                room: room - 1
            },
            STORE
        ),
        Err(15)
    );
    assert_eq!(both.call(&Call::Save { key, room }, STORE), Ok(room));
    let file = both.out.clone();
    let held = (both.held, both.store.clone());
    assert_eq!(both.call(&Call::Load(file.clone()), STORE), Err(13));
    assert_eq!(both.call(&Call::Release(key), STORE), Ok(0));
    assert_eq!(both.call(&Call::Load(file), STORE), Ok(0));
    both.stores_agree();
    assert!(both.held == held.0 && both.store == held.1);
}
