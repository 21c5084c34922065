//! The shelf and its files.

use crate::timing::race;
use crate::{Table, SEED};
use khumsafil::shelf::{lent, Shelf, LARGEST_FILE, RECORD, STORE};
use std::hint::black_box;
use trial::keys::{for_us, Key, NRT_IT, START};
use trial::random::Random;
use trial::sections::{section, Fields};

/// The carousel and the file of the goals.
pub fn table() -> Table {
    let mut table = Table::new(
        "The shelf and its files",
        "Offers are 1,280 of four full tables of sixteen: each of two versions ten times over, so that nine in ten are repeats.\n\
         The store is never cleared. Offers are timed beside the ordinary keeper, which owns its record and does not look whether it is spoiled;\n\
         files, of the largest table, beside the independent program.",
    );
    table.row("offer of 64 bytes", || offers(old_key, 4, 16, 64));
    table.row("offer of 1,024 bytes", || offers(old_key, 4, 16, 1_024));
    table.row("load of 16,418 bytes", || loads(16, 1_024));
    table.row("save of 16,418 bytes", || saves(16, 1_024));
    table
}

/// The keys of the tables of a carousel, by their number.
type Keys = fn(u16) -> Key;

/// Tables of another id, which differ in the extension.
fn old_key(table: u16) -> Key {
    Key::new(201, table, 0, 0)
}

/// NRT-ITs that differ in the extension.
fn by_extension(table: u16) -> Key {
    Key::new(NRT_IT, table, 7, START)
}

/// NRT-ITs that share the extension and differ in the service.
fn by_service(table: u16) -> Key {
    Key::new(NRT_IT, 0, 7 + table, START)
}

/// What the wider key costs.
pub fn by_key() -> Table {
    let mut table = Table::beside_the_keeper(
        "Offers by the key",
        "As above: four full tables of sixteen, nine in ten repeats. The tables are of another id than the NRT-IT's and differ in the\n\
         extension, or they are NRT-ITs that differ in the extension, or NRT-ITs that share the extension and differ in the service.",
    );
    for (what, keys) in [
        ("another id", old_key as Keys),
        ("NRT-ITs by extension", by_extension),
        ("NRT-ITs by service", by_service),
    ] {
        for (size, bytes) in [(64, "64"), (1_024, "1,024")] {
            let name = format!("{what}, {bytes} bytes");
            table.row(&name, move || offers(keys, 4, 16, size));
        }
    }
    table
}

/// How an offer's cost grows with the section's length.
pub fn by_length() -> Table {
    let mut table = Table::beside_the_keeper(
        "Offers by the section's length",
        "As above: four full tables of sixteen, nine in ten repeats.",
    );
    for size in [8, 64, 256, 512, 1_024] {
        table.row(&format!("{size} bytes"), move || {
            offers(old_key, 4, 16, size)
        });
    }
    table
}

/// How an offer's cost grows with the number of sections and of tables.
pub fn by_table() -> Table {
    let mut table = Table::beside_the_keeper(
        "Offers by the table's size",
        "Sections of 64 bytes; each of two versions ten times over, so that nine in ten are repeats.",
    );
    for tables in [1, 4] {
        for sections in [1, 4, 16] {
            let name = format!("{tables} of {sections}");
            table.row(&name, move || offers(old_key, tables, sections, 64));
        }
    }
    table
}

/// How a load's and a save's cost grow with the table.
pub fn files_by_table() -> Table {
    let mut table = Table::new(
        "Loads and saves by the table's size",
        "Sections of 1,024 bytes and of 64.",
    );
    for size in [64, 1_024] {
        for sections in [1, 4, 16] {
            let of = format!("{sections} of {size} bytes");
            table.row(&format!("load {of}"), move || loads(sections, size));
            table.row(&format!("save {of}"), move || saves(sections, size));
        }
    }
    table
}

#[inline(never)]
fn their_shelf(
    keeper: &mut opinion::keeper::Keeper,
    store: &mut [u8],
    payload: &[u8],
) -> Result<opinion::shelf::Accepted, u8> {
    keeper.offer(store, payload)
}

#[inline(never)]
fn their_load(
    record: &mut opinion::shelf::Record,
    store: &mut [u8],
    file: &[u8],
) -> Result<(), u8> {
    opinion::file::load(record, store, file)
}

#[inline(never)]
fn their_save(
    record: &opinion::shelf::Record,
    store: &[u8],
    key: Key,
    out: &mut [u8],
) -> Result<usize, u8> {
    opinion::file::save(record, store, key, out)
}

/// Full tables in two versions, each version sent ten times over: nine offers in ten are repeats.
fn carousel(
    random: &mut Random,
    keys: Keys,
    tables: u16,
    sections: u16,
    size: usize,
) -> Vec<Vec<u8>> {
    let mut offers = Vec::new();
    for version in 0..2 {
        let all: Vec<_> = (0..tables * sections)
            .map(|i| {
                let fields = Fields {
                    key: keys(i / sections),
                    version,
                    number: (i % sections) as u8,
                    last: sections as u8 - 1,
                };
                section(random, size, fields)
            })
            .collect();
        (0..10).for_each(|_| offers.extend_from_slice(&all));
    }
    offers
}

/// Offers a carousel over and over to one shelf, whose store is never cleared.
fn offers(keys: Keys, tables: u16, sections: u16, size: usize) -> (f64, f64) {
    use khumsafil::shelf::Accepted;
    let list = carousel(&mut Random::new(SEED), keys, tables, sections, size);
    let (mut ours, mut theirs) = (vec![0; STORE], vec![0; STORE]);
    let mut shelf = Shelf::begin(&mut ours).expect("a store");
    let mut keeper = opinion::keeper::Keeper::new();
    let repeats = list.iter().filter(|payload| {
        let answer = shelf.offer(payload).expect("a section");
        their_shelf(&mut keeper, &mut theirs, payload).expect("a section");
        answer == Accepted::Repeat
    });
    assert_eq!(repeats.count(), list.len() / 10 * 9);
    let timed = race(
        list.len(),
        // As many offers in a run, whatever the tables are.
        1_280 / list.len(),
        || {
            for payload in &list {
                let _ = black_box(shelf.offer(black_box(payload)));
            }
        },
        || {
            for payload in &list {
                let _ = black_box(their_shelf(&mut keeper, &mut theirs, black_box(payload)));
            }
        },
    );
    assert!(*shelf.store() == theirs, "the stores");
    timed
}

const KEY: Key = Key::new(201, 4_660, 0, 0);

/// A full table on both sides, and its file.
struct Held {
    fresh: [u16; RECORD],
    full: [u16; RECORD],
    ours: Vec<u8>,
    record: opinion::shelf::Record,
    theirs: Vec<u8>,
    file: Vec<u8>,
}

fn held(sections: u8, size: usize) -> Held {
    let random = &mut Random::new(SEED);
    let (mut ours, mut theirs) = (vec![0; STORE], vec![0; STORE]);
    let mut fresh = [0; RECORD];
    lent::begin(&mut fresh, &mut ours).expect("a store");
    let mut full = fresh;
    for number in 0..sections {
        let fields = Fields {
            key: KEY,
            version: 3,
            number,
            last: sections - 1,
        };
        let payload = section(random, size, fields);
        lent::offer(&mut full, &mut ours, &payload).expect("a section");
    }
    let mut file = vec![0; LARGEST_FILE];
    let length = lent::save(&full, &ours, for_us(KEY), &mut file).expect("room");
    file.truncate(length);
    let mut record = opinion::shelf::fresh();
    opinion::file::load(&mut record, &mut theirs, &file).expect("a file");
    Held {
        fresh,
        full,
        ours,
        record,
        theirs,
        file,
    }
}

fn loads(sections: u8, size: usize) -> (f64, f64) {
    let Held {
        fresh,
        mut full,
        mut ours,
        mut record,
        mut theirs,
        file,
    } = held(sections, size);
    let timed = race(
        1,
        20,
        || {
            full = fresh;
            assert!(black_box(lent::load(&mut full, &mut ours, black_box(&file))).is_ok());
        },
        || {
            record = opinion::shelf::fresh();
            assert!(black_box(their_load(&mut record, &mut theirs, black_box(&file))).is_ok());
        },
    );
    assert!(ours == theirs, "the stores");
    timed
}

fn saves(sections: u8, size: usize) -> (f64, f64) {
    let Held {
        full,
        ours,
        record,
        theirs,
        file,
        ..
    } = held(sections, size);
    let (mut out, mut other) = (file.clone(), file.clone());
    let key = for_us(KEY);
    let timed = race(
        1,
        20,
        || assert!(black_box(lent::save(&full, black_box(&ours), key, &mut out)).is_ok()),
        || {
            let saved = their_save(&record, black_box(&theirs), KEY, &mut other);
            assert!(black_box(saved).is_ok());
        },
    );
    assert!(out == file && other == file, "the files");
    timed
}
