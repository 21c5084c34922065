//! The bench's section writer: the library beside the independent program, and what is written offered to a shelf.

use khumsafil::shelf::{Accepted, Key, Shelf, LARGEST_FILE, LARGEST_SECTION, STORE};
use khumsafil::writer::{self as ours, Label, LARGEST_BODY};
use khumsafil::{section, Refusal};
use opinion::writer as theirs;
use trial::beside::writer as beside;
use trial::keys::{self, NRT_IT};
use trial::random::Random;
use trial::tally::{common, Tally};

/// The seed of every random comparison here.
const SEED: u64 = 0x4B68_756D_7361_0010;

/// In how many orders the sections of a body are offered.
const ORDERS: usize = 6;

/// Lengths of bodies: all small ones, and those around each multiple of a full body, up to one that is too long.
fn lengths() -> Vec<usize> {
    let around = (1..=16).flat_map(|n| n * theirs::BODY - 2..=n * theirs::BODY + 2);
    let mut all: Vec<_> = (0..=40).chain(around).collect();
    all.extend([16_300, 20_000, 40_000]);
    all
}

/// A label that every other time has a version above 31.
fn label(random: &mut Random) -> Label {
    labelled(random, None)
}

/// A label with that version, or any. One in four is an NRT-IT's.
fn labelled(random: &mut Random, version: Option<u8>) -> Label {
    let key = keys::for_us(keys::any(random));
    let any = random.byte() % 64;
    Label::new(key, version.unwrap_or(any))
}

/// A label of a table that can be written.
fn writable(random: &mut Random, version: u8) -> Label {
    loop {
        let label = labelled(random, Some(version));
        if label.key.table_id != NRT_IT {
            return label;
        }
    }
}

#[test]
fn every_section_of_bodies() {
    let mut random = Random::new(SEED);
    let (mut counts, mut tally) = (Tally::default(), Tally::default());
    for length in lengths() {
        for table_id in 0..=255 {
            let count = beside::count(table_id, length);
            counts.note("every table id", count.err().unwrap_or(0));
        }
        let last = beside::count(201, length).unwrap_or(16) - 1;
        let body = random.bytes(length);
        for label in [
            label(&mut random),
            label(&mut random),
            labelled(&mut random, Some(31)),
            labelled(&mut random, Some(32)),
            Label::new(Key::nrt_it(4_097, 7, keys::START), 3),
            Label::new(Key::new(NRT_IT, 4_097), 32),
        ] {
            for k in (0..=last + 1).chain([random.byte(), 255]) {
                // The section's size where there is one; a room that would do where there is none.
                let (most, _) = beside::section(label, &body, k, LARGEST_SECTION);
                let size = most.unwrap_or(LARGEST_SECTION);
                for (kind, room) in [
                    ("exact", size),
                    ("one short", size - 1),
                    ("one longer", size + 1),
                    ("none", 0),
                ] {
                    let (answer, _) = beside::section(label, &body, k, room);
                    tally.note(kind, answer.err().unwrap_or(0));
                }
            }
        }
    }
    for length in [LARGEST_BODY + 1, usize::MAX - 1, usize::MAX] {
        assert_eq!(beside::count(201, length), Err(40));
        assert_eq!(beside::count(NRT_IT, length), Err(59), "59 before 40");
    }
    let nrt_it = ours::count(NRT_IT, 0);
    assert_eq!(nrt_it, Err(Refusal::ASKED_FOR_NRT_IT));
    counts.show("lengths of bodies", &[0, 40, 59]);
    tally.show(
        &format!("sections written, seed {SEED:#018X}"),
        &[0, 15, 40, 41, 42, 59],
    );
    common(counts.of(59).min(tally.of(59)), 100);
}

/// Every fault of the writer beside the NRT-IT's id: 59 stands before the body's length, the version, k and the room.
#[test]
fn asked_for_an_nrt_it() {
    let mut random = Random::new(SEED);
    let mut tally = Tally::default();
    for length in lengths() {
        let body = random.bytes(length);
        for version in [0, 31, 32, 255] {
            let any = keys::any(&mut random);
            for key in [
                Key::nrt_it(any.extension, any.service_id, any.time_span_start),
                Key::new(NRT_IT, any.extension),
            ] {
                let label = Label::new(key, version);
                for k in [0, 1, 15, 16, 255] {
                    for room in [0, 8, LARGEST_SECTION] {
                        let (answer, _) = beside::section(label, &body, k, room);
                        assert_eq!(answer, Err(59), "{label:?}, {length} bytes, k {k}");
                        tally.note("section", 59);
                    }
                }
                for room in [0, 11, LARGEST_FILE] {
                    let (answer, _) = beside::file(label, &body, room);
                    assert_eq!(answer, Err(59), "{label:?}, {length} bytes");
                    tally.note("file", 59);
                }
            }
        }
    }
    tally.show("asked for an NRT-IT", &[59]);
}

/// The sections of one body are read as they were written.
fn read_back(label: Label, sections: &[Vec<u8>]) {
    for (k, bytes) in sections.iter().enumerate() {
        let read = section::read(bytes).expect("a sound section");
        assert_eq!((read.key, read.version), (label.key, label.version));
        assert_eq!(
            (usize::from(read.number), sections.len()),
            (k, usize::from(read.last) + 1)
        );
        let full = k + 1 == sections.len() || read.body.len() == theirs::BODY;
        assert!(full, "a body that is not full before the last");
    }
}

#[test]
fn offered_in_any_order() {
    let mut random = Random::new(SEED);
    let mut store = vec![0; STORE];
    let (mut offers, mut repeats, mut tables) = (0u64, 0u64, 0u64);
    for length in lengths().into_iter().filter(|n| *n <= LARGEST_BODY) {
        let body = random.bytes(length);
        let version = random.byte() % 32;
        let label = writable(&mut random, version);
        let key = label.key;
        let count = ours::count(key.table_id, length).expect("a body that is not too long");
        let sections: Vec<_> = (0..count)
            .map(|k| {
                let (answer, mut out) = beside::section(label, &body, k, LARGEST_SECTION);
                out.truncate(answer.expect("a section"));
                out
            })
            .collect();
        read_back(label, &sections);
        for _ in 0..ORDERS {
            let mut held = Shelf::begin(&mut store).expect("a store of the right size");
            let mut seen = vec![false; sections.len()];
            while !seen.iter().all(|s| *s) {
                let k = random.below(sections.len());
                let expected = match (seen[k], offers_began(&seen)) {
                    (true, _) => Accepted::Repeat,
                    (false, true) => Accepted::Added,
                    (false, false) => Accepted::Began,
                };
                assert_eq!(held.offer(&sections[k]), Ok(expected));
                seen[k] = true;
                offers += 1;
                repeats += u64::from(expected == Accepted::Repeat);
                let whole = seen.iter().all(|s| *s);
                assert_eq!(held.complete(key), Ok(whole));
                assert_eq!(held.is_complete(key), whole);
            }
            let mut joined = Vec::new();
            for number in 0..count {
                let mut out = [0; LARGEST_SECTION];
                let size = shelf_copy(&held, key, number, &mut out);
                joined.extend_from_slice(&out[section::HEADER..size]);
            }
            assert!(joined == body, "{length} bytes: the joined bodies");
            tables += 1;
        }
    }
    println!("{tables} tables complete after {offers} offers, {repeats} of them repeats, seed {SEED:#018X}");
    assert!(tables > 500 && repeats > 1_000);
}

/// Whether a section of the table was offered yet.
fn offers_began(seen: &[bool]) -> bool {
    seen.iter().any(|s| *s)
}

fn shelf_copy(held: &Shelf, key: Key, number: u8, out: &mut [u8]) -> usize {
    held.copy_section(key, number, out)
        .unwrap_or_else(|refusal| panic!("section {number}: {refusal}"))
}

/// The file of a body, with exact room, a byte less and a byte more, beside the file of the independent program's sections.
#[test]
fn files_of_bodies() {
    let mut random = Random::new(SEED);
    let mut store = vec![0; STORE];
    let mut tally = Tally::default();
    let mut loaded = 0u64;
    for length in lengths() {
        let body = random.bytes(length);
        let version = random.byte() % 32;
        for label in [
            writable(&mut random, version),
            labelled(&mut random, Some(version)),
            labelled(&mut random, Some(32)),
            label(&mut random),
        ] {
            let file = beside::their_file(label, &body);
            let size = file.as_ref().map_or(LARGEST_FILE, Vec::len);
            for (kind, room) in [
                ("exact", size),
                ("one short", size - 1),
                ("one longer", size + 1),
                ("none", 0),
            ] {
                let (answer, _) = beside::file(label, &body, room);
                tally.note(kind, answer.err().unwrap_or(0));
            }
            if let Ok(file) = file {
                let mut held = Shelf::begin(&mut store).expect("a store of the right size");
                let table = held.load(&file).expect("a sound file");
                assert_eq!((table.key, table.version), (label.key, label.version));
                assert_eq!(held.tables().collect::<Vec<_>>(), [table]);
                assert!(held.is_complete(label.key));
                assert!(opinion::lister::list(&file).ends_with("\ncomplete\n"));
                loaded += 1;
            }
        }
    }
    println!("{loaded} of the files were loaded and called complete");
    assert!(loaded > 100);
    tally.show(
        &format!("files of bodies, seed {SEED:#018X}"),
        &[0, 15, 40, 41, 59],
    );
}

/// Every value of each field of a label stands where the reader finds it.
#[test]
fn every_label() {
    let mut random = Random::new(SEED);
    let body = random.bytes(1_017);
    for number in 0..=u16::MAX {
        let label = Label::new(Key::new(number as u8, number), (number % 32) as u8);
        let (answer, out) = beside::section(label, &body, 1, 9);
        if number as u8 == NRT_IT {
            assert_eq!(answer, Err(59));
            continue;
        }
        assert_eq!(answer, Ok(9));
        let read = section::read(&out).expect("a sound section");
        assert_eq!(read.key, label.key);
        assert_eq!((read.version, read.body), (label.version, &body[1_016..]));
    }
    println!("65536 labels");
}
