//! The shelf.

use crate::keys::{answered, for_them};
use crate::shelf::{begun, decode, promised, rest_of, shown, Call};
use khumsafil::shelf::{self as ours, lent, Shelf, RECORD, STORE, TABLE_FIELDS};
use khumsafil::Refusal;
use opinion::shelf::{self as theirs, Record, BERTH, PLACES, SECTIONS};

/// What the bytes of an output are before a call, and the numbers.
pub const UNWRITTEN: u8 = 0xA5;
const UNWRITTEN_NUMBER: u16 = 0xABCD;

/// The places that are asked for their tables after each call: those of a shelf and two that there are not.
const ASKED: u8 = 6;

/// What an accepted call says, in one number.
fn said(accepted: theirs::Accepted) -> usize {
    match accepted {
        theirs::Accepted::Began => 1,
        theirs::Accepted::BeganAgain => 2,
        theirs::Accepted::Added => 3,
        theirs::Accepted::Repeat => 4,
    }
}

/// The lowest missing number, or 99.
fn missing(number: Option<u8>) -> usize {
    number.map_or(99, usize::from)
}

/// The numbers that a table is answered in.
pub fn fields(table: &theirs::Table) -> [u16; TABLE_FIELDS] {
    let mut fields = [0; TABLE_FIELDS];
    fields[0] = table.key.table_id.into();
    fields[1] = table.key.extension;
    fields[2..5].copy_from_slice(&rest_of(table.key));
    fields[5] = table.version.into();
    fields[6] = table.last.into();
    fields[7..].copy_from_slice(&table.lengths);
    fields
}

/// Whether the two tables are one.
pub fn same_table(ours: &ours::Table, other: &theirs::Table) -> bool {
    let held = |n: u8| other.lengths.get(usize::from(n)).copied().unwrap_or(0);
    let missing = || (0..=other.last).filter(|n| held(*n) == 0);
    // Those past a table's numbers are not held.
    let mut asked = (0..SECTIONS as u8 + 2).chain([128, 255]);
    answered(ours.key, other.key)
        && (ours.version, ours.last) == (other.version, other.last)
        && ours.lengths == other.lengths
        && ours.missing().eq(missing())
        && ours.is_complete() == (missing().count() == 0)
        && asked.all(|n| {
            let length = ours.length(n).unwrap_or(0);
            ours.holds(n) == (length > 0) && length == usize::from(held(n))
        })
}

/// A call by the library over a record and a store that are lent.
fn our_call(
    record: &mut [u16],
    store: &mut [u8],
    call: &Call,
    out: &mut [u8],
) -> Result<usize, Refusal> {
    match call {
        Call::Begin => lent::begin(record, store).map(|()| 0),
        Call::Offer(payload) => lent::offer(record, store, payload).map(|did| did as usize),
        Call::Complete(key) => {
            let answer = lent::complete(record, store, *key);
            let lamp = lent::is_complete(record, store, *key);
            assert_eq!(lamp, answer == Ok(true), "{call:?} on {record:?}");
            answer.map(usize::from)
        }
        Call::Missing(key) => lent::lowest_missing(record, store, *key).map(missing),
        Call::Copy { key, number, .. } => lent::copy_section(record, store, *key, *number, out),
        Call::Release(key) => lent::release(record, store, *key).map(|()| 0),
        Call::Save { key, .. } => lent::save(record, store, *key, out),
        Call::Load(file) => lent::load(record, store, file).map(|()| 0),
    }
}

/// The same on a [`Shelf`] that is begun or resumed for the call.
fn our_shelf(
    record: &mut [u16; RECORD],
    store: &mut [u8],
    call: &Call,
    out: &mut [u8],
) -> Result<usize, Refusal> {
    let mut shelf = match call {
        Call::Begin => Shelf::begin(store)?,
        _ => Shelf::resume((*record).into(), store)?,
    };
    let answer = match call {
        Call::Begin => Ok(0),
        Call::Offer(payload) => shelf.offer(payload).map(|did| did as usize),
        Call::Complete(key) => {
            let answer = shelf.complete(*key);
            assert_eq!(shelf.is_complete(*key), answer == Ok(true), "{call:?}");
            answer.map(usize::from)
        }
        Call::Missing(key) => shelf.lowest_missing(*key).map(missing),
        Call::Copy { key, number, .. } => shelf.copy_section(*key, *number, out),
        Call::Release(key) => shelf.release(*key).map(|()| 0),
        Call::Save { key, .. } => shelf.save(*key, out),
        Call::Load(file) => shelf.load(file).map(|table| {
            let other = opinion::file::table(file).expect("a file that was loaded");
            assert!(same_table(&table, &other), "{table:?} is not {other:?}");
            assert!(shelf.tables().any(|held| held == table), "{table:?}");
            0
        }),
    };
    let (after, _) = shelf.into_parts();
    *record = *after.numbers();
    answer
}

/// An answer in one number. Two results are compared by it: of a refused one there is no value to look at, and code that compares
/// both parts at once is reported by a checker of memory.
fn flat(answer: Result<usize, u8>) -> usize {
    match answer {
        Ok(said) => 256 + said,
        Err(number) => number.into(),
    }
}

/// A call by the independent program.
fn their_call(
    record: &mut Record,
    store: &mut [u8],
    call: &Call,
    out: &mut [u8],
) -> Result<usize, u8> {
    match call {
        Call::Begin if store.len() != STORE => Err(17),
        Call::Begin => {
            *record = theirs::fresh();
            store.fill(0);
            Ok(0)
        }
        Call::Offer(payload) => theirs::offer(record, store, payload).map(said),
        Call::Complete(k) => theirs::complete(record, store, for_them(*k)).map(usize::from),
        Call::Missing(k) => theirs::lowest_missing(record, store, for_them(*k)).map(missing),
        Call::Copy { key: k, number, .. } => {
            theirs::copy_section(record, store, for_them(*k), *number, out)
        }
        Call::Release(k) => theirs::release(record, store, for_them(*k)).map(|()| 0),
        Call::Save { key: k, .. } => opinion::file::save(record, store, for_them(*k), out),
        Call::Load(file) => opinion::file::load(record, store, file).map(|()| 0),
    }
}

/// Buffers that last over all histories. The stores have a byte more than a store, so that more can be lent. The library
/// is called over what is lent and through [`Shelf`] by turns.
pub struct Both {
    /// The record as the library has it.
    pub record: [u16; RECORD],
    pub store: Vec<u8>,
    /// The record as the independent program has it.
    pub held: Record,
    pub other: Vec<u8>,
    pub out: Vec<u8>,
    other_out: Vec<u8>,
    calls: usize,
    /// How often the question of which table is in a place was answered by a table, 14, 15, 17 and 18.
    pub tables: [u64; 5],
}

impl Both {
    /// Buffers with anything in them, which are no shelf yet.
    pub fn new() -> Both {
        Both {
            record: [0xFFFF; RECORD],
            store: vec![0x11; STORE + 1],
            held: theirs::fresh(),
            other: vec![0x11; STORE + 1],
            out: Vec::new(),
            other_out: Vec::new(),
            calls: 0,
            tables: [0; 5],
        }
    }

    /// Every byte of both stores.
    pub fn stores_agree(&self) {
        assert!(self.store == self.other, "the stores");
    }

    /// Asks both which table is in each place, and compares every number that was lent for it.
    fn tables_agree(&mut self, size: usize) {
        let (record, store) = (&self.record, &self.store[..size]);
        for place in 0..ASKED {
            let other = theirs::table(&self.held, &self.other[..size], place);
            let answer = lent::table(record, store, place).map_err(Refusal::number);
            let same = match (&answer, &other) {
                (Ok(a), Ok(b)) => same_table(a, b),
                (Err(a), Err(b)) => a == b,
                _ => false,
            };
            assert!(same, "{place} of {record:?}: {answer:?} is not {other:?}");
            // Room that is exact, more, or too little.
            let room = match self.calls % 4 {
                0 => self.calls / 4 % TABLE_FIELDS,
                more => TABLE_FIELDS + more - 1,
            };
            let mut given = [UNWRITTEN_NUMBER; TABLE_FIELDS + 2];
            let answer = lent::table_fields(record, store, place, &mut given[..room]);
            let number = match other {
                Err(number) => number,
                Ok(_) if room < TABLE_FIELDS => 15,
                Ok(_) => 0,
            };
            let answer = answer.map_err(Refusal::number).err().unwrap_or(0);
            assert_eq!(answer, number, "{place} of {record:?}, room {room}");
            let written = if number == 0 { TABLE_FIELDS } else { 0 };
            if let (0, Ok(table)) = (number, &other) {
                assert_eq!(
                    given[..TABLE_FIELDS],
                    fields(table),
                    "{place} of {record:?}"
                );
            }
            let kept = given[written..].iter().all(|n| *n == UNWRITTEN_NUMBER);
            assert!(kept, "{place} of {record:?}, room {room}: past the answer");
            let met = [0, 14, 15, 17, 18].iter().position(|n| *n == number);
            self.tables[met.expect("an answer of this question")] += 1;
        }
    }

    /// Makes a call on both sides with a store of `size` bytes, compares all but the store's untouched places, and
    /// gives what was answered.
    pub fn call(&mut self, call: &Call, size: usize) -> Result<usize, u8> {
        let room = match call {
            Call::Copy { room, .. } | Call::Save { room, .. } => *room,
            _ => 0,
        };
        for out in [&mut self.out, &mut self.other_out] {
            out.clear();
            out.resize(room, UNWRITTEN);
        }
        let before = self.record;
        let held = self.held;
        self.calls += 1;
        let (store, out) = (&mut self.store[..size], &mut self.out);
        let answer = match self.calls % 2 {
            0 => our_shelf(&mut self.record, store, call, out),
            _ => our_call(&mut self.record, store, call, out),
        };
        let answer = answer.map_err(Refusal::number);
        let other = their_call(
            &mut self.held,
            &mut self.other[..size],
            call,
            &mut self.other_out,
        );
        assert_eq!(
            flat(answer),
            flat(other),
            "{call:?} on {before:?}: {answer:?} is not {other:?}"
        );
        assert!(self.out == self.other_out, "{call:?} on {before:?}: output");
        self.tables_agree(size);
        let repeat = matches!(call, Call::Offer(_)) && flat(other) == flat(Ok(4));
        if other.is_err() || repeat {
            assert_eq!(self.record, before, "{call:?}: the record of no change");
            return other;
        }
        let after = match call {
            Call::Begin => begun(),
            _ => promised(&before, &held, &self.held),
        };
        assert_eq!(self.record, after, "{call:?} on {before:?}");
        let now = decode(&self.record);
        assert!(
            theirs::equal(&now, &self.held),
            "{call:?} on {before:?}: {now:?} is not {:?}",
            self.held
        );
        // The places whose numbers changed are those whose berths may have.
        for p in 0..PLACES {
            if self.held.places[p] != held.places[p] {
                let berths = p * SECTIONS * BERTH..(p + 1) * SECTIONS * BERTH;
                let same = self.store[berths.clone()] == self.other[berths];
                assert!(same, "{call:?} on {before:?}: berths of place {p}");
            }
        }
        other
    }

    /// Makes a call with another number of numbers than a record's: 18 where the store's size does not give 17, and all
    /// stays as it was.
    pub fn call_with(&mut self, count: usize, call: &Call, size: usize) {
        assert_ne!(count, RECORD);
        let mut record = vec![0x0101; count];
        let room = match call {
            Call::Copy { room, .. } | Call::Save { room, .. } => *room,
            _ => 0,
        };
        let mut out = vec![UNWRITTEN; room];
        let answer = our_call(&mut record, &mut self.store[..size], call, &mut out);
        let refusal = match size {
            STORE => Refusal::SHELF_SPOILED,
            _ => Refusal::STORE_SIZE,
        };
        assert_eq!(answer, Err(refusal), "{call:?}, {count} numbers");
        assert!(record.iter().all(|n| *n == 0x0101), "{call:?}");
        assert!(out.iter().all(|b| *b == UNWRITTEN), "{call:?}");
        for place in 0..ASKED {
            let mut given = [UNWRITTEN_NUMBER; TABLE_FIELDS];
            let answer = lent::table_fields(&record, &self.store[..size], place, &mut given);
            assert_eq!(answer, Err(refusal), "{place}, {count} numbers");
            assert_eq!(given, [UNWRITTEN_NUMBER; TABLE_FIELDS], "{place}");
        }
    }

    /// The host writes the same on both stores.
    pub fn scribble(&mut self, at: usize, bytes: &[u8]) {
        for store in [&mut self.store, &mut self.other] {
            store[at..at + bytes.len()].copy_from_slice(bytes);
        }
    }
}

/// Whether two records are equal, by both. Where the tables of each can be asked, they are the same exactly then.
pub fn equal(a: &[u16; RECORD], b: &[u16; RECORD], store: &[u8]) -> bool {
    let (one, two) = (ours::Record::from(*a), ours::Record::from(*b));
    let same = one == two;
    assert_eq!(two == one, same, "{a:?} and {b:?}");
    let (again_one, again_two) = (ours::Record::from(*a), ours::Record::from(*b));
    assert!(one == again_one && two == again_two, "a record is itself");
    if shown(a) || shown(b) {
        let (a, b) = (decode(a), decode(b));
        let other = (theirs::equal(&a, &b), theirs::equal(&b, &a));
        assert_eq!((same, same), other, "{a:?} and {b:?}");
    }
    let tables = |record: &[u16; RECORD]| {
        let places = (0..PLACES as u8).map(|place| lent::table(record, store, place));
        let all: Vec<_> = places.collect();
        let spoiled = all.contains(&Err(Refusal::SHELF_SPOILED));
        (!spoiled).then_some(all)
    };
    match (tables(a), tables(b)) {
        (Some(a), Some(b)) => assert_eq!(a == b, same, "{a:?} and {b:?}"),
        (None, None) => {}
        // A spoiled record is no other's equal.
        _ => assert!(!same, "{a:?} and {b:?}"),
    }
    same
}
