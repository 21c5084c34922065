//! An ordinary keeper of the same tables, for timing beside others. It follows the
//! rules of document 01, "The shelf", with the key of document 02, request 4. It owns
//! its record, so it does not look whether that record is spoiled (18).

use crate::key::Key;
use crate::section::{self, Section};
use crate::shelf::{Accepted, BERTH, PLACES, SECTIONS, STORE};

struct Table {
    key: Key,
    version: u8,
    last: u8,
    /// Length 0 at a number: that number is not held.
    lengths: [u16; SECTIONS],
}

impl Table {
    fn begin(section: &Section) -> Self {
        Table {
            key: section.key(),
            version: section.version,
            last: section.last,
            lengths: [0; SECTIONS],
        }
    }
}

/// Four tables or fewer; their bytes stand in a lent store.
#[derive(Default)]
pub struct Keeper {
    tables: [Option<Table>; PLACES],
}

/// The berths of one place.
fn berths(store: &mut [u8], place: usize) -> &mut [u8] {
    let size = SECTIONS * BERTH;
    &mut store[place * size..(place + 1) * size]
}

/// One berth among the berths of a place.
fn berth(berths: &mut [u8], number: usize) -> &mut [u8] {
    &mut berths[number * BERTH..(number + 1) * BERTH]
}

/// Puts a section in its berth and notes its length.
fn put(table: &mut Table, berths: &mut [u8], number: usize, payload: &[u8]) {
    let (kept, rest) = berth(berths, number).split_at_mut(payload.len());
    kept.copy_from_slice(payload);
    rest.fill(0);
    table.lengths[number] = payload.len() as u16;
}

impl Keeper {
    pub fn new() -> Self {
        Self::default()
    }

    /// Offers a payload. Refusals: 17, 1 to 8 rising, 46, 9, 10.
    pub fn offer(&mut self, store: &mut [u8], payload: &[u8]) -> Result<Accepted, u8> {
        if store.len() != STORE {
            return Err(17);
        }
        let section = section::read(payload)?;
        let key = section.key();
        let number = usize::from(section.number);

        let mut free = None;
        for (place, slot) in self.tables.iter_mut().enumerate() {
            match slot {
                Some(table) if table.key == key => {
                    return Self::hear(table, berths(store, place), &section, number, payload);
                }
                Some(_) => {}
                None if free.is_none() => free = Some(place),
                None => {}
            }
        }

        let place = free.ok_or(9)?;
        let table = self.tables[place].insert(Table::begin(&section));
        put(table, berths(store, place), number, payload);
        Ok(Accepted::Began)
    }

    /// A sound section of a held table.
    fn hear(
        table: &mut Table,
        berths: &mut [u8],
        section: &Section,
        number: usize,
        payload: &[u8],
    ) -> Result<Accepted, u8> {
        if table.version != section.version {
            for (held, &length) in table.lengths.iter().enumerate() {
                if length != 0 {
                    berth(berths, held).fill(0);
                }
            }
            *table = Table::begin(section);
            put(table, berths, number, payload);
            return Ok(Accepted::BeganAgain);
        }
        if table.last != section.last {
            return Err(10);
        }
        let length = usize::from(table.lengths[number]);
        if length == 0 {
            put(table, berths, number, payload);
            return Ok(Accepted::Added);
        }
        if berth(berths, number)[..length] == *payload {
            Ok(Accepted::Repeat)
        } else {
            Err(10)
        }
    }
}

#[cfg(test)]
mod tests {
    use super::*;
    use crate::shelf;
    use crate::testing::{self, Dice};

    #[test]
    fn a_store_of_another_size_is_17() {
        assert_eq!(Keeper::new().offer(&mut [0; 10], &[]), Err(17));
    }

    #[test]
    fn it_agrees_with_the_shelf() {
        let mut dice = Dice(0xBEEF);
        for _ in 0..20 {
            let mut keeper = Keeper::new();
            let mut record = shelf::fresh();
            let (mut ours, mut theirs) = (vec![0; STORE], vec![0; STORE]);
            for _ in 0..400 {
                let last = 1 + dice.below(20) as u8 / 10 * 14;
                let number = dice.below(usize::from(last) + 2) as u8;
                let size = dice.below(3) * 508;
                let mut payload = testing::section(
                    dice.below(3) as u8,
                    dice.below(2) as u16,
                    (dice.below(30) == 0) as u8,
                    number,
                    last,
                    &vec![number; size],
                );
                if dice.below(20) == 0 {
                    payload.pop();
                }
                assert_eq!(
                    keeper.offer(&mut ours, &payload),
                    shelf::offer(&mut record, &mut theirs, &payload)
                );
                assert!(ours == theirs);
            }
        }
    }

    #[test]
    fn it_agrees_with_the_shelf_on_nrt_its() {
        let mut dice = Dice(0xFEED);
        for _ in 0..20 {
            let mut keeper = Keeper::new();
            let mut record = shelf::fresh();
            let (mut ours, mut theirs) = (vec![0; STORE], vec![0; STORE]);
            for _ in 0..400 {
                // Eight keys of the NRT-IT, or one of another table.
                let key = (
                    dice.below(2) as u16,
                    dice.below(2) as u16,
                    dice.below(2) as u32 * 3600,
                );
                let number = dice.below(3) as u8;
                let size = dice.below(3) * 500;
                let version = (dice.below(30) == 0) as u8;
                let mut payload = testing::nrt_it(key, version, number, 2, &vec![number; size]);
                match dice.below(20) {
                    0..=3 => payload[0] = 0xE1,
                    4 => {
                        let size = 8 + dice.below(7);
                        payload.truncate(size);
                        (payload[1], payload[2]) = (0x70, (size - 3) as u8);
                    }
                    _ => {}
                }
                assert_eq!(
                    keeper.offer(&mut ours, &payload),
                    shelf::offer(&mut record, &mut theirs, &payload)
                );
                assert!(ours == theirs);
            }
        }
    }
}
