//! A shelf's record by itself.

use super::{PLACES, RECORD, SECTIONS};
use crate::Key;

/// A shelf's record, apart from its store: [`RECORD`] numbers, to put away and to take up again.
///
/// Any numbers are some record; [`super::Shelf::resume`] refuses one that is spoiled. Two records are equal where their
/// taken places are: what the numbers of a free place happen to be does not matter, nor the length of a section that is
/// not held, nor the rest of the key of any table but an NRT-IT.
///
/// A record is in one place, so that it is not resumed twice. This does not compile:
///
/// ```compile_fail,E0382
/// # use khumsafil::shelf::{Record, Shelf, RECORD, STORE};
/// let (mut one, mut other) = (vec![0; STORE], vec![0; STORE]);
/// let (record, _) = Shelf::begin(&mut one)?.into_parts();
/// let shelf = Shelf::resume(record, &mut one)?;
/// let second = Shelf::resume(record, &mut other)?;
/// # Ok::<(), khumsafil::Refusal>(())
/// ```
///
/// ```compile_fail,E0599
/// # use khumsafil::shelf::{Record, RECORD};
/// let second = Record::from([0; RECORD]).clone();
/// ```
#[derive(Debug)]
pub struct Record {
    numbers: [u16; RECORD],
}

/// Where the heads of the places begin, of four numbers each, where the masks do, and where the rests of the keys do, of three
/// numbers each; the lengths are before them.
const HEADS: usize = SECTIONS * PLACES;
const MASKS: usize = HEADS + HEAD * PLACES;
const RESTS: usize = MASKS + PLACES;
const HEAD: usize = 4;
const REST: usize = 3;

/// What a taken place says.
#[derive(PartialEq)]
struct Place<'a> {
    /// Its table id, extension, version and last number.
    head: &'a [u16],
    /// The rest of the key of an NRT-IT.
    rest: &'a [u16],
    mask: u16,
    /// The lengths of the sections that are held, 0 for the others.
    held: [u16; SECTIONS],
}

impl Record {
    /// The numbers, as the header lays them out.
    pub fn numbers(&self) -> &[u16; RECORD] {
        &self.numbers
    }

    pub(super) fn numbers_mut(&mut self) -> &mut [u16; RECORD] {
        &mut self.numbers
    }

    /// What a place says; of a free place nothing.
    fn place(&self, p: usize) -> Option<Place<'_>> {
        let head = &self.numbers[HEADS + HEAD * p..][..HEAD];
        let rest = match head[0] as u8 {
            Key::NRT_IT => &self.numbers[RESTS + REST * p..][..REST],
            _ => &[],
        };
        let mask = self.numbers[MASKS + p];
        let lengths = &self.numbers[SECTIONS * p..][..SECTIONS];
        let held = core::array::from_fn(|n| if mask >> n & 1 == 1 { lengths[n] } else { 0 });
        (head[0] >> 8 == 1).then_some(Place {
            head,
            rest,
            mask,
            held,
        })
    }
}

impl From<[u16; RECORD]> for Record {
    fn from(numbers: [u16; RECORD]) -> Record {
        Record { numbers }
    }
}

impl PartialEq for Record {
    fn eq(&self, other: &Record) -> bool {
        (0..PLACES).all(|p| self.place(p) == other.place(p))
    }
}

impl Eq for Record {}
