//! The berths of a lent store (document 01, "The shelf"): section s of the table
//! in place p begins at 1,024 × (16p + s).

use crate::shelf::{BERTH, SECTIONS};

/// Where the berth of this place and number begins in the store.
pub fn start(place: usize, number: usize) -> usize {
    BERTH * (SECTIONS * place + number)
}

/// The first `length` bytes of a berth.
pub fn part(store: &[u8], place: usize, number: usize, length: usize) -> &[u8] {
    let start = start(place, number);
    &store[start..start + length]
}

/// Stores a section in its berth; the rest of the berth is zeros.
pub fn put(store: &mut [u8], place: usize, number: usize, section: &[u8]) {
    let start = start(place, number);
    let berth = &mut store[start..start + BERTH];
    let (kept, rest) = berth.split_at_mut(section.len());
    kept.copy_from_slice(section);
    rest.fill(0);
}

/// Zeroes a berth.
pub fn clear(store: &mut [u8], place: usize, number: usize) {
    let start = start(place, number);
    store[start..start + BERTH].fill(0);
}
