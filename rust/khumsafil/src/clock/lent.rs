//! The clock's calls over a record that is lent, of any size.
//!
//! The record is [`RECORD`](super::RECORD) numbers that the host keeps. Every value of that many numbers is some record; one
//! that is spoiled, and any other number of them, is refused by 35. A refused call leaves it as it was.
//!
//! ```
//! use khumsafil::clock::{self, lent};
//!
//! let mut record = [9; clock::RECORD];
//! lent::fresh(&mut record)?;
//! assert_eq!(lent::move_to(&mut record, 500)?, 0);
//! assert_eq!(lent::time(&record)?, 500);
//! # Ok::<(), khumsafil::Refusal>(())
//! ```

use super::{Activation, Heard, State};
use crate::{boundary, Refusal};

/// The low 8 bits of an answer are the refusal.
fn answered(word: u16) -> Result<u8, Refusal> {
    match word as u8 {
        0 => Ok((word >> 8) as u8),
        number => Err(Refusal::of(number)),
    }
}

/// Makes the record a clock at 0 with every application Released. Refused: 35, where it is of another size.
#[inline]
pub fn fresh(record: &mut [u32]) -> Result<(), Refusal> {
    // SAFETY: the pointer and the length are those of a slice.
    match unsafe { boundary::khumsafil_raw_clock_fresh(record.as_mut_ptr(), record.len()) } {
        0 => Ok(()),
        number => Err(Refusal::of(number)),
    }
}

/// Offers an activation. Refused: 35, 30, 32, 33, 34.
#[inline]
pub fn offer(record: &mut [u32], a: Activation) -> Result<Heard, Refusal> {
    offer_by_number(record, a.application, a.event, a.action as u8, a.time)
}

/// Offers an activation whose action is a number as it was received. Refused: 255 for one above 3, and as [`offer`].
#[inline]
pub fn offer_by_number(
    record: &mut [u32],
    application: u8,
    event: u16,
    action: u8,
    time: u32,
) -> Result<Heard, Refusal> {
    // SAFETY: the pointer and the length are those of a slice.
    let word = unsafe {
        boundary::khumsafil_raw_clock_offer(
            record.as_mut_ptr(),
            record.len(),
            application,
            event,
            action,
            time,
        )
    };
    answered(word).map(|heard| match heard {
        1 => Heard::Applied,
        _ => Heard::Waiting,
    })
}

/// Moves the clock, and says how many waiting activations that applied. Refused: 35, 31.
#[inline]
pub fn move_to(record: &mut [u32], to: u32) -> Result<u8, Refusal> {
    // SAFETY: the pointer and the length are those of a slice.
    answered(unsafe { boundary::khumsafil_raw_clock_move(record.as_mut_ptr(), record.len(), to) })
}

/// The clock's time. Refused: 35.
#[inline]
pub fn time(record: &[u32]) -> Result<u32, Refusal> {
    // SAFETY: the pointer and the length are those of a slice, and the library only reads.
    let word = unsafe { boundary::khumsafil_raw_clock_time(record.as_ptr(), record.len()) };
    match word as u8 {
        0 => Ok((word >> 32) as u32),
        number => Err(Refusal::of(number)),
    }
}

/// The state of an application. Refused: 35, 30.
#[inline]
pub fn state(record: &[u32], application: u8) -> Result<State, Refusal> {
    // SAFETY: the pointer and the length are those of a slice, and the library only reads.
    let word =
        unsafe { boundary::khumsafil_raw_clock_state(record.as_ptr(), record.len(), application) };
    answered(word).map(|state| match state {
        0 => State::Released,
        1 => State::Ready,
        2 => State::Active,
        _ => State::Suspended,
    })
}
