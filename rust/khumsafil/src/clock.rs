//! Applications, and the clock that applies activations to them.
//!
//! A [`Clock`] keeps its record; [`lent`] has the same calls for a host that keeps the record itself. A refused call leaves
//! it as it was.
//!
//! ```
//! use khumsafil::clock::{Action, Activation, Clock, Heard, State};
//!
//! let mut clock = Clock::fresh();
//! let start = Activation { application: 3, event: 1, action: Action::Exec, time: 500 };
//! assert_eq!(clock.offer(start)?, Heard::Waiting);
//! assert_eq!(clock.move_to(500)?, 1);
//! assert_eq!((clock.time(), clock.state(3)?), (500, State::Active));
//! # Ok::<(), khumsafil::Refusal>(())
//! ```

use crate::Refusal;

pub mod lent;

/// How many numbers a record is.
pub const RECORD: usize = 67;

/// The state of an application.
#[allow(missing_docs)]
#[derive(Clone, Copy, Debug, PartialEq, Eq)]
pub enum State {
    Released,
    Ready,
    Active,
    Suspended,
}

/// An action on an application.
#[allow(missing_docs)]
#[derive(Clone, Copy, Debug, PartialEq, Eq)]
pub enum Action {
    Prep,
    Exec,
    Susp,
    Kill,
}

/// An action on an application at a media time.
#[derive(Clone, Copy, Debug, PartialEq, Eq)]
pub struct Activation {
    /// The application, 0 to 7.
    pub application: u8,
    /// The event.
    pub event: u16,
    /// The action.
    pub action: Action,
    /// The media time in milliseconds.
    pub time: u32,
}

/// What became of an activation.
#[derive(Clone, Copy, Debug, PartialEq, Eq)]
pub enum Heard {
    /// It was applied on arrival.
    Applied,
    /// It waits for the clock.
    Waiting,
}

/// A clock, with the eight applications and the activations that it holds.
///
/// Its record is never spoiled: [`Clock::resume`] refuses one that is, and no call leaves one. Two clocks are equal where
/// the time, the states and the set of activations held are, in whatever places these stand.
#[derive(Clone, Debug)]
pub struct Clock {
    record: [u32; RECORD],
}

/// The bits of a record that mean something: of its states, and of the second number of a place.
const STATES: u32 = 0xFFFF;
const MARK: u32 = 0x07FF_FFFF;

impl Clock {
    /// A clock at 0 with every application Released and nothing held.
    pub fn fresh() -> Clock {
        let mut record = [0; RECORD];
        // Only another size of a record is refused.
        let _ = lent::fresh(&mut record);
        Clock { record }
    }

    /// Takes up a record that was put away. Refused: 35.
    pub fn resume(record: [u32; RECORD]) -> Result<Clock, Refusal> {
        lent::time(&record).map(|_| Clock { record })
    }

    /// The record, to put it away.
    pub fn record(&self) -> &[u32; RECORD] {
        &self.record
    }

    /// Offers an activation. Refused: 30, 32, 33, 34.
    #[inline]
    pub fn offer(&mut self, activation: Activation) -> Result<Heard, Refusal> {
        lent::offer(&mut self.record, activation)
    }

    /// Moves the clock, and says how many waiting activations that applied. Refused: 31.
    #[inline]
    pub fn move_to(&mut self, to: u32) -> Result<u8, Refusal> {
        lent::move_to(&mut self.record, to)
    }

    /// The clock's time.
    #[inline]
    pub fn time(&self) -> u32 {
        // Only a spoiled record is refused, and a clock has none.
        lent::time(&self.record).unwrap_or_default()
    }

    /// The state of an application. Refused: 30.
    #[inline]
    pub fn state(&self, application: u8) -> Result<State, Refusal> {
        lent::state(&self.record, application)
    }

    /// What is held, in the places where it stands.
    fn held(&self) -> impl Iterator<Item = (u32, u32)> + '_ {
        let places = self.record[3..].chunks_exact(2);
        places
            .take(self.record[2] as usize)
            .map(|place| (place[0], place[1] & MARK))
    }
}

impl PartialEq for Clock {
    fn eq(&self, other: &Clock) -> bool {
        // No two that are held are alike, so of two sets of one size either is the other's part or they differ.
        self.record[0] == other.record[0]
            && self.record[1] & STATES == other.record[1] & STATES
            && self.record[2] == other.record[2]
            && self.held().all(|one| other.held().any(|held| held == one))
    }
}

impl Eq for Clock {}
