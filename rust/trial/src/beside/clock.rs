//! The clock.

use crate::clocks::{decode, encode, for_us};
use khumsafil::clock::{lent, Clock, Heard, RECORD};
use khumsafil::Refusal;
use opinion::clock as theirs;

fn number<T>(answer: Result<T, u8>) -> u8 {
    answer.err().unwrap_or(0)
}

/// A record as both have it. The library is called over the lent record and through [`Clock`] by turns.
pub struct Both {
    pub record: [u32; RECORD],
    pub clock: theirs::Clock,
    calls: usize,
}

impl Both {
    /// A record and the clock that it is.
    pub fn new(record: [u32; RECORD]) -> Both {
        Both {
            clock: decode(&record),
            record,
            calls: 0,
        }
    }

    /// A fresh clock.
    pub fn fresh() -> Both {
        let mut record = [0xFFFF_FFFF; RECORD];
        assert_eq!(lent::fresh(&mut record), Ok(()));
        let both = Both {
            record,
            clock: theirs::fresh(),
            calls: 0,
        };
        both.agree();
        assert_eq!(Clock::fresh().record(), &record);
        both
    }

    /// Clock, states and the set held are equal, and nothing else stands in the record.
    fn agree(&self) {
        if self.record == encode(&self.clock) {
            return;
        }
        let held = decode(&self.record);
        assert!(
            theirs::equal(&held, &self.clock) && held.held.len() == self.clock.held.len(),
            "{held:?} is not {:?}",
            self.clock
        );
        assert_eq!(encode(&held), self.record, "the record's numbers");
    }

    /// A call by the library on the record: over what is lent, or every other time on a [`Clock`] that is resumed from it.
    fn ours<T>(
        &mut self,
        lent: impl FnOnce(&mut [u32]) -> Result<T, Refusal>,
        kept: impl FnOnce(&mut Clock) -> Result<T, Refusal>,
    ) -> Result<T, u8> {
        self.calls += 1;
        let answer = if self.calls % 2 == 0 {
            Clock::resume(self.record).and_then(|mut clock| {
                let answer = kept(&mut clock);
                self.record = *clock.record();
                answer
            })
        } else {
            lent(&mut self.record)
        };
        answer.map_err(Refusal::number)
    }

    pub fn offer(&mut self, a: theirs::Activation) -> u8 {
        let before = self.record;
        let answer = self.ours(
            |record| lent::offer(record, for_us(a)),
            |clock| clock.offer(for_us(a)),
        );
        let other = theirs::offer(&mut self.clock, a);
        let same = match (answer, other) {
            (Ok(Heard::Applied), Ok(theirs::Heard::Applied)) => true,
            (Ok(Heard::Waiting), Ok(theirs::Heard::Waiting)) => true,
            (Err(a), Err(b)) => a == b,
            _ => false,
        };
        assert!(same, "{answer:?} is not {other:?}: {a:?} to {before:?}");
        self.settle(other.is_err(), &before);
        number(other)
    }

    pub fn move_to(&mut self, to: u32) -> u8 {
        let before = self.record;
        let answer = self.ours(
            |record| lent::move_to(record, to),
            |clock| clock.move_to(to),
        );
        let other = theirs::move_to(&mut self.clock, to);
        assert_eq!(answer.map(u32::from), other, "to {to} from {before:?}");
        self.settle(other.is_err(), &before);
        number(other)
    }

    /// A refused call left the record as it was; after any other the two agree.
    fn settle(&self, refused: bool, before: &[u32; RECORD]) {
        if refused {
            assert_eq!(self.record, *before, "a refused call");
        } else {
            self.agree();
        }
    }

    /// Asks the library what the record says; the independent one is a record that is not spoiled.
    pub fn ask(&self, application: u8) -> u8 {
        let clock = Clock::resume(self.record).expect("a record that is not spoiled");
        assert_eq!(lent::time(&self.record), Ok(self.clock.now));
        assert_eq!(clock.time(), self.clock.now);
        let state = lent::state(&self.record, application);
        assert_eq!(clock.state(application), state);
        match state {
            Ok(state) => {
                let other = self.clock.states[usize::from(application)];
                assert_eq!(state as u8, other as u8, "application {application}");
                0
            }
            Err(refusal) => {
                assert_eq!((refusal.number(), application > 7), (30, true));
                30
            }
        }
    }

    /// Asks what any record says, also a spoiled one. A move to its own time tells which it is.
    pub fn ask_any(&self, application: u8) -> u8 {
        if !spoiled(&self.clock) {
            return self.ask(application);
        }
        assert_eq!(lent::time(&self.record), Err(Refusal::CLOCK_SPOILED));
        let state = lent::state(&self.record, application);
        assert_eq!(state, Err(Refusal::CLOCK_SPOILED));
        let clock = Clock::resume(self.record);
        assert_eq!(clock.err(), Some(Refusal::CLOCK_SPOILED));
        35
    }

    /// Another size than a record's is 35 at each call, and what was lent stays.
    pub fn with_size(count: usize, a: theirs::Activation) {
        assert_ne!(count, RECORD);
        let mut record = vec![0; count];
        let spoiled = Refusal::CLOCK_SPOILED;
        assert_eq!(lent::fresh(&mut record), Err(spoiled));
        assert_eq!(lent::offer(&mut record, for_us(a)), Err(spoiled));
        assert_eq!(lent::move_to(&mut record, a.time), Err(spoiled));
        assert_eq!(lent::time(&record), Err(spoiled));
        assert_eq!(lent::state(&record, a.application), Err(spoiled));
        assert!(record.iter().all(|n| *n == 0));
    }

    /// A number above 3 is no action: 255 before all else, and the record stays.
    pub fn no_action(&mut self, application: u8, number: u8) {
        let before = self.record;
        let number = number.max(4);
        let answer = lent::offer_by_number(&mut self.record, application, 0, number, 0);
        assert_eq!(answer, Err(Refusal::NO_SUCH_ACTION));
        assert_eq!(self.record, before, "a refused call");
    }
}

/// Whether a record is spoiled, by the independent program. A move to its own time tells.
fn spoiled(clock: &theirs::Clock) -> bool {
    theirs::move_to(&mut clock.clone(), clock.now) == Err(35)
}

/// Whether two records are of equal clocks, by both; a spoiled one is refused by both, and is none.
pub fn equal(a: &[u32; RECORD], b: &[u32; RECORD]) -> Option<bool> {
    let resumed = |record: &[u32; RECORD]| {
        let (ours, other) = (Clock::resume(*record), decode(record));
        let refused = ours.as_ref().err().map(|refusal| refusal.number());
        assert_eq!(refused, spoiled(&other).then_some(35), "{record:?}");
        ours.ok().map(|clock| (clock, other))
    };
    let ((one, their_one), (two, their_two)) = (resumed(a)?, resumed(b)?);
    let same = theirs::equal(&their_one, &their_two);
    assert_eq!(one == two, same, "{a:?} and {b:?}");
    let turned = theirs::equal(&their_two, &their_one);
    assert_eq!((two == one, turned), (same, same), "{b:?} and {a:?}");
    assert!(one == one.clone() && two == two.clone(), "a clock is itself");
    Some(same)
}
