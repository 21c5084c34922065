//! The numbers of refusal, by name.

use core::fmt;

/// Why a call was refused: a number of document 01, from 40 on of document 02, or 255, the boundary's own. Each has a name
/// here, as in the C header.
#[derive(Clone, Copy, PartialEq, Eq, Hash, PartialOrd, Ord)]
pub struct Refusal(u8);

macro_rules! refusals {
    ($($name:ident = $number:literal: $when:literal;)*) => {
        impl Refusal {
            $(#[doc = $when] pub const $name: Refusal = Refusal($number);)*

            /// Every refusal by its name, rising.
            pub const ALL: &'static [(&'static str, Refusal)] = &[$((stringify!($name), Refusal::$name)),*];

            /// When the number is given, in the words of document 01; the same text as `khumsafil_refusal_text` has in C.
            pub const fn text(self) -> &'static str {
                match self.0 {
                    $($number => $when,)*
                    _ => "no number of this library",
                }
            }
        }
    };
}

refusals! {
    PAYLOAD_SHORT = 1: "payload under 8 bytes";
    WRONG_INDICATOR = 2: "syntax indicator 1 or private indicator 0";
    LENGTH_OUT_OF_RANGE = 3: "section length under 5 or over 1,021";
    LONGER_THAN_PAYLOAD = 4: "section longer than its payload";
    SHORTER_THAN_PAYLOAD = 5: "section shorter than its payload";
    NUMBER_ABOVE_LAST = 6: "section number above last";
    LAST_ABOVE_15 = 7: "last number above 15";
    NOT_CURRENT = 8: "current/next is 0";
    NO_FREE_PLACE = 9: "new key, no free place";
    DIFFERS = 10: "differs from what is held: same version with another last number, or other bytes at a held number";
    BAD_NUMBER = 11: "file number cut off, not shortest, or above 65,535";
    BAD_FILE = 12: "form not 1; count not 1 to 16; length not 8 to 1,024; bytes run past the file; keys, versions or lasts differ; numbers not rising; bytes left over";
    KEY_HELD = 13: "loading a key already held";
    TABLE_NOT_HELD = 14: "table not held";
    OUTPUT_TOO_SMALL = 15: "output too small";
    SECTION_NOT_HELD = 16: "section not held";
    STORE_SIZE = 17: "a lent store not 65,536 bytes";
    SHELF_SPOILED = 18: "shelf record spoiled, in a taken place: a version above 31, a last above 15, a held number above last, a held length outside 8 to 1,024, or nothing held; or two taken places with one key";
    DESCRIPTOR_RUNS_PAST = 19: "descriptor runs past the loop, or the place asked is beyond its end";
    TRIGGER_CUT_OFF = 20: "trigger ends inside a field";
    TRIGGER_OTHER_EVENT = 21: "event type not 0";
    TRIGGER_FORBIDDEN_ID_LENGTH = 22: "application id length 1";
    TRIGGER_WRONG_TARGET_LENGTH = 23: "type 0 with length; type 1 with length not 0 or 6; type 2 with length not 0 or 2";
    TRIGGER_HIGH_URI_BYTE = 24: "URI byte above 127";
    TRIGGER_BYTES_LEFT = 25: "bytes after the user data";
    TRIGGER_TOO_LONG = 26: "trigger over 4,096 bytes";
    CLOCK_ABOVE = 30: "application above 7";
    CLOCK_MOVED_BACK = 31: "clock moved back (equal is allowed)";
    CLOCK_PAST = 32: "time more than 60,000 before the clock";
    CLOCK_ALREADY_HELD = 33: "that activation is held";
    CLOCK_FULL = 34: "32 held";
    CLOCK_SPOILED = 35: "clock record spoiled: over 32 held, one for an application above 7, two alike, waiting at or before the clock, applied but ahead of it, or applied and past its memory";
    WRITER_BODY_TOO_LONG = 40: "body too long";
    WRITER_VERSION_ABOVE_31 = 41: "version above 31";
    WRITER_K_ABOVE_LAST = 42: "k above the last";
    PROGRAMME_PASSES_END = 43: "a field or loop passes the end";
    PROGRAMME_BYTES_LEFT = 44: "bytes left over";
    PROGRAMME_OTHER_TABLE = 45: "table id not the NRT-IT's";
    KEY_SHORT = 46: "an NRT-IT too short to hold its key";
    ASKED_FOR_NRT_IT = 59: "the writer asked for the NRT-IT's id";
    NO_SUCH_ACTION = 255: "no such action: a number above 3";
}

impl Refusal {
    pub(crate) fn of(number: u8) -> Refusal {
        Refusal(number)
    }

    /// The number.
    pub const fn number(self) -> u8 {
        self.0
    }
}

/// As [`Display`](fmt::Display), since a `main` that ends with a refusal shows it so.
impl fmt::Debug for Refusal {
    fn fmt(&self, f: &mut fmt::Formatter<'_>) -> fmt::Result {
        fmt::Display::fmt(self, f)
    }
}

impl fmt::Display for Refusal {
    fn fmt(&self, f: &mut fmt::Formatter<'_>) -> fmt::Result {
        write!(f, "refused {}: {}", self.0, self.text())
    }
}

impl core::error::Error for Refusal {}

#[cfg(test)]
mod tests {
    use super::Refusal;

    #[test]
    fn a_number_without_a_name_has_words_too() {
        let named = |number| Refusal::ALL.iter().any(|(_, one)| one.number() == number);
        for number in 0..=255 {
            let text = Refusal::of(number).text();
            assert_eq!(text != "no number of this library", named(number));
        }
    }
}
