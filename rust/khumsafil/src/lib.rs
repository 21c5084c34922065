//! Khumsafil for a Rust host: safe functions over the proved library, each with a type for its answer.
//! A call allocates nothing, keeps nothing and never panics.
//!
//! Nothing here needs `std`. The library calls `memcpy`, `memmove` and `memset`, which a host without a C library has to bring.
//!
//! ```
//! use khumsafil::shelf::{Shelf, STORE};
//! use khumsafil::{Key, Refusal};
//!
//! let mut store = vec![0; STORE];
//! let mut shelf = Shelf::begin(&mut store)?;
//! shelf.offer(b"\xC9\x70\x0A\x12\x34\xC7\x00\x00Ferry")?;
//! assert!(shelf.is_complete(Key::new(201, 4_660)));
//! # Ok::<(), Refusal>(())
//! ```

#![no_std]
#![deny(missing_docs)]

#[allow(missing_docs)]
mod boundary;
pub mod clock;
pub mod descriptor;
pub mod file;
mod key;
pub mod programme;
mod refusal;
pub mod section;
pub mod shelf;
pub mod trigger;
pub mod writer;

pub use key::Key;
pub use refusal::Refusal;

/// The version that this wrapper is made for: 65,536 times the major number, 256 times the minor one, and the patch.
pub const VERSION: u32 = 0x000500;

/// The version of the library that is linked, in the same form.
///
/// ```
/// assert_eq!(khumsafil::version(), khumsafil::VERSION);
/// ```
#[inline]
pub fn version() -> u32 {
    // SAFETY: the call takes nothing and gives a number.
    unsafe { boundary::khumsafil_raw_version() }
}
