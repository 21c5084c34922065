//! Khumsafil's second opinion: document 01 (and requests 1 to 4 of document 02)
//! read once more, on its own, in plain Rust. Every refusal is its number in
//! document 01, "Numbers of refusal", or in the request that adds it.

#![forbid(unsafe_code)]

pub mod clock;
pub mod descriptors;
pub mod file;
pub mod keeper;
pub mod key;
pub mod lister;
pub mod programme;
pub mod programme_text;
pub mod section;
pub mod shelf;
pub mod trigger;
pub mod writer;

mod berth;

#[cfg(test)]
mod testing;
