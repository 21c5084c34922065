//! The library and the independent program side by side: each function here asks both for the same, and fails where
//! an answer, a record or a buffer differs.

pub mod clock;
pub mod files;
pub mod loops;
pub mod programmes;
pub mod sections;
pub mod shelf;
pub mod triggers;
pub mod writer;
