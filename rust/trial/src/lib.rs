//! What the comparisons and benchmarks share: random inputs by a fixed seed, counts of answers, and the
//! declarations of the boundary as the header, the wrapper and the Rattle source have them.

#![forbid(unsafe_code)]

pub mod beside;
pub mod clocks;
pub mod commands;
pub mod declarations;
pub mod files;
pub mod inputs;
pub mod keys;
pub mod loops;
pub mod programmes;
pub mod random;
pub mod sections;
pub mod shelf;
pub mod tally;
pub mod triggers;
pub mod vectors;

use std::path::{Path, PathBuf};
use std::process::Command;

/// A program to be run, under the checker or the emulator whose words the environment variable `KHUMSAFIL_UNDER` has.
pub fn program(path: &Path) -> Command {
    let under = std::env::var("KHUMSAFIL_UNDER").unwrap_or_default();
    let mut words = under.split_whitespace();
    let Some(checker) = words.next() else {
        return Command::new(path);
    };
    let mut command = Command::new(checker);
    command.args(words).arg(path);
    command
}

/// What `tools/build` made, in the folder that the environment variable `KHUMSAFIL_NATIVE` names if that has it.
pub fn native(name: &str) -> PathBuf {
    let named = std::env::var_os("KHUMSAFIL_NATIVE").map(|folder| Path::new(&folder).join(name));
    named
        .filter(|path| path.is_file())
        .unwrap_or_else(|| top("target/native").join(name))
}

/// A path below the repository's top.
pub fn top(path: &str) -> PathBuf {
    PathBuf::from(env!("CARGO_MANIFEST_DIR"))
        .join("../..")
        .join(path)
}
