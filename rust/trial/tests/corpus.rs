//! The inputs that the fuzzer started from and those that it found worth keeping, each once more through the same entry.

use std::fs;
use trial::inputs::{seeds, TARGETS};
use trial::top;

#[test]
fn every_input_again() {
    for (name, run) in TARGETS {
        let folder = top("rust/trial/corpus").join(name);
        let entries = fs::read_dir(&folder).unwrap_or_else(|e| panic!("{}: {e}", folder.display()));
        let (mut inputs, mut bytes) = (0, 0);
        for entry in entries {
            let input = fs::read(entry.expect("an entry").path()).expect("an input");
            run(&input);
            inputs += 1;
            bytes += input.len();
        }
        let seeds = seeds(name);
        seeds.iter().for_each(|seed| run(seed));
        println!(
            "{name}: {inputs} inputs of {bytes} bytes, {} seeds",
            seeds.len()
        );
        assert!(inputs > 0, "{name} has no inputs");
    }
}

/// A folder whose target is gone would be replayed by nothing.
#[test]
fn every_folder_has_a_target() {
    for entry in fs::read_dir(top("rust/trial/corpus")).expect("the corpus") {
        let name = entry.expect("an entry").file_name();
        let name = name.to_string_lossy();
        assert!(trial::inputs::target(&name).is_some(), "{name}");
    }
}
