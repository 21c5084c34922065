//! Writes what the fuzzer starts from: `seeds FOLDER` makes a folder in it for each target.

use std::fs;
use std::path::Path;
use trial::inputs::{seeds, TARGETS};

fn main() {
    let folder = std::env::args().nth(1).expect("usage: seeds FOLDER");
    for (name, _) in TARGETS {
        let folder = Path::new(&folder).join(name);
        fs::create_dir_all(&folder).expect("a folder");
        let all = seeds(name);
        for (i, seed) in all.iter().enumerate() {
            fs::write(folder.join(format!("seed-{i}")), seed).expect("a seed");
        }
        println!("{name}: {} seeds", all.len());
    }
}
