//! The program for staff as they run it: files on its standard input, what it prints beside the independent program's text.

use opinion::programme_text::programmes as told;
use std::collections::BTreeMap;
use std::fs;
use trial::commands::{fed, text};
use trial::files::KINDS;
use trial::programmes::{file, full_file, SMALLEST};
use trial::random::Random;
use trial::tally::{common, share};
use trial::{native, program, top};

/// The seed of every random comparison here.
const SEED: u64 = 0x4B68_756D_7361_000D;

/// Files of each kind.
const EACH: usize = 250;

/// What the program prints of an input; it is built by `tools/build programmes`.
fn printed(input: &[u8]) -> String {
    let output = fed(program(&native("programmes")), input);
    assert!(output.status.success(), "{}", text(&output.stderr));
    String::from_utf8(output.stdout).expect("text")
}

#[test]
fn random_files() {
    let mut random = Random::new(SEED);
    let mut ends: BTreeMap<&str, u64> = BTreeMap::new();
    for kind in KINDS {
        for _ in 0..share(EACH) {
            let bytes = file(&mut random, kind);
            let text = told(&bytes);
            assert_eq!(printed(&bytes), text, "{bytes:02X?}");
            let end = match text.lines().last().expect("a line") {
                refused if refused.starts_with("refused ") => "refused",
                "no programme list" => "no programme list",
                "whole" => "whole",
                "not whole" => "not whole",
                other => panic!("{other}"),
            };
            *ends.entry(end).or_default() += 1;
        }
    }
    println!("files through the program for staff, seed {SEED:#018X}: {ends:?}");
    for end in ["refused", "no programme list", "whole", "not whole"] {
        common(ends.get(end).copied().unwrap_or(0), 20);
    }
}

#[test]
fn the_samples() {
    for name in ["whole", "gaps", "damaged", "small", "programmes"] {
        let file = fs::read(top(&format!("samples/{name}.shelf"))).expect(name);
        assert_eq!(printed(&file), told(&file), "{name}");
    }
}

/// The largest file has room for its text, which no pipe takes at once.
#[test]
fn the_largest_file() {
    let mut random = Random::new(SEED);
    let mut longest = 0;
    for _ in 0..share(20) {
        let file = full_file(&mut random, SMALLEST);
        assert_eq!(file.len(), khumsafil::shelf::LARGEST_FILE);
        let text = printed(&file);
        assert_eq!(text, told(&file), "{file:02X?}");
        assert!(text.ends_with("\nwhole\n"));
        longest = longest.max(text.len());
    }
    println!("the longest text {longest} bytes");
    common(longest as u64, 100_000);
}

#[test]
fn inputs_around_the_buffer() {
    let mut random = Random::new(SEED);
    let list = full_file(&mut random, SMALLEST);
    for size in [0, 1, 16_417, 16_418, 16_419, 16_420, 40_000] {
        let zeros = vec![0; size];
        assert_eq!(printed(&zeros), told(&zeros), "{size} zeros");
        let mut long = list.clone();
        long.resize(size, 0);
        assert_eq!(printed(&long), told(&long), "{size} bytes");
    }
    assert_eq!(printed(&[]), "refused 11\n");
}
