//! The lister as staff run it: files on its standard input, what it prints beside the independent program's list.

use opinion::lister;
use std::fs;
use std::io::Write;
use std::process::Stdio;
use trial::files::{damaged, Parts, KINDS};
use trial::random::Random;
use trial::sections::Fields;
use trial::tally::{share, Tally};
use trial::{native, program, top};

/// The seed of every random comparison here.
const SEED: u64 = 0x4B68_756D_7361_0009;

/// Files of each kind.
const EACH: usize = 250;

/// What the lister prints of an input. It may stop reading before the input ends, so a broken pipe is no fault.
fn printed(input: &[u8]) -> String {
    let mut child = program(&native("lister"))
        .stdin(Stdio::piped())
        .stdout(Stdio::piped())
        .spawn()
        .expect("the lister is built: tools/build lister");
    let mut pipe = child.stdin.take().expect("a pipe");
    let _ = pipe.write_all(input);
    drop(pipe);
    let output = child.wait_with_output().expect("the lister ends");
    String::from_utf8(output.stdout).expect("text")
}

#[test]
fn random_files() {
    let mut random = Random::new(SEED);
    let mut tally = Tally::default();
    for kind in KINDS {
        for _ in 0..share(EACH) {
            let fields = Fields::random(&mut random);
            let parts = Parts::random(&mut random, fields);
            let bytes = damaged(&mut random, kind, parts);
            let text = lister::list(&bytes);
            assert_eq!(printed(&bytes), text, "{bytes:?}");
            let number = text.strip_prefix("refused ").map(str::trim_end);
            tally.note(kind, number.map_or(0, |n| n.parse().expect("a number")));
        }
    }
    tally.show(
        &format!("files through the lister, seed {SEED:#018X}"),
        &[0, 2, 3, 4, 5, 6, 7, 8, 11, 12, 46],
    );
}

#[test]
fn the_samples() {
    for name in ["whole", "gaps", "damaged", "small", "programmes"] {
        let file = fs::read(top(&format!("samples/{name}.shelf"))).expect(name);
        assert_eq!(printed(&file), lister::list(&file), "{name}");
    }
}

#[test]
fn inputs_around_the_buffer() {
    for size in [0, 1, 16_417, 16_418, 16_419, 16_420, 40_000] {
        let zeros = vec![0; size];
        assert_eq!(printed(&zeros), lister::list(&zeros), "{size} zeros");
        let mut long = b"\x01\x01\x08\xC9\x70\x05\x12\x34\xC7\x00\x00".to_vec();
        long.resize(long.len().max(size), 0);
        assert_eq!(printed(&long), lister::list(&long), "{size} bytes");
    }
}
