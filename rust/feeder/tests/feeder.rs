//! The feeder as a bench runs it: what it prints beside the independent program's file, and what the lister says of it.

use opinion::{lister, writer};
use std::fs::{File, OpenOptions};
use std::io::Write;
use std::path::Path;
use std::process::{Command, Output, Stdio};
use trial::files::Parts;
use trial::random::Random;
use trial::{native, program, top};

/// The seed of every random comparison here.
const SEED: u64 = 0x4B68_756D_7361_0011;

/// What a program answers to an input. It may stop reading before the input ends, so a broken pipe is no fault.
fn run(mut command: Command, input: &[u8]) -> Output {
    let mut child = command
        .stdin(Stdio::piped())
        .stdout(Stdio::piped())
        .stderr(Stdio::piped())
        .spawn()
        .expect("the program is built");
    let mut pipe = child.stdin.take().expect("a pipe");
    let input = input.to_vec();
    let writer = std::thread::spawn(move || {
        let _ = pipe.write_all(&input);
    });
    let output = child.wait_with_output().expect("the program ends");
    writer.join().expect("the input was written");
    output
}

fn feeder(words: &[&str]) -> Command {
    let mut command = program(Path::new(env!("CARGO_BIN_EXE_feeder")));
    command.args(words);
    command
}

/// Nothing on the standard output, a line on standard error, and this status.
fn silent(output: &Output, line: &str, status: i32) {
    assert!(output.stdout.is_empty(), "{line}: something was printed");
    assert_eq!(String::from_utf8_lossy(&output.stderr), format!("{line}\n"));
    assert_eq!(output.status.code(), Some(status), "{line}");
}

/// The file by the independent program.
fn expected(table: u8, extension: u16, version: u8, body: &[u8]) -> Vec<u8> {
    let count = writer::count(table, body.len()).expect("a body that is not too long");
    let section = |k| {
        let mut out = vec![0; 1_024];
        let size = writer::write(table, extension, version, body, k, &mut out).expect("a section");
        out.truncate(size);
        out
    };
    Parts::of((0..count).map(section).collect()).bytes()
}

#[test]
fn a_body_becomes_a_complete_table() {
    let mut random = Random::new(SEED);
    let around = (1..=16).flat_map(|n| n * 1_016 - 1..=n * 1_016 + 1);
    let sizes = (0..=3).chain([119, 120, 121]).chain(around);
    let mut files = 0;
    for size in sizes.filter(|size| *size <= 16_256) {
        let body = random.bytes(size);
        // It makes no NRT-IT.
        let table = match random.byte() {
            0xDF => 0xDE,
            any => any,
        };
        let extension = random.word() as u16;
        let version = random.byte() % 32;
        let words = [
            table.to_string(),
            extension.to_string(),
            version.to_string(),
        ];
        let output = run(feeder(&words.each_ref().map(String::as_str)), &body);
        assert_eq!(output.status.code(), Some(0));
        assert!(output.stderr.is_empty());
        let file = expected(table, extension, version, &body);
        assert!(output.stdout == file, "{size} bytes: the file");
        let listed = run(program(&native("lister")), &file);
        let text = String::from_utf8(listed.stdout).expect("text");
        assert_eq!(text, lister::list(&file), "{size} bytes: the list");
        let head = format!("table {table} key {extension} version {version} last ");
        assert!(
            text.starts_with(&head) && text.ends_with("\ncomplete\n"),
            "{text}"
        );
        files += 1;
    }
    println!("{files} bodies became files that the lister calls complete, seed {SEED:#018X}");
}

#[test]
fn refusals() {
    for size in [16_257, 16_258, 40_000, 1_000_000] {
        silent(
            &run(feeder(&["201", "4660", "3"]), &vec![0; size]),
            "refused 40, body too long",
            1,
        );
    }
    for version in ["32", "255", "256", "65536", "99999999999999999999999"] {
        silent(
            &run(feeder(&["201", "4660", version]), b"body"),
            "refused 41, version above 31",
            1,
        );
    }
    silent(
        &run(feeder(&["201", "4660", "32"]), &[0; 16_257]),
        "refused 40, body too long",
        1,
    );
}

/// The NRT-IT's id is refused before all else that is.
#[test]
fn no_programme_list_is_made() {
    for size in [0, 4, 14, 1_016, 16_256, 16_257] {
        for version in ["0", "3", "31", "32", "999"] {
            silent(
                &run(feeder(&["223", "4097", version]), &vec![0; size]),
                "refused 59, the writer asked for the NRT-IT's id",
                1,
            );
        }
    }
}

#[test]
fn arguments_that_are_no_label() {
    let usage = "usage: khumsafil-feed TABLE EXTENSION VERSION <BODY >FILE\n\
                 TABLE is 0 to 255 but not 223, EXTENSION 0 to 65535, VERSION 0 to 31";
    let wrong: [&[&str]; 12] = [
        &[],
        &["201"],
        &["201", "4660"],
        &["201", "4660", "3", "0"],
        &["256", "4660", "3"],
        &["201", "65536", "3"],
        &["18446744073709551617", "4660", "3"],
        &["-1", "4660", "3"],
        &["+1", "4660", "3"],
        &["0xC9", "4660", "3"],
        &["201", "", "3"],
        &["201", "4660", "three"],
    ];
    for words in wrong {
        silent(&run(feeder(words), b"body"), usage, 2);
    }
    let helped = run(feeder(&["--help"]), b"body");
    assert_eq!(helped.status.code(), Some(0));
    assert_eq!(
        String::from_utf8_lossy(&helped.stdout),
        format!("{usage}\n")
    );
    assert!(helped.stderr.is_empty());
}

/// A read that fails is not the end of the body, and a file that cannot be written is no success.
#[test]
fn what_the_system_refuses() {
    let folder = File::open(top(".")).expect("a folder");
    let output = feeder(&["201", "4660", "3"]).stdin(folder).output();
    silent(
        &output.expect("the feeder ends"),
        "khumsafil-feed: read failed",
        1,
    );
    let full = OpenOptions::new().write(true).open("/dev/full");
    let mut child = feeder(&["201", "4660", "3"])
        .stdin(Stdio::null())
        .stdout(full.expect("a device that is full"))
        .stderr(Stdio::piped())
        .spawn()
        .expect("the feeder starts");
    child.stdin.take();
    silent(
        &child.wait_with_output().expect("the feeder ends"),
        "khumsafil-feed: write failed",
        1,
    );
}
