//! The replay as a depot runs it: what it prints of a recording beside the independent program, and how it ends.

use khumsafil::Refusal;
use opinion::file::{read_number, write_number};
use opinion::shelf::{self, Accepted, Record};
use std::fs::{self, File, OpenOptions};
use std::io::Write;
use std::path::Path;
use std::process::{Command, Output, Stdio};
use trial::random::Random;
use trial::sections::{self, Fields, KINDS};
use trial::tally::{share, Tally};
use trial::{program, top};

/// The seed of every random comparison here.
const SEED: u64 = 0x4B68_756D_7361_0014;

fn replay(words: &[&str]) -> Command {
    let mut command = program(Path::new(env!("CARGO_BIN_EXE_replay")));
    command.args(words).stdin(Stdio::null());
    command
}

/// What the replay answers to a recording. It may stop reading before the recording ends, so a broken pipe is no fault.
fn run(words: &[&str], recording: &[u8]) -> Output {
    let mut child = replay(words)
        .stdin(Stdio::piped())
        .stdout(Stdio::piped())
        .stderr(Stdio::piped())
        .spawn()
        .expect("the replay is built");
    let mut pipe = child.stdin.take().expect("a pipe");
    let recording = recording.to_vec();
    let writer = std::thread::spawn(move || {
        let _ = pipe.write_all(&recording);
    });
    let output = child.wait_with_output().expect("the replay ends");
    writer.join().expect("the recording was written");
    output
}

/// A text on the standard output, nothing on standard error, and this status.
fn said(output: &Output, text: &str, status: i32) {
    assert_eq!(String::from_utf8_lossy(&output.stdout), text);
    assert!(output.stderr.is_empty(), "{output:?}");
    assert_eq!(output.status.code(), Some(status), "{text}");
}

/// Nothing on the standard output, lines on standard error, and this status.
fn silent(output: &Output, lines: &str, status: i32) {
    assert!(output.stdout.is_empty(), "{lines}: something was printed");
    let error = String::from_utf8_lossy(&output.stderr);
    assert_eq!(error, format!("{lines}\n"));
    assert_eq!(output.status.code(), Some(status), "{lines}");
}

/// A payload led by its length.
fn led(payload: &[u8]) -> Vec<u8> {
    [&write_number(payload.len() as u16)[..], payload].concat()
}

/// The number and its words.
fn refused(number: u8) -> String {
    let mut all = Refusal::ALL.iter().map(|(_, refusal)| refusal);
    let refusal = all.find(|refusal| refusal.number() == number);
    let text = refusal.expect("a number of the library").text();
    format!("refused {number}, {text}")
}

/// How the independent program calls what an offer did; 0 or the number of refusal for the count.
fn did(answer: Result<Accepted, u8>) -> (String, u8) {
    match answer {
        Ok(Accepted::Began) => ("began".into(), 0),
        Ok(Accepted::BeganAgain) => ("began again".into(), 0),
        Ok(Accepted::Added) => ("added".into(), 0),
        Ok(Accepted::Repeat) => ("repeat".into(), 0),
        Err(number) => (refused(number), number),
    }
}

/// The lines on the tables by the independent program.
fn tables(record: &Record) -> String {
    let mut text = String::new();
    for place in record.places.iter().filter(|place| place.taken) {
        let key = place.key;
        text += &format!("table {} key {}", key.table_id, key.extension);
        if key.table_id == 0xDF {
            text += &format!(" service {} start {}", key.service_id, key.time_span_start);
        }
        text += &format!(" version {} last {}\n", place.version, place.last);
        let missing = (0..=place.last).filter(|n| place.lengths[usize::from(*n)] == 0);
        let missing: String = missing.map(|n| format!("missing {n}\n")).collect();
        text += if missing.is_empty() {
            "complete\n"
        } else {
            &missing
        };
    }
    if text.is_empty() {
        text += "no table is held\n";
    }
    text
}

/// What the replay is to print, and its status, by the independent program; notes each answer.
fn expected(recording: &[u8], note: &mut impl FnMut(u8)) -> (String, i32) {
    let mut record = shelf::fresh();
    let mut store = vec![0; shelf::STORE];
    let (mut text, mut at, mut count, mut status) = (String::new(), 0, 0, 0);
    while at < recording.len() {
        count += 1;
        let (length, from) = match read_number(recording, at) {
            Ok((length, from)) => (usize::from(length), from),
            Err(number) => {
                text += &format!("payload {count}: {}\n", refused(number));
                note(number);
                status = 1;
                break;
            }
        };
        let Some(payload) = recording.get(from..from + length) else {
            let there = recording.len() - from;
            text += &format!("payload {count}: cut off, {there} bytes of {length}\n");
            note(CUT_OFF);
            status = 1;
            break;
        };
        let (did, number) = did(shelf::offer(&mut record, &mut store, payload));
        text += &format!("payload {count} bytes {length}: {did}\n");
        note(number);
        at = from + length;
    }
    (text + &tables(&record), status)
}

/// Stands for a payload that is cut off among the numbers of refusal.
const CUT_OFF: u8 = 254;

/// What is done to a recording before it is replayed.
const ENDS: [&str; 4] = ["whole", "cut", "a byte changed", "a long spelling"];

/// Makes a section that of a programme list with one extension, of two services and two starts, as far as it has room for them.
fn listed(random: &mut Random, section: &mut [u8]) {
    section[0] = 0xDF;
    section[3..5].copy_from_slice(&[0x10, 0x01]);
    let (service, start) = (random.below(2) as u8, random.below(2) as u8);
    let rest = [0, 7 + service, 0x3B, 0x9A + start, 0xCD, 0x20];
    for (byte, value) in section[8..].iter_mut().zip(rest) {
        *byte = value;
    }
}

/// Payloads of few tables, so that they meet on the shelf; some are broken, and some come twice.
fn payloads(random: &mut Random) -> Vec<Vec<u8>> {
    let few: Vec<_> = (0..2 + random.below(4))
        .map(|_| Fields::random(random))
        .collect();
    let mut payloads: Vec<Vec<u8>> = Vec::new();
    for _ in 0..random.below(40) {
        let one = match random.below(10) {
            0 if !payloads.is_empty() => payloads[random.below(payloads.len())].clone(),
            1 | 2 => {
                let (kind, size) = (random.pick(&KINDS), random.below(1_030));
                sections::payload(random, kind, size)
            }
            3 => {
                let size = random.pick(&[0, 1, 7, 127, 128, 1_025, 2_000]);
                random.bytes(size)
            }
            _ => {
                let mut fields = random.pick(&few);
                fields.number = random.below(usize::from(fields.last) + 1) as u8;
                fields.version ^= u8::from(random.once_in(12));
                let size = random.pick(&[8, 9, 13, 14, 20, 127, 128, 1_024]);
                let mut section = sections::section(random, size, fields);
                if random.once_in(3) {
                    listed(random, &mut section);
                }
                section
            }
        };
        payloads.push(one);
    }
    payloads
}

fn recording(random: &mut Random, end: &str) -> Vec<u8> {
    let mut bytes = payloads(random)
        .iter()
        .flat_map(|p| led(p))
        .collect::<Vec<u8>>();
    match end {
        "whole" => {}
        "cut" => bytes.truncate(random.below(bytes.len() + 1)),
        "a byte changed" if bytes.is_empty() => {}
        "a byte changed" => {
            let at = random.below(bytes.len());
            bytes[at] = random.byte();
        }
        "a long spelling" => {
            let spelled: [&[u8]; 6] = [
                &[0x80, 0x00],
                &[0x80],
                &[0xFF, 0xFF],
                &[0xFF, 0xFF, 0x04],
                &[0x80, 0x80, 0x00],
                &[0x80, 0x80, 0x80, 0x01],
            ];
            bytes.extend(random.pick(&spelled));
            if random.once_in(2) {
                bytes.extend(led(&[0; 9]));
            }
        }
        _ => panic!("no such end: {end}"),
    }
    bytes
}

#[test]
fn random_recordings() {
    let mut random = Random::new(SEED);
    let mut tally = Tally::default();
    for end in ENDS {
        for _ in 0..share(200) {
            let recording = recording(&mut random, end);
            let (text, status) = expected(&recording, &mut |number| tally.note(end, number));
            said(&run(&[], &recording), &text, status);
        }
    }
    let answers = [0, 1, 2, 3, 4, 5, 6, 7, 8, 9, 10, 11, 46, CUT_OFF];
    tally.show(
        &format!("payloads of recordings, {CUT_OFF} where cut off, seed {SEED:#018X}"),
        &answers,
    );
}

/// The largest payload that a length can say is read whole, and so is what follows it.
#[test]
fn the_largest_payload() {
    let sound = led(b"\xC9\x70\x05\x12\x34\xC7\x00\x00");
    let long = led(&[0; 65_535]);
    assert_eq!(long[..3], [0xFF, 0xFF, 0x03]);
    let (text, status) = expected(&[&long[..], &sound].concat(), &mut |_| {});
    assert!(text.starts_with("payload 1 bytes 65535: refused 2, ") && status == 0);
    said(&run(&[], &[&long[..], &sound].concat()), &text, 0);
    let text = "payload 1: cut off, 65534 bytes of 65535\nno table is held\n";
    said(&run(&[], &long[..long.len() - 1]), text, 1);
}

#[test]
fn how_a_recording_ends() {
    said(&run(&[], &[]), "no table is held\n", 0);
    said(&run(&["-"], &[]), "no table is held\n", 0);
    let sound = led(b"\xC9\x70\x05\x12\x34\xC7\x00\x01");
    let held = "payload 1 bytes 8: began\n";
    let table = "table 201 key 4660 version 3 last 1\nmissing 1\n";
    said(&run(&[], &sound), &format!("{held}{table}"), 0);
    let ends: [(&[u8], String); 5] = [
        (&[40], "cut off, 0 bytes of 40".into()),
        (&[40, 1, 2], "cut off, 2 bytes of 40".into()),
        (&[0x80], refused(11)),
        (&[0x80, 0x00, 7], refused(11)),
        (&[0x80, 0x80, 0x04], refused(11)),
    ];
    for (end, line) in ends {
        let text = format!("{held}payload 2: {line}\n{table}");
        said(&run(&[], &[&sound[..], end].concat()), &text, 1);
    }
    // A payload that is refused does not end the recording, and is none of its faults.
    let text = format!("payload 1 bytes 0: {}\nno table is held\n", refused(1));
    said(&run(&[], &[0]), &text, 0);
}

/// Programme lists of two services, and of two starts, with one extension are told as tables of their own.
#[test]
fn two_services() {
    let list = |version: u8, service: u8, start: u8| {
        let head = [0xDF, 0x70, 0x0B, 0x10, 0x01, 0xC1 | version << 1, 0, 0];
        led(&[&head[..], &[0, service, 0x3B, 0x9A, 0xCD, start]].concat())
    };
    let lists = [list(3, 7, 0x20), list(4, 8, 0x20), list(5, 7, 0x21)];
    let recording = [lists.concat(), lists.concat()].concat();
    let mut text = String::new();
    for (n, did) in ["began", "began", "began", "repeat", "repeat", "repeat"]
        .iter()
        .enumerate()
    {
        text += &format!("payload {} bytes 14: {did}\n", n + 1);
    }
    for (version, service, start) in [
        (3, 7, 1_000_000_800),
        (4, 8, 1_000_000_800),
        (5, 7, 1_000_000_801),
    ] {
        text += &format!("table 223 key 4097 service {service} start {start} version {version} last 0\ncomplete\n");
    }
    assert_eq!(expected(&recording, &mut |_| {}), (text.clone(), 0));
    said(&run(&[], &recording), &text, 0);
    // One that has no room for its key is refused, and is none of the recording's faults.
    let short = led(&[
        0xDF, 0x70, 0x0A, 0x10, 0x01, 0xC7, 0, 0, 0, 7, 0x3B, 0x9A, 0xCD,
    ]);
    let text = format!("payload 1 bytes 13: {}\nno table is held\n", refused(46));
    said(&run(&[], &short), &text, 0);
}

/// A row's bytes as samples/README.md writes them: two digits each in a text between marks, and `N times` of one.
fn written(cell: &str) -> Vec<u8> {
    let hex = |text: &str| -> Vec<u8> {
        let bytes = text.split_whitespace();
        bytes
            .map(|b| u8::from_str_radix(b, 16).expect("two digits"))
            .collect()
    };
    let parts: Vec<_> = cell.split('`').collect();
    let mut bytes = Vec::new();
    for pair in parts.chunks(2) {
        let [before, text] = pair else { break };
        let times = before.trim().strip_prefix(", then ");
        let times = times.map_or(1, |words| {
            let number = words.strip_suffix(" times").expect("how many times");
            number.parse().expect("a number")
        });
        bytes.extend(hex(text).repeat(times));
    }
    bytes
}

/// The sample is the recording that its page tells, has every kind of line that goes before a cut, and is told as its text says.
#[test]
fn the_sample() {
    let page = fs::read_to_string(top("samples/README.md")).expect("the page");
    let (_, rows) = page.split_once("|---|---|---|\n").expect("the rows");
    let mut made = Vec::new();
    for row in rows.lines() {
        let cells: Vec<_> = row.split('|').collect();
        made.extend(written(cells[1]));
        made.extend(written(cells[2]));
    }
    let sample = top("samples/recording.bin");
    let sample = sample.to_str().expect("a path");
    assert!(fs::read(sample).expect("the sample") == made, "the page");
    let text = fs::read_to_string(top("samples/recording.txt")).expect("the text");
    let (told, status) = expected(&made, &mut |_| {});
    assert_eq!((told.as_str(), status), (text.as_str(), 1));
    said(
        &replay(&[sample]).output().expect("the replay ends"),
        &text,
        1,
    );
    said(&run(&[], &made), &text, 1);
    for end in ["began", "began again", "added", "repeat"] {
        assert!(text.contains(&format!(": {end}\n")), "{end}");
    }
    for part in [": refused ", ": cut off, ", "\nmissing ", "\ncomplete\n"] {
        assert!(text.contains(part), "{part}");
    }
}

#[test]
fn words() {
    let usage = "usage: khumsafil-offer [FILE]\n\
                 without FILE, or with -, the recording is on the standard input";
    for wrong in [
        &["a", "b"][..],
        &["--no-such-word"],
        &["-", "-"],
        &["-x"],
        &[""],
    ] {
        silent(&run(wrong, &[]), usage, 2);
    }
    said(&run(&["--help"], &[]), &format!("{usage}\n"), 0);
}

/// A read that fails is not the end of a recording, and lines that cannot be written are no success.
#[test]
fn what_the_system_refuses() {
    let folder = File::open(top(".")).expect("a folder");
    let output = replay(&[]).stdin(folder).output();
    silent(
        &output.expect("the replay ends"),
        "khumsafil-offer: read failed",
        1,
    );
    let folder = top("samples");
    let output = replay(&[folder.to_str().expect("a path")]).output();
    silent(
        &output.expect("the replay ends"),
        "khumsafil-offer: read failed",
        1,
    );
    let nowhere = top("samples/there is no such file");
    let output = replay(&[nowhere.to_str().expect("a path")])
        .output()
        .expect("the replay ends");
    let why = String::from_utf8_lossy(&output.stderr);
    assert!(
        why.starts_with(&format!(
            "khumsafil-offer: {} cannot be read: ",
            nowhere.display()
        )),
        "{why}"
    );
    assert_eq!((output.status.code(), output.stdout.len()), (Some(2), 0));
    let full = OpenOptions::new().write(true).open("/dev/full");
    let child = replay(&[])
        .stdout(full.expect("a device that is full"))
        .stderr(Stdio::piped())
        .spawn();
    let output = child.expect("the replay starts").wait_with_output();
    silent(
        &output.expect("the replay ends"),
        "khumsafil-offer: write failed",
        1,
    );
}
