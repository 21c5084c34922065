//! Replays a recording: payloads, each led by its length as a seven-bit number, are offered to a shelf. A line says what each did,
//! and lines at the end which tables are held and what is missing of them. The lengths are read, the payloads judged and the
//! tables kept by the proved library; here bytes are only read and lines written.

#![forbid(unsafe_code)]

use khumsafil::shelf::{Accepted, Shelf, STORE};
use khumsafil::{file, Refusal};
use std::env;
use std::ffi::OsString;
use std::fs::File;
use std::io::{self, BufReader, Read, Write};
use std::process::ExitCode;

const USAGE: &str = "usage: khumsafil-offer [FILE]
without FILE, or with -, the recording is on the standard input";

/// The most bytes of a seven-bit number.
const LONGEST_NUMBER: usize = 3;

/// What comes next in a recording.
enum Next {
    /// Nothing: it ends where a length may begin.
    Over,
    Payload(Vec<u8>),
    /// A payload of `of` bytes, of which `there` are there.
    CutOff {
        there: usize,
        of: u16,
    },
    /// A length that cannot be read.
    NoLength(Refusal),
}

/// Why a replay ends before its last line.
enum Fault {
    Read,
    Write,
}

/// Reads as many bytes as are asked for, or fewer where the input ends.
fn take(input: &mut impl Read, size: usize) -> Result<Vec<u8>, Fault> {
    let mut bytes = Vec::new();
    let mut part = input.by_ref().take(size as u64);
    part.read_to_end(&mut bytes).map_err(|_| Fault::Read)?;
    Ok(bytes)
}

/// Reads a length and its payload. A byte more is read of the length as long as the library reads no number of those before it.
fn next(input: &mut impl Read) -> Result<Next, Fault> {
    let mut led_by = Vec::new();
    let length = loop {
        let more = take(input, 1)?;
        led_by.extend(&more);
        if led_by.is_empty() {
            return Ok(Next::Over);
        }
        match file::number(&led_by) {
            Ok(number) => break number.value,
            Err(refusal) if more.is_empty() || led_by.len() == LONGEST_NUMBER => {
                return Ok(Next::NoLength(refusal));
            }
            Err(_) => {}
        }
    };
    let payload = take(input, length.into())?;
    Ok(match payload.len() {
        there if there < length.into() => Next::CutOff { there, of: length },
        _ => Next::Payload(payload),
    })
}

/// A refusal's number and its words.
fn refused(refusal: Refusal) -> String {
    format!("refused {}, {}", refusal.number(), refusal.text())
}

/// What an offer did.
fn did(answer: Result<Accepted, Refusal>) -> String {
    match answer {
        Ok(Accepted::Began) => "began".into(),
        Ok(Accepted::BeganAgain) => "began again".into(),
        Ok(Accepted::Added) => "added".into(),
        Ok(Accepted::Repeat) => "repeat".into(),
        Err(refusal) => refused(refusal),
    }
}

/// The lines on the tables that are held.
fn tables(shelf: &Shelf) -> String {
    let mut text = String::new();
    for table in shelf.tables() {
        let (key, version, last) = (table.key, table.version, table.last);
        text += &format!("{key} version {version} last {last}\n");
        for number in table.missing() {
            text += &format!("missing {number}\n");
        }
        if shelf.is_complete(key) {
            text += "complete\n";
        }
    }
    if text.is_empty() {
        text += "no table is held\n";
    }
    text
}

/// Replays the recording, and says whether it is whole: read to its end, which no payload and no length runs past.
fn replay(input: &mut impl Read, output: &mut impl Write) -> Result<bool, Fault> {
    let mut store = vec![0; STORE];
    let mut shelf = Shelf::begin(&mut store).expect("a store of its size");
    let mut count: u64 = 0;
    let whole = loop {
        count += 1;
        let (line, last) = match next(input)? {
            Next::Over => break true,
            Next::Payload(payload) => {
                let size = payload.len();
                let did = did(shelf.offer(&payload));
                (format!("payload {count} bytes {size}: {did}"), false)
            }
            Next::CutOff { there, of } => (
                format!("payload {count}: cut off, {there} bytes of {of}"),
                true,
            ),
            Next::NoLength(refusal) => (format!("payload {count}: {}", refused(refusal)), true),
        };
        writeln!(output, "{line}").map_err(|_| Fault::Write)?;
        if last {
            break false;
        }
    };
    let text = tables(&shelf);
    output
        .write_all(text.as_bytes())
        .and_then(|()| output.flush())
        .map_err(|_| Fault::Write)?;
    Ok(whole)
}

/// Where the recording is; none where the words are not as they are to be.
fn input(words: &[OsString]) -> Option<io::Result<Box<dyn Read>>> {
    match words {
        [] => Some(Ok(Box::new(io::stdin().lock()))),
        [word] if word == "-" => Some(Ok(Box::new(io::stdin().lock()))),
        [word] if !word.is_empty() && !word.as_encoded_bytes().starts_with(b"-") => {
            Some(File::open(word).map(|file| Box::new(BufReader::new(file)) as Box<dyn Read>))
        }
        _ => None,
    }
}

fn main() -> ExitCode {
    let words: Vec<_> = env::args_os().skip(1).collect();
    if words == ["--help"] {
        println!("{USAGE}");
        return ExitCode::SUCCESS;
    }
    let Some(opened) = input(&words) else {
        eprintln!("{USAGE}");
        return ExitCode::from(2);
    };
    let mut input = match opened {
        Ok(input) => input,
        Err(why) => {
            let file = words.first().map_or("".into(), |word| word.to_string_lossy());
            eprintln!("khumsafil-offer: {file} cannot be read: {why}");
            return ExitCode::from(2);
        }
    };
    match replay(&mut input, &mut io::stdout().lock()) {
        Ok(true) => ExitCode::SUCCESS,
        Ok(false) => ExitCode::FAILURE,
        Err(Fault::Read) => {
            eprintln!("khumsafil-offer: read failed");
            ExitCode::FAILURE
        }
        Err(Fault::Write) => {
            eprintln!("khumsafil-offer: write failed");
            ExitCode::FAILURE
        }
    }
}
