//! Makes the shelf file of a bench's table: table id, extension and version as arguments, the body on the standard input, the
//! file on the standard output. The file is computed by the proved library; here bytes are only read and written.

#![forbid(unsafe_code)]

use khumsafil::shelf::LARGEST_FILE;
use khumsafil::writer::{self, Label, LARGEST_BODY};
use khumsafil::Key;
use std::env;
use std::io::{self, Read, Write};
use std::process::ExitCode;

const USAGE: &str = "usage: khumsafil-feed TABLE EXTENSION VERSION <BODY >FILE
TABLE is 0 to 255 but not 223, EXTENSION 0 to 65535, VERSION 0 to 31";

/// Why there is no file.
enum Fault {
    /// The arguments are no label.
    Usage,
    /// The library's number, or what failed.
    Said(String),
}

/// A number in decimal digits; one that is too large for any field is as large as numbers go.
fn number(word: &str) -> Option<u64> {
    let digits = !word.is_empty() && word.bytes().all(|b| b.is_ascii_digit());
    digits.then(|| word.parse().unwrap_or(u64::MAX))
}

/// Three numbers, and no more. Every version above 31, and table 223, the NRT-IT, are the library's to refuse.
fn label(words: &[String]) -> Option<Label> {
    let [table, extension, version] = words else {
        return None;
    };
    let key = Key::new(
        u8::try_from(number(table)?).ok()?,
        u16::try_from(number(extension)?).ok()?,
    );
    let version = u8::try_from(number(version)?).unwrap_or(u8::MAX);
    Some(Label::new(key, version))
}

/// Reads the body and writes its file. One byte more than the longest body is read, so that a longer one is refused and not cut.
fn feed() -> Result<(), Fault> {
    let words: Option<Vec<_>> = env::args_os()
        .skip(1)
        .map(|w| w.into_string().ok())
        .collect();
    let label = words.and_then(|words| label(&words)).ok_or(Fault::Usage)?;
    let mut body = Vec::new();
    let mut input = io::stdin().lock().take(LARGEST_BODY as u64 + 1);
    input
        .read_to_end(&mut body)
        .map_err(|_| Fault::Said("khumsafil-feed: read failed".into()))?;
    let mut file = [0; LARGEST_FILE];
    let size = writer::file(label, &body, &mut file).map_err(|refusal| {
        Fault::Said(format!("refused {}, {}", refusal.number(), refusal.text()))
    })?;
    let mut output = io::stdout().lock();
    output
        .write_all(&file[..size])
        .and_then(|()| output.flush())
        .map_err(|_| Fault::Said("khumsafil-feed: write failed".into()))
}

fn main() -> ExitCode {
    if env::args_os().skip(1).eq(["--help"]) {
        println!("{USAGE}");
        return ExitCode::SUCCESS;
    }
    match feed() {
        Ok(()) => ExitCode::SUCCESS,
        Err(Fault::Said(why)) => {
            eprintln!("{why}");
            ExitCode::FAILURE
        }
        Err(Fault::Usage) => {
            eprintln!("{USAGE}");
            ExitCode::from(2)
        }
    }
}
