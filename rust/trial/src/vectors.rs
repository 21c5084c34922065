//! The named vectors of `vectors/`, in the grammar of its README. A line that is not in it fails.

use std::collections::{BTreeMap, BTreeSet};
use std::fs;
use std::path::Path;

/// The arguments of a line by name. Each is taken once, and one that is left over fails.
#[derive(Clone, Debug)]
pub struct Arguments(BTreeMap<String, String>);

impl Arguments {
    fn of<'a>(words: impl Iterator<Item = &'a str>) -> Arguments {
        let mut found = BTreeMap::new();
        for word in words {
            let (name, value) = word.split_once('=').expect("NAME=VALUE");
            let before = found.insert(name.to_string(), value.to_string());
            assert!(before.is_none(), "{name} twice");
        }
        Arguments(found)
    }

    pub fn text(&mut self, name: &str) -> String {
        self.0.remove(name).unwrap_or_else(|| panic!("no {name}"))
    }

    pub fn number<T: TryFrom<u64>>(&mut self, name: &str) -> T {
        self.maybe(name).unwrap_or_else(|| panic!("no {name}"))
    }

    /// A number that may lack.
    pub fn maybe<T: TryFrom<u64>>(&mut self, name: &str) -> Option<T> {
        let value = self.0.remove(name)?;
        let number = decimal(&value).and_then(|n| n.try_into().ok());
        Some(number.unwrap_or_else(|| panic!("{name}={value}")))
    }

    pub fn bytes(&mut self, name: &str) -> Vec<u8> {
        bytes(&self.text(name))
    }

    /// The lengths of sixteen sections, 0 where one is not held.
    pub fn held(&mut self, name: &str) -> [u16; 16] {
        let mut lengths = [0; 16];
        let text = self.text(name);
        for one in text.split('+').filter(|one| *one != "-") {
            let (number, length) = one.split_once(':').expect("NUMBER:LENGTH");
            let number = decimal(number).expect("a section number") as usize;
            lengths[number] = decimal(length).expect("a length") as u16;
        }
        lengths
    }

    pub fn end(self) {
        assert!(self.0.is_empty(), "arguments left over: {:?}", self.0);
    }
}

fn decimal(text: &str) -> Option<u64> {
    let digits = !text.is_empty() && text.bytes().all(|b| b.is_ascii_digit());
    digits.then(|| text.parse().ok()).flatten()
}

/// Bytes as a vector spells them.
fn bytes(text: &str) -> Vec<u8> {
    let mut found = Vec::new();
    for part in text.split('+').filter(|_| text != "-") {
        let (digits, times) = part.split_once('*').unwrap_or((part, "1"));
        let pairs = digits.as_bytes().chunks(2).map(|pair| {
            let pair = std::str::from_utf8(pair).expect("digits");
            let whole = pair.len() == 2 && pair.bytes().all(|b| b.is_ascii_hexdigit());
            assert!(whole, "bytes: {part}");
            u8::from_str_radix(pair, 16).expect("two digits")
        });
        let run: Vec<u8> = pairs.collect();
        let times = decimal(times).expect("a count") as usize;
        assert!(!run.is_empty() && times > 0, "bytes: {part}");
        found.extend(run.repeat(times));
    }
    found
}

/// Bytes in the one spelling that answers are compared in.
pub fn spelt(bytes: &[u8]) -> String {
    match bytes {
        [] => "-".to_string(),
        _ => bytes.iter().map(|b| format!("{b:02X}")).collect(),
    }
}

/// The sections that are held, as a vector spells them.
pub fn spelt_held(lengths: &[u16; 16]) -> String {
    let held = lengths
        .iter()
        .enumerate()
        .filter(|(_, length)| **length > 0);
    let held: Vec<_> = held.map(|(n, length)| format!("{n}:{length}")).collect();
    match held.is_empty() {
        true => "-".to_string(),
        false => held.join("+"),
    }
}

/// The answer in the one spelling in which answers are compared.
fn answer(rest: &str) -> String {
    let words = rest.split(' ').map(|word| match word.split_once('=') {
        Some((name @ ("body" | "bytes" | "content"), value)) => {
            format!("{name}={}", spelt(&bytes(value)))
        }
        _ => word.to_string(),
    });
    words.collect::<Vec<_>>().join(" ")
}

/// A call and its answer.
#[derive(Clone, Debug)]
pub struct Call {
    pub function: String,
    pub with: Arguments,
    /// The faults that it has at once, of which the first is answered.
    pub faults: Option<(u8, u8)>,
    /// In one spelling; lines of a text or items follow it.
    pub answer: String,
}

impl Call {
    /// The number of refusal that is answered.
    pub fn refused(&self) -> Option<u8> {
        let number = self.answer.strip_prefix("refused ")?;
        Some(number.parse().expect("a number of refusal"))
    }
}

/// A line of a vector that is not part of another.
#[derive(Clone, Debug)]
pub enum Step {
    Lend(Arguments),
    Place(Arguments),
    Clock(Arguments),
    Held(Arguments),
    Call(Call),
}

#[derive(Clone, Debug)]
pub struct Vector {
    pub file: String,
    pub name: String,
    pub steps: Vec<Step>,
}

impl Vector {
    pub fn calls(&self) -> impl Iterator<Item = &Call> {
        self.steps.iter().filter_map(|step| match step {
            Step::Call(call) => Some(call),
            _ => None,
        })
    }
}

/// The vectors of a file's text.
pub fn parse(file: &str, text: &str) -> Vec<Vector> {
    let mut found: Vec<Vector> = Vec::new();
    let mut faults = None;
    // Whether the call before the line has its answer.
    let mut answered = true;
    for (at, line) in text.lines().enumerate() {
        let place = format!("{file}:{}", at + 1);
        if line.is_empty() || line.starts_with('#') {
            continue;
        }
        let (word, rest) = line.split_once(' ').unwrap_or((line, ""));
        let arguments = || Arguments::of(rest.split(' ').filter(|word| !word.is_empty()));
        if word == "vector" {
            assert!(answered && faults.is_none() && !rest.is_empty(), "{place}");
            let (file, name) = (file.to_string(), rest.to_string());
            found.push(Vector {
                file,
                name,
                steps: Vec::new(),
            });
            continue;
        }
        let vector = found.last_mut().unwrap_or_else(|| panic!("{place}"));
        let begun = vector.calls().next().is_some();
        let last = match vector.steps.last_mut() {
            Some(Step::Call(call)) => Some(call),
            _ => None,
        };
        assert!(answered || word == "answer", "{place}: a call's answer");
        match (word, last) {
            ("answer", Some(call)) if !answered => {
                call.answer = answer(rest);
                answered = true;
                if let Some((first, _)) = call.faults {
                    assert_eq!(
                        call.refused(),
                        Some(first),
                        "{place}: the first of two faults"
                    );
                }
            }
            ("line", Some(call)) if call.answer.starts_with("text") => {
                call.answer = format!("{}\n{rest}", call.answer);
            }
            ("item", Some(call)) if call.answer.starts_with("items=") => {
                call.answer = format!("{}\n{line}", call.answer);
            }
            ("lend", _) if !begun => vector.steps.push(Step::Lend(arguments())),
            ("place", _) if !begun => vector.steps.push(Step::Place(arguments())),
            ("clock", _) if !begun => vector.steps.push(Step::Clock(arguments())),
            ("held", _) if !begun => vector.steps.push(Step::Held(arguments())),
            ("faults", _) if faults.is_none() => {
                let (first, second) = rest.split_once(' ').unwrap_or_else(|| panic!("{place}"));
                let number = |text: &str| decimal(text).and_then(|n| u8::try_from(n).ok());
                faults = number(first).zip(number(second));
                assert!(faults.is_some() && first != second, "{place}");
            }
            ("call", _) => {
                let mut words = rest.split(' ');
                let function = words.next().unwrap_or_default().to_string();
                vector.steps.push(Step::Call(Call {
                    function,
                    with: Arguments::of(words),
                    faults: faults.take(),
                    answer: String::new(),
                }));
                answered = false;
            }
            _ => panic!("{place}: {line}"),
        }
    }
    assert!(answered && faults.is_none(), "{file}: a call's answer");
    found
}

/// The vectors of every file of a folder, by the files' names. A name that stands twice, and a vector without a call, fail.
pub fn all(folder: &Path) -> Vec<Vector> {
    let entries = fs::read_dir(folder).unwrap_or_else(|e| panic!("{}: {e}", folder.display()));
    let mut paths: Vec<_> = entries.map(|e| e.expect("an entry").path()).collect();
    paths.sort();
    let mut found = Vec::new();
    for path in paths {
        let name = path.file_name().expect("a name").to_string_lossy();
        if name == "README.md" {
            continue;
        }
        let text = fs::read_to_string(&path).unwrap_or_else(|e| panic!("{name}: {e}"));
        found.extend(parse(&name, &text));
    }
    let names: BTreeSet<_> = found.iter().map(|vector| &vector.name).collect();
    assert_eq!(names.len(), found.len(), "a name that stands twice");
    for vector in &found {
        assert!(vector.calls().next().is_some(), "{}: no call", vector.name);
    }
    found
}

#[cfg(test)]
mod tests {
    use super::*;

    const TEXT: &str = "# a file\n\nvector one\nlend store=7\nfaults 17 18\ncall f a=1 b=C9+00*3 c=0:8+3:9\nanswer refused 17\n\
        call g\nanswer bytes=00*2+ab\n\nvector two\ncall h\nanswer text\nline x y\nline z\n\
        call i\nanswer items=1 next=2\nitem a=1\n";

    #[test]
    fn a_file_is_read() {
        let found = parse("file", TEXT);
        assert_eq!(found.len(), 2);
        let calls: Vec<_> = found[0].calls().cloned().collect();
        assert_eq!(
            (calls[0].refused(), calls[0].faults),
            (Some(17), Some((17, 18)))
        );
        let mut with = calls[0].with.clone();
        assert_eq!(with.number::<u8>("a"), 1);
        assert_eq!(with.bytes("b"), [0xC9, 0, 0, 0]);
        assert_eq!(with.held("c")[..5], [8, 0, 0, 9, 0]);
        with.end();
        assert_eq!(
            (&calls[1].answer[..], calls[1].refused()),
            ("bytes=0000AB", None)
        );
        let answers: Vec<_> = found[1].calls().map(|call| &call.answer[..]).collect();
        assert_eq!(answers, ["text\nx y\nz", "items=1 next=2\nitem a=1"]);
        assert_eq!(spelt_held(&[0; 16]), "-");
    }

    #[test]
    fn an_unreadable_line_fails() {
        for (old, new) in [
            ("vector one\n", ""),
            ("answer refused 17\n", ""),
            ("answer refused 17", "answer refused 18"),
            ("faults 17 18", "faults 17"),
            ("faults 17 18", "faults 17 17"),
            ("lend store=7", "borrow store=7"),
            ("lend store=7", "lend store"),
            ("a=1", "a=1 a=2"),
            ("line z", "z"),
            ("line z", "item z"),
            ("items=1 next=2", "over"),
            ("call h\n", ""),
            ("bytes=00*2+ab", "bytes=0*2"),
            ("bytes=00*2+ab", "bytes=+1"),
            ("bytes=00*2+ab", "bytes=00**2"),
            ("answer bytes=00*2+ab", "answer bytes=00\nlend store=7"),
        ] {
            let text = TEXT.replacen(old, new, 1);
            assert_ne!(text, TEXT, "{old}");
            let read = std::panic::catch_unwind(|| parse("file", &text));
            assert!(read.is_err(), "{new}");
        }
    }
}
