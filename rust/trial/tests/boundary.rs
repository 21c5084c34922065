//! The headers, the wrapper's declarations and the Rattle source say the same.

use std::collections::BTreeMap;
use std::fs;
use std::path::{Path, PathBuf};
use trial::declarations::{
    enumerations_in_header, in_header, in_rattle, in_rust, inline_in_header, numbers_in_header,
    variants_in_rattle, Function,
};
use trial::top;

fn text(path: impl AsRef<Path>) -> String {
    let path = path.as_ref();
    fs::read_to_string(path).unwrap_or_else(|e| panic!("{}: {e}", path.display()))
}

/// The files below a folder whose names end so.
fn files(folder: &Path, end: &str) -> Vec<PathBuf> {
    let mut found = Vec::new();
    for entry in fs::read_dir(folder).unwrap_or_else(|e| panic!("{}: {e}", folder.display())) {
        let path = entry.expect("a folder's entry").path();
        if path.is_dir() {
            found.extend(files(&path, end));
        } else if path.to_string_lossy().ends_with(end) {
            found.push(path);
        }
    }
    found.sort();
    found
}

fn sorted(mut functions: Vec<Function>) -> Vec<Function> {
    functions.sort();
    functions
}

#[test]
fn declarations_agree() {
    let header = sorted(in_header(&text(top("include/khumsafil_raw.h"))));
    let rust = sorted(in_rust(&text(top("rust/khumsafil/src/boundary.rs"))));
    let sources = files(&top("crates/khumsafil_c/src"), ".rt");
    let rattle = sorted(
        sources
            .iter()
            .flat_map(|file| in_rattle(&text(file)))
            .collect(),
    );
    assert_eq!(header, rust, "the header and the wrapper");
    assert_eq!(header, rattle, "the header and the Rattle source");
    assert!(!header.is_empty());
    println!(
        "{} functions, declared alike in C, Rust and Rattle:",
        header.len()
    );
    for function in &header {
        let name = &function.name;
        assert!(name.starts_with("khumsafil_raw_"), "{name}");
        println!("  {name}");
    }
}

/// Whether a name stands in a text as a whole word.
fn has_word(text: &str, name: &str) -> bool {
    text.split(|c: char| !c.is_alphanumeric() && c != '_')
        .any(|word| word == name)
}

/// Every raw function is called by an inline function of khumsafil.h, and no other function of that prefix is; and every
/// inline function that a host calls is called by `answers.c`.
#[test]
fn the_inline_functions_reach_all() {
    let raw = in_header(&text(top("include/khumsafil_raw.h")));
    let inline = inline_in_header(&text(top("include/khumsafil.h")));
    let bodies: String = inline.iter().map(|f| f.body.clone() + "\n").collect();
    for function in &raw {
        assert!(has_word(&bodies, &function.name), "{}", function.name);
    }
    let words = bodies.split(|c: char| !c.is_alphanumeric() && c != '_');
    for word in words.filter(|word| word.starts_with("khumsafil_raw_")) {
        assert!(raw.iter().any(|function| function.name == word), "{word}");
    }
    let tried = text(top("rust/trial/tests/answers.c"));
    let called: Vec<_> = inline.iter().filter(|f| !f.name.ends_with('_')).collect();
    for function in &called {
        assert!(function.name.starts_with("khumsafil_"), "{}", function.name);
        assert!(has_word(&tried, &function.name), "{}", function.name);
    }
    println!(
        "{} inline functions over {} raw ones",
        called.len(),
        raw.len()
    );
}

/// A caller that is not Rattle is held to nothing, so no exported function may ask anything of it.
#[test]
fn no_exported_function_asks() {
    for file in files(&top("crates/khumsafil_c/src"), ".rt") {
        for exported in text(&file).split("extern \"C\" fn ").skip(1) {
            let (contract, _) = exported.split_once("\n{").expect("a body");
            assert!(!contract.contains("requires"), "{contract}");
        }
    }
}

/// The functions of a file of Rattle that begin so: each one's name, its head with its clauses in one line, and its body.
fn promises(text: &str, start: &str) -> BTreeMap<String, (String, String)> {
    let one_line = |text: &str| text.split_whitespace().collect::<Vec<_>>().join(" ");
    let mut found = BTreeMap::new();
    for piece in format!("\n{text}").split(&format!("\n{start}")).skip(1) {
        let (name, _) = piece.split_once('(').expect("the parameters");
        let (head, rest) = piece.split_once("\n{\n").expect("a body");
        let (body, _) = rest.split_once("\n}").expect("the body's end");
        // Whether the parameters stand in a line or in one each is the layout's to choose.
        let head = one_line(head).replace("( ", "(").replace(", )", ")");
        found.insert(
            name.to_string(),
            (head, one_line(body).replace("( ", "(").replace(", )", ")")),
        );
    }
    found
}

/// What C links has the clauses of the function that the theorems speak of, word for word, and passes its arguments on as they came.
#[test]
fn exports_promise_what_they_pass_on() {
    let mut count = 0;
    for file in files(&top("crates/khumsafil_c/src"), ".rt") {
        let layer = file
            .file_stem()
            .expect("a name")
            .to_string_lossy()
            .to_string();
        if layer == "lib" {
            continue;
        }
        let inner = text(top("crates/khumsafil/src").join(format!("{layer}.rt")));
        let inner = promises(&inner, "pub fn ");
        let outer = promises(&text(&file), "pub extern \"C\" fn ");
        let names: Vec<_> = outer.keys().collect();
        assert_eq!(names, inner.keys().collect::<Vec<_>>(), "{layer}");
        for (name, (head, body)) in &outer {
            assert_eq!(head, &inner[name].0);
            let (parameters, _) = head.split_once(')').expect("the parameters' end");
            let (_, parameters) = parameters.split_once('(').expect("the parameters");
            let passed = parameters
                .split(", ")
                .filter_map(|p| Some(p.split_once(':')?.0));
            let passed = passed.collect::<Vec<_>>().join(", ");
            assert_eq!(body, &format!("khumsafil::{layer}::{name}({passed})"));
            count += 1;
        }
    }
    assert!(count > 0);
    println!("{count} exports");
}

/// The constants of an enumeration of khumsafil.h.
fn constants(name: &str) -> Vec<(String, u64)> {
    let found = enumerations_in_header(&text(top("include/khumsafil.h")));
    let mut found = found.into_iter().filter(|(found, _)| found == name);
    found.next().unwrap_or_else(|| panic!("{name}")).1
}

/// Each number of refusal has one name and one number, in the header, the wrapper and the Rattle source.
#[test]
fn refusals_agree() {
    let rattle = variants_in_rattle(&text(top("crates/refusal/src/lib.rt")), "Refusal");
    let ours = khumsafil::Refusal::ALL.iter();
    let ours: Vec<_> = ours
        .map(|(name, refusal)| (name.to_string(), u64::from(refusal.number())))
        .collect();
    let mut header = constants("khumsafil_refusal");
    let accepted = ("KHUMSAFIL_NOT_REFUSED".to_string(), 0);
    assert_eq!(header.remove(0), accepted);
    for (name, _) in &mut header {
        *name = name.replacen("KHUMSAFIL_REFUSED_", "", 1);
    }
    assert_eq!(header, ours, "the header and the wrapper");
    assert_eq!(rattle, ours, "the Rattle source and the wrapper");
    println!(
        "{} numbers of refusal, alike in C, Rust and Rattle",
        ours.len()
    );
}

/// The sizes in the header, and its version, are the wrapper's and the library's.
#[test]
fn sizes_agree() {
    use khumsafil::programme::{self, Flags};
    let flag = |flags: Flags| usize::from(flags.0);
    let raw = numbers_in_header(&text(top("include/khumsafil_raw.h")));
    let ours = [
        ("SHELF_RECORD", khumsafil::shelf::RECORD),
        ("STORE", khumsafil::shelf::STORE),
        ("PLACES", khumsafil::shelf::PLACES),
        ("SECTIONS", khumsafil::shelf::SECTIONS),
        ("CLOCK_RECORD", khumsafil::clock::RECORD),
        ("TABLE_FIELDS", khumsafil::shelf::TABLE_FIELDS),
        ("TRIGGER_FIELDS", khumsafil::trigger::FIELDS),
        ("PROGRAMME_FIELDS", programme::FIELDS),
        ("ITEM_FIELDS", programme::ITEM_FIELDS),
        ("MOST_ITEMS", programme::MOST_ITEMS),
        ("LARGEST_SECTION", khumsafil::shelf::LARGEST_SECTION),
        ("LARGEST_FILE", khumsafil::shelf::LARGEST_FILE),
        ("LARGEST_LIST", khumsafil::file::LARGEST_LIST),
        ("PROGRAMME_TEXT", khumsafil::programme::TEXT),
        ("LARGEST_TRIGGER", khumsafil::trigger::LARGEST),
        ("LARGEST_BODY", khumsafil::writer::LARGEST_BODY),
        ("SECTION_HEADER", khumsafil::section::HEADER),
        ("DESCRIPTOR_HEAD", khumsafil::descriptor::HEAD),
        ("PROGRAMME_TABLE", programme::TABLE_ID.into()),
        ("FIRST_ITEM", programme::FIRST_ITEM),
        ("TABLE_ID", 0),
        ("TABLE_EXTENSION", 1),
        ("TABLE_SERVICE_ID", 2),
        ("TABLE_START_HIGH", 3),
        ("TABLE_START_LOW", 4),
        ("TABLE_VERSION", 5),
        ("TABLE_LAST", 6),
        ("TABLE_LENGTHS", 7),
        ("TRIGGER_ID_LENGTH", 0),
        ("TRIGGER_DESCRIPTION", 1),
        ("TRIGGER_ID_PLACE", 2),
        ("TRIGGER_ID_BYTES", 3),
        ("TRIGGER_KIND", 4),
        ("TRIGGER_TYPE", 5),
        ("TRIGGER_FIRST", 6),
        ("TRIGGER_SECOND", 7),
        ("TRIGGER_THIRD", 8),
        ("TRIGGER_USER_PLACE", 9),
        ("TRIGGER_USER_BYTES", 10),
        ("PROGRAMME_SERVICE_ID", 0),
        ("PROGRAMME_TIME_SPAN_START", 1),
        ("PROGRAMME_TIME_SPAN_LENGTH", 2),
        ("PROGRAMME_ITEMS", 3),
        ("ITEM_LINKAGE", 0),
        ("ITEM_FLAGS", 1),
        ("ITEM_PLAYBACK_LENGTH", 2),
        ("ITEM_PLAYBACK_DELAY", 3),
        ("ITEM_EXPIRATION", 4),
        ("ITEM_CONTENT_SIZE", 5),
        ("ITEM_NAME_PLACE", 6),
        ("ITEM_DESCRIPTORS", 7),
        ("ITEM_DESCRIPTORS_PLACE", 8),
        ("ITEM_NEXT", 9),
        ("FLAG_UPDATES_AVAILABLE", flag(Flags::UPDATES_AVAILABLE)),
        ("FLAG_TF_AVAILABLE", flag(Flags::TF_AVAILABLE)),
        (
            "FLAG_CONTENT_SECURITY_CONDITIONS_INDICATOR",
            flag(Flags::CONTENT_SECURITY_CONDITIONS_INDICATOR),
        ),
        ("FLAG_MASTER_ITEM", flag(Flags::MASTER_ITEM)),
        (
            "FLAG_PLAYBACK_LENGTH_INCLUDED",
            flag(Flags::PLAYBACK_LENGTH_INCLUDED),
        ),
        (
            "FLAG_PLAYBACK_DELAY_INCLUDED",
            flag(Flags::PLAYBACK_DELAY_INCLUDED),
        ),
        ("FLAG_EXPIRATION_INCLUDED", flag(Flags::EXPIRATION_INCLUDED)),
        (
            "FLAG_CONTENT_SIZE_INCLUDED",
            flag(Flags::CONTENT_SIZE_INCLUDED),
        ),
        (
            "FLAG_AVAILABLE_ON_INTERNET",
            flag(Flags::AVAILABLE_ON_INTERNET),
        ),
        (
            "FLAG_AVAILABLE_IN_BROADCAST",
            flag(Flags::AVAILABLE_IN_BROADCAST),
        ),
    ];
    let ours = ours.map(|(name, size)| (format!("KHUMSAFIL_{name}"), size as u64));
    assert_eq!(raw, ours);

    let header = text(top("include/khumsafil.h"));
    let version = u64::from(khumsafil::VERSION);
    let there = ("KHUMSAFIL_VERSION".to_string(), version);
    assert_eq!(numbers_in_header(&header), [there]);
    assert_eq!(khumsafil::version(), khumsafil::VERSION);
    let [_, major, minor, patch] = khumsafil::VERSION.to_be_bytes();
    let words = format!("#define KHUMSAFIL_VERSION_TEXT \"{major}.{minor}.{patch}\"");
    assert!(header.lines().any(|line| line == words), "{words}");
}

/// The enumerations of the header are the wrapper's: of an answer, one constant more is 0 and says that it was refused.
#[test]
fn enumerations_agree() {
    use khumsafil::clock::{Action, State};
    use khumsafil::shelf::Accepted;
    let agree = |name: &str, ours: &[(&str, usize)]| {
        let ours = ours.iter();
        let ours: Vec<_> = ours
            .map(|(name, number)| (format!("KHUMSAFIL_{name}"), *number as u64))
            .collect();
        assert_eq!(constants(name), ours, "{name}");
    };
    agree(
        "khumsafil_accepted",
        &[
            ("SHELF_NOT_ACCEPTED", 0),
            ("SHELF_BEGAN", Accepted::Began as usize),
            ("SHELF_BEGAN_AGAIN", Accepted::BeganAgain as usize),
            ("SHELF_ADDED", Accepted::Added as usize),
            ("SHELF_REPEAT", Accepted::Repeat as usize),
        ],
    );
    agree(
        "khumsafil_action",
        &[
            ("ACTION_PREP", Action::Prep as usize),
            ("ACTION_EXEC", Action::Exec as usize),
            ("ACTION_SUSP", Action::Susp as usize),
            ("ACTION_KILL", Action::Kill as usize),
        ],
    );
    agree(
        "khumsafil_state_kind",
        &[
            ("STATE_NOT_KNOWN", 0),
            ("STATE_RELEASED", State::Released as usize + 1),
            ("STATE_READY", State::Ready as usize + 1),
            ("STATE_ACTIVE", State::Active as usize + 1),
            ("STATE_SUSPENDED", State::Suspended as usize + 1),
        ],
    );
    // All but actions, which a host gives, have a constant for a refused answer.
    for (name, constants) in enumerations_in_header(&text(top("include/khumsafil.h"))) {
        let (first, number) = &constants[0];
        let refused = ["_NOT_", "_NOTHING"].iter().any(|w| first.contains(w));
        assert!(
            *number == 0 && (refused || name == "khumsafil_action"),
            "{name}"
        );
    }
}
