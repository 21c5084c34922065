//! The wrapper from outside: projects in a folder of their own that name it by its path, as another project would.

use std::fs;
use std::path::{Path, PathBuf};
use std::process::{Command, Output};

const WRAPPER: &str = env!("CARGO_MANIFEST_DIR");

/// Where the projects are made.
fn below(name: &str) -> PathBuf {
    Path::new(env!("CARGO_TARGET_TMPDIR"))
        .join("outside")
        .join(name)
}

/// A file with the folders that lead to it.
fn write(path: PathBuf, text: &str) {
    fs::create_dir_all(path.parent().expect("a folder")).expect("a folder");
    fs::write(&path, text).unwrap_or_else(|e| panic!("{}: {e}", path.display()));
}

/// A project that names the wrapper in a folder by its path.
struct Project {
    folder: PathBuf,
}

impl Project {
    fn new(name: &str, wrapper: &Path) -> Project {
        let folder = below(name);
        // What another run left is none of this one's.
        let _ = fs::remove_dir_all(&folder);
        let manifest = format!(
            "[package]\nname = \"{name}\"\nversion = \"0.1.0\"\nedition = \"2021\"\n\n\
             [dependencies]\nkhumsafil = {{ path = {:?} }}\n\n\
             [profile.release]\npanic = \"abort\"\n",
            wrapper.display().to_string()
        );
        write(folder.join("Cargo.toml"), &manifest);
        Project { folder }
    }

    fn with(self, path: &str, text: &str) -> Project {
        write(self.folder.join(path), text);
        self
    }

    /// Cargo in that project, without a network, with what it makes in a folder of the projects' own.
    fn cargo(&self, words: &[&str]) -> Command {
        let mut command = Command::new(std::env::var_os("CARGO").unwrap_or(env!("CARGO").into()));
        command
            .current_dir(&self.folder)
            .args(words)
            .args(["--offline", "--quiet"])
            .env("CARGO_TARGET_DIR", below("target"))
            .env_remove("RUSTFLAGS");
        command
    }
}

fn text(bytes: &[u8]) -> String {
    String::from_utf8_lossy(bytes).into_owned()
}

fn done(mut command: Command) -> Output {
    command.output().expect("cargo runs")
}

/// The folder with the library that this test is linked with.
fn native() -> PathBuf {
    match std::env::var_os("KHUMSAFIL_NATIVE") {
        Some(folder) => folder.into(),
        None => Path::new(WRAPPER).join("../../target/native"),
    }
}

/// A program that asks the buyer's question.
const HOST: &str = r#"use khumsafil::shelf::{Shelf, STORE};
use khumsafil::{Key, Refusal};

fn main() -> Result<(), Refusal> {
    let mut store = vec![0; STORE];
    let mut shelf = Shelf::begin(&mut store)?;
    shelf.offer(b"\xC9\x70\x0A\x12\x34\xC7\x00\x00Ferry")?;
    let key = Key::new(201, 4_660);
    println!("{key}: {}", if shelf.is_complete(key) { "whole" } else { "not whole" });
    Ok(())
}
"#;

#[test]
fn another_project_links_and_runs() {
    let project = Project::new("host", Path::new(WRAPPER)).with("src/main.rs", HOST);
    let ran = done(project.cargo(&["run", "--release"]));
    assert!(ran.status.success(), "{}", text(&ran.stderr));
    assert_eq!(text(&ran.stdout), "table 201 key 4660: whole\n");
}

/// The wrapper as it is installed below a prefix, with or without the library.
fn installed(name: &str, with_library: bool) -> PathBuf {
    let prefix = below(name);
    let _ = fs::remove_dir_all(&prefix);
    let wrapper = prefix.join("share/khumsafil/rust/khumsafil");
    copy(Path::new(WRAPPER), &wrapper);
    if with_library {
        fs::create_dir_all(prefix.join("lib")).expect("a folder");
        let library = "libkhumsafil.a";
        fs::copy(native().join(library), prefix.join("lib").join(library)).expect("the library");
    }
    wrapper
}

fn copy(from: &Path, to: &Path) {
    if from.is_dir() {
        fs::create_dir_all(to).expect("a folder");
        for entry in fs::read_dir(from).expect("a folder") {
            let name = entry.expect("an entry").file_name();
            copy(&from.join(&name), &to.join(&name));
        }
    } else {
        fs::copy(from, to).expect("a file");
    }
}

#[test]
fn an_installed_wrapper_finds_its_library() {
    let wrapper = installed("prefix", true);
    let project = Project::new("installed", &wrapper).with("src/main.rs", HOST);
    let mut run = project.cargo(&["run", "--release"]);
    run.env_remove("KHUMSAFIL_NATIVE");
    let ran = done(run);
    assert!(ran.status.success(), "{}", text(&ran.stderr));
    assert_eq!(text(&ran.stdout), "table 201 key 4660: whole\n");
}

/// Where there is no library, the build says what to do.
#[test]
fn a_library_that_is_not_there_is_told() {
    let wrapper = installed("bare", false);
    let project = Project::new("without", &wrapper).with("src/main.rs", HOST);
    let mut build = project.cargo(&["build", "--release"]);
    build.env_remove("KHUMSAFIL_NATIVE");
    let built = done(build);
    assert!(!built.status.success());
    let said = text(&built.stderr);
    assert!(
        said.contains("libkhumsafil.a is not there: run tools/install again"),
        "{said}"
    );
    let mut build = project.cargo(&["build", "--release"]);
    build.env("KHUMSAFIL_NATIVE", below("bare"));
    let built = done(build);
    assert!(!built.status.success());
    let said = text(&built.stderr);
    assert!(
        said.contains("libkhumsafil.a is not there: KHUMSAFIL_NATIVE is to name"),
        "{said}"
    );
}

/// A program that has no `std`: it brings what `std` would, and of that there may be but one.
const BARE: &str = r#"#![no_std]
#![no_main]

use khumsafil::clock::{Action, Activation, Clock, State};
use khumsafil::shelf::{Shelf, STORE};
use khumsafil::{Key, Refusal};

#[panic_handler]
fn panic(_: &core::panic::PanicInfo) -> ! {
    loop {}
}

// `core` is built to unwind and names this; some linkers ask for it, and nothing calls it.
#[no_mangle]
pub extern "C" fn rust_eh_personality() {}

#[link(name = "c")]
extern "C" {}

fn asked() -> Result<bool, Refusal> {
    let mut store = [0; STORE];
    let mut shelf = Shelf::begin(&mut store)?;
    shelf.offer(b"\xC9\x70\x0A\x12\x34\xC7\x00\x00Ferry")?;
    let mut clock = Clock::fresh();
    clock.offer(Activation { application: 1, event: 1, action: Action::Exec, time: 9 })?;
    clock.move_to(9)?;
    let active = clock.state(1)? == State::Active;
    Ok(active && shelf.is_complete(Key::new(201, 4_660)))
}

#[no_mangle]
pub extern "C" fn main() -> i32 {
    match asked() {
        Ok(true) => 42,
        Ok(false) => 1,
        Err(_) => 2,
    }
}
"#;

#[test]
fn a_program_without_std() {
    let project = Project::new("bare_host", Path::new(WRAPPER)).with("src/main.rs", BARE);
    let ran = done(project.cargo(&["run", "--release"]));
    assert_eq!(ran.status.code(), Some(42), "{}", text(&ran.stderr));
    // The same program with a wrapper that has `std` is refused, so the first one shows that it has none.
    let wrapper = installed("standard", true);
    let lib = wrapper.join("src/lib.rs");
    let source = fs::read_to_string(&lib).expect("the wrapper's source");
    write(lib, &source.replacen("#![no_std]", "", 1));
    let project = Project::new("standard_host", &wrapper).with("src/main.rs", BARE);
    let mut build = project.cargo(&["build", "--release"]);
    build.env_remove("KHUMSAFIL_NATIVE");
    let built = done(build);
    let said = text(&built.stderr);
    assert!(
        !built.status.success() && said.contains("error[E0152]"),
        "{said}"
    );
}

/// Programs that mix things up: a name, the compiler's number for what is wrong, and the program, whose wrong line begins
/// with `wrong:`. Without that line it is right.
const MIXED_UP: [(&str, &str, &str); 11] = [
    (
        "a_store_written_on",
        "E0499",
        "fn main() {
    let mut store = vec![0; khumsafil::shelf::STORE];
    let mut shelf = khumsafil::shelf::Shelf::begin(&mut store).unwrap();
wrong: store[0] = 1;
    let _ = shelf.offer(&[]);
}",
    ),
    (
        "a_store_of_two_shelves",
        "E0499",
        "fn main() {
    let mut store = vec![0; khumsafil::shelf::STORE];
    let mut shelf = khumsafil::shelf::Shelf::begin(&mut store).unwrap();
wrong: let _second = khumsafil::shelf::Shelf::begin(&mut store).unwrap();
    let _ = shelf.offer(&[]);
}",
    ),
    (
        "a_store_gone",
        "E0505",
        "fn main() {
    let mut store = vec![0; khumsafil::shelf::STORE];
    let mut shelf = khumsafil::shelf::Shelf::begin(&mut store).unwrap();
wrong: drop(store);
    let _ = shelf.offer(&[]);
}",
    ),
    (
        "a_shelf_cloned",
        "E0599",
        "fn main() {
    let mut store = vec![0; khumsafil::shelf::STORE];
    let shelf = khumsafil::shelf::Shelf::begin(&mut store).unwrap();
wrong: let _second = shelf.clone();
    let _ = shelf.store();
}",
    ),
    (
        "a_shelf_copied",
        "E0382",
        "fn main() {
    let mut store = vec![0; khumsafil::shelf::STORE];
    let shelf = khumsafil::shelf::Shelf::begin(&mut store).unwrap();
wrong: let _second = shelf;
    let _ = shelf.store();
}",
    ),
    (
        "a_record_resumed_twice",
        "E0382",
        "use khumsafil::shelf::{Shelf, STORE};
fn main() {
    let (mut one, mut two) = (vec![0; STORE], vec![0; STORE]);
    let (record, _) = Shelf::begin(&mut one).unwrap().into_parts();
    let _ = Shelf::begin(&mut two);
    let _first = Shelf::resume(record, &mut one);
wrong: let _second = Shelf::resume(record, &mut two);
}",
    ),
    (
        "a_record_cloned",
        "E0599",
        "fn main() {
    let record = khumsafil::shelf::Record::from([0; khumsafil::shelf::RECORD]);
wrong: let _second = record.clone();
    let _ = record.numbers();
}",
    ),
    (
        "a_clock_copied",
        "E0382",
        "fn main() {
    let clock = khumsafil::clock::Clock::fresh();
    let _second = clock.clone();
wrong: let _third = clock;
    let _ = clock.time();
}",
    ),
    (
        "a_key_by_its_fields",
        "E0639",
        "fn main() {
    let _key = khumsafil::Key::new(201, 4_660);
wrong: let _key = khumsafil::Key { table_id: 201, extension: 4_660, service_id: 0, time_span_start: 0 };
}",
    ),
    (
        "a_label_by_its_fields",
        "E0639",
        "fn main() {
    let key = khumsafil::Key::new(201, 4_660);
    let _label = khumsafil::writer::Label::new(key, 3);
wrong: let _label = khumsafil::writer::Label { key, version: 3 };
}",
    ),
    (
        "a_table_taken_apart_whole",
        "E0638",
        "fn main() {
    if let Ok(table) = khumsafil::file::table(&[]) {
        let khumsafil::shelf::Table { key: _, version: _, last: _, lengths: _, .. } = table;
wrong: let khumsafil::shelf::Table { key: _, version: _, last: _, lengths: _ } = table;
    }
}",
    ),
];

/// Checks all programs in one project, and gives what the compiler says in a line for each error.
fn check(name: &str, wrong: bool) -> (bool, String) {
    let mut project = Project::new(name, Path::new(WRAPPER));
    for (program, _, source) in MIXED_UP {
        let lines = source
            .lines()
            .filter_map(|line| match line.strip_prefix("wrong:") {
                Some(line) => wrong.then_some(line),
                None => Some(line),
            });
        let source: Vec<_> = lines.collect();
        project = project.with(&format!("src/bin/{program}.rs"), &source.join("\n"));
    }
    let words = [
        "check",
        "--release",
        "--keep-going",
        "--message-format",
        "short",
    ];
    let checked = done(project.cargo(&words));
    (checked.status.success(), text(&checked.stderr))
}

#[test]
fn what_belongs_together_is_not_mixed_up() {
    let (passed, said) = check("right", false);
    assert!(passed, "{said}");
    let (passed, said) = check("mixed_up", true);
    assert!(!passed, "all of it compiled");
    for (program, number, _) in MIXED_UP {
        let file = format!("src/bin/{program}.rs:");
        let errors = said
            .lines()
            .filter(|l| l.starts_with(&file) && l.contains(" error"));
        let errors: Vec<_> = errors.collect();
        let named = format!(" error[{number}]");
        assert!(!errors.is_empty(), "{program} compiled: {said}");
        assert!(errors.iter().all(|l| l.contains(&named)), "{errors:?}");
    }
    println!(
        "{} programs refused by the compiler, each for its one line",
        MIXED_UP.len()
    );
}
