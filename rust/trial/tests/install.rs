//! What `tools/install` puts below a prefix, and projects outside of the tree that use it.

use std::fs;
use std::os::unix::fs::symlink;
use std::path::Path;
use std::process::{Command, Output};
use trial::commands::{ended, fed, files_below, plain, said, text, tool, Outside};
use trial::top;

/// Installs below a prefix.
fn install(prefix: &Path) {
    let mut command = tool("install");
    command.arg(prefix);
    let done = ended(command);
    assert!(done.status.success(), "{}", text(&done.stderr));
}

/// What is to be there and nothing else: the wrapper's files are those of its source.
fn expected() -> Vec<String> {
    let mut files: Vec<_> = [
        "bin/khumsafil-feed",
        "bin/khumsafil-list",
        "bin/khumsafil-lister",
        "bin/khumsafil-offer",
        "bin/khumsafil-programme-lister",
        "bin/khumsafil-programmes",
        "include/khumsafil.h",
        "include/khumsafil_raw.h",
        "lib/libkhumsafil.a",
        "lib/pkgconfig/khumsafil.pc",
    ]
    .map(String::from)
    .into();
    let wrapper = "share/khumsafil/rust/khumsafil";
    files.push(format!("{wrapper}/Cargo.toml"));
    files.push(format!("{wrapper}/build.rs"));
    let source = files_below(&top("rust/khumsafil/src"));
    files.extend(source.iter().map(|name| format!("{wrapper}/src/{name}")));
    files.sort();
    files
}

/// Asks pkg-config of what is installed below a prefix, and of nothing else.
fn pkg_config(prefix: &Path, words: &[&str]) -> String {
    let done = plain("pkg-config")
        .args(words)
        .arg("khumsafil")
        .env("PKG_CONFIG_LIBDIR", prefix.join("lib/pkgconfig"))
        .env_remove("PKG_CONFIG_PATH")
        .output()
        .expect("pkg-config is installed; tools/test does it");
    assert!(done.status.success(), "{}", text(&done.stderr));
    text(&done.stdout).trim().to_string()
}

fn round() -> String {
    fs::read_to_string(top("samples/round.txt")).expect("samples/round.txt")
}

/// A C project in a folder of its own, by the words of pkg-config alone.
fn c_project(outside: &Outside, prefix: &Path) {
    outside.write(
        "c/main.c",
        fs::read(top("samples/round.c")).expect("round.c"),
    );
    let words = pkg_config(prefix, &["--cflags", "--libs"]);
    let compiled = plain("cc")
        .current_dir(outside.path("c"))
        .args([
            "-std=c99",
            "-pedantic",
            "-Wall",
            "-Wextra",
            "-Werror",
            "-O2",
        ])
        .args(["-o", "main", "main.c"])
        .args(words.split_whitespace())
        .output()
        .expect("cc runs");
    assert!(compiled.status.success(), "{}", text(&compiled.stderr));
    said(&ended(plain(outside.path("c/main"))), &round(), 0);
}

/// A Rust project in a folder of its own, which names the installed wrapper by its path.
fn rust_project(outside: &Outside, prefix: &Path) -> Output {
    let wrapper = prefix.join("share/khumsafil/rust/khumsafil");
    let manifest = format!(
        "[package]\nname = \"host\"\nversion = \"0.1.0\"\nedition = \"2021\"\n\n\
         [dependencies]\nkhumsafil = {{ path = {:?} }}\n",
        wrapper.display().to_string()
    );
    outside.write("rust/Cargo.toml", manifest);
    let example = top("rust/khumsafil/examples/round.rs");
    outside.write("rust/src/main.rs", fs::read(example).expect("round.rs"));
    plain(std::env::var_os("CARGO").unwrap_or(env!("CARGO").into()))
        .current_dir(outside.path("rust"))
        .args(["build", "--offline", "--quiet"])
        .env("CARGO_TARGET_DIR", outside.path("rust/target"))
        .env_remove("KHUMSAFIL_NATIVE")
        .env_remove("RUSTFLAGS")
        .output()
        .expect("cargo runs")
}

/// The programs as they are installed.
fn programs(outside: &Outside, prefix: &Path) {
    let program = |name: &str| plain(prefix.join("bin").join(name));
    let with = |name: &str, word: &Path| -> Command {
        let mut command = program(name);
        command.arg(word);
        command
    };
    for name in ["whole", "gaps", "damaged", "programmes"] {
        let path = top(&format!("samples/{name}.shelf"));
        let file = fs::read(&path).expect(name);
        let listed = opinion::lister::list(&file);
        let status = i32::from(listed.starts_with("refused "));
        said(&ended(with("khumsafil-list", &path)), &listed, status);
        said(&fed(program("khumsafil-list"), &file), &listed, status);
        let lister = fed(program("khumsafil-lister"), &file);
        said(&lister, &listed, 0);
    }
    let list = top("samples/programmes.shelf");
    let file = fs::read(&list).expect("the sample");
    let told = fs::read_to_string(top("samples/programmes.txt")).expect("the text");
    said(&ended(with("khumsafil-programmes", &list)), &told, 1);
    said(&fed(program("khumsafil-programmes"), &file), &told, 1);
    said(&fed(program("khumsafil-programme-lister"), &file), &told, 0);
    // By a link from another folder they still find the proved programs.
    for name in ["khumsafil-list", "khumsafil-programmes"] {
        let link = outside.path("linked");
        let _ = fs::remove_file(&link);
        symlink(prefix.join("bin").join(name), &link).expect("a link");
        said(&fed(plain(&link), &[]), "refused 11\n", 1);
    }

    let mut feed = program("khumsafil-feed");
    feed.args(["201", "4660", "3"]);
    let made = fed(feed, b"a body");
    assert_eq!(made.status.code(), Some(0));
    let listed = "table 201 key 4660 version 3 last 0\nsection 0 bytes 14\ncomplete\n";
    said(&fed(program("khumsafil-list"), &made.stdout), listed, 0);

    let recording = top("samples/recording.bin");
    let replayed = fs::read_to_string(top("samples/recording.txt")).expect("the text");
    said(&ended(with("khumsafil-offer", &recording)), &replayed, 1);
    for name in [
        "khumsafil-list",
        "khumsafil-programmes",
        "khumsafil-feed",
        "khumsafil-offer",
    ] {
        let helped = ended(with(name, Path::new("--help")));
        assert_eq!(helped.status.code(), Some(0), "{name}");
        assert!(!helped.stdout.is_empty() && helped.stderr.is_empty());
        let wrong = ended(with(name, Path::new("--no-such-word")));
        assert_eq!(wrong.status.code(), Some(2), "{name}");
        assert!(wrong.stdout.is_empty());
        assert!(text(&wrong.stderr).starts_with("usage: "), "{name}");
    }
}

#[test]
fn projects_outside_use_what_is_installed() {
    let outside = Outside::new("install");
    let first = outside.path("first");
    install(&first);
    assert_eq!(files_below(&first), expected());
    // A file of an earlier wrapper is gone after the second install.
    outside.write("first/share/khumsafil/rust/khumsafil/src/gone.rs", "");
    install(&first);
    assert_eq!(files_below(&first), expected());

    // What is installed holds after the prefix was moved.
    let prefix = outside.path("moved");
    fs::rename(&first, &prefix).expect("another name");
    c_project(&outside, &prefix);
    let header = fs::read_to_string(prefix.join("include/khumsafil.h")).expect("the header");
    let version = pkg_config(&prefix, &["--modversion"]);
    let defined = format!("#define KHUMSAFIL_VERSION_TEXT \"{version}\"");
    assert!(header.lines().any(|line| line == defined), "{defined}");
    let built = rust_project(&outside, &prefix);
    assert!(built.status.success(), "{}", text(&built.stderr));
    let host = outside.path("rust/target/debug/host");
    said(&ended(plain(host)), &round(), 0);
    programs(&outside, &prefix);

    // The Rust project is linked with the library below the prefix and with no other.
    fs::remove_file(prefix.join("lib/libkhumsafil.a")).expect("the library");
    let built = rust_project(&outside, &prefix);
    assert!(!built.status.success());
    let said = text(&built.stderr);
    assert!(said.contains("libkhumsafil.a is not there"), "{said}");
}

/// Packages are made below another root than the one that they are for.
#[test]
fn another_root() {
    let outside = Outside::new("root");
    let (root, prefix) = (outside.path("root"), outside.path("prefix"));
    let mut command = tool("install");
    command.arg(&prefix).env("DESTDIR", &root);
    let done = ended(command);
    assert!(done.status.success(), "{}", text(&done.stderr));
    let below = prefix.strip_prefix("/").expect("a path from the root");
    assert_eq!(files_below(&root.join(below)), expected());
    assert!(!prefix.exists());
}
