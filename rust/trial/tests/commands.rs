//! The commands in `tools/` as a user runs them: their words, what they leave with, and when they build.

use std::fs;
use std::os::unix::fs::PermissionsExt;
use std::path::Path;
use std::process::{Command, Output};
use std::sync::{Mutex, MutexGuard};
use std::time::{Duration, Instant};
use trial::commands::{ended, fed, plain, said, text, tool, Outside};
use trial::top;

/// Tests that build in the tree itself do so one after another, since each looks at what the toolchain says.
fn alone() -> MutexGuard<'static, ()> {
    static ALONE: Mutex<()> = Mutex::new(());
    ALONE.lock().unwrap_or_else(|failed| failed.into_inner())
}

fn is_command(path: &Path) -> bool {
    let about = fs::metadata(path).expect("a file");
    about.is_file() && about.permissions().mode() & 0o111 != 0
}

/// The commands by their names.
fn commands() -> Vec<String> {
    let entries = fs::read_dir(top("tools")).expect("a folder");
    let paths = entries.map(|entry| entry.expect("an entry").path());
    let mut names: Vec<_> = paths
        .filter(|path| is_command(path))
        .map(|path| text(path.file_name().expect("a name").as_encoded_bytes()))
        .collect();
    names.sort();
    names
}

fn write_program(outside: &Outside, below: &str, source: &str) {
    let path = outside.write(below, source);
    fs::set_permissions(path, fs::Permissions::from_mode(0o755)).expect("a program");
}

/// The folder of a file before all others on the path.
fn with_path(command: &mut Command, folder: &Path) {
    let rest = std::env::var("PATH").expect("a path");
    command.env("PATH", format!("{}:{rest}", folder.display()));
}

#[test]
fn every_command_tells_its_words() {
    // Neither needs the toolchain, cargo or a package; one that would go on to work is stopped there.
    let outside = Outside::new("words");
    for name in ["rt", "cargo", "cc", "apt-get", "sudo"] {
        write_program(&outside, &format!("bin/{name}"), "#!/bin/sh\nexit 97\n");
    }
    let run = |name: &str, word: &str| -> Output {
        let mut command = tool(name);
        command.arg(word);
        with_path(&mut command, &outside.path("bin"));
        ended(command)
    };
    let names = commands();
    for name in &names {
        let helped = run(name, "--help");
        let told = text(&helped.stdout);
        assert_eq!(helped.status.code(), Some(0), "{name}");
        assert!(helped.stderr.is_empty(), "{name}: {helped:?}");
        let words = told.lines().filter(|line| {
            let mut words = line.split_whitespace();
            line.starts_with("  ") && words.next() == Some(&format!("tools/{name}"))
        });
        let words: Vec<_> = words.map(|line| format!("usage:{}", &line[1..])).collect();
        assert!(!words.is_empty(), "{name} does not tell its words: {told}");
        assert!(told.lines().count() > words.len(), "{name}: what it does");
        let wrong = run(name, "--no-such-word");
        assert_eq!(wrong.status.code(), Some(2), "{name}: {wrong:?}");
        assert!(wrong.stdout.is_empty(), "{name}: {wrong:?}");
        let usage: Vec<_> = text(&wrong.stderr).lines().map(String::from).collect();
        assert_eq!(usage, words, "{name}");
    }
    for name in [
        "build",
        "feed",
        "install",
        "list",
        "offer",
        "programmes",
        "test",
    ] {
        assert!(names.iter().any(|found| found == name), "{name}");
    }
    println!("{} commands tell their words", names.len());
}

#[test]
fn a_file_is_listed_from_anywhere() {
    let _alone = alone();
    let list = |folder: &Path, words: &[&str]| -> Command {
        let mut command = tool("list");
        command.current_dir(folder).args(words);
        command
    };
    let samples = top("samples");
    for name in ["whole", "gaps", "damaged", "programmes"] {
        let name = format!("{name}.shelf");
        let file = fs::read(samples.join(&name)).expect("a sample");
        let listed = opinion::lister::list(&file);
        let status = i32::from(listed.starts_with("refused "));
        said(&ended(list(&samples, &[&name])), &listed, status);
        said(&fed(list(&samples, &[]), &file), &listed, status);
        said(&fed(list(&samples, &["-"]), &file), &listed, status);
    }
    for words in [&["no such file"][..], &["."], &["-x"], &["a", "b"]] {
        let done = ended(list(&samples, words));
        assert_eq!(done.status.code(), Some(2), "{words:?}");
        assert!(done.stdout.is_empty() && !done.stderr.is_empty());
    }
    // A read that fails is not the end of a file.
    let mut folder = list(&samples, &[]);
    folder.stdin(fs::File::open(&samples).expect("a folder"));
    let done = folder.output().expect("the command ends");
    assert_eq!(done.status.code(), Some(2));
    assert!(done.stdout.is_empty() && !done.stderr.is_empty());
}

/// What staff are told of a programme list, by a file, by standard input and from another folder.
#[test]
fn a_programme_list_is_told_from_anywhere() {
    let _alone = alone();
    let programmes = |folder: &Path, words: &[&str]| -> Command {
        let mut command = tool("programmes");
        command.current_dir(folder).args(words);
        command
    };
    let samples = top("samples");
    let expected = fs::read_to_string(samples.join("programmes.txt")).expect("the text");
    let file = fs::read(samples.join("programmes.shelf")).expect("a sample");
    assert_eq!(opinion::programme_text::programmes(&file), expected);
    said(
        &ended(programmes(&samples, &["programmes.shelf"])),
        &expected,
        1,
    );
    said(&fed(programmes(&samples, &[]), &file), &expected, 1);
    said(&fed(programmes(&samples, &["-"]), &file), &expected, 1);
    for (name, status) in [("whole", 1), ("gaps", 1), ("damaged", 1)] {
        let name = format!("{name}.shelf");
        let file = fs::read(samples.join(&name)).expect("a sample");
        let told = opinion::programme_text::programmes(&file);
        said(&ended(programmes(&samples, &[&name])), &told, status);
    }
    for words in [&["no such file"][..], &["."], &["-x"], &["a", "b"], &[""]] {
        let done = ended(programmes(&samples, words));
        assert_eq!(done.status.code(), Some(2), "{words:?}");
        assert!(done.stdout.is_empty() && !done.stderr.is_empty());
    }
    // A read that fails is not the end of a file.
    let mut folder = programmes(&samples, &[]);
    folder.stdin(fs::File::open(&samples).expect("a folder"));
    let done = folder.output().expect("the command ends");
    assert_eq!(done.status.code(), Some(2));
    assert!(done.stdout.is_empty() && !done.stderr.is_empty());
}

/// Status 1 is by the lines that say that something is refused, and by no words in a name. What is missing is no fault.
#[test]
fn the_status_of_a_programme_list() {
    let _alone = alone();
    let section = |number: u8, body: &[u8]| {
        let mut payload = vec![0xDF, 0x70, 0, 0x10, 0, 0xC7, number, 15];
        payload.extend(body);
        trial::programmes::mend(&mut payload);
        payload
    };
    let named = |name: &[u8]| {
        let mut body = vec![0, 0, 0, 0, 0, 0, 0, 0, 1, 0, 0, 0, 1, 0, 0];
        body.push(name.len() as u8);
        body.extend(name);
        body.extend([0, 0]);
        body
    };
    let refused = vec![0; 8];
    let names: [&[u8]; 5] = [
        b"Ferry",
        b"section 1 refused 43 place 8",
        b"\nsection 1 refused 43 place 8",
        b"no programme list",
        b"x\nrefused 12",
    ];
    let mut files: Vec<(Vec<Vec<u8>>, i32)> = Vec::new();
    for name in names {
        files.push((vec![section(0, &named(name))], 0));
        files.push(((0..16).map(|n| section(n, &named(name))).collect(), 0));
    }
    for number in 0..16 {
        files.push((vec![section(number, &refused)], 1));
    }
    let both = vec![section(0, &named(b"Ferry")), section(10, &refused)];
    files.push((both, 1));
    for (sections, status) in files {
        let file = trial::files::Parts::of(sections).bytes();
        let told = opinion::programme_text::programmes(&file);
        said(&fed(tool("programmes"), &file), &told, status);
    }
    // The longest texts go through as well.
    let mut random = trial::random::Random::new(0x4B68_756D_7361_000E);
    let file = trial::programmes::full_file(&mut random, trial::programmes::SMALLEST);
    let told = opinion::programme_text::programmes(&file);
    said(&fed(tool("programmes"), &file), &told, 0);
}

/// What the bench makes is listed and replayed as it comes.
#[test]
fn pipes() {
    let _alone = alone();
    let outside = Outside::new("pipes");
    let piped = |line: &str| -> Output {
        let mut shell = plain("bash");
        shell.args(["-o", "pipefail", "-c", line]);
        shell
            .current_dir(outside.path(""))
            .env("TOOLS", top("tools"));
        ended(shell)
    };
    let listed = "table 201 key 4660 version 3 last 0\nsection 0 bytes 12\ncomplete\n";
    let line = "printf Pier | \"$TOOLS/feed\" 201 4660 3 | \"$TOOLS/list\" | cat";
    said(&piped(line), listed, 0);
    // The file's one section is led by its length.
    let line = "printf Pier | \"$TOOLS/feed\" 201 4660 3 | tail -c +3 | \"$TOOLS/offer\"";
    let replayed = "payload 1 bytes 12: began\ntable 201 key 4660 version 3 last 0\ncomplete\n";
    said(&piped(line), replayed, 0);
    // The bench makes no programme list.
    let refused = piped("printf Pier | \"$TOOLS/feed\" 223 4097 3 | \"$TOOLS/list\"");
    assert!(text(&refused.stderr).ends_with("refused 59, the writer asked for the NRT-IT's id\n"));
    said(&refused, "refused 11\n", 1);
    let recording = fs::read(top("samples/recording.bin")).expect("the sample");
    outside.write("recording", recording);
    let told = fs::read_to_string(top("samples/recording.txt")).expect("the text");
    said(&piped("\"$TOOLS/offer\" recording"), &told, 1);
}

/// The processor's name as the commands have it.
fn machine() -> String {
    let mut uname = plain("uname");
    uname.arg("-m");
    text(&ended(uname).stdout).trim().to_string()
}

/// A small tree with the commands of this one, and a toolchain of a few lines: what it proves and compiles of a program is one that
/// prints the text of its source.
struct Tree {
    outside: Outside,
}

const CRATES: &str = "base:\nfile: base\nlister: file base io\nother: base\n";

/// The toolchain's command. It notes its calls and fails where a file says so.
const RT: &str = r#"#!/bin/sh
kit=$(dirname "$0")/..
case $1 in
version) cat "$kit/home/KIT-ID" ;;
doc) echo "$kit/home/guide" ;;
lib | run)
    name=${PWD##*/}
    echo "began $name" >>"$kit/calls"
    [ ! -f "$kit/slow" ] || sleep 0.3
    printf 'rt: chose --jobs 2 for base\nlogic=proved functions=1\nrt: chose --jobs 2 for file\n'
    [ ! -f "$kit/fails" ] || {
        printf 'src/lib.rt:1: error: it does not hold\n  and why\nlogic=not-proved\n'
        echo "ended $name" >>"$kit/calls"
        exit 1
    }
    printf 'logic=proved functions=2\nrt: chose --jobs 2 for lister\nlogic=proved functions=1\n'
    mkdir -p out
    { echo '#!/bin/sh'; sed 's/^/echo /' src/main.rt; } >out/lister
    chmod +x out/lister
    echo "ended $name" >>"$kit/calls"
    ;;
*) exit 98 ;;
esac
"#;

/// Lowers a program to a module, which is its source, and hands that to the compiler.
const RATTLE: &str = r#"#!/bin/sh
while [ $# -gt 0 ]; do
    case $1 in
    *.rt) source=$1 ;;
    --toolchain) toolchain=$2 ;;
    -o) out=$2 ;;
    esac
    shift
done
cp "$source" "$out.bc" && "$toolchain/bin/clang" "$out.bc" && rm "$out.bc"
"#;

/// Compiles a module where it is told what to make.
const CLANG: &str = r#"#!/bin/sh
while [ $# -gt 0 ]; do
    case $1 in
    *.bc) module=$1 ;;
    -o) object=$2 ;;
    esac
    shift
done
[ -z "$object" ] || printf '#include <stdio.h>\nint main(void) { puts("%s"); return 0; }\n' "$(cat "$module")" |
    cc -x c -c -o "$object" -
"#;

impl Tree {
    fn new(name: &str) -> Tree {
        let outside = Outside::new(name);
        let copied = plain("cp")
            .arg("-R")
            .arg(top("tools"))
            .arg(outside.path("tools"))
            .status();
        assert!(copied.expect("cp runs").success());
        outside.write("crates.txt", CRATES);
        for path in ["base/src/lib.rt", "file/src/lib.rt", "other/src/lib.rt"] {
            outside.write(&format!("crates/{path}"), "first\n");
        }
        outside.write("crates/lister/src/main.rt", "refused 1\n");
        outside.write(
            "kit/home/KIT-ID",
            fs::read(top("tools/kit")).expect("the kit"),
        );
        write_program(&outside, "kit/bin/rt", RT);
        write_program(&outside, "kit/home/bin/rattle", RATTLE);
        write_program(&outside, "kit/home/toolchain/bin/clang", CLANG);
        Tree { outside }
    }

    fn command(&self, name: &str, words: &[&str]) -> Command {
        let mut command = plain(self.outside.path("tools").join(name));
        command.args(words).env_remove("KHUMSAFIL_NATIVE");
        with_path(&mut command, &self.outside.path("kit/bin"));
        command
    }

    /// What tools/list prints, which is what the lister's source says, and what it says of the way there.
    fn listed(&self, source: &str) -> String {
        let done = ended(self.command("list", &[]));
        said(&done, source, i32::from(source.starts_with("refused ")));
        text(&done.stderr)
    }

    /// How often the toolchain was to prove something.
    fn proofs(&self) -> usize {
        let calls = fs::read_to_string(self.outside.path("kit/calls")).unwrap_or_default();
        calls
            .lines()
            .filter(|line| line.starts_with("began"))
            .count()
    }
}

#[test]
fn what_changed_is_built_anew() {
    let tree = Tree::new("anew");
    let first = tree.listed("refused 1\n");
    let expected = "tools/build: crates to be proved for lister: 3\n\
                    tools/build: base is proved, 2 left\n\
                    tools/build: file is proved, 1 left\n\
                    tools/build: lister is proved, 0 left\n\
                    tools/build: built lister for ";
    assert_eq!(first, format!("{expected}{}\n", machine()));
    // Nothing changed: nothing is built, and that is quick.
    let began = Instant::now();
    assert_eq!(tree.listed("refused 1\n"), "");
    assert!(
        began.elapsed() < Duration::from_secs(2),
        "{:?}",
        began.elapsed()
    );
    assert_eq!(tree.proofs(), 1);
    // What the lister does not need, and a wrong program of what it needs, are no part of it.
    tree.outside.write("crates/other/src/lib.rt", "second\n");
    tree.outside
        .write("crates/file/must-fail/one.edit", "second\n");
    let stamp = tree.outside.path("target/native/lister.stamp");
    let later = fs::metadata(&stamp).and_then(|about| about.modified());
    let folder = fs::File::open(tree.outside.path("crates/file")).expect("a folder");
    folder
        .set_modified(later.expect("a time"))
        .expect("its time");
    assert_eq!(tree.listed("refused 1\n"), "");
    assert_eq!(tree.proofs(), 1);
    // Source and a crate that is needed.
    tree.outside.write("crates/lister/src/main.rt", "table 1\n");
    assert!(tree
        .listed("table 1\n")
        .contains("tools/build: built lister for "));
    assert_eq!(tree.proofs(), 2);
    assert_eq!(tree.listed("table 1\n"), "");
    tree.outside.write("crates/file/src/lib.rt", "second\n");
    tree.listed("table 1\n");
    assert_eq!(tree.proofs(), 3);
    tree.outside.write("crates.txt", CRATES);
    tree.listed("table 1\n");
    assert_eq!(tree.proofs(), 4);
    assert_eq!(tree.listed("table 1\n"), "");
    // A program that is gone is made again.
    fs::remove_file(tree.outside.path("target/native/lister")).expect("the lister");
    tree.listed("table 1\n");
    assert_eq!(tree.proofs(), 5);
}

#[test]
fn what_is_not_proved_is_told_whole() {
    let tree = Tree::new("fails");
    tree.outside.write("kit/fails", "");
    let done = ended(tree.command("list", &[]));
    said(&done, "", 2);
    let told = text(&done.stderr);
    let whole = "rt: chose --jobs 2 for file\n\
                 src/lib.rt:1: error: it does not hold\n  and why\n\
                 logic=not-proved\n\
                 tools/build: failed: rt run in crates/lister\n";
    assert!(told.ends_with(whole), "{told}");
    assert_eq!(
        ended(tree.command("build", &["lister"])).status.code(),
        Some(1)
    );
}

#[test]
fn another_kit_is_told_before_it_is_used() {
    let tree = Tree::new("kit");
    let known = fs::read_to_string(top("tools/kit")).expect("the kit");
    assert_eq!(known.lines().count(), 1);
    assert!(!tree.listed("refused 1\n").contains("the toolchain here is"));
    tree.outside
        .write("kit/home/KIT-ID", "another-kit logic 0\n");
    tree.outside.write("crates/file/src/lib.rt", "second\n");
    let told = tree.listed("refused 1\n");
    let line = format!(
        "tools/build: the proofs were checked with {}; the toolchain here is another-kit logic 0\n",
        known.trim_end()
    );
    assert!(told.starts_with(&line), "{told}");
}

/// Both ends of a pipe begin at once, and may both have to build.
#[test]
fn two_do_not_build_at_once() {
    let tree = Tree::new("two");
    tree.outside.write("kit/slow", "");
    let starts = |command: &mut Command| {
        let piped = std::process::Stdio::piped;
        command
            .stdout(piped())
            .stderr(piped())
            .spawn()
            .expect("it starts")
    };
    let both = [0, 1].map(|_| starts(&mut tree.command("list", &[])));
    for child in both {
        said(
            &child.wait_with_output().expect("it ends"),
            "refused 1\n",
            1,
        );
    }
    let calls = fs::read_to_string(tree.outside.path("kit/calls")).expect("the calls");
    let one = "began lister\nended lister\n";
    assert_eq!(calls, one.repeat(2), "one began before the other ended");
}

/// What the toolchain itself proves goes by, and nothing where all is proved, but for that it is another one than tools/kit names.
#[test]
fn the_names_of_what_is_proved_go_by() {
    let _alone = alone();
    let build = || {
        let mut command = tool("build");
        command.arg("lister");
        let done = ended(command);
        assert!(done.status.success(), "{}", text(&done.stderr));
        let told = text(&done.stderr);
        match told.split_once('\n') {
            Some((first, rest)) if first.contains("; the toolchain here is ") => rest.to_string(),
            _ => told,
        }
    };
    build();
    assert_eq!(build(), "");
    for mark in ["target/stamp/base", "crates/base/out/rlib/stamp"] {
        fs::remove_file(top(mark)).expect("the mark of a proved crate");
    }
    let told = build();
    let lines: Vec<_> = told.lines().collect();
    let [first, second] = lines[..] else {
        panic!("{told}");
    };
    assert_eq!(first, "tools/build: crates to be proved for lister: 1");
    assert_eq!(second, "tools/build: base is proved, 0 left");
}

/// Whose instructions the members of an archive are.
fn machines(archive: &Path) -> Vec<String> {
    let mut readelf = plain("readelf");
    readelf.arg("-h").arg(archive);
    let done = ended(readelf);
    assert!(done.status.success(), "{}", text(&done.stderr));
    let lines = text(&done.stdout);
    let machines = lines
        .lines()
        .filter_map(|l| l.trim().strip_prefix("Machine:"));
    machines.map(|name| name.trim().to_string()).collect()
}

#[test]
fn a_library_for_either_processor() {
    let _alone = alone();
    for (machine, name) in [
        ("aarch64", "AArch64"),
        ("x86_64", "Advanced Micro Devices X86-64"),
    ] {
        let archive = top(&format!("target/{machine}/libkhumsafil.a"));
        let _ = fs::remove_file(&archive);
        let mut command = tool("build");
        command.args(["--for", machine]);
        let done = ended(command);
        assert!(done.status.success(), "{}", text(&done.stderr));
        let found = machines(&archive);
        assert!(
            !found.is_empty() && found.iter().all(|one| one == name),
            "{found:?}"
        );
    }
    let mut wrong = tool("build");
    wrong.args(["--for", "pdp11"]);
    assert_eq!(ended(wrong).status.code(), Some(2));
}
