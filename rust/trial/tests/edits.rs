//! The checks of the wrong programs see one that no longer fits, and one that is not refused by itself.

use std::fs;
use std::path::PathBuf;
use std::process::Command;
use trial::top;

/// A folder with one crate of this source and one round.
fn folder(name: &str, source: &str, round: &str) -> PathBuf {
    // The toolchain reads no source but that of the crates, so it lies outside of the tree.
    let folder = std::env::temp_dir().join("khumsafil-edits").join(name);
    for part in ["crates/one/src", "crates/one/must-fail"] {
        fs::create_dir_all(folder.join(part)).expect("a folder");
    }
    fs::write(folder.join("crates/one/src/lib.rt"), source).expect("a source");
    fs::write(folder.join("crates/one/must-fail/first.edit"), round).expect("a round");
    folder
}

/// Whether a crate with this source and this round passes.
fn fits(name: &str, source: &str, round: &str) -> bool {
    let folder = folder(name, source, round).join("crates");
    let done = Command::new(top("tools/edits")).arg(folder).output();
    done.expect("tools/edits runs").status.success()
}

#[test]
fn a_stale_program_is_seen() {
    let of = |pairs: &str| format!("program: a\n# why\nrefused: f\nfile: src/lib.rt\n{pairs}");
    let source = "a + b\nc + d\n";
    assert!(fits("once", source, &of("old: a + b\nnew: a\n")));
    assert!(!fits("gone", source, &of("old: a - b\nnew: a\n")));
    assert!(!fits("twice", source, &of("old:  + \nnew: -\n")));
    assert!(!fits("same", source, &of("old: a + b\nnew: a + b\n")));
    let chain = "old: a + b\nnew: e + d\nold: e + d\nnew: \n";
    assert!(fits("chain", source, &of(chain)));
    // After the first replacement the second text is there twice.
    let chain = "old: a + b\nnew: c + d\nold: c + d\nnew: \n";
    assert!(!fits("chain-twice", source, &of(chain)));
    assert!(!fits(
        "two-lines",
        source,
        &of("old: a + b\nc + d\nnew: a\n")
    ));
    assert!(!fits("no-pair", source, &of("")));
    assert!(!fits("no-new", source, &of("old: a + b\n")));
    let pair = "old: a + b\nnew: a\n";
    let with = |head: &str| format!("{head}{pair}");
    assert!(!fits(
        "no-file",
        source,
        &with("program: a\n# why\nrefused: f\n")
    ));
    assert!(!fits(
        "no-why",
        source,
        &with("program: a\nrefused: f\nfile: src/lib.rt\n")
    ));
    assert!(!fits(
        "no-name",
        source,
        &with("program: a\n# why\nfile: src/lib.rt\n")
    ));
    assert!(!fits(
        "no-program",
        source,
        &with("# why\nrefused: f\nfile: src/lib.rt\n")
    ));
    assert!(!fits("nothing", source, ""));
}

#[test]
fn two_programs_that_are_one_are_seen() {
    let source = "a + b\nc + d\n";
    let second = |name: &str, refused: &str| {
        let first = "program: a\n# why\nrefused: f\nfile: src/lib.rt\nold: a + b\nnew: a\n";
        format!("{first}\nprogram: {name}\n# why\nrefused: {refused}\nfile: src/lib.rt\nold: c + d\nnew: c\n")
    };
    assert!(fits("two", source, &second("b", "g")));
    assert!(!fits("two-labels", source, &second("a", "g")));
    assert!(!fits("two-names", source, &second("b", "f")));
}

/// Whether a round whose one program names this passes, with a log of these lines or with none.
fn refused(name: &str, refused: &str, log: Option<&str>) -> bool {
    let round =
        format!("program: a\n# why\nrefused: {refused}\nfile: src/lib.rt\nold: a\nnew: b\n");
    let folder = folder(name, "a\n", &round);
    let copy = folder.join("target/must-fail/one/first");
    fs::create_dir_all(&copy).expect("a folder");
    let path = copy.join(".log");
    match log {
        Some(log) => fs::write(path, log).expect("a log"),
        None => drop(fs::remove_file(path)),
    }
    let done = Command::new(top("tools/refused"))
        .arg("--in")
        .arg(folder)
        .output();
    done.expect("tools/refused runs").status.success()
}

#[test]
fn a_function_that_is_not_refused_by_itself_is_seen() {
    let own = "./proofs/Clock/f/Answers.antt:5:9: error: `returns`: `omega`: the goal does not follow\n  from what it read\n";
    let seen = |name: &str, log: &str| refused(name, "Clock::f", Some(log));
    assert!(seen("own", &format!("{own}fn one::Clock::f: not proved\n")));
    assert!(seen(
        "search",
        "fn one::Clock::f: no proof: expected answers in ./proofs/Clock/f/Answers.antt; `search` did not prove `returns`\n"
    ));
    assert!(!seen("proved", "fn one::Clock::f: proved\n"));
    assert!(!seen("another", "fn one::Clock::fg: not proved\n"));
    let calls = "it calls `one::g`, which is not proved";
    assert!(seen(
        "own-and-calls",
        &format!("{own}fn one::Clock::f: not proved; {calls}\n")
    ));
    assert!(!seen(
        "calls",
        &format!("fn one::Clock::f: not proved; {calls}\n")
    ));
    assert!(!seen(
        "search-and-calls",
        &format!("fn one::Clock::f: no proof: expected answers in ./proofs/Clock/f/Answers.antt; `search` did not prove `returns`; {calls}\n")
    ));
    let behind = "the borrow checker's part in its proof is not made yet: a call of `one::g`, which has no proof";
    assert!(!seen(
        "behind-a-call",
        &format!("fn one::Clock::f: no proof: {behind}\n")
    ));
    let waits = "./proofs/Clock/f/Answers.antt:5:9: error: `returns`: `law` was not admitted (it has holes)\n";
    assert!(!seen(
        "waits",
        &format!("{waits}fn one::Clock::f: not proved\n")
    ));
    assert!(!seen(
        "waits-and-calls",
        &format!("{waits}fn one::Clock::f: not proved; {calls}\n")
    ));
    for (name, misfit) in [
        (
            "need",
            "`goal`: module `proofs.f.Goals` has no `overflow_add-result-2` that can be named from here",
        ),
        (
            "other-need",
            "`one`: these differ\n  expected type `goal.a`, but this has type `goal.b`",
        ),
        ("scope", "`returns`: `x` is not in scope"),
        ("field", "`returns`: record `Loop` has no field `n`"),
    ] {
        let misfit = format!("./proofs/Clock/f/Answers.antt:5:9: error: {misfit}\n");
        assert!(!seen(
            name,
            &format!("{own}{misfit}fn one::Clock::f: not proved\n")
        ));
    }
    let hint = "  `n` is not in scope here, so what is shown does not paste back\n";
    assert!(seen(
        "hint",
        &format!("{own}{hint}fn one::Clock::f: not proved\n")
    ));
    assert!(!refused("no-log", "Clock::f", None));
    assert!(!seen("empty-log", ""));
}

#[test]
fn a_law_that_is_not_refused_by_itself_is_seen() {
    let seen = |name: &str, log: &str| refused(name, "law-1", Some(log));
    let at = "./proofs/Laws.antt:5:9: error:";
    assert!(seen(
        "law",
        &format!("{at} `law-1`: expected type `a`, but this has type `b`\n")
    ));
    assert!(!seen(
        "other-law",
        &format!("{at} `law-12`: expected type `a`, but this has type `b`\n")
    ));
    assert!(!seen(
        "law-waits",
        &format!("{at} `law-1`: `other` was not admitted (it has holes)\n")
    ));
    assert!(!seen(
        "law-scope",
        &format!("{at} `law-1`: `x` is not in scope\n")
    ));
}
