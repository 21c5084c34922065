//! Every name that docs/PROMISES.md gives is in the tree: a page about proofs is worth nothing when it speaks of a statement
//! that is not there.

use std::collections::BTreeSet;
use std::fs;
use std::path::{Path, PathBuf};

fn root() -> PathBuf {
    Path::new(env!("CARGO_MANIFEST_DIR"))
        .join("../..")
        .canonicalize()
        .unwrap()
}

fn files_below(folder: &Path, ending: &str, found: &mut Vec<PathBuf>) {
    for entry in fs::read_dir(folder).unwrap() {
        let path = entry.unwrap().path();
        if path.is_dir() {
            files_below(&path, ending, found);
        } else if path.extension().is_some_and(|e| e == ending) {
            found.push(path);
        }
    }
}

/// The names that a line of a definition or proof file declares.
fn declared_in_antt(line: &str) -> Option<String> {
    let mut rest = line.trim_start();
    for word in ["abbrev ", "unfoldable ", "pub "] {
        rest = rest.strip_prefix(word).unwrap_or(rest);
    }
    for word in ["record ", "data ", "ruleset "] {
        if let Some(name) = rest.strip_prefix(word) {
            return name.split_whitespace().next().map(str::to_string);
        }
    }
    let name = rest.split_whitespace().next()?;
    let after = rest[name.len()..].trim_start();
    let typed = after.starts_with(':') || (after.starts_with('{') && after.contains("} :"));
    typed.then(|| name.to_string())
}

/// The names that a line of Rattle declares.
fn declared_in_rattle(line: &str) -> Option<String> {
    let mut rest = line.trim_start();
    for word in ["#[unsafe(no_mangle)]", "pub ", "extern \"C\" "] {
        rest = rest.strip_prefix(word).unwrap_or(rest).trim_start();
    }
    for word in ["fn ", "struct ", "enum ", "const "] {
        if let Some(name) = rest.strip_prefix(word) {
            let end = name
                .find(|c: char| !c.is_alphanumeric() && c != '_')
                .unwrap_or(name.len());
            return Some(name[..end].to_string());
        }
    }
    None
}

/// All names of the tree: crates, definitions, statements, functions, types, constants and wrong programs.
fn names(root: &Path) -> BTreeSet<String> {
    let crates = root.join("crates");
    let mut names = BTreeSet::new();
    for line in fs::read_to_string(root.join("crates.txt")).unwrap().lines() {
        if let Some((name, _)) = line.split_once(':') {
            names.extend(name.split_whitespace().next().map(str::to_string));
        }
    }
    let mut files = Vec::new();
    files_below(&crates, "antt", &mut files);
    for file in files.drain(..) {
        names.extend(
            fs::read_to_string(&file)
                .unwrap()
                .lines()
                .filter_map(declared_in_antt),
        );
    }
    files_below(&crates, "rt", &mut files);
    for file in files.drain(..) {
        names.extend(
            fs::read_to_string(&file)
                .unwrap()
                .lines()
                .filter_map(declared_in_rattle),
        );
    }
    files_below(&crates, "edit", &mut files);
    for file in files {
        names.extend(
            fs::read_to_string(&file)
                .unwrap()
                .lines()
                .filter_map(|l| l.strip_prefix("program: "))
                .map(str::to_string),
        );
    }
    names
}

/// What stands between single backquotes outside of code blocks.
fn spans(page: &str) -> Vec<String> {
    let mut found = Vec::new();
    let mut in_block = false;
    for line in page.lines() {
        if line.trim_start().starts_with("```") {
            in_block = !in_block;
        } else if !in_block {
            found.extend(line.split('`').skip(1).step_by(2).map(str::to_string));
        }
    }
    found
}

/// Whether a span names something: a path, a name, a function of a crate, or words that are all of these.
fn known(span: &str, root: &Path, names: &BTreeSet<String>) -> bool {
    if span.contains('/') || span.ends_with(".md") || span.ends_with(".antt") {
        let path = span.split_whitespace().next().unwrap();
        return root.join(path).exists()
            || fs::read_dir(root.join("crates"))
                .unwrap()
                .any(|c| c.unwrap().path().join(path).exists());
    }
    span.split("::")
        .all(|part| names.contains(part.trim_end_matches("()")))
}

#[test]
fn every_name_of_the_page_is_in_the_tree() {
    let root = root();
    let names = names(&root);
    let page = fs::read_to_string(root.join("docs/PROMISES.md")).unwrap();
    let spans = spans(&page);
    let lost: Vec<&String> = spans.iter().filter(|s| !known(s, &root, &names)).collect();
    println!("docs/PROMISES.md names {} things", spans.len());
    assert!(spans.len() > 50, "the page names hardly anything");
    assert!(lost.is_empty(), "not in the tree: {lost:?}");
}

#[test]
fn a_name_that_is_not_there_is_seen() {
    let root = root();
    let names = names(&root);
    assert!(known("section::read", &root, &names));
    assert!(known("read_of", &root, &names));
    assert!(known("crates/section/specs/Section.antt", &root, &names));
    assert!(!known("section::reads_everything", &root, &names));
    assert!(!known("crates/section/specs/Sections.antt", &root, &names));
}
