//! The commands in `tools/` as a user runs them, and folders for what they make.

use crate::top;
use std::ffi::OsStr;
use std::fs;
use std::io::Write;
use std::path::{Path, PathBuf};
use std::process::{Command, Output, Stdio};

/// A command that works for this processor, whatever the tests themselves are compiled for and run under. The library that
/// `KHUMSAFIL_NATIVE` names stays named, unless it is for another processor.
pub fn plain(program: impl AsRef<OsStr>) -> Command {
    let mut command = Command::new(program);
    command.stdin(Stdio::null());
    if std::env::var_os("CARGO_BUILD_TARGET").is_some() {
        for name in ["CARGO_BUILD_TARGET", "KHUMSAFIL_NATIVE", "RUSTC", "RUSTDOC"] {
            command.env_remove(name);
        }
    }
    for name in [
        "CARGO_TARGET_DIR",
        "DESTDIR",
        "KHUMSAFIL_LISTER",
        "KHUMSAFIL_PROGRAMME_LISTER",
    ] {
        command.env_remove(name);
    }
    command
}

/// A command of `tools/`.
pub fn tool(name: &str) -> Command {
    plain(top("tools").join(name))
}

/// What a command answers to an input. It may stop reading before the input ends, so a broken pipe is no fault.
pub fn fed(mut command: Command, input: &[u8]) -> Output {
    let mut child = command
        .stdin(Stdio::piped())
        .stdout(Stdio::piped())
        .stderr(Stdio::piped())
        .spawn()
        .expect("the command starts");
    let mut pipe = child.stdin.take().expect("a pipe");
    let input = input.to_vec();
    let writer = std::thread::spawn(move || {
        let _ = pipe.write_all(&input);
    });
    let output = child.wait_with_output().expect("the command ends");
    writer.join().expect("the input was written");
    output
}

/// What a command answers to an empty input.
pub fn ended(mut command: Command) -> Output {
    command.output().expect("the command ends")
}

pub fn text(bytes: &[u8]) -> String {
    String::from_utf8_lossy(bytes).into_owned()
}

/// This text on the standard output, and this status.
pub fn said(output: &Output, expected: &str, status: i32) {
    let error = text(&output.stderr);
    assert_eq!(text(&output.stdout), expected, "{error}");
    assert_eq!(output.status.code(), Some(status), "{error}");
}

/// A folder outside of the tree, which is removed at its end.
pub struct Outside(PathBuf);

impl Outside {
    pub fn new(name: &str) -> Outside {
        let folder = format!("khumsafil-{name}-{}", std::process::id());
        let folder = std::env::temp_dir().join(folder);
        fs::create_dir_all(&folder).expect("a folder");
        // A link on the way is followed, so that what is named in an answer is named alike.
        Outside(folder.canonicalize().expect("a folder"))
    }

    pub fn path(&self, below: &str) -> PathBuf {
        self.0.join(below)
    }

    /// Writes a file, with the folders that lead to it.
    pub fn write(&self, below: &str, bytes: impl AsRef<[u8]>) -> PathBuf {
        let path = self.path(below);
        fs::create_dir_all(path.parent().expect("a folder")).expect("a folder");
        fs::write(&path, bytes).unwrap_or_else(|e| panic!("{}: {e}", path.display()));
        path
    }
}

impl Drop for Outside {
    fn drop(&mut self) {
        let _ = fs::remove_dir_all(&self.0);
    }
}

/// The files below a folder, by their paths from it, in order.
pub fn files_below(folder: &Path) -> Vec<String> {
    let mut found = Vec::new();
    let mut folders = vec![folder.to_path_buf()];
    while let Some(one) = folders.pop() {
        for entry in fs::read_dir(&one).unwrap_or_else(|e| panic!("{}: {e}", one.display())) {
            let path = entry.expect("an entry").path();
            if path.is_dir() {
                folders.push(path);
            } else {
                let below = path.strip_prefix(folder).expect("a file below");
                found.push(below.display().to_string());
            }
        }
    }
    found.sort();
    found
}
