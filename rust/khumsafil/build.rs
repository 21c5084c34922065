//! Links the proved library: the one in the folder that the environment variable `KHUMSAFIL_NATIVE` names, or the one that
//! was installed with this wrapper, or the one that `tools/build` made in this tree.

use std::path::{Path, PathBuf};

/// Where `tools/install PREFIX` puts the wrapper, below its prefix.
const INSTALLED: &str = "share/khumsafil/rust/khumsafil";

/// The folder with the library, and what is to be done where it is not there.
fn folder() -> (PathBuf, &'static str) {
    let here = std::env::var_os("CARGO_MANIFEST_DIR").expect("cargo names the wrapper's folder");
    let here = Path::new(&here);
    if let Some(folder) = std::env::var_os("KHUMSAFIL_NATIVE") {
        (
            folder.into(),
            "KHUMSAFIL_NATIVE is to name the folder that has it",
        )
    } else if here.ends_with(INSTALLED) {
        (
            here.join("../../../../lib"),
            "run tools/install again, with the same prefix",
        )
    } else {
        (here.join("../../target/native"), "run tools/build first")
    }
}

fn main() {
    println!("cargo:rerun-if-env-changed=KHUMSAFIL_NATIVE");
    let (folder, remedy) = folder();
    let library = folder.join("libkhumsafil.a");
    println!("cargo:rerun-if-changed={}", library.display());
    assert!(
        library.is_file(),
        "{} is not there: {remedy}",
        library.display()
    );
    println!("cargo:rustc-link-search=native={}", folder.display());
    println!("cargo:rustc-link-lib=static=khumsafil");
}
