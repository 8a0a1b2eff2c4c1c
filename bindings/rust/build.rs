//! Links the static library libpitbook.a: from the folder in PITBOOK_LIB_DIR, or from where the repository builds it.
use std::{env, path::PathBuf};

fn main() {
    println!("cargo::rerun-if-env-changed=PITBOOK_LIB_DIR");
    let dir = match env::var_os("PITBOOK_LIB_DIR") {
        Some(dir) => PathBuf::from(dir),
        None => PathBuf::from(env!("CARGO_MANIFEST_DIR")).join("../../target/staticlib"),
    };
    let archive = dir.join("libpitbook.a");
    println!("cargo::rerun-if-changed={}", archive.display());
    // The linker runs in another folder than this program, so a relative path would not do.
    let Ok(archive) = archive.canonicalize() else {
        panic!(
            "no {}: build it by `make lib`, or name its folder in PITBOOK_LIB_DIR",
            archive.display()
        );
    };
    if let Some(dir) = archive.parent() {
        println!("cargo::rustc-link-search=native={}", dir.display());
    }
    println!("cargo::rustc-link-lib=static=pitbook");
}
