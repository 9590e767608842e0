//! Links the static library, liblyndon.a: from the folder that `LYNDON_LIB_DIR` names, else from where `make lib` writes it.
use std::path::{Path, PathBuf};

fn main() {
    println!("cargo:rerun-if-env-changed=LYNDON_LIB_DIR");
    println!("cargo:rerun-if-changed=build.rs");
    let folder = match std::env::var_os("LYNDON_LIB_DIR") {
        Some(folder) => PathBuf::from(folder),
        None => Path::new(env!("CARGO_MANIFEST_DIR")).join("../target/lib"),
    };
    let archive = folder.join("liblyndon.a");
    println!("cargo:rerun-if-changed={}", archive.display());
    // What only the tests link: where it is, they are built anew with it.
    let agreement = folder.join("libagreement.a");
    if agreement.exists() {
        println!("cargo:rerun-if-changed={}", agreement.display());
    }
    if !archive.exists() {
        panic!("{} is missing: run `make lib` in the project's root, or name the library's folder by LYNDON_LIB_DIR", archive.display());
    }
    println!("cargo:rustc-link-search=native={}", folder.canonicalize().unwrap().display());
    println!("cargo:rustc-link-lib=static=lyndon");
}
