//! The header and the library as a C and a C++ user has them: every exported function is called (tests/interface/calls.c), and the header
//! names all of them.
use std::path::{Path, PathBuf};
use std::process::Command;

fn root() -> PathBuf {
    Path::new(env!("CARGO_MANIFEST_DIR")).join("..")
}

/// Where the library is, as build.rs has it.
fn library() -> PathBuf {
    std::env::var_os("LYNDON_LIB_DIR").map_or_else(|| root().join("target/lib"), PathBuf::from).join("liblyndon.a")
}

/// Compiles the calls with every warning an error, links them with the library and runs them.
fn calls(compiler: &str, variable: &str, words: &[&str]) {
    let program = Path::new(env!("CARGO_TARGET_TMPDIR")).join(format!("calls-{compiler}"));
    let status = Command::new(std::env::var(variable).unwrap_or(compiler.to_string()))
        .args(words)
        .args(["-O2", "-Wall", "-Wextra", "-Werror", "-pedantic"])
        .arg("-I")
        .arg(root().join("include"))
        .arg("-o")
        .arg(&program)
        .arg(root().join("rust/tests/interface/calls.c"))
        .args(["-x", "none"])
        .arg(library())
        .status()
        .unwrap();
    assert!(status.success());
    let output = Command::new(&program).output().unwrap();
    assert_eq!(String::from_utf8_lossy(&output.stderr), "");
    assert_eq!((output.status.code(), String::from_utf8_lossy(&output.stdout).as_ref()), (Some(0), "304 calls\n"));
}

#[test]
fn as_c() {
    calls("cc", "CC", &["-x", "c", "-std=c99"]);
}

#[test]
fn as_cpp() {
    calls("c++", "CXX", &["-x", "c++", "-std=c++11"]);
}

/// The functions of the header are the exports of the crate, and each is called.
#[test]
fn every_function_is_called() {
    let read = |path: &str| std::fs::read_to_string(root().join(path)).unwrap();
    let (header, exports, calls) = (read("include/lyndon.h"), read("crates/lyndon_c/src/lib.rt"), read("rust/tests/interface/calls.c"));
    let names = |text: &str, before: &[&str]| -> Vec<String> {
        let declared = text.lines().filter_map(|line| before.iter().find_map(|words| line.strip_prefix(words)));
        let mut names: Vec<String> = declared.map(|rest| rest.split('(').next().unwrap().to_string()).collect();
        names.sort();
        names
    };
    let exported = names(&exports, &["pub extern \"C\" fn "]);
    assert_eq!(exported.len(), 24);
    assert_eq!(names(&header, &["lyndon_answer ", "lyndon_store ", "lyndon_store_written "]), exported);
    for name in exported {
        assert!(calls.contains(&format!("{name}(")), "{name} is not called");
    }
}
