//! The C examples, compiled with the header and the library as a C user would, and run.
use std::path::{Path, PathBuf};
use std::process::Command;

fn root() -> PathBuf {
    Path::new(env!("CARGO_MANIFEST_DIR")).join("..")
}

/// Compiles an example, with every warning an error.
fn built(name: &str) -> PathBuf {
    let program = Path::new(env!("CARGO_TARGET_TMPDIR")).join(name);
    let status = Command::new(std::env::var("CC").unwrap_or("cc".to_string()))
        .args(["-O2", "-std=c99", "-Wall", "-Wextra", "-pedantic", "-Werror", "-Iinclude", "-o"])
        .arg(&program)
        .args([&format!("examples/{name}.c"), "target/lib/liblyndon.a"])
        .current_dir(root())
        .status()
        .unwrap();
    assert!(status.success());
    program
}

/// What an example prints for its arguments, one text or several with a space between them, and its exit status.
fn run(program: &Path, texts: &str) -> (String, Option<i32>) {
    let output = Command::new(program).args(texts.split(' ')).output().unwrap();
    (String::from_utf8(output.stdout).unwrap(), output.status.code())
}

#[test]
fn runs_of_a_text() {
    let program = built("runs");
    let (out, code) = run(&program, "mississippi");
    let want = "4 runs\n\
        1 to 7, period 3: ississi\n\
        2 to 3, period 1: ss\n\
        5 to 6, period 1: ss\n\
        8 to 9, period 1: pp\n\
        rising Lyndon array: 1 3 1 1 3 1 1 3 1 1 1\n\
        falling Lyndon array: 2 1 9 2 1 6 5 1 3 2 1\n";
    assert_eq!((&out[..], code), (want, Some(0)));
    assert_eq!(run(&program, "a"), ("0 runs\nrising Lyndon array: 1\nfalling Lyndon array: 1\n".to_string(), Some(0)));
    assert_eq!(run(&program, ""), ("refused 1 at 0\n".to_string(), Some(1)));
}

/// What examples/README.md shows that an example prints for a text: so many lines.
fn shown(name: &str, text: &str, lines: usize) -> String {
    let readme = std::fs::read_to_string(root().join("examples/README.md")).unwrap();
    let (_, shown) = readme.split_once(&format!("    $ ./target/examples/{name} {text}\n")).unwrap();
    let shown: Vec<&str> = shown.lines().map_while(|line| line.strip_prefix("    ")).collect();
    assert_eq!(shown.len(), lines);
    shown.join("\n") + "\n"
}

#[test]
fn arrays_of_two_groups() {
    let program = built("two_groups");
    assert_eq!(run(&program, "GATTaca"), (shown("two_groups", "GATTaca", 10), Some(0)));
    // A table that is not written is told before a text that is empty.
    let (out, code) = run(&program, "");
    assert_eq!((out.matches("refused 22\n").count(), out.matches("refused 1\n").count(), code), (2, 5, Some(0)));
}

#[test]
fn factors_in_the_default_order() {
    let program = built("default_order");
    assert_eq!(run(&program, "GATTaca"), (shown("default_order", "GATTaca", 4), Some(0)));
    let want = "factors, default order      |aB|\n\
        by the array, default order |aB|\n\
        by the array, rising order  |a|B|\n\
        factors, rising order       |a|B|\n";
    assert_eq!(run(&program, "aB"), (want.to_string(), Some(0)));
    assert_eq!(run(&program, ""), ("refused 1\n".to_string(), Some(1)));
}

#[test]
fn markers_in_infinite_order() {
    let program = built("infinite_order");
    for (texts, lines) in [("abacabade abac", 10), ("abab ab", 2)] {
        assert_eq!(run(&program, texts), (shown("infinite_order", texts, lines), Some(0)));
    }
    assert_eq!(run(&program, "a B"), ("a is above B\n0 prefixes, by their last positions\n".to_string(), Some(0)));
    assert_eq!(run(&program, "aB aB"), ("aB is the same as aB\naB is not a Lyndon word\n".to_string(), Some(0)));
    for texts in ["a ", " a"] {
        assert_eq!(run(&program, texts), ("refused 1\n".to_string(), Some(1)));
    }
}
