//! The program `repeats`, run on an input.
use std::io::Write;
use std::path::{Path, PathBuf};
use std::process::{Command, Output, Stdio};

/// The project's folder.
pub fn root() -> PathBuf {
    PathBuf::from(env!("CARGO_MANIFEST_DIR")).join("..").canonicalize().unwrap()
}

/// Where the program is.
pub fn program() -> PathBuf {
    let program = root().join("crates/repeats/out/repeats");
    assert!(program.exists(), "crates/repeats/out/repeats is missing: run `rt run` in crates/repeats first");
    program
}

/// What comes of a command that is given an input.
pub fn output(command: &mut Command, input: &[u8]) -> Output {
    let mut child = command.stdin(Stdio::piped()).stdout(Stdio::piped()).stderr(Stdio::piped()).spawn().unwrap();
    // A program that has read enough may close its input; that is no fault here.
    let _ = child.stdin.take().unwrap().write_all(input);
    child.wait_with_output().unwrap()
}

/// What the program writes to standard output. It ends well, and says nothing on standard error.
pub fn run(program: &Path, input: &[u8]) -> Vec<u8> {
    let output = output(&mut Command::new(program), input);
    assert!(output.status.success(), "{}", output.status);
    assert_eq!(String::from_utf8_lossy(&output.stderr), "");
    output.stdout
}
