//! The script `./repeats` and the program behind it: listings, exit status, and inputs and outputs that fail.
mod common;
mod definitions;
mod faster;

use common::lister::{output, program, root};
use std::fs::{read, File};
use std::io::Write;
use std::os::fd::OwnedFd;
use std::os::unix::net::UnixStream;
use std::process::{Command, Output, Stdio};
use std::sync::Once;

/// The script, after a first run that may build the program.
fn script() -> Command {
    static BUILT: Once = Once::new();
    BUILT.call_once(|| {
        let first = Command::new(root().join("repeats")).arg(root().join("examples/m1.fa")).output().unwrap();
        assert_eq!(first.status.code(), Some(0), "{}", String::from_utf8_lossy(&first.stderr));
    });
    Command::new(root().join("repeats"))
}

/// A shell that runs `line` with the script and the program as its first two arguments.
fn shell(line: &str) -> Command {
    let mut command = Command::new("bash");
    command.args(["-c", line, "bash"]).arg(script().get_program()).arg(program()).current_dir(root());
    command
}

/// Status, standard output and standard error.
fn seen(output: Output) -> (Option<i32>, String, String) {
    (output.status.code(), String::from_utf8(output.stdout).unwrap(), String::from_utf8(output.stderr).unwrap())
}

/// Nothing on standard output, status 2, and a line on standard error that names what failed.
fn assert_failed(output: Output, named: &str) {
    let (status, out, error) = seen(output);
    assert_eq!((status, &out[..]), (Some(2), ""), "{error}");
    assert!(error.starts_with("repeats: ") && error.contains(named) && error.lines().count() == 1, "{error}");
}

/// A record whose listing is long: a name of 60 bytes and many runs.
fn long_listing() -> (Vec<u8>, Vec<u8>) {
    let input = [b">".as_slice(), &[b'n'; 60], b"\n", &common::fibonacci(definitions::MAX_LETTERS), b"\n"].concat();
    let listing = definitions::listing(&input, faster::runs);
    assert!(listing.len() > 200_000);
    (input, listing)
}

#[test]
fn examples() {
    let mut count = 0;
    for entry in root().join("examples").read_dir().unwrap() {
        let fasta = entry.unwrap().path();
        if fasta.extension().is_some_and(|extension| extension == "fa") {
            let bed = String::from_utf8(read(fasta.with_extension("bed")).unwrap()).unwrap();
            let want = (Some(0), bed, String::new());
            assert_eq!(seen(script().arg(&fasta).output().unwrap()), want, "{}", fasta.display());
            assert_eq!(seen(output(&mut script(), &read(&fasta).unwrap())), want, "{}", fasta.display());
            count += 1;
        }
    }
    assert_eq!(count, 4);
}

#[test]
fn exit_status() {
    let lines = |name: &str| format!("{name}\t0\t2\tp1\n{name}\t0\t6\tp3\n{name}\t3\t5\tp1\n");
    let cases = [
        (">m1\naabaab\n", 0, lines("m1")),
        (">refused\naabaab\n", 0, lines("refused")),
        (">repeats:\naabaab\n", 0, lines("repeats:")),
        (">refused 9 at 0\na\n", 0, String::new()),
        (">m1\nab\n", 0, String::new()),
        ("", 1, "refused 9 at 0\n".to_string()),
        (">m1\na-b\n", 1, "refused 11 at 5\n".to_string()),
        (">m1\n", 1, "refused 13 at 4\n".to_string()),
    ];
    for (input, status, want) in cases {
        assert_eq!(seen(output(&mut script(), input.as_bytes())), (Some(status), want, String::new()), "{input:?}");
    }
    let long = vec![b'>'; 100_000];
    assert_eq!(seen(output(&mut script(), &long)), (Some(1), "refused 15 at 16384\n".to_string(), String::new()));
}

#[test]
fn long_listings_pass_whole() {
    let (input, listing) = long_listing();
    let got = output(&mut script(), &input);
    assert_eq!((got.status.code(), got.stderr.len()), (Some(0), 0));
    assert!(got.stdout == listing);
    assert!(common::lister::run(&program(), &input) == listing);
}

/// What the program needs fits a stack of 2 MB.
#[test]
fn small_stack() {
    let (input, listing) = long_listing();
    for line in ["ulimit -s 2048 && exec \"$1\"", "ulimit -s 2048 && exec \"$2\""] {
        let got = output(&mut shell(line), &input);
        assert_eq!((got.status.code(), got.stderr.len()), (Some(0), 0), "{line}");
        assert!(got.stdout == listing, "{line}");
    }
}

/// The filter of README.md, with a listing and with a refusal.
#[test]
fn filtered_under_pipefail() {
    let line = "set -o pipefail; \"$1\" | awk -F '\\t' '$3 - $2 >= 20'";
    let long = "hv_ssr\t57\t86\tp2\nhv_ssr\t128\t156\tp3\nhv_ssr\t193\t239\tp7\n";
    let input = read(root().join("examples/barley_ssr.fa")).unwrap();
    assert_eq!(seen(output(&mut shell(line), &input)), (Some(0), long.to_string(), String::new()));
    assert_eq!(seen(output(&mut shell(line), &input[1..])), (Some(1), String::new(), String::new()));
}

#[test]
fn arguments() {
    let (status, out, error) = seen(script().arg("--help").output().unwrap());
    assert_eq!((status, &error[..]), (Some(0), ""));
    assert!(out.starts_with("usage: repeats [FILE]\n") && out.contains("Exit status"));
    let version = format!("repeats {}\n", env!("CARGO_PKG_VERSION"));
    assert_eq!(seen(script().arg("--version").output().unwrap()), (Some(0), version, String::new()));
    let m1 = root().join("examples/m1.fa");
    let m1 = m1.to_str().unwrap();
    for arguments in [&[m1, m1][..], &["--unknown"], &["-"], &["--help", m1], &[m1, ""]] {
        let (status, out, error) = seen(script().args(arguments).output().unwrap());
        assert_eq!((status, &out[..]), (Some(2), ""), "{arguments:?}");
        assert!(error.starts_with("usage: repeats [FILE]\n"), "{error}");
    }
    assert_failed(script().arg("no-such-file.fa").output().unwrap(), "no-such-file.fa");
    assert_failed(script().arg(root()).output().unwrap(), "directory");
    assert_failed(script().arg("").output().unwrap(), "cannot be found");
}

/// A pipe that has no more data for now, and does not wait, has not ended.
#[test]
fn input_that_is_not_there_yet() {
    for command in [&mut script(), &mut Command::new(program())] {
        for start in [&b""[..], b">m1\naab", b">m1\naabaab\n"] {
            let (mut ours, theirs) = UnixStream::pair().unwrap();
            theirs.set_nonblocking(true).unwrap();
            ours.write_all(start).unwrap();
            let child = command.stdin(OwnedFd::from(theirs)).stdout(Stdio::piped()).stderr(Stdio::piped()).spawn().unwrap();
            let got = child.wait_with_output().unwrap();
            assert_eq!(String::from_utf8_lossy(&got.stdout), "");
            let error = String::from_utf8_lossy(&got.stderr);
            assert_eq!(error, "repeats: standard input: Resource temporarily unavailable\n");
            let status = got.status.code();
            assert_eq!(status, Some(if command.get_program() == program() { 0 } else { 2 }));
        }
    }
}

/// An input in several pieces is one input.
#[test]
fn input_in_pieces() {
    let got = shell("(printf '>m'; sleep 0.05; printf '1\\naab'; sleep 0.05; printf 'aab\\n') | \"$1\"").output().unwrap();
    assert_eq!(seen(got), (Some(0), "m1\t0\t2\tp1\nm1\t0\t6\tp3\nm1\t3\t5\tp1\n".to_string(), String::new()));
}

#[test]
fn input_that_fails() {
    assert_failed(script().stdin(File::open(root()).unwrap()).output().unwrap(), "standard input: Is a directory");
    assert_failed(shell("exec \"$1\" <&-").output().unwrap(), "standard input");
    let (_, out, error) = seen(Command::new(program()).stdin(File::open(root()).unwrap()).output().unwrap());
    assert_eq!((&out[..], &error[..]), ("", "repeats: standard input: Is a directory\n"));
    let (_, out, error) = seen(shell("exec \"$2\" <&-").output().unwrap());
    assert_eq!((&out[..], &error[..]), ("", "repeats: standard input: Bad file descriptor\n"));
}

#[test]
fn output_that_fails() {
    for (line, named) in [
        ("\"$1\" examples/m1.fa >/dev/full", "standard output"),
        ("\"$1\" examples/m1.fa >&-", "standard output"),
        ("printf '>' | \"$1\" >/dev/full", "standard output"),
    ] {
        assert_failed(shell(line).output().unwrap(), named);
    }
    // A reader that is gone.
    let (input, _) = long_listing();
    assert_failed(output(&mut shell("\"$1\" | :; exit \"${PIPESTATUS[0]}\""), &input), "standard output");
    let (_, out, error) = seen(output(&mut shell("\"$2\" >/dev/full"), b">m1\naab\n"));
    assert_eq!((&out[..], &error[..]), ("", "repeats: standard output: No space left on device\n"));
    let (_, out, error) = seen(output(&mut shell("\"$2\" >&-"), b">m1\naab\n"));
    assert_eq!((&out[..], &error[..]), ("", "repeats: standard output: Bad file descriptor\n"));
    assert_eq!(shell("\"$1\" --help >/dev/full 2>&1").output().unwrap().status.code(), Some(2));
    assert_eq!(shell("\"$1\" --version >/dev/full 2>&1").output().unwrap().status.code(), Some(2));
}

/// With standard error closed the listing and the status are the same.
#[test]
fn standard_error_closed() {
    let got = output(&mut shell("exec \"$1\" 2>&-"), b">m1\naab\n");
    assert_eq!((got.status.code(), &got.stdout[..]), (Some(0), &b"m1\t0\t2\tp1\n"[..]));
    let got = output(&mut shell("exec \"$1\" 2>&-"), b"m1\n");
    assert_eq!((got.status.code(), &got.stdout[..]), (Some(1), &b"refused 9 at 0\n"[..]));
}
