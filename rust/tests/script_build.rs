//! When the script `./repeats` builds, and when not: in a small tree of its own, with a stand-in for `rt` that notes its calls.
use std::fs::{self, create_dir_all, read_to_string, write};
use std::io::Write;
use std::os::unix::fs::{symlink, MetadataExt};
use std::os::unix::process::CommandExt;
use std::path::{Path, PathBuf};
use std::process::{Command, Output, Stdio};

/// Notes each call in the file `calls`, and an overlap of two. Where there is a file `broken` it leaves a program that must not run, and
/// fails. Else the program that it leaves is the file `program`.
const RT: &str = r#"#!/bin/sh
here=${0%/*}/..
echo "$*" >>"$here/calls"
mkdir "$here/busy" || echo overlap >>"$here/calls"
sleep 0.3
mkdir -p out
echo 'a note on standard output'
echo 'a note on standard error' >&2
if [ -e "$here/broken" ]; then
    printf '#!/bin/sh\necho BROKEN\n' >out/repeats
    chmod +x out/repeats
    rmdir "$here/busy"
    exit 1
fi
cp "$here/program" out/repeats
rmdir "$here/busy"
"#;

/// The tools that the script uses, `rt` and `flock` apart.
const TOOLS: [&str; 16] =
    ["bash", "cat", "chmod", "cp", "cut", "env", "find", "mkdir", "mv", "readlink", "rm", "rmdir", "sed", "sha256sum", "sleep", "sort"];

const LISTED: &str = "m1\t0\t2\tp1\n";

/// A folder with a copy of the script, some sources and tools; removed in the end.
struct Tree(PathBuf);

impl Tree {
    fn new(name: &str) -> Tree {
        let folder = std::env::temp_dir().join(format!("repeats test {name} {}", std::process::id()));
        let _ = fs::remove_dir_all(&folder);
        let tree = Tree(folder);
        for part in ["tree/crates/a/src", "tree/crates/b/src", "tree/crates/repeats/src", "tree/rust", "rt", "tools"] {
            create_dir_all(tree.at(part)).unwrap();
        }
        let root = Path::new(env!("CARGO_MANIFEST_DIR")).join("..");
        tree.executable("tree/repeats", &read_to_string(root.join("repeats")).unwrap());
        fs::copy(root.join("rust/Cargo.toml"), tree.at("tree/rust/Cargo.toml")).unwrap();
        write(tree.at("tree/crates.txt"), "a:\nb: a\n").unwrap();
        write(tree.at("tree/crates/a/src/lib.rt"), "one").unwrap();
        write(tree.at("tree/crates/b/src/main.rt"), "two").unwrap();
        tree.executable("rt/rt", RT);
        tree.program(&format!("printf '{LISTED}'"));
        for tool in TOOLS.iter().chain(&["xargs", "sh", "kill"]) {
            tree.link_tool(tool);
        }
        tree
    }

    fn at(&self, part: &str) -> PathBuf {
        self.0.join(part)
    }

    /// Written by a process of its own: a file that is open for writing here would be busy as long as another test's child, begun meanwhile, has
    /// it from us, and could not be run.
    fn executable(&self, part: &str, text: &str) {
        let mut child = Command::new("sh").args(["-c", "cat >\"$0\" && chmod 755 \"$0\""]).arg(self.at(part)).stdin(Stdio::piped()).spawn().unwrap();
        child.stdin.take().unwrap().write_all(text.as_bytes()).unwrap();
        assert!(child.wait().unwrap().success());
    }

    /// What the next build leaves.
    fn program(&self, line: &str) {
        self.executable("program", &format!("#!/bin/sh\n{line}\n"));
    }

    fn link_tool(&self, tool: &str) {
        let found = ["/usr/local/bin", "/usr/bin", "/bin"].iter().map(|folder| Path::new(folder).join(tool)).find(|path| path.exists());
        if let Some(found) = found {
            symlink(found, self.at("tools").join(tool)).unwrap();
        }
    }

    /// The script, with the stand-in for `rt` and every tool.
    fn script(&self) -> Command {
        self.script_with(&["rt", "tools"])
    }

    /// The script, with these folders alone on the path.
    fn script_with(&self, folders: &[&str]) -> Command {
        let mut command = Command::new(self.at("tree/repeats"));
        command.env("PATH", std::env::join_paths(folders.iter().map(|folder| self.at(folder))).unwrap());
        command.stdin(Stdio::null());
        command
    }

    /// How often `rt` was called; never twice at once.
    fn calls(&self) -> usize {
        let calls = read_to_string(self.at("calls")).unwrap_or_default();
        assert!(calls.lines().all(|call| call == "run"), "{calls}");
        calls.lines().count()
    }
}

impl Drop for Tree {
    fn drop(&mut self) {
        let _ = Command::new("chmod").args(["-R", "u+w"]).arg(&self.0).status();
        let _ = fs::remove_dir_all(&self.0);
    }
}

fn seen(output: Output) -> (Option<i32>, String, String) {
    (output.status.code(), String::from_utf8(output.stdout).unwrap(), String::from_utf8(output.stderr).unwrap())
}

/// The listing, with a build before it or without one.
fn assert_listed(command: &mut Command, built: bool) {
    let (status, out, error) = seen(command.output().unwrap());
    assert_eq!((status, &out[..]), (Some(0), LISTED), "{error}");
    assert_eq!(error.lines().count(), usize::from(built), "{error}");
    assert_eq!(error.contains("proving and building"), built, "{error}");
}

/// Status 2, nothing on standard output; what was said.
fn assert_failed(command: &mut Command) -> String {
    let (status, out, error) = seen(command.output().unwrap());
    assert_eq!((status, &out[..]), (Some(2), ""), "{error}");
    error
}

fn eight_at_once(tree: &Tree, folders: &[&str]) {
    let start = |_| tree.script_with(folders).stdout(Stdio::piped()).stderr(Stdio::piped()).spawn().unwrap();
    let children: Vec<_> = (0..8).map(start).collect();
    let mut told = 0;
    for child in children {
        let (status, out, error) = seen(child.wait_with_output().unwrap());
        assert_eq!((status, &out[..]), (Some(0), LISTED), "{error}");
        assert!(!error.contains("a note"), "{error}");
        told += error.matches("proving and building").count();
    }
    assert_eq!((tree.calls(), told), (1, 1));
    assert_listed(&mut tree.script_with(folders), false);
}

#[test]
fn eight_at_once_by_flock() {
    let tree = Tree::new("flock");
    tree.link_tool("flock");
    eight_at_once(&tree, &["rt", "tools"]);
}

#[test]
fn eight_at_once_without_flock() {
    let tree = Tree::new("no flock");
    eight_at_once(&tree, &["rt", "tools"]);
    assert!(!tree.at("tree/target/repeats/lock.d").exists());
}

/// A flock that the file system does not take.
#[test]
fn eight_at_once_where_flock_fails() {
    let tree = Tree::new("failing flock");
    tree.executable("tools/flock", "#!/bin/sh\nexit 71\n");
    eight_at_once(&tree, &["rt", "tools"]);
    assert!(!tree.at("tree/target/repeats/lock.d").exists());
}

#[test]
fn built_anew_where_a_source_has_changed() {
    let tree = Tree::new("changes");
    assert_listed(&mut tree.script(), true);
    assert_listed(&mut tree.script(), false);
    // The same content, written again.
    write(tree.at("tree/crates/a/src/lib.rt"), "one").unwrap();
    assert_listed(&mut tree.script(), false);
    let changes: [fn(&Tree); 5] = [
        |tree| write(tree.at("tree/crates/a/src/lib.rt"), "1").unwrap(),
        |tree| write(tree.at("tree/crates.txt"), "a:\nb: a a\n").unwrap(),
        |tree| write(tree.at("tree/crates/a/src/more.rt"), "").unwrap(),
        |tree| fs::rename(tree.at("tree/crates/a/src/more.rt"), tree.at("tree/crates/a/src/renamed.rt")).unwrap(),
        |tree| fs::remove_file(tree.at("tree/crates/a/src/renamed.rt")).unwrap(),
    ];
    for (i, change) in changes.iter().enumerate() {
        change(&tree);
        assert_listed(&mut tree.script(), true);
        assert_listed(&mut tree.script(), false);
        assert_eq!(tree.calls(), i + 2);
    }
}

#[test]
fn nothing_runs_after_a_failed_build() {
    let tree = Tree::new("failed");
    assert_listed(&mut tree.script(), true);
    write(tree.at("tree/crates/a/src/lib.rt"), "wrong").unwrap();
    write(tree.at("broken"), "").unwrap();
    for calls in [2, 3] {
        let error = assert_failed(&mut tree.script());
        assert!(error.contains("a note on standard output") && error.contains("a note on standard error"), "{error}");
        assert!(error.lines().last().unwrap().starts_with("repeats: "), "{error}");
        assert_eq!(tree.calls(), calls);
    }
    fs::remove_file(tree.at("broken")).unwrap();
    assert_listed(&mut tree.script(), true);
    assert_eq!(tree.calls(), 4);
}

#[test]
fn no_program_after_a_build_that_ends_well() {
    let tree = Tree::new("none left");
    tree.executable("rt/rt", "#!/bin/sh\nexit 0\n");
    assert!(assert_failed(&mut tree.script()).contains("not built"));
}

#[test]
fn rt_missing() {
    let tree = Tree::new("no rt");
    let error = assert_failed(&mut tree.script_with(&["tools"]));
    assert!(error.lines().count() == 1 && error.contains("install the Rattle toolchain"), "{error}");
    // A finished build does not ask for it.
    assert_listed(&mut tree.script(), true);
    assert_listed(&mut tree.script_with(&["tools"]), false);
}

#[test]
fn from_anywhere() {
    let tree = Tree::new("links");
    assert_listed(&mut tree.script(), true);
    symlink(tree.at("tree/repeats"), tree.at("link")).unwrap();
    symlink("link", tree.at("second link")).unwrap();
    create_dir_all(tree.at("elsewhere/tree")).unwrap();
    let path = std::env::join_paths([tree.at("rt"), tree.at("tools")]).unwrap();
    for (script, folder) in [("./link", "."), ("./second link", "."), ("tree/repeats", "."), ("./repeats", "tree"), ("../link", "tree")] {
        let mut command = Command::new("bash");
        command.args(["-c", "exec \"$0\"", script]).current_dir(tree.at(folder)).env("PATH", &path);
        command.env("CDPATH", tree.at("elsewhere")).stdin(Stdio::null());
        assert_listed(&mut command, false);
    }
    assert_eq!(tree.calls(), 1);
}

/// Where the folder cannot be written a finished build is run, and a missing one is told.
#[test]
fn folder_that_cannot_be_written() {
    let tree = Tree::new("read only");
    let locked = |command: &mut Command| {
        assert!(Command::new("chmod").args(["-R", "a-w,a+rX"]).arg(&tree.0).status().unwrap().success());
        // Root may write anywhere, so as nobody then.
        if fs::metadata(&tree.0).unwrap().uid() == 0 {
            command.uid(65_534).gid(65_534);
        }
    };
    let mut command = tree.script();
    locked(&mut command);
    let error = assert_failed(&mut command);
    assert!(error.lines().count() == 1 && error.contains("cannot be written"), "{error}");
    assert!(Command::new("chmod").args(["-R", "u+w"]).arg(&tree.0).status().unwrap().success());
    assert_listed(&mut tree.script(), true);
    let mut command = tree.script();
    locked(&mut command);
    assert_listed(&mut command, false);
}

/// What a program prints is passed on only where it is a listing or a refusal.
#[test]
fn other_output_is_a_failure() {
    let cases = [
        ("printf 'refused 9 at 0\\n'", 1, "refused 9 at 0\n", ""),
        ("printf 'refused\\t0\\t2\\tp1\\n'", 0, "refused\t0\t2\tp1\n", ""),
        ("printf 'm\\t0\\t2\\tp1'; echo 'repeats: standard output: x y' >&2", 2, "", "m\t0\t2\tp1repeats: standard output: x y\n"),
        ("echo 'repeats: standard input: x y' >&2", 2, "", "repeats: standard input: x y\n"),
        ("printf 'refused 9 at 0\\nm\\t0\\t2\\tp1\\n'", 2, "", "refused 9 at 0\nm\t0\t2\tp1\n"),
        ("printf 'm\\t0\\t2\\tp1\\n'; exit 3", 2, "", "m\t0\t2\tp1\nrepeats: the program ended with status 3\n"),
    ];
    for (i, (line, status, out, error)) in cases.iter().enumerate() {
        let tree = Tree::new(&format!("other output {i}"));
        tree.program(line);
        let _ = tree.script().output();
        assert_eq!(seen(tree.script().output().unwrap()), (Some(*status), out.to_string(), error.to_string()), "{line}");
    }
    let tree = Tree::new("killed");
    tree.program("printf 'm\\t0\\t2\\tp1\\n'; kill -SEGV $$");
    assert!(assert_failed(&mut tree.script()).contains("the program ended with status 139"));
}
