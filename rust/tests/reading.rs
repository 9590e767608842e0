//! docs/READING.md names only what exists: files, definitions, functions, must-fail edits, and line counts.
//!
//! What stands in backquotes there is a path or a name. `words/Lyndon` is crates/words/specs/Lyndon.antt, `words/proofs/RunsTheorem` is
//! crates/words/proofs/RunsTheorem.antt, `array::bytes::lyndon_array` a function of crates/array/src, `array/one_order_only` a must-fail edit,
//! any other path one of the repository. A name must be declared in
//! the file or files named last before it in the same table cell or paragraph, or, where none is, in some crate. Anything else is code.

use std::collections::HashMap;
use std::fs;
use std::path::{Path, PathBuf};

/// Words in backquotes that are no name of the project: parts of the two languages, and texts of documents 01 and 02.
const NOT_NAMES: &[&str] = &["requires", "match", "refl", "break", "main", "specs", "aabaab", "AAbaab", "rt", "cond"];

/// The files with the proofs of functions, which no reader need look at. What else stands in proofs/ are laws, and some theorems.
const PROOFS_OF_FUNCTIONS: &[&str] = &["Answers.antt", "Invariants.antt"];

/// The file that a path of docs/READING.md names: of specs/, or of proofs/ where the path says so.
fn definitions(root: &Path, word: &str) -> PathBuf {
    let (first, rest) = word.split_once('/').unwrap();
    let place = root.join("crates").join(first);
    if rest.starts_with("proofs/") { place.join(rest) } else { place.join("specs").join(rest) }.with_extension("antt")
}

fn root() -> PathBuf {
    Path::new(env!("CARGO_MANIFEST_DIR")).parent().unwrap().to_path_buf()
}

fn read(path: &Path) -> String {
    fs::read_to_string(path).unwrap_or_else(|e| panic!("{}: {e}", path.display()))
}

/// All files below a folder with one of the endings.
fn files(folder: &Path, endings: &[&str], found: &mut Vec<PathBuf>) {
    for entry in fs::read_dir(folder).unwrap() {
        let path = entry.unwrap().path();
        if path.is_dir() {
            files(&path, endings, found);
        } else if path.extension().is_some_and(|e| endings.iter().any(|w| e == *w)) {
            found.push(path);
        }
    }
}

/// The words in backquotes of a text.
fn quoted(text: &str) -> Vec<&str> {
    text.split('`').skip(1).step_by(2).collect()
}

/// A letter, then letters, digits and the marks that names have.
fn is_name(word: &str) -> bool {
    let mut letters = word.chars();
    letters.next().is_some_and(char::is_alphabetic) && word.chars().all(|c| c.is_alphanumeric() || "-_'".contains(c))
}

/// Whether a file declares the name: a line that begins with it after marks, or lists it as a constructor or a field.
fn declares(text: &str, name: &str) -> bool {
    const MARKS: &[&str] =
        &["pub", "abbrev", "unfoldable", "record", "data", "fn", "struct", "enum", "const", "mod", "extern", "\"C\"", "crate"];
    text.lines().any(|line| {
        let line = line.split("--").next().unwrap();
        let words: Vec<&str> = line.split(|c: char| c.is_whitespace() || "(){}<>:,;=".contains(c)).filter(|w| !w.is_empty()).collect();
        let marks = words.iter().take_while(|w| MARKS.contains(w)).count();
        let before = line.split(':').next().unwrap();
        let listed = line.starts_with("  ") && line.contains(':') && before.split_whitespace().any(|w| w == name);
        words.get(marks) == Some(&name) && (marks > 0 || line.contains(':') || line.contains('{')) || listed
    })
}

#[test]
fn reading_names_what_exists() {
    let root = root();
    let mut sources = Vec::new();
    files(&root.join("crates"), &["antt", "rt"], &mut sources);
    let below = |p: &Path, folder: &str| p.components().any(|c| c.as_os_str() == folder);
    sources.retain(|p| !below(p, "out") && !(below(p, "proofs") && PROOFS_OF_FUNCTIONS.iter().any(|name| p.ends_with(name))));
    let texts: HashMap<PathBuf, String> = sources.into_iter().map(|p| (p.clone(), read(&p))).collect();

    let mut wrong = Vec::new();
    let mut names = 0;
    let reading = read(&root.join("docs/READING.md"));
    for (line, text) in reading.lines().enumerate() {
        for cell in text.split('|') {
            let mut current: Vec<&PathBuf> = Vec::new();
            let mut after_path = false;
            for word in quoted(cell) {
                let mut say = |what: &str| wrong.push(format!("line {}: `{word}`: {what}", line + 1));
                if word.contains("::") {
                    names += 1;
                    let parts: Vec<&str> = word.split("::").collect();
                    let source = root.join("crates").join(parts[0]).join("src");
                    let name = parts[parts.len() - 1];
                    let inside: Vec<&PathBuf> = texts.keys().filter(|p| p.starts_with(&source)).collect();
                    let file = source.join(parts[1]).with_extension("rt");
                    // The part in the middle is a module, or a type with methods.
                    let methods = parts.len() > 2 && !file.exists();
                    let module = if parts.len() > 2 && !methods { file } else { source.join("lib.rt") };
                    let found = match texts.get(&module) {
                        Some(t) => (declares(t, name) || t.contains(&format!("::{name}"))) && (!methods || declares(t, parts[1])),
                        None => false,
                    };
                    if inside.is_empty() || !(found || source.join(name).with_extension("rt").exists()) {
                        say("no such function or module");
                    }
                    after_path = false;
                } else if word.contains('/') && !word.contains(' ') {
                    names += 1;
                    let (first, rest) = word.split_once('/').unwrap();
                    let spec = definitions(&root, word);
                    let edit = root.join("crates").join(first).join("must-fail").join(rest).with_extension("edit");
                    if let Some((path, _)) = texts.get_key_value(&spec) {
                        if !after_path {
                            current.clear();
                        }
                        current.push(path);
                        after_path = true;
                    } else if !edit.exists() && !root.join(word).exists() {
                        say("no such file");
                    }
                } else if is_name(word) && !NOT_NAMES.contains(&word) {
                    names += 1;
                    after_path = false;
                    let crates = root.join("crates").join(word).is_dir();
                    let there = if current.is_empty() {
                        crates || texts.values().any(|t| declares(t, word))
                    } else {
                        current.iter().any(|p| declares(&texts[*p], word))
                    };
                    if !there {
                        say(if current.is_empty() { "declared nowhere" } else { "not declared in the file named before it" });
                    }
                }
            }
        }
    }
    assert!(wrong.is_empty(), "docs/READING.md:\n{}", wrong.join("\n"));
    assert!(names > 100, "only {names} names were found in docs/READING.md");
}

/// Every public function is named there.
#[test]
fn reading_names_every_public_function() {
    let root = root();
    let reading = read(&root.join("docs/READING.md"));
    let named: Vec<&str> = quoted(&reading).into_iter().filter_map(|word| word.rsplit_once("::")).map(|(_, name)| name).collect();
    let mut sources = Vec::new();
    files(&root.join("crates"), &["rt"], &mut sources);
    sources.retain(|p| !p.components().any(|c| c.as_os_str() == "out"));
    let mut count = 0;
    for source in sources {
        for line in read(&source).lines() {
            let Some(declared) = line.trim_start().strip_prefix("pub fn ").or(line.strip_prefix("pub extern \"C\" fn ")) else { continue };
            let name = declared.split('(').next().unwrap();
            assert!(named.contains(&name), "docs/READING.md does not name {name} of {}", source.display());
            count += 1;
        }
    }
    assert!(count > 40, "only {count} public functions were found");
}

/// The reading list gives each file's number of lines, and their sum.
#[test]
fn reading_list_counts_lines() {
    let root = root();
    let reading = read(&root.join("docs/READING.md"));
    let mut sum = 0;
    let mut total = None;
    for line in reading.lines() {
        let cells: Vec<&str> = line.split('|').map(str::trim).collect();
        let Some(Ok(count)) = cells.get(cells.len().saturating_sub(2)).map(|c| c.parse::<usize>()) else { continue };
        match quoted(cells[1]).first() {
            Some(word) => {
                assert_eq!(read(&definitions(&root, word)).lines().count(), count, "lines of {word}");
                sum += count;
            }
            None => total = Some(count),
        }
    }
    assert_eq!(total, Some(sum), "the sum of the reading list");
}

/// The files that docs/DECISIONS.md names exist.
#[test]
fn decisions_name_files_that_exist() {
    let root = root();
    let mut sources = Vec::new();
    files(&root.join("crates"), &["antt", "rt"], &mut sources);
    let text = read(&root.join("docs/DECISIONS.md"));
    let named: Vec<&str> = quoted(&text).into_iter().filter(|w| w.ends_with(".antt") || w.ends_with(".rt")).collect();
    assert!(named.len() > 5, "only {} files were found in docs/DECISIONS.md", named.len());
    let missing: Vec<&&str> = named.iter().filter(|w| !sources.iter().any(|p| p.ends_with(w))).collect();
    assert!(missing.is_empty(), "docs/DECISIONS.md names {missing:?}");
}
