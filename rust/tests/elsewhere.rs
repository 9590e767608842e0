//! The crate builds outside the project, with the library's folder named by `LYNDON_LIB_DIR`, and says what is missing where it is not.
use std::fs::{copy, create_dir_all, read_dir};
use std::path::{Path, PathBuf};
use std::process::Command;

#[test]
fn built_outside_the_project() {
    let here = Path::new(env!("CARGO_MANIFEST_DIR"));
    let library = std::env::var_os("LYNDON_LIB_DIR").map_or_else(|| here.join("../target/lib"), PathBuf::from);
    let folder = std::env::temp_dir().join(format!("lyndon crate elsewhere {}", std::process::id()));
    create_dir_all(folder.join("src")).unwrap();
    for file in ["Cargo.toml", "Cargo.lock", "build.rs"] {
        copy(here.join(file), folder.join(file)).unwrap();
    }
    for entry in read_dir(here.join("src")).unwrap() {
        let file = entry.unwrap();
        copy(file.path(), folder.join("src").join(file.file_name())).unwrap();
    }
    let build = |library: &Path| {
        let mut cargo = Command::new(env!("CARGO"));
        cargo
            .args(["build", "--offline"])
            .current_dir(&folder)
            .env("LYNDON_LIB_DIR", library)
            .env("CARGO_TARGET_DIR", folder.join("target"));
        cargo.output().unwrap()
    };
    let missing = build(&folder.join("src"));
    let built = build(&library.canonicalize().unwrap());
    std::fs::remove_dir_all(&folder).unwrap();
    assert!(!missing.status.success());
    assert!(String::from_utf8_lossy(&missing.stderr).contains("name the library's folder by LYNDON_LIB_DIR"));
    assert!(built.status.success(), "{}", String::from_utf8_lossy(&built.stderr));
}
