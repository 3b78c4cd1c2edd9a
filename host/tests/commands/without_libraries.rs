//! The package where the static libraries are not built yet: what links nothing works.

use std::path::Path;
use std::process::{Command, Output};

/// Runs cargo on this package, with an empty folder for the libraries and another for what it makes.
fn cargo(words: &[&str]) -> Output {
    let made = Path::new(env!("CARGO_TARGET_TMPDIR")).join("without-libraries");
    let none = made.join("none");
    std::fs::create_dir_all(&none).unwrap();
    let mut cargo = Command::new(env!("CARGO"));
    cargo.args(words).args(["--offline", "--locked"]);
    cargo.current_dir(env!("CARGO_MANIFEST_DIR"));
    cargo.env("PIT_LIB_DIR", none).env("CARGO_TARGET_DIR", made);
    cargo.output().unwrap()
}

#[test]
fn check_and_doc_need_no_libraries() {
    for words in [&["check"][..], &["doc", "--no-deps"]] {
        let end = cargo(words);
        let told = String::from_utf8(end.stderr).unwrap();
        assert!(end.status.success(), "{words:?}: {told}");
        for library in ["libexports.a", "libtree.a"] {
            let warned = |line: &str| line.starts_with("warning: ") && line.contains(library);
            assert!(told.lines().any(warned), "{words:?}, {library}: {told}");
        }
    }
}
