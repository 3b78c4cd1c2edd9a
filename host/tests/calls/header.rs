//! The C header: a C program that uses all of it gives the answers that are due, and the header declares what the Rust
//! side declares and what the Rattle source has, name by name.

mod declared;

use std::fs;
use std::path::{Path, PathBuf};
use std::process::Command;

const ANSWERS: &str = include_str!("../header/answers.txt");

/// A path of the package.
fn here(path: impl AsRef<Path>) -> PathBuf {
    Path::new(env!("CARGO_MANIFEST_DIR")).join(path)
}

/// The folder of the static libraries, as the build script finds it.
fn libraries() -> PathBuf {
    match std::env::var_os("PIT_LIB_DIR") {
        Some(named) => here(PathBuf::from(named)),
        None => here("../target/staticlib"),
    }
}

/// What a command printed, after its good end.
fn output(command: &mut Command) -> String {
    let run = command.output();
    let run = run.unwrap_or_else(|e| panic!("{command:?}: {e}"));
    let errors = String::from_utf8_lossy(&run.stderr);
    assert!(
        run.status.success() && errors.is_empty(),
        "{command:?}: {}\n{errors}",
        run.status
    );
    String::from_utf8(run.stdout).expect("text")
}

/// Compiles `calls.c` and links it as a C host would. The program stays, for a run by hand.
fn compiled() -> PathBuf {
    let program = Path::new(env!("CARGO_TARGET_TMPDIR")).join("calls");
    let mut compiler = Command::new("cc");
    compiler.args(["-std=c99", "-g", "-Wall", "-Wextra", "-Werror", "-pedantic"]);
    compiler.arg("-I").arg(here("../include"));
    compiler.arg(here("tests/header/calls.c"));
    compiler.arg("-L").arg(libraries());
    compiler.args(["-lexports", "-ltree", "-o"]).arg(&program);
    output(&mut compiler);
    program
}

#[test]
fn a_c_program_gets_every_answer() {
    let printed = output(&mut Command::new(compiled()));
    let (mut got, mut due) = (printed.lines(), ANSWERS.lines());
    for line in 1.. {
        match (got.next(), due.next()) {
            (None, None) => break,
            (got, due) => assert_eq!(got, due, "line {line} of what calls.c prints"),
        }
    }
}

/// The header declares just what another side does: structs and functions, names and types in order.
fn the_header_is_as(side: &str, declared: &[String]) {
    let header = declared::in_c(include_str!("../../../include/pit.h"));
    assert_eq!(
        header.len(),
        15 + 17,
        "fifteen structs and seventeen functions"
    );
    for declaration in &header {
        assert!(
            declared.contains(declaration),
            "only in C, not in {side}: {declaration}"
        );
    }
    for declaration in declared {
        assert!(
            header.contains(declaration),
            "only in {side}, not in C: {declaration}"
        );
    }
}

#[test]
fn the_header_declares_what_the_rust_side_declares() {
    the_header_is_as(
        "Rust",
        &declared::in_rust(include_str!("../../src/calls/ffi.rs")),
    );
}

/// Every file of Rattle code, one after the other.
fn rattle_code() -> String {
    let files = |folder: PathBuf| {
        let entries = fs::read_dir(&folder).unwrap_or_else(|e| panic!("{}: {e}", folder.display()));
        entries.map(|entry| entry.unwrap().path())
    };
    let code = files(here("../crates")).flat_map(|name| files(name.join("src")));
    let code = code.filter(|path| path.extension().map_or(false, |end| end == "rt"));
    code.map(|path| fs::read_to_string(path).unwrap()).collect()
}

#[test]
fn the_header_declares_what_the_rattle_source_has() {
    the_header_is_as("Rattle", &declared::in_rattle(&rattle_code()));
}
