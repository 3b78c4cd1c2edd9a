//! Links the proved static libraries, `libexports.a` (the store's calls) and `libtree.a` (the sizes):
//! from the folder that `PIT_LIB_DIR` names, else from `target/staticlib` at the top of the repository,
//! where `tools/build exports tree` writes them.
//!
//! Where one is missing, that is a warning: `cargo check` and `cargo doc` link nothing and do without. What links
//! fails then, at the library.

use std::env;
use std::path::{Path, PathBuf};

fn main() {
    let variable = |name: &str| env::var(name).unwrap_or_else(|e| panic!("{name}: {e}"));
    let folder = match env::var_os("PIT_LIB_DIR") {
        Some(named) => PathBuf::from(named),
        None => Path::new(&variable("CARGO_MANIFEST_DIR")).join("../target/staticlib"),
    };
    println!("cargo:rerun-if-env-changed=PIT_LIB_DIR");

    let (processor, system) = (
        variable("CARGO_CFG_TARGET_ARCH"),
        variable("CARGO_CFG_TARGET_OS"),
    );
    if (processor.as_str(), system.as_str()) != ("x86_64", "linux") {
        panic!("the proved libraries are compiled for x86-64 Linux, and this build is for {processor} {system}");
    }
    println!("cargo:rustc-link-search=native={}", folder.display());
    for name in ["exports", "tree"] {
        link(&folder, name);
    }
}

fn link(folder: &Path, name: &str) {
    let library = folder.join(format!("lib{name}.a"));
    println!("cargo:rerun-if-changed={}", library.display());
    if !library.is_file() {
        println!(
            "cargo:warning={} is missing, so nothing links: run ./test, or `tools/build {name}`, at the top of the repository",
            library.display()
        );
    }
    println!("cargo:rustc-link-lib=static={name}");
}
