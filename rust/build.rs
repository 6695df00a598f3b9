//! Links the static library.
//!
//! `libvinzagew.a` is looked for in the folder that the environment variable `VINZAGEW_LIB_DIR` names,
//! where it must be, or else in `target/staticlib` at the top of the repository. If it is there, the
//! cfg `vinzagew_library` is set. If it is not, the package still builds, the functions that need the
//! library panic, and the tests that need it are left out.

use std::env;
use std::path::PathBuf;

fn main() {
    println!("cargo:rustc-check-cfg=cfg(vinzagew_library)");
    println!("cargo:rerun-if-env-changed=VINZAGEW_LIB_DIR");
    let named = env::var_os("VINZAGEW_LIB_DIR").map(PathBuf::from);
    let manifest = PathBuf::from(env::var_os("CARGO_MANIFEST_DIR").expect("set by cargo"));
    let folder = named
        .clone()
        .unwrap_or_else(|| manifest.join("../target/staticlib"));
    let archive = folder.join("libvinzagew.a");
    println!("cargo:rerun-if-changed={}", archive.display());
    if archive.is_file() {
        println!("cargo:rustc-cfg=vinzagew_library");
        println!("cargo:rustc-env=VINZAGEW_LIBRARY={}", folder.display());
        println!("cargo:rustc-link-search=native={}", folder.display());
        println!("cargo:rustc-link-lib=static=vinzagew");
    } else if named.is_some() {
        panic!(
            "VINZAGEW_LIB_DIR is set, and {} was not found",
            archive.display()
        );
    } else {
        println!(
            "cargo:warning={} was not found: checking, writing, running and recognising will panic, and the tests that need them are left out",
            archive.display()
        );
    }
}
