//! Links `libsimp.a`, and hands on the sum of the logic that it is proved in and its own.
//!
//! The archive is looked for in the folder that `SIMP_LIB_DIR` names, else where `tests/library` puts it.

use std::env;
use std::fs;
use std::path::{Path, PathBuf};

#[path = "sha256.rs"]
mod sha256;

fn main() {
    println!("cargo:rerun-if-env-changed=SIMP_LIB_DIR");
    let folder = env::var("SIMP_LIB_DIR").map_or_else(|_| default_folder(), PathBuf::from);
    assert!(folder.is_absolute(), "SIMP_LIB_DIR is an absolute path");
    let archive = folder.join("libsimp.a");
    println!("cargo:rerun-if-changed={}", archive.display());
    let bytes = fs::read(&archive).unwrap_or_else(|error| {
        panic!("{}: {error}; build the library first: tests/library", archive.display())
    });
    println!("cargo:rustc-link-search=native={}", folder.display());
    println!("cargo:rustc-link-lib=static=simp");
    println!("cargo:rustc-env=SIMP_LOGIC={}", logic(&bytes).expect("the archive names its logic"));
    println!("cargo:rustc-env=SIMP_ARCHIVE={}", sha256::hex(&bytes));
}

fn default_folder() -> PathBuf {
    Path::new(&env::var("CARGO_MANIFEST_DIR").expect("cargo sets it")).join("../target/staticlib")
}

/// The sum that the compiler leaves in the archive, after `rattle logic=`.
fn logic(archive: &[u8]) -> Option<String> {
    let mark = b"rattle logic=";
    let start = archive.windows(mark.len()).position(|window| window == mark)? + mark.len();
    let sum = archive[start..].iter().take_while(|byte| byte.is_ascii_hexdigit());
    String::from_utf8(sum.copied().collect()).ok().filter(|sum| !sum.is_empty())
}
