//! Finds the archive of the proved calls and has it linked.

use std::env;
use std::path::{Path, PathBuf};

/// Names the folder of the archive, where that isn't the repository's own.
const OVERRIDE: &str = "MINUTEFROST_ARCHIVE_DIR";

/// Where `tools/build host` writes it, from the root of the repository.
const OWN: &str = "target/staticlib";

fn main() {
    println!("cargo::rerun-if-changed=build.rs");
    println!("cargo::rerun-if-env-changed={OVERRIDE}");
    // Two folders up from this crate's.
    let here = env::var_os("CARGO_MANIFEST_DIR").map(PathBuf::from);
    let root = here.as_deref().and_then(|here| here.ancestors().nth(2));
    let own = root.unwrap_or(Path::new("/")).join(OWN);
    let folder = env::var_os(OVERRIDE).map_or(own, PathBuf::from);
    let archive = folder.join("libhost.a");
    println!("cargo::rerun-if-changed={}", archive.display());
    match archive.canonicalize() {
        Ok(archive) => {
            let folder = archive.parent().expect("a file lies in a folder");
            println!("cargo::rustc-link-search=native={}", folder.display());
            println!("cargo::rustc-link-lib=static=host");
            // For the test that links the archive into a program in C.
            println!("cargo::rustc-env=MINUTEFROST_ARCHIVE={}", archive.display());
        }
        Err(why) => {
            println!("cargo::error=no archive at {}: {why}", archive.display());
            println!(
                "cargo::error=run `tools/build host` at the root of the repository to make it,"
            );
            println!("cargo::error=or set {OVERRIDE} to the folder that has libhost.a");
        }
    }
}
