//! Finds the archive of the proved search and has it linked.

use std::env;
use std::path::{Path, PathBuf};

/// Where `tools/build searches` writes it, from the root of the repository.
const OWN: &str = "target/staticlib/libsearches.a";

fn main() {
    println!("cargo::rerun-if-changed=build.rs");
    // Two folders up from this crate's.
    let here = env::var_os("CARGO_MANIFEST_DIR").map(PathBuf::from);
    let root = here.as_deref().and_then(|here| here.ancestors().nth(2));
    let archive = root.unwrap_or(Path::new("/")).join(OWN);
    println!("cargo::rerun-if-changed={}", archive.display());
    match archive.canonicalize() {
        Ok(archive) => {
            let folder = archive.parent().expect("a file lies in a folder");
            println!("cargo::rustc-link-search=native={}", folder.display());
            println!("cargo::rustc-link-lib=static=searches");
        }
        Err(why) => {
            println!("cargo::error=no archive at {}: {why}", archive.display());
            println!(
                "cargo::error=run `tools/build searches` at the root of the repository to make it"
            );
        }
    }
}
