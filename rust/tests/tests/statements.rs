//! docs/STATEMENTS.md quotes the sources: every quoted statement stands in
//! them word for word, and every edit that the gate tries is named.

use std::fs;
use std::path::{Path, PathBuf};

fn root() -> PathBuf {
    Path::new(env!("CARGO_MANIFEST_DIR")).join("../..")
}

/// The files below a folder that satisfy a test.
fn files(folder: &Path, wanted: &dyn Fn(&Path) -> bool) -> Vec<PathBuf> {
    let mut found = Vec::new();
    for entry in fs::read_dir(folder).expect("a folder of the repository") {
        let path = entry.expect("an entry of the folder").path();
        if path.is_dir() {
            found.extend(files(&path, wanted));
        } else if wanted(&path) {
            found.push(path);
        }
    }
    found
}

fn ends_with(path: &Path, extension: &str) -> bool {
    path.extension().is_some_and(|e| e == extension)
}

fn read(path: &Path) -> String {
    fs::read_to_string(path).unwrap_or_else(|e| panic!("{}: {e}", path.display()))
}

/// Words with one space between them, without what a quote leaves out:
/// comments, and the marks that say who may see or unfold a name.
fn plain(text: &str) -> String {
    text.lines()
        .filter(|line| !line.trim_start().starts_with("--"))
        .filter(|line| !line.trim_start().starts_with("unfolding "))
        .flat_map(str::split_whitespace)
        .filter(|word| !["pub", "abbrev", "unfoldable"].contains(word))
        .collect::<Vec<_>>()
        .join(" ")
}

/// The declarations in the fenced blocks of a page: each begins at a line
/// that is not indented.
fn quotes(page: &str) -> Vec<String> {
    let mut found: Vec<String> = Vec::new();
    let mut inside = false;
    for line in page.lines() {
        if line.starts_with("```") {
            inside = !inside;
        } else if inside && !line.trim().is_empty() {
            if !line.starts_with(' ') {
                found.push(String::new());
            }
            let last = found.last_mut().expect("a block begins without indent");
            last.push_str(line);
            last.push('\n');
        }
    }
    found
}

#[test]
fn every_quote_stands_in_the_sources() {
    let page = read(&root().join("docs/STATEMENTS.md"));
    let sources: Vec<String> = files(&root().join("crates"), &|p| ends_with(p, "antt"))
        .iter()
        .map(|path| plain(&read(path)))
        .collect();
    let quoted = quotes(&page);
    assert!(quoted.len() > 20, "only {} quotes were found", quoted.len());
    for quote in quoted {
        let wanted = plain(&quote);
        assert!(
            sources.iter().any(|source| source.contains(&wanted)),
            "docs/STATEMENTS.md quotes what no source has:\n{quote}"
        );
    }
}

#[test]
fn every_edit_is_named() {
    let page = read(&root().join("docs/STATEMENTS.md"));
    for path in files(&root().join("crates"), &|p| ends_with(p, "edit")) {
        let name = path
            .file_stem()
            .expect("an edit has a name")
            .to_string_lossy();
        assert!(
            page.contains(&*name),
            "docs/STATEMENTS.md doesn't name the edit {name}"
        );
    }
}
