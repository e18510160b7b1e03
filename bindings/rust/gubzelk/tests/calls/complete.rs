//! No call of gubzelk-sys is missing in this crate.
use std::{fs, path::Path};

/// The text of all files below a folder.
fn source(folder: &Path) -> String {
    let files = fs::read_dir(folder).unwrap().map(|file| file.unwrap().path());
    files.map(|file| if file.is_dir() { source(&file) } else { fs::read_to_string(file).unwrap() }).collect()
}

#[test]
fn each_call_is_made() {
    let top = Path::new(env!("CARGO_MANIFEST_DIR"));
    let source = source(&top.join("src"));
    let mut calls = 0;
    for file in ["calls.rs", "changesets.rs", "keeper/calls.rs", "keeper/sqlite.rs"] {
        let declared = fs::read_to_string(top.join("../gubzelk-sys/src").join(file)).unwrap();
        for line in declared.lines().filter_map(|line| line.trim().strip_prefix("pub fn ")) {
            let name = line.split('(').next().unwrap();
            assert!(source.contains(&format!("sys::{name}(")), "{name}");
            calls += 1;
        }
    }
    assert_eq!(calls, 80);
}
