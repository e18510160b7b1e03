//! The headers, and a C compiler that reads them.
use std::path::PathBuf;
use std::process::Command;
use std::{env, fs, process};

/// The folders with the headers: the one that `GUBZELK_INCLUDE_DIR` names, or the repository's.
pub fn folders() -> Vec<PathBuf> {
    match env::var_os("GUBZELK_INCLUDE_DIR") {
        Some(folder) => vec![folder.into()],
        None => ["include", "keeper"]
            .map(|name| PathBuf::from(concat!(env!("CARGO_MANIFEST_DIR"), "/../../..")).join(name))
            .into(),
    }
}

/// A header's text without its comments and preprocessor lines; `None` if it isn't there.
pub fn text(name: &str) -> Option<String> {
    let Some(whole) = folders().iter().find_map(|folder| fs::read_to_string(folder.join(name)).ok()) else {
        eprintln!("no header {name}: nothing is compared");
        return None;
    };
    let mut parts = whole.split("/*");
    let mut text = parts.next().unwrap_or_default().to_string();
    for part in parts {
        text.push_str(part.split_once("*/").map_or("", |(_, after)| after));
    }
    Some(text.lines().filter(|line| !line.starts_with('#')).collect::<Vec<_>>().join("\n"))
}

/// What a C program prints that includes these headers and has this body of `main`; `None` if there is no `cc`, or if the
/// first header isn't there.
pub fn printed(name: &str, headers: &[&str], body: &str) -> Option<String> {
    text(headers[0])?;
    let source = env::temp_dir().join(format!("gubzelk-{name}-{}.c", process::id()));
    let program = source.with_extension("out");
    let lines: String = headers.iter().map(|header| format!("#include <{header}>\n")).collect();
    let text = format!("{lines}#include <stdio.h>\nint main(void) {{\n{body}    return 0;\n}}\n");
    fs::write(&source, text).expect("no file is written");
    let mut compiler = Command::new(env::var_os("CC").unwrap_or_else(|| "cc".into()));
    for folder in folders() {
        compiler.arg("-I").arg(folder);
    }
    let Ok(status) = compiler.arg(&source).arg("-o").arg(&program).status() else {
        eprintln!("no cc: nothing is compared");
        return None;
    };
    assert!(status.success(), "cc refuses {}", source.display());
    let output = Command::new(&program).output().expect("the program doesn't run");
    let _ = (fs::remove_file(source), fs::remove_file(program));
    Some(String::from_utf8(output.stdout).expect("the program prints no UTF-8"))
}
