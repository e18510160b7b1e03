//! Finds the libraries: in the folder that `GUBZELK_LIB_DIR` names, or else where pkg-config says that they are.
use std::path::{Path, PathBuf};
use std::{env, process};

/// What to do if the libraries aren't found.
const ADVICE: &str =
    "Install the libraries with `sh packaging/install.sh PREFIX`. Then set GUBZELK_LIB_DIR=PREFIX/lib, \
                      or PKG_CONFIG_PATH=PREFIX/lib/pkgconfig if there is a pkg-config.";

/// What to do if SQLite isn't found.
const SQLITE_ADVICE: &str = "The feature `keeper` needs SQLite 3.37 or later with sessions, as Debian's libsqlite3-dev \
                             has it. Set SQLITE3_LIB_DIR to the folder with libsqlite3.so or libsqlite3.a if pkg-config \
                             doesn't find it.";

fn main() {
    for name in ["GUBZELK_LIB_DIR", "SQLITE3_LIB_DIR", "PKG_CONFIG", "PKG_CONFIG_PATH", "PKG_CONFIG_LIBDIR"] {
        println!("cargo:rerun-if-env-changed={name}");
    }
    println!("cargo:rerun-if-changed=build.rs");
    // documentation needs no library
    if env::var_os("DOCS_RS").is_some() {
        return;
    }
    if let Err(why) = folder().and_then(|folder| link(&folder)) {
        fail(&why, ADVICE);
    }
    if let Err(why) = if keeper() { link_sqlite() } else { Ok(()) } {
        fail(&why, SQLITE_ADVICE);
    }
}

/// Ends the build.
fn fail(why: &str, advice: &str) {
    eprintln!("gubzelk-sys: {why}\n{advice}");
    process::exit(1);
}

/// Whether the program needs changeset.h's library too.
fn changesets() -> bool {
    env::var_os("CARGO_FEATURE_CHANGESET").is_some()
}

/// Whether the program needs gubzelk.h's library too.
fn keeper() -> bool {
    env::var_os("CARGO_FEATURE_KEEPER").is_some()
}

/// The folder that a variable names, if it is set.
fn named(variable: &str) -> Result<Option<PathBuf>, String> {
    match env::var_os(variable) {
        Some(folder) if !Path::new(&folder).is_absolute() => {
            Err(format!("{variable} is {folder:?}, which is no absolute path."))
        }
        Some(folder) if !Path::new(&folder).is_dir() => Err(format!("{variable} is {folder:?}, which is no folder.")),
        folder => Ok(folder.map(PathBuf::from)),
    }
}

/// The folder with the libraries.
fn folder() -> Result<PathBuf, String> {
    if let Some(folder) = named("GUBZELK_LIB_DIR")? {
        return Ok(folder);
    }
    let folder = packaged("gubzelk-broker")?;
    if changesets() {
        packaged("gubzelk-changeset")?;
    }
    if keeper() {
        packaged("gubzelk-keeper")?;
    }
    Ok(folder)
}

/// The folder that pkg-config reports for a package of this version.
fn packaged(package: &str) -> Result<PathBuf, String> {
    let (major, minor) = (env!("CARGO_PKG_VERSION_MAJOR"), env!("CARGO_PKG_VERSION_MINOR"));
    let unset = |why| format!("GUBZELK_LIB_DIR isn't set, and {why}");
    let found = pkg_config(&["--modversion", package]).map_err(unset)?;
    if !found.starts_with(&format!("{major}.{minor}.")) {
        return Err(format!("pkg-config has {package} {found}, and this crate needs {major}.{minor}."));
    }
    pkg_config(&["--variable=libdir", package]).map(PathBuf::from).map_err(unset)
}

/// What pkg-config prints.
fn pkg_config(words: &[&str]) -> Result<String, String> {
    let program = env::var_os("PKG_CONFIG").unwrap_or_else(|| "pkg-config".into());
    let output = process::Command::new(&program)
        .args(words)
        .output()
        .map_err(|why| format!("{program:?} doesn't run: {why}."))?;
    if !output.status.success() {
        let why = String::from_utf8_lossy(&output.stderr);
        return Err(format!("pkg-config finds no libraries: {}", why.trim()));
    }
    Ok(String::from_utf8_lossy(&output.stdout).trim().to_string())
}

/// A folder as a build script names it.
fn shown(folder: &Path) -> Result<&str, String> {
    folder.to_str().ok_or(format!("{folder:?} isn't UTF-8."))
}

/// Links the archives of a folder. Without them it links the shared object, which has everything but the keeper.
fn link(folder: &Path) -> Result<(), String> {
    let shown = shown(folder)?;
    println!("cargo:rustc-link-search=native={shown}");
    println!("cargo:lib_dir={shown}");
    let own: &[&str] = if keeper() { &["gubzelk_keeper"] } else { &[] };
    let mut archives = vec!["broker_c"];
    if changesets() {
        archives.push("changeset_c");
    }
    archives.push("gubzelk_heap");
    let missing = |name: &&&str| !folder.join(format!("lib{name}.a")).exists();
    for name in own.iter().chain(&archives) {
        println!("cargo:rerun-if-changed={shown}/lib{name}.a");
    }
    if let Some(name) = own.iter().find(missing) {
        return Err(format!("{shown} has no lib{name}.a."));
    }
    own.iter().for_each(|name| println!("cargo:rustc-link-lib=static={name}"));
    match archives.iter().find(missing) {
        None => archives.iter().for_each(|name| println!("cargo:rustc-link-lib=static={name}")),
        Some(_) if folder.join("libgubzelk.so").exists() => println!("cargo:rustc-link-lib=dylib=gubzelk"),
        Some(name) => return Err(format!("{shown} has no lib{name}.a, and no libgubzelk.so.")),
    }
    Ok(())
}

/// Links SQLite.
fn link_sqlite() -> Result<(), String> {
    let folder = match named("SQLITE3_LIB_DIR")? {
        Some(folder) => folder,
        None => {
            let unset = |why| format!("SQLITE3_LIB_DIR isn't set, and {why}");
            pkg_config(&["--atleast-version=3.37", "--print-errors", "sqlite3"]).map_err(unset)?;
            pkg_config(&["--variable=libdir", "sqlite3"]).map_err(unset)?.into()
        }
    };
    let shown = shown(&folder)?;
    if !["libsqlite3.so", "libsqlite3.a"].iter().any(|name| folder.join(name).exists()) {
        return Err(format!("{shown} has no libsqlite3.so, and no libsqlite3.a."));
    }
    println!("cargo:rustc-link-search=native={shown}");
    println!("cargo:rustc-link-lib=sqlite3");
    Ok(())
}
