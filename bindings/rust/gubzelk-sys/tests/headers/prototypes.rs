//! Each call has the operands and the result that the header declares, and none is missing.
use crate::header;

/// The type of Rust for a type of C, as it stands before an operand's name.
fn rust_type(c: &str) -> String {
    let c = c.trim();
    if let Some(pointed) = c.strip_suffix('*') {
        let pointed = pointed.trim();
        return match pointed.strip_prefix("const ") {
            Some(read) => format!("*const {}", rust_type(read)),
            None => format!("*mut {}", rust_type(pointed)),
        };
    }
    let plain = c.strip_prefix("struct ").unwrap_or(c);
    let known = [
        ("unsigned char", "u8"),
        ("char", "c_char"),
        ("int", "c_int"),
        ("int64_t", "i64"),
        ("uint32_t", "u32"),
        ("uint64_t", "u64"),
        ("size_t", "usize"),
        ("void", "c_void"),
        ("double", "f64"),
    ];
    known.iter().find(|(name, _)| *name == plain).map_or(plain, |(_, rust)| rust).to_string()
}

/// An operand of C, `TYPE NAME`, as Rust declares it.
fn operand(c: &str) -> String {
    let at = c.rfind([' ', '*']).expect("no name") + 1;
    format!("{}: {}", &c[at..], rust_type(&c[..at]))
}

/// What a header declares, one line of Rust for each call, sorted.
fn declared(text: &str, prefix: &str) -> Vec<String> {
    let spaced = text.replace("CHANGESET_ALONE ", "").replace("BROKER_CALL ", "").replace("BROKER_VOID ", "");
    let spaced = spaced.replace("CHANGESET_CALL ", "").replace('\n', " ");
    let mut lines = Vec::new();
    for part in spaced.split(';') {
        let Some((head, rest)) = part.split_once('(') else { continue };
        let at = head.rfind([' ', '*']).map_or(0, |at| at + 1);
        let Some(operands) = rest.strip_suffix(')').filter(|_| head[at..].starts_with(prefix)) else { continue };
        let result = head[..at].rsplit(['{', '}']).next().expect("no result").trim();
        let operands: Vec<String> =
            operands.split(',').filter(|it| *it != "void").map(|it| operand(it.trim())).collect();
        let result = if result == "void" { String::new() } else { format!(" -> {}", rust_type(result)) };
        lines.push(format!("fn {}({}){result}", &head[at..], operands.join(", ")));
    }
    lines.sort();
    lines
}

/// What a file of this crate declares, one line for each call, sorted.
fn ours(source: &str) -> Vec<String> {
    let joined = source.split_whitespace().collect::<Vec<_>>().join(" ").replace("( ", "(").replace(", )", ")");
    let mut lines: Vec<String> = joined
        .split("pub ")
        .filter(|it| it.starts_with("fn "))
        .map(|it| it.split(';').next().unwrap().into())
        .collect();
    lines.sort();
    lines
}

#[test]
fn calls_of_broker() {
    let Some(text) = header::text("broker.h") else { return };
    let found = declared(&text, "broker_");
    assert!(found.len() > 35, "{found:#?}");
    assert_eq!(found, ours(include_str!("../../src/calls.rs")));
}

#[test]
fn calls_of_changeset() {
    let Some(text) = header::text("changeset.h") else { return };
    let found = declared(&text, "changeset_");
    assert_eq!(found.len(), 4, "{found:#?}");
    assert_eq!(found, ours(include_str!("../../src/changesets.rs")));
}

#[test]
fn calls_of_keeper() {
    let Some(text) = header::text("gubzelk.h") else { return };
    let found = declared(&text, "gz_");
    assert_eq!(found.len(), 13, "{found:#?}");
    assert_eq!(found, ours(include_str!("../../src/keeper/calls.rs")));
}

/// The type of C for a type of Rust.
#[cfg(feature = "keeper")]
fn c_type(rust: &str) -> String {
    if let Some(pointed) = rust.strip_prefix("*const ") {
        return format!("{} const *", c_type(pointed));
    }
    if let Some(pointed) = rust.strip_prefix("*mut ") {
        return format!("{} *", c_type(pointed));
    }
    let known = [
        ("u8", "unsigned char"),
        ("c_char", "char"),
        ("c_int", "int"),
        ("i64", "sqlite3_int64"),
        ("u64", "sqlite3_uint64"),
        ("f64", "double"),
        ("c_void", "void"),
        ("sqlite3_destructor", "sqlite3_destructor_type"),
    ];
    known.iter().find(|(name, _)| *name == rust).map_or(rust, |(_, c)| c).to_string()
}

/// The header of SQLite is read by a C compiler: a second declaration of a call must have the same types.
#[test]
#[cfg(feature = "keeper")]
fn calls_of_sqlite() {
    let calls = ours(include_str!("../../src/keeper/sqlite.rs"));
    assert!(calls.len() > 25, "{calls:#?}");
    let mut body = String::new();
    for call in calls {
        let (name, rest) = call.strip_prefix("fn ").and_then(|call| call.split_once('(')).expect("no name");
        let (operands, result) = rest.split_once(')').expect("no operands");
        let operands: Vec<String> =
            operands.split(", ").filter_map(|it| it.split_once(": ")).map(|(_, it)| c_type(it)).collect();
        let operands = if operands.is_empty() { "void".into() } else { operands.join(", ") };
        let result = c_type(result.trim_start_matches(" -> "));
        body.push_str(&format!("    extern {result} {name}({operands});\n"));
    }
    if let Some(printed) = header::printed("sqlite", &["gubzelk.h"], &body) {
        assert_eq!(printed, "");
    }
}
