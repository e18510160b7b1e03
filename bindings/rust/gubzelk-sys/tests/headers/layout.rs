//! Sizes, offsets and numbers are those that a C compiler finds in the headers.
use crate::header;
use gubzelk_sys::*;
use std::mem::{align_of, offset_of, size_of};

/// What is asked of C, as an expression, and the answer.
type Row = (String, i64);

/// The size and the alignment of each struct, and the offset of each field.
macro_rules! layouts {
    ($($name:ident { $($field:ident),* })*) => {
        vec![$(
            (concat!("sizeof(struct ", stringify!($name), ")").to_string(), size_of::<$name>() as i64),
            (concat!("_Alignof(struct ", stringify!($name), ")").to_string(), align_of::<$name>() as i64),
            $((concat!("offsetof(struct ", stringify!($name), ", ", stringify!($field), ")").to_string(),
               offset_of!($name, $field) as i64),)*
        )*]
    };
}

/// Each constant of a file that is a number.
fn constants(source: &str) -> Vec<Row> {
    let lines = source.lines().filter_map(|line| line.strip_prefix("pub const "));
    let rows = lines.filter_map(|line| {
        let (name, rest) = line.split_once(": ")?;
        let number = rest.split_once(" = ")?.1.trim_end_matches(';');
        Some((name.to_string(), number.parse().ok()?))
    });
    rows.collect()
}

/// The headers of the broker.
const BROKER: &[&str] = &["broker.h", "changeset.h"];

/// Compares each row with what C prints.
fn agree(name: &str, headers: &[&str], rows: &[Row]) {
    let mut body = String::new();
    for (expression, _) in rows {
        body.push_str(&format!("    printf(\"%lld\\n\", (long long)({expression}));\n"));
    }
    let Some(printed) = header::printed(name, headers, &body) else { return };
    let found: Vec<i64> = printed.lines().map(|line| line.parse().expect("no number")).collect();
    assert_eq!(found.len(), rows.len());
    for ((expression, ours), found) in rows.iter().zip(found) {
        assert_eq!(*ours, found, "{expression}");
    }
}

#[test]
fn structs() {
    #[allow(unused_mut)]
    let mut rows = layouts! {
        broker_numbers { first, second }
        broker_limits { batch, window, timeout, capacity, intake, appliers }
        broker_table { name, name_len, key, columns }
        broker_about { publisher, own, withdraws }
        broker_delivery { number, subscription, first, last }
        broker_status { start, floor, cursor, offered, link, ready, in_flight, front, closed, fallen }
    };
    #[cfg(feature = "changeset")]
    rows.extend(layouts! { changeset_text { bytes, len } });
    agree("structs", BROKER, &rows);
}

#[test]
fn numbers() {
    let rows = constants(include_str!("../../src/codes.rs"));
    agree("numbers", BROKER, &rows);
    agree("changesets", BROKER, &constants(include_str!("../../src/changesets.rs")));
    let Some(text) = header::text("broker.h") else { return };
    let enumerated = text.lines().filter(|line| line.trim_start().starts_with("BROKER_") && line.contains(" = "));
    // the version and the room of a message are the header's two others
    assert_eq!(rows.len(), enumerated.count() + 2);
}

#[test]
fn limits() {
    let limits = [BROKER_LIMITS.batch, BROKER_LIMITS.window, BROKER_LIMITS.timeout, BROKER_LIMITS.capacity];
    let others = [BROKER_LIMITS.intake, BROKER_LIMITS.appliers];
    let body = "    struct broker_limits l = BROKER_LIMITS;\n    printf(\"%s %d %d %d %d %d %d\", BROKER_VERSION, \
                (int)l.batch, (int)l.window, (int)l.timeout, (int)l.capacity, (int)l.intake, (int)l.appliers);\n";
    let Some(printed) = header::printed("limits", BROKER, body) else { return };
    let numbers: Vec<String> = limits.iter().chain(&others).map(u64::to_string).collect();
    assert_eq!(printed, format!("{BROKER_VERSION} {}", numbers.join(" ")));
}

#[test]
fn versions() {
    assert_eq!(env!("CARGO_PKG_VERSION"), BROKER_VERSION);
    assert_eq!(unsafe { broker_version() }, BROKER_VERSION_NUMBER);
}

#[test]
#[cfg(feature = "keeper")]
fn structs_of_keeper() {
    let rows = layouts! {
        gz_options { prefix, socket, max_bytes, max_entries, set_wal, replace, setup, context }
        gz_source_status { name, front, entries, bytes, held, brokers, reason, replicas, left }
        gz_known { id, at, cursor, lag, since }
        gz_left { table, key, why }
        gz_replica_status {
            name, number, front, lag, copying, pages_done, pages, copies, reason, error, foreign, id
        }
    };
    agree("keeper-structs", &["gubzelk.h"], &rows);
}

#[test]
#[cfg(feature = "keeper")]
fn numbers_of_keeper() {
    let rows = constants(include_str!("../../src/keeper/codes.rs"));
    agree("keeper-numbers", &["gubzelk.h"], &rows);
    let sqlite = constants(include_str!("../../src/keeper/sqlite.rs"));
    assert!(sqlite.len() > 12);
    agree("sqlite-numbers", &["gubzelk.h"], &sqlite);
    let Some(text) = header::text("gubzelk.h") else { return };
    let enumerated = text.lines().filter(|line| line.trim_start().starts_with("GZ_") && line.contains(" = "));
    assert_eq!(rows.len(), enumerated.count());
}
