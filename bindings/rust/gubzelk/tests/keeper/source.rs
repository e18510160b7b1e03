//! Opening a source, what it refuses, and what it says of itself.
use crate::shared::*;
use gubzelk::keeper::{Connection, Error, Options, Place, Source, Step};
use std::os::unix::ffi::OsStringExt;
use std::time::Duration;
use std::{ffi::OsString, fs};

/// What a source over a file is refused with.
fn refused(folder: &Folder, name: &str, options: &Options) -> Error {
    Source::open(folder.path(name), options).unwrap_err()
}

#[test]
fn files_that_are_none() {
    let folder = Folder::new("files");
    assert_eq!(Source::open(":memory:", &wal()).unwrap_err(), Error::NoFile);
    assert_eq!(Source::open("", &wal()).unwrap_err(), Error::NoFile);
    let none = refused(&folder, "no/such/folder.db", &wal());
    assert!(matches!(none, Error::Sqlite { code: 14, .. }), "{none:?}");
    assert_eq!(none.to_string(), "SQLite refuses: unable to open database file");
    fs::write(folder.path("text"), "x".repeat(5000)).unwrap();
    let text = refused(&folder, "text", &wal());
    assert!(matches!(&text, Error::Sqlite { code: 26, message } if message.contains("not a database")), "{text:?}");
    let zero = OsString::from_vec(b"a\0b".to_vec());
    assert_eq!(Source::open(&zero, &wal()).unwrap_err(), Error::Operand { why: "a path has a zero byte" });
    assert!(!folder.path("a").exists());
}

#[test]
fn the_journal_mode() {
    let folder = Folder::new("mode");
    let error = refused(&folder, "live.db", &Options::default());
    assert_eq!(error, Error::NotWal);
    assert_eq!(error.to_string(), "the database isn't in WAL mode: PRAGMA journal_mode=WAL");
    drop(Source::open(folder.path("live.db"), &wal()).unwrap());
    drop(Source::open(folder.path("live.db"), &Options::default()).unwrap());
}

#[test]
fn options_that_are_refused() {
    let folder = Folder::new("options");
    let long = Options { socket: Some("x".repeat(108).into()), ..wal() };
    assert_eq!(refused(&folder, "live.db", &long), Error::LongPath);
    let prefix = Options { prefix: "a\0b".into(), ..wal() };
    assert_eq!(refused(&folder, "live.db", &prefix), Error::Operand { why: "a prefix has a zero byte" });
    fs::write(folder.path("file"), "no socket").unwrap();
    let file = Options { socket: Some(folder.path("file")), ..wal() };
    let error = refused(&folder, "live.db", &file);
    assert!(matches!(error, Error::System { .. }), "{error:?}");
    assert!(error.to_string().starts_with("the system gives no socket"), "{error}");
    let none = Options { socket: Some(folder.path("no/such/socket")), ..wal() };
    assert_eq!(refused(&folder, "live.db", &none), Error::System { errno: 2 });
}

#[test]
fn files_that_others_keep() {
    let folder = Folder::new("taken");
    let source = folder.source();
    assert_eq!(refused(&folder, "live.db", &wal()), Error::Taken);
    drop(source);
    let connection = Connection::open(folder.path("live.db")).unwrap();
    connection.busy_timeout(Duration::from_millis(10)).unwrap();
    let other = Connection::open(folder.path("live.db")).unwrap();
    other.execute_batch("BEGIN IMMEDIATE").unwrap();
    let busy = Source::with_connection(connection, &wal()).unwrap_err();
    assert_eq!(busy, Error::Busy { message: "database is locked".into() });
    assert_eq!(busy.to_string(), "the database is locked: database is locked");
    let open = Source::with_connection(other, &wal()).unwrap_err();
    assert_eq!(open, Error::InTransaction);
    drop(folder.source());
}

#[test]
fn a_table_with_the_name_of_the_mark() {
    let folder = Folder::new("mark");
    Connection::open(folder.path("live.db")).unwrap().execute_batch("CREATE TABLE gz_mark (mine)").unwrap();
    assert_eq!(refused(&folder, "live.db", &wal()), Error::TableTaken);
    let options = Options { prefix: "other \"x".into(), ..wal() };
    let source = Source::open(folder.path("live.db"), &options).unwrap();
    assert_eq!(number(source.connection(), "SELECT count(*) FROM \"other \"\"xmark\""), 1);
}

#[test]
fn a_file_of_a_replica() {
    let folder = Folder::new("role");
    let source = folder.source();
    until(&mut folder.replica("copy.db"), Step::Idle);
    assert_eq!(refused(&folder, "copy.db", &wal()), Error::OtherRole);
    drop(source);
    drop(Source::open(folder.path("copy.db"), &Options { replace: true, ..wal() }).unwrap());
}

#[test]
fn status_and_replicas() {
    let folder = Folder::new("status");
    let mut source = folder.source();
    let begun = source.status();
    assert_eq!((begun.front, begun.held, begun.replicas), (0, 1, 0));
    assert!(begun.reason.contains("schema") && source.replicas().is_empty(), "{begun:?}");
    let mut replica = folder.replica("copy.db");
    commit(&mut source, "INSERT INTO t VALUES (1, 1, 1.5)");
    let standing = until(&mut replica, Step::Idle);
    let status = source.status();
    assert_eq!((status.front, status.entries, status.replicas, status.left), (1, 1, 1, 0));
    assert!(status.bytes > 0 && status.name == begun.name && status.brokers == begun.brokers);
    assert_eq!(standing.place, Some((status.name, 1)));
    let known = source.replicas();
    assert_eq!((known.len(), known[0].place, known[0].lag), (1, Place::Present(1), Some(0)));
    assert!(known[0].id == standing.id && known[0].since < Duration::from_secs(60));
    commit(&mut source, "INSERT INTO t VALUES (2, 1, 1.5)");
    assert_eq!(source.replicas()[0].lag, Some(1));
    assert_eq!(status.name.to_string().len(), 32);
    assert!(format!("{source:?}").contains("front: 2"), "{source:?}");
}

#[test]
fn what_does_not_travel() {
    let folder = Folder::new("left");
    let mut source = folder.source();
    assert!(source.left().is_empty());
    commit(&mut source, "CREATE TABLE keyless (a); CREATE TABLE odd (k PRIMARY KEY, v)");
    let left = source.left();
    assert_eq!((left.len(), left[0].table.as_str(), left[0].key.as_deref()), (1, "keyless", None));
    commit(&mut source, "INSERT INTO odd VALUES (1.5, 1), (2, 2)");
    let left = source.left();
    assert_eq!((left.len(), left[0].table.as_str(), left[0].key.as_deref()), (2, "odd", Some("1.5")));
    assert!(!left[0].why.is_empty());
    assert_eq!(source.status().left, 2);
}

#[test]
fn brokers_that_follow_each_other() {
    let folder = Folder::new("brokers");
    drop(folder.source());
    let options = Options { max_entries: 10, max_bytes: 20_000, ..Options::default() };
    let mut source = Source::open(folder.path("live.db"), &options).unwrap();
    let mut replica = folder.replica("copy.db");
    until(&mut replica, Step::Idle);
    for id in 0..100 {
        commit(&mut source, &format!("INSERT INTO t VALUES ({id}, randomblob(500), {id}.25)"));
        until(&mut replica, Step::Idle);
    }
    let status = source.status();
    assert!(status.brokers > 8 && status.held <= 2 && status.bytes < 60_000, "{status:?}");
    assert_eq!(replica.status().copies, 1);
    folder.equal("copy.db");
}
