//! Steps of a replica, and what it says of itself.
use crate::shared::*;
use gubzelk::keeper::{Connection, Error, Options, Replica, Source, Step};
use std::mem;
use std::time::{Duration, Instant};

const SHORT: Duration = Duration::from_millis(20);

#[test]
fn a_life() {
    let folder = Folder::new("life");
    // neither file is there, and no source listens
    let mut replica = folder.replica("copy.db");
    assert_eq!(replica.step(SHORT), Ok(Step::Away));
    let status = replica.status();
    assert_eq!((status.lag, status.place, status.copies), (None, None, 0));
    let mut source = folder.source();
    let status = until(&mut replica, Step::Idle);
    assert_eq!((status.lag, status.copies, status.copying), (Some(0), 1, None));
    assert!(!status.reason.is_empty() && status.error.is_empty(), "{status:?}");
    for id in 0..50 {
        commit(&mut source, &format!("INSERT INTO t VALUES ({id}, {id}, {id} / 7.0)"));
    }
    assert_eq!(replica.step(SHORT), Ok(Step::Applied));
    assert_eq!(until(&mut replica, Step::Idle).front, 50);
    folder.equal("copy.db");
    drop(source);
    let away = until(&mut replica, Step::Away);
    assert_eq!((away.lag, away.place.unwrap().1, away.error.as_str()), (None, 50, ""));
    // nobody knows what was written in between
    let _source = folder.source();
    assert_eq!(until(&mut replica, Step::Idle).copies, 2);
}

#[test]
fn a_step_waits_for_news() {
    let folder = Folder::new("news");
    let mut source = folder.source();
    let mut replica = folder.replica("copy.db");
    until(&mut replica, Step::Idle);
    let begun = Instant::now();
    assert_eq!(replica.step(Duration::from_millis(300)), Ok(Step::Idle));
    assert!(begun.elapsed() >= Duration::from_millis(290), "{:?}", begun.elapsed());
    commit(&mut source, "INSERT INTO t VALUES (1, 1, 1)");
    assert_eq!(replica.step(Duration::ZERO), Ok(Step::Applied));
}

#[test]
fn a_replica_that_starts_again_goes_on() {
    let folder = Folder::new("again-replica");
    let mut source = folder.source();
    let id = until(&mut folder.replica("copy.db"), Step::Idle).id;
    commit(&mut source, "INSERT INTO t VALUES (1, 1, 1)");
    let status = until(&mut folder.replica("copy.db"), Step::Idle);
    assert_eq!((status.copies, status.front, status.id), (0, 1, id));
    folder.equal("copy.db");
}

#[test]
fn foreign_writes() {
    let folder = Folder::new("foreign");
    let mut source = folder.source();
    let mut replica = folder.replica("copy.db");
    until(&mut replica, Step::Idle);
    let other = Connection::open(folder.path("live.db")).unwrap();
    other.execute("INSERT INTO t VALUES (5, 5, 5)", &[]).unwrap();
    let status = until(&mut replica, Step::Lags);
    assert!(status.foreign && status.error.contains("others wrote") && status.lag.is_none(), "{status:?}");
    assert_eq!(replica.step(SHORT), Ok(Step::Lags));
    commit(&mut source, "INSERT INTO t VALUES (6, 6, 6)");
    assert!(source.status().reason.contains("another connection"));
    assert_eq!(until(&mut replica, Step::Idle).copies, 2);
    folder.equal("copy.db");
    source.connection().execute("UPDATE t SET a = 7", &[]).unwrap();
    assert!(until(&mut replica, Step::Lags).foreign);
    commit(&mut source, "INSERT INTO t VALUES (8, 6, 6)");
    assert!(source.status().reason.contains("outside"));
    assert_eq!(until(&mut replica, Step::Idle).copies, 3);
    // others write to the replica
    let copy = Connection::open(folder.path("copy.db")).unwrap();
    copy.execute("DELETE FROM t", &[]).unwrap();
    let status = until(&mut replica, Step::Idle);
    assert!(status.copies == 4 && status.reason.contains("another connection"), "{status:?}");
    folder.equal("copy.db");
}

#[test]
fn a_file_that_is_locked() {
    let folder = Folder::new("locked");
    let mut source = folder.source();
    let mut replica = folder.replica("copy.db");
    until(&mut replica, Step::Idle);
    let other = Connection::open(folder.path("copy.db")).unwrap();
    other.execute_batch("BEGIN IMMEDIATE").unwrap();
    commit(&mut source, "INSERT INTO t VALUES (1, 1, 1)");
    let status = until(&mut replica, Step::Lags);
    assert!(status.error.contains("locked") && status.lag == Some(1) && !status.foreign, "{status:?}");
    other.execute_batch("ROLLBACK").unwrap();
    assert_eq!(until(&mut replica, Step::Idle).copies, 1);
    folder.equal("copy.db");
}

#[test]
fn files_that_are_no_replicas() {
    let folder = Folder::new("none");
    let _source = folder.source();
    Connection::open(folder.path("mine.db")).unwrap().execute_batch("CREATE TABLE mine (a)").unwrap();
    let mut mine = folder.replica("mine.db");
    assert_eq!(mine.step(SHORT), Err(Error::NotReplica));
    assert_eq!(mine.status().lag, None);
    drop(mine);
    let options = Options { replace: true, ..Options::default() };
    let mut replaced = Replica::open(folder.path("mine.db"), folder.path("live.db"), &options).unwrap();
    until(&mut replaced, Step::Idle);
    folder.equal("mine.db");
    drop(Source::open(folder.path("other.db"), &wal()).unwrap());
    let mut other = folder.replica("other.db");
    assert_eq!(other.step(SHORT), Err(Error::OtherRole));
    assert_eq!(other.step(SHORT).unwrap_err().to_string(), library_words(-14));
}

/// The library's words for a code.
fn library_words(code: i32) -> String {
    // SAFETY: the words stay.
    unsafe { std::ffi::CStr::from_ptr(gubzelk_sys::gz_message(code)) }.to_str().unwrap().into()
}

#[test]
fn what_open_refuses() {
    let folder = Folder::new("refused");
    let replica = folder.replica("copy.db");
    let open = |file: &str, source: &str, options: &Options| {
        Replica::open(folder.path(file), folder.path(source), options).map(mem::drop)
    };
    let none = Options::default();
    assert_eq!(open("copy.db", "live.db", &none), Err(Error::Taken));
    drop(replica);
    assert_eq!(open("copy.db", "live.db", &none), Ok(()));
    assert_eq!(open("copy.db", &"x".repeat(108), &none), Err(Error::LongPath));
    assert_eq!(open("no/such/copy.db", "live.db", &none), Err(Error::System { errno: 2 }));
    let zero = Err(Error::Operand { why: "a path has a zero byte" });
    assert_eq!(open("a\0b", "live.db", &none), zero);
    assert_eq!(open("copy.db", "a\0b", &none), zero);
    assert_eq!(open("copy.db", "live.db", &Options { socket: Some("a\0b".into()), ..none.clone() }), zero);
    let source = folder.source();
    assert_eq!(open("live.db", "live.db", &none), Err(Error::Taken));
    drop(source);
}

#[test]
fn other_names_of_the_mark_and_the_socket() {
    let folder = Folder::new("names");
    let options = Options { prefix: "x \"y".into(), socket: Some(folder.path("a socket")), ..wal() };
    let mut source = Source::open(folder.path("live.db"), &options).unwrap();
    commit(&mut source, "CREATE TABLE t (id INTEGER PRIMARY KEY); INSERT INTO t VALUES (1)");
    assert!(folder.path("a socket").exists() && !folder.path("live.db-gz").exists());
    let mut replica = Replica::open(folder.path("copy.db"), folder.path("live.db"), &options).unwrap();
    until(&mut replica, Step::Idle);
    let copy = Connection::open_readonly(folder.path("copy.db")).unwrap();
    assert_eq!(number(&copy, "SELECT count(*) FROM t, \"x \"\"ymark\" WHERE front = 0"), 1);
    let mut lost = folder.replica("lost.db");
    assert_eq!(lost.step(SHORT), Ok(Step::Away));
}

#[test]
fn a_copy_of_many_pages() {
    let folder = Folder::new("pages");
    let mut source = folder.source();
    commit(&mut source, "INSERT INTO t VALUES (1, zeroblob(12000000), 1)");
    let mut replica = folder.replica("copy.db");
    while replica.status().copying.is_none() {
        assert_eq!(replica.step(SHORT), Ok(Step::Applied));
    }
    assert_eq!(replica.step(SHORT), Ok(Step::Applied));
    let status = replica.status();
    let (done, pages) = status.copying.unwrap();
    assert!(0 < done && done < pages && status.lag.is_none() && status.place.is_none(), "{status:?}");
    // what is dropped in a copy begins it anew
    drop(replica);
    let status = until(&mut folder.replica("copy.db"), Step::Idle);
    assert_eq!((status.copies, status.copying), (1, None));
    folder.equal("copy.db");
}
