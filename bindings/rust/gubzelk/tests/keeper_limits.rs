//! Memory that runs out, and a disk that takes no more. One test: both are limits of the whole process.
#![cfg(all(target_os = "linux", target_pointer_width = "64"))]
use gubzelk::keeper::{Connection, Error, Options, Replica, Result, Source, Step, Value};
use std::time::Duration;
use std::{env, fs, process};

#[repr(C)]
struct Rlimit {
    soft: u64,
    hard: u64,
}

extern "C" {
    fn getrlimit(resource: i32, limit: *mut Rlimit) -> i32;
    fn setrlimit(resource: i32, limit: *const Rlimit) -> i32;
    fn signal(number: i32, handler: usize) -> usize;
    fn sqlite3_memory_used() -> i64;
    fn sqlite3_hard_heap_limit64(limit: i64) -> i64;
}

/// Linux's numbers of the limit of a file's size, of its signal, and of the handler that ignores a signal.
const RLIMIT_FSIZE: i32 = 1;
const SIGXFSZ: i32 = 25;
const SIG_IGN: usize = 1;

/// Makes a call while SQLite has no more memory than it has.
fn without_memory<T>(call: impl FnOnce() -> T) -> T {
    // SAFETY: both calls take numbers alone. No other thread uses SQLite's heap meanwhile, but the service, which waits.
    unsafe { sqlite3_hard_heap_limit64(sqlite3_memory_used()) };
    let answer = call();
    // SAFETY: as before.
    unsafe { sqlite3_hard_heap_limit64(0) };
    answer
}

/// Makes a call while no file grows beyond a number of bytes.
fn without_room<T>(bytes: u64, call: impl FnOnce() -> T) -> T {
    let mut limit = Rlimit { soft: 0, hard: 0 };
    // SAFETY: the structs have these calls' layout.
    unsafe {
        signal(SIGXFSZ, SIG_IGN);
        assert_eq!(getrlimit(RLIMIT_FSIZE, &mut limit), 0);
        assert_eq!(setrlimit(RLIMIT_FSIZE, &Rlimit { soft: bytes, ..limit }), 0);
    }
    let answer = call();
    // SAFETY: as before.
    unsafe { assert_eq!(setrlimit(RLIMIT_FSIZE, &limit), 0) };
    answer
}

/// Steps until the file has everything.
fn settle(replica: &mut Replica) {
    while replica.step(Duration::from_millis(50)).unwrap() != Step::Idle {}
    assert_eq!(replica.status().lag, Some(0));
}

fn rows(file: &str) -> Result<Vec<Vec<Value>>> {
    Connection::open_readonly(file)?.query("SELECT id, length(a), a FROM t", &[])
}

#[test]
fn calls_at_their_limits() -> Result<()> {
    let folder = env::temp_dir().join(format!("gubzelk-limits-{}", process::id()));
    fs::create_dir(&folder).and_then(|()| env::set_current_dir(&folder)).unwrap();
    let mut source = Source::open("live.db", &Options { set_wal: true, ..Options::default() })?;
    let mut transaction = source.transaction()?;
    transaction.execute_batch("CREATE TABLE t (id INTEGER PRIMARY KEY, a)")?;
    transaction.commit()?;
    drop(transaction);
    let mut replica = Replica::open("copy.db", "live.db", &Options::default())?;
    settle(&mut replica);

    let insert = "INSERT INTO t VALUES (?, ?)";
    let mut transaction = source.transaction()?;
    transaction.execute(insert, &[1.into(), vec![7; 100_000].into()])?;
    // a refused commit leaves the transaction open
    assert_eq!(without_memory(|| transaction.commit()), Err(Error::NoMemory));
    let rows_now = "SELECT count(*) FROM t";
    assert_eq!(without_memory(|| transaction.query(rows_now, &[])), Err(Error::NoMemory));
    assert_eq!(transaction.query(rows_now, &[])?, [[1.into()]]);
    transaction.commit()?;
    drop(transaction);
    settle(&mut replica);

    let log = fs::metadata("live.db-wal").unwrap().len();
    let mut transaction = source.transaction()?;
    transaction.execute(insert, &[2.into(), vec![8; 100_000].into()])?;
    let refused = without_room(log + 10_000, || transaction.commit());
    assert!(matches!(&refused, Err(Error::RolledBack { message, .. }) if !message.is_empty()), "{refused:?}");
    assert_eq!(transaction.commit(), Err(Error::NoTransaction));
    drop(transaction);
    settle(&mut replica);
    assert_eq!(rows("copy.db")?.len(), 1);

    let mut transaction = source.transaction()?;
    transaction.execute(insert, &[3.into(), vec![9; 100_000].into()])?;
    transaction.commit()?;
    drop(transaction);
    // a replica whose file takes no more lags, and goes on later
    let log = fs::metadata("copy.db-wal").unwrap().len();
    let step = without_room(log.min(50_000), || replica.step(Duration::from_millis(50)));
    assert_eq!(step, Ok(Step::Lags));
    let status = replica.status();
    assert!(status.lag != Some(0) && !status.error.is_empty(), "{status:?}");
    settle(&mut replica);
    assert!(rows("copy.db")?.len() == 2 && rows("copy.db")? == rows("live.db")?);
    drop((source, replica));
    fs::remove_dir_all(&folder).unwrap();
    Ok(())
}
