//! Transactions: how they end, and what is refused after that.
use crate::shared::*;
use gubzelk::keeper::{Connection, Error, Step};
use std::mem;
use std::time::Duration;

#[test]
fn committed_and_rolled_back() {
    let folder = Folder::new("ends");
    let mut source = folder.source();
    let insert = "INSERT INTO t VALUES (?, ?, ?)";
    let count = "SELECT count(*) FROM t";
    let mut transaction = source.transaction().unwrap();
    assert_eq!(transaction.execute(insert, &[1.into(), "one".into(), 1.5.into()]), Ok(1));
    assert_eq!(transaction.query(count, &[]).unwrap(), [[1.into()]]);
    transaction.commit().unwrap();
    drop(transaction);
    let transaction = source.transaction().unwrap();
    transaction.execute(insert, &[2.into(), "two".into(), 2.5.into()]).unwrap();
    transaction.rollback().unwrap();
    let transaction = source.transaction().unwrap();
    transaction.execute(insert, &[3.into(), "three".into(), 3.5.into()]).unwrap();
    drop(transaction);
    assert_eq!(number(source.connection(), count), 1);
    let status = source.status();
    assert_eq!((status.front, status.brokers), (1, 2), "{status:?}");
}

#[test]
fn nothing_is_written_after_the_end() {
    let folder = Folder::new("after");
    let mut source = folder.source();
    let mut transaction = source.transaction().unwrap();
    transaction.execute("INSERT INTO t VALUES (1, 1, 1)", &[]).unwrap();
    transaction.commit().unwrap();
    let insert = "INSERT INTO t VALUES (2, 2, 2)";
    assert_eq!(transaction.execute(insert, &[]), Err(Error::NoTransaction));
    assert_eq!(transaction.execute_batch(insert), Err(Error::NoTransaction));
    assert_eq!(transaction.query("SELECT 1", &[]), Err(Error::NoTransaction));
    assert_eq!(transaction.prepare(insert).unwrap_err(), Error::NoTransaction);
    assert_eq!(transaction.commit(), Err(Error::NoTransaction));
    assert_eq!(transaction.rollback(), Err(Error::NoTransaction));
    assert_eq!(number(source.connection(), "SELECT count(*) FROM t"), 1);
}

#[test]
fn ended_by_sql() {
    let folder = Folder::new("sql");
    let mut source = folder.source();
    let mut transaction = source.transaction().unwrap();
    let mut insert = transaction.prepare("INSERT OR ROLLBACK INTO t VALUES (?, 1, 1)").unwrap();
    assert_eq!(insert.execute(&[1.into()]), Ok(1));
    let twice = insert.execute(&[1.into()]);
    assert!(matches!(twice, Err(Error::Sqlite { code: 1555, .. })), "{twice:?}");
    // SQLite has rolled the transaction back: nothing is written outside of it
    assert_eq!(insert.execute(&[2.into()]), Err(Error::NoTransaction));
    drop(insert);
    assert_eq!(transaction.execute("INSERT INTO t VALUES (3, 1, 1)", &[]), Err(Error::NoTransaction));
    assert_eq!(transaction.commit(), Err(Error::NoTransaction));
    drop(transaction);
    assert_eq!(number(source.connection(), "SELECT count(*) FROM t"), 0);
    let mut transaction = source.transaction().unwrap();
    transaction.execute_batch("INSERT INTO t VALUES (4, 1, 1); COMMIT").unwrap();
    assert_eq!(transaction.commit(), Err(Error::NoTransaction));
    drop(transaction);
    let transaction = source.transaction().unwrap();
    transaction.execute_batch("ROLLBACK").unwrap();
    assert_eq!(transaction.rollback(), Err(Error::NoTransaction));
    // what SQL has committed is found
    commit(&mut source, "INSERT INTO t VALUES (5, 1, 1)");
    assert!(source.status().reason.contains("outside"), "{:?}", source.status());
    until(&mut folder.replica("copy.db"), Step::Idle);
    folder.equal("copy.db");
}

#[test]
fn a_commit_that_is_refused_can_be_made_again() {
    let folder = Folder::new("again");
    let mut source = folder.source();
    commit(&mut source, "CREATE TABLE c (id INTEGER PRIMARY KEY, t REFERENCES t (id) DEFERRABLE INITIALLY DEFERRED)");
    source.connection().execute_batch("PRAGMA foreign_keys = 1").unwrap();
    let mut transaction = source.transaction().unwrap();
    transaction.execute_batch("INSERT INTO c VALUES (1, 7)").unwrap();
    let refused = Error::Sqlite { code: 787, message: "FOREIGN KEY constraint failed".into() };
    assert_eq!(transaction.commit(), Err(refused.clone()));
    assert_eq!(transaction.commit(), Err(refused));
    transaction.execute_batch("INSERT INTO t VALUES (7, 1, 1)").unwrap();
    assert_eq!(transaction.commit(), Ok(()));
    drop(transaction);
    let mut transaction = source.transaction().unwrap();
    transaction.execute_batch("INSERT INTO c VALUES (2, 8)").unwrap();
    assert!(transaction.commit().is_err());
    // its drop rolls it back
    drop(transaction);
    assert_eq!(number(source.connection(), "SELECT count(*) FROM c"), 1);
    until(&mut folder.replica("copy.db"), Step::Idle);
    folder.equal("copy.db");
}

#[test]
fn one_at_a_time() {
    let folder = Folder::new("one");
    let mut source = folder.source();
    // what is forgotten stays open
    mem::forget(source.transaction().unwrap());
    assert_eq!(source.transaction().unwrap_err(), Error::InTransaction);
    source.connection().execute_batch("ROLLBACK").unwrap();
    drop(source);
    let mut source = folder.source();
    source.connection().busy_timeout(Duration::from_millis(10)).unwrap();
    let other = Connection::open(folder.path("live.db")).unwrap();
    other.execute_batch("BEGIN IMMEDIATE").unwrap();
    let busy = source.transaction().unwrap_err();
    assert_eq!(busy, Error::Busy { message: "database is locked".into() });
    other.execute_batch("ROLLBACK").unwrap();
    commit(&mut source, "INSERT INTO t VALUES (1, 1, 1)");
    source.connection().execute_batch("BEGIN").unwrap();
    assert_eq!(source.transaction().unwrap_err(), Error::InTransaction);
}

#[test]
fn savepoints() {
    let folder = Folder::new("savepoints");
    let mut source = folder.source();
    let mut replica = folder.replica("copy.db");
    until(&mut replica, Step::Idle);
    let sql = "SAVEPOINT a; INSERT INTO t VALUES (1, 1, 1); SAVEPOINT b; INSERT INTO t VALUES (2, 2, 2); ROLLBACK TO b;
        RELEASE a; INSERT INTO t VALUES (3, 3, 3)";
    commit(&mut source, sql);
    assert_eq!(until(&mut replica, Step::Idle).copies, 1);
    assert_eq!(number(source.connection(), "SELECT sum(id) FROM t"), 4);
    folder.equal("copy.db");
}

#[test]
fn an_error_goes_through_a_box() {
    fn run(folder: &Folder) -> Result<(), Box<dyn std::error::Error + Send + Sync>> {
        let mut source = folder.source();
        let mut transaction = source.transaction()?;
        transaction.execute("INSERT INTO none VALUES (1)", &[])?;
        transaction.commit()?;
        Ok(())
    }
    let folder = Folder::new("box");
    assert_eq!(run(&folder).unwrap_err().to_string(), "SQLite refuses: no such table: none");
}
