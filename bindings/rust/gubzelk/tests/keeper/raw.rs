//! A source over somebody else's connection, and a replica of somebody else's handle.
use crate::shared::*;
use gubzelk::keeper::{sqlite3, Connection, Error, Options, Replica, Source, Step};
use gubzelk_sys as sys;
use std::ffi::{c_int, c_void, CString};
use std::os::unix::ffi::OsStrExt;
use std::{mem, ptr};

#[test]
fn a_connection_of_the_callers() {
    let folder = Folder::new("raw");
    let connection = Connection::open(folder.path("live.db")).unwrap();
    connection.execute_batch("CREATE TABLE t (id INTEGER PRIMARY KEY)").unwrap();
    // as of another crate, with its own type
    let foreign: *mut c_void = connection.handle().cast();
    // SAFETY: the connection is dropped after the source, and one thread uses both.
    let mut source = unsafe { Source::from_raw(foreign.cast(), &wal()) }.unwrap();
    let mut replica = folder.replica("copy.db");
    until(&mut replica, Step::Idle);
    let mut transaction = source.transaction().unwrap();
    connection.execute("INSERT INTO t VALUES (?)", &[1.into()]).unwrap();
    transaction.execute("INSERT INTO t VALUES (?)", &[2.into()]).unwrap();
    transaction.commit().unwrap();
    drop(transaction);
    let transaction = source.transaction().unwrap();
    connection.execute("INSERT INTO t VALUES (?)", &[3.into()]).unwrap();
    drop(transaction);
    assert_eq!(until(&mut replica, Step::Idle).copies, 1);
    folder.equal("copy.db");
    drop(source);
    // the connection stays open
    assert_eq!(number(&connection, "SELECT count(*) FROM t"), 2);
    // SAFETY: as before.
    let again = unsafe { Source::from_raw(connection.handle(), &Options::default()) }.unwrap();
    assert_eq!(Source::open(folder.path("live.db"), &wal()).unwrap_err(), Error::Taken);
    drop(again);
}

#[test]
fn a_connection_that_is_refused_stays_open() {
    let connection = Connection::open(":memory:").unwrap();
    // SAFETY: as before.
    let refused = unsafe { Source::from_raw(connection.handle(), &wal()) };
    assert_eq!(refused.unwrap_err(), Error::NoFile);
    assert_eq!(number(&connection, "SELECT 1"), 1);
}

/// Counts the connections to a replica's file.
unsafe extern "C" fn count(context: *mut c_void, db: *mut sqlite3) -> c_int {
    *context.cast::<u32>() += 1;
    c_int::from(db.is_null())
}

#[test]
fn a_replica_with_a_setup() {
    let folder = Folder::new("setup");
    let _source = folder.source();
    let path = |name: &str| CString::new(folder.path(name).as_os_str().as_bytes()).unwrap();
    let (mut handle, mut calls) = (ptr::null_mut(), 0u32);
    let context: *mut c_void = ptr::addr_of_mut!(calls).cast();
    let options = sys::gz_options { setup: Some(count), context, ..Default::default() };
    // SAFETY: the paths end with a zero byte, and `calls` outlives the replica.
    let code =
        unsafe { sys::gz_replica_open(&mut handle, path("copy.db").as_ptr(), path("live.db").as_ptr(), &options) };
    assert_eq!(code, sys::GZ_OK);
    // SAFETY: the handle is open, and nobody else uses it.
    let mut replica = unsafe { Replica::from_raw(handle) };
    until(&mut replica, Step::Idle);
    mem::drop(replica);
    assert_eq!(calls, 1);
    folder.equal("copy.db");
}
