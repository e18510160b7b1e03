//! A source: the database that replicas are kept of.
use super::connection::Connection;
use super::error::{Error, Result};
use super::options::Options;
use super::status::{Known, Left, SourceStatus};
use super::transaction::Transaction;
use gubzelk_sys as sys;
use std::path::Path;
use std::{fmt, ptr};

/// The main database of a connection, as replicas follow it.
///
/// A thread of its own answers the replicas. The writer never waits for one. What is written outside of
/// [`Source::transaction`] is found by the next one. All replicas become copies then, so it costs much, but no replica
/// is silently stale. Dropping a source ends it, and its replicas go [away](super::Step::Away).
pub struct Source {
    handle: *mut sys::gz_source,
    // dropped after the handle is closed
    connection: Connection,
}

// SAFETY: a handle and its connection may go to another thread together. A source isn't `Sync`, and neither is its
// connection: no two threads make calls at once.
unsafe impl Send for Source {}

impl Drop for Source {
    fn drop(&mut self) {
        // SAFETY: the handle is this source's, and nobody else closes it. The connection is open.
        unsafe { sys::gz_source_close(self.handle) }
    }
}

impl fmt::Debug for Source {
    fn fmt(&self, f: &mut fmt::Formatter<'_>) -> fmt::Result {
        f.debug_struct("Source").field("status", &self.status()).finish_non_exhaustive()
    }
}

impl Source {
    /// Opens a database, which is made if there is none, and a source over it. The source owns its connection.
    ///
    /// It makes the table of the mark if there is none, and begins a new broker. All replicas become copies, since
    /// nobody knows what was written after the last source ended. If tables have columns with a DEFAULT, rows from
    /// before ALTER TABLE ADD COLUMN are rewritten once.
    ///
    /// # Errors
    /// As [`Connection::open`] and [`Source::with_connection`].
    pub fn open(path: impl AsRef<Path>, options: &Options) -> Result<Source> {
        Source::with_connection(Connection::open(path)?, options)
    }

    /// As [`Source::open`], over a connection that the source owns from now on. If it is refused, the connection is
    /// closed.
    ///
    /// # Errors
    /// [`NoFile`](Error::NoFile), [`LongPath`](Error::LongPath), [`InTransaction`](Error::InTransaction),
    /// [`Taken`](Error::Taken), [`NotWal`](Error::NotWal), [`TableTaken`](Error::TableTaken),
    /// [`OtherRole`](Error::OtherRole), [`Busy`](Error::Busy), [`Sqlite`](Error::Sqlite), [`System`](Error::System); and
    /// [`Operand`](Error::Operand) for an option with a zero byte.
    pub fn with_connection(connection: Connection, options: &Options) -> Result<Source> {
        options.pass(|options| {
            let mut handle = ptr::null_mut();
            // SAFETY: the connection is open, and is closed after the source. The library copies the options.
            match unsafe { sys::gz_source_open(&mut handle, connection.handle(), options) } {
                sys::GZ_OK => Ok(Source { handle, connection }),
                code => Err(Error::new(code, connection.handle())),
            }
        })
    }

    /// Opens a source over a connection that goes on being the caller's, such as one of another crate's:
    /// `connection.handle().cast()` for a connection of rusqlite.
    ///
    /// The caller then writes by that connection, between [`Source::transaction`] and
    /// [`Transaction::commit`](super::Transaction::commit).
    ///
    /// # Safety
    /// - `db` is an open connection of the same SQLite library that this crate is linked with: one copy in the process.
    /// - It stays open until the source is dropped. Declare the source after the connection, so that it is dropped first.
    /// - The connection and the source are used by one thread at a time, together. Who sends one to another thread sends
    ///   the other too.
    ///
    /// # Errors
    /// As [`Source::with_connection`]. The connection stays open.
    pub unsafe fn from_raw(db: *mut sys::sqlite3, options: &Options) -> Result<Source> {
        Source::with_connection(Connection::borrowed(db), options)
    }

    /// Begins a transaction (BEGIN IMMEDIATE) that replicas get.
    ///
    /// It first finds foreign writes: what others have committed since the last transaction, and what this connection has
    /// written outside of one. Then all replicas become copies of this transaction's end.
    ///
    /// # Errors
    /// [`InTransaction`](Error::InTransaction), [`Busy`](Error::Busy), [`Sqlite`](Error::Sqlite). No transaction is open
    /// then, except for the first.
    pub fn transaction(&mut self) -> Result<Transaction<'_>> {
        // SAFETY: the handle is open.
        match unsafe { sys::gz_begin(self.handle) } {
            sys::GZ_OK => Ok(Transaction::new(self)),
            code => Err(Error::new(code, self.connection.handle())),
        }
    }

    /// The connection: to read, and for settings such as `PRAGMA synchronous`. What it writes is a foreign write.
    pub fn connection(&self) -> &Connection {
        &self.connection
    }

    /// What the source says of itself.
    pub fn status(&self) -> SourceStatus {
        let mut status = sys::gz_source_status::default();
        // SAFETY: the handle is open, and the output a struct of this call alone. The call always succeeds.
        unsafe { sys::gz_source_status(self.handle, &mut status) };
        status.into()
    }

    /// The replicas that have asked this source, in no order.
    pub fn replicas(&self) -> Vec<Known> {
        let one = |index| {
            let mut known = sys::gz_known::default();
            // SAFETY: as in `status`.
            let code = unsafe { sys::gz_source_replica(self.handle, index, &mut known) };
            (code == sys::GZ_OK).then(|| known.into())
        };
        (0..).map_while(one).collect()
    }

    /// What doesn't travel: the last 64 tables and keys, the latest first.
    pub fn left(&self) -> Vec<Left> {
        let one = |index| {
            let mut left = sys::gz_left::default();
            // SAFETY: as in `status`.
            let code = unsafe { sys::gz_source_left(self.handle, index, &mut left) };
            (code == sys::GZ_OK).then(|| left.into())
        };
        (0..).map_while(one).collect()
    }

    /// The handle, for the calls of a transaction.
    pub(super) fn handle(&self) -> *mut sys::gz_source {
        self.handle
    }
}
