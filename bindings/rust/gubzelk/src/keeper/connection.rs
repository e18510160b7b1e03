//! A connection to a database.
use super::error::{Error, Result};
use super::statement::Statement;
use super::value::Value;
use gubzelk_sys as sys;
use std::ffi::{c_int, CString};
use std::os::unix::ffi::OsStrExt;
use std::path::Path;
use std::time::Duration;
use std::{fmt, ptr};

/// A connection to a database: as much as a source needs, and who reads a replica.
///
/// A method takes one statement and its values, and [`Connection::execute_batch`] any number of statements without
/// values. What a source's connection writes outside of a [`Transaction`](super::Transaction) is a foreign write, which
/// makes all replicas copies.
pub struct Connection {
    db: *mut sys::sqlite3,
    is_own: bool,
}

// SAFETY: SQLite is thread-safe, which `open` checks, so a connection may go to another thread. It isn't `Sync`: no two
// threads use it at once.
unsafe impl Send for Connection {}

impl Drop for Connection {
    fn drop(&mut self) {
        if self.is_own {
            // SAFETY: `open` has given the connection out, and its statements end before it, as they borrow it.
            unsafe { sys::sqlite3_close(self.db) };
        }
    }
}

impl fmt::Debug for Connection {
    fn fmt(&self, f: &mut fmt::Formatter<'_>) -> fmt::Result {
        f.debug_struct("Connection").finish_non_exhaustive()
    }
}

impl Connection {
    /// Opens a database to read and write, and makes the file if there is none. A call waits up to five seconds for a
    /// lock: see [`Connection::busy_timeout`].
    ///
    /// # Errors
    /// - [`Operand`](Error::Operand) if the path has a zero byte.
    /// - [`NoFile`](Error::NoFile) if SQLite isn't thread-safe.
    /// - [`Sqlite`](Error::Sqlite) if the file can't be opened.
    pub fn open(path: impl AsRef<Path>) -> Result<Connection> {
        Connection::with_flags(path.as_ref(), sys::SQLITE_OPEN_READWRITE | sys::SQLITE_OPEN_CREATE)
    }

    /// Opens a database to read it, such as a replica's file.
    ///
    /// # Errors
    /// As [`Connection::open`]. No file is made.
    pub fn open_readonly(path: impl AsRef<Path>) -> Result<Connection> {
        Connection::with_flags(path.as_ref(), sys::SQLITE_OPEN_READONLY)
    }

    fn with_flags(path: &Path, flags: c_int) -> Result<Connection> {
        let path = c_path(path)?;
        let mut db = ptr::null_mut();
        // SAFETY: the call takes nothing.
        if unsafe { sys::sqlite3_threadsafe() } == 0 {
            return Err(Error::NoFile);
        }
        // SAFETY: the path ends with a zero byte, and the output is this call's alone.
        let code = unsafe { sys::sqlite3_open_v2(path.as_ptr(), &mut db, flags, ptr::null()) };
        if db.is_null() {
            return Err(Error::NoMemory);
        }
        // a connection that is refused is closed too, after its words are read
        let connection = Connection { db, is_own: true };
        connection.done(code)?;
        connection.busy_timeout(Duration::from_secs(5)).map(|()| connection)
    }

    /// A connection that somebody else closes, after the last use of this.
    pub(super) fn borrowed(db: *mut sys::sqlite3) -> Connection {
        Connection { db, is_own: false }
    }

    /// How long a call waits for a lock of another connection, before it is refused with [`Busy`](Error::Busy).
    ///
    /// # Errors
    /// None is known.
    pub fn busy_timeout(&self, timeout: Duration) -> Result<()> {
        // SAFETY: the connection is open.
        self.done(unsafe { sys::sqlite3_busy_timeout(self.db, milliseconds(timeout)) })
    }

    /// Prepares one statement.
    ///
    /// # Errors
    /// - [`Operand`](Error::Operand) if the SQL has a zero byte, or not exactly one statement.
    /// - [`Sqlite`](Error::Sqlite) and [`Busy`](Error::Busy), as SQLite says.
    pub fn prepare(&self, sql: &str) -> Result<Statement<'_>> {
        Statement::new(self, sql)
    }

    /// Runs one statement to its end, and drops its rows. Returns how many rows an INSERT, UPDATE or DELETE changed, but
    /// not by triggers. For any other statement the number means nothing.
    ///
    /// # Errors
    /// As [`Connection::prepare`]; and [`Operand`](Error::Operand) for another number of values than the SQL takes.
    pub fn execute(&self, sql: &str, values: &[Value]) -> Result<u64> {
        self.prepare(sql)?.execute(values)
    }

    /// Runs one statement and returns its rows.
    ///
    /// # Errors
    /// As [`Connection::execute`]; and [`NotUtf8`](Error::NotUtf8).
    pub fn query(&self, sql: &str, values: &[Value]) -> Result<Vec<Vec<Value>>> {
        self.prepare(sql)?.query(values)?.collect()
    }

    /// Runs statements one after the other, and drops their rows. The first that is refused ends it: those before it are
    /// done.
    ///
    /// # Errors
    /// As [`Connection::execute`].
    pub fn execute_batch(&self, sql: &str) -> Result<()> {
        let mut rest = sql;
        loop {
            let (statement, after) = Statement::first(self, rest)?;
            match statement {
                Some(mut statement) => statement.execute(&[])?,
                None => return Ok(()),
            };
            rest = after;
        }
    }

    /// The pointer for calls of SQLite's that aren't here.
    ///
    /// Who makes them closes nothing, and keeps to the threads of this value.
    pub fn handle(&self) -> *mut sys::sqlite3 {
        self.db
    }

    /// Whether no transaction is open.
    pub(super) fn is_autocommit(&self) -> bool {
        // SAFETY: the connection is open.
        unsafe { sys::sqlite3_get_autocommit(self.db) != 0 }
    }

    /// The error of a code of SQLite that this connection has just returned, or none.
    pub(super) fn done(&self, code: c_int) -> Result<()> {
        match code {
            sys::SQLITE_OK => Ok(()),
            _ => Err(Error::sqlite(code, self.db)),
        }
    }
}

/// A path for C.
pub(super) fn c_path(path: &Path) -> Result<CString> {
    CString::new(path.as_os_str().as_bytes()).map_err(|_| Error::Operand { why: "a path has a zero byte" })
}

/// Milliseconds for C, rounded up, so that a short time is no time of zero.
pub(super) fn milliseconds(time: Duration) -> c_int {
    c_int::try_from(time.as_nanos().div_ceil(1_000_000)).unwrap_or(c_int::MAX)
}

#[cfg(test)]
mod tests {
    use super::*;

    #[test]
    fn times() {
        assert_eq!(milliseconds(Duration::ZERO), 0);
        assert_eq!(milliseconds(Duration::from_nanos(1)), 1);
        assert_eq!(milliseconds(Duration::from_secs(1)), 1000);
        assert_eq!(milliseconds(Duration::MAX), c_int::MAX);
    }
}
