//! A transaction of a source.
use super::connection::Connection;
use super::error::{Error, Result};
use super::source::Source;
use super::statement::Statement;
use super::value::Value;
use gubzelk_sys as sys;
use std::fmt;

/// A transaction that replicas get once it is committed. Dropping it rolls it back.
///
/// ```no_run
/// # use gubzelk::keeper::{Options, Result, Source};
/// # fn main() -> Result<()> {
/// let mut source = Source::open("live.db", &Options { set_wal: true, ..Options::default() })?;
/// let mut transaction = source.transaction()?;
/// transaction.execute("INSERT INTO item VALUES (?, ?)", &[1.into(), "one".into()])?;
/// transaction.commit()?;
/// # Ok(())
/// # }
/// ```
///
/// Its methods are those of a [`Connection`]. They are refused with [`NoTransaction`](Error::NoTransaction) once it has
/// ended, so that nothing is written outside of it. SQL may use savepoints.
#[must_use = "a transaction that is dropped is rolled back"]
pub struct Transaction<'s> {
    source: &'s mut Source,
    is_open: bool,
}

impl Drop for Transaction<'_> {
    fn drop(&mut self) {
        if self.is_open {
            // SAFETY: the handle is open.
            unsafe { sys::gz_rollback(self.source.handle()) };
        }
    }
}

impl fmt::Debug for Transaction<'_> {
    fn fmt(&self, f: &mut fmt::Formatter<'_>) -> fmt::Result {
        f.debug_struct("Transaction").field("is_open", &self.is_open).finish_non_exhaustive()
    }
}

impl<'s> Transaction<'s> {
    /// The transaction that a source has just begun.
    pub(super) fn new(source: &'s mut Source) -> Transaction<'s> {
        Transaction { source, is_open: true }
    }

    /// The connection, while the transaction is open.
    fn connection(&self) -> Result<&Connection> {
        let connection = self.source.connection();
        match self.is_open && !connection.is_autocommit() {
            true => Ok(connection),
            false => Err(Error::NoTransaction),
        }
    }

    /// As [`Connection::prepare`].
    ///
    /// # Errors
    /// [`NoTransaction`](Error::NoTransaction), and as [`Connection::prepare`].
    pub fn prepare(&self, sql: &str) -> Result<Statement<'_>> {
        self.connection()?.prepare(sql).map(Statement::in_transaction)
    }

    /// As [`Connection::execute`]. A statement that is refused leaves the transaction open, except where SQLite says that
    /// it rolls back.
    ///
    /// # Errors
    /// [`NoTransaction`](Error::NoTransaction), and as [`Connection::execute`].
    pub fn execute(&self, sql: &str, values: &[Value]) -> Result<u64> {
        self.connection()?.execute(sql, values)
    }

    /// As [`Connection::query`]. It sees what the transaction has written.
    ///
    /// # Errors
    /// [`NoTransaction`](Error::NoTransaction), and as [`Connection::query`].
    pub fn query(&self, sql: &str, values: &[Value]) -> Result<Vec<Vec<Value>>> {
        self.connection()?.query(sql, values)
    }

    /// As [`Connection::execute_batch`].
    ///
    /// # Errors
    /// [`NoTransaction`](Error::NoTransaction), and as [`Connection::execute_batch`].
    pub fn execute_batch(&self, sql: &str) -> Result<()> {
        self.connection()?.execute_batch(sql)
    }

    /// Commits the transaction, and hands it to the replicas. After `Ok` it is in the database, and will be in each
    /// replica.
    ///
    /// It borrows the transaction, unlike rusqlite's, since some errors leave it open. Then call it again, write more, or
    /// drop it. So `?` works with any error type, and rolls back. After `Ok` each method is refused with
    /// [`NoTransaction`](Error::NoTransaction).
    ///
    /// # Errors
    /// - The transaction stays open: [`Busy`](Error::Busy), [`Sqlite`](Error::Sqlite), as at a deferred constraint, and
    ///   [`NoMemory`](Error::NoMemory).
    /// - It has ended: [`RolledBack`](Error::RolledBack) and [`NoTransaction`](Error::NoTransaction). If SQL has ended it
    ///   by COMMIT, what it wrote is a foreign write.
    pub fn commit(&mut self) -> Result<()> {
        if !self.is_open {
            return Err(Error::NoTransaction);
        }
        // SAFETY: the handle is open.
        let code = unsafe { sys::gz_commit(self.source.handle()) };
        let ends = [sys::GZ_OK, sys::GZ_NO_TRANSACTION, sys::GZ_ROLLED_BACK];
        let answer = match code {
            sys::GZ_OK => Ok(()),
            _ => Err(Error::new(code, self.source.connection().handle())),
        };
        self.is_open = !ends.contains(&code);
        answer
    }

    /// Rolls the transaction back, as its drop does.
    ///
    /// # Errors
    /// - [`NoTransaction`](Error::NoTransaction) if it has ended before.
    /// - [`Sqlite`](Error::Sqlite)
    pub fn rollback(mut self) -> Result<()> {
        if !self.is_open {
            return Err(Error::NoTransaction);
        }
        self.is_open = false;
        // SAFETY: the handle is open.
        match unsafe { sys::gz_rollback(self.source.handle()) } {
            sys::GZ_OK => Ok(()),
            code => Err(Error::new(code, self.source.connection().handle())),
        }
    }
}
