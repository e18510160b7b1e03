//! Prepared statements, and their rows.
use super::connection::Connection;
use super::error::{Error, Result};
use super::value::Value;
use gubzelk_sys as sys;
use std::ffi::{c_int, c_void};
use std::{fmt, ptr, slice};

/// A prepared statement. It may run many times.
///
/// ```
/// # fn main() -> gubzelk::keeper::Result<()> {
/// # use gubzelk::keeper::Connection;
/// # let connection = Connection::open(":memory:")?;
/// let mut statement = connection.prepare("SELECT ? + 1")?;
/// for number in [1, 7] {
///     let row = statement.query(&[number.into()])?.next().unwrap()?;
///     assert_eq!(row, [(number + 1).into()]);
/// }
/// # Ok(())
/// # }
/// ```
pub struct Statement<'c> {
    connection: &'c Connection,
    raw: *mut sys::sqlite3_stmt,
    in_transaction: bool,
}

impl Drop for Statement<'_> {
    fn drop(&mut self) {
        // SAFETY: `first` has prepared it, and the connection is open. The code repeats that of the last step.
        unsafe { sys::sqlite3_finalize(self.raw) };
    }
}

impl fmt::Debug for Statement<'_> {
    fn fmt(&self, f: &mut fmt::Formatter<'_>) -> fmt::Result {
        f.debug_struct("Statement").finish_non_exhaustive()
    }
}

impl<'c> Statement<'c> {
    /// The one statement of a text.
    pub(super) fn new(connection: &'c Connection, sql: &str) -> Result<Statement<'c>> {
        let (statement, rest) = Statement::first(connection, sql)?;
        let statement = statement.ok_or(Error::Operand { why: "the SQL has no statement" })?;
        match Statement::first(connection, rest)? {
            (None, _) => Ok(statement),
            _ => Err(Error::Operand { why: "the SQL has more than one statement" }),
        }
    }

    /// The first statement of a text, if it has one, and what comes after it.
    pub(super) fn first<'s>(connection: &'c Connection, sql: &'s str) -> Result<(Option<Statement<'c>>, &'s str)> {
        if sql.contains('\0') {
            return Err(Error::Operand { why: "the SQL has a zero byte" });
        }
        let mut rest = sql;
        // a comment or a semicolon before a statement is prepared to nothing
        while !rest.is_empty() {
            let len = c_int::try_from(rest.len()).map_err(|_| Error::Operand { why: "the SQL is too long" })?;
            let (mut raw, mut end) = (ptr::null_mut(), ptr::null());
            // SAFETY: the text has that number of bytes. No output overlaps another operand.
            let code =
                unsafe { sys::sqlite3_prepare_v2(connection.handle(), rest.as_ptr().cast(), len, &mut raw, &mut end) };
            connection.done(code)?;
            let read = (end as usize).saturating_sub(rest.as_ptr() as usize);
            rest = if read > 0 { rest.get(read..).unwrap_or_default() } else { "" };
            if !raw.is_null() {
                return Ok((Some(Statement { connection, raw, in_transaction: false }), rest));
            }
        }
        Ok((None, rest))
    }

    /// The same statement, which is refused once no transaction is open.
    pub(super) fn in_transaction(mut self) -> Statement<'c> {
        self.in_transaction = true;
        self
    }

    /// Runs it to its end, as [`Connection::execute`].
    ///
    /// # Errors
    /// As [`Statement::query`]; and those of a row.
    pub fn execute(&mut self, values: &[Value]) -> Result<u64> {
        let connection = self.connection;
        let mut rows = self.query(values)?;
        while rows.step()? {}
        // SAFETY: the connection is open.
        let changes = unsafe { sys::sqlite3_changes64(connection.handle()) };
        Ok(changes.unsigned_abs())
    }

    /// Runs it with these values. The rows come one by one.
    ///
    /// # Errors
    /// - [`NoTransaction`](Error::NoTransaction) if a [`Transaction`](super::Transaction) prepared it, and isn't open.
    /// - [`Operand`](Error::Operand) for another number of values than the SQL takes.
    /// - [`Sqlite`](Error::Sqlite) for a value that is too long.
    ///
    /// Each row may be an error too, which is the last one.
    pub fn query<'s>(&'s mut self, values: &'s [Value]) -> Result<Rows<'s>> {
        if self.in_transaction && self.connection.is_autocommit() {
            return Err(Error::NoTransaction);
        }
        // SAFETY: the statement isn't finalized before the drop.
        let wanted = unsafe {
            sys::sqlite3_reset(self.raw);
            sys::sqlite3_bind_parameter_count(self.raw)
        };
        if usize::try_from(wanted) != Ok(values.len()) {
            return Err(Error::Operand { why: "the SQL takes another number of values" });
        }
        // from here on its drop unbinds the values
        let rows = Rows { statement: self, is_done: false };
        for (value, place) in values.iter().zip(1..) {
            // SAFETY: the rows borrow the values.
            let code = unsafe { rows.statement.bind(place, value) };
            rows.statement.connection.done(code)?;
        }
        Ok(rows)
    }

    /// Binds a value, which must live until another is bound in its place, or until no step is made any more.
    unsafe fn bind(&self, place: c_int, value: &Value) -> c_int {
        let it = self.raw;
        match value {
            Value::Null => sys::sqlite3_bind_null(it, place),
            Value::Integer(value) => sys::sqlite3_bind_int64(it, place, *value),
            Value::Real(value) => sys::sqlite3_bind_double(it, place, *value),
            Value::Text(text) => {
                let (at, len) = (text.as_ptr().cast(), text.len() as u64);
                sys::sqlite3_bind_text64(it, place, at, len, None, sys::SQLITE_UTF8)
            }
            Value::Blob(bytes) => {
                let (at, len) = (bytes.as_ptr().cast::<c_void>(), bytes.len() as u64);
                sys::sqlite3_bind_blob64(it, place, at, len, None)
            }
        }
    }
}

/// The rows of a statement that runs, each a value for each column. When it is dropped, the statement stops.
#[must_use = "a statement runs as its rows are read"]
pub struct Rows<'s> {
    statement: &'s Statement<'s>,
    is_done: bool,
}

impl Drop for Rows<'_> {
    fn drop(&mut self) {
        // SAFETY: the statement isn't finalized before its drop. The code repeats that of the last step.
        unsafe {
            sys::sqlite3_reset(self.statement.raw);
            sys::sqlite3_clear_bindings(self.statement.raw);
        }
    }
}

impl fmt::Debug for Rows<'_> {
    fn fmt(&self, f: &mut fmt::Formatter<'_>) -> fmt::Result {
        f.debug_struct("Rows").field("is_done", &self.is_done).finish_non_exhaustive()
    }
}

impl Iterator for Rows<'_> {
    type Item = Result<Vec<Value>>;

    fn next(&mut self) -> Option<Result<Vec<Value>>> {
        let row = match self.step() {
            Ok(true) => self.row(),
            Ok(false) => return None,
            Err(why) => Err(why),
        };
        self.is_done |= row.is_err();
        Some(row)
    }
}

impl Rows<'_> {
    /// Whether there is another row. A step after the last one would begin anew.
    fn step(&mut self) -> Result<bool> {
        if self.is_done {
            return Ok(false);
        }
        // SAFETY: the statement isn't finalized, and its values live as long as the rows.
        let code = unsafe { sys::sqlite3_step(self.statement.raw) };
        self.is_done = code != sys::SQLITE_ROW;
        match code {
            sys::SQLITE_ROW => Ok(true),
            sys::SQLITE_DONE => Ok(false),
            _ => Err(Error::sqlite(code, self.statement.connection.handle())),
        }
    }

    /// The values of the present row.
    fn row(&self) -> Result<Vec<Value>> {
        // SAFETY: the statement isn't finalized.
        let columns = unsafe { sys::sqlite3_column_count(self.statement.raw) };
        (0..columns).map(|column| self.value(column)).collect()
    }

    /// One of them.
    fn value(&self, column: c_int) -> Result<Value> {
        let it = self.statement.raw;
        // SAFETY: the statement has a row, with this column.
        unsafe {
            match sys::sqlite3_column_type(it, column) {
                sys::SQLITE_INTEGER => Ok(Value::Integer(sys::sqlite3_column_int64(it, column))),
                sys::SQLITE_FLOAT => Ok(Value::Real(sys::sqlite3_column_double(it, column))),
                sys::SQLITE_TEXT => {
                    let bytes = self.bytes(column, sys::sqlite3_column_text(it, column))?;
                    let text = String::from_utf8(bytes);
                    text.map(Value::Text).map_err(|_| Error::NotUtf8 { column: column as usize })
                }
                sys::SQLITE_BLOB => self.bytes(column, sys::sqlite3_column_blob(it, column).cast()).map(Value::Blob),
                _ => Ok(Value::Null),
            }
        }
    }

    /// The bytes of a column that begin here. A text or a blob at null is an empty blob, or memory ran out.
    unsafe fn bytes(&self, column: c_int, at: *const u8) -> Result<Vec<u8>> {
        let len = sys::sqlite3_column_bytes(self.statement.raw, column).unsigned_abs() as usize;
        if at.is_null() {
            let code = sys::sqlite3_extended_errcode(self.statement.connection.handle());
            return if len > 0 || code & 0xff == sys::SQLITE_NOMEM { Err(Error::NoMemory) } else { Ok(Vec::new()) };
        }
        let mut out = Vec::new();
        out.try_reserve_exact(len).map_err(|_| Error::NoMemory)?;
        out.extend_from_slice(slice::from_raw_parts(at, len));
        Ok(out)
    }
}
