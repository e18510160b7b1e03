//! Refusals of sources, replicas and connections, one variant each.
use gubzelk_sys as sys;
use std::ffi::{c_int, CStr};
use std::{fmt, io};

/// What a call returns: its answer, or why it is refused.
pub type Result<T> = std::result::Result<T, Error>;

/// Why a call is refused. Each method lists what it returns beside [`NoMemory`](Error::NoMemory), which any may.
#[derive(Clone, Debug, PartialEq, Eq, Hash)]
#[non_exhaustive]
pub enum Error {
    /// Memory ran out. The call may be made again: [`Transaction::commit`](super::Transaction::commit) leaves the
    /// transaction open.
    NoMemory,
    /// SQLite refuses. A transaction that isn't begun isn't open, and one that isn't committed stays open.
    Sqlite {
        /// SQLite's extended code, such as 787 for SQLITE_CONSTRAINT_FOREIGNKEY. It is 0 if SQLite has another by now.
        code: c_int,
        /// SQLite's words.
        message: String,
    },
    /// Another connection has locked the database. As [`Error::Sqlite`] else. The call may be made again.
    Busy {
        /// SQLite's words.
        message: String,
    },
    /// [`Source::open`](super::Source::open): the journal mode isn't WAL. [`Options::set_wal`](super::Options::set_wal)
    /// sets it. Nothing changed.
    NotWal,
    /// [`Source::open`](super::Source::open): the database is no file, or SQLite isn't thread-safe. Nothing changed.
    NoFile,
    /// [`Source::open`](super::Source::open), [`Replica::open`](super::Replica::open): a source or a replica keeps the
    /// file already, in this process or in another. Nothing changed.
    Taken,
    /// [`Source::open`](super::Source::open): a table has the name of the mark and another shape.
    /// [`Options::prefix`](super::Options::prefix) gives the mark another name. Nothing changed.
    TableTaken,
    /// [`Source::open`](super::Source::open), [`Source::transaction`](super::Source::transaction): the connection is in
    /// a transaction already. Nothing changed.
    InTransaction,
    /// Any call of a [`Transaction`](super::Transaction): it isn't open any more. It is committed or rolled back, as by
    /// SQL or by an `ON CONFLICT ROLLBACK`. The call does nothing.
    NoTransaction,
    /// [`Transaction::commit`](super::Transaction::commit): SQLite refused COMMIT and rolled the transaction back, as
    /// when the disk is full.
    RolledBack {
        /// SQLite's extended code, or 0 where the error came before COMMIT and SQLite has lost it.
        code: c_int,
        /// SQLite's words, or that they are lost.
        message: String,
    },
    /// [`Source::open`](super::Source::open), [`Replica::open`](super::Replica::open): the path of the socket has more
    /// than 107 bytes. [`Options::socket`](super::Options::socket) gives another. Nothing changed.
    LongPath,
    /// [`Source::open`](super::Source::open), [`Replica::open`](super::Replica::open): the system gives no socket,
    /// thread, lock file or random bytes. A source may leave the table of the mark in the database.
    System {
        /// The system's number, as [`io::Error::from_raw_os_error`] takes it.
        errno: i32,
    },
    /// [`Replica::step`](super::Replica::step): the file is a database that was never a replica. Nothing changed.
    /// [`Options::replace`](super::Options::replace) allows it.
    NotReplica,
    /// [`Replica::step`](super::Replica::step): the file is a source's. [`Source::open`](super::Source::open): the file
    /// is a replica's. Nothing changed. [`Options::replace`](super::Options::replace) allows either.
    OtherRole,
    /// This crate refuses an operand before any call is made. Nothing changed.
    Operand {
        /// What is wrong with it.
        why: &'static str,
    },
    /// A text in a row isn't UTF-8. `CAST(x AS BLOB)` reads its bytes.
    NotUtf8 {
        /// Its column, from 0.
        column: usize,
    },
    /// A code that this crate doesn't know. The library is newer then.
    Other {
        /// The code.
        code: c_int,
    },
}

impl Error {
    /// The error of a code of `gubzelk.h`, and of the connection that it is about, if there is one. It reads errno, so
    /// it is made directly after the call.
    pub(super) fn new(code: c_int, db: *mut sys::sqlite3) -> Error {
        let errno = io::Error::last_os_error().raw_os_error().unwrap_or_default();
        match code {
            sys::GZ_NO_MEMORY => Error::NoMemory,
            sys::GZ_SQLITE => {
                let (code, message) = said(db);
                Error::Sqlite { code, message }
            }
            sys::GZ_BUSY => Error::Busy { message: said(db).1 },
            sys::GZ_NOT_WAL => Error::NotWal,
            sys::GZ_NO_FILE => Error::NoFile,
            sys::GZ_TAKEN => Error::Taken,
            sys::GZ_TABLE_TAKEN => Error::TableTaken,
            sys::GZ_IN_TRANSACTION => Error::InTransaction,
            sys::GZ_NO_TRANSACTION => Error::NoTransaction,
            sys::GZ_ROLLED_BACK => {
                let (code, message) = said(db);
                let message = if code == 0 { LOST_WORDS.to_owned() } else { message };
                Error::RolledBack { code, message }
            }
            sys::GZ_LONG_PATH => Error::LongPath,
            sys::GZ_SYSTEM => Error::System { errno },
            sys::GZ_NOT_REPLICA => Error::NotReplica,
            sys::GZ_OTHER_ROLE => Error::OtherRole,
            code => Error::Other { code },
        }
    }

    /// The error of a code of SQLite, and of the connection that has just returned it.
    pub(super) fn sqlite(code: c_int, db: *mut sys::sqlite3) -> Error {
        match code & 0xff {
            sys::SQLITE_NOMEM => Error::NoMemory,
            sys::SQLITE_BUSY | sys::SQLITE_LOCKED => Error::new(sys::GZ_BUSY, db),
            _ => Error::new(sys::GZ_SQLITE, db),
        }
    }

    /// The code of `gubzelk.h`, such as -3 for `GZ_BUSY`. It is 0 for [`Error::Operand`] and [`Error::NotUtf8`], which
    /// the header doesn't have.
    pub fn code(&self) -> c_int {
        match self {
            Error::NoMemory => sys::GZ_NO_MEMORY,
            Error::Sqlite { .. } => sys::GZ_SQLITE,
            Error::Busy { .. } => sys::GZ_BUSY,
            Error::NotWal => sys::GZ_NOT_WAL,
            Error::NoFile => sys::GZ_NO_FILE,
            Error::Taken => sys::GZ_TAKEN,
            Error::TableTaken => sys::GZ_TABLE_TAKEN,
            Error::InTransaction => sys::GZ_IN_TRANSACTION,
            Error::NoTransaction => sys::GZ_NO_TRANSACTION,
            Error::RolledBack { .. } => sys::GZ_ROLLED_BACK,
            Error::LongPath => sys::GZ_LONG_PATH,
            Error::System { .. } => sys::GZ_SYSTEM,
            Error::NotReplica => sys::GZ_NOT_REPLICA,
            Error::OtherRole => sys::GZ_OTHER_ROLE,
            Error::Operand { .. } | Error::NotUtf8 { .. } => sys::GZ_OK,
            Error::Other { code } => *code,
        }
    }
}

/// SQLite's session functions end with a statement that succeeds, so the words of their error are lost.
const LOST_WORDS: &str = "SQLite had an error while it read the changes, and rolled the transaction back";

/// The code and the words that a connection has of its last call, if that was refused.
fn said(db: *mut sys::sqlite3) -> (c_int, String) {
    if db.is_null() {
        return (0, String::new());
    }
    // SAFETY: the connection is open, and this thread alone uses it.
    let code = unsafe { sys::sqlite3_extended_errcode(db) };
    match code {
        // the call that was refused isn't the last one
        sys::SQLITE_OK | sys::SQLITE_ROW | sys::SQLITE_DONE => (0, String::new()),
        // SAFETY: as before. The words stand until the next call with the connection.
        _ => (code, words(unsafe { sys::sqlite3_errmsg(db) })),
    }
}

/// The words at a pointer of the library's or of SQLite's.
pub(super) fn words(at: *const std::ffi::c_char) -> String {
    match at.is_null() {
        true => String::new(),
        // SAFETY: the caller has just got the pointer, to words that end with a zero byte.
        false => unsafe { CStr::from_ptr(at) }.to_string_lossy().into_owned(),
    }
}

impl fmt::Display for Error {
    /// The words of `gz_message`, and those of SQLite or of the system after them: `SQLite refuses: no such table: t`.
    fn fmt(&self, f: &mut fmt::Formatter<'_>) -> fmt::Result {
        let more = match self {
            Error::Operand { why } => return f.write_str(why),
            Error::NotUtf8 { column } => return write!(f, "the text in column {column} isn't UTF-8"),
            Error::Sqlite { message, .. } | Error::Busy { message } | Error::RolledBack { message, .. } => {
                message.clone()
            }
            Error::System { errno } => io::Error::from_raw_os_error(*errno).to_string(),
            Error::Other { code } => code.to_string(),
            _ => String::new(),
        };
        // SAFETY: the words of any code are the library's, and stay.
        f.write_str(&words(unsafe { sys::gz_message(self.code()) }))?;
        match more.is_empty() {
            true => Ok(()),
            false => write!(f, ": {more}"),
        }
    }
}

impl std::error::Error for Error {}

#[cfg(test)]
mod tests {
    use super::*;
    use std::ptr;

    /// The negative numbers of gubzelk-sys.
    fn codes() -> Vec<c_int> {
        let source = include_str!("../../../gubzelk-sys/src/keeper/codes.rs");
        let numbers =
            source.lines().filter_map(|line| line.split_once("c_int = ")?.1.trim_end_matches(';').parse().ok());
        numbers.filter(|code| *code < 0).collect()
    }

    #[test]
    fn each_code_has_a_variant() {
        assert_eq!(codes().len(), 14);
        for code in codes() {
            let error = Error::new(code, ptr::null_mut());
            assert_eq!(error.code(), code);
            assert!(!matches!(error, Error::Other { .. }), "{code}");
            // SAFETY: as in `fmt`.
            assert!(error.to_string().starts_with(&words(unsafe { sys::gz_message(code) })), "{code}");
        }
    }

    #[test]
    fn what_a_newer_library_returns() {
        let other = Error::new(-999, ptr::null_mut());
        assert_eq!(other, Error::Other { code: -999 });
        assert_eq!(other.to_string(), "no code of the library: -999");
    }

    #[test]
    fn words_of_the_system() {
        let error = Error::System { errno: 2 };
        assert!(error.to_string().contains("No such file"), "{error}");
    }
}
