//! A few calls of `sqlite3.h`: those that a connection and its statements need. SQLite's documentation says what each
//! does.
use core::ffi::{c_char, c_int, c_void};
use core::marker::{PhantomData, PhantomPinned};

/// A connection of SQLite. `sqlite3` of other crates is the same type: cast the pointer.
#[repr(C)]
pub struct sqlite3 {
    _bytes: [u8; 0],
    _neither_send_nor_sync: PhantomData<(*mut u8, PhantomPinned)>,
}

/// A prepared statement of SQLite.
#[repr(C)]
pub struct sqlite3_stmt {
    _bytes: [u8; 0],
    _neither_send_nor_sync: PhantomData<(*mut u8, PhantomPinned)>,
}

/// What frees a value that is bound. `None` if the caller keeps the value until the next binding.
pub type sqlite3_destructor = Option<unsafe extern "C" fn(value: *mut c_void)>;

/// Done.
pub const SQLITE_OK: c_int = 0;
/// The database is locked by another connection.
pub const SQLITE_BUSY: c_int = 5;
/// A table is locked.
pub const SQLITE_LOCKED: c_int = 6;
/// Memory ran out.
pub const SQLITE_NOMEM: c_int = 7;
/// sqlite3_step has a row.
pub const SQLITE_ROW: c_int = 100;
/// sqlite3_step has no more rows.
pub const SQLITE_DONE: c_int = 101;

/// sqlite3_open_v2: to read alone.
pub const SQLITE_OPEN_READONLY: c_int = 1;
/// sqlite3_open_v2: to read and write.
pub const SQLITE_OPEN_READWRITE: c_int = 2;
/// sqlite3_open_v2: the file is made if there is none.
pub const SQLITE_OPEN_CREATE: c_int = 4;

/// The type of an integer.
pub const SQLITE_INTEGER: c_int = 1;
/// The type of a floating-point number.
pub const SQLITE_FLOAT: c_int = 2;
/// The type of a text.
pub const SQLITE_TEXT: c_int = 3;
/// The type of a blob.
pub const SQLITE_BLOB: c_int = 4;
/// The type of NULL.
pub const SQLITE_NULL: c_int = 5;
/// The encoding of a text that is bound.
pub const SQLITE_UTF8: u8 = 1;

#[allow(missing_docs)] // SQLite documents them
extern "C" {
    pub fn sqlite3_threadsafe() -> c_int;
    pub fn sqlite3_open_v2(file: *const c_char, out: *mut *mut sqlite3, flags: c_int, vfs: *const c_char) -> c_int;
    pub fn sqlite3_close(db: *mut sqlite3) -> c_int;
    pub fn sqlite3_busy_timeout(db: *mut sqlite3, ms: c_int) -> c_int;
    pub fn sqlite3_get_autocommit(db: *mut sqlite3) -> c_int;
    pub fn sqlite3_extended_errcode(db: *mut sqlite3) -> c_int;
    pub fn sqlite3_errmsg(db: *mut sqlite3) -> *const c_char;
    pub fn sqlite3_changes64(db: *mut sqlite3) -> i64;

    pub fn sqlite3_prepare_v2(
        db: *mut sqlite3,
        sql: *const c_char,
        len: c_int,
        out: *mut *mut sqlite3_stmt,
        rest: *mut *const c_char,
    ) -> c_int;
    pub fn sqlite3_step(it: *mut sqlite3_stmt) -> c_int;
    pub fn sqlite3_reset(it: *mut sqlite3_stmt) -> c_int;
    pub fn sqlite3_finalize(it: *mut sqlite3_stmt) -> c_int;

    pub fn sqlite3_bind_parameter_count(it: *mut sqlite3_stmt) -> c_int;
    pub fn sqlite3_clear_bindings(it: *mut sqlite3_stmt) -> c_int;
    pub fn sqlite3_bind_null(it: *mut sqlite3_stmt, at: c_int) -> c_int;
    pub fn sqlite3_bind_int64(it: *mut sqlite3_stmt, at: c_int, value: i64) -> c_int;
    pub fn sqlite3_bind_double(it: *mut sqlite3_stmt, at: c_int, value: f64) -> c_int;
    pub fn sqlite3_bind_text64(
        it: *mut sqlite3_stmt,
        at: c_int,
        value: *const c_char,
        len: u64,
        free: sqlite3_destructor,
        encoding: u8,
    ) -> c_int;
    pub fn sqlite3_bind_blob64(
        it: *mut sqlite3_stmt,
        at: c_int,
        value: *const c_void,
        len: u64,
        free: sqlite3_destructor,
    ) -> c_int;

    pub fn sqlite3_column_count(it: *mut sqlite3_stmt) -> c_int;
    pub fn sqlite3_column_type(it: *mut sqlite3_stmt, at: c_int) -> c_int;
    pub fn sqlite3_column_int64(it: *mut sqlite3_stmt, at: c_int) -> i64;
    pub fn sqlite3_column_double(it: *mut sqlite3_stmt, at: c_int) -> f64;
    pub fn sqlite3_column_text(it: *mut sqlite3_stmt, at: c_int) -> *const u8;
    pub fn sqlite3_column_blob(it: *mut sqlite3_stmt, at: c_int) -> *const c_void;
    pub fn sqlite3_column_bytes(it: *mut sqlite3_stmt, at: c_int) -> c_int;
}
