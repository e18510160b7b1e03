//! The results of the calls of `gubzelk.h`.
use core::ffi::c_int;

/// Done. gz_replica_step: a batch is applied, a slice of a copy is written, or the file goes on with a new broker.
pub const GZ_OK: c_int = 0;
/// gz_replica_step: the file has everything, and nothing new came within the timeout. gz_source_replica and
/// gz_source_left: the list has no such place.
pub const GZ_IDLE: c_int = 1;
/// gz_replica_step: no source listens. The file stays as it is, and may not have everything.
pub const GZ_AWAY: c_int = 2;
/// gz_replica_step: the file doesn't have everything, and can't be brought further now. The status has the words.
pub const GZ_LAGS: c_int = 3;
/// Memory ran out. Make the call again. gz_commit leaves the transaction open.
pub const GZ_NO_MEMORY: c_int = -1;
/// SQLite refuses, and sqlite3_errmsg of the connection has the words. gz_source_open and gz_begin leave no transaction
/// open, and gz_commit leaves it open.
pub const GZ_SQLITE: c_int = -2;
/// gz_source_open, gz_begin, gz_commit: the database is locked by another connection. As GZ_SQLITE.
pub const GZ_BUSY: c_int = -3;
/// gz_source_open: PRAGMA journal_mode isn't WAL, or isn't to be had.
pub const GZ_NOT_WAL: c_int = -4;
/// gz_source_open: the main database is no file, or SQLite isn't thread-safe.
pub const GZ_NO_FILE: c_int = -5;
/// gz_source_open, gz_replica_open: a source or a replica keeps the file already.
pub const GZ_TAKEN: c_int = -6;
/// gz_source_open: a table has the name of the mark and another shape.
pub const GZ_TABLE_TAKEN: c_int = -7;
/// gz_source_open, gz_begin: the connection is in a transaction already.
pub const GZ_IN_TRANSACTION: c_int = -8;
/// gz_commit, gz_rollback: gz_begin wasn't called, or the transaction has ended since.
pub const GZ_NO_TRANSACTION: c_int = -9;
/// gz_commit: SQLite refused COMMIT and rolled the transaction back.
pub const GZ_ROLLED_BACK: c_int = -10;
/// gz_source_open, gz_replica_open: the path of the socket is longer than 107 bytes.
pub const GZ_LONG_PATH: c_int = -11;
/// gz_source_open, gz_replica_open: the system gives no socket, thread, lock file or random bytes; errno says why.
pub const GZ_SYSTEM: c_int = -12;
/// gz_replica_step: the file is a database that no replica was.
pub const GZ_NOT_REPLICA: c_int = -13;
/// gz_replica_step: the file is a source's. gz_source_open: the file is a replica's.
pub const GZ_OTHER_ROLE: c_int = -14;
