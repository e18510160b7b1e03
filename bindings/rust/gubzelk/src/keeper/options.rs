//! The options of sources and replicas.
use super::connection::c_path;
use super::error::{Error, Result};
use gubzelk_sys as sys;
use std::ffi::{c_int, CString};
use std::path::PathBuf;
use std::ptr;

/// The options of [`Source::open`](super::Source::open) and [`Replica::open`](super::Replica::open).
///
/// ```
/// let options = gubzelk::keeper::Options { set_wal: true, ..Default::default() };
/// ```
///
/// The header's `setup` isn't here: it adds functions and collations to a replica's connection, which only calls of
/// SQLite's own do. Who needs it opens the replica by `gubzelk-sys`: see [`Replica::from_raw`](super::Replica::from_raw).
#[derive(Clone, Debug, PartialEq, Eq, Hash)]
pub struct Options {
    /// The mark is the table `<prefix>mark`; by default `gz_`. Sources and replicas of one database have the same.
    pub prefix: String,
    /// The path of the socket; by default the database's file name with `-gz` after it.
    pub socket: Option<PathBuf>,
    /// Source: a broker that holds more bytes is followed by a new one. By default 268,435,456, and so if it is 0.
    pub max_bytes: u64,
    /// Source: the same for its entries, 16,777,216 at most. By default 1,000,000, and so if it is 0.
    pub max_entries: u64,
    /// Source: sets `PRAGMA journal_mode=WAL`. A database has the mode that it was last set to.
    pub set_wal: bool,
    /// Replica: may replace any database that the file has. Source: may take over a replica's file. It has no triggers
    /// and no indexes made by CREATE UNIQUE INDEX.
    pub replace: bool,
}

impl Default for Options {
    fn default() -> Options {
        let (max_bytes, max_entries) = (268_435_456, 1_000_000);
        Options { prefix: "gz_".into(), socket: None, max_bytes, max_entries, set_wal: false, replace: false }
    }
}

impl Options {
    /// Makes a call with these options as C has them.
    pub(super) fn pass<T>(&self, call: impl FnOnce(&sys::gz_options) -> Result<T>) -> Result<T> {
        let why = "a prefix has a zero byte";
        let prefix = CString::new(self.prefix.as_str()).map_err(|_| Error::Operand { why })?;
        let socket = self.socket.as_deref().map(c_path).transpose()?;
        call(&sys::gz_options {
            prefix: prefix.as_ptr(),
            socket: socket.as_ref().map_or(ptr::null(), |it| it.as_ptr()),
            max_bytes: self.max_bytes,
            max_entries: self.max_entries,
            set_wal: c_int::from(self.set_wal),
            replace: c_int::from(self.replace),
            ..sys::gz_options::default()
        })
    }
}
