//! The calls of `gubzelk.h`, and its structs.
use super::sqlite::sqlite3;
use core::ffi::{c_char, c_int, c_void};
use core::marker::{PhantomData, PhantomPinned};
use core::mem;

/// Makes the type of a handle.
macro_rules! handles {
    ($($(#[$doc:meta])* $name:ident)*) => {$(
        $(#[$doc])*
        #[repr(C)]
        pub struct $name {
            _bytes: [u8; 0],
            _neither_send_nor_sync: PhantomData<(*mut u8, PhantomPinned)>,
        }
    )*};
}

handles! {
    /// A source.
    gz_source
    /// A replica.
    gz_replica
}

/// What gz_options calls with each connection that the library opens to the replica's file.
pub type gz_setup = unsafe extern "C" fn(context: *mut c_void, db: *mut sqlite3) -> c_int;

/// Options. Zeros mean the defaults.
#[repr(C)]
#[derive(Clone, Copy, Debug)]
pub struct gz_options {
    /// The mark is the table `<prefix>mark`; "gz_" if it is null.
    pub prefix: *const c_char,
    /// The path of the socket; the database's file name with "-gz" after it if it is null.
    pub socket: *const c_char,
    /// Source: a broker that holds more bytes is followed by a new one; 256 MiB if 0.
    pub max_bytes: u64,
    /// Source: the same for its entries, 16,777,216 at most; 1,000,000 if 0.
    pub max_entries: u64,
    /// Source: if it isn't 0, gz_source_open sets PRAGMA journal_mode=WAL.
    pub set_wal: c_int,
    /// If it isn't 0, a replica may replace any database that the file has, and a source may take over a replica's file.
    pub replace: c_int,
    /// Replica: it is called with each connection to the replica's file. It returns 0, or a code of SQLite.
    pub setup: Option<gz_setup>,
    /// The first operand of `setup`.
    pub context: *mut c_void,
}

/// What a source says of itself.
#[repr(C)]
#[derive(Clone, Copy, Debug)]
pub struct gz_source_status {
    /// The broker's name.
    pub name: [u8; 16],
    /// The broker's last entry.
    pub front: u64,
    /// The entries of the brokers that are held.
    pub entries: u64,
    /// Their bytes.
    pub bytes: u64,
    /// How many brokers are held: one, or two while replicas pass to a new one.
    pub held: c_int,
    /// How many brokers began.
    pub brokers: u64,
    /// Why the last one did.
    pub reason: *const c_char,
    /// How many replicas are known.
    pub replicas: usize,
    /// How many changes and tables were left out so far.
    pub left: u64,
}

/// What a source knows of a replica.
#[repr(C)]
#[derive(Clone, Copy, Debug)]
pub struct gz_known {
    /// The replica's id.
    pub id: [u8; 16],
    /// Where its file stood: 0 for an unknown name, 1 for the broker before the present one, 2 for the present one.
    pub at: c_int,
    /// The number that its file stood at.
    pub cursor: u64,
    /// How many entries it doesn't have; the greatest number while it becomes a copy.
    pub lag: u64,
    /// How many seconds ago it last asked.
    pub since: f64,
}

/// Something that doesn't travel.
#[repr(C)]
#[derive(Clone, Copy, Debug)]
pub struct gz_left {
    /// The table.
    pub table: *const c_char,
    /// The key as SQL literals; "" for a whole table.
    pub key: *const c_char,
    /// Why it doesn't travel.
    pub why: *const c_char,
}

/// What a replica says of itself.
#[repr(C)]
#[derive(Clone, Copy, Debug)]
pub struct gz_replica_status {
    /// The broker's name where the file stands; zeros if it must become a copy.
    pub name: [u8; 16],
    /// The number where the file stands.
    pub number: u64,
    /// The last entry of the source's broker, as of its last answer.
    pub front: u64,
    /// How many entries the file doesn't have; the greatest number while that isn't known.
    pub lag: u64,
    /// Whether a copy is being made.
    pub copying: c_int,
    /// How many pages of it are done.
    pub pages_done: c_int,
    /// How many pages it has.
    pub pages: c_int,
    /// How many copies were begun by this handle.
    pub copies: u64,
    /// Why the last one was; "" before the first.
    pub reason: *const c_char,
    /// Why the last step returned GZ_LAGS, or "".
    pub error: *const c_char,
    /// Whether it was because others wrote to the source's database.
    pub foreign: c_int,
    /// The replica's id.
    pub id: [u8; 16],
}

/// Lets a struct's default be zeros.
macro_rules! zeros {
    ($($name:ident)*) => {$(
        impl Default for $name {
            fn default() -> $name {
                // SAFETY: each field is a number, a pointer, or an optional function. Zeros are one of each.
                unsafe { mem::zeroed() }
            }
        }
    )*};
}

zeros! { gz_options gz_source_status gz_known gz_left gz_replica_status }

#[allow(missing_docs)] // gubzelk.h documents them
extern "C" {
    pub fn gz_message(code: c_int) -> *const c_char;

    pub fn gz_source_open(out: *mut *mut gz_source, db: *mut sqlite3, options: *const gz_options) -> c_int;
    pub fn gz_source_close(s: *mut gz_source);
    pub fn gz_begin(s: *mut gz_source) -> c_int;
    pub fn gz_commit(s: *mut gz_source) -> c_int;
    pub fn gz_rollback(s: *mut gz_source) -> c_int;
    pub fn gz_source_status(s: *mut gz_source, status: *mut gz_source_status) -> c_int;
    pub fn gz_source_replica(s: *mut gz_source, index: usize, known: *mut gz_known) -> c_int;
    pub fn gz_source_left(s: *mut gz_source, index: usize, left: *mut gz_left) -> c_int;

    pub fn gz_replica_open(
        out: *mut *mut gz_replica,
        file: *const c_char,
        source_file: *const c_char,
        options: *const gz_options,
    ) -> c_int;
    pub fn gz_replica_step(r: *mut gz_replica, timeout_ms: c_int) -> c_int;
    pub fn gz_replica_status(r: *mut gz_replica, status: *mut gz_replica_status) -> c_int;
    pub fn gz_replica_close(r: *mut gz_replica);
}
