//! Keeps exact copies of an SQLite database in other files: the calls of `gubzelk.h`. They need the feature `keeper`,
//! Linux, and SQLite 3.37 or later with sessions.
//!
//! A [`Source`] is the database that a program writes, by transactions. A [`Replica`] is a file that another process,
//! or another thread, keeps equal to it.
//!
//! ```
//! use gubzelk::keeper::{Connection, Options, Replica, Result, Source, Step};
//! use std::time::Duration;
//!
//! # let folder = std::env::temp_dir().join(format!("gubzelk-keeper-{}", std::process::id()));
//! # std::fs::create_dir(&folder).unwrap();
//! # std::env::set_current_dir(&folder).unwrap();
//! # fn run() -> Result<()> {
//! let mut source = Source::open("live.db", &Options { set_wal: true, ..Options::default() })?;
//! let mut transaction = source.transaction()?;
//! transaction.execute_batch("CREATE TABLE item (id INTEGER PRIMARY KEY, name TEXT)")?;
//! transaction.execute("INSERT INTO item VALUES (?, ?)", &[1.into(), "one".into()])?;
//! transaction.commit()?;
//!
//! let mut replica = Replica::open("copy.db", "live.db", &Options::default())?;
//! while replica.step(Duration::from_millis(100))? != Step::Idle {}
//! let rows = Connection::open_readonly("copy.db")?.query("SELECT name FROM item", &[])?;
//! assert_eq!(rows, [["one".into()]]);
//! # Ok(())
//! # }
//! # let answer = run();
//! # std::fs::remove_dir_all(&folder).unwrap();
//! # answer.unwrap();
//! ```
//!
//! # What it promises
//!
//! A replica is never silently stale. [`Step::Idle`] alone says that a file has everything, and [`ReplicaStatus::lag`]
//! is `Some(0)` only then. A replica that can't go on becomes a copy, and its status has the reason. [`Source::left`]
//! lists what doesn't travel, such as tables without a PRIMARY KEY.
//!
//! # With rusqlite
//!
//! [`Source::from_raw`] takes a connection of rusqlite. Its `bundled` SQLite has no sessions, so let rusqlite link the
//! system's SQLite, as it does without features.
//!
//! ```ignore
//! let connection = rusqlite::Connection::open("live.db")?;
//! // SAFETY: the source is declared after the connection, so it is dropped first. One thread uses both. rusqlite is built
//! // without `bundled`, so there is one SQLite.
//! let mut source = unsafe { Source::from_raw(connection.handle().cast(), &options)? };
//! let mut transaction = source.transaction()?;
//! connection.execute("INSERT INTO item VALUES (?1, ?2)", (2, "two"))?;
//! transaction.commit()?;
//! ```
//!
//! # Threads and processes
//!
//! A [`Source`], a [`Replica`] and a [`Connection`] can be sent to another thread. None is [`Sync`]. A source starts one
//! thread, which uses no connection of the caller's. A child that `fork` made uses none of them, and drops none.
//!
//! ```
//! fn sent<T: Send>() {}
//! sent::<gubzelk::keeper::Source>();
//! sent::<gubzelk::keeper::Replica>();
//! sent::<gubzelk::keeper::Connection>();
//! ```
//!
//! ```compile_fail,E0277
//! fn shared<T: Sync>() {}
//! shared::<gubzelk::keeper::Source>();
//! ```
//!
//! ```compile_fail,E0277
//! fn shared<T: Sync>() {}
//! shared::<gubzelk::keeper::Replica>();
//! ```
mod connection;
mod error;
mod options;
mod replica;
mod source;
mod statement;
mod status;
mod transaction;
mod value;

pub use connection::Connection;
pub use error::{Error, Result};
pub use gubzelk_sys::sqlite3;
pub use options::Options;
pub use replica::{Replica, Step};
pub use source::Source;
pub use statement::{Rows, Statement};
pub use status::{BrokerName, Known, Left, Place, ReplicaId, ReplicaStatus, SourceStatus};
pub use transaction::Transaction;
pub use value::Value;
