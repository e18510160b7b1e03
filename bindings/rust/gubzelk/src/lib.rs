//! A broker of SQLite changesets in the caller's process.
//!
//! Publishers feed a [`Broker`] changesets, as SQLite's session extension records them. The broker places each under
//! the next number of one sequence. Subscriptions take what is placed as deliveries, accept them in order, and
//! acknowledge them. The calls are those of `broker.h`, under the same names, and the library behind them is proved.
//!
//! To keep whole files copies of a database, use the module `keeper`, which needs the feature of that name.
//!
//! ```
//! use gubzelk::{Broker, Limits, Table};
//!
//! # fn main() -> gubzelk::Result<()> {
//! // INSERT INTO t VALUES (1, 5), for a table t(a INTEGER PRIMARY KEY, b INTEGER)
//! let insert = b"T\x02\x01\x00t\x00\x12\x00\x01\0\0\0\0\0\0\0\x01\x01\0\0\0\0\0\0\0\x05";
//! let mut broker = Broker::open(&Limits::default(), &[Table::new("t", &[1, 0])])?;
//! let publisher = broker.publisher()?;
//! let subscription = broker.subscribe(0)?;
//! broker.place(publisher, insert)?;
//!
//! let mut deliveries = broker.deliveries(subscription, 0);
//! while let Some(mut delivery) = deliveries.next()? {
//!     delivery.accept()?;
//!     assert_eq!(delivery.text()?, insert);
//!     delivery.ack()?;
//! }
//! # Ok(())
//! # }
//! ```
//!
//! # Answers and errors
//!
//! A call that finds nothing returns `None`: [`Broker::turn`], [`Broker::take`], [`Broker::take_any`] and
//! [`Broker::row`]. Each other refusal is a variant of [`Error`], with its numbers by name. A refused call changes
//! nothing, except where its documentation says so. Every call may return [`Error::Shut`] after [`Broker::shut`], and
//! [`Error::NoMemory`] if memory runs out. The call may be made again then.
//!
//! # Numbers
//!
//! Publishers and subscriptions are numbered from 0, entries and deliveries from 1. A tick is any number of the
//! caller's clock. A number of an entry means nothing without its broker, since each new broker counts from 1. So a
//! program that stores such a number stores [`Broker::name`] beside it.
//!
//! # Threads
//!
//! A [`Broker`] can be sent to another thread. It isn't [`Sync`], so threads that share one need a
//! [`Mutex`](std::sync::Mutex). No call waits or starts a thread. A child that `fork` made in a process with threads
//! must make no call, and neither must a signal handler. Neither can be written without `unsafe`.
//!
//! ```
//! fn sent<T: Send>() {}
//! sent::<gubzelk::Broker>();
//! ```
//!
//! ```compile_fail,E0277
//! fn shared<T: Sync>() {}
//! shared::<gubzelk::Broker>();
//! ```
#![deny(missing_docs)]
#![warn(clippy::undocumented_unsafe_blocks)]

mod broker;
mod deliveries;
mod error;
mod key;
mod kinds;
mod limits;
mod name;
mod publishers;
mod records;
mod rows;
mod sequence;
mod subscriptions;
mod table;

#[cfg(feature = "changeset")]
pub mod changeset;
#[cfg(feature = "keeper")]
pub mod keeper;

pub use broker::Broker;
pub use deliveries::{Deliveries, InFlight};
pub use error::{Error, Result};
pub use key::Key;
pub use kinds::{ConflictKind, FaultKind, TableReason};
pub use limits::Limits;
pub use records::{About, Delivery, DeliveryId, PublisherId, Status, SubscriptionId};
pub use table::Table;

/// The version of the library as one number: 1,000,000 for the major one, 1,000 for the minor one, and the patch.
pub fn version() -> u32 {
    // SAFETY: the call takes nothing, and may be made at any time.
    unsafe { gubzelk_sys::broker_version() }.unsigned_abs()
}
