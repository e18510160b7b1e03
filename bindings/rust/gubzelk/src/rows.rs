//! The rows of a subscription: what its accepted deliveries made of its tables.
use crate::broker::Broker;
use crate::error::{Error, Result};
use crate::records::SubscriptionId;
use crate::Key;
use gubzelk_sys as sys;

impl Broker {
    /// The rows of a subscription, as the text of a changeset with an INSERT for each. It is empty without rows.
    ///
    /// The rows come by their tables, in the order of [`Broker::open`], and then by the bytes of their keys. SQLite's
    /// `sqlite3changeset_apply` makes a replica of them in empty tables. The library sorts all rows for each of its
    /// calls, and this makes two. [`Broker::rows_into`] makes one if there is room.
    ///
    /// # Errors
    /// [`NoSuch`](Error::NoSuch)
    pub fn rows(&self, subscription: SubscriptionId) -> Result<Vec<u8>> {
        // SAFETY: `out` has `room` bytes. So it has below.
        self.filled(|b, out, room| unsafe { sys::broker_rows(b, subscription.0, out, room) })
    }

    /// The same into a vector, whose bytes it replaces. One call is made if the vector's capacity is enough.
    ///
    /// # Errors
    /// As [`Broker::rows`]. The vector is empty then.
    pub fn rows_into(&self, subscription: SubscriptionId, out: &mut Vec<u8>) -> Result<()> {
        // SAFETY: as in `rows`.
        self.fill(out, |b, out, room| unsafe { sys::broker_rows(b, subscription.0, out, room) })
    }

    /// One row, as the text of a changeset with an INSERT: that of the table at place `table` of [`Broker::open`], from
    /// 0, with this key. `None` if no row has this key.
    ///
    /// # Errors
    /// The first of these that applies:
    /// - [`NoSuch`](Error::NoSuch)
    /// - [`NoTable`](Error::NoTable) if the broker has no table at this place.
    pub fn row(&self, subscription: SubscriptionId, table: usize, key: &Key) -> Result<Option<Vec<u8>>> {
        let mut out = Vec::new();
        Ok(self.row_into(subscription, table, key, &mut out)?.then_some(out))
    }

    /// The same into a vector, whose bytes it replaces. Returns whether there is such a row. The vector is empty if
    /// not.
    ///
    /// # Errors
    /// As [`Broker::row`]. The vector is empty then.
    pub fn row_into(&self, subscription: SubscriptionId, table: usize, key: &Key, out: &mut Vec<u8>) -> Result<bool> {
        let (key, table) = (key.as_bytes(), table as u64);
        let answer = self.fill(out, |b, out, room| {
            // SAFETY: `key` has as many bytes as the call is told, and `out` has `room` bytes.
            unsafe { sys::broker_row(b, subscription.0, table, key.as_ptr(), key.len(), out, room) }
        });
        match answer {
            Ok(()) => Ok(true),
            Err(Error::NoRow) => Ok(false),
            Err(why) => Err(why),
        }
    }
}
