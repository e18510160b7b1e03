//! The sequence: what places entries, and what reads them.
use crate::broker::Broker;
use crate::error::Result;
use crate::records::{About, PublisherId};
use gubzelk_sys as sys;

impl Broker {
    /// Places the changeset that was sent first. Returns its entry's number, or `None` if nothing waits.
    ///
    /// # Errors
    /// The first of these that applies. The next call tries the same changeset first.
    /// - [`JournalFull`](crate::Error::JournalFull)
    /// - [`Closed`](crate::Error::Closed) if the sequence is closed.
    /// - [`SequenceFull`](crate::Error::SequenceFull)
    pub fn turn(&mut self) -> Result<Option<u64>> {
        let mut entry = 0;
        // SAFETY: the handle is this broker's, and the output a number of this call alone. So it is below.
        let code = unsafe { sys::broker_turn(self.handle(), &mut entry) };
        self.done(code).map(|placed| placed.then_some(entry))
    }

    /// Places a whole changeset, and returns its entry's number. It does what [`Broker::reset`], [`Broker::feed`],
    /// [`Broker::end`], [`Broker::send`] and [`Broker::turn`] do one after another.
    ///
    /// # Errors
    /// The first of these that applies. The publisher's stream is empty then, and nothing is staged, sent or placed.
    /// After [`NoMemory`](crate::Error::NoMemory) the stream too is as before.
    /// - [`NoPublisher`](crate::Error::NoPublisher)
    /// - [`Waiting`](crate::Error::Waiting) if other changesets wait to be placed.
    /// - [`Fault`](crate::Error::Fault) if the bytes spell no changeset.
    /// - [`Holding`](crate::Error::Holding) if the publisher has staged a changeset. It comes before a fault that shows
    ///   only at the end of the bytes.
    /// - [`UnknownTable`](crate::Error::UnknownTable), [`ShapeDiffers`](crate::Error::ShapeDiffers) if a section
    ///   doesn't fit the broker's tables.
    /// - [`Closed`](crate::Error::Closed) if the sequence is closed.
    /// - [`JournalFull`](crate::Error::JournalFull), [`SequenceFull`](crate::Error::SequenceFull)
    pub fn place(&mut self, publisher: PublisherId, bytes: &[u8]) -> Result<u64> {
        // SAFETY: as in `turn`, and `bytes` has as many bytes as the call is told.
        self.number(|b, entry| unsafe { sys::broker_place(b, publisher.0, bytes.as_ptr(), bytes.len(), entry) })
    }

    /// Closes the sequence: nothing more is sent or placed. Returns its last number. A second call does the same.
    /// What is placed can still be taken, accepted and acknowledged.
    ///
    /// # Errors
    /// [`Shut`](crate::Error::Shut) and [`NoMemory`](crate::Error::NoMemory) alone.
    pub fn close(&mut self) -> Result<u64> {
        // SAFETY: as in `turn`.
        self.number(|b, last| unsafe { sys::broker_close(b, last) })
    }

    /// How many changesets are sent and not placed.
    ///
    /// # Errors
    /// [`Shut`](crate::Error::Shut) alone.
    pub fn left(&self) -> Result<u64> {
        // SAFETY: as in `turn`.
        self.number(|b, count| unsafe { sys::broker_left(b, count) })
    }

    /// The last number placed, or 0.
    ///
    /// # Errors
    /// [`Shut`](crate::Error::Shut) alone.
    pub fn front(&self) -> Result<u64> {
        // SAFETY: as in `turn`.
        self.number(|b, entry| unsafe { sys::broker_front(b, entry) })
    }

    /// The canonical text of an entry's changeset.
    ///
    /// # Errors
    /// [`NotPlaced`](crate::Error::NotPlaced)
    pub fn text(&self, entry: u64) -> Result<Vec<u8>> {
        // SAFETY: `out` has `room` bytes. So it has below.
        self.filled(|b, out, room| unsafe { sys::broker_text(b, entry, out, room) })
    }

    /// The same into a vector, whose bytes it replaces. One call is made if the vector's capacity is enough.
    ///
    /// # Errors
    /// [`NotPlaced`](crate::Error::NotPlaced). The vector is empty then.
    pub fn text_into(&self, entry: u64, out: &mut Vec<u8>) -> Result<()> {
        // SAFETY: as in `text`.
        self.fill(out, |b, out, room| unsafe { sys::broker_text(b, entry, out, room) })
    }

    /// The canonical text of the entries `first` to `last` as one changeset: a row's changes become one change or none.
    ///
    /// The library makes the text anew for each of its calls, and this makes two. [`Broker::combined_into`] makes one
    /// if there is room.
    ///
    /// # Errors
    /// [`NotPlaced`](crate::Error::NotPlaced) unless `1 <= first <= last` and `last` is placed.
    pub fn combined(&self, first: u64, last: u64) -> Result<Vec<u8>> {
        // SAFETY: as in `text`.
        self.filled(|b, out, room| unsafe { sys::broker_combined(b, first, last, out, room) })
    }

    /// The same into a vector, whose bytes it replaces. One call is made if the vector's capacity is enough.
    ///
    /// # Errors
    /// As [`Broker::combined`]. The vector is empty then.
    pub fn combined_into(&self, first: u64, last: u64, out: &mut Vec<u8>) -> Result<()> {
        // SAFETY: as in `text`.
        self.fill(out, |b, out, room| unsafe { sys::broker_combined(b, first, last, out, room) })
    }

    /// What is known of an entry beside its text.
    ///
    /// # Errors
    /// [`NotPlaced`](crate::Error::NotPlaced)
    pub fn entry(&self, entry: u64) -> Result<About> {
        let mut about = sys::broker_about::default();
        // SAFETY: the handle is this broker's, and the output a struct of this call alone.
        let code = unsafe { sys::broker_entry(self.handle(), entry, &mut about) };
        self.done(code).map(|_| about.into())
    }
}
