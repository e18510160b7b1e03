//! Publishers: their streams, and what they send.
use crate::broker::Broker;
use crate::error::Result;
use crate::records::PublisherId;
use gubzelk_sys as sys;

impl Broker {
    /// Adds a publisher, and returns its number.
    ///
    /// # Errors
    /// [`TooMany`](crate::Error::TooMany) if there are 64.
    pub fn publisher(&mut self) -> Result<PublisherId> {
        // SAFETY: the handle is this broker's, and the output a number of this call alone. So it is below.
        self.number(|b, publisher| unsafe { sys::broker_publisher(b, publisher) }).map(PublisherId)
    }

    /// Adds bytes to a publisher's stream, which may be cut anywhere. They are copied.
    ///
    /// # Errors
    /// - [`NoPublisher`](crate::Error::NoPublisher)
    /// - [`Fault`](crate::Error::Fault) as soon as no further bytes can make the stream a changeset. Each later call
    ///   returns it too, until [`Broker::reset`].
    pub fn feed(&mut self, publisher: PublisherId, bytes: &[u8]) -> Result<()> {
        // SAFETY: `bytes` has as many bytes as the call is told.
        let code = unsafe { sys::broker_feed(self.handle(), publisher.0, bytes.as_ptr(), bytes.len()) };
        self.done(code).map(drop)
    }

    /// Empties a publisher's stream. What is staged stays.
    ///
    /// # Errors
    /// [`NoPublisher`](crate::Error::NoPublisher)
    pub fn reset(&mut self, publisher: PublisherId) -> Result<()> {
        // SAFETY: the handle is this broker's.
        let code = unsafe { sys::broker_reset(self.handle(), publisher.0) };
        self.done(code).map(drop)
    }

    /// Stages the changeset that a publisher's stream spells, and begins a new stream.
    ///
    /// # Errors
    /// The first of these that applies. The stream stays as it is.
    /// - [`NoPublisher`](crate::Error::NoPublisher)
    /// - [`Holding`](crate::Error::Holding) if a changeset is staged already.
    /// - [`Fault`](crate::Error::Fault) if the stream spells no changeset, as when it ends inside a change.
    /// - [`UnknownTable`](crate::Error::UnknownTable), [`ShapeDiffers`](crate::Error::ShapeDiffers) if a section
    ///   doesn't fit the broker's tables.
    pub fn end(&mut self, publisher: PublisherId) -> Result<()> {
        // SAFETY: the handle is this broker's.
        let code = unsafe { sys::broker_end(self.handle(), publisher.0) };
        self.done(code).map(drop)
    }

    /// Moves what a publisher has staged to the end of the intake. Returns its number among the publisher's sendings,
    /// from 1.
    ///
    /// # Errors
    /// The first of these that applies. The changeset stays staged.
    /// - [`NoPublisher`](crate::Error::NoPublisher)
    /// - [`NothingStaged`](crate::Error::NothingStaged)
    /// - [`Closed`](crate::Error::Closed) if the sequence is closed.
    /// - [`Full`](crate::Error::Full) if the intake is full.
    pub fn send(&mut self, publisher: PublisherId) -> Result<u64> {
        // SAFETY: as in `publisher`.
        self.number(|b, own| unsafe { sys::broker_send(b, publisher.0, own) })
    }

    /// Stages the withdrawal of an entry that the publisher sent: the changeset that takes it back.
    ///
    /// # Errors
    /// The first of these that applies:
    /// - [`NoPublisher`](crate::Error::NoPublisher)
    /// - [`Holding`](crate::Error::Holding) if a changeset is staged already.
    /// - [`NotPlaced`](crate::Error::NotPlaced)
    /// - [`NotYours`](crate::Error::NotYours)
    /// - [`AlreadyWithdrawn`](crate::Error::AlreadyWithdrawn)
    pub fn withdraw(&mut self, publisher: PublisherId, entry: u64) -> Result<()> {
        // SAFETY: the handle is this broker's.
        let code = unsafe { sys::broker_withdraw(self.handle(), publisher.0, entry) };
        self.done(code).map(drop)
    }
}
