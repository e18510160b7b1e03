//! Subscriptions: what they take and accept, and how far they have come.
use crate::broker::Broker;
use crate::error::{Error, Result};
use crate::records::{Delivery, DeliveryId, Status, SubscriptionId};
use gubzelk_sys as sys;

impl Broker {
    /// Adds a subscription to the entries after `start`, with empty tables. Returns its number.
    ///
    /// # Errors
    /// The first of these that applies:
    /// - [`JournalFull`](Error::JournalFull)
    /// - [`StartAhead`](Error::StartAhead) if `start` isn't placed.
    /// - [`TooMany`](Error::TooMany) if there are 1,024.
    pub fn subscribe(&mut self, start: u64) -> Result<SubscriptionId> {
        let mut link = 0;
        // SAFETY: the handle is this broker's, and the outputs are numbers of this call alone. So they are below.
        self.number(|b, number| unsafe { sys::broker_subscribe(b, start, number, &mut link) }).map(SubscriptionId)
    }

    /// The same, but the subscription keeps no rows. [`Broker::accept`] checks the order of its deliveries, applies
    /// nothing, and meets no [`Conflict`](Error::Conflict). It needs no rows from before, so it may begin at any number
    /// that is placed.
    ///
    /// # Errors
    /// As [`Broker::subscribe`].
    pub fn subscribe_bare(&mut self, start: u64) -> Result<SubscriptionId> {
        let mut link = 0;
        // SAFETY: as in `subscribe`.
        self.number(|b, number| unsafe { sys::broker_subscribe_bare(b, start, number, &mut link) }).map(SubscriptionId)
    }

    /// Hands out a subscription's next ready entries; `None` if nothing is ready. [`Broker::deliveries`] does this in a
    /// loop.
    ///
    /// [`Broker::status`] says why nothing is ready. If `floor` is `front`, all is settled: wait until more is placed. If
    /// `in_flight` isn't 0, deliveries are out: settle them, or give them back.
    ///
    /// # Errors
    /// The first of these that applies:
    /// - [`NoSuch`](Error::NoSuch)
    /// - [`JournalFull`](Error::JournalFull)
    /// - [`Closed`](Error::Closed) if the subscription is closed.
    /// - [`WindowFull`](Error::WindowFull) if it has as many deliveries in flight as it may.
    /// - [`Drained`](Error::Drained) if the sequence is closed, and the subscription has settled all of it.
    pub fn take(&mut self, subscription: SubscriptionId, now: u64) -> Result<Option<Delivery>> {
        // SAFETY: as in `subscribe`.
        self.taken(|b, delivery| unsafe { sys::broker_take(b, subscription.0, now, delivery) })
    }

    /// Hands out the entries that have been ready the longest, of any subscription with room in its window. `None` if
    /// nothing is ready.
    ///
    /// # Errors
    /// [`JournalFull`](Error::JournalFull)
    pub fn take_any(&mut self, now: u64) -> Result<Option<Delivery>> {
        // SAFETY: as in `subscribe`.
        self.taken(|b, delivery| unsafe { sys::broker_take_any(b, now, delivery) })
    }

    /// The delivery that a call hands out.
    fn taken(
        &mut self,
        call: impl FnOnce(*mut sys::broker, *mut sys::broker_delivery) -> std::ffi::c_int,
    ) -> Result<Option<Delivery>> {
        let mut delivery = sys::broker_delivery::default();
        match self.done(call(self.handle(), &mut delivery)) {
            Ok(_) => Ok(Some(delivery.into())),
            Err(Error::Empty { .. }) => Ok(None),
            Err(why) => Err(why),
        }
    }

    /// Applies all changes of a delivery to its subscription's tables, or none. Returns the last number that the
    /// subscription has accepted.
    ///
    /// # Errors
    /// The first of these that applies:
    /// - [`NoDelivery`](Error::NoDelivery)
    /// - [`Store`](Error::Store) if the subscription has fallen.
    /// - [`Closed`](Error::Closed) if the subscription is closed.
    /// - [`StaleLink`](Error::StaleLink) if the subscription has another link now.
    /// - [`Seen`](Error::Seen) if the delivery is accepted already.
    /// - [`Gap`](Error::Gap) if other entries come first.
    /// - [`Shape`](Error::Shape), [`Conflict`](Error::Conflict) if a change doesn't fit the subscription's tables.
    pub fn accept(&mut self, delivery: DeliveryId) -> Result<u64> {
        // SAFETY: as in `subscribe`.
        self.number(|b, cursor| unsafe { sys::broker_accept(b, delivery.0, cursor) })
    }

    /// Lets a delivery's subscription fall while it accepts the delivery, as in a test of a program's recovery. It is
    /// as after the accept if its store has `kept` it, and else as before. It accepts nothing until [`Broker::resume`].
    /// Returns the last number that it has accepted.
    ///
    /// # Errors
    /// As [`Broker::accept`].
    pub fn crash(&mut self, delivery: DeliveryId, kept: bool) -> Result<u64> {
        // SAFETY: as in `subscribe`.
        self.number(|b, cursor| unsafe { sys::broker_crash(b, delivery.0, kept, cursor) })
    }

    /// The last number that a subscription has accepted.
    ///
    /// # Errors
    /// [`NoSuch`](Error::NoSuch)
    pub fn cursor(&self, subscription: SubscriptionId) -> Result<u64> {
        // SAFETY: as in `subscribe`.
        self.number(|b, cursor| unsafe { sys::broker_cursor(b, subscription.0, cursor) })
    }

    /// How far a subscription has come.
    ///
    /// # Errors
    /// [`NoSuch`](Error::NoSuch)
    pub fn status(&self, subscription: SubscriptionId) -> Result<Status> {
        let mut status = sys::broker_status::default();
        // SAFETY: the handle is this broker's, and the output a struct of this call alone.
        let code = unsafe { sys::broker_status(self.handle(), subscription.0, &mut status) };
        self.done(code).map(|_| status.into())
    }

    /// Lets a subscription go on after number `cursor`, under a new link, which it returns. Its deliveries from before
    /// are stale.
    ///
    /// `cursor` is what [`Broker::cursor`] returns, or less. After a greater one, [`Broker::accept`] returns
    /// [`Gap`](Error::Gap) for good: the entries between never come again.
    ///
    /// # Errors
    /// The first of these that applies:
    /// - [`NoSuch`](Error::NoSuch)
    /// - [`JournalFull`](Error::JournalFull)
    /// - [`Closed`](Error::Closed) if the subscription is closed.
    /// - [`BadCursor`](Error::BadCursor) if `cursor` is less than the floor, or greater than what was offered.
    pub fn reconnect(&mut self, subscription: SubscriptionId, cursor: u64) -> Result<u64> {
        // SAFETY: as in `subscribe`.
        self.number(|b, link| unsafe { sys::broker_reconnect(b, subscription.0, cursor, link) })
    }

    /// Lets a subscription that has fallen go on after its own cursor, under a new link, which it returns.
    ///
    /// # Errors
    /// The first of these that applies:
    /// - [`NoSuch`](Error::NoSuch)
    /// - [`NotFallen`](Error::NotFallen)
    /// - [`JournalFull`](Error::JournalFull)
    /// - [`Closed`](Error::Closed) if the subscription is closed.
    /// - [`BadCursor`](Error::BadCursor) if its cursor is less than its floor, or greater than what was offered.
    pub fn resume(&mut self, subscription: SubscriptionId) -> Result<u64> {
        // SAFETY: as in `subscribe`.
        self.number(|b, link| unsafe { sys::broker_resume(b, subscription.0, link) })
    }

    /// Closes a subscription.
    ///
    /// # Errors
    /// The first of these that applies:
    /// - [`NoSuch`](Error::NoSuch)
    /// - [`JournalFull`](Error::JournalFull)
    /// - [`Closed`](Error::Closed) if it is closed already.
    pub fn unsubscribe(&mut self, subscription: SubscriptionId) -> Result<()> {
        // SAFETY: the handle is this broker's.
        let code = unsafe { sys::broker_unsubscribe(self.handle(), subscription.0) };
        self.done(code).map(drop)
    }
}
