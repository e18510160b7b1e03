//! Deliveries: how they are settled, and a loop over those of a subscription.
use crate::broker::Broker;
use crate::error::{Error, Result};
use crate::records::{Delivery, DeliveryId, SubscriptionId};
use gubzelk_sys as sys;
use std::ops::Deref;

impl Broker {
    /// Settles a delivery. Returns the number up to which the subscription has settled all.
    ///
    /// # Errors
    /// The first of these that applies:
    /// - [`NoDelivery`](Error::NoDelivery)
    /// - [`JournalFull`](Error::JournalFull)
    /// - [`StaleLink`](Error::StaleLink) if the subscription has another link now.
    /// - [`NotInFlight`](Error::NotInFlight) if the delivery is settled or given back.
    /// - [`NotAccepted`](Error::NotAccepted) if not all of it is accepted.
    pub fn ack(&mut self, delivery: DeliveryId) -> Result<u64> {
        // SAFETY: the handle is this broker's, and the output a number of this call alone. So it is below.
        self.number(|b, floor| unsafe { sys::broker_ack(b, delivery.0, floor) })
    }

    /// Gives a delivery back. Its entries are ready again.
    ///
    /// # Errors
    /// The first of these that applies:
    /// - [`NoDelivery`](Error::NoDelivery)
    /// - [`JournalFull`](Error::JournalFull)
    /// - [`StaleLink`](Error::StaleLink) if the subscription has another link now.
    /// - [`NotInFlight`](Error::NotInFlight) if the delivery is settled or given back.
    pub fn nack(&mut self, delivery: DeliveryId) -> Result<()> {
        // SAFETY: the handle is this broker's.
        let code = unsafe { sys::broker_nack(self.handle(), delivery.0) };
        self.done(code).map(drop)
    }

    /// Gives a delivery back and opens it: each of its entries is ready again, alone. Returns how many they are.
    ///
    /// After a [`Conflict`](Error::Conflict) this shows which entry conflicts.
    ///
    /// # Errors
    /// As [`Broker::nack`].
    pub fn nack_opened(&mut self, delivery: DeliveryId) -> Result<u64> {
        // SAFETY: as in `ack`.
        self.number(|b, count| unsafe { sys::broker_nack_opened(b, delivery.0, count) })
    }

    /// Gives back every delivery that has been out for the limit `timeout` or longer. Returns how many they are.
    ///
    /// # Errors
    /// [`JournalFull`](Error::JournalFull)
    pub fn expire(&mut self, now: u64) -> Result<u64> {
        // SAFETY: as in `ack`.
        self.number(|b, count| unsafe { sys::broker_expire(b, now, count) })
    }

    /// The deliveries that are ready for a subscription, one after another. `now` is the tick at which they are taken.
    pub fn deliveries(&mut self, subscription: SubscriptionId, now: u64) -> Deliveries<'_> {
        Deliveries { broker: self, subscription, now }
    }
}

/// The deliveries of a subscription that are ready. [`Broker::deliveries`] makes it.
///
/// It is no [`Iterator`], since each item borrows the broker.
#[derive(Debug)]
pub struct Deliveries<'a> {
    broker: &'a mut Broker,
    subscription: SubscriptionId,
    now: u64,
}

impl Deliveries<'_> {
    /// Takes the next delivery. `None` if nothing is ready, or if the sequence is closed and all of it is settled.
    ///
    /// # Errors
    /// As [`Broker::take`], but for [`Drained`](Error::Drained).
    pub fn next<'b>(&'b mut self) -> Result<Option<InFlight<'b>>> {
        match self.broker.take(self.subscription, self.now) {
            Ok(Some(delivery)) => Ok(Some(InFlight { broker: self.broker, delivery })),
            Ok(None) | Err(Error::Drained { .. }) => Ok(None),
            Err(why) => Err(why),
        }
    }
}

/// A delivery in flight, with the broker that has handed it out.
///
/// If it is dropped without [`InFlight::ack`] or [`InFlight::nack`], the delivery stays in flight, until
/// [`Broker::expire`] gives it back. [`InFlight::release`] lets it stay so, and returns it.
#[derive(Debug)]
#[must_use = "a delivery that is dropped stays in flight"]
pub struct InFlight<'a> {
    broker: &'a mut Broker,
    delivery: Delivery,
}

impl InFlight<'_> {
    /// The changes of its entries as one changeset.
    ///
    /// # Errors
    /// [`Shut`](Error::Shut) and [`NoMemory`](Error::NoMemory) alone, as a delivery's entries are placed.
    pub fn text(&self) -> Result<Vec<u8>> {
        self.delivery.text(self.broker)
    }

    /// The same into a vector, whose bytes it replaces, as [`Broker::combined_into`].
    ///
    /// # Errors
    /// As [`InFlight::text`]. The vector is empty then.
    pub fn text_into(&self, out: &mut Vec<u8>) -> Result<()> {
        self.broker.combined_into(self.delivery.first, self.delivery.last, out)
    }

    /// Accepts it, as [`Broker::accept`].
    ///
    /// # Errors
    /// As [`Broker::accept`].
    pub fn accept(&mut self) -> Result<u64> {
        self.broker.accept(self.delivery.number)
    }

    /// Settles it, as [`Broker::ack`].
    ///
    /// # Errors
    /// As [`Broker::ack`]. It stays in flight then.
    pub fn ack(self) -> Result<u64> {
        self.broker.ack(self.delivery.number)
    }

    /// Gives it back, as [`Broker::nack`].
    ///
    /// # Errors
    /// As [`Broker::nack`]. It stays in flight then.
    pub fn nack(self) -> Result<()> {
        self.broker.nack(self.delivery.number)
    }

    /// Gives it back and opens it, as [`Broker::nack_opened`].
    ///
    /// # Errors
    /// As [`Broker::nack_opened`]. It stays in flight then.
    pub fn nack_opened(self) -> Result<u64> {
        self.broker.nack_opened(self.delivery.number)
    }

    /// The broker that has handed it out, for other calls.
    pub fn broker(&mut self) -> &mut Broker {
        self.broker
    }

    /// The delivery without its broker. It stays in flight.
    pub fn release(self) -> Delivery {
        self.delivery
    }
}

impl Deref for InFlight<'_> {
    type Target = Delivery;

    fn deref(&self) -> &Delivery {
        &self.delivery
    }
}
