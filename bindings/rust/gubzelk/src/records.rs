//! What calls return beside texts and numbers.
use crate::broker::Broker;
use crate::error::Result;
use gubzelk_sys::{broker_about, broker_delivery, broker_status};
use std::fmt;

/// Makes the type of a number that a broker gives out.
macro_rules! ids {
    ($($(#[$doc:meta])* $name:ident)*) => {$(
        $(#[$doc])*
        #[derive(Clone, Copy, Debug, PartialEq, Eq, PartialOrd, Ord, Hash)]
        pub struct $name(
            /// The number itself.
            pub u64,
        );

        impl fmt::Display for $name {
            fn fmt(&self, f: &mut fmt::Formatter<'_>) -> fmt::Result {
                self.0.fmt(f)
            }
        }
    )*};
}

ids! {
    /// The number of a publisher, from 0.
    PublisherId
    /// The number of a subscription, from 0.
    SubscriptionId
    /// The number of a delivery, from 1.
    DeliveryId
}

/// A delivery: the entries `first` to `last` for a subscription.
#[derive(Clone, Copy, Debug, PartialEq, Eq, Hash)]
pub struct Delivery {
    /// Its number.
    pub number: DeliveryId,
    /// Its subscription.
    pub subscription: SubscriptionId,
    /// Its first entry.
    pub first: u64,
    /// Its last entry.
    pub last: u64,
}

impl Delivery {
    /// The changes of its entries as one changeset, as [`Broker::combined`] returns it.
    ///
    /// # Errors
    /// [`NotPlaced`](crate::Error::NotPlaced) if the delivery is another broker's.
    pub fn text(&self, broker: &Broker) -> Result<Vec<u8>> {
        broker.combined(self.first, self.last)
    }
}

impl From<broker_delivery> for Delivery {
    fn from(raw: broker_delivery) -> Delivery {
        let broker_delivery { number, subscription, first, last } = raw;
        Delivery { number: DeliveryId(number), subscription: SubscriptionId(subscription), first, last }
    }
}

/// What is known of an entry beside its text.
#[derive(Clone, Copy, Debug, PartialEq, Eq, Hash)]
pub struct About {
    /// Who sent it.
    pub publisher: PublisherId,
    /// Its number among that publisher's sendings, from 1.
    pub own: u64,
    /// The entry that it withdraws, if it withdraws one.
    pub withdraws: Option<u64>,
}

impl From<broker_about> for About {
    fn from(raw: broker_about) -> About {
        let broker_about { publisher, own, withdraws } = raw;
        About { publisher: PublisherId(publisher), own, withdraws: (withdraws > 0).then_some(withdraws) }
    }
}

/// How far a subscription has come.
#[derive(Clone, Copy, Debug, PartialEq, Eq, Hash)]
pub struct Status {
    /// The number after which it began.
    pub start: u64,
    /// The number up to which it has settled all.
    pub floor: u64,
    /// The last number that it has accepted; `start` before the first.
    pub cursor: u64,
    /// The greatest number that was delivered to it; `start` before the first.
    pub offered: u64,
    /// Its link. A new one makes its deliveries from before stale.
    pub link: u64,
    /// How many deliveries are ready for it; 0 once it is closed.
    pub ready: u64,
    /// How many deliveries are in flight to it; 0 once it is closed.
    pub in_flight: u64,
    /// The last number placed.
    pub front: u64,
    /// Whether it is closed.
    pub closed: bool,
    /// Whether it has fallen. It accepts nothing until [`Broker::resume`] then.
    pub fallen: bool,
}

impl Status {
    /// How many placed entries it hasn't settled.
    pub fn lag(&self) -> u64 {
        self.front.saturating_sub(self.floor)
    }
}

impl From<broker_status> for Status {
    fn from(raw: broker_status) -> Status {
        let broker_status { start, floor, cursor, offered, link, ready, in_flight, front, closed, fallen } = raw;
        Status { start, floor, cursor, offered, link, ready, in_flight, front, closed, fallen }
    }
}
