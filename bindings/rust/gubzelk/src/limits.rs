//! The limits of a broker.
use gubzelk_sys::{broker_limits, BROKER_LIMITS};

/// The limits of a broker. [`Broker::open`](crate::Broker::open) checks their ranges.
///
/// ```
/// let limits = gubzelk::Limits { batch: 1, ..Default::default() };
/// assert_eq!(limits.window, 4);
/// ```
#[derive(Clone, Copy, Debug, PartialEq, Eq, Hash)]
pub struct Limits {
    /// The most entries in a delivery: 1 to 256, by default 16.
    pub batch: u64,
    /// The most deliveries in flight to a subscription: 1 to 64, by default 4.
    pub window: u64,
    /// After how many ticks a delivery expires: 1 to 1,000,000,000, by default 10.
    pub timeout: u64,
    /// The most entries of the sequence: 1 to 16,777,216, by default 65,536.
    pub capacity: u64,
    /// The most changesets that wait to be placed: 1 to 4,096, by default 64.
    pub intake: u64,
    /// 1 to 16, by default 1. It changes nothing, since the calls apply changesets in the caller's thread.
    pub appliers: u64,
}

/// The names of the limits, by their places in the header's struct.
pub(crate) const NAMES: [&str; 6] = ["batch", "window", "timeout", "capacity", "intake", "appliers"];

impl Default for Limits {
    fn default() -> Limits {
        let broker_limits { batch, window, timeout, capacity, intake, appliers } = BROKER_LIMITS;
        Limits { batch, window, timeout, capacity, intake, appliers }
    }
}

impl From<&Limits> for broker_limits {
    fn from(limits: &Limits) -> broker_limits {
        let Limits { batch, window, timeout, capacity, intake, appliers } = *limits;
        broker_limits { batch, window, timeout, capacity, intake, appliers }
    }
}
