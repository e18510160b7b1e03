//! What sources and replicas say of themselves.
use super::error::words;
use gubzelk_sys::{gz_known, gz_left, gz_replica_status, gz_source_status};
use std::fmt;
use std::time::Duration;

/// Makes the type of 16 random bytes.
macro_rules! names {
    ($($(#[$doc:meta])* $name:ident)*) => {$(
        $(#[$doc])*
        #[derive(Clone, Copy, Debug, PartialEq, Eq, PartialOrd, Ord, Hash)]
        pub struct $name(
            /// The bytes themselves.
            pub [u8; 16],
        );

        impl fmt::Display for $name {
            /// 32 hexadecimal digits.
            fn fmt(&self, f: &mut fmt::Formatter<'_>) -> fmt::Result {
                self.0.iter().try_for_each(|byte| write!(f, "{byte:02x}"))
            }
        }
    )*};
}

names! {
    /// The name of a broker. Numbers of entries are compared only under one name.
    BrokerName
    /// The id of a replica, which its lock file keeps.
    ReplicaId
}

/// A number of the library's, but for the one that says that it isn't known.
fn known(lag: u64) -> Option<u64> {
    (lag != u64::MAX).then_some(lag)
}

/// What a source says of itself.
#[derive(Clone, Debug, PartialEq, Eq, Hash)]
pub struct SourceStatus {
    /// The broker's name.
    pub name: BrokerName,
    /// The broker's last entry. A replica that stands there has everything.
    pub front: u64,
    /// The entries of the brokers that are held.
    pub entries: u64,
    /// Their bytes.
    pub bytes: u64,
    /// How many brokers are held: one, or two while replicas pass to a new one.
    pub held: u32,
    /// How many brokers began.
    pub brokers: u64,
    /// Why the last one did.
    pub reason: String,
    /// How many replicas are known.
    pub replicas: usize,
    /// How many changes and tables were left out so far. [`Source::left`](super::Source::left) has the last 64.
    pub left: u64,
}

impl From<gz_source_status> for SourceStatus {
    fn from(raw: gz_source_status) -> SourceStatus {
        let gz_source_status { name, front, entries, bytes, held, brokers, reason, replicas, left } = raw;
        let (name, held, reason) = (BrokerName(name), held.unsigned_abs(), words(reason));
        SourceStatus { name, front, entries, bytes, held, brokers, reason, replicas, left }
    }
}

/// Where a replica's file stood when it last asked its source.
#[derive(Clone, Copy, Debug, PartialEq, Eq, Hash)]
pub enum Place {
    /// In a broker that the source doesn't know, or in none. The file becomes a copy.
    Unknown,
    /// In the broker before the present one, at this number.
    Before(u64),
    /// In the present broker, at this number.
    Present(u64),
}

/// What a source knows of a replica.
#[derive(Clone, Copy, Debug, PartialEq)]
pub struct Known {
    /// The replica.
    pub id: ReplicaId,
    /// Where its file stood when it last asked.
    pub place: Place,
    /// How many entries it doesn't have; `None` while it becomes a copy.
    pub lag: Option<u64>,
    /// How long ago it last asked. A replica that is gone has the lag that it had then.
    pub since: Duration,
}

impl From<gz_known> for Known {
    fn from(raw: gz_known) -> Known {
        let place = match raw.at {
            1 => Place::Before(raw.cursor),
            2 => Place::Present(raw.cursor),
            _ => Place::Unknown,
        };
        let since = Duration::try_from_secs_f64(raw.since).unwrap_or_default();
        Known { id: ReplicaId(raw.id), place, lag: known(raw.lag), since }
    }
}

/// Something that doesn't travel.
#[derive(Clone, Debug, PartialEq, Eq, Hash)]
pub struct Left {
    /// The table.
    pub table: String,
    /// The key as SQL literals, cut after some 200 bytes; `None` for a whole table.
    pub key: Option<String>,
    /// Why it doesn't travel.
    pub why: String,
}

impl From<gz_left> for Left {
    fn from(raw: gz_left) -> Left {
        let key = Some(words(raw.key)).filter(|key| !key.is_empty());
        Left { table: words(raw.table), key, why: words(raw.why) }
    }
}

/// What a replica says of itself.
#[derive(Clone, Debug, PartialEq, Eq, Hash)]
pub struct ReplicaStatus {
    /// The broker and the number where the file stands; `None` if it must become a copy.
    pub place: Option<(BrokerName, u64)>,
    /// The last entry of the source's broker, as of its last answer. See `lag` for whether the file has everything.
    pub front: u64,
    /// How many entries the file doesn't have; `None` while that isn't known. It is `Some(0)` only if the last step was
    /// answered, and the file had everything.
    pub lag: Option<u64>,
    /// How many pages of how many are done, while a copy is being made.
    pub copying: Option<(u32, u32)>,
    /// How many copies were begun by this handle.
    pub copies: u64,
    /// Why the last one was; empty before the first.
    pub reason: String,
    /// Why the last step returned [`Step::Lags`](super::Step::Lags); empty if it didn't.
    pub error: String,
    /// Whether it did because others wrote to the source's database.
    pub foreign: bool,
    /// The replica.
    pub id: ReplicaId,
}

impl From<gz_replica_status> for ReplicaStatus {
    fn from(raw: gz_replica_status) -> ReplicaStatus {
        let pages = (raw.pages_done.unsigned_abs(), raw.pages.unsigned_abs());
        ReplicaStatus {
            place: (raw.name != [0; 16]).then_some((BrokerName(raw.name), raw.number)),
            front: raw.front,
            lag: known(raw.lag),
            copying: (raw.copying != 0).then_some(pages),
            copies: raw.copies,
            reason: words(raw.reason),
            error: words(raw.error),
            foreign: raw.foreign != 0,
            id: ReplicaId(raw.id),
        }
    }
}

#[cfg(test)]
mod tests {
    use super::*;

    #[test]
    fn names_in_hexadecimal() {
        let mut bytes = [0; 16];
        (bytes[0], bytes[15]) = (0xab, 1);
        assert_eq!(BrokerName(bytes).to_string(), format!("ab{}01", "0".repeat(28)));
    }

    #[test]
    fn a_lag_that_is_not_known_is_none() {
        let raw = gz_replica_status { lag: u64::MAX, front: 7, number: 7, ..Default::default() };
        let status = ReplicaStatus::from(raw);
        assert!(status.lag.is_none() && status.place.is_none() && status.copying.is_none());
        assert_eq!(Known::from(gz_known { lag: u64::MAX, at: 2, ..Default::default() }).lag, None);
        assert_eq!(Known::from(gz_known { at: 7, ..Default::default() }).place, Place::Unknown);
    }
}
