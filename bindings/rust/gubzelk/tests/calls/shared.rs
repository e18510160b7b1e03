//! Brokers, and changesets of their tables.
use gubzelk::{Broker, Limits, PublisherId, SubscriptionId, Table};

/// The tables t(a INTEGER PRIMARY KEY, b INTEGER) and u(a TEXT, b INTEGER, c INTEGER, PRIMARY KEY (b, a)).
pub const TABLES: [Table; 2] = [Table { name: b"t", key: &[1, 0] }, Table { name: b"u", key: &[2, 1, 0] }];

pub const HEADER: &[u8] = b"T\x02\x01\x00t\x00";

/// A changeset of t with one change of these fields. A field without a value is undefined.
pub fn change(operation: u8, fields: &[Option<i64>]) -> Vec<u8> {
    let mut text = [HEADER, &[operation, 0]].concat();
    for field in fields {
        text.push(field.is_some().into());
        text.extend(field.map(i64::to_be_bytes).iter().flatten());
    }
    text
}

pub fn insert(key: i64, value: i64) -> Vec<u8> {
    change(0x12, &[Some(key), Some(value)])
}

pub fn delete(key: i64, value: i64) -> Vec<u8> {
    change(0x09, &[Some(key), Some(value)])
}

pub fn update(key: i64, old: i64, new: i64) -> Vec<u8> {
    change(0x17, &[Some(key), Some(old), None, Some(new)])
}

/// A broker with small limits: two entries in a delivery, and two deliveries in flight.
pub fn opened() -> Broker {
    let limits = Limits { batch: 2, window: 2, capacity: 16, intake: 2, ..Limits::default() };
    Broker::open(&limits, &TABLES).unwrap()
}

/// A broker with this number of entries, its publisher, and a subscription to all of them.
pub fn begun(entries: i64) -> (Broker, PublisherId, SubscriptionId) {
    let mut broker = opened();
    let (publisher, subscription) = (broker.publisher().unwrap(), broker.subscribe(0).unwrap());
    for key in 1..=entries {
        broker.place(publisher, &insert(key, 10 * key)).unwrap();
    }
    (broker, publisher, subscription)
}
