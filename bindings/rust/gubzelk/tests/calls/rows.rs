//! The rows of a subscription.
use crate::shared::*;
use gubzelk::{Error, Key, SubscriptionId};

/// A broker with three rows of t and one of u, which a subscription has accepted.
fn with_rows() -> (gubzelk::Broker, SubscriptionId) {
    let (mut broker, publisher, subscription) = begun(2);
    broker.place(publisher, &insert(-1, 0)).unwrap();
    let header = b"T\x03\x02\x01\x00u\x00\x12\x00";
    let fields = b"\x03\x02ab\x01\0\0\0\0\0\0\0\x07\x05";
    broker.place(publisher, &[&header[..], fields].concat()).unwrap();
    let mut deliveries = broker.deliveries(subscription, 0);
    while let Some(mut delivery) = deliveries.next().unwrap() {
        delivery.accept().unwrap();
        delivery.ack().unwrap();
    }
    (broker, subscription)
}

#[test]
fn all_rows() {
    let (broker, subscription) = with_rows();
    let rows = broker.rows(subscription).unwrap();
    let mut wanted = insert(1, 10);
    for key in [2, -1] {
        wanted.extend(&insert(key, 10 * key.max(0))[HEADER.len()..]);
    }
    wanted.extend(b"T\x03\x02\x01\x00u\x00\x12\x00\x03\x02ab\x01\0\0\0\0\0\0\0\x07\x05");
    assert_eq!(rows, wanted);
    let mut out = Vec::with_capacity(1000);
    assert_eq!(broker.rows_into(subscription, &mut out), Ok(()));
    assert_eq!(out, rows);
    assert_eq!(begun(1).0.rows(SubscriptionId(0)), Ok(vec![]));
}

#[test]
fn one_row() {
    let (broker, subscription) = with_rows();
    assert_eq!(broker.row(subscription, 0, &Key::new().integer(2)), Ok(Some(insert(2, 20))));
    assert_eq!(broker.row(subscription, 0, &Key::new().integer(3)), Ok(None));
    assert_eq!(broker.row(subscription, 0, &Key::new()), Ok(None));
    // the values come in the order of the columns, not in that of the primary key
    let key = Key::new().text("ab").integer(7);
    assert!(broker.row(subscription, 1, &key).unwrap().is_some());
    assert_eq!(broker.row(subscription, 1, &Key::new().integer(7).text("ab")), Ok(None));
    assert_eq!(broker.row(subscription, 1, &Key::new().blob(b"ab").integer(7)), Ok(None));
    assert_eq!(broker.row(subscription, 2, &key), Err(Error::NoTable));
    assert_eq!(broker.row(subscription, usize::MAX, &key), Err(Error::NoTable));
    assert_eq!(broker.row(SubscriptionId(1), 0, &key), Err(Error::NoSuch));
}

#[test]
fn one_row_into_a_vector() {
    let (broker, subscription) = with_rows();
    let mut out = vec![9; 3];
    assert_eq!(broker.row_into(subscription, 0, &Key::new().integer(2), &mut out), Ok(true));
    assert_eq!(out, insert(2, 20));
    let bytes = Key::from(b"\x01\0\0\0\0\0\0\0\x03".to_vec());
    assert_eq!(broker.row_into(subscription, 0, &bytes, &mut out), Ok(false));
    assert!(out.is_empty());
}
