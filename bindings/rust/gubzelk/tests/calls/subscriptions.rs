//! Subscriptions: what they take and accept, and how far they have come.
use crate::shared::*;
use gubzelk::{ConflictKind, Delivery, DeliveryId, Error, Status, SubscriptionId};

#[test]
fn deliveries_in_order() {
    let (mut broker, _, subscription) = begun(3);
    let one = Delivery { number: DeliveryId(1), subscription, first: 1, last: 2 };
    let two = Delivery { number: DeliveryId(2), subscription, first: 3, last: 3 };
    assert_eq!(broker.take(subscription, 5), Ok(Some(one)));
    assert_eq!(broker.take(subscription, 5), Ok(Some(two)));
    assert_eq!(broker.accept(two.number), Err(Error::Gap { expected: 1 }));
    assert_eq!(broker.accept(one.number), Ok(2));
    assert_eq!(broker.accept(one.number), Err(Error::Seen));
    assert_eq!(broker.accept(two.number), Ok(3));
    assert_eq!(broker.cursor(subscription), Ok(3));
    assert_eq!(one.text(&broker), broker.combined(1, 2));
    assert_eq!(two.text(&broker), Ok(insert(3, 30)));
}

#[test]
fn nothing_is_ready() {
    let (mut broker, publisher, subscription) = begun(0);
    assert_eq!(broker.take(subscription, 0), Ok(None));
    assert_eq!(broker.take_any(0), Ok(None));
    for key in 1..=6 {
        broker.place(publisher, &insert(key, key)).unwrap();
    }
    assert!(broker.take(subscription, 0).unwrap().is_some());
    assert!(broker.take_any(0).unwrap().is_some());
    assert_eq!(broker.take(subscription, 0), Err(Error::WindowFull));
    assert_eq!(broker.take_any(0), Ok(None));
}

#[test]
fn conflicts() {
    for (text, kind) in [
        (insert(1, 11), ConflictKind::Conflict),
        (update(1, 9, 11), ConflictKind::Data),
        (delete(7, 70), ConflictKind::NotFound),
    ] {
        let (mut broker, publisher, subscription) = begun(2);
        let one = broker.take(subscription, 0).unwrap().unwrap();
        broker.accept(one.number).unwrap();
        broker.place(publisher, &insert(3, 30)).unwrap();
        broker.place(publisher, &text).unwrap();
        let two = broker.take(subscription, 0).unwrap().unwrap();
        assert_eq!(broker.accept(two.number), Err(Error::Conflict { position: 1, kind }));
        // none of the delivery is applied
        assert_eq!(broker.cursor(subscription), Ok(2));
        assert_eq!(broker.rows(subscription), broker.combined(1, 2));
        // its first entry alone doesn't conflict
        assert_eq!(broker.nack_opened(two.number), Ok(2));
        let three = broker.take(subscription, 0).unwrap().unwrap();
        assert_eq!((three.first, three.last), (3, 3));
        assert_eq!(broker.accept(three.number), Ok(3));
    }
}

#[test]
fn a_bare_subscription_meets_no_conflict() {
    let (mut broker, publisher, _) = begun(1);
    let bare = broker.subscribe_bare(1).unwrap();
    broker.place(publisher, &insert(1, 11)).unwrap();
    let one = broker.take(bare, 0).unwrap().unwrap();
    assert_eq!(broker.accept(one.number), Ok(2));
    assert_eq!(broker.rows(bare), Ok(vec![]));
}

#[test]
fn status_of_a_subscription() {
    let (mut broker, _, subscription) = begun(5);
    let status = Status {
        start: 0,
        floor: 0,
        cursor: 0,
        offered: 0,
        link: 1,
        ready: 3,
        in_flight: 0,
        front: 5,
        closed: false,
        fallen: false,
    };
    assert_eq!(broker.status(subscription), Ok(status));
    let delivery = broker.take(subscription, 0).unwrap().unwrap();
    broker.accept(delivery.number).unwrap();
    let status = Status { cursor: 2, offered: 2, ready: 2, in_flight: 1, ..status };
    assert_eq!(broker.status(subscription), Ok(status));
    assert_eq!(status.lag(), 5);
    assert_eq!(broker.ack(delivery.number), Ok(2));
    let status = Status { floor: 2, in_flight: 0, ..status };
    assert_eq!(broker.status(subscription), Ok(status));
    assert_eq!(status.lag(), 3);
    broker.unsubscribe(subscription).unwrap();
    assert_eq!(broker.status(subscription), Ok(Status { ready: 0, closed: true, ..status }));
}

#[test]
fn a_fall_and_a_resume() {
    let (mut broker, _, subscription) = begun(4);
    assert_eq!(broker.resume(subscription), Err(Error::NotFallen));
    let one = broker.take(subscription, 0).unwrap().unwrap();
    assert_eq!(broker.crash(one.number, false), Ok(0));
    assert!(broker.status(subscription).unwrap().fallen);
    assert_eq!(broker.accept(one.number), Err(Error::Store));
    assert_eq!(broker.crash(one.number, true), Err(Error::Store));
    let link = broker.resume(subscription).unwrap();
    assert_eq!(broker.status(subscription).unwrap().link, link);
    assert_eq!(broker.accept(one.number), Err(Error::StaleLink));
    let one = broker.take(subscription, 0).unwrap().unwrap();
    assert_eq!(broker.crash(one.number, true), Ok(2));
    assert!(broker.resume(subscription).unwrap() > link);
    assert_eq!(broker.take(subscription, 0).unwrap().map(|next| next.first), Some(3));
}

#[test]
fn reconnects() {
    let (mut broker, _, subscription) = begun(4);
    let one = broker.take(subscription, 0).unwrap().unwrap();
    broker.accept(one.number).unwrap();
    assert_eq!(broker.reconnect(subscription, 3), Err(Error::BadCursor { floor: 0, offered: 2 }));
    broker.reconnect(subscription, 2).unwrap();
    for answer in [broker.accept(one.number), broker.ack(one.number), broker.nack_opened(one.number)] {
        assert_eq!(answer, Err(Error::StaleLink));
    }
    assert_eq!(broker.nack(one.number), Err(Error::StaleLink));
    assert_eq!(broker.reconnect(subscription, 1), Err(Error::BadCursor { floor: 2, offered: 2 }));
    let two = broker.take(subscription, 0).unwrap().unwrap();
    assert_eq!((two.first, two.last), (3, 4));
    // after a cursor above its own, the entries between never come
    broker.reconnect(subscription, 3).unwrap();
    let three = broker.take(subscription, 0).unwrap().unwrap();
    assert_eq!((three.first, three.last), (4, 4));
    assert_eq!(broker.accept(three.number), Err(Error::Gap { expected: 3 }));
}

#[test]
fn a_closed_subscription() {
    let (mut broker, _, subscription) = begun(2);
    let one = broker.take(subscription, 0).unwrap().unwrap();
    assert_eq!(broker.unsubscribe(subscription), Ok(()));
    assert_eq!(broker.unsubscribe(subscription), Err(Error::Closed));
    assert_eq!(broker.take(subscription, 0), Err(Error::Closed));
    assert_eq!(broker.accept(one.number), Err(Error::Closed));
    assert_eq!(broker.reconnect(subscription, 0), Err(Error::Closed));
    assert_eq!(broker.take_any(0), Ok(None));
}

#[test]
fn a_sequence_that_is_drained() {
    let (mut broker, _, subscription) = begun(1);
    broker.close().unwrap();
    let one = broker.take(subscription, 0).unwrap().unwrap();
    assert_eq!(broker.take(subscription, 0), Ok(None));
    broker.accept(one.number).unwrap();
    broker.ack(one.number).unwrap();
    assert_eq!(broker.take(subscription, 0), Err(Error::Drained { last: 1 }));
    assert!(broker.deliveries(subscription, 0).next().unwrap().is_none());
}

#[test]
fn starts() {
    let (mut broker, _, _) = begun(2);
    assert_eq!(broker.subscribe(3), Err(Error::StartAhead { front: 2 }));
    assert_eq!(broker.subscribe_bare(3), Err(Error::StartAhead { front: 2 }));
    let late = broker.subscribe_bare(1).unwrap();
    assert_eq!(broker.take(late, 0).unwrap().map(|it| (it.first, it.last)), Some((2, 2)));
    assert_eq!(broker.status(late).unwrap().start, 1);
}

#[test]
fn at_most_1024_subscriptions() {
    let mut broker = opened();
    for number in 0..1024 {
        let found = if number % 2 == 0 { broker.subscribe(0) } else { broker.subscribe_bare(0) };
        assert_eq!(found, Ok(SubscriptionId(number)));
    }
    assert_eq!(broker.subscribe(0), Err(Error::TooMany));
    assert_eq!(broker.subscribe_bare(0), Err(Error::TooMany));
}

#[test]
fn no_such_subscription() {
    let (mut broker, _, _) = begun(1);
    for none in [SubscriptionId(1), SubscriptionId(u64::MAX)] {
        assert_eq!(broker.take(none, 0), Err(Error::NoSuch));
        assert_eq!(broker.cursor(none), Err(Error::NoSuch));
        assert_eq!(broker.status(none), Err(Error::NoSuch));
        assert_eq!(broker.reconnect(none, 0), Err(Error::NoSuch));
        assert_eq!(broker.resume(none), Err(Error::NoSuch));
        assert_eq!(broker.unsubscribe(none), Err(Error::NoSuch));
        assert_eq!(broker.rows(none), Err(Error::NoSuch));
    }
}
