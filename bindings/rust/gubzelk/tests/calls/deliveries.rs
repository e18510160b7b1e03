//! Deliveries: how they are settled, given back and opened, and the loop over them.
use crate::shared::*;
use gubzelk::{DeliveryId, Error};

#[test]
fn a_delivery_is_settled() {
    let (mut broker, _, subscription) = begun(2);
    let one = broker.take(subscription, 0).unwrap().unwrap();
    assert_eq!(broker.ack(one.number), Err(Error::NotAccepted { cursor: 0 }));
    broker.accept(one.number).unwrap();
    assert_eq!(broker.ack(one.number), Ok(2));
    assert_eq!(broker.ack(one.number), Err(Error::NotInFlight));
    assert_eq!(broker.nack(one.number), Err(Error::NotInFlight));
    assert_eq!(broker.nack_opened(one.number), Err(Error::NotInFlight));
}

#[test]
fn a_delivery_is_given_back() {
    let (mut broker, _, subscription) = begun(2);
    let one = broker.take(subscription, 0).unwrap().unwrap();
    assert_eq!(broker.nack(one.number), Ok(()));
    let two = broker.take(subscription, 0).unwrap().unwrap();
    assert_eq!((two.first, two.last), (1, 2));
    assert!(two.number > one.number);
    assert_eq!(broker.nack_opened(two.number), Ok(2));
    let three = broker.take(subscription, 0).unwrap().unwrap();
    assert_eq!((three.first, three.last), (1, 1));
}

#[test]
fn a_delivery_expires() {
    let (mut broker, _, subscription) = begun(3);
    let one = broker.take(subscription, 5).unwrap().unwrap();
    broker.take(subscription, 6).unwrap().unwrap();
    assert_eq!(broker.expire(14), Ok(0));
    assert_eq!(broker.expire(15), Ok(1));
    assert_eq!(broker.nack(one.number), Err(Error::NotInFlight));
    assert_eq!(broker.expire(u64::MAX), Ok(1));
}

#[test]
fn no_such_delivery() {
    let (mut broker, _, _) = begun(1);
    for none in [DeliveryId(0), DeliveryId(1), DeliveryId(u64::MAX)] {
        assert_eq!(broker.accept(none), Err(Error::NoDelivery));
        assert_eq!(broker.crash(none, true), Err(Error::NoDelivery));
        assert_eq!(broker.ack(none), Err(Error::NoDelivery));
        assert_eq!(broker.nack(none), Err(Error::NoDelivery));
        assert_eq!(broker.nack_opened(none), Err(Error::NoDelivery));
    }
}

#[test]
fn the_loop_settles_all() {
    let (mut broker, _, subscription) = begun(5);
    let mut numbers = Vec::new();
    let mut deliveries = broker.deliveries(subscription, 0);
    while let Some(mut delivery) = deliveries.next().unwrap() {
        numbers.push((delivery.first, delivery.last));
        let mut text = Vec::new();
        delivery.text_into(&mut text).unwrap();
        assert_eq!(delivery.text(), Ok(text));
        let last = delivery.last;
        assert_eq!(delivery.accept(), Ok(last));
        assert_eq!(delivery.ack(), Ok(last));
    }
    assert_eq!(numbers, [(1, 2), (3, 4), (5, 5)]);
    assert_eq!(broker.status(subscription).unwrap().lag(), 0);
}

#[test]
fn the_loop_gives_back() {
    let (mut broker, _, subscription) = begun(2);
    let mut deliveries = broker.deliveries(subscription, 0);
    deliveries.next().unwrap().unwrap().nack().unwrap();
    assert_eq!(deliveries.next().unwrap().unwrap().nack_opened(), Ok(2));
    let mut one = deliveries.next().unwrap().unwrap();
    assert_eq!(one.broker().front(), Ok(2));
    assert_eq!((one.first, one.last), (1, 1));
    // dropped, it stays in flight, and the next one is handed out
    let one = one.release();
    let two = deliveries.next().unwrap().unwrap().release();
    assert_eq!((two.first, two.last), (2, 2));
    assert!(matches!(deliveries.next(), Err(Error::WindowFull)));
    assert_eq!(broker.nack(one.number), Ok(()));
    assert_eq!(broker.status(subscription).unwrap().in_flight, 1);
}
