//! A broker that is shut refuses each call.
use crate::shared::*;
use gubzelk::{DeliveryId, Error, Key};

#[test]
fn each_call_is_refused() {
    let (mut broker, publisher, subscription) = begun(2);
    let one = broker.take(subscription, 0).unwrap().unwrap();
    broker.shut();
    broker.shut();
    let none = DeliveryId(9);
    let mut out = Vec::new();
    let answers = [
        broker.publisher().map(drop),
        broker.feed(publisher, b""),
        broker.reset(publisher),
        broker.end(publisher),
        broker.send(publisher).map(drop),
        broker.withdraw(publisher, 1),
        broker.turn().map(drop),
        broker.place(publisher, b"").map(drop),
        broker.close().map(drop),
        broker.left().map(drop),
        broker.front().map(drop),
        broker.text(1).map(drop),
        broker.text_into(1, &mut out),
        broker.combined(1, 2).map(drop),
        broker.entry(1).map(drop),
        broker.subscribe(0).map(drop),
        broker.subscribe_bare(0).map(drop),
        broker.take(subscription, 0).map(drop),
        broker.take_any(0).map(drop),
        broker.accept(one.number).map(drop),
        broker.crash(one.number, true).map(drop),
        broker.cursor(subscription).map(drop),
        broker.status(subscription).map(drop),
        broker.ack(none).map(drop),
        broker.nack(none),
        broker.nack_opened(none).map(drop),
        broker.expire(0).map(drop),
        broker.reconnect(subscription, 0).map(drop),
        broker.resume(subscription).map(drop),
        broker.unsubscribe(subscription),
        broker.rows(subscription).map(drop),
        broker.row(subscription, 0, &Key::new()).map(drop),
        broker.deliveries(subscription, 0).next().map(drop),
        one.text(&broker).map(drop),
    ];
    for (place, answer) in answers.into_iter().enumerate() {
        assert_eq!(answer, Err(Error::Shut), "answer {place}");
    }
    assert_eq!(broker.name().len(), 32);
}
