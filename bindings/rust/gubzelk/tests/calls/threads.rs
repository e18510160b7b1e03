//! Brokers in threads.
use crate::shared::*;
use gubzelk::{Broker, Error, Limits, SubscriptionId};
use std::sync::{mpsc, Mutex};
use std::thread;

/// Places entries and follows them, some at a time. Returns the rows at the end.
fn run(entries: i64, offset: i64) -> Vec<u8> {
    let mut broker = Broker::open(&Limits::default(), &TABLES).unwrap();
    let (publisher, subscription) = (broker.publisher().unwrap(), broker.subscribe(0).unwrap());
    for key in 1..=entries {
        broker.place(publisher, &insert(key, key + offset)).unwrap();
        if key % 7 == 0 || key == entries {
            follow(&mut broker, subscription).unwrap();
        }
    }
    broker.rows(subscription).unwrap()
}

fn follow(broker: &mut Broker, subscription: SubscriptionId) -> Result<u64, Error> {
    let mut deliveries = broker.deliveries(subscription, 0);
    while let Some(mut delivery) = deliveries.next()? {
        delivery.accept()?;
        delivery.ack()?;
    }
    broker.cursor(subscription)
}

#[test]
fn two_brokers_in_two_threads() {
    let threads = [3, 5].map(|offset| thread::spawn(move || run(2000, offset)));
    let [one, two] = threads.map(|thread| thread.join().unwrap());
    assert_eq!(one, run(2000, 3));
    assert_eq!(two, run(2000, 5));
}

#[test]
fn a_broker_goes_from_thread_to_thread() {
    let (broker, publisher, subscription) = begun(0);
    let (send, receive) = mpsc::channel::<Broker>();
    let placing = thread::spawn(move || {
        let mut broker = broker;
        for key in 1..=16 {
            broker.place(publisher, &insert(key, key)).unwrap();
        }
        send.send(broker).unwrap();
    });
    let following = thread::spawn(move || follow(&mut receive.recv().unwrap(), subscription));
    placing.join().unwrap();
    assert_eq!(following.join().unwrap(), Ok(16));
}

#[test]
fn a_broker_under_a_mutex() {
    let broker = Mutex::new(Broker::open(&Limits::default(), &TABLES).unwrap());
    let subscription = broker.lock().unwrap().subscribe(0).unwrap();
    thread::scope(|scope| {
        for part in 0..4 {
            let broker = &broker;
            scope.spawn(move || {
                let publisher = broker.lock().unwrap().publisher().unwrap();
                for key in 0..250 {
                    broker.lock().unwrap().place(publisher, &insert(1000 * part + key, 0)).unwrap();
                    follow(&mut broker.lock().unwrap(), subscription).unwrap();
                }
            });
        }
    });
    assert_eq!(follow(&mut broker.lock().unwrap(), subscription), Ok(1000));
}
