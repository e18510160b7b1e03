//! Places changesets in a broker, lets another thread take, accept and acknowledge them, and meets a refusal. Then a new
//! broker meets a file of the first one. With the libraries installed under PREFIX (docs/C.md):
//!
//!     rustc --edition 2021 -O run.rs -L native=PREFIX/lib -l static=broker_c -l static=gubzelk_heap
mod broker;
mod calls;
use broker::{Broker, Error, Place};
use std::thread;

/// An INSERT of (key, value) into t(a INTEGER PRIMARY KEY, b INTEGER), as SQLite's session extension records it.
fn insert(key: i64, value: i64) -> Vec<u8> {
    let mut text = b"T\x02\x01\x00t\x00\x12\x00".to_vec();
    for number in [key, value] {
        text.push(1);
        text.extend(number.to_be_bytes());
    }
    text
}

/// Takes, accepts and acknowledges all that is placed.
fn follow(broker: &mut Broker, subscription: u64) -> Result<(), Error> {
    while let Some(delivery) = broker.take(subscription, 0)? {
        broker.accept(delivery.number)?;
        broker.ack(delivery.number)?;
        println!("followed entries {} to {}", delivery.first, delivery.last);
    }
    Ok(())
}

/// A broker with some entries, its publisher and its subscription.
fn begin(entries: i64) -> Result<(Broker, u64, u64), Error> {
    let mut broker = Broker::open(&calls::LIMITS, &[("t", &[1, 0])])?;
    let publisher = broker.publisher()?;
    let (subscription, _link) = broker.subscribe(0)?;
    for key in 1..=entries {
        broker.place(publisher, &insert(key, 10 * key))?;
    }
    Ok((broker, publisher, subscription))
}

/// Says what a file that stands at this place must get.
fn meet(broker: &mut Broker, subscription: u64, file: &Place) -> Result<(), Error> {
    match broker.lacking(file, subscription)? {
        Some(text) => println!("a file at entry {} gets {} bytes", file.number, text.len()),
        None => println!("a file of another broker becomes a copy, whatever its number is"),
    }
    Ok(())
}

fn main() -> Result<(), Error> {
    let (mut broker, publisher, subscription) = begin(40)?;
    thread::scope(|scope| scope.spawn(|| follow(&mut broker, subscription)).join().unwrap())?;
    println!("entries 1 and 2 as one changeset: {} bytes", broker.combined(1, 2)?.len());

    broker.place(publisher, &insert(7, 0))?;
    let refused = follow(&mut broker, subscription).unwrap_err();
    println!("{:?} of change {}: {refused}", refused.code, refused.why[0]);
    let cursor = broker.cursor(subscription)?;
    println!("link {} begins after entry {cursor}", broker.reconnect(subscription, cursor)?);

    let file = broker.at(38);
    meet(&mut broker, subscription, &file)?;
    let (mut broker, _publisher, subscription) = begin(2)?;
    follow(&mut broker, subscription)?;
    meet(&mut broker, subscription, &file)
}
