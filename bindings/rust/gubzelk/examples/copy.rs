//! Keeps a copy of a table by deliveries, stops between a delivery's accept and the copy, and starts again. Then the
//! copy meets another broker.
//!
//!     GUBZELK_LIB_DIR=PREFIX/lib cargo run --example copy
use gubzelk::{Broker, Limits, PublisherId, Result, SubscriptionId, Table};
use std::collections::BTreeMap;

/// The header of item(id INTEGER PRIMARY KEY, price INTEGER NOT NULL) in a changeset.
const HEADER: &[u8] = b"T\x02\x01\x00item\x00";
const INSERT: u8 = 0x12;
const UPDATE: u8 = 0x17;
const DELETE: u8 = 0x09;

/// A changeset of one change, as SQLite's session extension records it.
fn changeset(operation: u8, fields: &[Option<i64>]) -> Vec<u8> {
    let mut text = [HEADER, &[operation, 0]].concat();
    for field in fields {
        text.push(field.is_some().into());
        text.extend(field.map(i64::to_be_bytes).iter().flatten());
    }
    text
}

/// A copy of the table. Its rows, its cursor and the broker's name change together, as in a transaction.
#[derive(Clone, Default)]
struct Replica {
    broker: String,
    cursor: u64,
    rows: BTreeMap<i64, i64>,
}

impl Replica {
    /// Applies a changeset, which ends at entry `last`.
    fn apply(&mut self, text: &[u8], last: u64) {
        let mut rest = text.get(HEADER.len()..).unwrap_or_default();
        while let [operation, _indirect, fields @ ..] = rest {
            rest = fields;
            let mut field = || {
                let (kind, after) = rest.split_first()?;
                let (value, after) = after.split_at(if *kind == 1 { 8 } else { 0 });
                rest = after;
                Some(i64::from_be_bytes(value.try_into().ok()?))
            };
            match (*operation, field(), field()) {
                (INSERT, Some(id), Some(price)) => drop(self.rows.insert(id, price)),
                (DELETE, Some(id), _) => drop(self.rows.remove(&id)),
                (UPDATE, Some(id), _) => {
                    let (_id, price) = (field(), field());
                    self.rows.extend(price.map(|price| (id, price)));
                }
                other => unreachable!("{other:?}"),
            }
        }
        self.cursor = last;
        println!("the copy at entry {last}: {:?}", self.rows);
    }

    /// Takes what is placed, and accepts, applies and acknowledges it.
    fn follow(&mut self, broker: &mut Broker, subscription: SubscriptionId) -> Result<()> {
        let mut deliveries = broker.deliveries(subscription, 0);
        while let Some(mut delivery) = deliveries.next()? {
            delivery.accept()?;
            self.apply(&delivery.text()?, delivery.last);
            delivery.ack()?;
        }
        Ok(())
    }

    /// Gets what the broker has accepted beyond the copy's cursor; or all rows, if the cursor is of another broker.
    fn start(&mut self, broker: &mut Broker, subscription: SubscriptionId) -> Result<()> {
        let cursor = broker.cursor(subscription)?;
        if self.broker != broker.name() {
            *self = Replica { broker: broker.name().to_string(), ..Replica::default() };
            self.apply(&broker.rows(subscription)?, cursor);
        } else if self.cursor < cursor {
            self.apply(&broker.combined(self.cursor + 1, cursor)?, cursor);
        }
        broker.reconnect(subscription, cursor).map(drop)
    }
}

/// A broker with an entry, its publisher and its subscription.
fn open(price: i64) -> Result<(Broker, PublisherId, SubscriptionId)> {
    let mut broker = Broker::open(&Limits::default(), &[Table::new("item", &[1, 0])])?;
    let (publisher, subscription) = (broker.publisher()?, broker.subscribe(0)?);
    broker.place(publisher, &changeset(INSERT, &[Some(1), Some(price)]))?;
    Ok((broker, publisher, subscription))
}

fn main() -> Result<()> {
    let (mut broker, publisher, subscription) = open(120)?;
    let mut copy = Replica::default();
    copy.start(&mut broker, subscription)?;
    broker.place(publisher, &changeset(INSERT, &[Some(2), Some(80)]))?;
    copy.follow(&mut broker, subscription)?;

    broker.place(publisher, &changeset(UPDATE, &[Some(1), Some(120), None, Some(125)]))?;
    if let Some(delivery) = broker.take(subscription, 0)? {
        broker.accept(delivery.number)?;
    }
    println!("the copy stops before it applies entry 3, and starts again");
    copy.start(&mut broker, subscription)?;
    broker.place(publisher, &changeset(DELETE, &[Some(2), Some(80)]))?;
    copy.follow(&mut broker, subscription)?;

    println!("another broker: its numbers begin again");
    let (mut broker, _, subscription) = open(7)?;
    copy.start(&mut broker, subscription)?;
    copy.follow(&mut broker, subscription)
}
