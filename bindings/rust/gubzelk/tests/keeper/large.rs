//! Transactions of many bytes.
use crate::shared::*;
use gubzelk::keeper::{Step, Value};

/// Bytes that differ from each other.
fn bytes(len: usize, seed: u64) -> Value {
    let mut state = seed;
    let mut next = || {
        state = state.wrapping_mul(6_364_136_223_846_793_005).wrapping_add(1_442_695_040_888_963_407);
        (state >> 56) as u8
    };
    Value::Blob((0..len).map(|_| next()).collect())
}

#[test]
fn more_than_an_entry_holds() {
    let folder = Folder::new("large");
    let mut source = folder.source();
    let mut replica = folder.replica("copy.db");
    until(&mut replica, Step::Idle);
    // almost 16 MiB is an entry
    let mut transaction = source.transaction().unwrap();
    transaction.execute("INSERT INTO t VALUES (1, ?, 0.1)", &[bytes(16_000_000, 1)]).unwrap();
    transaction.commit().unwrap();
    drop(transaction);
    assert_eq!(until(&mut replica, Step::Idle).copies, 1);
    folder.equal("copy.db");
    // one value of more
    let mut transaction = source.transaction().unwrap();
    transaction.execute("INSERT INTO t VALUES (2, ?, 0.1)", &[bytes(17_000_000, 2)]).unwrap();
    transaction.commit().unwrap();
    drop(transaction);
    assert!(source.status().reason.contains("16,777,216"), "{:?}", source.status());
    assert_eq!(until(&mut replica, Step::Idle).copies, 2);
    // many rows
    let mut transaction = source.transaction().unwrap();
    let mut insert = transaction.prepare("INSERT INTO t VALUES (?, ?, ?)").unwrap();
    for id in 100..40_100i64 {
        let text = format!("row {id} {}", "x".repeat(500));
        insert.execute(&[id.into(), text.into(), (id as f64 / 7.0).into()]).unwrap();
    }
    drop(insert);
    transaction.commit().unwrap();
    drop(transaction);
    assert_eq!(until(&mut replica, Step::Idle).copies, 3);
    // a deleted row's old values are of the changes too
    commit(&mut source, "DELETE FROM t WHERE id = 2");
    assert_eq!(until(&mut replica, Step::Idle).copies, 4);
    commit(&mut source, "UPDATE t SET b = b + 1 WHERE id > 40000; DELETE FROM t WHERE id = 100");
    assert_eq!(until(&mut replica, Step::Idle).copies, 4);
    folder.equal("copy.db");
}
