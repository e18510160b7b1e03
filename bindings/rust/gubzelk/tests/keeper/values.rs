//! Values of each storage class: in a row, in a transaction, and in a replica.
use crate::shared::*;
use gubzelk::keeper::{Connection, Error, Step, Value};

/// Values that come back as they are.
fn values() -> Vec<Value> {
    let mut values = vec![Value::Null, Value::Integer(0), Value::Text(String::new()), Value::Blob(vec![])];
    values.extend([i64::MIN, -1, 1, i64::MAX].map(Value::Integer));
    let numbers = [0.0, -0.0, 0.5, 1.0, -1e300, 5e-324, f64::MAX, f64::MIN_POSITIVE, f64::INFINITY, f64::NEG_INFINITY];
    values.extend(numbers.map(Value::Real));
    values.extend([0.1, 1.0 / 3.0, 9_007_199_254_740_993.0].map(Value::Real));
    values.extend(["x", "é\u{10ffff}", "a\0b", "\0", "1", "1.0", "\n\"'"].map(Value::from));
    values.push(Value::Blob((0..=255).collect()));
    values.extend([&b"\0"[..], b"text"].map(Value::from));
    values
}

#[test]
fn in_a_row() {
    let connection = Connection::open(":memory:").unwrap();
    for value in values() {
        let rows = connection.query("SELECT ?1, typeof(?1)", std::slice::from_ref(&value)).unwrap();
        assert_eq!(exact(&rows[0][0]), exact(&value));
        let class = match value {
            Value::Null => "null",
            Value::Integer(_) => "integer",
            Value::Real(_) => "real",
            Value::Text(_) => "text",
            Value::Blob(_) => "blob",
        };
        assert_eq!(rows[0][1], class.into());
    }
    // SQLite has no NaN
    assert_eq!(connection.query("SELECT ?", &[f64::NAN.into()]), Ok(vec![vec![Value::Null]]));
}

#[test]
fn of_other_types() {
    assert_eq!(Value::from(7i32), Value::Integer(7));
    assert_eq!(Value::from(u32::MAX), Value::Integer(4_294_967_295));
    assert_eq!(Value::from(true), Value::Integer(1));
    assert_eq!(Value::from(String::from("x")), Value::Text("x".into()));
    assert_eq!(Value::from(vec![7u8]), Value::Blob(vec![7]));
    assert_eq!((Value::from(None::<&str>), Value::from(Some(0.5))), (Value::Null, Value::Real(0.5)));
    assert_eq!(Value::default(), Value::Null);
}

#[test]
fn a_text_that_is_not_utf8() {
    let connection = Connection::open(":memory:").unwrap();
    let sql = "SELECT 1, CAST(x'ff' AS TEXT)";
    assert_eq!(connection.query(sql, &[]), Err(Error::NotUtf8 { column: 1 }));
    assert_eq!(Error::NotUtf8 { column: 1 }.to_string(), "the text in column 1 isn't UTF-8");
    let bytes = connection.query("SELECT CAST(CAST(x'ff' AS TEXT) AS BLOB)", &[]);
    assert_eq!(bytes, Ok(vec![vec![Value::Blob(vec![0xff])]]));
}

/// The rows of a file: the key, and each other column by type and bytes.
fn found(folder: &Folder, name: &str) -> Vec<Vec<String>> {
    let connection = Connection::open_readonly(folder.path(name)).unwrap();
    let rows = connection.query("SELECT a, b, k FROM v ORDER BY id", &[]).unwrap();
    rows.iter().map(|row| row.iter().map(exact).collect()).collect()
}

#[test]
fn in_a_replica() {
    let folder = Folder::new("values");
    let mut source = folder.source();
    commit(&mut source, "CREATE TABLE v (id INTEGER PRIMARY KEY, a, b, k)");
    commit(&mut source, "CREATE TABLE texts (k TEXT, l BLOB, v, PRIMARY KEY (k, l)) WITHOUT ROWID");
    let mut replica = folder.replica("copy.db");
    until(&mut replica, Step::Idle);
    let all = values();
    let mut transaction = source.transaction().unwrap();
    let mut insert = transaction.prepare("INSERT INTO v VALUES (?, ?, ?, ?)").unwrap();
    for (value, id) in all.iter().zip(1i64..) {
        insert.execute(&[id.into(), value.clone(), 1.into(), "k".into()]).unwrap();
    }
    drop(insert);
    transaction.commit().unwrap();
    drop(transaction);
    assert_eq!(until(&mut replica, Step::Idle).copies, 1);
    let rows = found(&folder, "copy.db");
    assert_eq!(rows, found(&folder, "live.db"));
    let wanted: Vec<String> = all.iter().map(exact).collect();
    assert_eq!(rows.iter().map(|row| row[0].clone()).collect::<Vec<_>>(), wanted);
    // each value replaces each class once
    let mut transaction = source.transaction().unwrap();
    for (place, value) in all.iter().rev().enumerate() {
        let values = [value.clone(), all[place].clone(), (place as i64 + 1).into()];
        transaction.execute("UPDATE v SET b = ?, k = ? WHERE id = ?", &values).unwrap();
    }
    let key = ["a\0b".into(), b"\0\xff"[..].into(), (-0.0).into()];
    transaction.execute("INSERT INTO texts VALUES (?, ?, ?)", &key).unwrap();
    transaction.execute("INSERT INTO texts VALUES (CAST(x'ff00' AS TEXT), x'', CAST(x'fe' AS TEXT))", &[]).unwrap();
    transaction.commit().unwrap();
    drop(transaction);
    assert_eq!(until(&mut replica, Step::Idle).copies, 1);
    assert_eq!(found(&folder, "copy.db"), found(&folder, "live.db"));
    folder.equal("copy.db");
    commit(&mut source, "DELETE FROM v WHERE id % 2; DELETE FROM texts");
    assert_eq!(until(&mut replica, Step::Idle).copies, 1);
    folder.equal("copy.db");
}
