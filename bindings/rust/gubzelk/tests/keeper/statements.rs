//! Connections, statements, and what they refuse.
use crate::shared::*;
use gubzelk::keeper::{Connection, Error, Value};
use std::time::{Duration, Instant};

fn memory() -> Connection {
    let connection = Connection::open(":memory:").unwrap();
    connection.execute_batch("CREATE TABLE t (id INTEGER PRIMARY KEY, a)").unwrap();
    connection
}

#[test]
fn opened_to_read() {
    let folder = Folder::new("readonly");
    let none = Connection::open_readonly(folder.path("none.db")).unwrap_err();
    assert!(matches!(none, Error::Sqlite { code: 14, .. }) && !folder.path("none.db").exists(), "{none:?}");
    drop(folder.source());
    let connection = Connection::open_readonly(folder.path("live.db")).unwrap();
    let refused = connection.execute("DELETE FROM t", &[]);
    assert!(matches!(refused, Err(Error::Sqlite { code: 8, .. })), "{refused:?}");
    assert_eq!(connection.query("SELECT * FROM t", &[]), Ok(vec![]));
}

#[test]
fn rows_come_one_by_one() {
    let connection = memory();
    let mut insert = connection.prepare("INSERT INTO t VALUES (?, ?)").unwrap();
    for id in 1..=1000 {
        assert_eq!(insert.execute(&[id.into(), "x".into()]), Ok(1));
    }
    let mut select = connection.prepare("SELECT id FROM t WHERE id > ? ORDER BY id").unwrap();
    for from in [0, 990] {
        let values = [Value::Integer(from)];
        let rows = select.query(&values).unwrap();
        let found: Result<Vec<_>, _> = rows.take(3).collect();
        assert_eq!(found.unwrap(), (from + 1..from + 4).map(|id| vec![id.into()]).collect::<Vec<_>>());
    }
    // rows that are left early don't keep the table locked, and after the last row comes none
    assert_eq!(connection.execute("DELETE FROM t WHERE id > ?", &[1.into()]), Ok(999));
    let values = [Value::Integer(0)];
    let mut rows = select.query(&values).unwrap();
    assert_eq!(rows.next(), Some(Ok(vec![1.into()])));
    assert_eq!((rows.next(), rows.next()), (None, None));
}

#[test]
fn an_error_ends_the_rows() {
    let connection = memory();
    let sql = "WITH n (i) AS (VALUES (1), (2), (3)) SELECT CASE i WHEN 2 THEN abs(-9223372036854775807 - 1) ELSE i END
        FROM n";
    let mut statement = connection.prepare(sql).unwrap();
    let found: Vec<_> = statement.query(&[]).unwrap().collect();
    assert_eq!(found.len(), 2);
    assert_eq!(found[0], Ok(vec![1.into()]));
    assert!(matches!(&found[1], Err(Error::Sqlite { message, .. }) if message == "integer overflow"), "{found:?}");
    assert!(connection.query(sql, &[]).is_err() && connection.execute(sql, &[]).is_err());
}

#[test]
fn sql_that_is_refused() {
    let connection = memory();
    let operand = |why| Error::Operand { why };
    let (none, more) = (operand("the SQL has no statement"), operand("the SQL has more than one statement"));
    let zero = operand("the SQL has a zero byte");
    let number = operand("the SQL takes another number of values");
    for (sql, why) in [
        ("", &none),
        (" ; -- a comment\n;", &none),
        ("DELETE FROM t; DELETE FROM t", &more),
        ("DELETE FROM t\0", &zero),
        ("DELETE FROM t WHERE id = ?", &number),
    ] {
        assert_eq!(&connection.execute(sql, &[]).unwrap_err(), why, "{sql:?}");
    }
    assert_eq!(connection.query("SELECT 1", &[1.into()]), Err(number.clone()));
    assert_eq!(connection.execute_batch("DELETE FROM t WHERE id = ?"), Err(number));
    assert_eq!(connection.execute_batch("DELETE FROM t\0"), Err(zero));
    let syntax = connection.execute("SELEC 1", &[]).unwrap_err();
    assert_eq!(syntax.to_string(), "SQLite refuses: near \"SELEC\": syntax error");
    // an error in the second statement is no statement to leave out
    assert!(matches!(connection.execute("DELETE FROM t; SELEC", &[]), Err(Error::Sqlite { .. })));
}

#[test]
fn one_statement_with_comments() {
    let connection = memory();
    for sql in ["DELETE FROM t;", "/* é */ DELETE FROM t; -- é", ";; DELETE FROM t ; ;\n", "-- one\nDELETE FROM t"] {
        assert_eq!(connection.execute(sql, &[]), Ok(0), "{sql:?}");
    }
}

#[test]
fn a_batch() {
    let connection = memory();
    connection.execute_batch("").unwrap();
    connection.execute_batch("INSERT INTO t VALUES (1, 'é;'); -- é\n; SELECT * FROM t; /* é */").unwrap();
    let refused = connection.execute_batch("INSERT INTO t VALUES (2, 0); INSERT INTO none VALUES (1); DELETE FROM t");
    assert!(matches!(refused, Err(Error::Sqlite { .. })));
    assert_eq!(number(&connection, "SELECT count(*) FROM t"), 2);
    connection
        .execute_batch("CREATE TRIGGER x AFTER INSERT ON t BEGIN DELETE FROM t WHERE id = 1; SELECT 1; END")
        .unwrap();
    // what a trigger does isn't counted
    assert_eq!(connection.execute("INSERT INTO t VALUES (3, 0) RETURNING id", &[]), Ok(1));
    assert_eq!(number(&connection, "SELECT sum(id) FROM t"), 5);
}

#[test]
fn locks() {
    let folder = Folder::new("locks");
    drop(folder.source());
    let [one, two] = [(); 2].map(|()| Connection::open(folder.path("live.db")).unwrap());
    one.execute_batch("BEGIN IMMEDIATE").unwrap();
    two.busy_timeout(Duration::from_millis(200)).unwrap();
    let begun = Instant::now();
    let busy = Error::Busy { message: "database is locked".into() };
    assert_eq!(two.execute("INSERT INTO t VALUES (1, 1, 1)", &[]), Err(busy));
    assert!(begun.elapsed() >= Duration::from_millis(150));
}
