//! Folders, sources and replicas for the tests, and files that are compared by type and bytes.
use gubzelk::keeper::{Connection, Options, Replica, ReplicaStatus, Source, Step, Value};
use std::collections::BTreeMap;
use std::path::{Path, PathBuf};
use std::time::{Duration, Instant};
use std::{env, fs, process, thread};

/// A folder that is removed when it is dropped.
pub struct Folder(PathBuf);

impl Folder {
    pub fn new(name: &str) -> Folder {
        let folder = env::temp_dir().join(format!("gubzelk-{name}-{}", process::id()));
        fs::create_dir(&folder).unwrap();
        Folder(folder)
    }

    pub fn path(&self, name: &str) -> PathBuf {
        self.0.join(name)
    }

    /// A source over live.db, which has a table.
    pub fn source(&self) -> Source {
        let mut source = Source::open(self.path("live.db"), &wal()).unwrap();
        commit(&mut source, "CREATE TABLE IF NOT EXISTS t (id INTEGER PRIMARY KEY, a, b REAL)");
        source
    }

    /// A replica of live.db.
    pub fn replica(&self, name: &str) -> Replica {
        Replica::open(self.path(name), self.path("live.db"), &Options::default()).unwrap()
    }

    /// The files are equal.
    pub fn equal(&self, name: &str) {
        let (live, copy) = (rows(&self.path("live.db")), rows(&self.path(name)));
        assert!(live.len() > 1 && live == copy, "{live:?}\n{copy:?}");
    }
}

impl Drop for Folder {
    fn drop(&mut self) {
        let _ = fs::remove_dir_all(&self.0);
    }
}

/// Options of a source whose file has no journal mode yet.
pub fn wal() -> Options {
    Options { set_wal: true, ..Options::default() }
}

/// A transaction of SQL.
pub fn commit(source: &mut Source, sql: &str) {
    let mut transaction = source.transaction().unwrap();
    transaction.execute_batch(sql).unwrap();
    transaction.commit().unwrap();
}

/// Makes steps until one is as wanted, for a minute at most. None of those before may be an error.
pub fn until(replica: &mut Replica, wanted: Step) -> ReplicaStatus {
    let begun = Instant::now();
    loop {
        let step = replica.step(Duration::from_millis(50)).unwrap();
        let status = replica.status();
        // a file that may not have everything never looks as if it had
        match step {
            Step::Idle => assert_eq!((status.lag, status.place.unwrap().1), (Some(0), status.front), "{status:?}"),
            Step::Away => assert_eq!(status.lag, None, "{status:?}"),
            Step::Lags => assert!(status.lag != Some(0) && !status.error.is_empty(), "{status:?}"),
            Step::Applied => {}
        }
        if step == wanted {
            return status;
        }
        assert!(begun.elapsed() < Duration::from_secs(60), "{step:?}: {status:?}");
    }
}

/// Waits until something is so, for a minute at most.
pub fn wait(mut is: impl FnMut() -> bool) {
    let begun = Instant::now();
    while !is() {
        assert!(begun.elapsed() < Duration::from_secs(60));
        thread::sleep(Duration::from_millis(10));
    }
}

/// A value by its type and its bytes.
pub fn exact(value: &Value) -> String {
    match value {
        Value::Null => "null".into(),
        Value::Integer(value) => format!("integer {value}"),
        Value::Real(value) => format!("real {:016x}", value.to_bits()),
        Value::Text(text) => format!("text {:?}", text.as_bytes()),
        Value::Blob(bytes) => format!("blob {bytes:?}"),
    }
}

/// What one query returns, as its only number.
pub fn number(connection: &Connection, sql: &str) -> i64 {
    match connection.query(sql, &[]).unwrap()[..] {
        [ref row] => match row[..] {
            [Value::Integer(number)] => number,
            _ => panic!("{row:?}"),
        },
        ref rows => panic!("{rows:?}"),
    }
}

/// All rows of all tables, and where the mark says that the file stands.
pub fn rows(path: &Path) -> BTreeMap<String, Vec<Vec<String>>> {
    let file = Connection::open_readonly(path).unwrap();
    file.execute_batch("BEGIN").unwrap();
    let mut found = BTreeMap::new();
    let tables = "SELECT name FROM sqlite_schema WHERE type = 'table' AND name NOT LIKE 'sqlite_%'";
    for table in file.query(tables, &[]).unwrap() {
        let Value::Text(table) = &table[0] else { panic!("{table:?}") };
        let columns = file.query("SELECT name FROM pragma_table_info(?)", &[table.as_str().into()]).unwrap();
        let columns: Vec<String> = match table == "gz_mark" {
            true => vec!["name".into(), "front".into()],
            false => columns
                .iter()
                .flatten()
                .map(|it| match it {
                    // a text may have any bytes
                    Value::Text(name) => format!(
                        "typeof(\"{name}\"), CASE typeof(\"{name}\") WHEN 'text' THEN CAST(\"{name}\" AS BLOB) \
                         ELSE \"{name}\" END"
                    ),
                    _ => panic!("{it:?}"),
                })
                .collect(),
        };
        let all = file.query(&format!("SELECT {} FROM \"{table}\"", columns.join(", ")), &[]).unwrap();
        let mut all: Vec<Vec<String>> = all.iter().map(|row| row.iter().map(exact).collect()).collect();
        all.sort();
        found.insert(table.clone(), all);
    }
    found
}
