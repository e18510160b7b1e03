//! A writing process and the processes of replicas are killed (SIGKILL) again and again. In the end all files are equal.
use crate::shared::*;
use gubzelk::keeper::{Connection, Error, Options, Source, Step};
use std::path::{Path, PathBuf};
use std::process::{Child, Command, Stdio};
use std::time::Duration;
use std::{env, fs};

/// What the variable says that this process does: `write` or `keep NAME`, and the folder.
const WORK: &str = "GUBZELK_TEST_WORK";
const FOLDER: &str = "GUBZELK_TEST_FOLDER";

/// A process, which is killed when it is dropped.
struct Process(Child);

impl Process {
    fn new(folder: &Folder, work: &str) -> Process {
        let mut command = Command::new(env::current_exe().unwrap());
        command.args(["--ignored", "--exact", "killed::process", "--nocapture"]).stdout(Stdio::null());
        Process(command.env(WORK, work).env(FOLDER, folder.path("")).spawn().unwrap())
    }
}

impl Drop for Process {
    fn drop(&mut self) {
        self.0.kill().unwrap();
        let _ = self.0.wait();
    }
}

#[test]
#[ignore = "the other test runs it"]
fn process() {
    let Some(folder) = env::var_os(FOLDER).map(PathBuf::from) else { return };
    match env::var(WORK).unwrap().split_once(' ') {
        None => write(&folder),
        Some((_, name)) => keep(&folder, name),
    }
}

/// Writes without an end: in each transaction, two rows whose sum is 0, and one that counts them.
fn write(folder: &Path) {
    let mut source = loop {
        match Source::open(folder.join("live.db"), &wal()) {
            Ok(source) => break source,
            // what was killed is just ending
            Err(Error::Taken | Error::Busy { .. }) => {}
            Err(why) => panic!("{why}"),
        }
    };
    for round in 0i64.. {
        let mut transaction = source.transaction().unwrap();
        let values = [(round % 997).into(), (round as f64 / 7.0).into(), vec![round as u8; 300].into()];
        transaction.execute("INSERT OR REPLACE INTO pair VALUES (?1, 0, ?2, ?3)", &values).unwrap();
        transaction.execute("INSERT OR REPLACE INTO pair VALUES (?1, 1, -?2, ?3)", &values).unwrap();
        transaction.execute("UPDATE total SET rounds = rounds + 1", &[]).unwrap();
        transaction.commit().unwrap();
    }
}

/// Keeps a replica without an end. Whenever it says that it has everything, the file must be of one state.
fn keep(folder: &Path, name: &str) {
    let open = || gubzelk::keeper::Replica::open(folder.join(name), folder.join("live.db"), &Options::default());
    let mut replica = loop {
        match open() {
            Ok(replica) => break replica,
            Err(Error::Taken) => {}
            Err(why) => panic!("{why}"),
        }
    };
    loop {
        let _ = replica.step(Duration::from_millis(100)).unwrap();
    }
}

/// How many transactions a file has, and whether it has some in part.
fn state(path: &Path) -> (i64, i64) {
    let file = Connection::open_readonly(path).unwrap();
    file.execute_batch("BEGIN").unwrap();
    let halves = "SELECT count(*) FROM (SELECT id FROM pair GROUP BY id HAVING sum(x) <> 0 OR count(*) <> 2)";
    (number(&file, "SELECT rounds FROM total"), number(&file, halves))
}

#[test]
fn writers_and_replicas() {
    let folder = Folder::new("killed");
    let names = ["one.db", "two.db"];
    let live = folder.path("live.db");
    let tables =
        "CREATE TABLE pair (id, half, x REAL, y, PRIMARY KEY (id, half)); CREATE TABLE total (id INTEGER PRIMARY
        KEY, rounds); INSERT INTO total VALUES (1, 0)";
    Connection::open(&live).unwrap().execute_batch(tables).unwrap();
    let mut kept = names.map(|name| Process::new(&folder, &format!("keep {name}")));
    let mut writer = Process::new(&folder, "write");
    for round in 0..12 {
        let before = state(&live).0;
        wait(|| state(&live).0 > before + 20 + 7 * round);
        if round % 3 < 2 {
            let at = (round % 2) as usize;
            let name = names[at];
            // in most rounds it has something to be killed in
            if round > 3 {
                wait(|| fs::metadata(folder.path(name)).is_ok_and(|file| file.len() > 0));
            }
            kept[at].0.kill().unwrap();
            kept[at].0.wait().unwrap();
            kept[at] = Process::new(&folder, &format!("keep {name}"));
        } else {
            writer.0.kill().unwrap();
            writer.0.wait().unwrap();
            assert_eq!(state(&live).1, 0);
            writer = Process::new(&folder, "write");
        }
    }
    // all end. A source that goes on has what was committed, and the replicas get it.
    drop((writer, kept));
    let source = Source::open(&live, &Options::default()).unwrap();
    for name in names {
        let status = until(&mut folder.replica(name), Step::Idle);
        assert_eq!(status.place, Some((source.status().name, 0)));
        assert_eq!(state(&folder.path(name)), (state(&live).0, 0));
        folder.equal(name);
    }
}

#[test]
fn a_replica_without_a_copy() {
    let folder = Folder::new("killed-replica");
    let mut source = folder.source();
    let mut process = Process::new(&folder, "keep copy.db");
    wait(|| source.replicas().first().is_some_and(|known| known.lag == Some(0)));
    for id in 0..40 {
        for half in 0..20 {
            commit(&mut source, &format!("INSERT INTO t VALUES ({id} * 20 + {half}, randomblob(300), {half} / 7.0)"));
        }
        drop(process);
        process = Process::new(&folder, "keep copy.db");
    }
    drop(process);
    // each batch was there as a whole or not at all, so nothing was copied again
    let mut replica = folder.replica("copy.db");
    let status = until(&mut replica, Step::Idle);
    assert_eq!((status.copies, status.front), (0, 800), "{status:?}");
    folder.equal("copy.db");
}
