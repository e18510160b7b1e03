//! Sources and replicas in threads.
use crate::shared::*;
use gubzelk::keeper::{Step, Value};
use std::sync::atomic::{AtomicBool, Ordering};
use std::sync::{mpsc, Mutex};
use std::thread;
use std::time::Duration;

#[test]
fn a_writer_and_three_replicas() {
    let folder = Folder::new("threads");
    let mut source = folder.source();
    let done = AtomicBool::new(false);
    thread::scope(|scope| {
        let (folder, done) = (&folder, &done);
        let names = ["one.db", "two.db", "three.db"];
        let replicas = names.map(|name| {
            scope.spawn(move || {
                let mut replica = folder.replica(name);
                while !done.load(Ordering::SeqCst) {
                    let _ = replica.step(Duration::from_millis(20)).unwrap();
                }
                // what was committed before this call is in the file when it says so
                until(&mut replica, Step::Idle).place
            })
        });
        for id in 0..300i64 {
            let mut transaction = source.transaction().unwrap();
            let values = [id.into(), Value::Text(format!("row {id}")), (id as f64 / 7.0).into()];
            transaction.execute("INSERT INTO t VALUES (?, ?, ?)", &values).unwrap();
            if id % 10 > 0 {
                transaction.execute("UPDATE t SET b = b + 0.5 WHERE id = ? - 1", &[id.into()]).unwrap();
            }
            transaction.commit().unwrap();
        }
        done.store(true, Ordering::SeqCst);
        for replica in replicas {
            assert_eq!(replica.join().unwrap(), Some((source.status().name, 300)));
        }
    });
    ["one.db", "two.db", "three.db"].iter().for_each(|name| folder.equal(name));
}

#[test]
fn a_source_goes_from_thread_to_thread() {
    let folder = Folder::new("moved");
    let source = folder.source();
    let (send, receive) = mpsc::channel();
    let writing = thread::spawn(move || {
        let mut source = source;
        commit(&mut source, "INSERT INTO t VALUES (1, 1, 1)");
        send.send(source).unwrap();
    });
    writing.join().unwrap();
    let mut source = receive.recv().unwrap();
    commit(&mut source, "INSERT INTO t VALUES (2, 2, 2)");
    let mut replica = folder.replica("copy.db");
    until(&mut replica, Step::Idle);
    let replica = thread::spawn(move || {
        let mut replica = replica;
        until(&mut replica, Step::Idle);
    });
    replica.join().unwrap();
    assert_eq!(source.status().front, 2);
    folder.equal("copy.db");
}

#[test]
fn a_source_under_a_mutex() {
    let folder = Folder::new("mutex");
    let source = Mutex::new(folder.source());
    thread::scope(|scope| {
        for part in 0..4 {
            let source = &source;
            scope.spawn(move || {
                for id in 0..50 {
                    let id = 1000 * part + id;
                    commit(&mut source.lock().unwrap(), &format!("INSERT INTO t VALUES ({id}, 1, 1)"));
                }
            });
        }
    });
    assert_eq!(source.lock().unwrap().status().front, 200);
    until(&mut folder.replica("copy.db"), Step::Idle);
    folder.equal("copy.db");
}

#[test]
fn a_panic_rolls_back() {
    let folder = Folder::new("panic");
    let source = Mutex::new(folder.source());
    let died = thread::scope(|scope| {
        let thread = scope.spawn(|| {
            let mut source = source.lock().unwrap();
            let transaction = source.transaction().unwrap();
            transaction.execute("INSERT INTO t VALUES (1, 1, 1)", &[]).unwrap();
            panic!("this panic is part of the test");
        });
        thread.join().is_err()
    });
    assert!(died);
    let mut source = source.into_inner().unwrap_err().into_inner();
    commit(&mut source, "INSERT INTO t VALUES (2, 2, 2)");
    assert_eq!(number(source.connection(), "SELECT sum(id) FROM t"), 2);
}
