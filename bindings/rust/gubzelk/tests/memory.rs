//! A call that runs out of memory changes nothing, and may be made again.
#![cfg(all(target_os = "linux", target_pointer_width = "64"))]
use gubzelk::{Broker, Error, Limits, Table};
use std::fs;

#[repr(C)]
struct Rlimit {
    soft: u64,
    hard: u64,
}

extern "C" {
    fn getrlimit(resource: i32, limit: *mut Rlimit) -> i32;
    fn setrlimit(resource: i32, limit: *const Rlimit) -> i32;
}

/// Linux's number of the limit of a process's address space.
const RLIMIT_AS: i32 = 9;

/// Makes a call while no piece of 1 MiB is free: the process can't grow, and what malloc keeps is taken.
fn short<T>(call: impl FnOnce() -> T) -> T {
    let pages = fs::read_to_string("/proc/self/statm").unwrap();
    let pages: u64 = pages.split(' ').next().unwrap().parse().unwrap();
    let mut limit = Rlimit { soft: 0, hard: 0 };
    // SAFETY: the output is a struct of these calls' layout.
    unsafe { assert_eq!(getrlimit(RLIMIT_AS, &mut limit), 0) };
    let less = Rlimit { soft: pages * 4096, ..limit };
    let mut taken: Vec<Vec<u8>> = Vec::with_capacity(10_000);
    // SAFETY: as before.
    unsafe { assert_eq!(setrlimit(RLIMIT_AS, &less), 0) };
    while taken.len() < taken.capacity() {
        let mut piece = Vec::new();
        if piece.try_reserve_exact(1 << 20).is_err() {
            break;
        }
        taken.push(piece);
    }
    let answer = call();
    // SAFETY: as before.
    unsafe { assert_eq!(setrlimit(RLIMIT_AS, &limit), 0) };
    answer
}

/// INSERT of a key and 12,000,000 bytes, into t(a INTEGER PRIMARY KEY, b BLOB).
fn large() -> Vec<u8> {
    let head = b"T\x02\x01\x00t\x00\x12\x00\x01\0\0\0\0\0\0\0\x01\x04\x85\xdc\xb6\x00";
    [&head[..], &vec![7; 12_000_000]].concat()
}

#[test]
fn calls_without_memory() {
    let text = large();
    let mut broker = Broker::open(&Limits::default(), &[Table::new("t", &[1, 0])]).unwrap();
    let (publisher, subscription) = (broker.publisher().unwrap(), broker.subscribe(0).unwrap());
    assert_eq!(short(|| broker.place(publisher, &text)), Err(Error::NoMemory));
    assert_eq!(broker.front(), Ok(0));
    assert_eq!(short(|| broker.feed(publisher, &text)), Err(Error::NoMemory));
    assert_eq!(broker.place(publisher, &text), Ok(1));
    let delivery = broker.take(subscription, 0).unwrap().unwrap();
    assert_eq!(short(|| broker.text(1)), Err(Error::NoMemory));
    assert_eq!(short(|| broker.combined(1, 1)), Err(Error::NoMemory));
    assert_eq!(short(|| broker.accept(delivery.number)), Err(Error::NoMemory));
    assert_eq!(broker.cursor(subscription), Ok(0));
    assert_eq!(broker.accept(delivery.number), Ok(1));
    assert_eq!(short(|| broker.rows(subscription)), Err(Error::NoMemory));
    assert!(broker.rows(subscription) == Ok(text.clone()) && broker.text(1) == Ok(text));
}
