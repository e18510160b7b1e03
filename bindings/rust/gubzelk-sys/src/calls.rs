//! The calls of `broker.h`, and its structs.
use core::ffi::{c_char, c_int};
use core::marker::{PhantomData, PhantomPinned};

/// A handle.
#[repr(C)]
pub struct broker {
    _bytes: [u8; 0],
    _neither_send_nor_sync: PhantomData<(*mut u8, PhantomPinned)>,
}

/// The numbers that go with a code.
#[repr(C)]
#[derive(Clone, Copy, Debug, Default, PartialEq, Eq)]
pub struct broker_numbers {
    /// The first number, or 0.
    pub first: u64,
    /// The second number, or 0.
    pub second: u64,
}

/// The limits of a broker.
#[repr(C)]
#[derive(Clone, Copy, Debug, PartialEq, Eq)]
pub struct broker_limits {
    /// The most entries in a delivery, 1 to 256.
    pub batch: u64,
    /// The most deliveries in flight to a subscription, 1 to 64.
    pub window: u64,
    /// After how many ticks a delivery expires, 1 to 1,000,000,000.
    pub timeout: u64,
    /// The most entries of the sequence, 1 to 16,777,216.
    pub capacity: u64,
    /// The most changesets that wait to be placed, 1 to 4,096.
    pub intake: u64,
    /// 1 to 16. The calls apply a changeset in the caller's thread, so it changes nothing.
    pub appliers: u64,
}

/// The limits that `rb_run` takes if none are given.
pub const BROKER_LIMITS: broker_limits =
    broker_limits { batch: 16, window: 4, timeout: 10, capacity: 65536, intake: 64, appliers: 1 };

/// A table that changesets may be of.
#[repr(C)]
#[derive(Clone, Copy, Debug)]
pub struct broker_table {
    /// The bytes of its name, without a zero byte.
    pub name: *const u8,
    /// How many these are, 1 to 1,024.
    pub name_len: usize,
    /// A byte for each column: 0, or its place in the primary key, from 1.
    pub key: *const u8,
    /// How many columns there are, 1 to 2,000.
    pub columns: usize,
}

/// What is known of an entry beside its text.
#[repr(C)]
#[derive(Clone, Copy, Debug, Default, PartialEq, Eq)]
pub struct broker_about {
    /// Who sent it.
    pub publisher: u64,
    /// Its number among that publisher's sendings, from 1.
    pub own: u64,
    /// The entry that it withdraws, or 0.
    pub withdraws: u64,
}

/// A delivery: the entries `first` to `last` for a subscription.
#[repr(C)]
#[derive(Clone, Copy, Debug, Default, PartialEq, Eq)]
pub struct broker_delivery {
    /// Its number, from 1.
    pub number: u64,
    /// The number of its subscription.
    pub subscription: u64,
    /// Its first entry.
    pub first: u64,
    /// Its last entry.
    pub last: u64,
}

/// How far a subscription has come.
#[repr(C)]
#[derive(Clone, Copy, Debug, Default, PartialEq, Eq)]
pub struct broker_status {
    /// The number after which it began.
    pub start: u64,
    /// The number up to which it has settled all.
    pub floor: u64,
    /// The last number that it has accepted; `start` before the first.
    pub cursor: u64,
    /// The greatest number that was delivered to it; `start` before the first.
    pub offered: u64,
    /// Its link.
    pub link: u64,
    /// How many deliveries are ready for it.
    pub ready: u64,
    /// How many deliveries are in flight to it.
    pub in_flight: u64,
    /// The last number placed.
    pub front: u64,
    /// Whether it is closed.
    pub closed: bool,
    /// Whether it has fallen.
    pub fallen: bool,
}

#[allow(missing_docs)] // broker.h documents them
extern "C" {
    pub fn broker_message(code: c_int, out: *mut c_char, room: usize) -> i64;
    pub fn broker_version() -> c_int;

    pub fn broker_open(
        out: *mut *mut broker,
        limits: *const broker_limits,
        tables: *const broker_table,
        count: usize,
        why: *mut broker_numbers,
    ) -> c_int;
    pub fn broker_shut(b: *mut broker);
    pub fn broker_free(b: *mut broker);
    pub fn broker_why(b: *const broker, why: *mut broker_numbers) -> c_int;

    pub fn broker_publisher(b: *mut broker, publisher: *mut u64) -> c_int;
    pub fn broker_feed(b: *mut broker, publisher: u64, bytes: *const u8, len: usize) -> c_int;
    pub fn broker_reset(b: *mut broker, publisher: u64) -> c_int;
    pub fn broker_end(b: *mut broker, publisher: u64) -> c_int;
    pub fn broker_send(b: *mut broker, publisher: u64, own: *mut u64) -> c_int;
    pub fn broker_withdraw(b: *mut broker, publisher: u64, entry: u64) -> c_int;

    pub fn broker_turn(b: *mut broker, entry: *mut u64) -> c_int;
    pub fn broker_place(b: *mut broker, publisher: u64, bytes: *const u8, len: usize, entry: *mut u64) -> c_int;
    pub fn broker_close(b: *mut broker, last: *mut u64) -> c_int;
    pub fn broker_left(b: *mut broker, count: *mut u64) -> c_int;
    pub fn broker_front(b: *mut broker, entry: *mut u64) -> c_int;
    pub fn broker_text(b: *mut broker, entry: u64, out: *mut u8, room: usize) -> i64;
    pub fn broker_combined(b: *mut broker, first: u64, last: u64, out: *mut u8, room: usize) -> i64;
    pub fn broker_entry(b: *mut broker, entry: u64, about: *mut broker_about) -> c_int;

    pub fn broker_subscribe(b: *mut broker, start: u64, subscription: *mut u64, link: *mut u64) -> c_int;
    pub fn broker_subscribe_bare(b: *mut broker, start: u64, subscription: *mut u64, link: *mut u64) -> c_int;
    pub fn broker_take(b: *mut broker, subscription: u64, now: u64, delivery: *mut broker_delivery) -> c_int;
    pub fn broker_take_any(b: *mut broker, now: u64, delivery: *mut broker_delivery) -> c_int;
    pub fn broker_accept(b: *mut broker, delivery: u64, cursor: *mut u64) -> c_int;
    pub fn broker_crash(b: *mut broker, delivery: u64, kept: bool, cursor: *mut u64) -> c_int;
    pub fn broker_cursor(b: *mut broker, subscription: u64, cursor: *mut u64) -> c_int;
    pub fn broker_status(b: *mut broker, subscription: u64, status: *mut broker_status) -> c_int;
    pub fn broker_ack(b: *mut broker, delivery: u64, floor: *mut u64) -> c_int;
    pub fn broker_nack(b: *mut broker, delivery: u64) -> c_int;
    pub fn broker_nack_opened(b: *mut broker, delivery: u64, count: *mut u64) -> c_int;
    pub fn broker_expire(b: *mut broker, now: u64, count: *mut u64) -> c_int;
    pub fn broker_reconnect(b: *mut broker, subscription: u64, cursor: u64, link: *mut u64) -> c_int;
    pub fn broker_resume(b: *mut broker, subscription: u64, link: *mut u64) -> c_int;
    pub fn broker_unsubscribe(b: *mut broker, subscription: u64) -> c_int;

    pub fn broker_rows(b: *mut broker, subscription: u64, out: *mut u8, room: usize) -> i64;
    pub fn broker_row(
        b: *mut broker,
        subscription: u64,
        table: u64,
        key: *const u8,
        len: usize,
        out: *mut u8,
        room: usize,
    ) -> i64;
}
