//! The calls of broker.h that broker.rs makes, with their structs and codes. Names and meanings are the header's.
use std::ffi::c_void;

#[repr(C)]
pub struct Limits {
    pub batch: u64,
    pub window: u64,
    pub timeout: u64,
    pub capacity: u64,
    pub intake: u64,
    pub appliers: u64,
}

pub const LIMITS: Limits = Limits { batch: 16, window: 4, timeout: 10, capacity: 65536, intake: 64, appliers: 1 };

#[repr(C)]
#[derive(Default)]
pub struct Delivery {
    pub number: u64,
    pub subscription: u64,
    pub first: u64,
    pub last: u64,
}

#[repr(C)]
pub struct Table(pub *const u8, pub usize, pub *const u8, pub usize);

pub type Handle = *mut c_void;

extern "C" {
    pub fn broker_open(b: &mut Handle, of: &Limits, tables: *const Table, count: usize, why: &mut [u64; 2]) -> i32;
    pub fn broker_free(b: Handle);
    pub fn broker_why(b: Handle, why: &mut [u64; 2]) -> i32;
    pub fn broker_message(code: i32, words: &mut [u8; 64], room: usize) -> i64;
    pub fn broker_publisher(b: Handle, publisher: &mut u64) -> i32;
    pub fn broker_place(b: Handle, publisher: u64, bytes: *const u8, len: usize, entry: &mut u64) -> i32;
    pub fn broker_subscribe(b: Handle, start: u64, subscription: &mut u64, link: &mut u64) -> i32;
    pub fn broker_take(b: Handle, subscription: u64, now: u64, delivery: &mut Delivery) -> i32;
    pub fn broker_accept(b: Handle, delivery: u64, cursor: &mut u64) -> i32;
    pub fn broker_ack(b: Handle, delivery: u64, floor: &mut u64) -> i32;
    pub fn broker_cursor(b: Handle, subscription: u64, cursor: &mut u64) -> i32;
    pub fn broker_reconnect(b: Handle, subscription: u64, cursor: u64, link: &mut u64) -> i32;
    pub fn broker_combined(b: Handle, first: u64, last: u64, out: *mut u8, room: usize) -> i64;
}

macro_rules! codes {
    ($($name:ident = $code:literal,)*) => {
        /// The negative codes of the header.
        #[derive(Clone, Copy, Debug, PartialEq, Eq)]
        pub enum Code { $($name = $code,)* }

        impl Code {
            pub fn of(code: i32) -> Code {
                match code { $($code => Code::$name,)* _ => unreachable!("broker.h has no code {code}") }
            }
        }
    };
}

codes! {
    Shut = -1, NoMemory = -2, Fault = -3, BadLimit = -4, BadTable = -5, Busy = -6, NoPublisher = -10, TooMany = -11,
    Holding = -12, NothingStaged = -13, Closed = -14, Full = -15, NotPlaced = -16, NotYours = -17,
    AlreadyWithdrawn = -18, SequenceFull = -19, UnknownTable = -20, ShapeDiffers = -21, JournalFull = -22,
    Waiting = -23, NoSuch = -30, StaleLink = -31, WindowFull = -32, NoDelivery = -33, NotInFlight = -34,
    Seen = -35, Drained = -36, Empty = -37, NotAccepted = -38, BadCursor = -39, StartAhead = -40, Gap = -41,
    Shape = -42, Conflict = -43, NotFallen = -44, Store = -45, NoTable = -46, NoRow = -47,
}
