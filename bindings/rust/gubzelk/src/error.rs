//! Refusals, one variant each, with their numbers by name.
use crate::kinds::{ConflictKind, FaultKind, TableReason};
use crate::limits;
use gubzelk_sys as sys;
use std::ffi::c_int;
use std::fmt;

/// What a call returns: its answer, or why it is refused.
pub type Result<T> = std::result::Result<T, Error>;

/// Makes the enum, its numbers, and their names in messages. The header's first number goes to a variant's first field.
macro_rules! errors {
    ($($(#[$doc:meta])* $name:ident $({ $($(#[$field_doc:meta])* $field:ident: $kind:ty),* })? = $code:ident;)*) => {
        /// Why a call is refused. Each method lists those that it may return.
        #[derive(Clone, Copy, Debug, PartialEq, Eq, Hash)]
        #[non_exhaustive]
        pub enum Error {
            $($(#[$doc])* $name $({ $($(#[$field_doc])* $field: $kind,)* })?,)*
            /// The library has another version than this crate is for. Only [`Broker::open`](crate::Broker::open)
            /// returns it.
            Version {
                /// The library's version, as [`version`](crate::version) returns it.
                found: u32,
            },
            /// A code that this crate doesn't know. The library is newer then.
            Other {
                /// The code.
                code: c_int,
                /// The first number that goes with it, or 0.
                first: u64,
                /// The second number, or 0.
                second: u64,
            },
        }

        impl Error {
            /// The error of a code of `broker.h`, and of the two numbers that go with it.
            #[allow(unused_mut, unused_variables)]
            pub(crate) fn new(code: c_int, why: sys::broker_numbers) -> Error {
                let mut numbers = [why.first, why.second].into_iter();
                match code {
                    $(sys::$code => Error::$name $({ $($field: numbers.next().unwrap_or_default().into(),)* })?,)*
                    _ => Error::Other { code, first: why.first, second: why.second },
                }
            }

            /// The code of `broker.h`, such as -16 for `BROKER_NOT_PLACED`. It is 0 for [`Error::Version`], which the
            /// header doesn't have.
            pub fn code(&self) -> c_int {
                match self {
                    $(Error::$name { .. } => sys::$code,)*
                    Error::Version { .. } => sys::BROKER_OK,
                    Error::Other { code, .. } => *code,
                }
            }

            /// Its numbers, each with its name.
            fn numbers(&self) -> Vec<(&'static str, String)> {
                match self {
                    $(Error::$name $({ $($field,)* })? => vec![$($((stringify!($field), $field.to_string()),)*)?],)*
                    Error::Version { found } => vec![("found", found.to_string())],
                    Error::Other { code, first, second } => {
                        let (first, second) = (first.to_string(), second.to_string());
                        vec![("code", code.to_string()), ("first", first), ("second", second)]
                    }
                }
            }
        }
    };
}

errors! {
    /// The broker is shut.
    Shut = BROKER_SHUT;
    /// Memory ran out. Nothing changed, and the call may be made again.
    NoMemory = BROKER_NO_MEMORY;
    /// A publisher's stream spells no changeset. It keeps its fault until [`Broker::reset`](crate::Broker::reset).
    Fault {
        /// The place of the fault in the stream, from 0.
        at: u64,
        /// The fault's kind.
        kind: FaultKind
    } = BROKER_FAULT;
    /// A limit is out of its range.
    BadLimit {
        /// The limit's place in [`Limits`](crate::Limits), from 0.
        place: u64
    } = BROKER_BAD_LIMIT;
    /// A table is refused.
    BadTable {
        /// The table's place, from 0.
        place: u64,
        /// Why it is refused.
        reason: TableReason
    } = BROKER_BAD_TABLE;
    /// Another call is in the handle. Safe code can't meet it.
    Busy = BROKER_BUSY;
    /// No publisher has this number.
    NoPublisher = BROKER_NO_PUBLISHER;
    /// There are 64 publishers, or 1,024 subscriptions.
    TooMany = BROKER_TOO_MANY;
    /// The publisher has staged a changeset already. [`Broker::send`](crate::Broker::send) sends it.
    Holding = BROKER_HOLDING;
    /// The publisher has staged nothing.
    NothingStaged = BROKER_NOTHING_STAGED;
    /// The sequence is closed, or the subscription is.
    Closed = BROKER_CLOSED;
    /// The intake is full. [`Broker::turn`](crate::Broker::turn) makes room.
    Full = BROKER_FULL;
    /// No entry has this number.
    NotPlaced = BROKER_NOT_PLACED;
    /// Another publisher sent the entry.
    NotYours = BROKER_NOT_YOURS;
    /// The entry is withdrawn already.
    AlreadyWithdrawn = BROKER_ALREADY_WITHDRAWN;
    /// The sequence has as many entries as its limit `capacity` lets it have.
    SequenceFull = BROKER_SEQUENCE_FULL;
    /// A section of the changeset is of a table that isn't the broker's.
    UnknownTable {
        /// The section, from 0.
        section: u64
    } = BROKER_UNKNOWN_TABLE;
    /// A section of the changeset has another shape than its table.
    ShapeDiffers {
        /// The section, from 0.
        section: u64
    } = BROKER_SHAPE_DIFFERS;
    /// 268,435,455 steps are made, which is the most. A step is a placement, a subscription, a delivery that is handed
    /// out, settled or given back, or another change of a subscription.
    JournalFull = BROKER_JOURNAL_FULL;
    /// Other changesets wait to be placed. [`Broker::turn`](crate::Broker::turn) places them.
    Waiting {
        /// How many wait.
        count: u64
    } = BROKER_WAITING;
    /// No subscription has this number.
    NoSuch = BROKER_NO_SUCH;
    /// The subscription has another link now than the delivery. Its entries come again.
    StaleLink = BROKER_STALE_LINK;
    /// The subscription has as many deliveries in flight as its limit `window` lets it have.
    WindowFull = BROKER_WINDOW_FULL;
    /// No delivery has this number.
    NoDelivery = BROKER_NO_DELIVERY;
    /// The delivery isn't in flight: it is settled, or given back.
    NotInFlight = BROKER_NOT_IN_FLIGHT;
    /// The delivery is accepted already. It can still be acknowledged.
    Seen = BROKER_SEEN;
    /// The sequence is closed, and the subscription has settled all of it. Nothing more comes.
    Drained {
        /// The last number of the sequence.
        last: u64
    } = BROKER_DRAINED;
    /// Nothing is ready. No method returns this: [`Broker::take`](crate::Broker::take) returns `None`.
    Empty {
        /// The last number placed.
        front: u64
    } = BROKER_EMPTY;
    /// Not all of the delivery is accepted.
    NotAccepted {
        /// The last number that the subscription has accepted.
        cursor: u64
    } = BROKER_NOT_ACCEPTED;
    /// The cursor is less than the floor, or greater than what was offered.
    BadCursor {
        /// The number up to which the subscription has settled all.
        floor: u64,
        /// The greatest number that was delivered to it.
        offered: u64
    } = BROKER_BAD_CURSOR;
    /// The start isn't placed.
    StartAhead {
        /// The last number placed.
        front: u64
    } = BROKER_START_AHEAD;
    /// Other entries come first.
    Gap {
        /// The number that the subscription must accept next.
        expected: u64
    } = BROKER_GAP;
    /// An entry is of other tables than the subscription's.
    Shape {
        /// The entry.
        entry: u64
    } = BROKER_SHAPE;
    /// A change conflicts with the subscription's rows.
    Conflict {
        /// The change's place among those of [`Delivery::text`](crate::Delivery::text), from 0.
        position: u64,
        /// The conflict's kind.
        kind: ConflictKind
    } = BROKER_CONFLICT;
    /// The subscription hasn't fallen.
    NotFallen = BROKER_NOT_FALLEN;
    /// The subscription has fallen. [`Broker::resume`](crate::Broker::resume) lets it go on.
    Store = BROKER_STORE;
    /// The broker has no table at this place.
    NoTable = BROKER_NO_TABLE;
    /// The table has no row with this key. No method returns this: [`Broker::row`](crate::Broker::row) returns `None`.
    NoRow = BROKER_NO_ROW;
}

/// The library's words for a code, without their zero byte.
fn words(code: c_int) -> String {
    let mut out = [0u8; sys::BROKER_MESSAGE_ROOM];
    // SAFETY: `out` has as many bytes as the call is told.
    let len = unsafe { sys::broker_message(code, out.as_mut_ptr().cast(), out.len()) };
    let len = usize::try_from(len).unwrap_or(0).min(out.len()).saturating_sub(1);
    String::from_utf8_lossy(&out[..len]).into_owned()
}

impl fmt::Display for Error {
    /// The words of `broker_message`, and the numbers in brackets: `other entries come first (expected: 5)`.
    fn fmt(&self, f: &mut fmt::Formatter<'_>) -> fmt::Result {
        match self {
            Error::Version { .. } => f.write_str("the library has another version than its bindings")?,
            _ => f.write_str(&words(self.code()))?,
        }
        let mut numbers: Vec<String> =
            self.numbers().iter().map(|(name, number)| format!("{name}: {number}")).collect();
        if let Error::BadLimit { place } = self {
            let name = usize::try_from(*place).ok().and_then(|place| limits::NAMES.get(place));
            numbers.extend(name.map(|name| format!("name: {name}")));
        }
        match numbers.is_empty() {
            true => Ok(()),
            false => write!(f, " ({})", numbers.join(", ")),
        }
    }
}

impl std::error::Error for Error {}

#[cfg(test)]
mod tests {
    use super::*;

    /// The number of each code of the header but `BROKER_OK` and `BROKER_IDLE`, as a file of gubzelk-sys lists them.
    fn codes() -> Vec<c_int> {
        let source = include_str!("../../gubzelk-sys/src/codes.rs");
        let numbers =
            source.lines().filter_map(|line| line.split_once("c_int = ")?.1.trim_end_matches(';').parse().ok());
        numbers.filter(|code| *code < 0).collect()
    }

    #[test]
    fn each_code_has_a_variant() {
        let why = sys::broker_numbers { first: 7, second: 1 };
        assert_eq!(codes().len(), 38);
        for code in codes() {
            let error = Error::new(code, why);
            assert_eq!(error.code(), code);
            assert!(!matches!(error, Error::Other { .. }), "{code}");
            let shown = error.to_string();
            assert!(shown.starts_with(&words(code)) && words(code) != words(-999), "{code}: {shown}");
            let numbers = error.numbers().len();
            assert_eq!(shown.contains('7'), numbers > 0, "{shown}");
        }
    }

    #[test]
    fn numbers_have_names() {
        let why = sys::broker_numbers { first: 7, second: 2 };
        let conflict = Error::Conflict { position: 7, kind: ConflictKind::NotFound };
        assert_eq!(Error::new(sys::BROKER_CONFLICT, why), conflict);
        assert_eq!(Error::new(sys::BROKER_BAD_CURSOR, why), Error::BadCursor { floor: 7, offered: 2 });
        assert_eq!(Error::new(sys::BROKER_DRAINED, why), Error::Drained { last: 7 });
        assert_eq!(Error::new(sys::BROKER_EMPTY, why), Error::Empty { front: 7 });
        assert_eq!(Error::new(sys::BROKER_SHAPE, why), Error::Shape { entry: 7 });
        assert_eq!(Error::new(sys::BROKER_JOURNAL_FULL, why), Error::JournalFull);
    }

    #[test]
    fn what_a_newer_library_returns() {
        let why = sys::broker_numbers { first: 7, second: 99 };
        let other = Error::new(-999, why);
        assert_eq!(other, Error::Other { code: -999, first: 7, second: 99 });
        assert_eq!(other.to_string(), "unknown code (code: -999, first: 7, second: 99)");
        let fault = Error::new(sys::BROKER_FAULT, why);
        assert_eq!(fault, Error::Fault { at: 7, kind: FaultKind::Other(99) });
        assert_eq!(fault.to_string(), "the stream spells no changeset (at: 7, kind: kind 99)");
        assert_eq!(Error::Version { found: 2_000_000 }.code(), 0);
    }
}
