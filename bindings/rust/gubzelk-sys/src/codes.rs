//! The numbers of both headers: the version, the codes, and the kinds of faults and of conflicts.
use core::ffi::c_int;

/// The version of the header. `broker_version` reports that of the library.
pub const BROKER_VERSION: &str = "0.1.0";
/// The same as one number: 1,000,000 for the major one, 1,000 for the minor one, and the patch.
pub const BROKER_VERSION_NUMBER: c_int = 1000;
/// Enough room for the words of any code.
pub const BROKER_MESSAGE_ROOM: usize = 64;

/// The call has done what it is for.
pub const BROKER_OK: c_int = 0;
/// broker_turn: nothing waits to be placed. Nothing changed.
pub const BROKER_IDLE: c_int = 1;
/// The handle is shut.
pub const BROKER_SHUT: c_int = -1;
/// Memory ran out. Nothing changed, and the call may be made again.
pub const BROKER_NO_MEMORY: c_int = -2;
/// The stream spells no changeset. Numbers: the place of its fault, from 0, and the fault's kind, of broker_fault_kind.
pub const BROKER_FAULT: c_int = -3;
/// broker_open: a limit is out of its range. Numbers: the limit's place in broker_limits, from 0.
pub const BROKER_BAD_LIMIT: c_int = -4;
/// broker_open: a table is refused. Numbers: its place, from 0; and 0 if no table has such a shape or if it is one too
/// many, or 1 if an earlier table has its name.
pub const BROKER_BAD_TABLE: c_int = -5;
/// Another call is in the handle. Nothing changed.
pub const BROKER_BUSY: c_int = -6;
/// No publisher has this number.
pub const BROKER_NO_PUBLISHER: c_int = -10;
/// There are 64 publishers, or 1,024 subscriptions.
pub const BROKER_TOO_MANY: c_int = -11;
/// A changeset is staged already.
pub const BROKER_HOLDING: c_int = -12;
/// Nothing is staged.
pub const BROKER_NOTHING_STAGED: c_int = -13;
/// The sequence is closed, or the subscription is.
pub const BROKER_CLOSED: c_int = -14;
/// The intake is full.
pub const BROKER_FULL: c_int = -15;
/// No entry has this number.
pub const BROKER_NOT_PLACED: c_int = -16;
/// Another publisher sent the entry.
pub const BROKER_NOT_YOURS: c_int = -17;
/// The entry is withdrawn already.
pub const BROKER_ALREADY_WITHDRAWN: c_int = -18;
/// The sequence has as many entries as it may.
pub const BROKER_SEQUENCE_FULL: c_int = -19;
/// A section is of a table that isn't the broker's. Numbers: the section, from 0.
pub const BROKER_UNKNOWN_TABLE: c_int = -20;
/// A section has another shape than its table. Numbers: the section, from 0.
pub const BROKER_SHAPE_DIFFERS: c_int = -21;
/// 268,435,455 steps are made. A placement takes one, and so do subscribe, subscribe_bare, take, take_any, ack, nack,
/// nack_opened, expire, reconnect, resume, unsubscribe and the first close.
pub const BROKER_JOURNAL_FULL: c_int = -22;
/// broker_place: other changesets wait to be placed, and broker_turn places them. Numbers: how many.
pub const BROKER_WAITING: c_int = -23;
/// No subscription has this number.
pub const BROKER_NO_SUCH: c_int = -30;
/// The subscription has another link now than the delivery.
pub const BROKER_STALE_LINK: c_int = -31;
/// The subscription has as many deliveries in flight as its window holds.
pub const BROKER_WINDOW_FULL: c_int = -32;
/// No delivery has this number.
pub const BROKER_NO_DELIVERY: c_int = -33;
/// The delivery isn't in flight.
pub const BROKER_NOT_IN_FLIGHT: c_int = -34;
/// The delivery is accepted already.
pub const BROKER_SEEN: c_int = -35;
/// The sequence is closed, and the subscription has settled all of it. Numbers: the last number.
pub const BROKER_DRAINED: c_int = -36;
/// Nothing is ready. Numbers: the last number placed.
pub const BROKER_EMPTY: c_int = -37;
/// Not all of the delivery is accepted. Numbers: the subscription's cursor.
pub const BROKER_NOT_ACCEPTED: c_int = -38;
/// The cursor isn't between the floor and what was offered. Numbers: the floor, and the last number offered.
pub const BROKER_BAD_CURSOR: c_int = -39;
/// The start isn't placed. Numbers: the last number placed.
pub const BROKER_START_AHEAD: c_int = -40;
/// Other entries come first. Numbers: the number that the subscription must accept next.
pub const BROKER_GAP: c_int = -41;
/// An entry is of other tables than the subscription's. Numbers: the entry.
pub const BROKER_SHAPE: c_int = -42;
/// A change conflicts with the subscription's rows. Numbers: the change among those of the delivery's group, from 0;
/// and the conflict's kind, of broker_conflict_kind.
pub const BROKER_CONFLICT: c_int = -43;
/// The subscription hasn't fallen.
pub const BROKER_NOT_FALLEN: c_int = -44;
/// The subscription has fallen.
pub const BROKER_STORE: c_int = -45;
/// The broker has no table at this place.
pub const BROKER_NO_TABLE: c_int = -46;
/// The table has no row with this key.
pub const BROKER_NO_ROW: c_int = -47;

/// The first byte does not begin a changeset.
pub const BROKER_FAULT_BAD_MARKER: c_int = 1;
/// A patchset begins here. Patchsets aren't read.
pub const BROKER_FAULT_PATCHSET: c_int = 2;
/// A table has no columns, or more than 2,000.
pub const BROKER_FAULT_COLUMNS: c_int = 3;
/// A table has no key column.
pub const BROKER_FAULT_NO_KEY: c_int = 4;
/// A table's name is empty.
pub const BROKER_FAULT_EMPTY_NAME: c_int = 5;
/// A table's name is longer than 1,024 bytes.
pub const BROKER_FAULT_NAME_TOO_LONG: c_int = 6;
/// Neither a change nor a header begins here.
pub const BROKER_FAULT_BAD_OPERATION: c_int = 7;
/// No field has this type.
pub const BROKER_FAULT_BAD_TYPE: c_int = 8;
/// A REAL value. REAL values aren't read.
pub const BROKER_FAULT_REAL: c_int = 9;
/// A field of an INSERT or a DELETE has no value.
pub const BROKER_FAULT_UNDEFINED_FIELD: c_int = 10;
/// A key column has no value, or is NULL.
pub const BROKER_FAULT_KEY_MISSING: c_int = 11;
/// An UPDATE gives a key column a new value.
pub const BROKER_FAULT_KEY_CHANGED: c_int = 12;
/// A column of an UPDATE has a value in only one of its two records.
pub const BROKER_FAULT_ONE_SIDED: c_int = 13;
/// A value is longer than 16,777,216 bytes.
pub const BROKER_FAULT_VALUE_TOO_LONG: c_int = 14;
/// The text is longer than 16,777,216 bytes.
pub const BROKER_FAULT_TOO_LONG: c_int = 15;
/// The text ends inside a header or a change.
pub const BROKER_FAULT_TRUNCATED: c_int = 16;

/// The row is there with other values.
pub const BROKER_CONFLICT_DATA: c_int = 1;
/// The row isn't there.
pub const BROKER_CONFLICT_NOTFOUND: c_int = 2;
/// The row is there already.
pub const BROKER_CONFLICT_CONFLICT: c_int = 3;
