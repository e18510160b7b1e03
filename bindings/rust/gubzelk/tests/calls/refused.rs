//! What errors say.
use crate::shared::*;
use gubzelk::{ConflictKind, Error, FaultKind, TableReason};

#[test]
fn words_and_numbers() {
    for (error, words) in [
        (Error::Shut, "the handle is shut"),
        (Error::NotPlaced, "no entry has this number"),
        (Error::Gap { expected: 5 }, "other entries come first (expected: 5)"),
        (Error::BadCursor { floor: 1, offered: 9 }, "the cursor is out of its range (floor: 1, offered: 9)"),
        (Error::BadLimit { place: 1 }, "a limit is out of its range (place: 1, name: window)"),
        (
            Error::Fault { at: 9, kind: FaultKind::Truncated },
            "the stream spells no changeset (at: 9, kind: the text ends inside a header or a change)",
        ),
        (
            Error::Conflict { position: 0, kind: ConflictKind::NotFound },
            "a change conflicts with the rows (position: 0, kind: the row isn't there)",
        ),
        (
            Error::BadTable { place: 2, reason: TableReason::Repeated },
            "a table is refused (place: 2, reason: an earlier table has its name)",
        ),
    ] {
        assert_eq!(error.to_string(), words);
    }
}

#[test]
fn codes_are_the_headers() {
    let (mut broker, publisher, _) = begun(1);
    assert_eq!(broker.text(2).unwrap_err().code(), -16);
    assert_eq!(broker.feed(publisher, b"P").unwrap_err().code(), -3);
    assert_eq!(Error::Conflict { position: 0, kind: ConflictKind::Data }.code(), -43);
}

#[test]
fn numbers_are_those_of_the_last_refusal() {
    let (mut broker, publisher, subscription) = begun(3);
    assert_eq!(broker.subscribe(9), Err(Error::StartAhead { front: 3 }));
    // a refused read has no numbers, and leaves those from before
    assert_eq!(broker.text(9), Err(Error::NotPlaced));
    assert_eq!(broker.reconnect(subscription, 1), Err(Error::BadCursor { floor: 0, offered: 0 }));
    let fault = Error::Fault { at: 0, kind: FaultKind::Patchset };
    assert_eq!(broker.place(publisher, b"P"), Err(fault));
    let boxed: Box<dyn std::error::Error + Send + Sync> = fault.into();
    assert!(boxed.to_string().starts_with("the stream spells no changeset"));
}
