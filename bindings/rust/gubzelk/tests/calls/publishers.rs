//! Publishers: their streams, and what they send.
use crate::shared::*;
use gubzelk::{Error, FaultKind, PublisherId};

#[test]
fn a_changeset_in_pieces() {
    let mut broker = opened();
    let publisher = broker.publisher().unwrap();
    assert_eq!(publisher, PublisherId(0));
    for byte in insert(1, 10) {
        assert_eq!(broker.feed(publisher, &[byte]), Ok(()));
    }
    assert_eq!(broker.feed(publisher, &[]), Ok(()));
    assert_eq!(broker.end(publisher), Ok(()));
    assert_eq!(broker.left(), Ok(0));
    assert_eq!(broker.send(publisher), Ok(1));
    assert_eq!(broker.left(), Ok(1));
    assert_eq!(broker.turn(), Ok(Some(1)));
    assert_eq!(broker.turn(), Ok(None));
    assert_eq!(broker.text(1), Ok(insert(1, 10)));
}

#[test]
fn a_fault_stays_until_the_reset() {
    let mut broker = opened();
    let publisher = broker.publisher().unwrap();
    let fault = Err(Error::Fault { at: 0, kind: FaultKind::Patchset });
    assert_eq!(broker.feed(publisher, b"P"), fault);
    assert_eq!(broker.feed(publisher, b"T"), fault);
    assert_eq!(broker.end(publisher), fault);
    assert_eq!(broker.reset(publisher), Ok(()));
    assert_eq!(broker.feed(publisher, &insert(1, 10)[..20]), Ok(()));
    assert_eq!(broker.end(publisher), Err(Error::Fault { at: 20, kind: FaultKind::Truncated }));
    assert_eq!(broker.feed(publisher, &insert(1, 10)[20..]), Ok(()));
    assert_eq!(broker.end(publisher), Ok(()));
}

#[test]
fn kinds_of_faults() {
    let mut broker = opened();
    let publisher = broker.publisher().unwrap();
    let name = [b"T\x01\x01", &[b'x'; 1025][..], b"\0"].concat();
    for (text, kind) in [
        (&b"x"[..], FaultKind::BadMarker),
        (b"T\0", FaultKind::Columns),
        (b"T\x01\0", FaultKind::NoKey),
        (b"T\x01\x01\0", FaultKind::EmptyName),
        (&name, FaultKind::NameTooLong),
        (b"T\x01\x01t\0\x01", FaultKind::BadOperation),
        (b"T\x01\x01t\0\x12\0\x09", FaultKind::BadType),
        (b"T\x02\x01\0t\0\x12\0\x01\0\0\0\0\0\0\0\x01\x02", FaultKind::Real),
        (b"T\x02\x01\0t\0\x12\0\x01\0\0\0\0\0\0\0\x01\0", FaultKind::UndefinedField),
        (b"T\x01\x01t\0\x12\0\x05", FaultKind::KeyMissing),
        (b"T\x01\x01t\0\x17\0\x03\x01a\x03\x01b", FaultKind::KeyChanged),
        (b"T\x02\x01\0t\0\x17\0\x03\x01a\0\0\x05", FaultKind::OneSided),
        (b"T\x01\x01t\0\x12\0\x04\x88\x80\x80\x01", FaultKind::ValueTooLong),
    ] {
        let found = broker.feed(publisher, text);
        assert!(matches!(found, Err(Error::Fault { kind: it, .. }) if it == kind), "{kind:?}: {found:?}");
        broker.reset(publisher).unwrap();
    }
}

#[test]
fn a_stream_is_too_long() {
    let mut broker = opened();
    let publisher = broker.publisher().unwrap();
    let value = vec![7; 4_000_000];
    let text = [b"T\x01\x01t\0\x12\0\x04\x81\xf4\x92\0", &value[..]].concat();
    let mut found = broker.feed(publisher, &text);
    for _ in 0..5 {
        found = found.and_then(|()| broker.feed(publisher, &text[5..]));
    }
    assert!(matches!(found, Err(Error::Fault { kind: FaultKind::TooLong, .. })), "{found:?}");
}

#[test]
fn what_is_staged_and_sent() {
    let mut broker = opened();
    let publisher = broker.publisher().unwrap();
    assert_eq!(broker.send(publisher), Err(Error::NothingStaged));
    assert_eq!(broker.end(publisher), Ok(()));
    assert_eq!(broker.end(publisher), Err(Error::Holding));
    assert_eq!(broker.send(publisher), Ok(1));
    for own in [2, 3] {
        assert_eq!(broker.end(publisher), Ok(()));
        let wanted = if own == 2 { Ok(own) } else { Err(Error::Full) };
        assert_eq!(broker.send(publisher), wanted);
    }
    assert_eq!(broker.turn(), Ok(Some(1)));
    assert_eq!(broker.send(publisher), Ok(3));
}

#[test]
fn tables_that_the_broker_does_not_have() {
    let mut broker = opened();
    let publisher = broker.publisher().unwrap();
    let unknown = [&insert(1, 1)[..], b"T\x01\x01x\0\x12\0\x03\x01a"].concat();
    assert_eq!(broker.feed(publisher, &unknown), Ok(()));
    assert_eq!(broker.end(publisher), Err(Error::UnknownTable { section: 1 }));
    assert_eq!(broker.end(publisher), Err(Error::UnknownTable { section: 1 }));
    broker.reset(publisher).unwrap();
    assert_eq!(broker.feed(publisher, b"T\x01\x01t\0\x12\0\x03\x01a"), Ok(()));
    assert_eq!(broker.end(publisher), Err(Error::ShapeDiffers { section: 0 }));
}

#[test]
fn withdrawals() {
    let (mut broker, publisher, _) = begun(2);
    let other = broker.publisher().unwrap();
    assert_eq!(broker.withdraw(publisher, 3), Err(Error::NotPlaced));
    assert_eq!(broker.withdraw(publisher, 0), Err(Error::NotPlaced));
    assert_eq!(broker.withdraw(other, 1), Err(Error::NotYours));
    assert_eq!(broker.withdraw(publisher, 1), Ok(()));
    assert_eq!(broker.withdraw(publisher, 2), Err(Error::Holding));
    broker.send(publisher).unwrap();
    assert_eq!(broker.turn(), Ok(Some(3)));
    assert_eq!(broker.text(3), Ok(delete(1, 10)));
    assert_eq!(broker.withdraw(publisher, 1), Err(Error::AlreadyWithdrawn));
}

#[test]
fn at_most_64_publishers() {
    let mut broker = opened();
    for number in 0..64 {
        assert_eq!(broker.publisher(), Ok(PublisherId(number)));
    }
    assert_eq!(broker.publisher(), Err(Error::TooMany));
}

#[test]
fn no_such_publisher() {
    let mut broker = opened();
    for publisher in [PublisherId(0), PublisherId(u64::MAX)] {
        assert_eq!(broker.feed(publisher, b"T"), Err(Error::NoPublisher));
        assert_eq!(broker.reset(publisher), Err(Error::NoPublisher));
        assert_eq!(broker.end(publisher), Err(Error::NoPublisher));
        assert_eq!(broker.send(publisher), Err(Error::NoPublisher));
        assert_eq!(broker.withdraw(publisher, 1), Err(Error::NoPublisher));
        assert_eq!(broker.place(publisher, b""), Err(Error::NoPublisher));
    }
}
