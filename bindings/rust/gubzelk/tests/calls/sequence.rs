//! The sequence: what places entries, and what reads them.
use crate::shared::*;
use gubzelk::{About, Error, FaultKind};

#[test]
fn a_whole_changeset() {
    let (mut broker, publisher, _) = begun(1);
    assert_eq!(broker.front(), Ok(1));
    broker.feed(publisher, b"T\x02").unwrap();
    assert_eq!(broker.place(publisher, &insert(2, 20)), Ok(2));
    assert_eq!(broker.front(), Ok(2));
    assert_eq!(broker.entry(2), Ok(About { publisher, own: 2, withdraws: None }));
    assert_eq!(broker.entry(3), Err(Error::NotPlaced));
}

#[test]
fn a_withdrawal_has_its_entry() {
    let (mut broker, publisher, _) = begun(1);
    broker.withdraw(publisher, 1).unwrap();
    broker.send(publisher).unwrap();
    broker.turn().unwrap();
    assert_eq!(broker.entry(2), Ok(About { publisher, own: 2, withdraws: Some(1) }));
}

#[test]
fn a_refused_place_empties_the_stream() {
    let (mut broker, publisher, _) = begun(0);
    let cut = &insert(1, 10)[..9];
    assert_eq!(broker.place(publisher, cut), Err(Error::Fault { at: 9, kind: FaultKind::Truncated }));
    assert_eq!(broker.place(publisher, b"x"), Err(Error::Fault { at: 0, kind: FaultKind::BadMarker }));
    assert_eq!(broker.place(publisher, b"T\x01\x01x\0"), Err(Error::UnknownTable { section: 0 }));
    assert_eq!(broker.place(publisher, b"T\x01\x01t\0"), Err(Error::ShapeDiffers { section: 0 }));
    assert_eq!(broker.end(publisher), Ok(()));
    assert_eq!(broker.place(publisher, cut), Err(Error::Holding));
    assert_eq!(broker.place(publisher, b"x"), Err(Error::Fault { at: 0, kind: FaultKind::BadMarker }));
    broker.send(publisher).unwrap();
    assert_eq!(broker.place(publisher, b"x"), Err(Error::Waiting { count: 1 }));
    assert_eq!(broker.turn(), Ok(Some(1)));
    assert_eq!(broker.place(publisher, b""), Ok(2));
}

#[test]
fn texts_of_entries_and_of_groups() {
    let (mut broker, publisher, _) = begun(2);
    broker.place(publisher, &update(1, 10, 11)).unwrap();
    broker.place(publisher, &delete(2, 20)).unwrap();
    assert_eq!(broker.text(3), Ok(update(1, 10, 11)));
    assert_eq!(broker.combined(1, 4), Ok(insert(1, 11)));
    assert_eq!(broker.combined(2, 2), Ok(insert(2, 20)));
    let both = [insert(1, 10), insert(2, 20)[HEADER.len()..].to_vec()].concat();
    assert_eq!(broker.combined(1, 2).map(|text| text.len()), Ok(both.len()));
    for (first, last) in [(0, 1), (2, 1), (1, 5), (5, 5), (1, u64::MAX)] {
        assert_eq!(broker.combined(first, last), Err(Error::NotPlaced), "{first} to {last}");
    }
    broker.place(publisher, &delete(1, 11)).unwrap();
    assert_eq!(broker.combined(1, 5), Ok(vec![]));
}

#[test]
fn texts_into_a_vector() {
    let (mut broker, publisher, _) = begun(2);
    let mut out = vec![9; 100];
    let place = out.as_ptr();
    assert_eq!(broker.text_into(1, &mut out), Ok(()));
    assert_eq!(out, insert(1, 10));
    assert_eq!(broker.combined_into(2, 2, &mut out), Ok(()));
    assert_eq!(out, insert(2, 20));
    // there was room, so nothing was allocated
    assert_eq!(out.as_ptr(), place);
    assert_eq!(broker.text_into(3, &mut out), Err(Error::NotPlaced));
    assert!(out.is_empty());
    let mut small = Vec::with_capacity(1);
    broker.place(publisher, &insert(3, 30)).unwrap();
    assert_eq!(broker.text_into(3, &mut small), Ok(()));
    assert_eq!(small, insert(3, 30));
}

#[test]
fn a_closed_sequence() {
    let (mut broker, publisher, _) = begun(1);
    broker.end(publisher).unwrap();
    broker.send(publisher).unwrap();
    broker.end(publisher).unwrap();
    assert_eq!(broker.close(), Ok(1));
    assert_eq!(broker.close(), Ok(1));
    assert_eq!(broker.send(publisher), Err(Error::Closed));
    assert_eq!(broker.turn(), Err(Error::Closed));
    assert_eq!(broker.left(), Ok(1));
}

#[test]
fn nothing_is_placed_in_a_closed_sequence() {
    let (mut broker, publisher, _) = begun(1);
    broker.close().unwrap();
    assert_eq!(broker.place(publisher, &insert(2, 20)), Err(Error::Closed));
    assert_eq!(broker.text(1), Ok(insert(1, 10)));
}

#[test]
fn a_full_sequence() {
    let (mut broker, publisher, _) = begun(16);
    assert_eq!(broker.place(publisher, b""), Err(Error::SequenceFull));
    broker.end(publisher).unwrap();
    broker.send(publisher).unwrap();
    assert_eq!(broker.turn(), Err(Error::SequenceFull));
    assert_eq!(broker.turn(), Err(Error::SequenceFull));
}
