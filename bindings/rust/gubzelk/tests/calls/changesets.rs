//! The functions on the bytes of changesets.
use crate::shared::*;
use gubzelk::changeset::{canonical, check, combine, invert, Error};
use gubzelk::FaultKind;

#[test]
fn checks() {
    assert_eq!(check(b""), Ok(0));
    assert_eq!(check(&insert(1, 10)), Ok(1));
    assert_eq!(check(b"P"), Err(Error::Fault { text: 0, at: 0, kind: FaultKind::Patchset }));
    assert_eq!(check(&insert(1, 10)[..20]), Err(Error::Fault { text: 0, at: 20, kind: FaultKind::Truncated }));
}

#[test]
fn canonical_texts() {
    let long = [b"T\x02\x01\x00t\x00\x12\x07\x03\x80\x01x", &b"\x05"[..]].concat();
    let short = b"T\x02\x01\x00t\x00\x12\x01\x03\x01x\x05".to_vec();
    assert_eq!(canonical(&long), Ok(short));
    assert_eq!(canonical(HEADER), Ok(vec![]));
    assert_eq!(canonical(b"T"), Err(Error::Fault { text: 0, at: 1, kind: FaultKind::Truncated }));
}

#[test]
fn inverses() {
    assert_eq!(invert(&insert(1, 10)), Ok(delete(1, 10)));
    assert_eq!(invert(&update(1, 10, 11)), Ok(update(1, 11, 10)));
    assert_eq!(invert(b"x"), Err(Error::Fault { text: 0, at: 0, kind: FaultKind::BadMarker }));
}

#[test]
fn combined_texts() {
    assert_eq!(combine::<&[u8]>(&[]), Ok(vec![]));
    assert_eq!(combine(&[insert(1, 10), update(1, 10, 11)]), Ok(insert(1, 11)));
    let fault = Error::Fault { text: 1, at: 0, kind: FaultKind::BadMarker };
    assert_eq!(combine(&[&insert(1, 10)[..], b"x"]), Err(fault));
    let clash = Error::Clash { text: 1, section: 0 };
    assert_eq!(combine(&[&insert(1, 10)[..], b"T\x01\x01t\0\x12\0\x03\x01a"]), Err(clash));
    assert!(clash.to_string().contains("text: 1") && fault.to_string().contains("at: 0"));
}
