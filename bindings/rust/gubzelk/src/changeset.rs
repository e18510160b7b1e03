//! Functions on the bytes of changesets, without a broker: the calls of `changeset.h`. They need the feature
//! `changeset`.
//!
//! A text is the bytes of a changeset, as SQLite's session extension writes it.
//!
//! ```
//! // an INSERT, and its inverse: a DELETE of the same row
//! let insert = b"T\x02\x01\x00t\x00\x12\x00\x01\0\0\0\0\0\0\0\x01\x05".to_vec();
//! assert_eq!(gubzelk::changeset::check(&insert)?, 1);
//! let inverse = gubzelk::changeset::invert(&insert)?;
//! assert_eq!(inverse[6], 0x09);
//! assert!(gubzelk::changeset::combine(&[insert, inverse])?.is_empty());
//! # Ok::<(), gubzelk::changeset::Error>(())
//! ```
use crate::FaultKind;
use gubzelk_sys as sys;
use std::ffi::c_int;
use std::fmt;

/// What a call returns: its answer, or why there is none.
pub type Result<T> = std::result::Result<T, Error>;

/// Why a call has no answer.
#[derive(Clone, Copy, Debug, PartialEq, Eq, Hash)]
#[non_exhaustive]
pub enum Error {
    /// A text spells no changeset.
    Fault {
        /// The text's index, from 0. It is 0 if there is only one text.
        text: usize,
        /// The place of its fault, from 0 to its length.
        at: usize,
        /// The fault's kind.
        kind: FaultKind,
    },
    /// The texts can't be combined: a section's table has the name of an earlier section's and another shape.
    Clash {
        /// The index of the text with that section, from 0.
        text: usize,
        /// The section in this text, from 0.
        section: usize,
    },
    /// Memory ran out.
    NoMemory,
}

impl fmt::Display for Error {
    fn fmt(&self, f: &mut fmt::Formatter<'_>) -> fmt::Result {
        match self {
            Error::Fault { text, at, kind } => {
                write!(f, "the text spells no changeset (text: {text}, at: {at}): {kind}")
            }
            Error::Clash { text, section } => {
                write!(f, "a section has another shape than an earlier one (text: {text}, section: {section})")
            }
            Error::NoMemory => f.write_str("memory ran out"),
        }
    }
}

impl std::error::Error for Error {}

/// The number of changes that a text spells. It does not allocate.
///
/// # Errors
/// [`Error::Fault`]
pub fn check(text: &[u8]) -> Result<u64> {
    let (mut at, mut kind) = (0, 0);
    // SAFETY: `text` has as many bytes as the call is told. The outputs overlap nothing.
    let changes = unsafe { sys::changeset_check(text.as_ptr(), text.len(), &mut at, &mut kind) };
    u64::try_from(changes).map_err(|_| Error::Fault { text: 0, at, kind: u64::from(kind).into() })
}

/// The canonical text of the changeset that a text spells: one section for each table's shape, none without a change,
/// shortest lengths, and indirect bytes of 0 or 1.
///
/// # Errors
/// [`Error::Fault`], or [`Error::NoMemory`] if the text spells a changeset.
pub fn canonical(text: &[u8]) -> Result<Vec<u8>> {
    // SAFETY: `text` has as many bytes as the call is told, and `out` has `room` bytes.
    filled(|out, room| one(text, unsafe { sys::changeset_canonical(text.as_ptr(), text.len(), out, room) }))
}

/// The canonical text of the inverse, as `sqlite3changeset_invert` makes it: an INSERT becomes a DELETE of the same
/// row, a DELETE becomes an INSERT, and an UPDATE exchanges its old and new values.
///
/// # Errors
/// As [`canonical`].
pub fn invert(text: &[u8]) -> Result<Vec<u8>> {
    // SAFETY: as in `canonical`.
    filled(|out, room| one(text, unsafe { sys::changeset_invert(text.as_ptr(), text.len(), out, room) }))
}

/// The canonical text of several texts, in their order, as one changeset: a row's changes become one change or none.
///
/// # Errors
/// Of the first text that can't be added: [`Error::Fault`] or [`Error::Clash`]; or [`Error::NoMemory`].
pub fn combine<T: AsRef<[u8]>>(texts: &[T]) -> Result<Vec<u8>> {
    let texts: Vec<&[u8]> = texts.iter().map(AsRef::as_ref).collect();
    let raw: Vec<_> = texts.iter().map(|it| sys::changeset_text { bytes: it.as_ptr(), len: it.len() }).collect();
    filled(|out, room| {
        let (mut text, mut at, mut kind) = (0, 0, 0);
        // SAFETY: `raw` has as many texts as the call is told, and their pointers are those of slices. `out` has `room`
        // bytes. The outputs overlap nothing.
        let answer =
            unsafe { sys::changeset_combine(raw.as_ptr(), raw.len(), out, room, &mut text, &mut at, &mut kind) };
        match c_int::try_from(answer) {
            Ok(sys::CHANGESET_NONE) => Err(Error::Fault { text, at, kind: u64::from(kind).into() }),
            Ok(sys::CHANGESET_CLASH) => Err(Error::Clash { text, section: at }),
            _ => length(answer),
        }
    })
}

/// The length that a call on one text returns, or why there is none. [`check`] reports a fault.
fn one(text: &[u8], answer: i64) -> Result<usize> {
    match c_int::try_from(answer) {
        Ok(sys::CHANGESET_NONE) => check(text).and(Err(Error::NoMemory)),
        _ => length(answer),
    }
}

/// A length; or memory ran out.
fn length(answer: i64) -> Result<usize> {
    usize::try_from(answer).map_err(|_| Error::NoMemory)
}

/// The text that a call writes. The call gets a place and how many bytes are there, and returns the text's length.
fn filled(call: impl Fn(*mut u8, usize) -> Result<usize>) -> Result<Vec<u8>> {
    let mut out = Vec::new();
    loop {
        let room = out.capacity();
        let len = call(out.as_mut_ptr(), room)?;
        if len <= room {
            // SAFETY: the call has written `len` bytes, and there is room for them.
            unsafe { out.set_len(len) };
            return Ok(out);
        }
        out.try_reserve_exact(len).map_err(|_| Error::NoMemory)?;
    }
}
