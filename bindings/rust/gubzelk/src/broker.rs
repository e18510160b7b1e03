//! A broker: its handle, and how calls are made.
use crate::error::{Error, Result};
use crate::{name, version, Limits, Table};
use gubzelk_sys as sys;
use std::ffi::c_int;
use std::{fmt, ptr};

/// A broker of SQLite changesets.
///
/// Its methods are the calls of `broker.h`. A method that only reads takes `&self`, any other `&mut self`. Dropping a
/// broker frees it, with its sequence and its subscriptions.
pub struct Broker {
    handle: *mut sys::broker,
    name: String,
}

// SAFETY: a handle may go to another thread if something orders the calls, as every way to send a value does. It isn't
// `Sync`, and so `&Broker` isn't `Send`: no two threads make calls at once.
unsafe impl Send for Broker {}

impl Drop for Broker {
    fn drop(&mut self) {
        // SAFETY: `open` has given the handle out, and nobody else frees it.
        unsafe { sys::broker_free(self.handle) }
    }
}

impl fmt::Debug for Broker {
    fn fmt(&self, f: &mut fmt::Formatter<'_>) -> fmt::Result {
        f.debug_struct("Broker").field("name", &self.name).finish_non_exhaustive()
    }
}

impl Broker {
    /// Opens a broker without publishers, entries and subscriptions, for at most 1,024 tables, which it copies.
    ///
    /// ```
    /// # use gubzelk::{Broker, Limits, Table};
    /// let broker = Broker::open(&Limits::default(), &[Table::new("item", &[1, 0, 0])])?;
    /// # Ok::<(), gubzelk::Error>(())
    /// ```
    ///
    /// # Errors
    /// The first of these that applies:
    /// - [`Version`](Error::Version) if the library has another major or minor version than this crate is for.
    /// - [`BadLimit`](Error::BadLimit) for the first limit that is out of its range.
    /// - [`BadTable`](Error::BadTable) for the first table with a bad name or key, with an earlier table's name, or
    ///   with a place of 1,024.
    pub fn open(limits: &Limits, tables: &[Table]) -> Result<Broker> {
        check(version())?;
        let tables: Vec<sys::broker_table> = tables.iter().map(Table::raw).collect();
        let (mut handle, mut why) = (ptr::null_mut(), sys::broker_numbers::default());
        // SAFETY: `tables` has as many tables as the call is told, and their pointers are those of slices. No output
        // overlaps another operand.
        let code = unsafe { sys::broker_open(&mut handle, &limits.into(), tables.as_ptr(), tables.len(), &mut why) };
        match code {
            sys::BROKER_OK => Ok(Broker { handle, name: name::new() }),
            _ => Err(Error::new(code, why)),
        }
    }

    /// The broker's name: 32 hexadecimal digits, drawn by [`Broker::open`]. Another broker has another one.
    ///
    /// A replica stores it beside its cursor. A cursor under another name says nothing about this broker's entries.
    pub fn name(&self) -> &str {
        &self.name
    }

    /// Frees the sequence, the subscriptions and all else of the broker. Each later call returns [`Error::Shut`].
    ///
    /// Dropping the broker frees it too. This is for a broker that others still hold, as in a mutex.
    pub fn shut(&mut self) {
        // SAFETY: the handle isn't freed before the drop.
        unsafe { sys::broker_shut(self.handle) }
    }

    /// The handle.
    pub(crate) fn handle(&self) -> *mut sys::broker {
        self.handle
    }

    /// Whether a call is done: `true` for `BROKER_OK`, `false` for `BROKER_IDLE`. Else it is the error of the code.
    pub(crate) fn done(&self, code: c_int) -> Result<bool> {
        match code {
            0.. => Ok(code == sys::BROKER_OK),
            _ => Err(self.error(code)),
        }
    }

    /// The error of a code that this broker has just returned.
    pub(crate) fn error(&self, code: c_int) -> Error {
        let mut why = sys::broker_numbers::default();
        if code <= sys::BROKER_FAULT {
            // SAFETY: the handle isn't freed before the drop. A shut handle sets nothing.
            let _ = unsafe { sys::broker_why(self.handle, &mut why) };
        }
        Error::new(code, why)
    }

    /// The number that a call sets.
    pub(crate) fn number(&self, call: impl FnOnce(*mut sys::broker, *mut u64) -> c_int) -> Result<u64> {
        let mut number = 0;
        self.done(call(self.handle, &mut number)).map(|_| number)
    }

    /// Lets `out` be the text that a call writes. The call gets a place and how many bytes are there. It returns the
    /// text's length, and writes the text only if there is room. So the call is made a second time if there wasn't.
    pub(crate) fn fill(&self, out: &mut Vec<u8>, call: impl Fn(*mut sys::broker, *mut u8, usize) -> i64) -> Result<()> {
        out.clear();
        loop {
            let room = out.capacity();
            let answer = call(self.handle, out.as_mut_ptr(), room);
            let Ok(len) = usize::try_from(answer) else { return Err(self.error(answer as c_int)) };
            if len <= room {
                // SAFETY: the call has written `len` bytes, and there is room for them.
                unsafe { out.set_len(len) };
                return Ok(());
            }
            out.try_reserve_exact(len).map_err(|_| Error::NoMemory)?;
        }
    }

    /// The same as a new vector.
    pub(crate) fn filled(&self, call: impl Fn(*mut sys::broker, *mut u8, usize) -> i64) -> Result<Vec<u8>> {
        let mut out = Vec::new();
        self.fill(&mut out, call).map(|()| out)
    }
}

/// Refuses a library of another major or minor version.
fn check(found: u32) -> Result<()> {
    match found / 1000 == sys::BROKER_VERSION_NUMBER.unsigned_abs() / 1000 {
        true => Ok(()),
        false => Err(Error::Version { found }),
    }
}

#[cfg(test)]
mod tests {
    use super::*;

    #[test]
    fn versions_that_fit() {
        let own = sys::BROKER_VERSION_NUMBER.unsigned_abs();
        assert_eq!(check(own), Ok(()));
        assert_eq!(check(own / 1000 * 1000 + 999), Ok(()));
        for found in [0, own + 1000, own + 1_000_000] {
            assert_eq!(check(found), Err(Error::Version { found }));
        }
    }
}
