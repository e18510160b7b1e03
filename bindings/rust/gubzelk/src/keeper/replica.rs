//! A replica: a file that is kept a copy of a database.
use super::connection::{c_path, milliseconds};
use super::error::{Error, Result};
use super::options::Options;
use super::status::ReplicaStatus;
use gubzelk_sys as sys;
use std::path::Path;
use std::time::Duration;
use std::{fmt, ptr};

/// A file that becomes and stays a copy of a source's database, as steps are made.
///
/// ```no_run
/// # use gubzelk::keeper::{Options, Replica, Result, Step};
/// # use std::time::Duration;
/// # fn main() -> Result<()> {
/// let mut replica = Replica::open("copy.db", "live.db", &Options::default())?;
/// loop {
///     match replica.step(Duration::from_secs(1))? {
///         Step::Applied => {}
///         Step::Idle => println!("the file has everything"),
///         Step::Away => println!("no source listens"),
///         Step::Lags => println!("the file lags: {}", replica.status().error),
///     }
/// }
/// # }
/// ```
///
/// Others may read the file at any time, and nobody writes it. It has no triggers, and no indexes made by CREATE UNIQUE
/// INDEX. Beside it lies a lock, the file's name with `-gz-lock` after it. Dropping a replica ends it: the file keeps
/// what it has, and the next [`Replica::open`] goes on from there.
pub struct Replica {
    handle: *mut sys::gz_replica,
}

// SAFETY: a handle may go to another thread. It isn't `Sync`: no two threads make calls at once.
unsafe impl Send for Replica {}

impl Drop for Replica {
    fn drop(&mut self) {
        // SAFETY: the handle is this replica's, and nobody else closes it.
        unsafe { sys::gz_replica_close(self.handle) }
    }
}

impl fmt::Debug for Replica {
    fn fmt(&self, f: &mut fmt::Formatter<'_>) -> fmt::Result {
        f.debug_struct("Replica").field("status", &self.status()).finish_non_exhaustive()
    }
}

/// What a step of a replica has done. Only [`Step::Idle`] says that the file has everything.
#[derive(Clone, Copy, Debug, PartialEq, Eq, Hash)]
#[must_use = "only Idle says that the file has everything"]
pub enum Step {
    /// A batch is applied, a slice of a copy is written, or the file goes on with a new broker. There may be more.
    Applied,
    /// The file has everything that was committed before the call, and nothing new came within the timeout.
    Idle,
    /// No source listens. The file stays as it is, and may not have everything.
    Away,
    /// The file doesn't have everything, and can't be brought further now. It is locked, read-only or full, or the source
    /// doesn't answer, or others wrote to the database. [`ReplicaStatus::error`] has the words. The next step tries
    /// again.
    Lags,
}

impl Replica {
    /// Opens a replica. Neither file has to exist yet, and no source has to listen.
    ///
    /// # Errors
    /// [`LongPath`](Error::LongPath), [`Taken`](Error::Taken), [`System`](Error::System); and
    /// [`Operand`](Error::Operand) for a path or an option with a zero byte.
    pub fn open(file: impl AsRef<Path>, source_file: impl AsRef<Path>, options: &Options) -> Result<Replica> {
        let (file, source_file) = (c_path(file.as_ref())?, c_path(source_file.as_ref())?);
        options.pass(|options| {
            let mut handle = ptr::null_mut();
            // SAFETY: both paths end with a zero byte, and the library copies all that it keeps.
            match unsafe { sys::gz_replica_open(&mut handle, file.as_ptr(), source_file.as_ptr(), options) } {
                sys::GZ_OK => Ok(Replica { handle }),
                code => Err(Error::new(code, ptr::null_mut())),
            }
        })
    }

    /// A replica of a handle that `gubzelk_sys::gz_replica_open` has set. This is for the option `setup`, which adds the
    /// functions and collations that the schema names.
    ///
    /// # Safety
    /// The handle is open, and nobody else uses or closes it. Its `setup`, if it has one, may be called by any thread
    /// that the replica is sent to.
    pub unsafe fn from_raw(handle: *mut sys::gz_replica) -> Replica {
        Replica { handle }
    }

    /// Brings the file further by at most one batch or one slice of a copy.
    ///
    /// It waits for news at most `timeout`, rounded up to a millisecond, plus some 0.2 s for an answer, and as long again
    /// for a locked file. A copy is read from the source's file by this process, which needs the right to do so.
    ///
    /// # Errors
    /// [`NotReplica`](Error::NotReplica), [`OtherRole`](Error::OtherRole). Trouble that may pass is no error, but
    /// [`Step::Lags`].
    pub fn step(&mut self, timeout: Duration) -> Result<Step> {
        // SAFETY: the handle is open.
        match unsafe { sys::gz_replica_step(self.handle, milliseconds(timeout)) } {
            sys::GZ_OK => Ok(Step::Applied),
            sys::GZ_IDLE => Ok(Step::Idle),
            sys::GZ_AWAY => Ok(Step::Away),
            sys::GZ_LAGS => Ok(Step::Lags),
            // also a code of a newer library that isn't negative: nobody knows what it says of the file
            code => Err(Error::new(code, ptr::null_mut())),
        }
    }

    /// What the replica says of itself.
    pub fn status(&self) -> ReplicaStatus {
        let mut status = sys::gz_replica_status::default();
        // SAFETY: the handle is open, and the output a struct of this call alone. The call always succeeds.
        unsafe { sys::gz_replica_status(self.handle, &mut status) };
        status.into()
    }
}
