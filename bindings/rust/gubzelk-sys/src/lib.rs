//! The calls of `broker.h`, with its structs and codes, as the header declares them. The crate `gubzelk` is a safe
//! interface over them.
//!
//! `broker.h` says what each call does, what it returns, and what the caller must ensure. The names here are the
//! header's. The calls of `changeset.h` are here too, with the feature `changeset`, and those of `gubzelk.h` with the
//! feature `keeper`.
//!
//! # Linking
//!
//! The build script looks into the folder that the environment variable `GUBZELK_LIB_DIR` names. If it isn't set, the
//! script asks pkg-config for the package `gubzelk-broker`. It links the archives `libbroker_c.a` and
//! `libgubzelk_heap.a`, or else the shared object `libgubzelk.so`. `packaging/install.sh` installs all of them.
//!
//! With the feature `keeper` it also links `libgubzelk_keeper.a` and SQLite, version 3.37 or later with sessions. SQLite
//! is in the folder that `SQLITE3_LIB_DIR` names, or else where pkg-config finds the package `sqlite3`.
#![no_std]
#![allow(non_camel_case_types)]
#![deny(missing_docs)]

mod calls;
#[cfg(feature = "changeset")]
mod changesets;
mod codes;
#[cfg(feature = "keeper")]
mod keeper;

pub use calls::*;
#[cfg(feature = "changeset")]
pub use changesets::*;
pub use codes::*;
#[cfg(feature = "keeper")]
pub use keeper::*;
