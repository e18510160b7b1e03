//! The calls of `gubzelk.h`, with its structs and codes, and the calls of `sqlite3.h` that a safe interface needs.
mod calls;
mod codes;
mod sqlite;

pub use calls::*;
pub use codes::*;
pub use sqlite::*;
