//! The declarations of this crate agree with `broker.h`, `changeset.h`, `gubzelk.h` and `sqlite3.h`.
mod header;
mod layout;
mod prototypes;
