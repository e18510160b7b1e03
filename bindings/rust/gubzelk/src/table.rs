//! The tables of a broker.
use gubzelk_sys::broker_table;

/// A table that changesets may be of.
///
/// For `CREATE TABLE item (shop INTEGER, name TEXT, price INTEGER, PRIMARY KEY (name, shop))`:
///
/// ```
/// let item = gubzelk::Table::new("item", &[2, 1, 0]);
/// ```
#[derive(Clone, Copy, Debug, PartialEq, Eq, Hash)]
pub struct Table<'a> {
    /// The bytes of its name: 1 to 1,024, without a zero byte.
    pub name: &'a [u8],
    /// A byte for each of its columns, 1 to 2,000. A column's byte is 0, or its place in the primary key, from 1. It is
    /// `pk` of SQLite's `PRAGMA table_info`.
    pub key: &'a [u8],
}

impl<'a> Table<'a> {
    /// A table with this name and this key. [`Broker::open`](crate::Broker::open) checks both.
    pub fn new<N: AsRef<[u8]> + ?Sized>(name: &'a N, key: &'a [u8]) -> Table<'a> {
        Table { name: name.as_ref(), key }
    }

    /// The same for a call. The pointers are those of the slices, so they are never NULL.
    pub(crate) fn raw(&self) -> broker_table {
        let Table { name, key } = self;
        broker_table { name: name.as_ptr(), name_len: name.len(), key: key.as_ptr(), columns: key.len() }
    }
}
