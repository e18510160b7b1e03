//! Keys of rows.

/// A key of a row, for [`Broker::row`](crate::Broker::row): the values of the table's key columns, in the order of the
/// columns. (Not in the order of the primary key, where that differs.)
///
/// ```
/// let key = gubzelk::Key::new().integer(7).text("lamp");
/// assert_eq!(key.as_bytes(), b"\x01\0\0\0\0\0\0\0\x07\x03\x04lamp");
/// ```
#[derive(Clone, Debug, Default, PartialEq, Eq, PartialOrd, Ord, Hash)]
pub struct Key(Vec<u8>);

impl Key {
    /// A key without values.
    pub fn new() -> Key {
        Key::default()
    }

    /// Adds an INTEGER.
    pub fn integer(mut self, value: i64) -> Key {
        self.0.push(1);
        self.0.extend(value.to_be_bytes());
        self
    }

    /// Adds a TEXT.
    pub fn text(self, value: &str) -> Key {
        self.bytes(3, value.as_bytes())
    }

    /// Adds a BLOB.
    pub fn blob(self, value: &[u8]) -> Key {
        self.bytes(4, value)
    }

    /// The bytes that the values have in a changeset.
    pub fn as_bytes(&self) -> &[u8] {
        &self.0
    }

    /// Adds a value of a type, with its length before it.
    fn bytes(mut self, kind: u8, value: &[u8]) -> Key {
        self.0.push(kind);
        self.varint(value.len() as u64);
        self.0.extend(value);
        self
    }

    /// Adds a number as SQLite's varint: seven bits a byte, the highest first, and the top bit in all bytes but the
    /// last. No value of a changeset is so long that it needs the ninth byte, which has eight bits.
    fn varint(&mut self, number: u64) {
        let more = (1..8).rev().filter(|i| number >> (7 * i) > 0);
        self.0.extend(more.map(|i| (number >> (7 * i)) as u8 | 0x80));
        self.0.push(number as u8 & 0x7f);
    }
}

/// A key with these bytes, as they stand in a changeset.
impl From<Vec<u8>> for Key {
    fn from(bytes: Vec<u8>) -> Key {
        Key(bytes)
    }
}

#[cfg(test)]
mod tests {
    use super::Key;

    #[test]
    fn lengths_are_varints() {
        for (len, varint) in
            [(0, &[0][..]), (127, &[0x7f]), (128, &[0x81, 0]), (16_383, &[0xff, 0x7f]), (16_384, &[0x81, 0x80, 0])]
        {
            let key = Key::new().blob(&vec![9; len]);
            assert_eq!(key.as_bytes()[..=varint.len()], [&[4], varint].concat());
            assert_eq!(key.as_bytes().len(), 1 + varint.len() + len);
        }
    }

    #[test]
    fn integers_are_eight_bytes() {
        assert_eq!(Key::new().integer(-2).as_bytes(), b"\x01\xff\xff\xff\xff\xff\xff\xff\xfe");
    }
}
