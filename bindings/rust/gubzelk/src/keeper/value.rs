//! The values of SQLite, of each storage class.

/// A value of a row, or one that SQL takes.
///
/// ```
/// use gubzelk::keeper::Value;
/// let values: [Value; 5] = [None::<i64>.into(), 7.into(), 0.5.into(), "seven".into(), b"\x07"[..].into()];
/// assert_eq!(values[1], Value::Integer(7));
/// ```
#[derive(Clone, Debug, Default, PartialEq)]
pub enum Value {
    /// NULL.
    #[default]
    Null,
    /// INTEGER.
    Integer(i64),
    /// REAL. SQLite takes NaN for NULL.
    Real(f64),
    /// TEXT.
    Text(String),
    /// BLOB.
    Blob(Vec<u8>),
}

/// Makes values of types of Rust.
macro_rules! values {
    ($($from:ty: $it:ident => $value:expr;)*) => {$(
        impl From<$from> for Value {
            fn from($it: $from) -> Value {
                $value
            }
        }
    )*};
}

values! {
    i64: it => Value::Integer(it);
    i32: it => Value::Integer(it.into());
    u32: it => Value::Integer(it.into());
    bool: it => Value::Integer(it.into());
    f64: it => Value::Real(it);
    &str: it => Value::Text(it.into());
    String: it => Value::Text(it);
    &[u8]: it => Value::Blob(it.into());
    Vec<u8>: it => Value::Blob(it);
}

impl<T: Into<Value>> From<Option<T>> for Value {
    /// NULL for `None`.
    fn from(it: Option<T>) -> Value {
        it.map_or(Value::Null, T::into)
    }
}
