//! The kinds of faults, of conflicts, and of tables that are refused.
use gubzelk_sys as sys;
use std::fmt;

/// Makes an enum of numbers, whose variants have their words as documentation and as `Display`.
macro_rules! kinds {
    ($(#[$doc:meta])* $name:ident { $($variant:ident = $number:expr, $words:literal;)* }) => {
        $(#[$doc])*
        #[derive(Clone, Copy, Debug, PartialEq, Eq, Hash)]
        #[non_exhaustive]
        pub enum $name {
            $(#[doc = $words] $variant,)*
            /// A number that this crate doesn't know. The library is newer then.
            Other(u64),
        }

        impl From<u64> for $name {
            fn from(number: u64) -> $name {
                match number {
                    $(it if it == $number as u64 => $name::$variant,)*
                    it => $name::Other(it),
                }
            }
        }

        impl From<$name> for u64 {
            fn from(kind: $name) -> u64 {
                match kind {
                    $($name::$variant => $number as u64,)*
                    $name::Other(number) => number,
                }
            }
        }

        impl fmt::Display for $name {
            fn fmt(&self, f: &mut fmt::Formatter<'_>) -> fmt::Result {
                match self {
                    $($name::$variant => f.write_str($words),)*
                    $name::Other(number) => write!(f, "kind {number}"),
                }
            }
        }
    };
}

kinds! {
    /// The kind of a fault. Its number is the one of `broker_fault_kind` in `broker.h`.
    FaultKind {
        BadMarker = sys::BROKER_FAULT_BAD_MARKER, "the first byte does not begin a changeset";
        Patchset = sys::BROKER_FAULT_PATCHSET, "a patchset begins here, which isn't read";
        Columns = sys::BROKER_FAULT_COLUMNS, "a table has no columns, or more than 2,000";
        NoKey = sys::BROKER_FAULT_NO_KEY, "a table has no key column";
        EmptyName = sys::BROKER_FAULT_EMPTY_NAME, "a table's name is empty";
        NameTooLong = sys::BROKER_FAULT_NAME_TOO_LONG, "a table's name is longer than 1,024 bytes";
        BadOperation = sys::BROKER_FAULT_BAD_OPERATION, "neither a change nor a header begins here";
        BadType = sys::BROKER_FAULT_BAD_TYPE, "no field has this type";
        Real = sys::BROKER_FAULT_REAL, "a REAL value, which isn't read";
        UndefinedField = sys::BROKER_FAULT_UNDEFINED_FIELD, "a field of an INSERT or a DELETE has no value";
        KeyMissing = sys::BROKER_FAULT_KEY_MISSING, "a key column has no value, or is NULL";
        KeyChanged = sys::BROKER_FAULT_KEY_CHANGED, "an UPDATE gives a key column a new value";
        OneSided = sys::BROKER_FAULT_ONE_SIDED, "a column of an UPDATE has a value in only one of its two records";
        ValueTooLong = sys::BROKER_FAULT_VALUE_TOO_LONG, "a value is longer than 16,777,216 bytes";
        TooLong = sys::BROKER_FAULT_TOO_LONG, "the text is longer than 16,777,216 bytes";
        Truncated = sys::BROKER_FAULT_TRUNCATED, "the text ends inside a header or a change";
    }
}

kinds! {
    /// The kind of a conflict. Its number is SQLite's, of `SQLITE_CHANGESET_DATA` and its kind.
    ConflictKind {
        Data = sys::BROKER_CONFLICT_DATA, "the row is there with other values";
        NotFound = sys::BROKER_CONFLICT_NOTFOUND, "the row isn't there";
        Conflict = sys::BROKER_CONFLICT_CONFLICT, "the row is there already";
    }
}

kinds! {
    /// Why a table is refused.
    TableReason {
        Shape = 0, "no table has such a shape, or it is one too many";
        Repeated = 1, "an earlier table has its name";
    }
}

#[cfg(test)]
mod tests {
    use super::*;

    #[test]
    fn numbers_come_back() {
        for number in 0..=20 {
            assert_eq!(u64::from(FaultKind::from(number)), number);
            assert_eq!(u64::from(ConflictKind::from(number)), number);
            assert_eq!(u64::from(TableReason::from(number)), number);
        }
        assert_eq!(FaultKind::from(16), FaultKind::Truncated);
        assert_eq!(FaultKind::from(17), FaultKind::Other(17));
        assert_eq!(ConflictKind::from(3), ConflictKind::Conflict);
    }
}
