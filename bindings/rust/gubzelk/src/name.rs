//! Names of brokers.
use std::collections::hash_map::RandomState;
use std::hash::{BuildHasher, Hasher};
use std::process;
use std::time::SystemTime;

/// 128 bits in hexadecimal. They come from the random keys of two hashers, from the clock, and from the process's
/// number, since a fork copies the keys.
pub(crate) fn new() -> String {
    format!("{:016x}{:016x}", bits(), bits())
}

/// 64 bits of a name.
fn bits() -> u64 {
    let mut hasher = RandomState::new().build_hasher();
    hasher.write_u32(process::id());
    let clock = SystemTime::now().duration_since(SystemTime::UNIX_EPOCH).unwrap_or_default();
    hasher.write_u128(clock.as_nanos());
    hasher.finish()
}
