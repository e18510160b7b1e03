//! The calls of `changeset.h`, with its struct and its codes. The kinds of faults have the numbers of `broker.h`.
use core::ffi::c_int;

/// The text spells no changeset.
pub const CHANGESET_NONE: c_int = -1;
/// Memory ran out.
pub const CHANGESET_NO_MEMORY: c_int = -2;
/// The texts can't be combined: a section's table has the name of an earlier section's and another shape.
pub const CHANGESET_CLASH: c_int = -3;

/// One of several texts.
#[repr(C)]
#[derive(Clone, Copy, Debug)]
pub struct changeset_text {
    /// Its bytes.
    pub bytes: *const u8,
    /// How many these are.
    pub len: usize,
}

#[allow(missing_docs)] // changeset.h documents them
extern "C" {
    pub fn changeset_check(text: *const u8, len: usize, fault_at: *mut usize, fault_kind: *mut u32) -> i64;
    pub fn changeset_canonical(text: *const u8, len: usize, out: *mut u8, room: usize) -> i64;
    pub fn changeset_invert(text: *const u8, len: usize, out: *mut u8, room: usize) -> i64;
    pub fn changeset_combine(
        texts: *const changeset_text,
        count: usize,
        out: *mut u8,
        room: usize,
        fault_text: *mut usize,
        fault_at: *mut usize,
        fault_kind: *mut u32,
    ) -> i64;
}
