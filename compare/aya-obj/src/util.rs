//! The crate's `util`: the standard library's maps, with their random order, and a struct's bytes.
pub(crate) use std::collections::{HashMap, HashSet};

/// # Safety
/// `T` is plain old data.
pub(crate) unsafe fn bytes_of<T>(val: &T) -> &[u8] {
    let size = size_of::<T>();
    unsafe { std::slice::from_raw_parts(std::ptr::from_ref(val).cast(), size) }
}
