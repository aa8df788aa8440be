//! Bytes that C lends.

/// The bytes at an address.
///
/// # Safety
///
/// As many bytes as `length` says are there and stay as they are for `'a`, or `length` is 0.
pub unsafe fn bytes<'a>(at: *const u8, length: usize) -> &'a [u8] {
    if length == 0 {
        return &[];
    }
    unsafe { std::slice::from_raw_parts(at, length) }
}

/// The bytes at an address, to be written.
///
/// # Safety
///
/// As many bytes as `length` says are there, and nothing else reads or writes them for `'a`, or `length` is 0.
pub unsafe fn bytes_mut<'a>(at: *mut u8, length: usize) -> &'a mut [u8] {
    if length == 0 {
        return &mut [];
    }
    unsafe { std::slice::from_raw_parts_mut(at, length) }
}
