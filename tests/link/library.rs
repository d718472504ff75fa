//! The library's functions.

extern "C" {
    fn record_test(u: u64, bytes: *const u8, len: usize) -> u64;
    fn disk_choice(
        primary: *const u8,
        primary_len: usize,
        standby: *const u8,
        standby_len: usize,
        area: *const u8,
        area_len: usize,
    ) -> u64;
}

/// The word of the library. It requires nothing of U or of the bytes.
pub fn word(u: u64, bytes: &[u8]) -> u64 {
    // A slice's pointer is never null, whatever the length.
    unsafe { record_test(u, bytes.as_ptr(), bytes.len()) }
}

/// The library's choice of disk. It requires nothing of the three.
pub fn choice(primary: &[u8], standby: &[u8], area: &[u8]) -> u64 {
    unsafe {
        disk_choice(
            primary.as_ptr(),
            primary.len(),
            standby.as_ptr(),
            standby.len(),
            area.as_ptr(),
            area.len(),
        )
    }
}
