//! The proved writer's functions, linked in.

unsafe extern "C" {
    fn moonhalyard_write(table: *const u32, length: usize, out: *mut u8, room: usize) -> u64;
    fn moonhalyard_rows(bytes: *const u8, length: usize, out: *mut u32, room: usize) -> u64;
}

/// Writes the plan of a table: refusal * 2^32 + place, or its length.
pub fn write(table: &[u32], out: &mut [u8]) -> u64 {
    // The library reads and writes only what it is lent here, and keeps none of it.
    unsafe { moonhalyard_write(table.as_ptr(), table.len(), out.as_mut_ptr(), out.len()) }
}

/// Gives the table of a plan: refusal * 2^32 + place, or how many numbers it has.
pub fn rows(bytes: &[u8], out: &mut [u32]) -> u64 {
    // As above.
    unsafe { moonhalyard_rows(bytes.as_ptr(), bytes.len(), out.as_mut_ptr(), out.len()) }
}
