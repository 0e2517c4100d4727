//! The model of mending: document 02, request 11, read as it stands. The plan is read from the left with padded numbers, and its numbers are
//! then written one by one.

use crate::generate::spell;
use crate::reader::{self, Refusal, refuse};

pub const MAX_GROUPS: usize = 10;

/// Reads one padded number at `place`: its value and the place after it.
pub fn read_number(bytes: &[u8], place: usize) -> Result<(u32, usize), Refusal> {
    let mut value = 0u64;
    for group in 0..MAX_GROUPS {
        let Some(&byte) = bytes.get(place + group) else {
            return refuse(2, bytes.len());
        };
        let part = u64::from(byte & 0x7F);
        // From the sixth group on there is room for zeros only.
        if group > 4 && part > 0 {
            return refuse(3, place);
        }
        if group < 5 {
            value |= part << (7 * group);
        }
        if value > u64::from(u32::MAX) {
            return refuse(3, place);
        }
        if byte < 0x80 {
            return Ok((value as u32, place + group + 1));
        }
    }
    refuse(3, place)
}

/// Mends a plan into `out`: the length written, and the groups cut.
pub fn mend(bytes: &[u8], out: &mut [u8]) -> Result<(usize, usize), Refusal> {
    reader::check(bytes, read_number)?;
    let mut mended = Vec::new();
    let mut cut = 0;
    let mut place = 0;
    while place < bytes.len() {
        let (value, next) = read_number(bytes, place)?;
        let shortest = spell(value);
        cut += next - place - shortest.len();
        mended.extend(shortest);
        place = next;
    }
    if out.len() < mended.len() {
        return refuse(18, 0);
    }
    out[..mended.len()].copy_from_slice(&mended);
    Ok((mended.len(), cut))
}
