//! The files of a buffer, each read alone.

use bpg::{Reason, Refusal};

use super::{read, refuse};

/// The status and the offset of each file, into lists that are as long as that of the lengths.
pub fn batch(
    buffer: &[u8],
    lengths: &[u32],
    statuses: &mut [u8],
    offsets: &mut [u32],
) -> Result<(), Refusal> {
    let total: u128 = lengths.iter().map(|&length| u128::from(length)).sum();
    let differ = statuses.len() != lengths.len() || offsets.len() != lengths.len();
    if differ || total != buffer.len() as u128 {
        return refuse(Reason::BadBatch, 0);
    }
    let mut rest = buffer;
    for ((&length, status), offset) in lengths.iter().zip(statuses).zip(offsets) {
        let (file, after) = rest.split_at(length as usize);
        (*status, *offset) = match read(file) {
            Ok(_) => (0, 0),
            Err(refusal) => (refusal.number(), refusal.offset as u32),
        };
        rest = after;
    }
    Ok(())
}
