//! The batch: its status, and both lists.

use bpg::Refusal;

use super::{hex, same, status, Statuses};
use crate::cases::batches::Batch;
use crate::cases::Random;
use crate::plain;

/// The batch's own, and those of its files; 1 is met by the large ones.
pub const BATCH_STATUSES: &[usize] = &[
    0, 2, 3, 4, 5, 6, 7, 8, 9, 10, 11, 12, 13, 14, 15, 16, 17, 26, 30,
];

pub fn batch(batch: &Batch, random: &mut Random, statuses: &mut Statuses) {
    let Batch {
        buffer, lengths, ..
    } = batch;
    let case = || format!("lengths: {lengths:?}\nbuffer: {}", hex(buffer));
    let before = random.bytes(batch.statuses);
    let offsets_before: Vec<_> = (0..batch.offsets).map(|_| random.next() as u32).collect();
    let (mut numbers, mut offsets) = (before.clone(), offsets_before.clone());
    let (mut plain_numbers, mut plain_offsets) = (before.clone(), offsets_before.clone());
    let number = bpg::ffi::batch(buffer, lengths, &mut numbers, &mut offsets);
    let expected = plain::batch(buffer, lengths, &mut plain_numbers, &mut plain_offsets);
    same("the status", &case, (number, 0), status(&expected));
    same("the statuses", &case, &numbers, &plain_numbers);
    same("the offsets", &case, &offsets, &plain_offsets);
    statuses.count(number);
    if number != 0 {
        same("the statuses after a refusal", &case, numbers, before);
        same(
            "the offsets after a refusal",
            &case,
            offsets,
            offsets_before,
        );
        return;
    }
    numbers.iter().for_each(|&number| statuses.count(number));
    same(
        "the wrapper's answer",
        &case,
        bpg::batch_to_vec(buffer, lengths),
        Ok(alone(batch)),
    );
}

/// What reading each file alone answers.
fn alone(batch: &Batch) -> Vec<Result<(), Refusal>> {
    let mut start = 0;
    let files = batch.lengths.iter().map(|&length| {
        let file = &batch.buffer[start..start + length as usize];
        start += length as usize;
        bpg::read(file).map(drop)
    });
    files.collect()
}
