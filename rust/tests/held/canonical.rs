//! The canonical form, in buffers of the right size, smaller and larger.

use super::{hex, same, status, Buffers, Call, Table, SMALL};
use crate::cases::Random;
use crate::plain;

pub fn canonical(file: &[u8], buffers: &mut Buffers, random: &mut Random, table: &mut Table) {
    canonical_size(file, table);
    let larger = file.len() + random.within(1, 9);
    let Some(size) = canonical_in(file, larger, buffers, table) else {
        canonical_in(file, random.below(larger), buffers, table);
        return;
    };
    canonical_in(file, size, buffers, table);
    canonical_in(file, size - 1, buffers, table);
    canonical_in(file, random.below(size), buffers, table);
    twice(file, size, buffers, table);
}

/// Both answers into buffers of `capacity` bytes, and the size of the form.
pub fn canonical_in(
    file: &[u8],
    capacity: usize,
    buffers: &mut Buffers,
    table: &mut Table,
) -> Option<usize> {
    let case = || format!("canonical form in {capacity} bytes of file: {}", hex(file));
    let pair = buffers.pair(capacity);
    let expected = plain::canonicalize(file, pair.plain);
    let (number, count, offset) = bpg::ffi::canonicalize(file, pair.library);
    same("the status", &case, (number, offset), status(&expected));
    same("the count", &case, count, expected.unwrap_or(0));
    same("a byte of the buffer", &case, pair.fault(count), None);
    table.count(Call::Canonicalize, number);
    let wrapped = bpg::canonicalize(file, pair.library);
    same("the wrapper's answer", &case, wrapped, expected);
    same("a byte afterwards", &case, pair.fault(count), None);
    expected.ok()
}

/// The size of the form, and the form in a buffer of that size.
pub fn canonical_size(file: &[u8], table: &mut Table) {
    let case = || format!("size of the canonical form of file: {}", hex(file));
    let expected = plain::canonical_size(file);
    let (number, count, offset) = bpg::ffi::canonical_size(file);
    same("the status", &case, (number, offset), status(&expected));
    same("the count", &case, count, expected.unwrap_or(0));
    table.count(Call::CanonicalSize, number);
    let wrapped = bpg::canonical_size(file);
    same("the wrapper's answer", &case, wrapped, expected);
    if file.len() < SMALL {
        let made = bpg::canonicalize_to_vec(file).map(|form| form.len());
        same("the form that is made", &case, made, expected);
    }
}

/// The canonical form of the canonical form is itself.
fn twice(file: &[u8], size: usize, buffers: &mut Buffers, table: &mut Table) {
    let case = || format!("canonical form twice of file: {}", hex(file));
    let mut once = vec![0; size];
    let count = bpg::canonicalize(file, &mut once);
    same("the count", &case, count, Ok(size));
    let again = canonical_in(&once, size, buffers, table);
    same("the second count", &case, again, Some(size));
    let fixed = buffers.library(size) == once;
    same("the second form", &case, fixed, true);
}
