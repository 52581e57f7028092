//! Writing records, in buffers of the right size, smaller and larger.

use super::record::package_of;
use super::{hex, same, status, Buffers, Call, Table, SMALL};
use crate::cases::records::Case;
use crate::cases::Random;
use crate::plain;

/// More bytes than the head and headers of a file have.
const HEAD: usize = 200;

pub fn write(case: &Case, buffers: &mut Buffers, random: &mut Random, table: &mut Table) {
    // Ranges may overlap: a file can have each of its 17 parts as long as the source.
    let enough = 17 * (case.source.len() + 10) + HEAD;
    let larger = enough.min(buffers.size());
    write_size(case, table);
    let Some(size) = write_in(case, larger, buffers, random, table) else {
        write_in(case, random.below(larger), buffers, random, table);
        return;
    };
    write_in(case, size, buffers, random, table);
    write_in(case, size - 1, buffers, random, table);
    let larger = (size + random.within(1, 9)).min(buffers.size());
    write_in(case, larger, buffers, random, table);
}

/// Both answers into buffers of `capacity` bytes, and the size of the file.
pub fn write_in(
    case: &Case,
    capacity: usize,
    buffers: &mut Buffers,
    random: &mut Random,
    table: &mut Table,
) -> Option<usize> {
    let (numbers, source) = (case.numbers.as_slice(), &case.source);
    let text = || {
        let source = hex(source);
        format!("written into {capacity} bytes: {numbers:?}\nsource: {source}")
    };
    let pair = buffers.pair(capacity);
    let expected = plain::write_list(numbers, source, pair.plain);
    let (number, count) = bpg::ffi::write(numbers, source, pair.library);
    same("the status", &text, (number, 0), status(&expected));
    same("the count", &text, count, expected.unwrap_or(0));
    same("a byte of the buffer", &text, pair.fault(count), None);
    table.count(Call::Write, number);
    if let Ok(mut record) = plain::record_of(numbers) {
        // The coded size is not looked at.
        record.coded_width = random.next();
        record.coded_height = random.next();
        let wrapped = bpg::write(&package_of(&record), source, pair.library);
        let expected = plain::write(&record, source, pair.plain);
        same("the wrapper's answer", &text, wrapped, expected);
        same("a byte afterwards", &text, pair.fault(count), None);
    }
    expected.ok()
}

/// The size of the file, the list of the package's record, and the file that it makes.
pub fn write_size(case: &Case, table: &mut Table) {
    let (numbers, source) = (case.numbers.as_slice(), &case.source);
    let text = || format!("size of {numbers:?}\nsource: {}", hex(source));
    let expected = plain::write_list_size(numbers, source);
    let (number, count) = bpg::ffi::write_size(numbers, source);
    same("the status", &text, (number, 0), status(&expected));
    same("the count", &text, count, expected.unwrap_or(0));
    table.count(Call::WriteSize, number);
    let Ok(record) = plain::record_of(numbers) else {
        return;
    };
    let expected = plain::write_size(&record, source);
    let record = package_of(&record);
    let list = bpg::ffi::numbers(&record);
    same("the record's list", &text, list, &numbers[..list.len()]);
    let wrapped = bpg::write_size(&record, source);
    same("the wrapper's answer", &text, wrapped, expected);
    if expected.unwrap_or(0) < SMALL {
        let made = bpg::write_to_vec(&record, source).map(|file| file.len());
        same("the file that is made", &text, made, expected);
    }
}
