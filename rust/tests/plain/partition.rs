//! How many bytes of a file are of which kind.

use bpg::Refusal;

use super::read;

/// The bytes of the head, of the entry heads, of the payloads, of the HEVC headers with their lengths, and of the data.
pub fn partition(file: &[u8]) -> Result<[usize; 5], Refusal> {
    let record = read(file)?;
    let numbers = if record.extension_present_flag { 4 } else { 3 };
    let head = after_numbers(file, 6, numbers);
    let entries = record.used().unwrap_or_default();
    let payloads = entries.iter().map(|entry| entry.payload.length as usize);
    let payloads = payloads.sum();
    let entries_end = entries
        .last()
        .map_or(head, |entry| entry.payload.range().end);
    let data = record.data.range();
    Ok([
        head,
        entries_end - head - payloads,
        payloads,
        data.start - entries_end,
        file.len() - data.start,
    ])
}

/// The place after so many numbers of a file that was accepted: the last byte of each is below 0x80.
fn after_numbers(file: &[u8], start: usize, count: usize) -> usize {
    let bytes = file[start..].iter().enumerate();
    let mut ends = bytes.filter(|(_, &byte)| byte < 0x80);
    ends.nth(count - 1).map_or(start, |(i, _)| start + i + 1)
}
