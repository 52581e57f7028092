//! The functions of the proved static library (`include/bpg.h`), as safe functions over slices: all
//! `unsafe` code of the package. For the comparison and the benchmark; programs use the crate's root.
//!
//! Why the calls are sound: each pointer comes from a slice, with that slice's length, or from a
//! local variable. So it is not null, is aligned, and is valid for the call; a `&mut` slice shares no
//! byte with another argument. That the library stays inside these lengths, for every input, is part
//! of its proof, and it has no memory of its own to keep a pointer in. The declarations below are not
//! checked against it by the compiler: they are those of the header, and the comparison runs them all.

use core::mem::MaybeUninit;

use crate::head::HEAD_NUMBERS;
use crate::record::{ENTRY_NUMBERS, FIXED_NUMBERS, RECORD_NUMBERS};
use crate::{Entry, Head, Record, Refusal};

// Results start with values that are no likely answer, so that the comparison sees one that was not set.
const UNSET: usize = usize::MAX;

extern "C" {
    fn bpg_read(
        file: *const u8,
        file_len: usize,
        numbers: *mut u64,
        numbers_len: usize,
        offset: *mut usize,
    ) -> u8;
    fn bpg_head(
        file: *const u8,
        file_len: usize,
        numbers: *mut u64,
        numbers_len: usize,
        offset: *mut usize,
    ) -> u8;
    fn bpg_body(
        head: *const u64,
        head_len: usize,
        file: *const u8,
        file_len: usize,
        numbers: *mut u64,
        numbers_len: usize,
        offset: *mut usize,
    ) -> u8;
    fn bpg_entry(
        file: *const u8,
        file_len: usize,
        k: usize,
        tag: *mut u32,
        start: *mut u32,
        length: *mut u32,
        tag_offset: *mut u32,
    ) -> bool;
    fn bpg_write(
        numbers: *const u64,
        numbers_len: usize,
        source: *const u8,
        source_len: usize,
        out: *mut u8,
        out_len: usize,
        count: *mut usize,
    ) -> u8;
    fn bpg_write_size(
        numbers: *const u64,
        numbers_len: usize,
        source: *const u8,
        source_len: usize,
        count: *mut usize,
    ) -> u8;
    fn bpg_canonicalize(
        file: *const u8,
        file_len: usize,
        out: *mut u8,
        out_len: usize,
        count: *mut usize,
        offset: *mut usize,
    ) -> u8;
    fn bpg_canonical_size(
        file: *const u8,
        file_len: usize,
        count: *mut usize,
        offset: *mut usize,
    ) -> u8;
    fn bpg_frames(
        file: *const u8,
        file_len: usize,
        durations: *mut u16,
        durations_len: usize,
        count: *mut usize,
        offset: *mut usize,
    ) -> u8;
    fn bpg_frame_count(
        file: *const u8,
        file_len: usize,
        count: *mut usize,
        offset: *mut usize,
    ) -> u8;
    fn bpg_check_thumbnails(file: *const u8, file_len: usize, offset: *mut usize) -> u8;
    fn bpg_batch(
        buffer: *const u8,
        buffer_len: usize,
        lengths: *const u32,
        lengths_len: usize,
        statuses: *mut u8,
        statuses_len: usize,
        offsets: *mut u32,
        offsets_len: usize,
    ) -> u8;
    fn bpg_partition(
        file: *const u8,
        file_len: usize,
        head: *mut usize,
        entry_heads: *mut usize,
        payloads: *mut usize,
        headers: *mut usize,
        data: *mut usize,
        offset: *mut usize,
    ) -> u8;
    fn bpg_export_segments(
        file: *const u8,
        file_len: usize,
        out: *mut u8,
        out_len: usize,
        count: *mut usize,
        offset: *mut usize,
    ) -> u8;
    fn bpg_import_segments(
        run: *const u8,
        run_len: usize,
        out: *mut u8,
        out_len: usize,
        exif_len: *mut usize,
        xmp_len: *mut usize,
        icc_len: *mut usize,
    ) -> u8;
    fn bpg_unescape(
        unit: *const u8,
        unit_len: usize,
        out: *mut u8,
        out_len: usize,
        count: *mut usize,
    ) -> u8;
    fn bpg_escape(
        bytes: *const u8,
        bytes_len: usize,
        out: *mut u8,
        out_len: usize,
        count: *mut usize,
    ) -> u8;
}

/// Status and offset; on success the record's numbers stand at the start of `numbers`.
pub fn read(file: &[u8], numbers: &mut [u64]) -> (u8, usize) {
    let mut offset = UNSET;
    // SAFETY: pointers and lengths of slices and of locals; see above.
    let status = unsafe {
        bpg_read(
            file.as_ptr(),
            file.len(),
            numbers.as_mut_ptr(),
            numbers.len(),
            &mut offset,
        )
    };
    (status, offset)
}

/// The record of a file.
#[inline]
pub(crate) fn read_record(file: &[u8]) -> Result<Record, Refusal> {
    let mut record = MaybeUninit::uninit();
    read_into(file, &mut record)?;
    // SAFETY: the file was read, so that the record is initialized.
    Ok(unsafe { record.assume_init() })
}

/// Reads a file into a record, which is as it was if the file is refused.
#[inline]
pub(crate) fn read_over(file: &[u8], record: &mut Record) -> Result<(), Refusal> {
    // SAFETY: `MaybeUninit` has the layout of what it holds, and `read_into` leaves the record initialized.
    read_into(file, unsafe { &mut *core::ptr::from_mut(record).cast() })
}

/// On success the record is initialized: the fixed numbers, and `entry_count` entries, which are at most MAX_ENTRIES.
#[inline]
fn read_into(file: &[u8], record: &mut MaybeUninit<Record>) -> Result<(), Refusal> {
    let mut offset = UNSET;
    // SAFETY: a record is RECORD_NUMBERS numbers of 64 bits, which the library writes and does not read.
    let status = unsafe {
        bpg_read(
            file.as_ptr(),
            file.len(),
            record.as_mut_ptr().cast(),
            RECORD_NUMBERS,
            &mut offset,
        )
    };
    crate::answer(status, offset)
}

/// Status and offset; on success the head's numbers stand at the start of `numbers`.
pub fn head(file: &[u8], numbers: &mut [u64]) -> (u8, usize) {
    let mut offset = UNSET;
    // SAFETY: pointers and lengths of slices and of locals; see above.
    let status = unsafe {
        bpg_head(
            file.as_ptr(),
            file.len(),
            numbers.as_mut_ptr(),
            numbers.len(),
            &mut offset,
        )
    };
    (status, offset)
}

/// Status and offset; on success the record's numbers stand at the start of `numbers`.
pub fn body(head: &[u64], file: &[u8], numbers: &mut [u64]) -> (u8, usize) {
    let mut offset = UNSET;
    // SAFETY: pointers and lengths of slices and of locals; see above.
    let status = unsafe {
        bpg_body(
            head.as_ptr(),
            head.len(),
            file.as_ptr(),
            file.len(),
            numbers.as_mut_ptr(),
            numbers.len(),
            &mut offset,
        )
    };
    (status, offset)
}

/// The head of a file.
#[inline]
pub(crate) fn read_head(file: &[u8]) -> Result<Head, Refusal> {
    let mut head = MaybeUninit::<Head>::uninit();
    let mut offset = UNSET;
    // SAFETY: a head is HEAD_NUMBERS numbers of 64 bits, which the library writes and does not read.
    let status = unsafe {
        bpg_head(
            file.as_ptr(),
            file.len(),
            head.as_mut_ptr().cast(),
            HEAD_NUMBERS,
            &mut offset,
        )
    };
    crate::answer(status, offset)?;
    // SAFETY: the head was read, so that all of it is initialized.
    Ok(unsafe { head.assume_init() })
}

/// The record of a file that has this head.
#[inline]
pub(crate) fn read_body(head: &Head, file: &[u8]) -> Result<Record, Refusal> {
    let mut record = MaybeUninit::<Record>::uninit();
    let mut offset = UNSET;
    // SAFETY: a head is HEAD_NUMBERS numbers of 64 bits; a record is RECORD_NUMBERS, which the library writes and does not read.
    let status = unsafe {
        bpg_body(
            core::ptr::from_ref(head).cast(),
            HEAD_NUMBERS,
            file.as_ptr(),
            file.len(),
            record.as_mut_ptr().cast(),
            RECORD_NUMBERS,
            &mut offset,
        )
    };
    crate::answer(status, offset)?;
    // SAFETY: the file was read, so that the record is initialized.
    Ok(unsafe { record.assume_init() })
}

/// A record whose every number is zero.
pub(crate) fn zero_record() -> Record {
    // SAFETY: a record is numbers of 64 bits, for which all bits zero is a value.
    unsafe { MaybeUninit::zeroed().assume_init() }
}

/// The entries of a record that are in use.
#[inline]
pub(crate) fn entries(record: &Record) -> &[Entry] {
    let used = &record.entries[..used(record)];
    // SAFETY: the entries in use are initialized, and `MaybeUninit` has the layout of what it holds.
    unsafe { core::slice::from_raw_parts(used.as_ptr().cast(), used.len()) }
}

/// The entries of a record that are in use, to be changed.
#[inline]
pub(crate) fn entries_mut(record: &mut Record) -> &mut [Entry] {
    let used = used(record);
    let used = &mut record.entries[..used];
    // SAFETY: as above.
    unsafe { core::slice::from_raw_parts_mut(used.as_mut_ptr().cast(), used.len()) }
}

#[inline]
fn used(record: &Record) -> usize {
    record.fixed.entry_count as usize
}

/// A record as the list of numbers that it is, up to the last entry in use.
#[inline]
pub fn numbers(record: &Record) -> &[u64] {
    let count = FIXED_NUMBERS + ENTRY_NUMBERS * entries(record).len();
    // SAFETY: a record is numbers of 64 bits without padding, has their alignment, and is initialized so far.
    unsafe { core::slice::from_raw_parts(core::ptr::from_ref(record).cast(), count) }
}

/// Whether there is an entry with index `k`, and its tag, start, length and tag offset, or zeros.
pub fn entry(file: &[u8], k: usize) -> (bool, [u32; 4]) {
    let [mut tag, mut start, mut length, mut tag_offset] = [u32::MAX; 4];
    // SAFETY: pointers and lengths of slices and of locals; see above.
    let found = unsafe {
        bpg_entry(
            file.as_ptr(),
            file.len(),
            k,
            &mut tag,
            &mut start,
            &mut length,
            &mut tag_offset,
        )
    };
    (found, [tag, start, length, tag_offset])
}

/// Status and count; on success that many bytes stand at the start of `out`.
pub fn write(numbers: &[u64], source: &[u8], out: &mut [u8]) -> (u8, usize) {
    let mut count = UNSET;
    // SAFETY: pointers and lengths of slices and of locals; see above.
    let status = unsafe {
        bpg_write(
            numbers.as_ptr(),
            numbers.len(),
            source.as_ptr(),
            source.len(),
            out.as_mut_ptr(),
            out.len(),
            &mut count,
        )
    };
    (status, count)
}

/// Status and count.
pub fn write_size(numbers: &[u64], source: &[u8]) -> (u8, usize) {
    let mut count = UNSET;
    // SAFETY: pointers and lengths of slices and of locals; see above.
    let status = unsafe {
        bpg_write_size(
            numbers.as_ptr(),
            numbers.len(),
            source.as_ptr(),
            source.len(),
            &mut count,
        )
    };
    (status, count)
}

/// Status, count and offset; on success that many bytes stand at the start of `out`.
pub fn canonicalize(file: &[u8], out: &mut [u8]) -> (u8, usize, usize) {
    let [mut count, mut offset] = [UNSET; 2];
    // SAFETY: pointers and lengths of slices and of locals; see above.
    let status = unsafe {
        bpg_canonicalize(
            file.as_ptr(),
            file.len(),
            out.as_mut_ptr(),
            out.len(),
            &mut count,
            &mut offset,
        )
    };
    (status, count, offset)
}

/// Status, count and offset.
pub fn canonical_size(file: &[u8]) -> (u8, usize, usize) {
    let [mut count, mut offset] = [UNSET; 2];
    // SAFETY: pointers and lengths of slices and of locals; see above.
    let status = unsafe { bpg_canonical_size(file.as_ptr(), file.len(), &mut count, &mut offset) };
    (status, count, offset)
}

/// Status, count and offset; on success that many durations stand at the start of `durations`.
pub fn frames(file: &[u8], durations: &mut [u16]) -> (u8, usize, usize) {
    let [mut count, mut offset] = [UNSET; 2];
    // SAFETY: pointers and lengths of slices and of locals; see above.
    let status = unsafe {
        bpg_frames(
            file.as_ptr(),
            file.len(),
            durations.as_mut_ptr(),
            durations.len(),
            &mut count,
            &mut offset,
        )
    };
    (status, count, offset)
}

/// Status, count and offset.
pub fn frame_count(file: &[u8]) -> (u8, usize, usize) {
    let [mut count, mut offset] = [UNSET; 2];
    // SAFETY: pointers and lengths of slices and of locals; see above.
    let status = unsafe { bpg_frame_count(file.as_ptr(), file.len(), &mut count, &mut offset) };
    (status, count, offset)
}

/// Status and offset.
pub fn check_thumbnails(file: &[u8]) -> (u8, usize) {
    let mut offset = UNSET;
    // SAFETY: pointers and lengths of slices and of locals; see above.
    let status = unsafe { bpg_check_thumbnails(file.as_ptr(), file.len(), &mut offset) };
    (status, offset)
}

/// Status; on success the lists have the status and the offset of each file.
pub fn batch(buffer: &[u8], lengths: &[u32], statuses: &mut [u8], offsets: &mut [u32]) -> u8 {
    // SAFETY: pointers and lengths of slices and of locals; see above.
    unsafe {
        bpg_batch(
            buffer.as_ptr(),
            buffer.len(),
            lengths.as_ptr(),
            lengths.len(),
            statuses.as_mut_ptr(),
            statuses.len(),
            offsets.as_mut_ptr(),
            offsets.len(),
        )
    }
}

/// Status, the five counts in the order of the file, and offset.
pub fn partition(file: &[u8]) -> (u8, [usize; 5], usize) {
    let [mut head, mut entry_heads, mut payloads, mut headers, mut data, mut offset] = [UNSET; 6];
    // SAFETY: pointers and lengths of slices and of locals; see above.
    let status = unsafe {
        bpg_partition(
            file.as_ptr(),
            file.len(),
            &mut head,
            &mut entry_heads,
            &mut payloads,
            &mut headers,
            &mut data,
            &mut offset,
        )
    };
    (status, [head, entry_heads, payloads, headers, data], offset)
}

/// Status, count and offset; on success that many bytes stand at the start of `out`.
pub fn export_segments(file: &[u8], out: &mut [u8]) -> (u8, usize, usize) {
    let [mut count, mut offset] = [UNSET; 2];
    // SAFETY: pointers and lengths of slices and of locals; see above.
    let status = unsafe {
        bpg_export_segments(
            file.as_ptr(),
            file.len(),
            out.as_mut_ptr(),
            out.len(),
            &mut count,
            &mut offset,
        )
    };
    (status, count, offset)
}

/// Status, and the lengths of EXIF, XMP and ICC, which on success stand end to end at the start of `out`.
pub fn import_segments(run: &[u8], out: &mut [u8]) -> (u8, [usize; 3]) {
    let [mut exif, mut xmp, mut icc] = [UNSET; 3];
    // SAFETY: pointers and lengths of slices and of locals; see above.
    let status = unsafe {
        bpg_import_segments(
            run.as_ptr(),
            run.len(),
            out.as_mut_ptr(),
            out.len(),
            &mut exif,
            &mut xmp,
            &mut icc,
        )
    };
    (status, [exif, xmp, icc])
}

/// Status and count; on success that many bytes stand at the start of `out`.
pub fn unescape(unit: &[u8], out: &mut [u8]) -> (u8, usize) {
    let mut count = UNSET;
    // SAFETY: pointers and lengths of slices and of locals; see above.
    let status = unsafe {
        bpg_unescape(
            unit.as_ptr(),
            unit.len(),
            out.as_mut_ptr(),
            out.len(),
            &mut count,
        )
    };
    (status, count)
}

/// Status and count; on success that many bytes stand at the start of `out`.
pub fn escape(bytes: &[u8], out: &mut [u8]) -> (u8, usize) {
    let mut count = UNSET;
    // SAFETY: pointers and lengths of slices and of locals; see above.
    let status = unsafe {
        bpg_escape(
            bytes.as_ptr(),
            bytes.len(),
            out.as_mut_ptr(),
            out.len(),
            &mut count,
        )
    };
    (status, count)
}
