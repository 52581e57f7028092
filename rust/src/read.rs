//! Reading: the record of a file, its entries and its data.

use crate::{ffi, Entries, Entry, Record, Refusal, Span};

/// Reads a file: its record, or why and where it is refused.
///
/// ```
/// // File A of the examples.
/// let file = *b"BPG\xFB\x20\x00\x08\x84\x1E\x00\x03\x92\x4D\x00\x26\x01";
/// let record = bpg::read(&file)?;
/// assert_eq!(bpg::PixelFormat::try_from(record.pixel_format()), Ok(bpg::PixelFormat::Yuv420Jpeg));
/// assert_eq!((record.picture_width(), record.picture_height()), (8, 542));
/// assert_eq!((record.coded_width(), record.coded_height()), (8, 544));
/// assert_eq!(record.data(&file), Some(&[0x26, 0x01][..]));
///
/// let refusal = bpg::read(&file[..9]).unwrap_err();
/// assert_eq!((refusal.number(), refusal.offset), (2, 9));
/// # Ok::<(), bpg::Refusal>(())
/// ```
#[inline]
pub fn read(file: &[u8]) -> Result<Record, Refusal> {
    ffi::read_record(file)
}

/// The entry with index `k`, from 0. `None` past the last entry and for a refused file.
///
/// ```
/// // File A of the examples has no entry; file C has one, the animation control.
/// let a = *b"BPG\xFB\x20\x00\x08\x84\x1E\x00\x03\x92\x4D\x00\x26\x01";
/// let c = *b"BPG\xFB\x20\x09\x08\x84\x1E\x00\x05\x05\x03\x00\x01\x0A\x03\x92\x4D\x00\x26\x01";
/// assert_eq!(bpg::entry(&a, 0), None);
/// let control = bpg::entry(&c, 0).unwrap();
/// assert_eq!((control.tag_offset(), control.span().range()), (11, 13..16));
/// ```
pub fn entry(file: &[u8], k: usize) -> Option<Entry> {
    let (found, [tag, start, length, tag_offset]) = ffi::entry(file, k);
    let mut entry = Entry::new(tag, Span { start, length });
    entry.set_tag_offset(tag_offset);
    found.then_some(entry)
}

/// The payload of the entry with index `k`, from 0, as that part of the file: nothing is copied.
/// Empty past the last entry and for a refused file; [`entry`] and [`read`] tell which it was.
///
/// ```
/// // Files A and C of the examples.
/// let a = *b"BPG\xFB\x20\x00\x08\x84\x1E\x00\x03\x92\x4D\x00\x26\x01";
/// let c = *b"BPG\xFB\x20\x09\x08\x84\x1E\x00\x05\x05\x03\x00\x01\x0A\x03\x92\x4D\x00\x26\x01";
/// assert_eq!(bpg::payload(&a, 0), []);
/// assert_eq!(bpg::payload(&c, 0), [0x00, 0x01, 0x0A]);
/// ```
pub fn payload(file: &[u8], k: usize) -> &[u8] {
    let payload = entry(file, k).and_then(|entry| entry.payload(file));
    payload.unwrap_or(&file[..0])
}

/// The entries of a file in their order; none for a refused file.
///
/// ```
/// // Files A and C of the examples.
/// let a = *b"BPG\xFB\x20\x00\x08\x84\x1E\x00\x03\x92\x4D\x00\x26\x01";
/// let c = *b"BPG\xFB\x20\x09\x08\x84\x1E\x00\x05\x05\x03\x00\x01\x0A\x03\x92\x4D\x00\x26\x01";
/// assert_eq!(bpg::entries(&a).count(), 0);
/// let tags: Vec<u32> = bpg::entries(&c).map(|entry| entry.tag()).collect();
/// assert_eq!(tags, [bpg::tag::ANIMATION_CONTROL]);
/// ```
pub fn entries(file: &[u8]) -> Entries {
    Entries::of(read(file).unwrap_or_default())
}

/// The HEVC data of a file, as that part of it; empty for a refused file.
///
/// ```
/// // File A of the examples.
/// let file = *b"BPG\xFB\x20\x00\x08\x84\x1E\x00\x03\x92\x4D\x00\x26\x01";
/// assert_eq!(bpg::data(&file), [0x26, 0x01]);
/// assert_eq!(bpg::data(b"no BPG file"), []);
/// ```
pub fn data(file: &[u8]) -> &[u8] {
    let record = read(file).ok();
    let data = record.and_then(|record| record.data(file));
    data.unwrap_or(&file[..0])
}
