//! Metadata to and from JPEG application segments.

#[cfg(feature = "alloc")]
use alloc::{vec, vec::Vec};

#[cfg(feature = "alloc")]
use crate::MAX_FILE;
use crate::{answer, ffi, Refusal};

/// What a run of segments carries. An absent payload is empty.
#[derive(Clone, Copy, Debug, Default, PartialEq, Eq, Hash)]
pub struct Payloads<'a> {
    /// EXIF data, tag 1.
    pub exif: &'a [u8],
    /// XMP, tag 3.
    pub xmp: &'a [u8],
    /// The ICC profile, tag 2.
    pub icc: &'a [u8],
}

/// Writes the EXIF, XMP and ICC payloads of a file (tags 1, 3 and 2) as JPEG application segments, in that
/// order, and answers how many bytes these are. The rest of `out` is unchanged. The segments stand in a JPEG
/// after its first two bytes.
///
/// An empty payload has no segment. Payloads are taken as they are: the extra zero byte with
/// which libbpg's EXIF begins stays. A file with one of these tags twice is refused, and so is a payload that its
/// segments cannot hold: EXIF above 65,527 bytes, XMP above 65,504, ICC above 255 segments of 65,519.
///
/// ```
/// # let file = *b"BPG\xFB\x20\x00\x08\x84\x1E\x00\x03\x92\x4D\x00\x26\x01";
/// # let source = [&file[..], b"II*\0"].concat();
/// # let mut record = bpg::read(&file)?;
/// # let payload = bpg::Span::try_from(file.len()..source.len())?;
/// # record.push_entry(bpg::Entry::new(bpg::tag::EXIF, payload))?;
/// # let file = bpg::write_to_vec(&record, &source)?;
/// // A file whose EXIF data is the four bytes `II*\0`.
/// let mut out = [0; 14];
/// assert_eq!(bpg::export_segments(&file, &mut out), Ok(14));
/// assert_eq!(out, *b"\xFF\xE1\x00\x0CExif\0\0II*\0");
/// # Ok::<(), Box<dyn std::error::Error>>(())
/// ```
pub fn export_segments(file: &[u8], out: &mut [u8]) -> Result<usize, Refusal> {
    let (status, count, offset) = ffi::export_segments(file, out);
    answer(status, offset)?;
    Ok(count)
}

/// The segments of [`export_segments`].
///
/// ```
/// // File A of the examples has no metadata.
/// let file = *b"BPG\xFB\x20\x00\x08\x84\x1E\x00\x03\x92\x4D\x00\x26\x01";
/// assert_eq!(bpg::export_segments_to_vec(&file), Ok(vec![]));
/// ```
#[cfg(feature = "alloc")]
pub fn export_segments_to_vec(file: &[u8]) -> Result<Vec<u8>, Refusal> {
    // What stands before the payloads: 10 bytes for EXIF, 33 for XMP, 18 for each of at most 255 chunks.
    let mut run = vec![0; file.len().min(MAX_FILE) + 10 + 33 + 18 * 255];
    let count = export_segments(file, &mut run)?;
    run.truncate(count);
    Ok(run)
}

/// Writes the payloads of a run of segments, as [`export_segments`] makes it, end to end into `out`, and
/// answers them as parts of it. A buffer as long as the run is always enough; what follows the payloads in it
/// is unchanged. Any other run is refused: another order or marker, an empty payload's segment, chunks that are
/// not numbered from 1 or not full before the last, a byte more.
///
/// ```
/// let run = *b"\xFF\xE1\x00\x0CExif\0\0II*\0";
/// let mut out = [0; 14];
/// let payloads = bpg::import_segments(&run, &mut out)?;
/// assert_eq!(payloads.exif, b"II*\0");
/// assert_eq!((payloads.xmp, payloads.icc), (&[][..], &[][..]));
///
/// let refusal = bpg::import_segments(&run[..13], &mut out).unwrap_err();
/// assert_eq!(refusal.reason, bpg::Reason::BadSegments);
/// # Ok::<(), bpg::Refusal>(())
/// ```
pub fn import_segments<'a>(run: &[u8], out: &'a mut [u8]) -> Result<Payloads<'a>, Refusal> {
    let (status, [exif, xmp, icc]) = ffi::import_segments(run, out);
    answer(status, 0)?;
    let (exif, rest) = out.split_at(exif);
    let (xmp, rest) = rest.split_at(xmp);
    let icc = &rest[..icc];
    Ok(Payloads { exif, xmp, icc })
}
