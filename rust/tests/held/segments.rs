//! Metadata to and from JPEG segments, in buffers of the right size, smaller and larger.

use bpg::Refusal;

use super::{hex, same, status, Buffers, Statuses};
use crate::cases::{segments, Random};
use crate::plain;

pub const EXPORT_STATUSES: &[usize] = &[0, 2, 3, 7, 8, 15, 16, 20, 34, 35];
pub const IMPORT_STATUSES: &[usize] = &[0, 20, 36];

/// The most bytes that an export has more than the file.
const MORE: usize = 10 + 33 + 18 * 255;

/// How often each status was met, by each call.
pub struct Met {
    pub export: Statuses,
    pub import: Statuses,
}

impl Default for Met {
    fn default() -> Self {
        Met {
            export: Statuses::new("export_segments", EXPORT_STATUSES),
            import: Statuses::new("import_segments", IMPORT_STATUSES),
        }
    }
}

pub fn segments(file: &[u8], buffers: &mut Buffers, random: &mut Random, met: &mut Met) {
    let larger = file.len() + MORE;
    let Some(size) = export_in(file, larger, buffers, met) else {
        return;
    };
    export_in(file, size, buffers, met);
    if size > 0 {
        export_in(file, size - 1, buffers, met);
    }
    let run = bpg::export_segments_to_vec(file).expect("it was exported before");
    let case = || format!("export of {}", hex(file));
    same("the size of the vector", &case, run.len(), size);
    let run = segments::run(run, random);
    let Some(size) = import_in(&run, run.len(), buffers, met) else {
        return;
    };
    import_in(&run, size, buffers, met);
    if size > 0 {
        import_in(&run, random.below(size), buffers, met);
    }
}

/// Both answers into buffers of `capacity` bytes, and how many were written.
fn export_in(file: &[u8], capacity: usize, buffers: &mut Buffers, met: &mut Met) -> Option<usize> {
    let case = || format!("export into {capacity} bytes: {}", hex(file));
    let pair = buffers.pair(capacity);
    let expected = plain::export_segments(file, pair.plain);
    let (number, count, offset) = bpg::ffi::export_segments(file, pair.library);
    same("the status", &case, (number, offset), status(&expected));
    same("the count", &case, count, expected.unwrap_or(0));
    same("a byte of the buffer", &case, pair.fault(count), None);
    met.export.count(number);
    let wrapped = bpg::export_segments(file, pair.library);
    same("the wrapper's answer", &case, wrapped, expected);
    same("a byte afterwards", &case, pair.fault(count), None);
    expected.ok()
}

fn import_in(run: &[u8], capacity: usize, buffers: &mut Buffers, met: &mut Met) -> Option<usize> {
    let case = || format!("import into {capacity} bytes: {}", hex(run));
    let pair = buffers.pair(capacity);
    let expected = plain::import_segments(run, pair.plain);
    let (number, lengths) = bpg::ffi::import_segments(run, pair.library);
    let count = lengths.iter().sum();
    same("the status", &case, (number, 0), status(&expected));
    same("the lengths", &case, lengths, expected.unwrap_or_default());
    same("a byte of the buffer", &case, pair.fault(count), None);
    met.import.count(number);
    let wrapped = wrapped(run, pair.library);
    same("the wrapper's answer", &case, wrapped, expected);
    expected.ok().map(|lengths| lengths.iter().sum())
}

fn wrapped(run: &[u8], out: &mut [u8]) -> Result<[usize; 3], Refusal> {
    let bpg::Payloads { exif, xmp, icc } = bpg::import_segments(run, out)?;
    Ok([exif, xmp, icc].map(<[u8]>::len))
}

/// A whole profile there and back: `size` bytes, or too many of them.
pub fn long_profile(size: usize, buffers: &mut Buffers, met: &mut Met) {
    let file = segments::long_profile(size);
    let case = || format!("a profile of {size} bytes");
    let count = export_in(&file, file.len() + MORE, buffers, met);
    same(
        "whether it fits",
        &case,
        count.is_some(),
        size <= 255 * 65_519,
    );
    if count.is_some() {
        let run = bpg::export_segments_to_vec(&file).expect("it was exported before");
        let back = import_in(&run, size, buffers, met);
        same("what comes back", &case, back, Some(size));
        same(
            "its bytes",
            &case,
            buffers.library(size),
            bpg::payload(&file, 0),
        );
    }
}
