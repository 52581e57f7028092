//! Writing a record: judged, then measured, then stored.

use bpg::{Reason, Refusal};

use super::check::check;
use super::encode::encode;
use super::list::record_of;
use super::record::{Record, Span};
use super::{refuse, MAX_FILE};

/// The file of a record into `out`, and its size.
pub fn write(record: &Record, source: &[u8], out: &mut [u8]) -> Result<usize, Refusal> {
    match check(record, source) {
        Ok(()) => store(record, source, out),
        Err(reason) => refuse(reason, 0),
    }
}

/// The size of the file of a record.
pub fn write_size(record: &Record, source: &[u8]) -> Result<usize, Refusal> {
    match check(record, source) {
        Ok(()) => file_size(record),
        Err(reason) => refuse(reason, 0),
    }
}

/// The same for a record as a list of numbers, whose own refusals come first.
pub fn write_list(numbers: &[u64], source: &[u8], out: &mut [u8]) -> Result<usize, Refusal> {
    match record_of(numbers) {
        Ok(record) => write(&record, source, out),
        Err(reason) => refuse(reason, 0),
    }
}

pub fn write_list_size(numbers: &[u64], source: &[u8]) -> Result<usize, Refusal> {
    match record_of(numbers) {
        Ok(record) => write_size(&record, source),
        Err(reason) => refuse(reason, 0),
    }
}

/// The size of the file of a record that was judged.
pub fn file_size(record: &Record) -> Result<usize, Refusal> {
    Parts::of(record).file_size()
}

/// Stores a record that was judged.
pub fn store(record: &Record, source: &[u8], out: &mut [u8]) -> Result<usize, Refusal> {
    let parts = Parts::of(record);
    let size = parts.file_size()?;
    let Some(free) = out.get_mut(..size) else {
        return refuse(Reason::BufferTooSmall, 0);
    };
    let mut out = Out { free, source };
    out.head(record, parts.data_length);
    if record.extension_present_flag {
        out.block(record, parts.block);
    }
    if let Some(alpha) = &parts.alpha {
        out.header(alpha);
    }
    out.header(&parts.color);
    out.part(record.data);
    Ok(size)
}

/// What follows from a record: its lengths and its headers' bytes. Lengths are in 64 bits: ranges may
/// overlap, so that the file can have more bytes than the source.
struct Parts {
    alpha: Option<([u8; 16], usize)>,
    color: ([u8; 16], usize),
    block: u64,
    data_length: u64,
    size: u64,
}

impl Parts {
    fn of(record: &Record) -> Parts {
        let alpha = record.has_alpha().then(|| encode(&record.alpha_header));
        let color = encode(&record.color_header);
        // A header has at most 16 bytes, and so its length one.
        let headers = alpha.map_or(0, |(_, length)| 1 + length) + 1 + color.1;
        let picture = headers as u64 + u64::from(record.data.length);
        let data_length = if record.explicit_length { picture } else { 0 };
        let block = block_size(record);
        let mut size = 6 + ue7_size(record.picture_width.into());
        size += ue7_size(record.picture_height.into()) + ue7_size(data_length) + picture;
        if record.extension_present_flag {
            size += ue7_size(block) + block;
        }
        Parts {
            alpha,
            color,
            block,
            data_length,
            size,
        }
    }

    /// The size of the file, if a file may have it.
    fn file_size(&self) -> Result<usize, Refusal> {
        if self.size > MAX_FILE as u64 {
            return refuse(Reason::FileTooLong, 0);
        }
        Ok(self.size as usize)
    }
}

fn block_size(record: &Record) -> u64 {
    let sizes = record.used().unwrap_or_default().iter().map(|entry| {
        let length = u64::from(entry.payload.length);
        ue7_size(entry.tag.into()) + ue7_size(length) + length
    });
    sizes.sum()
}

/// How many bytes ue7(n) takes for a number.
#[inline]
pub fn ue7_size(value: u64) -> u64 {
    let bits = 64 - (value | 1).leading_zeros();
    u64::from(bits.div_ceil(7))
}

/// What is left of the buffer, and the source that ranges lie in.
struct Out<'a> {
    free: &'a mut [u8],
    source: &'a [u8],
}

impl Out<'_> {
    fn head(&mut self, record: &Record, data_length: u64) {
        let alpha1 = u8::from(record.alpha1_flag);
        let format = record.pixel_format << 5 | alpha1 << 4 | record.bit_depth_minus_8;
        let flags = u8::from(record.extension_present_flag) << 3
            | u8::from(record.alpha2_flag) << 2
            | u8::from(record.limited_range_flag) << 1
            | u8::from(record.animation_flag);
        let space = record.color_space << 4 | flags;
        self.bytes(&[0x42, 0x50, 0x47, 0xFB, format, space]);
        self.ue7(record.picture_width.into());
        self.ue7(record.picture_height.into());
        self.ue7(data_length);
    }

    fn block(&mut self, record: &Record, size: u64) {
        self.ue7(size);
        for entry in record.used().unwrap_or_default() {
            self.ue7(entry.tag.into());
            self.ue7(entry.payload.length.into());
            self.part(entry.payload);
        }
    }

    fn header(&mut self, (bytes, length): &([u8; 16], usize)) {
        self.ue7(*length as u64);
        self.bytes(&bytes[..*length]);
    }

    #[inline]
    fn part(&mut self, span: Span) {
        let source = self.source;
        self.bytes(&source[span.range()]);
    }

    #[inline]
    fn ue7(&mut self, value: u64) {
        if value < 0x80 {
            self.take(1)[0] = value as u8;
            return;
        }
        let size = ue7_size(value);
        for (i, byte) in self.take(size as usize).iter_mut().rev().enumerate() {
            let more = if i == 0 { 0 } else { 0x80 };
            *byte = more | (value >> (7 * i)) as u8 & 0x7F;
        }
    }

    #[inline]
    fn bytes(&mut self, bytes: &[u8]) {
        self.take(bytes.len()).copy_from_slice(bytes);
    }

    #[inline]
    fn take(&mut self, count: usize) -> &mut [u8] {
        let (taken, rest) = std::mem::take(&mut self.free).split_at_mut(count);
        self.free = rest;
        taken
    }
}
