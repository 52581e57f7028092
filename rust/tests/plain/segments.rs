//! Metadata as JPEG application segments, and back.

use bpg::{Reason, Refusal};

use super::{read, refuse};

const EXIF: &[u8] = b"Exif\0\0";
const XMP: &[u8] = b"http://ns.adobe.com/xap/1.0/\0";
const ICC: &[u8] = b"ICC_PROFILE\0";

/// The payload bytes of every chunk of a profile but the last.
const CHUNK: usize = 65_519;

/// EXIF, XMP and ICC of a file (tags 1, 3 and 2) as segments in `out`.
pub fn export_segments(file: &[u8], out: &mut [u8]) -> Result<usize, Refusal> {
    let record = read(file)?;
    let used = record.used().unwrap_or_default();
    let mut payloads: [&[u8]; 3] = [&[]; 3];
    for (payload, tag) in payloads.iter_mut().zip([1, 3, 2]) {
        let mut tagged = used.iter().filter(|entry| entry.tag == tag);
        if let Some(entry) = tagged.next() {
            *payload = &file[entry.payload.range()];
        }
        if tagged.next().is_some() {
            return refuse(Reason::TagTwice, 0);
        }
    }
    let [exif, xmp, icc] = payloads;
    let chunks = icc.len().div_ceil(CHUNK);
    if exif.len() > 65_527 || xmp.len() > 65_504 || chunks > 255 {
        return refuse(Reason::PayloadTooLong, 0);
    }
    let one = |payload: &[u8], prefix: &[u8]| match payload.len() {
        0 => 0,
        size => 4 + prefix.len() + size,
    };
    let size = one(exif, EXIF) + one(xmp, XMP) + icc.len() + 18 * chunks;
    let Some(mut room) = out.get_mut(..size) else {
        return refuse(Reason::BufferTooSmall, 0);
    };
    for (payload, prefix) in [(exif, EXIF), (xmp, XMP)] {
        if !payload.is_empty() {
            put(&mut room, 0xE1, &[prefix, payload]);
        }
    }
    for (number, chunk) in (1..=u8::MAX).zip(icc.chunks(CHUNK)) {
        put(&mut room, 0xE2, &[ICC, &[number, chunks as u8], chunk]);
    }
    Ok(size)
}

/// Puts a segment at the front of the room, which is then what is left.
fn put(room: &mut &mut [u8], marker: u8, parts: &[&[u8]]) {
    let size: usize = parts.iter().map(|part| part.len()).sum();
    let [high, low] = (size as u16 + 2).to_be_bytes();
    for part in [&[0xFF, marker, high, low][..]].iter().chain(parts) {
        let (front, rest) = std::mem::take(room).split_at_mut(part.len());
        front.copy_from_slice(part);
        *room = rest;
    }
}

/// The payloads of a run end to end in `out`, and their lengths.
pub fn import_segments(run: &[u8], out: &mut [u8]) -> Result<[usize; 3], Refusal> {
    let Some(parts) = parts(run) else {
        return refuse(Reason::BadSegments, 0);
    };
    let lengths = parts.each_ref().map(|part| part.concat().len());
    let payloads = parts.concat().concat();
    let Some(room) = out.get_mut(..payloads.len()) else {
        return refuse(Reason::BufferTooSmall, 0);
    };
    room.copy_from_slice(&payloads);
    Ok(lengths)
}

/// What EXIF, XMP and ICC segments carry, if the run consists of them.
fn parts(run: &[u8]) -> Option<[Vec<&[u8]>; 3]> {
    let mut parts = [vec![], vec![], vec![]];
    let mut rest = run;
    let mut last = 0;
    while !rest.is_empty() {
        let (marker, inside, after) = segment(rest)?;
        let (kind, payload) = match marker {
            0xE1 if inside.starts_with(EXIF) => (0, &inside[EXIF.len()..]),
            0xE1 if inside.starts_with(XMP) => (1, &inside[XMP.len()..]),
            0xE2 if inside.starts_with(ICC) => (2, &inside[ICC.len()..]),
            _ => return None,
        };
        // In order; only ICC may have several.
        if kind < last || kind < 2 && !parts[kind].is_empty() {
            return None;
        }
        last = kind;
        parts[kind].push(payload);
        rest = after;
    }
    let [exif, xmp, icc] = parts;
    let icc = joined(icc)?;
    let all = [exif, xmp, icc];
    let empty = all.iter().flatten().any(|payload| payload.is_empty());
    (!empty).then_some(all)
}

/// The marker of the segment at the front, what is inside it, and what follows.
fn segment(rest: &[u8]) -> Option<(u8, &[u8], &[u8])> {
    let &[0xFF, marker, high, low, ref after @ ..] = rest else {
        return None;
    };
    let size = usize::from(u16::from_be_bytes([high, low])).checked_sub(2)?;
    let (inside, after) = after.split_at_checked(size)?;
    Some((marker, inside, after))
}

/// The payloads of chunks, which are numbered and counted right and full but for the last.
fn joined(chunks: Vec<&[u8]>) -> Option<Vec<&[u8]>> {
    let count = chunks.len();
    let mut payloads = Vec::new();
    for (k, chunk) in chunks.into_iter().enumerate() {
        let [number, total, payload @ ..] = chunk else {
            return None;
        };
        let short = k + 1 < count && payload.len() != CHUNK;
        if usize::from(*number) != k + 1 || usize::from(*total) != count || short {
            return None;
        }
        payloads.push(payload);
    }
    Some(payloads)
}
