//! The frames of a file and how long each is shown: one pass over the data judges, counts and finds them.

use bpg::{Reason, Refusal};

use super::escape::unescape;
use super::nal::{Header, Unit, Units};
use super::reader::read;
use super::{refuse, sei};

const VPS: u8 = 32;
const SPS: u8 = 33;
const PREFIX_SEI: u8 = 39;

/// How many frames a file has.
pub fn frame_count(file: &[u8]) -> Result<usize, Refusal> {
    judge(file, |_| {})
}

/// The duration of each frame into the start of a list, and how many they are.
pub fn frames(file: &[u8], durations: &mut [u16]) -> Result<usize, Refusal> {
    let mut found = Vec::new();
    let count = judge(file, |duration| found.push(duration))?;
    match durations.get_mut(..count) {
        Some(list) => list.copy_from_slice(&found),
        None => return refuse(Reason::BufferTooSmall, 0),
    }
    Ok(count)
}

/// How many frames a file has; `frame` is told each one's duration.
fn judge(file: &[u8], mut frame: impl FnMut(u16)) -> Result<usize, Refusal> {
    let record = read(file)?;
    let data = record.data.start as usize;
    let mut count = 0;
    // A duration that waits for its frame, and where its unit stands.
    let mut next: Option<(u16, usize)> = None;
    for unit in Units::new(file, data) {
        match content(&unit, record.has_alpha())? {
            Content::FrameStart => {
                count += 1;
                frame(next.take().map_or(1, |(duration, _)| duration));
            }
            Content::Durations(durations) => {
                for duration in durations {
                    if duration == 0 || next.is_some() {
                        return refuse(Reason::BadDuration, unit.start);
                    }
                    next = Some((duration, unit.start));
                }
            }
            Content::Other => {}
        }
    }
    if let Some((_, start)) = next {
        return refuse(Reason::BadDuration, start);
    }
    let allowed = match record.animation_flag {
        true => count >= 2,
        false => count == 1,
    };
    if !allowed {
        return refuse(Reason::BadFrameCount, data);
    }
    Ok(count)
}

/// What a unit says about frames.
enum Content {
    FrameStart,
    Durations(Vec<u16>),
    Other,
}

/// A unit judged by itself: by its form first, then by its layer and type.
#[inline]
fn content(unit: &Unit, alpha: bool) -> Result<Content, Refusal> {
    let Some((header, content)) = formed(unit) else {
        return refuse(Reason::BadNalUnit, unit.start);
    };
    if header.layer > u8::from(alpha) || matches!(header.kind, VPS | SPS) {
        return refuse(Reason::BadNalLayer, unit.start);
    }
    Ok(content)
}

/// The header and the content of a unit of the right form.
#[inline]
fn formed(unit: &Unit) -> Option<(Header, Content)> {
    let bytes = unit.bytes?;
    let (header, rest) = Header::split(bytes)?;
    let content = match (header.kind, header.layer) {
        (0..=31, 0) => match rest.first()? {
            0x80.. => Content::FrameStart,
            _ => Content::Other,
        },
        (PREFIX_SEI, 0) => Content::Durations(sei::durations(&undone(bytes)[2..])?),
        _ => Content::Other,
    };
    Some((header, content))
}

/// The bytes of a unit that keeps the emulation rules, without its emulation prevention bytes.
fn undone(unit: &[u8]) -> Vec<u8> {
    let mut bytes = vec![0; unit.len()];
    let count = unescape(unit, &mut bytes).expect("the unit keeps the rules");
    bytes.truncate(count);
    bytes
}
