//! Emulation prevention undone and redone: judged and counted first, then copied in stretches.

use bpg::{Reason, Refusal};

use super::{marks, refuse};

/// The bytes of a unit without its emulation prevention bytes, into `out`, and how many they are.
pub fn unescape(unit: &[u8], out: &mut [u8]) -> Result<usize, Refusal> {
    let Some(prevention) = prevention_bytes(unit) else {
        return refuse(Reason::BadNalUnit, 0);
    };
    let count = unit.len() - prevention;
    let Some(mut free) = out.get_mut(..count) else {
        return refuse(Reason::BufferTooSmall, 0);
    };
    let mut from = 0;
    for _ in 0..prevention {
        let at = marks::find(unit, from).expect("the mark was counted");
        free = put(free, &unit[from..at + 2]);
        from = at + 3;
    }
    put(free, &unit[from..]);
    Ok(count)
}

/// How many a unit has; `None` if it breaks an emulation rule.
fn prevention_bytes(unit: &[u8]) -> Option<usize> {
    let mut count = 0;
    let mut from = 0;
    while let Some(at) = marks::find(unit, from) {
        let followed = unit.get(at + 3).is_none_or(|&byte| byte <= 3);
        if unit[at + 2] != 3 || !followed {
            return None;
        }
        count += 1;
        from = at + 3;
    }
    Some(count)
}

/// The bytes with emulation prevention bytes, into `out`, and how many they are.
pub fn escape(bytes: &[u8], out: &mut [u8]) -> Result<usize, Refusal> {
    let (inside, at_end) = needed(bytes);
    let count = bytes.len() + inside + usize::from(at_end);
    let Some(mut free) = out.get_mut(..count) else {
        return refuse(Reason::BufferTooSmall, 0);
    };
    let mut from = 0;
    for _ in 0..inside {
        let at = marks::find(bytes, from).expect("the mark was counted");
        free = put(free, &bytes[from..at + 2]);
        free = put(free, &[3]);
        from = at + 2;
    }
    free = put(free, &bytes[from..]);
    free.fill(3);
    Ok(count)
}

/// How many emulation prevention bytes are put in: before the third byte of each mark, from where the next
/// is looked for; and whether one comes after two zero bytes at the end.
fn needed(bytes: &[u8]) -> (usize, bool) {
    let mut count = 0;
    let mut from = 0;
    while let Some(at) = marks::find(bytes, from) {
        count += 1;
        from = at + 2;
    }
    (count, bytes[from..].ends_with(&[0, 0]))
}

/// Copies a stretch to the start of the buffer, and gives what is left of it.
#[inline]
fn put<'a>(free: &'a mut [u8], stretch: &[u8]) -> &'a mut [u8] {
    let (start, rest) = free.split_at_mut(stretch.len());
    start.copy_from_slice(stretch);
    rest
}
