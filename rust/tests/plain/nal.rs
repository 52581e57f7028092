//! The HEVC data cut into NAL units at its start codes, and the header of a unit.

use super::marks;

/// A unit of the data: where it starts in the file, and its bytes, or `None` if it breaks an emulation rule.
pub struct Unit<'a> {
    pub start: usize,
    pub bytes: Option<&'a [u8]>,
}

/// The units in the order of the data, which goes up to the end of `file`: the first has no start code.
pub struct Units<'a> {
    file: &'a [u8],
    next: Option<usize>,
}

impl<'a> Units<'a> {
    pub fn new(file: &'a [u8], data: usize) -> Self {
        Units {
            file,
            next: Some(data),
        }
    }
}

impl<'a> Iterator for Units<'a> {
    type Item = Unit<'a>;

    /// None follows a unit that breaks an emulation rule: such a unit decides.
    fn next(&mut self) -> Option<Unit<'a>> {
        let start = self.next.take()?;
        let bytes = end(self.file, start).map(|end| {
            self.next = end.next;
            &self.file[start..end.at]
        });
        Some(Unit { start, bytes })
    }
}

/// Where a unit ends, and where the next one starts if there is one.
struct End {
    at: usize,
    next: Option<usize>,
}

/// The end of the unit that starts at `start`; `None` if it breaks an emulation rule.
#[inline]
fn end(file: &[u8], start: usize) -> Option<End> {
    let mut from = start;
    while let Some(at) = marks::find(file, from) {
        match file[at + 2] {
            3 if file.get(at + 3).is_none_or(|&byte| byte <= 3) => from = at + 3,
            0 | 1 => return zeros_end(file, at),
            _ => return None,
        }
    }
    let last = file[from..].iter().rposition(|&byte| byte != 0);
    let at = last.map_or(from, |last| from + last + 1);
    Some(End { at, next: None })
}

/// The end of a unit at zero bytes: after them comes the 01 of a start code, or no byte.
fn zeros_end(file: &[u8], at: usize) -> Option<End> {
    let next = match file[at..].iter().position(|&byte| byte != 0) {
        None => None,
        Some(zeros) if file[at + zeros] == 1 => Some(at + zeros + 1),
        Some(_) => return None,
    };
    Some(End { at, next })
}

/// What the two bytes of a unit's header say, by H.265.
pub struct Header {
    pub kind: u8,
    pub layer: u8,
}

impl Header {
    /// The header and what follows it; `None` for fewer than two bytes, a forbidden bit of 1, or a temporal
    /// id plus 1 of 0.
    pub fn split(unit: &[u8]) -> Option<(Header, &[u8])> {
        let (&[high, low], rest) = unit.split_first_chunk()?;
        let header = Header {
            kind: high >> 1,
            layer: (high & 1) << 5 | low >> 3,
        };
        (high < 0x80 && low & 7 != 0).then_some((header, rest))
    }
}
