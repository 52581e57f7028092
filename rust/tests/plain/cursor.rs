//! A place in a region of the file, and ue7(n) read there.

use bpg::{Reason, Refusal};

use super::refuse;

/// A region that starts where the file does, so that places are the file's own.
pub struct Cursor<'a> {
    pub region: &'a [u8],
    pub at: usize,
}

impl<'a> Cursor<'a> {
    pub fn new(region: &'a [u8], at: usize) -> Self {
        Cursor { region, at }
    }

    /// How many bytes of the region are left.
    #[inline]
    pub fn left(&self) -> usize {
        self.region.len() - self.at
    }

    /// ue7(n) for n of at least 7: a number of one byte always fits.
    #[inline]
    pub fn ue7(&mut self, n: u32) -> Result<u32, Refusal> {
        match self.region.get(self.at) {
            Some(&byte) if byte < 0x80 => {
                self.at += 1;
                Ok(byte.into())
            }
            _ => self.long_ue7(n),
        }
    }

    fn long_ue7(&mut self, n: u32) -> Result<u32, Refusal> {
        let largest = u64::MAX >> (64 - n);
        let mut value = 0u64;
        for (i, &byte) in self.region[self.at..].iter().enumerate() {
            if i == 0 && byte == 0x80 {
                return refuse(Reason::NumberNotShortest, self.at);
            }
            value = value << 7 | u64::from(byte & 0x7F);
            if value > largest {
                return refuse(Reason::NumberTooLarge, self.at + i);
            }
            if byte < 0x80 {
                self.at += i + 1;
                return Ok(value as u32);
            }
        }
        refuse(Reason::Truncated, self.region.len())
    }

    /// A length, ue7(32), of bytes that must be left after it. One too large is refused at the length.
    #[inline]
    pub fn length(&mut self) -> Result<usize, Refusal> {
        let item = self.at;
        let length = self.ue7(32)? as usize;
        if length > self.left() {
            return refuse(Reason::Truncated, item);
        }
        Ok(length)
    }
}
