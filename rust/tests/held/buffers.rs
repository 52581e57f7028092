//! The buffers that calls write into, filled with the same random bytes before.

use crate::cases::Random;

/// Two buffers of the same size, and the bytes that they had.
pub struct Buffers {
    before: Vec<u8>,
    library: Vec<u8>,
    plain: Vec<u8>,
}

/// One size of both buffers.
pub struct Pair<'a> {
    pub before: &'a [u8],
    pub library: &'a mut [u8],
    pub plain: &'a mut [u8],
}

impl Buffers {
    pub fn new(random: &mut Random, size: usize) -> Buffers {
        let before = random.bytes(size);
        Buffers {
            library: before.clone(),
            plain: before.clone(),
            before,
        }
    }

    pub fn size(&self) -> usize {
        self.before.len()
    }

    /// What the library wrote last.
    pub fn library(&self, size: usize) -> &[u8] {
        &self.library[..size]
    }

    pub fn pair(&mut self, size: usize) -> Pair<'_> {
        let pair = Pair {
            before: &self.before[..size],
            library: &mut self.library[..size],
            plain: &mut self.plain[..size],
        };
        pair.library.copy_from_slice(pair.before);
        pair.plain.copy_from_slice(pair.before);
        pair
    }
}

impl Pair<'_> {
    /// Where the buffers differ, or the library's has another byte than before outside the first `count`.
    pub fn fault(&self, count: usize) -> Option<usize> {
        if self.library != self.plain {
            return (0..self.plain.len()).find(|&i| self.library[i] != self.plain[i]);
        }
        let rest = self.before.get(count..).unwrap_or_default();
        let kept = self.library.get(count..).unwrap_or_default();
        (rest != kept).then_some(count)
    }
}
