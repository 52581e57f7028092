//! Bits of a HEVC header, high bit first.

/// A place in the file, counted in bits, with a window of the bits there. Past the file's end there are
/// zero bits: the place afterwards tells whether the header had as many.
pub struct Bits<'a> {
    file: &'a [u8],
    at: usize,
    window: u64,
    valid: u32,
}

impl<'a> Bits<'a> {
    #[inline]
    pub fn new(file: &'a [u8], byte: usize) -> Self {
        let mut bits = Bits {
            file,
            at: 8 * byte,
            window: 0,
            valid: 0,
        };
        bits.refill();
        bits
    }

    /// The place in bits, from the start of the file.
    #[inline]
    pub fn at(&self) -> usize {
        self.at
    }

    /// n bits, for n from 1 to 32.
    #[inline]
    pub fn u(&mut self, n: u32) -> u32 {
        self.need(n);
        let value = self.window >> (64 - n);
        self.skip(n);
        value as u32
    }

    #[inline]
    pub fn flag(&mut self) -> bool {
        self.u(1) != 0
    }

    /// ue(v); `None` if there are more than 31 zero bits first.
    #[inline]
    pub fn ue(&mut self) -> Option<u32> {
        self.need(32);
        let zeros = self.window.leading_zeros();
        if zeros > 31 {
            return None;
        }
        self.skip(zeros);
        Some(self.u(zeros + 1) - 1)
    }

    #[inline]
    fn need(&mut self, n: u32) {
        if self.valid < n {
            self.refill();
        }
    }

    #[inline]
    fn skip(&mut self, n: u32) {
        self.window <<= n;
        self.valid -= n;
        self.at += n as usize;
    }

    /// At least 57 bits are valid afterwards.
    #[inline]
    fn refill(&mut self) {
        let (byte, bit) = (self.at / 8, (self.at % 8) as u32);
        let eight = match self.file.get(byte..byte + 8) {
            Some(eight) => eight.try_into().expect("eight bytes"),
            None => self.last(byte),
        };
        self.window = u64::from_be_bytes(eight) << bit;
        self.valid = 64 - bit;
    }

    #[cold]
    fn last(&self, byte: usize) -> [u8; 8] {
        let mut eight = [0; 8];
        let rest = self.file.get(byte..).unwrap_or_default();
        eight[..rest.len()].copy_from_slice(rest);
        eight
    }
}
