//! A HEVC header of a case, and its bits.

use super::Random;

pub struct Pcm {
    pub depths: [u8; 2],
    pub min: u32,
    pub diff: u32,
    pub loop_filter: bool,
}

pub struct Extension {
    pub seven: u8,
    pub range: Option<[bool; 9]>,
}

/// A header's fields, and what of its form can be spoiled.
pub struct Header {
    pub codes: [u32; 5],
    pub offset: bool,
    pub pcm: Option<Pcm>,
    pub smoothing: bool,
    pub extension: Option<Extension>,
    /// A code with this many zero bits first stands before the fields.
    pub long_code: Option<usize>,
    /// The trailing bits.
    pub trailing: u8,
    /// Bytes after the trailing bits.
    pub extra: Vec<u8>,
    /// Bytes that are missing at the end.
    pub missing: usize,
}

/// The range flags that a file may set.
const ALLOWED: [usize; 5] = [0, 1, 2, 5, 7];

impl Header {
    /// A header that keeps the rules, with any of its encoding choices.
    pub fn valid(random: &mut Random, bit_depth: usize) -> Header {
        let min_cb = random.within(3, 6);
        let ctb = random.within(min_cb.max(4), 6);
        let min_tb = random.within(2, min_cb - 1);
        let max_tb = random.within(min_tb, ctb.min(5));
        let depth = random.within(0, ctb - min_tb);
        let codes = [min_cb - 3, ctb - min_cb, min_tb - 2, max_tb - min_tb, depth];
        Header {
            codes: codes.map(|code| code as u32),
            offset: random.flag(),
            pcm: random
                .one_in(3)
                .then(|| Pcm::valid(random, bit_depth, min_cb, ctb)),
            smoothing: random.flag(),
            extension: random.flag().then(|| Extension::valid(random)),
            long_code: None,
            trailing: 0,
            extra: Vec::new(),
            missing: 0,
        }
    }

    pub fn bytes(&self) -> Vec<u8> {
        let mut bits = Bits::default();
        if let Some(zeros) = self.long_code {
            bits.zeros(zeros);
            bits.u(1, 1);
            bits.zeros(zeros);
        }
        self.codes.iter().for_each(|&code| bits.ue(code));
        bits.flag(self.offset);
        bits.flag(self.pcm.is_some());
        if let Some(pcm) = &self.pcm {
            pcm.append(&mut bits);
        }
        bits.flag(self.smoothing);
        bits.flag(self.extension.is_some());
        if let Some(extension) = &self.extension {
            extension.append(&mut bits);
        }
        let mut bytes = bits.finish(self.trailing);
        bytes.truncate(bytes.len().saturating_sub(self.missing));
        bytes.extend_from_slice(&self.extra);
        bytes
    }
}

impl Pcm {
    fn valid(random: &mut Random, bit_depth: usize, min_cb: usize, ctb: usize) -> Pcm {
        let (least, most) = (min_cb.min(5), ctb.min(5));
        let min = random.within(least, most);
        let depth = |random: &mut Random| random.below(bit_depth) as u8;
        Pcm {
            depths: [depth(random), depth(random)],
            min: min as u32 - 3,
            diff: random.within(0, most - min) as u32,
            loop_filter: random.flag(),
        }
    }

    fn append(&self, bits: &mut Bits) {
        bits.u(4, self.depths[0].into());
        bits.u(4, self.depths[1].into());
        bits.ue(self.min);
        bits.ue(self.diff);
        bits.flag(self.loop_filter);
    }
}

impl Extension {
    fn valid(random: &mut Random) -> Extension {
        let mut flags = [false; 9];
        if random.flag() {
            ALLOWED.iter().for_each(|&i| flags[i] = random.flag());
        }
        Extension {
            seven: 0,
            range: random.one_in(3).then_some(flags),
        }
    }

    fn append(&self, bits: &mut Bits) {
        bits.flag(self.range.is_some());
        bits.u(7, self.seven.into());
        if let Some(flags) = self.range {
            flags.iter().for_each(|&flag| bits.flag(flag));
        }
    }
}

/// Bits one by one: slow, and unlike the two that are compared.
#[derive(Default)]
struct Bits(Vec<bool>);

impl Bits {
    fn u(&mut self, n: u32, value: u64) {
        let bit = |i| i < 64 && value >> i & 1 != 0;
        self.0.extend((0..n).rev().map(bit));
    }

    fn flag(&mut self, flag: bool) {
        self.0.push(flag);
    }

    fn zeros(&mut self, count: usize) {
        self.0.resize(self.0.len() + count, false);
    }

    fn ue(&mut self, code: u32) {
        let value = u64::from(code) + 1;
        let bits = 64 - value.leading_zeros();
        self.u(2 * bits - 1, value);
    }

    /// The bytes, the last filled up with the low bits of `trailing`.
    fn finish(mut self, trailing: u8) -> Vec<u8> {
        while !self.0.len().is_multiple_of(8) {
            let low = 7 - self.0.len() % 8;
            self.0.push(trailing >> low & 1 != 0);
        }
        let byte = |bits: &[bool]| bits.iter().fold(0, |byte, &bit| byte << 1 | u8::from(bit));
        self.0.chunks(8).map(byte).collect()
    }
}
