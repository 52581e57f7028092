//! A file of a case in parts, each of which can be spoiled before it is put together.

use super::header::Header;
use super::Random;
use crate::plain::MAX_ENTRIES;

/// How a number in the file differs from its right code.
#[derive(Clone, Copy)]
pub enum Wrong {
    /// A byte 0x80 first.
    Padded,
    /// A number with too many bits.
    TooLarge,
    /// Another value.
    By(i64),
    /// The last byte says that one more follows.
    Unended,
}

pub struct Entry {
    pub tag: u32,
    pub payload: Vec<u8>,
}

pub struct Model {
    pub magic: [u8; 4],
    pub format: u8,
    pub alpha1: bool,
    pub depth: u8,
    pub space: u8,
    pub extension: bool,
    /// Alpha2, limited range and animation.
    pub flags: [bool; 3],
    pub width: u32,
    pub height: u32,
    pub counted: bool,
    pub entries: Vec<Entry>,
    pub alpha_header: Header,
    pub color_header: Header,
    pub data: Vec<u8>,
    /// The number of this index, in the order in which the file is put together, is wrong.
    pub wrong: Option<(usize, Wrong)>,
}

impl Model {
    /// A valid file, of any encoding choices.
    pub fn valid(random: &mut Random) -> Model {
        let format = random.below(6) as u8;
        let depth = random.below(7) as u8;
        let bit_depth = usize::from(depth) + 8;
        let entries = entries(random);
        let control = entries.iter().any(|entry| entry.tag == 5);
        Model {
            magic: *b"BPG\xFB",
            format,
            alpha1: random.flag(),
            depth,
            space: if format == 0 {
                0
            } else {
                random.below(5) as u8
            },
            extension: !entries.is_empty() || random.one_in(4),
            flags: [random.flag(), random.flag(), control && random.flag()],
            width: random.number(32).max(1) as u32,
            height: random.number(32).max(1) as u32,
            counted: random.flag(),
            entries,
            alpha_header: Header::valid(random, bit_depth),
            color_header: Header::valid(random, bit_depth),
            data: data(random),
            wrong: None,
        }
    }

    /// The bytes of the file.
    pub fn bytes(&self) -> Vec<u8> {
        let mut put = Put {
            wrong: self.wrong,
            numbers: 0,
        };
        let block = self.block(&mut put);
        let picture = self.picture(&mut put);
        let [alpha2, limited, animation] = self.flags.map(u8::from);
        let mut file = self.magic.to_vec();
        file.push(self.format << 5 | u8::from(self.alpha1) << 4 | self.depth);
        let extension = u8::from(self.extension);
        file.push(self.space << 4 | extension << 3 | alpha2 << 2 | limited << 1 | animation);
        put.ue7(&mut file, self.width.into());
        put.ue7(&mut file, self.height.into());
        let length = if self.counted { picture.len() } else { 0 };
        put.ue7(&mut file, length as u64);
        if self.extension {
            put.ue7(&mut file, block.len() as u64);
        }
        file.extend(block);
        file.extend(picture);
        file
    }

    fn block(&self, put: &mut Put) -> Vec<u8> {
        let mut block = Vec::new();
        for entry in &self.entries {
            put.ue7(&mut block, entry.tag.into());
            put.ue7(&mut block, entry.payload.len() as u64);
            block.extend_from_slice(&entry.payload);
        }
        block
    }

    fn picture(&self, put: &mut Put) -> Vec<u8> {
        let mut picture = Vec::new();
        let alpha = (self.alpha1 || self.flags[0]).then_some(&self.alpha_header);
        for header in alpha.into_iter().chain([&self.color_header]) {
            let bytes = header.bytes();
            put.ue7(&mut picture, bytes.len() as u64);
            picture.extend(bytes);
        }
        picture.extend_from_slice(&self.data);
        picture
    }
}

/// Puts numbers, of which one may be wrong.
struct Put {
    wrong: Option<(usize, Wrong)>,
    numbers: usize,
}

impl Put {
    fn ue7(&mut self, bytes: &mut Vec<u8>, value: u64) {
        let index = self.numbers;
        self.numbers += 1;
        let wrong = self.wrong.filter(|&(at, _)| at == index);
        match wrong.map(|(_, wrong)| wrong) {
            None => bytes.extend(ue7(value)),
            Some(Wrong::Padded) => {
                bytes.push(0x80);
                bytes.extend(ue7(value));
            }
            Some(Wrong::TooLarge) => bytes.extend(ue7(value | 1 << (32 + index % 8))),
            Some(Wrong::By(by)) => bytes.extend(ue7(value.wrapping_add_signed(by) & 0xFFFF_FFFF)),
            Some(Wrong::Unended) => {
                bytes.extend(ue7(value));
                *bytes.last_mut().expect("a number has a byte") |= 0x80;
            }
        }
    }
}

/// The shortest code of a number.
pub fn ue7(mut value: u64) -> Vec<u8> {
    let mut bytes = vec![value as u8 & 0x7F];
    while value > 0x7F {
        value >>= 7;
        bytes.push(value as u8 | 0x80);
    }
    bytes.reverse();
    bytes
}

/// The payload of the animation control: three numbers, and perhaps dummy bytes.
pub fn control(random: &mut Random) -> Vec<u8> {
    let mut payload = ue7(random.number(16));
    payload.extend(ue7(random.number(16).max(1)));
    payload.extend(ue7(random.number(16).max(1)));
    if random.one_in(3) {
        let count = random.below(9);
        payload.extend(random.bytes(count));
    }
    payload
}

/// Entries, of which at most one has tag 5.
fn entries(random: &mut Random) -> Vec<Entry> {
    let count = match random.below(8) {
        0..=2 => 0,
        3..=5 => random.within(1, 3),
        6 => random.within(4, MAX_ENTRIES),
        _ => random.pick(&[16, 17, MAX_ENTRIES - 1, MAX_ENTRIES]),
    };
    let control_at = random.below(count + 1);
    let entries = (0..count).map(|k| entry(random, k == control_at));
    entries.collect()
}

fn entry(random: &mut Random, is_control: bool) -> Entry {
    if is_control {
        let payload = control(random);
        return Entry { tag: 5, payload };
    }
    let tag = match random.number(32) as u32 {
        5 => 6,
        tag => tag,
    };
    Entry {
        tag,
        payload: part(random),
    }
}

/// Data that a file may have: not empty, and no start code at its start, though at times nearly one.
fn data(random: &mut Random) -> Vec<u8> {
    const STARTS: [&[u8]; 8] = [
        &[0x26, 0x01],
        &[0x26],
        &[0x01],
        &[0, 1],
        &[0, 0, 2],
        &[0, 0, 0, 2],
        &[0, 0, 0, 0],
        &[0, 0, 0, 0, 1],
    ];
    match random.below(16) {
        0 => vec![0; random.within(1, 3)],
        _ => [random.pick(&STARTS), &part(random)].concat(),
    }
}

/// Bytes of a payload or of the data: mostly few, around the edges of a length's code at times.
pub fn part(random: &mut Random) -> Vec<u8> {
    let count = match random.below(1000) {
        0 => random.within(16_380, 16_390),
        1..=40 => random.within(120, 135),
        41..=250 => 0,
        _ => random.within(1, 12),
    };
    random.bytes(count)
}
