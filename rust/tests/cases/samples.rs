//! Calls on samples: planes and buffers that mostly fit, of samples that are mostly within their depth.

use super::Random;

#[derive(Clone, Copy, Debug)]
pub enum Call {
    Unpremultiply,
    Cmyk,
    DefaultFromWhite,
    Ycgco,
    LimitedLuma,
}

impl Call {
    /// How many planes and buffers it has.
    fn shape(self) -> (usize, usize) {
        match self {
            Call::Unpremultiply | Call::DefaultFromWhite => (4, 3),
            Call::Cmyk => (4, 4),
            Call::Ycgco => (3, 3),
            Call::LimitedLuma => (1, 1),
        }
    }
}

#[derive(Debug)]
pub struct Case {
    pub call: Call,
    pub planes: Vec<Vec<u16>>,
    /// What the buffers hold before the call.
    pub buffers: Vec<Vec<u16>>,
    pub depth: u8,
}

/// At times a wrong length, depth or sample, or several of them.
pub fn case(call: Call, random: &mut Random) -> Case {
    let (planes, buffers) = call.shape();
    let depth = match call {
        Call::LimitedLuma => 8,
        _ => random.within(8, 14) as u8,
    };
    let count = match random.one_in(20) {
        true => random.below(300),
        false => random.below(40),
    };
    let mut case = Case {
        call,
        planes: (0..planes).map(|_| plane(depth, count, random)).collect(),
        buffers: (0..buffers).map(|_| any(count, random)).collect(),
        depth,
    };
    if random.one_in(8) {
        let k = random.below(planes + buffers);
        let changed = match k < planes {
            true => &mut case.planes[k],
            false => &mut case.buffers[k - planes],
        };
        let other = random.below(40);
        let length = random.pick(&[count + 1, count.saturating_sub(1), other]);
        changed.resize(length, 1);
    }
    if random.one_in(10) {
        let other = random.byte();
        case.depth = random.pick(&[0, 1, 7, 15, 16, 17, 255, other]);
    }
    if random.one_in(8) {
        spoil(&mut case, random);
    }
    case
}

/// Samples that are often at an edge.
fn plane(depth: u8, count: usize, random: &mut Random) -> Vec<u16> {
    let (m, half) = ((1u16 << depth) - 1, 1u16 << (depth - 1));
    let samples = (0..count).map(|_| match random.below(3) {
        0 => random.pick(&[0, 1, 2, half - 1, half, half + 1, m - 1, m]),
        _ => random.next() as u16 & m,
    });
    samples.collect()
}

fn any(count: usize, random: &mut Random) -> Vec<u16> {
    (0..count).map(|_| random.next() as u16).collect()
}

/// A sample above the largest of the depth, in any plane.
fn spoil(case: &mut Case, random: &mut Random) {
    let k = random.below(case.planes.len());
    let plane = &mut case.planes[k];
    if plane.is_empty() {
        return;
    }
    let at = random.below(plane.len());
    let above = 1u16.checked_shl(case.depth.into()).unwrap_or(0);
    plane[at] = random.pick(&[above, above.wrapping_add(1), u16::MAX]);
}
