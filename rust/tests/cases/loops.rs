//! Loops, mostly such as can be played, with ticks near the ends of frames, rounds and the loop; and files of frames.

use super::Random;
use crate::plain::player::Loop;

pub fn case(random: &mut Random) -> (Loop, u64) {
    let mut durations = durations(random);
    if random.one_in(12) && !durations.is_empty() {
        let at = random.below(durations.len());
        durations[at] = 0;
    }
    let count = match random.below(3) {
        0 => 0,
        1 => random.within(1, 4) as u16,
        _ => random.next() as u16,
    };
    let period = (number(random), number(random));
    let shown = Loop {
        count,
        period,
        durations,
    };
    let tick = tick(&shown, random);
    (shown, tick)
}

/// One to a few; at times none, about 256 or anything between.
fn durations(random: &mut Random) -> Vec<u16> {
    let count = match random.below(16) {
        0 => 0,
        1 => random.within(254, 259),
        2 => random.below(300),
        _ => random.within(1, 9),
    };
    let most = random.pick(&[1, 3, 300, 65_535]);
    (0..count).map(|_| random.within(1, most) as u16).collect()
}

/// A number of the period: mostly small, at times 0.
fn number(random: &mut Random) -> u16 {
    match random.below(24) {
        0 => 0,
        1..=4 => random.next() as u16,
        5 => u16::MAX,
        _ => random.within(1, 60) as u16,
    }
}

/// Near the start of a frame in some round, or near the end of the loop; or anything.
fn tick(shown: &Loop, random: &mut Random) -> u64 {
    let total = |durations: &[u16]| durations.iter().map(|&ticks| u64::from(ticks)).sum::<u64>();
    let round = total(&shown.durations);
    let near = random.within(0, 2) as u64;
    let base = match random.below(4) {
        0 => return random.next(),
        1 => u64::from(shown.count) * round,
        2 => random.below(5) as u64 * round,
        _ => {
            let before = random.below(shown.durations.len() + 1);
            random.below(5) as u64 * round + total(&shown.durations[..before])
        }
    };
    (base + near).saturating_sub(1)
}

/// Milliseconds near a tick of the period, or anything.
pub fn ms(period: (u16, u16), random: &mut Random) -> u32 {
    let (num, den) = (u64::from(period.0), u64::from(period.1.max(1)));
    match random.below(4) {
        0 => random.next() as u32,
        1 => u32::MAX,
        2 => random.below(5000) as u32,
        _ => {
            let exact = random.below(100) as u64 * 1000 * num / den;
            (exact + random.within(0, 2) as u64).saturating_sub(1) as u32
        }
    }
}

/// A file of frames; one in some has about 256 of them.
pub fn file(random: &mut Random) -> Vec<u8> {
    if !random.one_in(40) {
        return super::frames::file(random);
    }
    let numbers = [random.below(3), random.within(1, 9), random.within(1, 99)];
    let slice = [0x26, 1, 0x80];
    let frames = vec![slice; random.within(250, 262)];
    let mut file = b"BPG\xFB\x20\x09\x08\x84\x1E\x00\x05\x05\x03".to_vec();
    file.extend(numbers.map(|number| number as u8));
    file.extend(b"\x03\x92\x4D\x00");
    file.extend(frames.join(&[0, 0, 1][..]));
    file
}
