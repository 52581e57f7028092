//! Faults in one part of a file, so that every refusal is met at each place where it can occur.

use super::header::{Extension, Header, Pcm};
use super::model::{control, part, ue7, Entry, Model, Wrong};
use super::Random;
use crate::plain::MAX_ENTRIES;

/// Spoils a part of the file; some faults leave it valid.
pub fn spoil(model: &mut Model, random: &mut Random) {
    match random.below(16) {
        0 => spoil_magic(model, random),
        1 => spoil_flags(model, random),
        2 => spoil_size(model, random),
        3..=6 => spoil_number(model, random),
        7 => spoil_entries(model, random),
        8 => spoil_animation(model, random),
        9 => spoil_control(model, random),
        10 => model.data = spoiled_data(random),
        _ => spoil_headers(model, random),
    }
}

fn spoil_magic(model: &mut Model, random: &mut Random) {
    model.magic[random.below(4)] ^= 1 << random.below(8);
}

fn spoil_flags(model: &mut Model, random: &mut Random) {
    match random.below(4) {
        0 => model.format = random.within(6, 7) as u8,
        1 => model.depth = random.within(7, 15) as u8,
        2 => model.space = random.within(5, 15) as u8,
        _ => {
            model.format = 0;
            model.space = random.within(1, 4) as u8;
        }
    }
}

fn spoil_size(model: &mut Model, random: &mut Random) {
    if random.flag() {
        model.width = 0;
    } else {
        model.height = 0;
    }
}

fn spoil_number(model: &mut Model, random: &mut Random) {
    let wrong = match random.below(6) {
        0 => Wrong::Padded,
        1 => Wrong::TooLarge,
        2 => Wrong::Unended,
        3 => Wrong::By(random.number(32) as i64),
        4 => Wrong::By(-1),
        _ => Wrong::By(1),
    };
    let numbers = 2 * model.entries.len() + 6;
    model.wrong = Some((random.below(numbers), wrong));
}

/// One entry too many, a second tag 5, entries without the flag.
fn spoil_entries(model: &mut Model, random: &mut Random) {
    match random.below(3) {
        0 => {
            let tag = random.pick(&[1, 6, 5]);
            let more = || Entry {
                tag,
                payload: Vec::new(),
            };
            model.entries.resize_with(MAX_ENTRIES + 1, more);
        }
        1 => {
            for _ in 0..2 {
                let payload = control(random);
                let at = random.below(model.entries.len() + 1);
                model.entries.insert(at, Entry { tag: 5, payload });
            }
        }
        _ => model.extension = false,
    }
    model.extension |= random.below(8) != 0;
}

fn spoil_animation(model: &mut Model, random: &mut Random) {
    model.flags[2] = true;
    if random.flag() {
        model.entries.retain(|entry| entry.tag != 5);
    }
}

/// A tag 5 payload with wrong numbers, or cut.
fn spoil_control(model: &mut Model, random: &mut Random) {
    let payload = spoiled_control(random);
    model.entries.retain(|entry| entry.tag != 5);
    model.entries.truncate(MAX_ENTRIES - 1);
    let at = random.below(model.entries.len() + 1);
    model.entries.insert(at, Entry { tag: 5, payload });
    model.extension = true;
}

/// The payload of an animation control with a fault in one of its numbers.
pub fn spoiled_control(random: &mut Random) -> Vec<u8> {
    let mut payload = Vec::new();
    let at = random.below(3);
    for i in 0..3 {
        let number = ue7(random.number(16).max(1));
        let spoiled = match random.below(5) {
            _ if i != at => number,
            0 => vec![0],
            1 => ue7(random.pick(&[65_536, 65_537, 131_071, 2_097_152, 4_294_967_296])),
            2 => [vec![0x80], number].concat(),
            3 => return payload,
            _ => {
                payload.extend(number);
                payload.pop();
                return payload;
            }
        };
        payload.extend(spoiled);
    }
    payload
}

fn spoil_headers(model: &mut Model, random: &mut Random) {
    let bit_depth = model.depth + 8;
    let header = if random.flag() {
        &mut model.alpha_header
    } else {
        &mut model.color_header
    };
    match random.below(3) {
        0 => spoil_form(header, random),
        1 => spoil_extension(header, random),
        _ => spoil_rule(header, bit_depth, random),
    }
    if random.one_in(8) {
        model.data = spoiled_data(random);
    }
}

/// No data, or data that begins with a start code.
pub fn spoiled_data(random: &mut Random) -> Vec<u8> {
    let start: &[u8] = match random.below(3) {
        0 => return Vec::new(),
        1 => &[0, 0, 1],
        _ => &[0, 0, 0, 1],
    };
    [start, &part(random)].concat()
}

/// Fields and length disagree.
fn spoil_form(header: &mut Header, random: &mut Random) {
    match random.below(6) {
        0 => header.trailing = random.byte(),
        1 => header.extra = vec![0; random.within(1, 3)],
        2 => {
            let count = random.within(1, 9);
            header.extra = random.bytes(count);
        }
        3 => header.missing = random.within(1, 3),
        4 => header.missing = 99,
        _ => header.long_code = Some(random.pick(&[30, 31, 32, 33, 40, 64, 200])),
    }
}

/// Seven bits, or range flags that are forbidden.
fn spoil_extension(header: &mut Header, random: &mut Random) {
    let mut flags = [false; 9];
    flags[random.pick(&[3, 4, 6, 8])] = true;
    flags[random.below(9)] ^= random.flag();
    let seven = random.flag();
    header.extension = Some(Extension {
        seven: if seven {
            random.within(1, 127) as u8
        } else {
            0
        },
        range: (!seven || random.flag()).then_some(flags),
    });
}

/// A size or depth that breaks a rule, often by one.
fn spoil_rule(header: &mut Header, bit_depth: u8, random: &mut Random) {
    let value = match random.below(4) {
        0 => random.number(32) as u32,
        1 => u32::MAX - random.within(1, 9) as u32,
        _ => random.below(8) as u32,
    };
    match random.below(4) {
        0 | 1 => header.codes[random.below(5)] = value,
        _ => spoil_pcm(header, bit_depth, value, random),
    }
}

fn spoil_pcm(header: &mut Header, bit_depth: u8, value: u32, random: &mut Random) {
    let mut pcm = Pcm {
        depths: [0, bit_depth.min(16) - 1],
        min: header.codes[0],
        diff: 0,
        loop_filter: random.flag(),
    };
    match random.below(4) {
        0 => pcm.depths[random.below(2)] = random.within(0, 15) as u8,
        1 => pcm.depths[random.below(2)] = bit_depth.min(15),
        2 => pcm.min = value,
        _ => pcm.diff = value,
    }
    header.pcm = Some(pcm);
}
