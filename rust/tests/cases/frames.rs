//! Files whose data is cut into units: the frames of a still picture or an animation, often spoiled.

use super::faults;
use super::model::Model;
use super::slices::change;
use super::units::{body, joined, other, slice, slice_type, unit};
use super::{sei, Random};

/// A file, mostly accepted by the reader: frames as many as it should have, or not, and data that is spoiled
/// in one place, or changed in some bytes, or not.
pub fn file(random: &mut Random) -> Vec<u8> {
    let mut model = Model::valid(random);
    let [alpha2, _, animated] = model.flags;
    let alpha = model.alpha1 || alpha2;
    let mut units = units(alpha, animated, random);
    if random.one_in(3) {
        spoil(&mut units, alpha, random);
    }
    model.data = joined(&units, random);
    if random.one_in(6) {
        (0..random.within(1, 3)).for_each(|_| change(&mut model.data, random));
    }
    if random.one_in(8) {
        faults::spoil(&mut model, random);
    }
    model.bytes()
}

fn units(alpha: bool, animated: bool, random: &mut Random) -> Vec<Vec<u8>> {
    let frames = match random.below(8) {
        0 => random.below(4),
        _ if animated => random.within(2, 6),
        _ => 1,
    };
    let mut units = Vec::new();
    for _ in 0..frames {
        frame(&mut units, alpha, random);
    }
    if frames == 0 || random.one_in(4) {
        units.push(other(alpha, random));
    }
    units
}

/// The units of a frame: perhaps its duration, its first slice, perhaps more, and others among them.
fn frame(units: &mut Vec<Vec<u8>>, alpha: bool, random: &mut Random) {
    others(units, alpha, random);
    if random.flag() {
        let duration = sei::duration(random);
        units.push(sei::durations(&[duration], random));
        others(units, alpha, random);
    }
    units.push(slice(true, random));
    for _ in 0..random.below(4).saturating_sub(1) {
        units.push(slice(false, random));
        others(units, alpha, random);
    }
}

fn others(units: &mut Vec<Vec<u8>>, alpha: bool, random: &mut Random) {
    match random.below(8) {
        0 => units.push(sei::plain(random)),
        1 | 2 => units.push(other(alpha, random)),
        _ => {}
    }
}

/// A fault in one unit, or a unit too many.
fn spoil(units: &mut Vec<Vec<u8>>, alpha: bool, random: &mut Random) {
    let at = random.below(units.len() + 1);
    match random.below(8) {
        0 | 1 => units.insert(at, bad_layer(alpha, random)),
        2..=4 => units.insert(at, bad_duration(random)),
        5 => units.insert(at, bad_form(random)),
        _ if at == units.len() => units.push(Vec::new()),
        6 => spoil_header(&mut units[at], random),
        _ => break_rule(&mut units[at], random),
    }
}

/// Layer 1 is bad only without alpha, and a VPS or SPS in any layer.
fn bad_layer(alpha: bool, random: &mut Random) -> Vec<u8> {
    let bytes = body(random);
    let high = random.pick(&[2, 3, 31, 32, 33, 63]);
    let slice = slice_type(random);
    let kind = random.pick(&[slice, 34, 39, 40]);
    match random.below(4) {
        0 => unit(kind, high, &bytes, random),
        1 => unit(kind, 1, &bytes, random),
        2 => unit(random.pick(&[32, 33]), alpha.into(), &bytes, random),
        _ => unit(random.pick(&[32, 33]), 0, &bytes, random),
    }
}

/// Zero, two in one unit, or one more: for the same frame as another, for none, or a right one.
fn bad_duration(random: &mut Random) -> Vec<u8> {
    let [one, two] = [0; 2].map(|_| sei::duration(random));
    match random.below(4) {
        0 => sei::durations(&[0], random),
        1 => sei::durations(&[one, two], random),
        _ => sei::durations(&[one], random),
    }
}

fn bad_form(random: &mut Random) -> Vec<u8> {
    match random.below(6) {
        0 => Vec::new(),
        1 => vec![random.byte()],
        2 => unit(slice_type(random), 0, &[], random),
        3 => sei::wrong_size(random),
        _ => sei::cut(random),
    }
}

/// The forbidden bit, a temporal id plus 1 of 0, or a unit cut short.
fn spoil_header(unit: &mut Vec<u8>, random: &mut Random) {
    match random.below(3) {
        0 => unit[0] |= 0x80,
        1 => unit[1] &= 0xF8,
        _ => unit.truncate(random.below(4)),
    }
}

/// What no unit has inside, somewhere after its header.
fn break_rule(unit: &mut Vec<u8>, random: &mut Random) {
    let broken: &[u8] = random.pick(&[
        &[0, 0, 2],
        &[0, 0, 0, 2],
        &[0, 0, 0, 0, 3, 0],
        &[0, 0, 3, 4],
        &[0, 0, 3, 0x80],
    ]);
    let mut rest = unit.split_off(unit.len().min(2));
    let at = random.below(rest.len() + 1);
    rest.splice(at..at, broken.iter().copied());
    unit.extend(rest);
}
