//! Prefix SEI units of a case, with one message or several.

use super::slices::rich;
use super::units::unit;
use super::Random;

const FRAME_DURATION: usize = 257;

/// A unit without a duration.
pub fn plain(random: &mut Random) -> Vec<u8> {
    let count = random.within(1, 3);
    sei(&others(count, random), random)
}

/// A unit with these durations, and with other messages among them at times.
pub fn durations(durations: &[u16], random: &mut Random) -> Vec<u8> {
    let more = random.below(6).saturating_sub(3);
    let mut messages = others(more, random);
    for duration in durations {
        let at = random.below(messages.len() + 1);
        messages.insert(at, message(FRAME_DURATION, &duration.to_be_bytes()));
    }
    sei(&messages, random)
}

/// A duration that is not 0: often at the edge of a byte.
pub fn duration(random: &mut Random) -> u16 {
    let any = random.within(1, 65_535) as u16;
    random.pick(&[1, 2, 3, 0xFF, 0x100, 0x300, 0xFFFF, any])
}

/// A unit with a duration of another size than two bytes.
pub fn wrong_size(random: &mut Random) -> Vec<u8> {
    let size = random.pick(&[0, 1, 3, 4, 255, 257]);
    let mut messages = others(random.below(2), random);
    messages.push(message(FRAME_DURATION, &rich(size, random)));
    sei(&messages, random)
}

/// A unit whose messages end too early or too late: bytes are missing at the end, or there are more, or there
/// is no message.
pub fn cut(random: &mut Random) -> Vec<u8> {
    let mut bytes = match random.below(4) {
        0 => Vec::new(),
        1 => message(FRAME_DURATION, &duration(random).to_be_bytes()),
        _ => others(random.within(1, 2), random).concat(),
    };
    let length = bytes.len();
    match random.below(4) {
        0 => bytes.truncate(random.below(length + 1)),
        1 => bytes.extend([0x80, random.pick(&[0x80, 1, 0xFF])]),
        2 => bytes.push(random.pick(&[0x40, 0x81, 0xFF])),
        _ => bytes.extend(vec![0xFF; random.within(1, 3)]),
    }
    unit(39, 0, &bytes, random)
}

fn sei(messages: &[Vec<u8>], random: &mut Random) -> Vec<u8> {
    let mut bytes = messages.concat();
    bytes.push(0x80);
    unit(39, 0, &bytes, random)
}

/// Messages of other types than 257, with sizes around those at which a byte FF is needed.
fn others(count: usize, random: &mut Random) -> Vec<Vec<u8>> {
    let messages = (0..count).map(|_| {
        let kind = random.pick(&[0, 1, 2, 5, 128, 129, 254, 255, 256, 258, 510, 512]);
        let size = match random.below(16) {
            0 => random.pick(&[254, 255, 256, 257, 510, 511]),
            _ => random.below(5),
        };
        message(kind, &rich(size, random))
    });
    messages.collect()
}

fn message(kind: usize, payload: &[u8]) -> Vec<u8> {
    let mut message = number(kind);
    message.extend(number(payload.len()));
    message.extend(payload);
    message
}

fn number(value: usize) -> Vec<u8> {
    let mut bytes = vec![0xFF; value / 255];
    bytes.push((value % 255) as u8);
    bytes
}
