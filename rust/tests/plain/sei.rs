//! The messages of a prefix SEI unit.

/// The payload type of a frame's duration.
const FRAME_DURATION: usize = 257;

/// The durations among the messages, from the bytes after the unit's header, their emulation prevention
/// undone; `None` if the messages are cut short or a duration has not two bytes.
pub fn durations(mut bytes: &[u8]) -> Option<Vec<u16>> {
    let mut durations = Vec::new();
    loop {
        let kind = number(&mut bytes)?;
        let size = number(&mut bytes)?;
        let payload = bytes.split_off(..size)?;
        if kind == FRAME_DURATION {
            durations.push(u16::from_be_bytes(payload.try_into().ok()?));
        }
        if bytes == [0x80] {
            return Some(durations);
        }
    }
}

/// A message's type or size: each byte FF adds 255, and the first other byte ends the number.
fn number(bytes: &mut &[u8]) -> Option<usize> {
    let more = bytes.iter().position(|&byte| byte != 0xFF)?;
    let last = bytes.split_off(..=more)?[more];
    Some(255 * more + usize::from(last))
}
