//! Which frame of a loop stands at a time.

use bpg::player::FrameAt;
use bpg::{Reason, Refusal};

use super::{frame_count, frames, read, refuse};

/// The loop count, the period and the durations.
#[derive(Clone, Debug)]
pub struct Loop {
    pub count: u16,
    pub period: (u16, u16),
    pub durations: Vec<u16>,
}

/// The frame whose end in the round is the first after this tick. With at most 256 durations no sum or product is above 2^40.
pub fn frame_at(shown: &Loop, tick: u64) -> Result<FrameAt, Refusal> {
    let durations = &shown.durations;
    let playable = (1..=256).contains(&durations.len()) && !durations.contains(&0);
    if !playable || shown.period.0 == 0 || shown.period.1 == 0 {
        return refuse(Reason::Unplayable, 0);
    }
    let round: u64 = durations.iter().map(|&ticks| u64::from(ticks)).sum();
    let rounds = u64::from(shown.count);
    if rounds > 0 && tick >= rounds * round {
        let frame = durations.len() as u32 - 1;
        return Ok(FrameAt { frame, ended: true });
    }
    let tick = tick % round;
    let mut end = 0;
    let frame = durations.iter().position(|&ticks| {
        end += u64::from(ticks);
        tick < end
    });
    let frame = frame.expect("the tick is in the round") as u32;
    Ok(FrameAt {
        frame,
        ended: false,
    })
}

pub fn ticks(ms: u32, period: (u16, u16)) -> Result<u64, Refusal> {
    let (num, den) = (u64::from(period.0), u64::from(period.1));
    if num == 0 || den == 0 {
        return refuse(Reason::Unplayable, 0);
    }
    Ok(u64::from(ms) * den / (num * 1000))
}

/// The frame of a file at a time.
pub fn frame_at_time(file: &[u8], ms: u32) -> Result<FrameAt, Refusal> {
    let mut durations = vec![0; frame_count(file)?];
    frames(file, &mut durations)?;
    let record = read(file)?;
    let shown = Loop {
        count: record.loop_count,
        period: (record.frame_period_num, record.frame_period_den),
        durations,
    };
    let tick = ticks(ms, shown.period)?;
    frame_at(&shown, tick)
}
