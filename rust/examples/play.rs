//! Prints which frame of a loop stands at each period of its first second: `play [FILE.bpg]`
use std::{env, error::Error, fs};

use bpg::player::{self, Player};

/// File C of the examples, with three frames that are shown for 1, 2 and 3 periods of 100 ms.
const CHART: &[u8] = b"BPG\xFB\x20\x09\x08\x84\x1E\x00\x05\x05\x03\x00\x01\x0A\x03\x92\x4D\x00\
    \x26\x01\x80\x00\x00\x01\x4E\x01\xFF\x02\x02\x00\x02\x80\x00\x00\x01\
    \x26\x01\x80\x00\x00\x01\x4E\x01\xFF\x02\x02\x00\x03\x80\x00\x00\x01\x26\x01\x80";

fn main() -> Result<(), Box<dyn Error>> {
    let file = match env::args().nth(1) {
        Some(name) => fs::read(name)?,
        None => CHART.to_vec(),
    };
    let record = bpg::read(&file)?;
    let durations = bpg::frames_to_vec(&file)?;
    let player = Player::new(&record, &durations)?;

    let last = player::ticks(1000, record.frame_period_num(), record.frame_period_den())?;
    for tick in 0..=last {
        let shown = player.frame_at_tick(tick);
        let ended = if shown.ended { ", ended" } else { "" };
        println!("tick {tick:2}: frame {}{ended}", shown.frame);
    }
    Ok(())
}
