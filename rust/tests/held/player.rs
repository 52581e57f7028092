//! The loop player: its calls, and the wrapper that holds a loop.

use core::time::Duration;

use bpg::player::{FrameAt, Player};
use bpg::{Record, Refusal};

use super::{hex, same, status, Statuses};
use crate::cases::{loops, Random};
use crate::plain::player::{self as plain, Loop};

/// The player's own; for files also those of the first library that the cases meet.
pub const PLAYER_STATUSES: &[usize] = &[0, 37];
pub const PLAYER_FILE_STATUSES: &[usize] = &[0, 2, 22, 23, 24, 25, 37];

pub fn frame_at(shown: &Loop, tick: u64, statuses: &mut Statuses) {
    let case = || format!("{shown:?}, tick {tick}");
    let Loop {
        count,
        period: (num, den),
        durations,
    } = shown;
    let expected = plain::frame_at(shown, tick);
    let (number, frame, ended) = bpg::player::ffi::frame_at(*count, *num, *den, durations, tick);
    same("the status", &case, number, status(&expected).0);
    same("the frame", &case, (frame, ended), parts(&expected));
    let wrapped = bpg::player::frame_at(*count, *num, *den, durations, tick);
    same("the wrapper's answer", &case, wrapped, expected);
    let held = Player::new(&record(shown), durations).map(|player| player.frame_at_tick(tick));
    same("the player's answer", &case, held, expected);
    statuses.count(number);
}

pub fn ticks(shown: &Loop, random: &mut Random, statuses: &mut Statuses) {
    let ms = loops::ms(shown.period, random);
    let case = || format!("{shown:?}, {ms} ms");
    let (num, den) = shown.period;
    let expected = plain::ticks(ms, shown.period);
    let (number, ticks) = bpg::player::ffi::ticks(ms, num, den);
    same("the status", &case, number, status(&expected).0);
    same("the ticks", &case, ticks, expected.unwrap_or(0));
    let wrapped = bpg::player::ticks(ms, num, den);
    same("the wrapper's answer", &case, wrapped, expected);
    statuses.count(number);
    if let Ok(player) = Player::new(&record(shown), &shown.durations) {
        times(&player, shown, ms, random);
    }
}

/// A time with a part below a millisecond, and one of more than 32 bits.
fn times(player: &Player, shown: &Loop, ms: u32, random: &mut Random) {
    let case = || format!("{shown:?}, {ms} ms");
    let time =
        Duration::from_millis(ms.into()) + Duration::from_nanos(random.below(1_000_000) as u64);
    let tick = plain::ticks(ms, shown.period).expect("the period is known");
    let expected = plain::frame_at(shown, tick).expect("the loop can be played");
    same(
        "the frame of a time",
        &case,
        player.frame_at(time),
        expected,
    );
    let long = u64::from(ms) * 1000 + (1 << 32);
    let (num, den) = (u128::from(shown.period.0), u128::from(shown.period.1));
    let tick = u128::from(long) * den / (1000 * num);
    let expected = plain::frame_at(shown, tick as u64).expect("the loop can be played");
    let answer = player.frame_at(Duration::from_millis(long));
    same("the frame of a long time", &case, answer, expected);
}

pub fn frame_at_time(file: &[u8], random: &mut Random, statuses: &mut Statuses) {
    let period = bpg::read(file).map_or((0, 0), |record| {
        (record.frame_period_num(), record.frame_period_den())
    });
    let ms = loops::ms(period, random);
    let case = || format!("{ms} ms of file: {}", hex(file));
    let expected = plain::frame_at_time(file, ms);
    let (number, frame, ended, offset) = bpg::player::ffi::frame_at_time(file, ms);
    same("the status", &case, (number, offset), status(&expected));
    same("the frame", &case, (frame, ended), parts(&expected));
    let wrapped = bpg::player::frame_at_time(file, ms);
    same("the wrapper's answer", &case, wrapped, expected);
    statuses.count(number);
}

/// Frame and end, as the static library answers them.
fn parts(answer: &Result<FrameAt, Refusal>) -> (u32, bool) {
    answer.map_or((0, false), |shown| (shown.frame, shown.ended))
}

/// A record with the numbers of a loop.
fn record(shown: &Loop) -> Record {
    let mut record = Record::new();
    record.set_loop_count(shown.count);
    record.set_frame_period_num(shown.period.0);
    record.set_frame_period_den(shown.period.1);
    record
}
