//! The loop player: which frame of a loop stands at a time. It is a proved library of its own, above the
//! one that reads files.
//!
//! ```
//! use core::time::Duration;
//!
//! // File C of the examples, with three frames that are shown for 1, 2 and 3 periods of 100 ms.
//! let file = *b"BPG\xFB\x20\x09\x08\x84\x1E\x00\x05\x05\x03\x00\x01\x0A\x03\x92\x4D\x00\
//!     \x26\x01\x80\x00\x00\x01\x4E\x01\xFF\x02\x02\x00\x02\x80\x00\x00\x01\
//!     \x26\x01\x80\x00\x00\x01\x4E\x01\xFF\x02\x02\x00\x03\x80\x00\x00\x01\x26\x01\x80";
//! let record = bpg::read(&file)?;
//! let mut durations = [0; bpg::player::MAX_FRAMES];
//! let count = bpg::frames(&file, &mut durations)?;
//!
//! let player = bpg::player::Player::new(&record, &durations[..count])?;
//! let frames = [0, 100, 250, 300, 599, 600].map(|ms| player.frame_at(Duration::from_millis(ms)).frame);
//! assert_eq!(frames, [0, 1, 1, 2, 2, 0]);
//! # Ok::<(), bpg::Refusal>(())
//! ```

#[doc(hidden)]
pub mod ffi;

use core::time::Duration;

use crate::{answer, Record, Refusal};

/// The most frames of a loop that is played.
pub const MAX_FRAMES: usize = 256;

/// What a screen shows.
#[derive(Clone, Copy, Debug, PartialEq, Eq, Hash)]
pub struct FrameAt {
    /// The frame, from 0.
    pub frame: u32,
    /// The loop was played as often as it asks for, and its last frame stays.
    pub ended: bool,
}

/// A loop that can be played: the numbers of a record, and for how many frame periods each frame is shown.
#[derive(Clone, Copy, Debug)]
pub struct Player<'d> {
    loop_count: u16,
    period_num: u16,
    period_den: u16,
    durations: &'d [u16],
}

impl<'d> Player<'d> {
    /// Refused ([`Unplayable`](crate::Reason::Unplayable)) where there is no frame, or more than 256, a duration is 0, or the
    /// record has no frame period: that of a still file mostly has none.
    ///
    /// ```
    /// let still = bpg::read(b"BPG\xFB\x20\x00\x08\x84\x1E\x00\x03\x92\x4D\x00\x26\x01\x80")?;
    /// let refusal = bpg::player::Player::new(&still, &[1]).unwrap_err();
    /// assert_eq!((refusal.number(), refusal.offset), (37, 0));
    /// # Ok::<(), bpg::Refusal>(())
    /// ```
    pub fn new(record: &Record, durations: &'d [u16]) -> Result<Player<'d>, Refusal> {
        let player = Player {
            loop_count: record.loop_count(),
            period_num: record.frame_period_num(),
            period_den: record.frame_period_den(),
            durations,
        };
        player.at(0)?;
        Ok(player)
    }

    fn at(&self, tick: u64) -> Result<FrameAt, Refusal> {
        frame_at(
            self.loop_count,
            self.period_num,
            self.period_den,
            self.durations,
            tick,
        )
    }

    /// The frame that stands at a tick, a tick being one frame period.
    pub fn frame_at_tick(&self, tick: u64) -> FrameAt {
        self.at(tick).expect("a loop that was taken can be played")
    }

    /// The frame that stands at a time; what is below a millisecond is cut off.
    ///
    /// The proved rule is for times below 2^32 ms, which are 49 days. Of longer ones the same whole part is taken in plain Rust.
    pub fn frame_at(&self, time: Duration) -> FrameAt {
        self.frame_at_tick(self.ticks(time.as_millis()))
    }

    fn ticks(&self, ms: u128) -> u64 {
        if let Ok(ms) = u32::try_from(ms) {
            return ticks(ms, self.period_num, self.period_den)
                .expect("a loop that was taken has a period");
        }
        let ticks = ms * u128::from(self.period_den) / (1000 * u128::from(self.period_num));
        u64::try_from(ticks).unwrap_or(u64::MAX)
    }
}

/// The frame that stands at a tick, a tick being one frame period. A loop count of 0 plays for ever.
///
/// ```
/// use bpg::player::{frame_at, FrameAt};
///
/// // Twice three frames of 1, 2 and 3 ticks: from tick 12 on the last one stays.
/// assert_eq!(frame_at(2, 1, 10, &[1, 2, 3], 7), Ok(FrameAt { frame: 1, ended: false }));
/// assert_eq!(frame_at(2, 1, 10, &[1, 2, 3], 12), Ok(FrameAt { frame: 2, ended: true }));
/// assert_eq!(frame_at(2, 1, 10, &[1, 0, 3], 7).unwrap_err().number(), 37);
/// ```
pub fn frame_at(
    loop_count: u16,
    period_num: u16,
    period_den: u16,
    durations: &[u16],
    tick: u64,
) -> Result<FrameAt, Refusal> {
    let (status, frame, ended) = ffi::frame_at(loop_count, period_num, period_den, durations, tick);
    answer(status, 0)?;
    Ok(FrameAt { frame, ended })
}

/// Milliseconds as whole ticks, for a frame period of `period_num / period_den` seconds.
///
/// ```
/// assert_eq!(bpg::player::ticks(250, 1, 10), Ok(2));
/// ```
pub fn ticks(ms: u32, period_num: u16, period_den: u16) -> Result<u64, Refusal> {
    let (status, ticks) = ffi::ticks(ms, period_num, period_den);
    answer(status, 0)?;
    Ok(ticks)
}

/// The frame of a file that stands at a time in milliseconds. It reads the file and looks through its data at each
/// call; who asks often keeps a [`Player`].
///
/// ```
/// // File A of the examples, with a byte of slice data, is still and has no frame period.
/// let file = *b"BPG\xFB\x20\x00\x08\x84\x1E\x00\x03\x92\x4D\x00\x26\x01\x80";
/// assert_eq!(bpg::player::frame_at_time(&file, 0).unwrap_err().number(), 37);
/// ```
pub fn frame_at_time(file: &[u8], ms: u32) -> Result<FrameAt, Refusal> {
    let (status, frame, ended, offset) = ffi::frame_at_time(file, ms);
    answer(status, offset)?;
    Ok(FrameAt { frame, ended })
}
