//! The functions of the loop player's static library (`include/loop_player.h`), as safe functions over slices. They are
//! sound for the reasons that [`crate::ffi`] has.

// Results start with values that are no likely answer, so that the comparison sees one that was not set.
const UNSET: u32 = u32::MAX;

extern "C" {
    fn player_frame_at(
        loop_count: u16,
        period_num: u16,
        period_den: u16,
        durations: *const u16,
        durations_len: usize,
        tick: u64,
        frame: *mut u32,
        ended: *mut bool,
    ) -> u8;
    fn player_ticks(ms: u32, period_num: u16, period_den: u16, ticks: *mut u64) -> u8;
    fn player_frame_at_time(
        file: *const u8,
        file_len: usize,
        ms: u32,
        frame: *mut u32,
        ended: *mut bool,
        offset: *mut usize,
    ) -> u8;
}

/// Status, frame and whether the loop ended.
pub fn frame_at(
    loop_count: u16,
    period_num: u16,
    period_den: u16,
    durations: &[u16],
    tick: u64,
) -> (u8, u32, bool) {
    let (mut frame, mut ended) = (UNSET, true);
    // SAFETY: pointers and lengths of slices and of locals; see above.
    let status = unsafe {
        player_frame_at(
            loop_count,
            period_num,
            period_den,
            durations.as_ptr(),
            durations.len(),
            tick,
            &mut frame,
            &mut ended,
        )
    };
    (status, frame, ended)
}

/// Status and ticks.
pub fn ticks(ms: u32, period_num: u16, period_den: u16) -> (u8, u64) {
    let mut ticks = u64::MAX;
    // SAFETY: a pointer to a local; see above.
    let status = unsafe { player_ticks(ms, period_num, period_den, &mut ticks) };
    (status, ticks)
}

/// Status, frame, whether the loop ended, and offset.
pub fn frame_at_time(file: &[u8], ms: u32) -> (u8, u32, bool, usize) {
    let (mut frame, mut ended, mut offset) = (UNSET, true, usize::MAX);
    // SAFETY: pointers and lengths of slices and of locals; see above.
    let status = unsafe {
        player_frame_at_time(
            file.as_ptr(),
            file.len(),
            ms,
            &mut frame,
            &mut ended,
            &mut offset,
        )
    };
    (status, frame, ended, offset)
}
