//! Holds the library's answers to those of plain Rust, number by number and byte by byte.

mod batch;
mod buffers;
mod canonical;
mod escape;
mod frames;
mod head;
mod partition;
mod player;
mod read;
mod record;
mod samples;
mod segments;
mod statuses;
mod table;
mod thumbnails;
mod write;

pub use batch::{batch, BATCH_STATUSES};
pub use buffers::Buffers;
pub use canonical::{canonical, canonical_in, canonical_size};
pub use escape::escape;
pub use frames::frames;
pub use head::{body, head, BODY_STATUSES, HEAD_STATUSES};
pub use partition::{edited, partition, PARTITION_STATUSES};
pub use player::{frame_at, frame_at_time, ticks, PLAYER_FILE_STATUSES, PLAYER_STATUSES};
pub use read::read;
pub use samples::{samples, SAMPLE_STATUSES};
pub use segments::{long_profile, segments, Met};
pub use statuses::Statuses;
pub use table::{Call, Cases, Table};
pub use thumbnails::{thumbnails, THUMBNAIL_STATUSES};
pub use write::{write, write_in, write_size};

use bpg::Refusal;

/// Files below this are made in memory of their own, too.
const SMALL: usize = 1 << 20;

/// A status and its offset, as the static library answers them.
fn status<T>(answer: &Result<T, Refusal>) -> (u8, usize) {
    match answer {
        Ok(_) => (0, 0),
        Err(refusal) => (refusal.number(), refusal.offset),
    }
}

/// Fails with the case in hex where the answers differ.
#[track_caller]
fn same<T: PartialEq + std::fmt::Debug>(
    what: &str,
    case: &dyn Fn() -> String,
    library: T,
    plain: T,
) {
    if library != plain {
        panic!(
            "{what} differs\n{}\nlibrary: {library:?}\nplain:   {plain:?}",
            case()
        );
    }
}

/// Bytes in hex; of a large file the start, since the seed gives the rest again.
fn hex(bytes: &[u8]) -> String {
    let shown = &bytes[..bytes.len().min(100_000)];
    let mut text: String = shown.iter().map(|byte| format!("{byte:02x}")).collect();
    if shown.len() < bytes.len() {
        text += &format!(".. ({} bytes)", bytes.len());
    }
    text
}
