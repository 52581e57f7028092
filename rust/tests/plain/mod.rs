//! An independent reader, writer and canonicalizer in plain Rust, and the calls on frames and emulation
//! prevention, made from the papers alone and not from the proved library. The comparison holds the library
//! to it, and it is the benchmark's baseline.

mod batch;
mod bits;
mod canonical;
mod check;
mod cursor;
mod encode;
mod escape;
mod frames;
mod head;
mod header;
mod list;
mod marks;
mod nal;
mod partition;
pub mod player;
mod reader;
mod record;
pub mod samples;
mod segments;
mod sei;
mod thumbnails;
mod writer;

pub use batch::batch;
pub use canonical::{canonical_size, canonicalize};
pub use escape::{escape, unescape};
pub use frames::{frame_count, frames};
pub use head::{body, body_list, head, head_list, HEAD};
pub use list::{read_list, record_of, ENTRY, FIXED, NUMBERS};
pub use partition::partition;
pub use reader::read;
pub use record::{Entry, HevcHeader, Record, Span, MAX_ENTRIES};
pub use segments::{export_segments, import_segments};
pub use thumbnails::check_thumbnails;
pub use writer::{write, write_list, write_list_size, write_size};

use bpg::{Reason, Refusal};

/// The most bytes that a file may have.
pub const MAX_FILE: usize = 16_777_216;

fn refuse<T>(reason: Reason, offset: usize) -> Result<T, Refusal> {
    Err(Refusal { reason, offset })
}
