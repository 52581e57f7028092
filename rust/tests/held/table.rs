//! How many calls answered each status.

use std::fmt;
use std::ops::AddAssign;

#[derive(Clone, Copy)]
pub enum Call {
    Read,
    Write,
    WriteSize,
    Canonicalize,
    CanonicalSize,
    Frames,
    FrameCount,
    Unescape,
    Escape,
}

/// How many cases of each kind there are; `framed` are files whose data is made of units.
#[derive(Clone, Copy, Default)]
pub struct Cases {
    pub files: u64,
    pub records: u64,
    pub framed: u64,
    pub slices: u64,
}

/// Calls by status, and the cases they were made for. A case is written into several buffers.
#[derive(Clone, Default)]
pub struct Table {
    pub cases: Cases,
    counts: [[u64; 9]; 27],
}

/// The calls, and the refusals that can occur in each.
const CALLS: [(&str, &[&[usize]]); 9] = [
    ("read", &[READ]),
    ("write", &[WRITE]),
    ("write_size", &[WRITE]),
    // What was read has neither 18 nor 19.
    ("canonicalize", &[READ, SHORT]),
    ("canon_size", &[READ]),
    ("frames", &[READ, SHORT, UNIT, FRAMES]),
    ("frame_count", &[READ, UNIT, FRAMES]),
    ("unescape", &[SHORT, UNIT]),
    ("escape", &[SHORT]),
];

/// The refusals of reading: 18 to 20 are those of the writer.
const READ: &[usize] = &[
    1, 2, 3, 4, 5, 6, 7, 8, 9, 10, 11, 12, 13, 14, 15, 16, 17, 26,
];
/// In writing, not 3 nor 10: a record has no magic, and its lengths follow from the rest. 2, 7 and 8 are
/// those of the loop numbers in a tag 5 payload.
const WRITE: &[usize] = &[
    1, 2, 4, 5, 6, 7, 8, 9, 11, 12, 13, 14, 15, 16, 17, 18, 19, 20, 26,
];
/// A buffer or list that is too short.
const SHORT: &[usize] = &[20];
/// A NAL unit's form, of which emulation prevention is a part.
const UNIT: &[usize] = &[22];
/// Layers and types, durations, the number of frames.
const FRAMES: &[usize] = &[23, 24, 25];

impl Cases {
    /// One thread's share.
    pub fn share(self, threads: u64) -> Cases {
        Cases {
            files: self.files.div_ceil(threads),
            records: self.records.div_ceil(threads),
            framed: self.framed.div_ceil(threads),
            slices: self.slices.div_ceil(threads),
        }
    }
}

impl AddAssign for Cases {
    fn add_assign(&mut self, other: Cases) {
        self.files += other.files;
        self.records += other.records;
        self.framed += other.framed;
        self.slices += other.slices;
    }
}

impl fmt::Display for Cases {
    fn fmt(&self, f: &mut fmt::Formatter<'_>) -> fmt::Result {
        let Cases {
            files,
            records,
            framed,
            slices,
        } = self;
        write!(
            f,
            "{files} files, {records} records, {framed} files of frames, {slices} slices"
        )
    }
}

impl Table {
    pub fn new(cases: Cases) -> Table {
        Table {
            cases,
            ..Table::default()
        }
    }

    pub fn count(&mut self, call: Call, status: u8) {
        self.counts[usize::from(status)][call as usize] += 1;
    }

    pub fn add(&mut self, other: &Table) {
        self.cases += other.cases;
        for (row, more) in self.counts.iter_mut().zip(&other.counts) {
            row.iter_mut().zip(more).for_each(|(sum, n)| *sum += n);
        }
    }

    /// The calls, and the statuses that can occur and were met fewer than `least` times: success is one.
    pub fn rare(&self, least: u64) -> Vec<(&'static str, usize)> {
        let mut rare = Vec::new();
        for (call, (name, refusals)) in CALLS.iter().enumerate() {
            let statuses = [0].into_iter().chain(refusals.concat());
            let few = statuses.filter(|&n| self.counts[n][call] < least);
            rare.extend(few.map(|n| (*name, n)));
        }
        rare
    }
}

impl fmt::Display for Table {
    fn fmt(&self, f: &mut fmt::Formatter<'_>) -> fmt::Result {
        write!(f, "status")?;
        for (name, _) in CALLS {
            write!(f, " {name:>12}")?;
        }
        writeln!(f)?;
        for (status, row) in self.counts.iter().enumerate() {
            write!(f, "{status:6}")?;
            for calls in row {
                write!(f, " {calls:12}")?;
            }
            writeln!(f)?;
        }
        write!(f, "{}", self.cases)
    }
}
