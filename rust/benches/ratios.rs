//! How the proved library compares with plain Rust, and its copying with memcpy, measured in turns in the
//! same run. `cargo bench` compiles with optimization.

#[path = "../tests/plain/mod.rs"]
#[allow(dead_code, unused_imports)]
mod plain;
mod planes;
mod race;
#[path = "../tests/cases/random.rs"]
#[allow(dead_code)]
mod random;
#[path = "../tests/held/record.rs"]
#[allow(dead_code)]
mod record;
mod sample;
mod table;

use std::hint::black_box;

use race::Race;
use record::plain_of;
use sample::Marks;
use table::{heading, row, row_copying, row_over};

const SIZES: [(&str, usize); 3] = [("1 KiB", 1 << 10), ("64 KiB", 1 << 16), ("16 MiB", 1 << 24)];

const MARKS: [(&str, Marks); 3] = [
    ("no marks", Marks::None),
    ("few marks", Marks::Few),
    ("many marks", Marks::Many),
];

fn main() {
    println!("Times are medians in ns a call. Ratios are medians over rounds in which each takes its turn; above 1 the");
    println!("library is slower. Every byte of the buffers was touched before. `bpg_read`, `bpg_write`: the calls for C, a");
    println!("record being a list of numbers; `bpg::read` and the like: those of the Rust package. Marks are two zero bytes and");
    println!("one of at most 3: few are one in 4 KiB, many one in 13 bytes. Many frames: one in 64 bytes.");
    println!("Plain Rust answers and takes what the call does: the list, or the package's record, which is that list. In a row with *");
    println!("it has a record of its own in its place, of half the size.");
    println!();
    heading();
    for entries in [0, 3, 16, 64] {
        for alpha in [false, true] {
            reading(entries, alpha);
        }
    }
    for entries in [0, 16] {
        partitioning(entries);
    }
    reading_heads();
    let batched = batch();
    for (name, size) in SIZES {
        writing_list(name, size);
        writing(name, size);
        canonicalizing(name, size);
    }
    measuring();
    exporting();
    importing();
    counting_frames("few marks", Marks::Few);
    counting_frames("many marks", Marks::Many);
    timing_frames("still", &sample::still(Marks::Few, 1 << 24));
    timing_frames(
        "16 frames",
        &sample::animation(Marks::Few, 1 << 20, 1 << 24),
    );
    timing_frames(
        "many frames",
        &sample::animation(Marks::None, 1 << 6, 1 << 24),
    );
    for (name, size) in &SIZES[1..] {
        for (marks_name, marks) in MARKS {
            let name = format!("{name}, {marks_name}");
            unescaping(&name, &sample::unit(marks, *size));
            escaping(&name, &sample::bytes(marks, *size));
        }
    }
    for frames in [4, 60, 256] {
        playing(frames);
    }
    println!();
    println!(
        "A file of 16 MiB is read in {:.2} of the time of one of 1 KiB.",
        reading_sizes()
    );
    println!("A batch of 60 files takes {batched:.2} of the time of 60 calls of `bpg_read`.");
    planes::run();
}

fn reading(entries: usize, alpha: bool) {
    let file = &sample::file(entries, alpha, 200 + 16 * entries)[..];
    let name = format!("{entries} entries{}", if alpha { ", alpha" } else { "" });
    let mut list = [1; plain::NUMBERS];
    let lists = Race::run(
        &mut list,
        [
            &mut |list| {
                black_box(bpg::ffi::read(black_box(file), black_box(list)));
            },
            &mut |list| {
                black_box(&plain::read_list(black_box(file), black_box(list)));
            },
        ],
    );
    row("bpg_read", &name, &lists, [0, 1]);
    reading_records(&name, file);
}

/// Against plain Rust that answers the same memory, and against plain Rust with a record of its own.
fn reading_records(name: &str, file: &[u8]) {
    let race = Race::run(
        &mut [bpg::Record::new()],
        [
            &mut |_| {
                black_box(&bpg::read(black_box(file)));
            },
            &mut |_| {
                black_box(&plain_numbers(black_box(file)));
            },
            &mut |record| {
                black_box(record[0].read_from(black_box(file))).expect("the file is valid");
            },
            &mut |_| {
                black_box(&plain::read(black_box(file)));
            },
        ],
    );
    row("bpg::read", name, &race, [0, 1]);
    row("Record::read_from", name, &race, [2, 1]);
    row("bpg::read *", name, &race, [0, 3]);
}

/// The list by value, as the package's record is.
fn plain_numbers(file: &[u8]) -> Result<[u64; plain::NUMBERS], bpg::Refusal> {
    let mut list = [0; plain::NUMBERS];
    plain::read_list(file, &mut list)?;
    Ok(list)
}

/// Reading looks at no byte of the data, so its time does not grow with it.
fn reading_sizes() -> f64 {
    let [small, large] = [1 << 10, 1 << 24].map(|size| sample::file(3, false, size));
    let race = Race::run(
        &mut [1; plain::NUMBERS],
        [
            &mut |list| {
                black_box(bpg::ffi::read(black_box(&large), black_box(list)));
            },
            &mut |list| {
                black_box(bpg::ffi::read(black_box(&small), black_box(list)));
            },
        ],
    );
    race.ratio(0, 1)
}

fn partitioning(entries: usize) {
    let file = &sample::file(entries, true, 200)[..];
    let race = Race::run::<()>(
        &mut [],
        [
            &mut |_| {
                black_box(bpg::ffi::partition(black_box(file)));
            },
            &mut |_| {
                black_box(plain::partition(black_box(file))).expect("the file is valid");
            },
        ],
    );
    let name = format!("{entries} entries, alpha");
    row("bpg_partition", &name, &race, [0, 1]);
}

/// The head alone, from a file's first bytes; and reading on from it, against reading.
fn reading_heads() {
    let file = &sample::file(3, true, 1 << 10)[..];
    let first = &file[..bpg::HEAD_BYTES];
    let race = Race::run(
        &mut [1; plain::HEAD],
        [
            &mut |list| {
                black_box(bpg::ffi::head(black_box(first), black_box(list)));
            },
            &mut |list| {
                black_box(plain::head_list(black_box(first), black_box(list)))
                    .expect("the head is valid");
            },
        ],
    );
    row("bpg_head", "27 bytes", &race, [0, 1]);
    let head = plain::head(file).expect("the head is valid");
    let race = Race::run(
        &mut [1; plain::NUMBERS],
        [
            &mut |list| {
                black_box(bpg::ffi::body(&head, black_box(file), black_box(list)));
            },
            &mut |list| {
                black_box(plain::body_list(&head, black_box(file), black_box(list)))
                    .expect("the file is valid");
            },
        ],
    );
    row("bpg_body", "3 entries, alpha", &race, [0, 1]);
}

/// The files of an hour, against as many calls for one file.
fn batch() -> f64 {
    const FILES: usize = 60;
    let file = sample::file(3, false, 20 << 10);
    let lengths = &[file.len() as u32; FILES];
    let buffer = &file.repeat(FILES)[..];
    let files: Vec<_> = buffer.chunks(file.len()).collect();
    let (mut statuses, mut offsets) = ([1; FILES], [1; FILES]);
    let (mut plain_statuses, mut plain_offsets) = ([1; FILES], [1; FILES]);
    let race = Race::run(
        &mut [1; plain::NUMBERS],
        [
            &mut |_| {
                let lists = black_box((&mut statuses, &mut offsets));
                black_box(bpg::ffi::batch(
                    black_box(buffer),
                    lengths,
                    lists.0,
                    lists.1,
                ));
            },
            &mut |_| {
                let lists = black_box((&mut plain_statuses, &mut plain_offsets));
                black_box(plain::batch(black_box(buffer), lengths, lists.0, lists.1))
                    .expect("the lengths fit");
            },
            &mut |list| {
                for file in &files {
                    black_box(bpg::ffi::read(black_box(file), black_box(list)));
                }
            },
        ],
    );
    row("bpg_batch", "60 files of 20 KiB", &race, [0, 1]);
    race.ratio(0, 2)
}

fn canonicalizing(name: &str, size: usize) {
    let file = &sample::file(3, true, size)[..];
    let race = Race::run(
        &mut buffer(size),
        [
            &mut |out| ok(bpg::canonicalize(black_box(file), black_box(out))),
            &mut |out| ok(plain::canonicalize(black_box(file), black_box(out))),
            &mut |out| black_box(out).copy_from_slice(black_box(file)),
        ],
    );
    row_copying("bpg::canonicalize", name, size, &race, [0, 1]);
}

/// Against plain Rust that takes the package's record, and against plain Rust with a record of its own.
fn writing(name: &str, size: usize) {
    let file = &sample::file(3, true, size)[..];
    let record = &bpg::read(file).expect("the file is valid");
    let own = &plain::read(file).expect("the file is valid");
    let race = Race::run(
        &mut buffer(size),
        [
            &mut |out| ok(bpg::write(black_box(record), file, black_box(out))),
            &mut |out| {
                let record = plain_of(black_box(record));
                ok(plain::write(&record, file, black_box(out)));
            },
            &mut |out| black_box(out).copy_from_slice(black_box(file)),
            &mut |out| ok(plain::write(black_box(own), file, black_box(out))),
        ],
    );
    row_copying("bpg::write", name, size, &race, [0, 1]);
    row_copying("bpg::write *", name, size, &race, [0, 3]);
}

fn writing_list(name: &str, size: usize) {
    let (file, list) = &listed(size);
    let race = Race::run(
        &mut buffer(size),
        [
            &mut |out| {
                black_box(bpg::ffi::write(black_box(list), file, black_box(out)));
            },
            &mut |out| ok(plain::write_list(black_box(list), file, black_box(out))),
            &mut |out| black_box(out).copy_from_slice(black_box(file)),
        ],
    );
    row_copying("bpg_write", name, size, &race, [0, 1]);
}

/// The sizes that a buffer needs: nothing is copied.
fn measuring() {
    let (file, list) = &listed(1 << 24);
    let writing = Race::run::<()>(
        &mut [],
        [
            &mut |_| {
                black_box(bpg::ffi::write_size(black_box(list), black_box(file)));
            },
            &mut |_| ok(plain::write_list_size(black_box(list), black_box(file))),
        ],
    );
    row("bpg_write_size", "16 MiB", &writing, [0, 1]);
    let canonical = Race::run::<()>(
        &mut [],
        [
            &mut |_| ok(bpg::canonical_size(black_box(file))),
            &mut |_| ok(plain::canonical_size(black_box(file))),
        ],
    );
    row("bpg::canonical_size", "16 MiB", &canonical, [0, 1]);
}

/// A file with 3 entries and alpha, and its list of numbers.
fn listed(size: usize) -> (Vec<u8>, [u64; plain::NUMBERS]) {
    let file = sample::file(3, true, size);
    let mut list = [0; plain::NUMBERS];
    plain::read_list(&file, &mut list).expect("the file is valid");
    (file, list)
}

/// A profile of 12 MiB as segments, against copying as many bytes.
fn exporting() {
    let file = &sample::profile(12 << 20)[..];
    let run = &bpg::export_segments_to_vec(file).expect("the file is valid")[..];
    let race = Race::run(
        &mut buffer(run.len()),
        [
            &mut |out| ok(bpg::export_segments(black_box(file), black_box(out))),
            &mut |out| ok(plain::export_segments(black_box(file), black_box(out))),
            &mut |out| black_box(out).copy_from_slice(black_box(run)),
        ],
    );
    row_copying("bpg_export_segments", "12 MiB", run.len(), &race, [0, 1]);
}

/// And back. Plain Rust joins the payloads before it copies them.
fn importing() {
    let run =
        &bpg::export_segments_to_vec(&sample::profile(12 << 20)).expect("the file is valid")[..];
    let count = |lengths: [usize; 3]| lengths.iter().sum();
    let race = Race::run(
        &mut buffer(run.len()),
        [
            &mut |out| {
                black_box(bpg::ffi::import_segments(black_box(run), black_box(out)));
            },
            &mut |out| ok(plain::import_segments(black_box(run), black_box(out)).map(count)),
            &mut |out| black_box(out).copy_from_slice(black_box(run)),
        ],
    );
    row_copying("bpg_import_segments", "12 MiB", run.len(), &race, [0, 1]);
}

fn counting_frames(name: &str, marks: Marks) {
    let file = &sample::animation(marks, 1 << 20, 1 << 24)[..];
    let race = Race::run(
        &mut buffer(file.len()),
        [
            &mut |_| ok(bpg::frame_count(black_box(file))),
            &mut |_| ok(plain::frame_count(black_box(file))),
            &mut |out| black_box(out).copy_from_slice(black_box(file)),
        ],
    );
    row_copying(
        "bpg_frame_count",
        &format!("16 MiB, {name}"),
        file.len(),
        &race,
        [0, 1],
    );
}

/// Plain Rust keeps the durations beside the list and goes over the file once.
fn timing_frames(name: &str, file: &[u8]) {
    let count = plain::frame_count(file).expect("the file is valid");
    let race = Race::run(
        &mut vec![1; count],
        [
            &mut |list| {
                black_box(bpg::ffi::frames(black_box(file), black_box(list)));
            },
            &mut |list| ok(plain::frames(black_box(file), black_box(list))),
        ],
    );
    row_over("bpg_frames", &format!("16 MiB, {name}"), file.len(), &race);
}

/// A frame at each tick of some rounds in turn.
fn playing(frames: usize) {
    let shown = &plain::player::Loop {
        count: 0,
        period: (1, 25),
        durations: (0..frames).map(|frame| frame as u16 % 7 + 1).collect(),
    };
    let durations = &shown.durations[..];
    let [mut tick, mut plain_tick] = [0; 2];
    let race = Race::run::<()>(
        &mut [],
        [
            &mut |_| {
                tick += 1;
                black_box(bpg::player::ffi::frame_at(
                    0,
                    1,
                    25,
                    black_box(durations),
                    tick,
                ));
            },
            &mut |_| {
                plain_tick += 1;
                black_box(plain::player::frame_at(black_box(shown), plain_tick))
                    .expect("the loop can be played");
            },
        ],
    );
    row(
        "player_frame_at",
        &format!("{frames} frames"),
        &race,
        [0, 1],
    );
}

fn unescaping(name: &str, unit: &[u8]) {
    let race = Race::run(
        &mut buffer(unit.len()),
        [
            &mut |out| ok(bpg::unescape(black_box(unit), black_box(out))),
            &mut |out| ok(plain::unescape(black_box(unit), black_box(out))),
            &mut |out| black_box(out).copy_from_slice(black_box(unit)),
        ],
    );
    row_copying("bpg_unescape", name, unit.len(), &race, [0, 1]);
}

fn escaping(name: &str, bytes: &[u8]) {
    let race = Race::run(
        &mut buffer(2 * bytes.len()),
        [
            &mut |out| ok(bpg::escape(black_box(bytes), black_box(out))),
            &mut |out| ok(plain::escape(black_box(bytes), black_box(out))),
            &mut |out| black_box(&mut out[..bytes.len()]).copy_from_slice(black_box(bytes)),
        ],
    );
    row_copying("bpg_escape", name, bytes.len(), &race, [0, 1]);
}

/// A buffer whose every byte was written, so that no page is met for the first time.
fn buffer(size: usize) -> Vec<u8> {
    vec![1; size]
}

fn ok(answer: Result<usize, bpg::Refusal>) {
    black_box(answer).expect("file and record are valid");
}
