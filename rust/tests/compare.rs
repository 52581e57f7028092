//! Holds the proved library to an independent implementation, over nearly three million files, records and
//! slices a run.
//!
//! `BPG_SEED` gives another run; `BPG_FILES`, `BPG_RECORDS`, `BPG_FRAMED` (files whose data is made of units,
//! for the calls on frames), `BPG_SLICES` (for emulation prevention), `BPG_NESTED` (files with thumbnails),
//! `BPG_BATCHES`, `BPG_SAMPLES`, `BPG_HEADS`, `BPG_TAGGED` (files whose metadata is exported), `BPG_PARTED` (files for their
//! partition) and `BPG_LOOPS` another number of cases. A difference fails the test and prints the case and both answers.

mod cases;
mod held;
mod plain;

use std::env;
use std::thread;

use cases::{batches, heads, large, nested, records, samples, segments, Random};
use held::{
    Buffers, Cases, Met, Statuses, Table, BATCH_STATUSES, BODY_STATUSES, HEAD_STATUSES,
    PARTITION_STATUSES, SAMPLE_STATUSES, THUMBNAIL_STATUSES,
};

const THREADS: u64 = 2;

/// Longer than any file of a case that is not one of the large.
const CAPACITY: usize = 1 << 20;

#[test]
fn the_library_agrees_with_plain_rust() {
    let seed = setting("BPG_SEED", 20_150_425);
    let cases = Cases {
        files: setting("BPG_FILES", 1_500_000),
        records: setting("BPG_RECORDS", 700_000),
        framed: setting("BPG_FRAMED", 300_000),
        slices: setting("BPG_SLICES", 300_000),
    };
    println!("seed {seed}: {cases}, and some large");
    let mut table = large_cases(&mut Random::new(seed));
    thread::scope(|scope| {
        let runs = (1..=THREADS).map(|thread| {
            let random = Random::new(seed.wrapping_add(thread));
            scope.spawn(move || run(random, cases.share(THREADS)))
        });
        let runs: Vec<_> = runs.collect();
        for run in runs {
            table.add(&run.join().expect("the answers differ"));
        }
    });
    println!("{table}");
    let rare = table.rare(100);
    assert!(rare.is_empty(), "met fewer than 100 times: {rare:?}");
}

#[test]
fn the_deep_check_agrees_with_plain_rust() {
    let seed = setting("BPG_SEED", 20_150_425);
    let files = setting("BPG_NESTED", 300_000);
    let mut random = Random::new(seed.wrapping_add(THREADS + 1));
    let mut statuses = Statuses::new("check_thumbnails", THUMBNAIL_STATUSES);
    for _ in 0..files {
        held::thumbnails(&nested::file(&mut random), &mut statuses);
    }
    println!("{statuses}\n{files} files with thumbnails");
    let rare = statuses.rare(100);
    assert!(rare.is_empty(), "met fewer than 100 times: {rare:?}");
}

#[test]
fn the_batch_agrees_with_plain_rust() {
    let seed = setting("BPG_SEED", 20_150_425);
    let batches = setting("BPG_BATCHES", 200_000);
    let mut random = Random::new(seed.wrapping_add(THREADS + 2));
    let mut statuses = Statuses::new("batch", BATCH_STATUSES);
    for _ in 0..batches {
        held::batch(&batches::batch(&mut random), &mut random, &mut statuses);
    }
    // A file that is too long spoils none beside it.
    for size in [plain::MAX_FILE, plain::MAX_FILE + 1, 17 << 20] {
        let files = [
            cases::file(&mut random),
            large::long_buffer(1 << 20),
            cases::file(&mut random),
        ];
        let files = [&files[0], &files[1][..size], &files[2]].map(<[u8]>::to_vec);
        held::batch(&batches::of(&files), &mut random, &mut statuses);
    }
    println!("{statuses}\n{batches} batches, and some large");
    let rare = statuses.rare(100);
    assert!(rare.is_empty(), "met fewer than 100 times: {rare:?}");
}

#[test]
fn the_partition_agrees_with_plain_rust() {
    let seed = setting("BPG_SEED", 20_150_425);
    let files = setting("BPG_PARTED", 300_000);
    let mut random = Random::new(seed.wrapping_add(THREADS + 4));
    let mut statuses = Statuses::new("partition", PARTITION_STATUSES);
    let mut edited = 0;
    for _ in 0..files {
        let file = cases::file(&mut random);
        held::partition(&file, &mut statuses);
        edited += u64::from(held::edited(&file, &mut random));
    }
    for size in [plain::MAX_FILE, plain::MAX_FILE + 1] {
        held::partition(&large::long_buffer(1)[..size], &mut statuses);
    }
    println!("{statuses}\n{files} files for their partition, {edited} of them edited in place");
    let rare = statuses.rare(100);
    assert!(rare.is_empty(), "met fewer than 100 times: {rare:?}");
    assert!(edited >= files / 20, "few files with a payload to edit");
}

#[test]
fn the_head_and_the_body_agree_with_plain_rust() {
    let seed = setting("BPG_SEED", 20_150_425);
    let files = setting("BPG_HEADS", 300_000);
    let mut random = Random::new(seed.wrapping_add(THREADS + 4));
    let mut by_head = Statuses::new("head", HEAD_STATUSES);
    let mut by_body = Statuses::new("body", BODY_STATUSES);
    let mut other = cases::file(&mut random);
    for _ in 0..files {
        let file = heads::file(&mut random);
        held::head(&file, &mut random, &mut by_head);
        held::body(&file, &other, &mut random, &mut by_body);
        other = file;
    }
    // The head of a file that is too long is read, and its body is refused for its length, whatever head is given.
    let long = large::long_buffer(1);
    held::head(&long, &mut random, &mut by_head);
    for file in [&long[..], &long[..plain::MAX_FILE]] {
        held::body(file, &other, &mut random, &mut by_body);
        held::body(file, &long, &mut random, &mut by_body);
    }
    println!("{by_head}\n{by_body}\n{files} files, and some large");
    let rare = [by_head.rare(100), by_body.rare(100)].concat();
    assert!(rare.is_empty(), "met fewer than 100 times: {rare:?}");
}

#[test]
fn the_calls_on_samples_agree_with_plain_rust() {
    let seed = setting("BPG_SEED", 20_150_425);
    let cases = setting("BPG_SAMPLES", 400_000);
    let mut random = Random::new(seed.wrapping_add(THREADS + 3));
    for (call, name, met) in SAMPLE_STATUSES {
        let mut statuses = Statuses::new(name, met);
        for _ in 0..cases / SAMPLE_STATUSES.len() as u64 {
            held::samples(
                &samples::case(*call, &mut random),
                &mut random,
                &mut statuses,
            );
        }
        println!("{statuses}");
        let rare = statuses.rare(100);
        assert!(rare.is_empty(), "met fewer than 100 times: {rare:?}");
    }
    println!("{cases} calls on samples");
}

#[test]
fn the_player_agrees_with_plain_rust() {
    let seed = setting("BPG_SEED", 20_150_425);
    let cases = setting("BPG_LOOPS", 400_000);
    let mut random = Random::new(seed.wrapping_add(THREADS + 12));
    let mut frames = Statuses::new("player_frame_at", held::PLAYER_STATUSES);
    let mut ticks = Statuses::new("player_ticks", held::PLAYER_STATUSES);
    let mut files = Statuses::new("player_frame_at_time", held::PLAYER_FILE_STATUSES);
    for _ in 0..cases {
        let (shown, tick) = cases::loops::case(&mut random);
        held::frame_at(&shown, tick, &mut frames);
        held::ticks(&shown, &mut random, &mut ticks);
    }
    for _ in 0..cases / 4 {
        let file = cases::loops::file(&mut random);
        held::frame_at_time(&file, &mut random, &mut files);
    }
    for statuses in [frames, ticks, files] {
        println!("{statuses}");
        let rare = statuses.rare(100);
        assert!(rare.is_empty(), "met fewer than 100 times: {rare:?}");
    }
    println!("{cases} loops, and {} files", cases / 4);
}

#[test]
fn the_segments_agree_with_plain_rust() {
    let seed = setting("BPG_SEED", 20_150_425);
    let files = setting("BPG_TAGGED", 200_000);
    let mut random = Random::new(seed.wrapping_add(THREADS + 4));
    let mut buffers = Buffers::new(&mut random, plain::MAX_FILE + (1 << 16));
    let mut met = Met::default();
    for _ in 0..files {
        let file = segments::file(&mut random);
        held::segments(&file, &mut buffers, &mut random, &mut met);
    }
    // As many chunks as there may be, and a byte more.
    for size in [12 << 20, 255 * 65_519, 255 * 65_519 + 1] {
        held::long_profile(size, &mut buffers, &mut met);
    }
    println!("{}\n{}", met.export, met.import);
    println!("{files} files with metadata, and the longest profiles");
    let rare = [met.export.rare(100), met.import.rare(100)].concat();
    assert!(rare.is_empty(), "met fewer than 100 times: {rare:?}");
}

fn setting(name: &str, default: u64) -> u64 {
    match env::var(name) {
        Ok(text) => text.parse().expect("the setting is a number"),
        Err(_) => default,
    }
}

fn run(mut random: Random, cases: Cases) -> Table {
    let mut table = Table::new(cases);
    let mut buffers = Buffers::new(&mut random, CAPACITY);
    for _ in 0..cases.files {
        let file = cases::file(&mut random);
        held::read(&file, &mut random, &mut table);
        held::canonical(&file, &mut buffers, &mut random, &mut table);
    }
    for _ in 0..cases.records {
        let case = records::case(&mut random);
        held::write(&case, &mut buffers, &mut random, &mut table);
    }
    for _ in 0..cases.framed {
        let file = cases::frames::file(&mut random);
        held::frames(&file, &mut random, &mut table);
    }
    for _ in 0..cases.slices {
        let slice = cases::slices::slice(&mut random);
        held::escape(&slice, &mut buffers, &mut random, &mut table);
    }
    table
}

/// Files and records around the limit of 16,777,216 bytes.
fn large_cases(random: &mut Random) -> Table {
    let mut table = Table::default();
    let mut buffers = Buffers::new(random, plain::MAX_FILE + 64);
    above_limit(random, &mut buffers, &mut table);
    for size in [plain::MAX_FILE, plain::MAX_FILE - 1, 5_000_000] {
        for file in [
            large::long_buffer(0)[..size].to_vec(),
            large::long_payload(size),
        ] {
            held::read(&file, random, &mut table);
            held::canonical(&file, &mut buffers, random, &mut table);
            table.cases.files += 1;
        }
        held::frames(&large::long_slice(size), random, &mut table);
        table.cases.framed += 1;
    }
    let source = random.bytes(1_000_000);
    for i in 0..500 {
        let case = large::record_at_limit(random, source.clone());
        // Most need no buffer: 1 comes before 20.
        let capacity = if i < 6 { plain::MAX_FILE } else { i };
        held::write_in(&case, capacity, &mut buffers, random, &mut table);
        held::write_size(&case, &mut table);
        table.cases.records += 1;
    }
    table
}

fn above_limit(random: &mut Random, buffers: &mut Buffers, table: &mut Table) {
    let buffer = large::long_buffer(120);
    for more in 1..=120 {
        let file = &buffer[..plain::MAX_FILE + more];
        held::read(file, random, table);
        held::canonical_in(file, more, buffers, table);
        held::canonical_size(file, table);
        held::frames(file, random, table);
        table.cases.files += 1;
    }
}
