//! The calls on samples, on planes of 1920 × 1080, against plain Rust by the rules as they are written, and against the
//! library's own algorithms in Rust.

mod same;

use std::hint::black_box;

use bpg::samples::ffi;

use crate::plain::samples as plain;
use crate::race::Race;
use crate::random::Random;

const COUNT: usize = 1920 * 1080;

/// Rows of each call at these depths, in ns a sample of one buffer.
pub fn run() {
    println!("                              library      plain  ratio       same  ratio");
    for depth in [8, 10, 14] {
        let planes = planes(depth);
        unpremultiply(&planes, depth);
        cmyk(&planes, depth);
        default_from_white(&planes, depth);
        ycgco(&planes, depth);
        if depth == 8 {
            limited_luma(&planes);
        }
    }
}

/// Four planes of samples, and three whose samples are at most those of the fourth, as multiplied colour is.
struct Planes {
    any: [Vec<u16>; 4],
    multiplied: [Vec<u16>; 3],
}

impl Planes {
    fn any<const N: usize>(&self) -> [&[u16]; N] {
        std::array::from_fn(|k| &self.any[k][..])
    }

    fn multiplied(&self) -> [&[u16]; 4] {
        let [r, g, b] = &self.multiplied;
        [r, g, b, &self.any[3]]
    }
}

fn planes(depth: u8) -> Planes {
    let mut random = Random::new(7);
    let any: [Vec<u16>; 4] = std::array::from_fn(|_| {
        let samples = (0..COUNT).map(|_| random.below(1 << depth) as u16);
        samples.collect()
    });
    let multiplied = std::array::from_fn(|_| {
        let alphas = any[3].iter();
        let samples = alphas.map(|&alpha| random.below(usize::from(alpha) + 1) as u16);
        samples.collect()
    });
    Planes { any, multiplied }
}

/// The buffers of a call, in one.
fn buffers<const N: usize>(all: &mut [u16]) -> [&mut [u16]; N] {
    let all: Vec<_> = black_box(all).chunks_exact_mut(COUNT).collect();
    all.try_into().expect("the buffer holds them all")
}

fn unpremultiply(planes: &Planes, depth: u8) {
    let planes = planes.multiplied();
    let race = Race::run(
        &mut vec![1; 3 * COUNT],
        [
            &mut |all| library(ffi::unpremultiply(black_box(planes), buffers(all), depth)),
            &mut |all| ok(plain::unpremultiply(black_box(planes), buffers(all), depth)),
            &mut |all| same::unpremultiply(black_box(planes), buffers(all), depth),
        ],
    );
    show("unpremultiply", depth, 3, &race);
}

fn cmyk(planes: &Planes, depth: u8) {
    let planes = planes.any();
    let race = Race::run(
        &mut vec![1; 4 * COUNT],
        [
            &mut |all| library(ffi::cmyk(black_box(planes), buffers(all), depth)),
            &mut |all| ok(plain::cmyk(black_box(planes), buffers(all), depth)),
            &mut |all| same::cmyk(black_box(planes), buffers(all), depth),
        ],
    );
    show("cmyk", depth, 4, &race);
}

fn default_from_white(planes: &Planes, depth: u8) {
    let planes = planes.any();
    let race = Race::run(
        &mut vec![1; 3 * COUNT],
        [
            &mut |all| {
                library(ffi::default_from_white(
                    black_box(planes),
                    buffers(all),
                    depth,
                ))
            },
            &mut |all| {
                ok(plain::default_from_white(
                    black_box(planes),
                    buffers(all),
                    depth,
                ))
            },
            &mut |all| same::default_from_white(black_box(planes), buffers(all), depth),
        ],
    );
    show("default_from_white", depth, 3, &race);
}

fn ycgco(planes: &Planes, depth: u8) {
    let planes = planes.any();
    let race = Race::run(
        &mut vec![1; 3 * COUNT],
        [
            &mut |all| library(ffi::ycgco(black_box(planes), buffers(all), depth)),
            &mut |all| ok(plain::ycgco(black_box(planes), buffers(all), depth)),
            &mut |all| same::ycgco(black_box(planes), buffers(all), depth),
        ],
    );
    show("ycgco", depth, 3, &race);
}

fn limited_luma(planes: &Planes) {
    let [y] = planes.any();
    let table = same::luma_table();
    let race = Race::run(
        &mut vec![1; COUNT],
        [
            &mut |out| library(ffi::limited_luma(black_box(y), black_box(out))),
            &mut |out| ok(plain::limited_luma(black_box(y), black_box(out))),
            &mut |out| same::limited_luma(black_box(y), black_box(out), &table),
        ],
    );
    show("limited_luma", 8, 1, &race);
}

fn library(status: u8) {
    assert_eq!(black_box(status), 0, "the planes are valid");
}

fn ok(answer: Result<(), bpg::Refusal>) {
    black_box(answer).expect("the planes are valid");
}

fn show(call: &str, depth: u8, buffers: usize, race: &Race<3>) {
    let name = format!("{call}, {depth} bits");
    let samples = (buffers * COUNT) as f64;
    let [library, plain, same] = [0, 1, 2].map(|function| race.time(function) / samples);
    print!(
        "{name:27}{library:10.3} {plain:10.3} {:6.2}",
        race.ratio(0, 1)
    );
    println!(" {same:10.3} {:6.2}", race.ratio(0, 2));
}
