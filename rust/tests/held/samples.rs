//! The calls on samples: the status, and every buffer.

use bpg::samples::{self, ffi, Depth};
use bpg::Refusal;

use super::{same, status, Statuses};
use crate::cases::samples::{Call, Case};
use crate::cases::Random;
use crate::plain;

/// The calls, and the statuses that each meets.
pub const SAMPLE_STATUSES: &[(Call, &str, &[usize])] = &[
    (Call::Unpremultiply, "unpremultiply", &[0, 31, 32, 33]),
    (Call::Cmyk, "cmyk", &[0, 31, 32, 33]),
    (Call::DefaultFromWhite, "from_white", &[0, 31, 32, 33]),
    (Call::Ycgco, "ycgco", &[0, 31, 32, 33]),
    (Call::LimitedLuma, "limited_luma", &[0, 31, 33]),
];

pub fn samples(case: &Case, random: &mut Random, statuses: &mut Statuses) {
    let show = || format!("{case:?}");
    let (mut buffers, mut plain_buffers) = (case.buffers.clone(), case.buffers.clone());
    let number = library(case, &mut buffers);
    let expected = plain(case, &mut plain_buffers);
    same("the status", &show, (number, 0), status(&expected));
    same("the buffers", &show, &buffers, &plain_buffers);
    statuses.count(number);
    if number != 0 {
        same(
            "the buffers after a refusal",
            &show,
            &buffers,
            &case.buffers,
        );
    }
    // The wrapper does the same over other buffers' contents.
    if let Ok(depth) = Depth::new(case.depth) {
        let mut again = case.buffers.clone();
        again
            .iter_mut()
            .flatten()
            .for_each(|sample| *sample = random.next() as u16);
        let before = again.clone();
        let answer = wrapper(case, &mut again, depth);
        same(
            "the wrapper's status",
            &show,
            status(&answer),
            status(&expected),
        );
        let counted = answer.is_ok().then_some(case.planes[0].len());
        same("the wrapper's count", &show, answer.ok(), counted);
        let left = if number == 0 { &buffers } else { &before };
        same("the wrapper's buffers", &show, &again, left);
    }
}

fn planes<const N: usize>(case: &Case) -> [&[u16]; N] {
    std::array::from_fn(|k| &case.planes[k][..])
}

fn buffers<const N: usize>(buffers: &mut [Vec<u16>]) -> [&mut [u16]; N] {
    let all: Vec<_> = buffers.iter_mut().map(|buffer| &mut buffer[..]).collect();
    all.try_into().expect("a call's case has its buffers")
}

fn library(case: &Case, out: &mut [Vec<u16>]) -> u8 {
    match case.call {
        Call::Unpremultiply => ffi::unpremultiply(planes(case), buffers(out), case.depth),
        Call::Cmyk => ffi::cmyk(planes(case), buffers(out), case.depth),
        Call::DefaultFromWhite => ffi::default_from_white(planes(case), buffers(out), case.depth),
        Call::Ycgco => ffi::ycgco(planes(case), buffers(out), case.depth),
        Call::LimitedLuma => ffi::limited_luma(&case.planes[0], &mut out[0]),
    }
}

fn wrapper(case: &Case, out: &mut [Vec<u16>], depth: Depth) -> Result<usize, Refusal> {
    match case.call {
        Call::Unpremultiply => samples::unpremultiply(planes(case), buffers(out), depth),
        Call::Cmyk => samples::cmyk(planes(case), buffers(out), depth),
        Call::DefaultFromWhite => samples::default_from_white(planes(case), buffers(out), depth),
        Call::Ycgco => samples::ycgco(planes(case), buffers(out), depth),
        Call::LimitedLuma => samples::limited_luma(&case.planes[0], &mut out[0]),
    }
}

fn plain(case: &Case, out: &mut [Vec<u16>]) -> Result<(), Refusal> {
    use plain::samples as rules;
    match case.call {
        Call::Unpremultiply => rules::unpremultiply(planes(case), buffers(out), case.depth),
        Call::Cmyk => rules::cmyk(planes(case), buffers(out), case.depth),
        Call::DefaultFromWhite => rules::default_from_white(planes(case), buffers(out), case.depth),
        Call::Ycgco => rules::ycgco(planes(case), buffers(out), case.depth),
        Call::LimitedLuma => rules::limited_luma(&case.planes[0], &mut out[0]),
    }
}
