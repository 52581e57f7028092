//! The frames of a file, in lists of the right length, shorter and longer.

use super::{hex, same, status, Call, Table};
use crate::cases::Random;
use crate::plain;

pub fn frames(file: &[u8], random: &mut Random, table: &mut Table) {
    let case = || format!("frame count of file: {}", hex(file));
    let expected = plain::frame_count(file);
    let answer = bpg::ffi::frame_count(file);
    let (number, count, offset) = answer;
    same("the status", &case, (number, offset), status(&expected));
    same("the count", &case, count, expected.unwrap_or(0));
    table.count(Call::FrameCount, number);
    let wrapped = bpg::frame_count(file);
    same("the wrapper's answer", &case, wrapped, expected);
    let longer = count + random.within(1, 9);
    let long_enough = frames_in(file, longer, random, table);
    same("frames' answer", &case, long_enough, answer);
    frames_in(file, random.below(longer), random, table);
    if number == 0 {
        frames_in(file, count, random, table);
        frames_in(file, count - 1, random, table);
    }
    durations(file, count);
}

/// Both answers into lists of this length, and the library's.
fn frames_in(
    file: &[u8],
    length: usize,
    random: &mut Random,
    table: &mut Table,
) -> (u8, usize, usize) {
    let case = || format!("frames in a list of {length} of file: {}", hex(file));
    let before: Vec<u16> = (0..length).map(|_| random.next() as u16).collect();
    let [mut list, mut expected_list] = [before.clone(), before.clone()];
    let expected = plain::frames(file, &mut expected_list);
    let (number, count, offset) = bpg::ffi::frames(file, &mut list);
    same("the status", &case, (number, offset), status(&expected));
    same("the count", &case, count, expected.unwrap_or(0));
    same("the list", &case, &list, &expected_list);
    let [kept, rest] = [&list, &before].map(|list| &list[count..]);
    same("the rest of the list", &case, kept, rest);
    list.copy_from_slice(&before);
    let wrapped = bpg::frames(file, &mut list);
    same("the wrapper's answer", &case, wrapped, expected);
    same("the list afterwards", &case, &list, &expected_list);
    table.count(Call::Frames, number);
    (number, count, offset)
}

/// The list that the wrapper makes.
fn durations(file: &[u8], count: usize) {
    let case = || format!("durations of file: {}", hex(file));
    let mut list = vec![0; count];
    let expected = plain::frames(file, &mut list).map(|_| list);
    let made = bpg::frames_to_vec(file);
    same("the wrapper's list", &case, made, expected);
}
