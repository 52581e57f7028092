//! The head alone, from all of a file and from its first bytes, and reading on from a head.

use super::record::plain_of;
use super::{hex, same, status, Statuses};
use crate::cases::{heads, Random};
use crate::plain::{self, HEAD, NUMBERS};

pub const HEAD_STATUSES: &[usize] = &[0, 2, 3, 4, 5, 6, 7, 8, 9, 20];

/// 1 is met by the large ones.
pub const BODY_STATUSES: &[usize] = &[
    0, 2, 3, 4, 5, 6, 7, 8, 9, 10, 11, 12, 13, 14, 15, 16, 17, 20, 21, 26,
];

pub fn head(file: &[u8], random: &mut Random, statuses: &mut Statuses) {
    let case = || format!("file: {}", hex(file));
    let expected = plain::head(file);
    let first = &file[..file.len().min(bpg::HEAD_BYTES)];
    let part = &file[..random.within(first.len(), file.len())];
    for bytes in [file, first, part] {
        let head = bpg::head(bytes);
        same("the head", &case, head.map(|head| numbers(&head)), expected);
    }
    let before: [u64; HEAD + 2] = std::array::from_fn(|_| random.next());
    for length in [0, HEAD - 1, HEAD, HEAD + 1, random.below(HEAD + 3)] {
        let (mut list, mut plain_list) = (before, before);
        let answer = plain::head_list(file, &mut plain_list[..length]);
        let (number, offset) = bpg::ffi::head(first, &mut list[..length]);
        same("the status", &case, (number, offset), status(&answer));
        same("the list", &case, list, plain_list);
        statuses.count(number);
    }
}

/// By the package's getters.
fn numbers(head: &bpg::Head) -> [u64; HEAD] {
    [
        head.pixel_format().into(),
        head.alpha1_flag().into(),
        head.bit_depth_minus_8().into(),
        head.color_space().into(),
        head.extension_present_flag().into(),
        head.alpha2_flag().into(),
        head.limited_range_flag().into(),
        head.animation_flag().into(),
        head.picture_width().into(),
        head.picture_height().into(),
        head.data_length().into(),
        head.extension_length().into(),
    ]
}

/// The body, given the file's own head, another file's and a list of any kind; and that it is reading where the head is its own.
pub fn body(file: &[u8], other: &[u8], random: &mut Random, statuses: &mut Statuses) {
    let own = plain::head(file).unwrap_or_default();
    let others = plain::head(other).unwrap_or_default();
    let list = heads::given(&own, &others, random);
    let case = || format!("head: {list:?}\nfile: {}", hex(file));
    for given in [&own, &others, &list[..]] {
        body_in(given, file, random, statuses, &case);
    }
    for bytes in [file, other] {
        let Ok(head) = bpg::head(bytes) else {
            continue;
        };
        let record = bpg::body(&head, file).map(|record| plain_of(&record));
        same(
            "the record",
            &case,
            record,
            plain::body(&numbers(&head), file),
        );
    }
    if let Ok(head) = bpg::head(file) {
        same(
            "the reading",
            &case,
            bpg::body(&head, file),
            bpg::read(file),
        );
    }
}

fn body_in(
    given: &[u64],
    file: &[u8],
    random: &mut Random,
    statuses: &mut Statuses,
    case: &dyn Fn() -> String,
) {
    let before: [u64; NUMBERS + 1] = std::array::from_fn(|_| random.next());
    let length = match random.one_in(4) {
        true => random.below(NUMBERS + 2),
        false => NUMBERS,
    };
    let (mut list, mut expected) = (before, before);
    let answer = plain::body_list(given, file, &mut expected[..length]);
    let (number, offset) = bpg::ffi::body(given, file, &mut list[..length]);
    same("the status", case, (number, offset), status(&answer));
    same("the list", case, list, expected);
    if number != 0 {
        same("the list after a refusal", case, list, before);
    }
    statuses.count(number);
}
