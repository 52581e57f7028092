//! The partition: status, offset and the five counts; and files edited in place.

use std::ops::Range;

use super::{hex, same, status, Statuses};
use crate::cases::Random;
use crate::plain;

/// A success, and the refusals of reading; 1 is met by the large ones.
pub const PARTITION_STATUSES: &[usize] = &[
    0, 2, 3, 4, 5, 6, 7, 8, 9, 10, 11, 12, 13, 14, 15, 16, 17, 26,
];

pub fn partition(file: &[u8], statuses: &mut Statuses) {
    let case = || format!("partition of file: {}", hex(file));
    let expected = plain::partition(file);
    let (number, counts, offset) = bpg::ffi::partition(file);
    same("the status", &case, (number, offset), status(&expected));
    same("the counts", &case, counts, expected.unwrap_or_default());
    if number == 0 {
        same("the sum", &case, counts.iter().sum(), file.len());
    }
    let wrapped =
        bpg::partition(file).map(|p| [p.head, p.entry_heads, p.payloads, p.headers, p.data]);
    same("the wrapper's answer", &case, wrapped, expected);
    statuses.count(number);
}

/// An accepted file whose payloads, but for the animation control's, are edited in place: the record and the size of the
/// canonical form stay, and the canonical forms differ in those payloads alone. False where there is none.
pub fn edited(file: &[u8], random: &mut Random) -> bool {
    let Ok(record) = bpg::read(file) else {
        return false;
    };
    let chosen = payloads(file, random);
    if chosen.iter().all(Range::is_empty) {
        return false;
    }
    let mut edited = file.to_vec();
    for range in &chosen {
        let bytes = random.bytes(range.len());
        edited[range.clone()].copy_from_slice(&bytes);
    }
    let case = || format!("file: {}\nedited: {}", hex(file), hex(&edited));
    same("the record", &case, bpg::read(&edited), Ok(record));
    let size = bpg::canonical_size(file);
    same("the size", &case, bpg::canonical_size(&edited), size);
    canonical_forms(file, &edited, &case);
    true
}

/// The payloads of some entries whose tag is not 5.
fn payloads(file: &[u8], random: &mut Random) -> Vec<Range<usize>> {
    let others = bpg::entries(file).filter(|entry| entry.tag() != bpg::tag::ANIMATION_CONTROL);
    let chosen = others.filter(|_| random.below(4) != 0);
    chosen.map(|entry| entry.span().range()).collect()
}

/// The canonical forms agree outside the payloads whose tag is not 5, and these have the bytes of their files.
fn canonical_forms(file: &[u8], edited: &[u8], case: &dyn Fn() -> String) {
    let [first, second] =
        [file, edited].map(|file| bpg::canonicalize_to_vec(file).expect("accepted"));
    same(
        "the canonical record",
        case,
        bpg::read(&second),
        bpg::read(&first),
    );
    let mut rest = 0;
    for (k, entry) in bpg::entries(&first).enumerate() {
        if entry.tag() != bpg::tag::ANIMATION_CONTROL {
            let range = entry.span().range();
            same(
                "the bytes before a payload",
                case,
                &second[rest..range.start],
                &first[rest..range.start],
            );
            same(
                "a payload",
                case,
                &second[range.clone()],
                bpg::payload(edited, k),
            );
            rest = range.end;
        }
    }
    same(
        "the bytes after the payloads",
        case,
        &second[rest..],
        &first[rest..],
    );
}
