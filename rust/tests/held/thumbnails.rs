//! The deep check: status and offset.

use super::{hex, same, status, Statuses};
use crate::plain;

/// A success, the refusals of the outer file that the cases meet, and the thumbnails' own.
pub const THUMBNAIL_STATUSES: &[usize] = &[
    0, 2, 3, 4, 5, 6, 7, 8, 9, 10, 11, 12, 13, 14, 15, 16, 17, 26, 27, 28, 29,
];

pub fn thumbnails(file: &[u8], statuses: &mut Statuses) {
    let case = || format!("thumbnails of file: {}", hex(file));
    let expected = plain::check_thumbnails(file);
    let (number, offset) = bpg::ffi::check_thumbnails(file);
    same("the status", &case, (number, offset), status(&expected));
    let wrapped = bpg::check_thumbnails(file);
    same("the wrapper's answer", &case, wrapped, expected);
    statuses.count(number);
}
