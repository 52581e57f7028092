//! Emulation prevention undone and redone, in buffers of the right size, smaller and larger.

use bpg::Refusal;

use super::{hex, same, status, Buffers, Call, Table};
use crate::cases::Random;
use crate::plain;

type Answer = Result<usize, Refusal>;

/// One of the two calls: in the library, through the wrapper, and in plain Rust.
struct Both {
    call: Call,
    name: &'static str,
    library: fn(&[u8], &mut [u8]) -> (u8, usize),
    wrapper: fn(&[u8], &mut [u8]) -> Answer,
    plain: fn(&[u8], &mut [u8]) -> Answer,
}

const UNESCAPE: Both = Both {
    call: Call::Unescape,
    name: "unescape",
    library: bpg::ffi::unescape,
    wrapper: bpg::unescape,
    plain: plain::unescape,
};

const ESCAPE: Both = Both {
    call: Call::Escape,
    name: "escape",
    library: bpg::ffi::escape,
    wrapper: bpg::escape,
    plain: plain::escape,
};

pub fn escape(bytes: &[u8], buffers: &mut Buffers, random: &mut Random, table: &mut Table) {
    sizes(&UNESCAPE, bytes, buffers, random, table);
    sizes(&ESCAPE, bytes, buffers, random, table);
    back(bytes);
}

fn sizes(both: &Both, bytes: &[u8], buffers: &mut Buffers, random: &mut Random, table: &mut Table) {
    // Of two bytes at most three are made.
    let larger = 2 * bytes.len() + random.within(1, 9);
    let Some(size) = answer_in(both, bytes, larger, buffers, table) else {
        answer_in(both, bytes, random.below(larger), buffers, table);
        return;
    };
    answer_in(both, bytes, size, buffers, table);
    if size > 0 {
        answer_in(both, bytes, size - 1, buffers, table);
        answer_in(both, bytes, random.below(size), buffers, table);
    }
}

/// Both answers into buffers of `capacity` bytes, and how many were written.
fn answer_in(
    both: &Both,
    bytes: &[u8],
    capacity: usize,
    buffers: &mut Buffers,
    table: &mut Table,
) -> Option<usize> {
    let case = || format!("{} into {capacity} bytes: {}", both.name, hex(bytes));
    let pair = buffers.pair(capacity);
    let expected = (both.plain)(bytes, pair.plain);
    let (number, count) = (both.library)(bytes, pair.library);
    same("the status", &case, (number, 0), status(&expected));
    same("the count", &case, count, expected.unwrap_or(0));
    same("a byte of the buffer", &case, pair.fault(count), None);
    table.count(both.call, number);
    let wrapped = (both.wrapper)(bytes, pair.library);
    same("the wrapper's answer", &case, wrapped, expected);
    same("a byte afterwards", &case, pair.fault(count), None);
    expected.ok()
}

/// What is redone is undone to what it was, and what is undone is redone to what it was, unless that ended in
/// two zero bytes.
fn back(bytes: &[u8]) {
    let case = || format!("there and back: {}", hex(bytes));
    let [mut there, mut back] = [0; 2].map(|_| vec![0; 2 * bytes.len() + 1]);
    let count = bpg::escape(bytes, &mut there).expect("the buffer is large enough");
    let size = bpg::unescape(&there[..count], &mut back);
    same("the size undone", &case, size, Ok(bytes.len()));
    same("a byte undone", &case, &back[..bytes.len()], bytes);
    let Ok(count) = bpg::unescape(bytes, &mut there) else {
        return;
    };
    if !bytes.ends_with(&[0, 0]) {
        let size = bpg::escape(&there[..count], &mut back);
        same("the size redone", &case, size, Ok(bytes.len()));
        same("a byte redone", &case, &back[..bytes.len()], bytes);
    }
}
