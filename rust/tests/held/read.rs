//! Reading: the record, entries by index, payloads and data.

use super::record::{package_of, plain_entry, plain_of};
use super::{hex, same, status, Call, Table};
use crate::cases::Random;
use crate::plain::{self, Entry, Record, ENTRY, FIXED, NUMBERS};

/// Numbers of a longer list that stay as they are.
const MORE: usize = 3;

pub fn read(file: &[u8], random: &mut Random, table: &mut Table) {
    let case = || format!("file: {}", hex(file));
    let before: [u64; NUMBERS + MORE] = std::array::from_fn(|_| random.next());
    let number = read_in(file, &before, &case);
    table.count(Call::Read, number);
    let record = plain::read(file);
    let read = bpg::read(file);
    same(
        "the record",
        &case,
        read.map(|read| plain_of(&read)),
        record,
    );
    read_over(file, read, random, &case);
    let Ok(record) = record else {
        read_in(file, &before[..random.below(before.len())], &case);
        return parts(file, &Record::default(), random, &case);
    };
    same("the record's memory", &case, read, Ok(package_of(&record)));
    let needed = FIXED + ENTRY * record.entry_count as usize;
    for length in [0, FIXED - 1, FIXED, needed - 1, needed, needed + 1] {
        read_in(file, &before[..length], &case);
    }
    read_in(file, &before[..random.below(before.len())], &case);
    parts(file, &record, random, &case);
}

/// A file read into a record that has another's fields: it is the answer, or stays as it was.
fn read_over(
    file: &[u8],
    read: Result<bpg::Record, bpg::Refusal>,
    random: &mut Random,
    case: &dyn Fn() -> String,
) {
    let mut before = bpg::Record::new();
    before.set_coded_width(random.next());
    for _ in 0..random.below(4) {
        let entry = bpg::Entry::new(7, bpg::Span::default());
        before.push_entry(entry).expect("the entries fit");
    }
    let mut over = before;
    let answer = over.read_from(file);
    same("the answer", case, answer, read.map(drop));
    same("the record", case, over, read.unwrap_or(before));
}

/// Both answers into lists with these numbers, and the status.
fn read_in(file: &[u8], before: &[u64], case: &dyn Fn() -> String) -> u8 {
    let lists = &mut [[0; NUMBERS + MORE]; 2];
    let [list, expected] = lists.each_mut().map(|list| &mut list[..before.len()]);
    list.copy_from_slice(before);
    expected.copy_from_slice(before);
    let answer = plain::read_list(file, expected);
    let (number, offset) = bpg::ffi::read(file, list);
    same("the status", case, (number, offset), status(&answer));
    same("the list", case, &*list, &*expected);
    if number != 0 {
        same("the list after a refusal", case, &*list, before);
        return number;
    }
    // By what was read: entry_count is the last of the fixed numbers.
    let used = FIXED + ENTRY * list[FIXED - 1] as usize;
    same("the rest of the list", case, &list[used..], &before[used..]);
    number
}

/// The parts of a file; those of a refused one are the zero record's.
fn parts(file: &[u8], record: &Record, random: &mut Random, case: &dyn Fn() -> String) {
    let used = record.used().expect("the entries fit");
    for (k, entry) in used.iter().enumerate() {
        part(file, k, Some(*entry), case);
    }
    part(file, used.len(), None, case);
    // Far past the last, too: an index cut to fewer bits would find an entry.
    let far = random.below(used.len() + 1) + (1 << random.within(7, usize::BITS as usize - 1));
    part(file, far, None, case);
    let mut walk = bpg::entries(file);
    for entry in used {
        let next = walk.next().as_ref().map(plain_entry);
        same("the walk", case, next, Some(*entry));
    }
    same("the walk's end", case, walk.next(), None);
    same("after the walk's end", case, walk.next(), None);
    let data = &file[record.data.range()];
    same_part("the data", case, bpg::data(file), data);
}

fn part(file: &[u8], k: usize, entry: Option<Entry>, case: &dyn Fn() -> String) {
    let found = bpg::entry(file, k);
    same("an entry", case, found.as_ref().map(plain_entry), entry);
    let of = entry.unwrap_or_default();
    let payload = of.payload;
    let list = [of.tag, payload.start, payload.length, of.tag_offset];
    let numbers = (entry.is_some(), list);
    same("its numbers", case, bpg::ffi::entry(file, k), numbers);
    let range = payload.range();
    same_part("a payload", case, bpg::payload(file, k), &file[range]);
}

/// The same bytes at the same place: nothing was copied.
fn same_part(what: &str, case: &dyn Fn() -> String, library: &[u8], plain: &[u8]) {
    same(what, case, library.as_ptr_range(), plain.as_ptr_range());
}
