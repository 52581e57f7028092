//! Records to be written, as lists of numbers, with their sources.

use super::faults::{spoiled_control, spoiled_data};
use super::model::Model;
use super::Random;
use crate::plain::{read_list, ENTRY, FIXED, MAX_ENTRIES, NUMBERS};

pub struct Case {
    pub numbers: Vec<u64>,
    pub source: Vec<u8>,
}

const ANIMATION: usize = 7;
const LOOP: usize = 11;
const HEADERS: usize = 14;
const DATA: usize = 64;
const CODED: usize = 66;
const ENTRY_COUNT: usize = 68;
const ENTRIES: usize = 69;

/// A record that was read, its parts perhaps at other places of another source, mostly spoiled.
pub fn case(random: &mut Random) -> Case {
    let file = Model::valid(random).bytes();
    let mut numbers = vec![0; NUMBERS];
    read_list(&file, &mut numbers).expect("the file is valid");
    let mut case = Case {
        numbers,
        source: file,
    };
    if random.flag() {
        case.scatter(random);
    }
    if random.flag() {
        case.move_tags(random);
    }
    match random.below(9) {
        0 | 1 => {}
        2..=4 => case.change(random),
        5 => (0..3).for_each(|_| case.change(random)),
        6 => case.spoil_control(random),
        7 => case.misfit(random),
        _ => case.contradict(random),
    }
    case.resize(random);
    case
}

impl Case {
    /// Other tag offsets, which change no answer.
    fn move_tags(&mut self, random: &mut Random) {
        let entries = self.numbers[FIXED..].chunks_exact_mut(ENTRY);
        entries.for_each(|entry| entry[3] = random.number(32));
    }

    /// A list may be longer than the record, whatever the numbers after it, or too short: for the fixed numbers, or
    /// for its entries.
    fn resize(&mut self, random: &mut Random) {
        let needed = FIXED + ENTRY * self.used();
        let length = match random.below(32) {
            0 => random.below(needed),
            1 => needed - 1,
            2 => random.pick(&[0, FIXED - 1, FIXED]),
            3..=12 => needed,
            _ => needed + random.below(2 * NUMBERS),
        };
        self.numbers.truncate(length.min(needed));
        self.numbers.resize_with(length, || random.next());
    }

    /// Numbers that their fields cannot hold, before and after a count of entries at its limit or above.
    fn misfit(&mut self, random: &mut Random) {
        self.numbers[ENTRY_COUNT] =
            random.pick(&[1, 16, 17, 63, 64, 64, 65, 66, 255, u64::from(u32::MAX)]);
        if random.one_in(4) {
            self.numbers[random.below(CODED)] = random.pick(&EDGES);
        }
        if random.one_in(8) {
            self.numbers[ENTRY_COUNT] = random.pick(&EDGES);
        }
        if random.flag() {
            let at = ENTRIES + random.below(NUMBERS - ENTRIES);
            self.numbers[at] = random.pick(&EDGES);
        }
    }

    fn used(&self) -> usize {
        self.numbers[ENTRY_COUNT].min(MAX_ENTRIES as u64) as usize
    }

    /// Puts the parts anywhere into a new source, where they may overlap. The tag 5 payload comes last, so
    /// that its numbers stay.
    fn scatter(&mut self, random: &mut Random) {
        let old = std::mem::take(&mut self.source);
        self.source = random.bytes(old.len() + 8);
        let mut parts: Vec<usize> = (0..self.used()).map(|k| ENTRIES + ENTRY * k + 1).collect();
        parts.sort_by_key(|&at| self.numbers[at - 1] == 5);
        parts.insert(0, DATA);
        for at in parts {
            let [start, length] = [self.numbers[at], self.numbers[at + 1]].map(|n| n as usize);
            let to = random.below(self.source.len() - length + 1);
            self.source[to..to + length].copy_from_slice(&old[start..start + length]);
            self.numbers[at] = to as u64;
        }
    }

    /// Another value for one number, often in a group that has few.
    fn change(&mut self, random: &mut Random) {
        let end = ENTRIES + ENTRY * self.used().max(1);
        let groups = [0, LOOP, HEADERS, DATA, CODED, ENTRY_COUNT, ENTRIES, end];
        let group = random.below(groups.len() - 1);
        let at = match random.below(3) {
            0 => random.below(end),
            _ => random.within(groups[group], groups[group + 1] - 1),
        };
        let old = self.numbers[at];
        self.numbers[at] = match random.below(8) {
            0 => old.wrapping_add(1),
            1 => old.wrapping_sub(1),
            2 => random.below(20) as u64,
            3 => random.pick(&EDGES),
            4 => random.number(32),
            5 => random.next() >> random.below(64),
            _ => old ^ 1,
        };
    }

    /// Another tag 5 payload, mostly one with a fault, or other loop numbers.
    fn spoil_control(&mut self, random: &mut Random) {
        let Some(k) = (0..self.used()).find(|k| self.numbers[ENTRIES + ENTRY * k] == 5) else {
            return self.second_control(random);
        };
        if random.one_in(4) {
            self.numbers[LOOP + random.below(3)] ^= 1 << random.below(16);
            return;
        }
        let payload = spoiled_control(random);
        self.numbers[ENTRIES + ENTRY * k + 1] = self.source.len() as u64;
        self.numbers[ENTRIES + ENTRY * k + 2] = payload.len() as u64;
        self.source.extend(payload);
    }

    /// Makes entries tag 5 as well.
    fn second_control(&mut self, random: &mut Random) {
        for _ in 0..2 {
            let k = random.below(self.used().max(1));
            self.numbers[ENTRIES + ENTRY * k] = 5;
        }
    }

    /// Presence flags and fields that do not go together, or that only a rule forbids.
    fn contradict(&mut self, random: &mut Random) {
        let header = HEADERS + 25 * random.below(2);
        match random.below(10) {
            0 => self.numbers[ANIMATION] = 1,
            1 => self.numbers[random.pick(&[1, 4, 5])] ^= 1,
            2 => self.numbers[header + random.pick(&[6, 13, 14])] ^= 1,
            3 => self.numbers[header + random.below(5)] = u32::MAX.into(),
            4 => self.set_pcm(header, random),
            5 => self.set_extension(header, random),
            6 => self.repeat_control(random),
            7 => self.reach(random),
            8 => self.spoil_data(random),
            _ => self.numbers[random.pick(&[0, 2, 3, 8, 9])] = random.pick(&[0, 1, 5, 6, 7, 255]),
        }
    }

    /// No data, or data that begins with a start code.
    fn spoil_data(&mut self, random: &mut Random) {
        let data = spoiled_data(random);
        self.numbers[DATA] = self.source.len() as u64;
        self.numbers[DATA + 1] = data.len() as u64;
        self.source.extend(data);
    }

    fn set_pcm(&mut self, header: usize, random: &mut Random) {
        self.numbers[header + 6] = 1;
        let at = header + random.within(7, 10);
        self.numbers[at] = random.pick(&[0, 7, 8, 13, 14, 15, 16, 17, 255, 256, 4_294_967_295]);
    }

    fn set_extension(&mut self, header: usize, random: &mut Random) {
        self.numbers[header + 13] = 1;
        if random.flag() {
            self.numbers[header + 15] = random.pick(&[1, 64, 127, 128, 129, 255, 256]);
        } else {
            self.numbers[header + 14] = 1;
            self.numbers[header + 16 + random.below(9)] = 1;
        }
    }

    /// The tag 5 entry once more, before or after it.
    fn repeat_control(&mut self, random: &mut Random) {
        let used = self.used();
        let Some(k) = (0..used).find(|k| self.numbers[ENTRIES + ENTRY * k] == 5) else {
            return;
        };
        let from = ENTRIES + ENTRY * k;
        let to = ENTRIES + ENTRY * random.below(used);
        self.numbers.copy_within(from..from + ENTRY, to);
    }

    /// A range around the source's end.
    fn reach(&mut self, random: &mut Random) {
        let at = match random.below(self.used() + 1) {
            0 => DATA,
            k => ENTRIES + ENTRY * (k - 1) + 1,
        };
        let length = self.source.len() as u64;
        self.numbers[at] = length + random.below(2) as u64;
        self.numbers[at + 1] = random.pick(&[0, 1, 4_294_967_295]);
        if random.flag() {
            self.numbers[at] = random.below(self.source.len()) as u64;
            self.numbers[at + 1] = length - self.numbers[at] + random.below(2) as u64;
        }
    }
}

/// The largest values of the fields, and the next.
const EDGES: [u64; 12] = [
    15,
    16,
    17,
    127,
    128,
    255,
    256,
    65_535,
    65_536,
    u32::MAX as u64,
    u32::MAX as u64 + 1,
    u64::MAX,
];
