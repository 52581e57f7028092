//! How often each status was met.

use std::fmt;

pub struct Statuses {
    call: &'static str,
    /// Those that the cases meet.
    met: &'static [usize],
    counts: [u64; 37],
}

impl Statuses {
    pub fn new(call: &'static str, met: &'static [usize]) -> Self {
        let counts = [0; 37];
        Statuses { call, met, counts }
    }

    pub fn count(&mut self, number: u8) {
        self.counts[usize::from(number)] += 1;
    }

    /// Those that were met fewer than `least` times.
    pub fn rare(&self, least: u64) -> Vec<usize> {
        let few = self
            .met
            .iter()
            .filter(|&&number| self.counts[number] < least);
        few.copied().collect()
    }
}

impl fmt::Display for Statuses {
    fn fmt(&self, f: &mut fmt::Formatter<'_>) -> fmt::Result {
        write!(f, "status {:>16}", self.call)?;
        for number in self.met {
            write!(f, "\n{number:6} {:16}", self.counts[*number])?;
        }
        Ok(())
    }
}
