//! Functions measured in turns, so that what slows the machine down slows all of them.

use std::time::{Duration, Instant};

/// There are so many rounds, or fewer once they have taken long.
const ROUNDS: usize = 301;
const FEWER: usize = 31;
const LONG: Duration = Duration::from_secs(5);

/// A function's turn takes at least about this long, in ns.
const ROUND: f64 = 500_000.0;

type Function<'a, T> = &'a mut dyn FnMut(&mut [T]);

/// The times of N functions, in ns a call, round by round.
pub struct Race<const N: usize>(Vec<[f64; N]>);

impl<const N: usize> Race<N> {
    /// All write into the same buffer: where a buffer lies in memory makes a difference, too.
    pub fn run<T>(buffer: &mut [T], mut functions: [Function<T>; N]) -> Self {
        let calls = calls_a_round(&mut || functions[0](buffer));
        let mut round = || {
            let functions = functions.each_mut();
            functions.map(|function| time(&mut || function(buffer), calls))
        };
        let start = Instant::now();
        let mut rounds = Vec::new();
        while rounds.len() < FEWER || rounds.len() < ROUNDS && start.elapsed() < LONG {
            rounds.push(round());
        }
        Race(rounds)
    }

    /// The median time of a function.
    pub fn time(&self, function: usize) -> f64 {
        median(self.0.iter().map(|round| round[function]))
    }

    /// The median, over the rounds, of how much longer one function took than another.
    pub fn ratio(&self, function: usize, other: usize) -> f64 {
        median(self.0.iter().map(|round| round[function] / round[other]))
    }
}

fn calls_a_round(call: &mut dyn FnMut()) -> u32 {
    let mut calls = 1;
    while time(call, calls) * f64::from(calls) < ROUND {
        calls *= 2;
    }
    calls
}

fn time(call: &mut dyn FnMut(), calls: u32) -> f64 {
    let start = Instant::now();
    (0..calls).for_each(|_| call());
    start.elapsed().as_nanos() as f64 / f64::from(calls)
}

fn median(values: impl Iterator<Item = f64>) -> f64 {
    let mut values: Vec<f64> = values.collect();
    values.sort_by(f64::total_cmp);
    values[values.len() / 2]
}
