//! The table that the benchmark prints: a row for each call and size.

use crate::race::Race;

/// A column is one kind of number, in every row.
pub fn heading() {
    println!(
        "{:<20} {:<22} {:>11} {:>13} {:>8} {:>7} {:>10}",
        "call", "size", "ours, ns", "plain Rust", "ratio", "GB/s", "of memcpy"
    );
}

/// Two functions of a race: ours, and plain Rust.
pub type Two = [usize; 2];

/// A call whose time does not grow with the size of its file.
pub fn row<const N: usize>(call: &str, size: &str, race: &Race<N>, two: Two) {
    println!("{}", times(call, size, race, two));
}

/// A call that goes over so many bytes.
pub fn row_over(call: &str, size: &str, bytes: usize, race: &Race<2>) {
    let rate = bytes as f64 / race.time(0);
    println!("{} {rate:7.2}", times(call, size, race, [0, 1]));
}

/// The same against memcpy, the third function of the race.
pub fn row_copying<const N: usize>(call: &str, size: &str, bytes: usize, race: &Race<N>, two: Two) {
    let rate = bytes as f64 / race.time(two[0]);
    let copy = race.ratio(two[0], 2);
    println!("{} {rate:7.2} {copy:10.2}", times(call, size, race, two));
}

fn times<const N: usize>(call: &str, size: &str, race: &Race<N>, [ours, plain]: Two) -> String {
    let ratio = race.ratio(ours, plain);
    let [ours, plain] = [ours, plain].map(|function| race.time(function));
    format!("{call:<20} {size:<22} {ours:11.0} {plain:13.0} {ratio:8.2}")
}
