//! Cases for the comparison: files, records and slices, valid and spoiled, from a generator with a fixed seed.

pub mod batches;
pub mod bytes;
pub mod faults;
pub mod frames;
pub mod header;
pub mod heads;
pub mod large;
pub mod loops;
pub mod model;
pub mod nested;
pub mod random;
pub mod records;
pub mod samples;
pub mod segments;
pub mod sei;
pub mod slices;
pub mod units;

pub use random::Random;

/// A file of a case: mostly valid or spoiled in one place, sometimes anything.
pub fn file(random: &mut Random) -> Vec<u8> {
    let mut model = model::Model::valid(random);
    match random.below(8) {
        0..=1 => model.bytes(),
        2..=4 => {
            faults::spoil(&mut model, random);
            model.bytes()
        }
        5 => {
            faults::spoil(&mut model, random);
            faults::spoil(&mut model, random);
            bytes::mutated(model.bytes(), random)
        }
        _ => bytes::mutated(model.bytes(), random),
    }
}
