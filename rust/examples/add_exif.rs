//! Adds EXIF data to a BPG file: `add_exif IN.bpg EXIF OUT.bpg`
use std::{env, error::Error, fs};

fn main() -> Result<(), Box<dyn Error>> {
    let args: Vec<String> = env::args().collect();
    let [_, input, exif, output] = &args[..] else {
        return Err("usage: add_exif IN.bpg EXIF OUT.bpg".into());
    };
    let file = fs::read(input)?;
    let mut record = bpg::read(&file)?;

    // The parts of a record are ranges of one source: here the file, and the new payload behind it.
    let source = [file.clone(), fs::read(exif)?].concat();
    let payload = bpg::Span::try_from(file.len()..source.len())?;
    record.push_entry(bpg::Entry::new(bpg::tag::EXIF, payload))?;

    fs::write(output, bpg::write_to_vec(&record, &source)?)?;
    Ok(())
}
