//! The canonical form of a file: its record with the canonical encoding choices, written again.

use bpg::Refusal;

use super::reader::read;
use super::record::{HevcHeader, Record};
use super::writer::{file_size, store, ue7_size};

/// The canonical form into `out`, and its size.
pub fn canonicalize(file: &[u8], out: &mut [u8]) -> Result<usize, Refusal> {
    store(&chosen(file)?, file, out)
}

/// The size of the canonical form.
pub fn canonical_size(file: &[u8]) -> Result<usize, Refusal> {
    file_size(&chosen(file)?)
}

fn chosen(file: &[u8]) -> Result<Record, Refusal> {
    let mut record = read(file)?;
    choose(&mut record);
    Ok(record)
}

/// Takes the canonical choices. Where there are entries, or flags, their presence flag is set already.
fn choose(record: &mut Record) {
    record.explicit_length = false;
    record.extension_present_flag = record.entry_count != 0;
    choose_header(&mut record.alpha_header);
    choose_header(&mut record.color_header);
    let numbers = [
        record.loop_count,
        record.frame_period_num,
        record.frame_period_den,
    ];
    let used = &mut record.entries[..record.entry_count as usize];
    if let Some(control) = used.iter_mut().find(|entry| entry.tag == 5) {
        let length: u64 = numbers.iter().map(|&n| ue7_size(n.into())).sum();
        control.payload.length = length as u32;
    }
}

fn choose_header(header: &mut HevcHeader) {
    let any = header.range_flags != [false; 9];
    header.sps_extension_present_flag = any;
    header.sps_range_extension_flag = any;
}
