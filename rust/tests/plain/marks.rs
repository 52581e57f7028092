//! Two zero bytes and then a byte of at most 3: what start codes and emulation prevention are made of.

/// Where the first such mark begins, from `at` on.
#[inline]
pub fn find(bytes: &[u8], at: usize) -> Option<usize> {
    let mut third = at + 2;
    loop {
        // A byte above 3 is in no mark, so that the next begins after it: one byte in three is looked at.
        while *bytes.get(third)? > 3 {
            third += 3;
        }
        if bytes[third - 2] | bytes[third - 1] == 0 {
            return Some(third - 2);
        }
        third += match bytes[third] {
            0 => 1 + usize::from(bytes[third - 1] != 0),
            _ => 3,
        };
    }
}
