//! The library's algorithms in Rust: judging by the largest sample, one division a pixel, shifts, saturating subtraction,
//! a table.

fn judge(planes: &[&[u16]], buffers: &[&mut [u16]], depth: u8) -> u16 {
    let count = planes[0].len();
    assert!(planes.iter().all(|plane| plane.len() == count));
    assert!(buffers.iter().all(|buffer| buffer.len() == count));
    let m = (1 << depth) - 1;
    let largest = |plane: &&[u16]| plane.iter().fold(0, |top, &sample| top.max(sample));
    assert!(planes.iter().map(largest).max() <= Some(m));
    m
}

pub fn unpremultiply(planes: [&[u16]; 4], out: [&mut [u16]; 3], depth: u8) {
    let m = judge(&planes, &out, depth);
    let [r, g, b, a] = planes;
    let [red, green, blue] = out;
    let pixels = r.iter().zip(g).zip(b).zip(a).zip(red).zip(green).zip(blue);
    for ((((((&r, &g), &b), &a), red), green), blue) in pixels {
        let reciprocal = (1u64 << 44) / u64::from(a.max(1)) + 1;
        let recovered = |colour: u16| {
            let n = u32::from(colour.min(a)) * u32::from(m) + u32::from(a / 2);
            let q = (u64::from(n) * reciprocal) >> 44;
            if a == 0 {
                m
            } else {
                q as u16
            }
        };
        *red = recovered(r);
        *green = recovered(g);
        *blue = recovered(b);
    }
}

pub fn cmyk(planes: [&[u16]; 4], out: [&mut [u16]; 4], depth: u8) {
    let m = judge(&planes, &out, depth);
    for (plane, out) in planes.into_iter().zip(out) {
        for (out, &sample) in out.iter_mut().zip(plane) {
            *out = m - sample;
        }
    }
}

pub fn default_from_white(planes: [&[u16]; 4], out: [&mut [u16]; 3], depth: u8) {
    let half = u32::from(judge(&planes, &out, depth) / 2);
    let [r, g, b, w] = planes;
    for (plane, out) in [r, g, b].into_iter().zip(out) {
        for ((out, &colour), &white) in out.iter_mut().zip(plane).zip(w) {
            let x = u32::from(colour) * u32::from(white) + half;
            *out = ((x + (x >> depth) + 1) >> depth) as u16;
        }
    }
}

pub fn ycgco(planes: [&[u16]; 3], out: [&mut [u16]; 3], depth: u8) {
    let m = judge(&planes, &out, depth);
    let half = m / 2 + 1;
    let [y, cg, co] = planes;
    let [red, green, blue] = out;
    let pixels = y.iter().zip(cg).zip(co).zip(red).zip(green).zip(blue);
    for (((((&y, &cg), &co), red), green), blue) in pixels {
        let t = y + 2 * half - cg;
        *red = m.min((t + co).saturating_sub(2 * half));
        *green = m.min((y + cg).saturating_sub(half));
        *blue = m.min(t.saturating_sub(co));
    }
}

pub fn luma_table() -> [u16; 256] {
    std::array::from_fn(|y| match y {
        ..=15 => 0,
        16..=235 => ((2 * (y - 16) * 255 + 219) / 438) as u16,
        _ => 255,
    })
}

pub fn limited_luma(y: &[u16], out: &mut [u16], table: &[u16; 256]) {
    judge(&[y], &[&mut *out], 8);
    for (out, &y) in out.iter_mut().zip(y) {
        *out = table[usize::from(y) & 255];
    }
}
