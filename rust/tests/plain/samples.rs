//! Samples after decoding, by the rules as they are written.

use bpg::{Reason, Refusal};

use super::refuse;

/// a / b to the nearest, halves up.
fn nearest(a: u32, b: u32) -> u32 {
    (2 * a + b) / (2 * b)
}

/// M, where the call is not refused.
fn judge(planes: &[&[u16]], buffers: &[&mut [u16]], depth: u8) -> Result<u16, Refusal> {
    let count = planes[0].len();
    let planes_differ = planes.iter().any(|plane| plane.len() != count);
    if planes_differ || buffers.iter().any(|buffer| buffer.len() != count) {
        return refuse(Reason::UnequalLengths, 0);
    }
    if !(8..=14).contains(&depth) {
        return refuse(Reason::BadSampleDepth, 0);
    }
    let m = (1 << depth) - 1;
    if planes.iter().any(|plane| plane.iter().any(|&s| s > m)) {
        return refuse(Reason::SampleTooLarge, 0);
    }
    Ok(m)
}

pub fn unpremultiply(
    planes: [&[u16]; 4],
    mut out: [&mut [u16]; 3],
    depth: u8,
) -> Result<(), Refusal> {
    let m = judge(&planes, &out, depth)?;
    let [r, g, b, a] = planes;
    for (plane, out) in [r, g, b].into_iter().zip(&mut out) {
        for ((out, &colour), &alpha) in out.iter_mut().zip(plane).zip(a) {
            *out = match alpha {
                0 => m,
                _ => nearest(u32::from(colour) * u32::from(m), alpha.into()).min(m.into()) as u16,
            };
        }
    }
    Ok(())
}

pub fn cmyk(planes: [&[u16]; 4], mut out: [&mut [u16]; 4], depth: u8) -> Result<(), Refusal> {
    let m = judge(&planes, &out, depth)?;
    for (plane, out) in planes.into_iter().zip(&mut out) {
        for (out, &sample) in out.iter_mut().zip(plane) {
            *out = m - sample;
        }
    }
    Ok(())
}

pub fn default_from_white(
    planes: [&[u16]; 4],
    mut out: [&mut [u16]; 3],
    depth: u8,
) -> Result<(), Refusal> {
    let m = judge(&planes, &out, depth)?;
    let [r, g, b, w] = planes;
    for (plane, out) in [r, g, b].into_iter().zip(&mut out) {
        for ((out, &colour), &white) in out.iter_mut().zip(plane).zip(w) {
            *out = nearest(u32::from(colour) * u32::from(white), m.into()) as u16;
        }
    }
    Ok(())
}

pub fn ycgco(planes: [&[u16]; 3], out: [&mut [u16]; 3], depth: u8) -> Result<(), Refusal> {
    let m = i32::from(judge(&planes, &out, depth)?);
    let half = 1 << (depth - 1);
    let [y, cg, co] = planes.map(|plane| plane.iter().map(|&sample| i32::from(sample)));
    let [red, green, blue] = out.map(|buffer| buffer.iter_mut());
    let pixels = y.zip(cg).zip(co).zip(red).zip(green).zip(blue);
    for (((((y, cg), co), red), green), blue) in pixels {
        let (cg, co) = (cg - half, co - half);
        let t = y - cg;
        *green = (y + cg).clamp(0, m) as u16;
        *blue = (t - co).clamp(0, m) as u16;
        *red = (t + co).clamp(0, m) as u16;
    }
    Ok(())
}

pub fn limited_luma(y: &[u16], out: &mut [u16]) -> Result<(), Refusal> {
    judge(&[y], &[&mut *out], 8)?;
    for (out, &y) in out.iter_mut().zip(y) {
        *out = match y {
            ..=15 => 0,
            16..=235 => nearest((u32::from(y) - 16) * 255, 219) as u16,
            _ => 255,
        };
    }
    Ok(())
}
