//! The functions of the static library on samples, as safe functions over slices, with the depth as a number. For the
//! comparison and the benchmark; programs use [`crate::samples`].
//!
//! Why the calls are sound: each pointer comes from a slice, with that slice's length. So it is not null, is aligned, and
//! is valid for the call; a `&mut` slice shares no byte with another argument. That the library stays inside these
//! lengths, for every input, is part of its proof.

extern "C" {
    fn bpg_unpremultiply(
        r: *const u16,
        r_len: usize,
        g: *const u16,
        g_len: usize,
        b: *const u16,
        b_len: usize,
        a: *const u16,
        a_len: usize,
        out_r: *mut u16,
        out_r_len: usize,
        out_g: *mut u16,
        out_g_len: usize,
        out_b: *mut u16,
        out_b_len: usize,
        depth: u8,
    ) -> u8;
    fn bpg_cmyk(
        r: *const u16,
        r_len: usize,
        g: *const u16,
        g_len: usize,
        b: *const u16,
        b_len: usize,
        w: *const u16,
        w_len: usize,
        out_c: *mut u16,
        out_c_len: usize,
        out_m: *mut u16,
        out_m_len: usize,
        out_y: *mut u16,
        out_y_len: usize,
        out_k: *mut u16,
        out_k_len: usize,
        depth: u8,
    ) -> u8;
    fn bpg_default_from_white(
        r: *const u16,
        r_len: usize,
        g: *const u16,
        g_len: usize,
        b: *const u16,
        b_len: usize,
        w: *const u16,
        w_len: usize,
        out_r: *mut u16,
        out_r_len: usize,
        out_g: *mut u16,
        out_g_len: usize,
        out_b: *mut u16,
        out_b_len: usize,
        depth: u8,
    ) -> u8;
    fn bpg_ycgco(
        y: *const u16,
        y_len: usize,
        cg: *const u16,
        cg_len: usize,
        co: *const u16,
        co_len: usize,
        out_r: *mut u16,
        out_r_len: usize,
        out_g: *mut u16,
        out_g_len: usize,
        out_b: *mut u16,
        out_b_len: usize,
        depth: u8,
    ) -> u8;
    fn bpg_limited_luma(y: *const u16, y_len: usize, out: *mut u16, out_len: usize) -> u8;
}

/// The status.
pub fn unpremultiply([r, g, b, a]: [&[u16]; 4], out: [&mut [u16]; 3], depth: u8) -> u8 {
    let [red, green, blue] = out;
    unsafe {
        bpg_unpremultiply(
            r.as_ptr(),
            r.len(),
            g.as_ptr(),
            g.len(),
            b.as_ptr(),
            b.len(),
            a.as_ptr(),
            a.len(),
            red.as_mut_ptr(),
            red.len(),
            green.as_mut_ptr(),
            green.len(),
            blue.as_mut_ptr(),
            blue.len(),
            depth,
        )
    }
}

/// The status.
pub fn cmyk([r, g, b, w]: [&[u16]; 4], out: [&mut [u16]; 4], depth: u8) -> u8 {
    let [cyan, magenta, yellow, black] = out;
    unsafe {
        bpg_cmyk(
            r.as_ptr(),
            r.len(),
            g.as_ptr(),
            g.len(),
            b.as_ptr(),
            b.len(),
            w.as_ptr(),
            w.len(),
            cyan.as_mut_ptr(),
            cyan.len(),
            magenta.as_mut_ptr(),
            magenta.len(),
            yellow.as_mut_ptr(),
            yellow.len(),
            black.as_mut_ptr(),
            black.len(),
            depth,
        )
    }
}

/// The status.
pub fn default_from_white([r, g, b, w]: [&[u16]; 4], out: [&mut [u16]; 3], depth: u8) -> u8 {
    let [red, green, blue] = out;
    unsafe {
        bpg_default_from_white(
            r.as_ptr(),
            r.len(),
            g.as_ptr(),
            g.len(),
            b.as_ptr(),
            b.len(),
            w.as_ptr(),
            w.len(),
            red.as_mut_ptr(),
            red.len(),
            green.as_mut_ptr(),
            green.len(),
            blue.as_mut_ptr(),
            blue.len(),
            depth,
        )
    }
}

/// The status.
pub fn ycgco([y, cg, co]: [&[u16]; 3], out: [&mut [u16]; 3], depth: u8) -> u8 {
    let [red, green, blue] = out;
    unsafe {
        bpg_ycgco(
            y.as_ptr(),
            y.len(),
            cg.as_ptr(),
            cg.len(),
            co.as_ptr(),
            co.len(),
            red.as_mut_ptr(),
            red.len(),
            green.as_mut_ptr(),
            green.len(),
            blue.as_mut_ptr(),
            blue.len(),
            depth,
        )
    }
}

/// The status.
pub fn limited_luma(y: &[u16], out: &mut [u16]) -> u8 {
    unsafe { bpg_limited_luma(y.as_ptr(), y.len(), out.as_mut_ptr(), out.len()) }
}
