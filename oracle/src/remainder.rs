//! The Float remainder in whole numbers, from document 01. The Rust gets its own from the C library's `fmodf`.

/// |x| = m * 2^e with m below 2^24, of a finite float.
fn parts(bits: u32) -> (u32, i32) {
    let e = (bits >> 23 & 255) as i32;
    let m = bits & 0x7f_ffff;
    if e == 0 { (m, -149) } else { (m | 0x80_0000, e - 150) }
}

/// The dividend less the divisor taken as often as the truncated quotient says; None where it is NaN.
pub fn remainder(a: u32, b: u32) -> Option<u32> {
    let (size_a, size_b) = (a & 0x7fff_ffff, b & 0x7fff_ffff);
    if size_a >= 0x7f80_0000 || size_b > 0x7f80_0000 || size_b == 0 {
        return None;
    }
    if size_b == 0x7f80_0000 {
        return Some(a);
    }
    let ((ma, ea), (mb, eb)) = (parts(a), parts(b));
    let (mut m, mut e): (u64, i32) = if ea >= eb {
        let mut r = ma as u64 % mb as u64;
        (eb..ea).for_each(|_| r = r * 2 % mb as u64);
        (r, eb)
    } else if eb - ea > 24 {
        // the divisor is the larger
        (ma as u64, ea)
    } else {
        (ma as u64 % ((mb as u64) << (eb - ea)), ea)
    };
    // m * 2^e is a float exactly
    while m >= 1 << 24 {
        assert!(m % 2 == 0);
        (m, e) = (m / 2, e + 1);
    }
    while m != 0 && m < 1 << 23 && e > -149 {
        (m, e) = (m * 2, e - 1);
    }
    let size = if m < 1 << 23 { m as u32 } else { ((e + 150) as u32) << 23 | (m as u32 & 0x7f_ffff) };
    Some(size | a & 1 << 31)
}
