//! Sets of numbers as words of bits.

#[inline(always)]
pub fn words(n: usize) -> usize {
    n.div_ceil(64)
}

/// Calls `f` for each set bit, lowest first.
#[inline(always)]
pub fn each_bit(mut w: u64, mut f: impl FnMut(usize)) {
    while w != 0 {
        f(w.trailing_zeros() as usize);
        w &= w - 1;
    }
}

/// Transposes a 64x64 bit matrix; bit c of word r is row r, column c.
pub fn transpose64(a: &mut [u64; 64]) {
    let mut j = 32;
    let mut m: u64 = 0x0000_0000_FFFF_FFFF;
    while j != 0 {
        let mut k = 0;
        while k < 64 {
            let t = ((a[k] >> j) ^ a[k + j]) & m;
            a[k] ^= t << j;
            a[k + j] ^= t;
            k = ((k | j) + 1) & !j;
        }
        j >>= 1;
        if j != 0 {
            m ^= m << j;
        }
    }
}

#[cfg(test)]
mod tests {
    use super::*;
    #[test]
    fn transposes() {
        let mut a = [0u64; 64];
        let mut x = 1u64;
        for w in a.iter_mut() {
            x = x.wrapping_mul(6364136223846793005).wrapping_add(1442695040888963407);
            *w = x ^ (x >> 31);
        }
        let b = a;
        transpose64(&mut a);
        for r in 0..64 {
            for c in 0..64 {
                assert_eq!((a[c] >> r) & 1, (b[r] >> c) & 1);
            }
        }
    }
}
