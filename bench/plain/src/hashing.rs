//! A quick hash for maps, seeded anew in each process, since what is read may be hostile.
use std::hash::{BuildHasher, Hasher};
use std::sync::OnceLock;

const K0: u64 = 0x9E37_79B9_7F4A_7C15;

const K1: u64 = 0xD6E8_FEB8_6659_FD93;

/// Folded-multiply hash with a per-process random seed (the input is hostile).
#[derive(Clone, Copy)]
pub struct Seeded(u64);

impl Default for Seeded {
    fn default() -> Self {
        static SEED: OnceLock<u64> = OnceLock::new();
        Seeded(*SEED.get_or_init(|| std::collections::hash_map::RandomState::new().build_hasher().finish() | 1))
    }
}

impl BuildHasher for Seeded {
    type Hasher = FoldHasher;
    #[inline]
    fn build_hasher(&self) -> FoldHasher {
        FoldHasher { s: self.0, k: self.0.rotate_left(29) ^ K1 }
    }
}

pub struct FoldHasher {
    s: u64,
    k: u64,
}

impl Hasher for FoldHasher {
    #[inline]
    fn write(&mut self, b: &[u8]) {
        let n = b.len();
        let mut s = self.s ^ (n as u64).wrapping_mul(K0);
        if n >= 16 {
            let mut i = 0;
            while i + 16 <= n {
                s = mulfold(rd(b, i) ^ s, rd(b, i + 8) ^ self.k);
                i += 16;
            }
            s = mulfold(rd(b, n - 16) ^ s, rd(b, n - 8) ^ self.k);
        } else if n >= 8 {
            s = mulfold(rd(b, 0) ^ s, rd(b, n - 8) ^ self.k);
        } else if n >= 4 {
            let x = u32::from_le_bytes(b[..4].try_into().unwrap()) as u64;
            let y = u32::from_le_bytes(b[n - 4..].try_into().unwrap()) as u64;
            s = mulfold(((x << 32) | y) ^ s, self.k);
        } else if n > 0 {
            let x = (b[0] as u64) | ((b[n / 2] as u64) << 8) | ((b[n - 1] as u64) << 16);
            s = mulfold(x ^ s, self.k);
        }
        self.s = s;
    }
    #[inline]
    fn write_u8(&mut self, v: u8) {
        self.write_u64(v as u64)
    }
    #[inline]
    fn write_u32(&mut self, v: u32) {
        self.write_u64(v as u64)
    }
    #[inline]
    fn write_u64(&mut self, v: u64) {
        self.s = mulfold(self.s ^ v, self.k)
    }
    #[inline]
    fn write_usize(&mut self, v: usize) {
        self.write_u64(v as u64)
    }
    #[inline]
    fn finish(&self) -> u64 {
        mulfold(self.s ^ K0, self.k)
    }
}

#[inline(always)]
fn mulfold(a: u64, b: u64) -> u64 {
    let m = (a as u128).wrapping_mul(b as u128);
    (m as u64) ^ ((m >> 64) as u64)
}

#[inline(always)]
fn rd(b: &[u8], i: usize) -> u64 {
    u64::from_le_bytes(b[i..i + 8].try_into().unwrap())
}

pub type Map<K, V> = std::collections::HashMap<K, V, Seeded>;

pub type Set<K> = std::collections::HashSet<K, Seeded>;
