//! Numbers and bytes by chance, the same in each run.

pub fn random(seed: &mut u64) -> u64 {
    *seed ^= *seed << 13;
    *seed ^= *seed >> 7;
    *seed ^= *seed << 17;
    *seed
}

/// So many bytes, each below a number of letters.
pub fn random_bytes(seed: &mut u64, n: usize, letters: u64) -> Vec<u8> {
    (0..n).map(|_| ((random(seed) >> 20) % letters) as u8).collect()
}
