//! Chance: the generator of random numbers, values at which something changes, lengths and buffers that are seldom right.
use std::sync::OnceLock;

/// splitmix64: small, deterministic.
pub struct Rng(pub u64);

impl Rng {
    pub fn next(&mut self) -> u64 {
        self.0 = self.0.wrapping_add(0x9e37_79b9_7f4a_7c15);
        let mut z = self.0;
        z = (z ^ (z >> 30)).wrapping_mul(0xbf58_476d_1ce4_e5b9);
        z = (z ^ (z >> 27)).wrapping_mul(0x94d0_49bb_1331_11eb);
        z ^ (z >> 31)
    }

    /// Below n; 0 where n is 0.
    pub fn below(&mut self, n: u64) -> u64 {
        if n == 0 {
            0
        } else {
            self.next() % n
        }
    }

    pub fn one_in(&mut self, n: u64) -> bool {
        self.below(n) == 0
    }

    pub fn pick<T: Copy>(&mut self, list: &[T]) -> T {
        list[self.below(list.len() as u64) as usize]
    }

    pub fn bytes(&mut self, count: usize) -> Vec<u8> {
        (0..count).map(|_| self.next() as u8).collect()
    }
}

/// Values at which something changes, or at which a narrower type would wrap.
#[rustfmt::skip]
pub const EDGES: &[u64] = &[
    0, 1, 2, 3, 4, 5, 7, 8, 9, 10, 15, 16, 17, 22, 23, 24, 31, 32, 33, 63, 64, 65, 127, 128, 129, 255,
    256, 257, 1023, 1024, 1025, 4095, 4096, 4097, 65535, 65536, 65537, (1 << 30) - 1, 1 << 30, 1 << 31,
    (1 << 32) - 1, 1 << 32, (1 << 32) + 1, 1 << 40, (1 << 48) - 4096, (1 << 48) - 1, 1 << 48,
    (1 << 48) + 1, (1 << 49), (1 << 56) - 1, 1 << 56, (1 << 63) - 1, 1 << 63, u64::MAX - 4095, u64::MAX - 1,
    u64::MAX,
];

pub fn edge(r: &mut Rng) -> u64 {
    match r.below(8) {
        0 => (1u64 << r.below(64)).wrapping_add(r.below(5)).wrapping_sub(2),
        1 => r.next() >> r.below(64),
        2 => r.below(40),
        _ => r.pick(EDGES),
    }
}

/// Something else than `value`, often something close to it or equal to it in fewer bits.
pub fn shake(r: &mut Rng, value: u64) -> u64 {
    match r.below(8) {
        0 => value.wrapping_add(1),
        1 => value.wrapping_sub(1),
        2 => value ^ (1 << r.below(64)),
        3 => value.wrapping_add(r.pick(&[1u64 << 8, 1 << 16, 1 << 32, 1 << 48, 1 << 63])),
        4 => value.wrapping_mul(2),
        _ => edge(r),
    }
}

/// The right length, or seldom a wrong one (of at most right + 3).
pub fn length(r: &mut Rng, right: usize) -> usize {
    if r.one_in(150) {
        match r.below(6) {
            0 => 0,
            1 => right - 1,
            2 => right + 1,
            3 => right + 3,
            4 => r.below(right as u64) as usize,
            _ => 1,
        }
    } else {
        right
    }
}

/// Words behind every buffer that nobody may write.
pub const GUARD: usize = 4;

/// A buffer of the given words with garbage behind them.
pub fn guarded(r: &mut Rng, words: &[u64]) -> Vec<u64> {
    let mut buffer = words.to_vec();
    for _ in 0..GUARD {
        buffer.push(r.next());
    }
    buffer
}

pub fn garbage(r: &mut Rng, count: usize) -> Vec<u64> {
    let word = r.next();
    (0..count + GUARD).map(|i| word.wrapping_mul(i as u64 | 1)).collect()
}

const NOISE_SEED: u64 = 7;
const NOISE_BYTES: usize = 1 << 17;

/// Random bytes, the same in every run, from which memories are filled.
pub fn noise() -> &'static [u8] {
    static NOISE: OnceLock<Vec<u8>> = OnceLock::new();
    NOISE.get_or_init(|| Rng(NOISE_SEED).bytes(NOISE_BYTES))
}
