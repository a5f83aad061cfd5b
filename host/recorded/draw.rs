//! Numbers that the list draws from a seed: many of them take few bytes there.

use crate::random::Random;

#[derive(Clone, Copy)]
pub struct Draw {
    pub seed: u32,
    pub low: u32,
    pub range: u32,
    pub style: u8,
}

/// Each number is the one before plus the value.
pub const SUMMED: u8 = 1;
/// Twice what is drawn is added to `low`.
pub const DOUBLED: u8 = 2;

const PRIME: u64 = 2_147_483_647;
const FACTOR: u64 = 48_271;
/// From a number to the one before.
const BACK: u64 = 1_899_818_559;
const _: () = assert!(FACTOR * BACK % PRIME == 1);

/// In these words of noise almost every bit varies.
const NOISE_LOW: u32 = 0x4000_0000;

/// So few words are given as they are.
const FEW: usize = 8;

pub fn seed(random: &mut Random) -> u32 {
    random.between(1, PRIME as i64 - 1) as u32
}

impl Draw {
    pub fn noise(seed: u32) -> Self {
        Draw { seed, low: NOISE_LOW, range: PRIME as u32, style: 0 }
    }

    pub fn constant(value: u32) -> Self {
        Draw { seed: 1, low: value, range: 1, style: 0 }
    }

    /// Signed numbers of so many bits.
    pub fn signed(bits: u32, random: &mut Random) -> Self {
        let half = 1_u32 << (bits - 1);
        Draw { seed: seed(random), low: half.wrapping_neg(), range: 2 * half, style: 0 }
    }

    /// Twice the numbers: all of one parity.
    pub fn doubled(self) -> Self {
        Draw { low: self.low.wrapping_mul(2), style: self.style | DOUBLED, ..self }
    }

    pub fn numbers(&self, count: usize) -> Vec<u32> {
        let (mut x, mut last) = (u64::from(self.seed), 0_u32);
        let mut next = || {
            x = FACTOR * x % PRIME;
            let drawn = (x % u64::from(self.range)) as u32;
            let value = self.low.wrapping_add(if self.style & DOUBLED == 0 { drawn } else { drawn.wrapping_mul(2) });
            last = if self.style & SUMMED == 0 { value } else { last.wrapping_add(value) };
            last
        };
        (0..count).map(|_| next()).collect()
    }

    pub fn bytes(&self, count: usize) -> Vec<u8> {
        self.numbers(count).iter().flat_map(|number| number.to_le_bytes()).collect()
    }
}

/// Samples as they are, or a draw and how many.
#[derive(Clone)]
pub enum Samples {
    Given(Vec<i32>),
    Drawn(Draw, usize),
}

impl Samples {
    pub fn values(&self) -> Vec<i32> {
        match self {
            Samples::Given(values) => values.clone(),
            Samples::Drawn(draw, count) => draw.numbers(*count).iter().map(|number| *number as i32).collect(),
        }
    }
}

impl<T: AsRef<[i32]>> From<T> for Samples {
    fn from(values: T) -> Self {
        Samples::Given(values.as_ref().to_vec())
    }
}

/// The runs of noise, and of one number, in the bytes: where, how many numbers, and the draw that gives them.
pub fn runs(bytes: &[u8]) -> Vec<(usize, usize, Draw)> {
    let (mut at, mut found) = (0, Vec::new());
    while at + 4 * FEW <= bytes.len() {
        let (draw, count) = longest(&bytes[at..]);
        if count >= FEW {
            found.push((at, count, draw));
        }
        at += if count >= FEW { 4 * count } else { 1 };
    }
    found
}

fn longest(bytes: &[u8]) -> (Draw, usize) {
    let word = |k: usize| u32::from_le_bytes([bytes[k], bytes[k + 1], bytes[k + 2], bytes[k + 3]]);
    let drawn = |k: usize| u64::from(word(k).wrapping_sub(NOISE_LOW));
    let noise = |k: usize| drawn(k + 4) == FACTOR * drawn(k) % PRIME;
    let equal = |k: usize| word(k + 4) == word(k);
    let count = |same: &dyn Fn(usize) -> bool| {
        let pairs = (0..bytes.len() - 7).step_by(4);
        1 + pairs.take_while(|k| same(*k)).count()
    };
    match (1..PRIME).contains(&drawn(0)) && noise(0) {
        true => (Draw::noise((BACK * drawn(0) % PRIME) as u32), count(&noise)),
        false => (Draw::constant(word(0)), count(&equal)),
    }
}
