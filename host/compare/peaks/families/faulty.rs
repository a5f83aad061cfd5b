//! Summaries with every ordered pair of a fault and a number: which of the two is told depends on the order of checks.
use super::numbers::{any, no_frames, pairs_to_ask};
use super::{Call, Part};
use crate::picks::Picks;
use crate::random::Random;
use crate::summaries::{folded, sevens, Summary};

/// The bytes of each number; the last may be bytes behind them.
type Numbers = Vec<Vec<u8>>;

/// Changes the number of this place.
type Fault = fn(&mut Numbers, usize);

const FAULTS: [Fault; 15] = [
    |numbers, k| {
        numbers.truncate(k + 1);
        numbers[k].pop();
    },
    |numbers, k| numbers.truncate(k),
    |numbers, k| {
        numbers.truncate(k);
        numbers.push(vec![0x80; 4]);
    },
    |numbers, k| {
        let last = numbers[k].len() - 1;
        numbers[k][last] |= 0x80;
        numbers[k].push(0);
    },
    |numbers, k| numbers[k] = vec![0x80, 0],
    |numbers, k| numbers[k] = vec![0xFF, 0x80, 0],
    |numbers, k| numbers[k] = vec![0x80, 0x80, 0x80, 0x80, 0],
    |numbers, k| numbers[k] = vec![0x80, 0x80, 0x80, 0x80, 16],
    |numbers, k| numbers[k] = vec![0xFF, 0xFF, 0xFF, 0xFF, 0xFF, 1],
    |numbers, k| numbers[k] = vec![0],
    |numbers, k| numbers[k] = vec![1],
    |numbers, k| numbers[k] = vec![0xFE, 0xFF, 0xFF, 0xFF, 15],
    |numbers, k| numbers[k] = vec![0xFF, 0xFF, 0xFF, 0xFF, 15],
    |numbers, k| numbers.swap(k & !1, k | 1),
    |numbers, k| numbers.push(vec![[0, 0x80][k % 2]; 1 + k % 3]),
];

const BASES: [(u32, u32); 4] = [(1, 1), (513, 2), (1_024, 1), (600, 3)];
const ASKED: usize = 6;

pub fn pairs() -> Vec<Part> {
    let of = |(frames, channels): (u32, u32)| {
        let numbers = numbers_of(&any(frames, channels, &mut Random::new(frames.into())));
        let n = numbers.len();
        Part::new((FAULTS.len() * n).pow(2) * ASKED, move |k| {
            let (picks, mut numbers) = (&mut Picks(k), numbers.clone());
            for _ in 0..2 {
                let (fault, place) = (picks.pick(&FAULTS), picks.below(n));
                if place | 1 < numbers.len() && !numbers[place].is_empty() {
                    fault(&mut numbers, place);
                }
            }
            let (group, channel) = pairs_to_ask(frames, channels)[picks.below(ASKED)];
            Call { summary: numbers.concat(), file: no_frames(), group, channel }
        })
    };
    BASES.map(of).into()
}

pub fn numbers_of(summary: &Summary) -> Numbers {
    let pairs = summary.pairs.iter().flat_map(|pair| [folded(pair.0), folded(pair.1)]);
    [summary.frames.into(), summary.channels.into()].into_iter().chain(pairs).map(sevens).collect()
}
