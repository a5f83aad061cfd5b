//! Small files that can be read, one of each kind.
use crate::blocks::{at_depth, differences, file, filled, flagged, noisy, noisy_raw, raw};
use crate::files::File;
use crate::random::Random;

/// All of them, with bytes after the data, so that a group may be made longer.
pub fn all() -> Vec<File> {
    let mut files = vec![none(), mono(), direct(), mid_side(), three(), float(), groups()];
    files.iter_mut().for_each(|file| file.tail = vec![0xA5; 20]);
    files
}

fn random() -> Random {
    Random::new(20_261_115)
}

fn none() -> File {
    file(2, 16, 0, Vec::new())
}

fn mono() -> File {
    filled(1, 3, || noisy(2, &mut random()))
}

fn direct() -> File {
    let random = &mut random();
    file(2, 24, 5, vec![vec![noisy(3, random), noisy_raw(2, random)]])
}

fn mid_side() -> File {
    let random = &mut random();
    file(2, 16, 7, vec![vec![flagged(1, noisy(2, random)), flagged(1, noisy(4, random))]])
}

fn three() -> File {
    let random = &mut random();
    file(3, 8, 2, vec![vec![noisy(1, random), at_depth(8, &[-128, 127, 5, -6]), noisy_raw(1, random)]])
}

fn float() -> File {
    let numbers = |list: &[f32]| list.iter().map(|number| number.to_bits() as i32).collect::<Vec<_>>();
    let (mid, side) = (numbers(&[0.1, -1.5]), numbers(&[3.0e-39, 2.5e38]));
    file(2, 32, 2, vec![vec![flagged(3, raw(32, &mid)), flagged(2, differences(side[0], 9, &[7]))]])
}

/// Three groups, the second of them mid/side, with a gap before the table.
pub fn groups() -> File {
    let random = &mut random();
    let mut group = |flags| vec![flagged(flags, noisy(2, random)), noisy_raw(1, random)];
    let groups = vec![group(0), group(1), group(0)];
    File { gap: vec![9; 3], ..file(2, 16, 1030, groups) }
}
