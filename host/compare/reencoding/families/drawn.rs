//! Random calls, most of them short and accepted, and those that `host/definitions` draws, which take longer to make.
use super::faulty::spoil;
use super::templates::{Form, Template};
use super::{variants, Call, Part};
use crate::asking::Question;
use crate::inputs::Maker;
use crate::lent::as_bytes;
use crate::random::Random;
use crate::writing::DEPTHS;

/// One call of so many is one of `host/definitions`, and one of the others has a fault or two.
const ONE_OF_DEFINITIONS: usize = 25;
const ONE_WITH_A_FAULT: usize = 10;

pub fn random(count: usize, seed: u64) -> Part {
    Part::new(count, move |k| {
        let random = &mut Random::new(seed.wrapping_add(k as u64));
        match random.once_in(ONE_OF_DEFINITIONS) {
            true => of_definitions(random.next()),
            false => call(random),
        }
    })
}

fn call(random: &mut Random) -> Call {
    let (channels, depth) = (random.pick(&[1, 2, 2]), random.pick(&DEPTHS));
    let frames = match random.below(24) {
        0 => random.pick(&[0, 511, 512, 513, 1_024, 1_025]),
        1 => random.below(1_100),
        2..5 => random.below(512),
        _ => 1 + random.below(20),
    };
    let groups: Vec<Vec<Form>> = (0..=frames / 512).map(|_| forms(channels, random)).collect();
    let mut template = Template::new(depth, frames, |group| groups[group].clone(), random);
    template.file.rate = random.pick(&[1, 44_100, 48_000, u32::MAX]);
    let variant = if random.once_in(2) { variants::FITTING } else { random.below(variants::ALL) };
    let mut call = variants::call(&template, variant, random);
    if random.once_in(ONE_WITH_A_FAULT) {
        spoil(&mut call, template.file.places(), random);
    }
    call
}

/// Mid/side or not, and any flag in a second block.
fn forms(channels: u16, random: &mut Random) -> Vec<Form> {
    let first = if channels == 2 { random.below(2) as u16 } else { 0 };
    [first, random.below(2) as u16].into_iter().take(channels.into()).map(|flags| (bits_word(random), flags)).collect()
}

/// Mostly of a narrow block.
fn bits_word(random: &mut Random) -> i16 {
    let most = random.pick(&[4, 4, 8, 16, 32]);
    match random.between(-most, most) as i16 {
        0 | 1 => 2,
        bits => bits,
    }
}

fn of_definitions(seed: u64) -> Call {
    let mut maker = Maker::new(seed);
    std::iter::repeat_with(|| maker.question()).find_map(reencoding).expect("a re-encoding comes at some time")
}

fn reencoding(question: Question) -> Option<Call> {
    match question {
        Question::Reencode(spec, samples, template) => Some(Call {
            samples: as_bytes(&samples),
            channels: spec.channels,
            depth: spec.bits_per_sample,
            rate: spec.sample_rate,
            template,
        }),
        _ => None,
    }
}
