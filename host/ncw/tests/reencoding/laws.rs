//! The three laws of re-encoding, on templates that no encoder makes.
use crate::blocks::{differences, flagged, raw};
use crate::files::{width_of, Block, File};
use crate::random::Random;
use crate::{decoded, reencoded};
use ncw::{encode_pcm, PcmSpec, StereoMode};

/// Channels, depth, whether mid/side, frames.
type Form = (u16, u16, bool, usize);

fn forms() -> impl Iterator<Item = Form> {
    let kinds = [(1, false), (2, false), (2, true)].into_iter().flat_map(|kind| [16, 24].map(|depth| (kind, depth)));
    kinds.flat_map(|((channels, mid), depth)| [0, 1, 2, 511, 512, 513, 1100].map(|n| (channels, depth, mid, n)))
}

/// How many bits the values of a form take that are coded. Left and right of such mid and side are within the depth.
fn bits(depth: u16) -> u32 {
    u32::from(depth) - 3
}

/// A block that holds all values of so many bits, padded ones and the last difference too.
fn block(bits: u32, random: &mut Random) -> Block {
    let values: Vec<i32> = (0..512).map(|_| random.signed(bits)).collect();
    let block = if random.once_in(2) {
        let mut steps: Vec<i32> = values.windows(2).map(|pair| pair[1] - pair[0]).collect();
        steps.push(random.signed(bits));
        assert!(width_of(&steps) <= bits + 1);
        differences(values[0], random.pick(&[bits + 1, bits + 2, 32]), &steps)
    } else {
        Block { base: random.signed(32), ..raw(random.pick(&[bits, bits + 1, 32]), &values) }
    };
    Block { padding: random.next() as u32, ..block }
}

/// Any file of a form whose blocks hold all that `samples` gives.
fn template((channels, depth, mid, frames): Form, random: &mut Random) -> Vec<u8> {
    let mut file = File::new(channels, depth, 48_000, frames as u32, random);
    for _ in 0..frames.div_ceil(512) {
        let first = flagged(mid.into(), block(bits(depth), random));
        let second = flagged(random.below(2) as u16, block(bits(depth), random));
        file.groups.push([first, second].into_iter().take(channels.into()).collect());
    }
    file.bytes()
}

fn samples((channels, depth, mid, frames): Form, random: &mut Random) -> Vec<i32> {
    let mut frame = || {
        let [first, second] = [(); 2].map(|()| random.signed(bits(depth)));
        if mid {
            [first + second, first - second]
        } else {
            [first, second]
        }
    };
    (0..frames).flat_map(|_| frame().into_iter().take(channels.into())).collect()
}

#[test]
fn what_is_re_encoded_decodes_to_the_samples() {
    let random = &mut Random::new(1);
    for form in forms() {
        let (template, samples) = (template(form, random), samples(form, random));
        assert_eq!(decoded(&reencoded(&samples, &template).unwrap()), samples, "{form:?}");
    }
}

#[test]
fn what_is_re_encoded_serves_as_the_template_did() {
    let random = &mut Random::new(2);
    for form in forms() {
        let template = template(form, random);
        let file = reencoded(&samples(form, random), &template).unwrap();
        let mut others = samples(form, random);
        assert_eq!(reencoded(&others, &file).unwrap(), reencoded(&others, &template).unwrap(), "{form:?}");
        for _ in 0..20.min(others.len()) {
            let at = random.below(others.len());
            others[at] = random.signed(form.1.into());
            let [by_file, by_template] =
                [&file, &template].map(|like| reencoded(&others, like).map_err(|refused| refused.number()));
            assert_eq!(by_file, by_template, "{form:?}");
        }
    }
}

#[test]
fn a_template_with_its_own_samples_is_itself() {
    let random = &mut Random::new(3);
    for form in forms() {
        let template = template(form, random);
        assert_eq!(reencoded(&decoded(&template), &template).unwrap(), template, "{form:?}");
    }
}

/// In each group the same frames, the last first: they fit the same widths.
fn backwards(channels: u16, samples: &[i32]) -> Vec<i32> {
    let groups = samples.chunks(512 * usize::from(channels));
    groups.flat_map(|group| group.chunks(channels.into()).rev().flatten().copied()).collect()
}

#[test]
fn what_the_encoder_makes_as_a_template() {
    let random = &mut Random::new(4);
    for form in forms() {
        let (channels, bits_per_sample, mid, _) = form;
        let spec = PcmSpec { channels, bits_per_sample, sample_rate: 44_100 };
        for mode in [StereoMode::Auto, if mid { StereoMode::MidSide } else { StereoMode::Direct }] {
            let own = samples(form, random);
            let others = backwards(channels, &own);
            let template = encode_pcm(&own, spec, mode).unwrap();
            let file = reencoded(&others, &template).unwrap();
            assert_eq!(decoded(&file), others, "{form:?}");
            assert_eq!(reencoded(&own, &file).unwrap(), template, "{form:?}");
            assert_eq!(reencoded(&own, &template).unwrap(), template, "{form:?}");
        }
    }
}
