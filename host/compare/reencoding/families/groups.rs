//! Flags and bits words of a group's blocks, groups of every length, and tables.
use super::templates::{Form, Template};
use super::{Call, Part};
use crate::faults::{put, set_end};
use crate::picks::Picks;
use crate::random::Random;

const FLAGS: [u16; 10] = [0, 1, 2, 3, 4, 5, 0x0100, 0x8000, 0x8001, 0xFFFF];
const BITS_WORDS: [i16; 9] = [2, -3, -1, 0, 1, 33, -33, i16::MAX, i16::MIN];

/// Flags and bits words of both blocks, in the first group and in the second, with equal parity in the group and without.
pub fn flags() -> Vec<Part> {
    let forms = FLAGS.len() * BITS_WORDS.len();
    let mono = Part::new(forms * 2, |k| {
        let picks = &mut Picks(k);
        with_forms(&[form(picks)], picks.below(2), false, k)
    });
    let stereo = Part::new(forms * forms * 4, |k| {
        let picks = &mut Picks(k);
        let forms = [form(picks), form(picks)];
        with_forms(&forms, picks.below(2), picks.below(2) == 1, k)
    });
    vec![mono, stereo]
}

fn form(picks: &mut Picks) -> Form {
    (picks.pick(&BITS_WORDS), picks.pick(&FLAGS))
}

/// One group's blocks say what the forms say. Where that is no bits word at all, the values are those of -3.
fn with_forms(forms: &[Form], group: usize, odd: bool, seed: usize) -> Call {
    let known = |(bits, _): &Form| if bits.unsigned_abs() > 32 { -3 } else { *bits };
    let good: Vec<Form> = forms.iter().map(|form| (known(form), 0)).collect();
    let other = vec![(-4, 0); forms.len()];
    let frames = 512 * group + 3;
    let random = &mut Random::new(seed as u64);
    let mut template = Template::new(16, frames, |k| if k == group { good.clone() } else { other.clone() }, random);
    if forms.len() == 2 {
        let last = template.samples.len() - 1;
        template.samples.chunks_exact_mut(2).for_each(|frame| frame[1] = frame[0]);
        template.samples[last] ^= i32::from(odd);
    }
    let places = template.file.places();
    let mut call = template.call();
    for ((bits, flags), at) in forms.iter().zip(&places.blocks[group]) {
        put(&mut call.template, at + 8, 2, *bits as u64);
        put(&mut call.template, at + 10, 2, u64::from(*flags));
    }
    call
}

// ---- lengths of groups

const FEW_FLAGS: [u16; 4] = [0, 1, 2, 3];
const FEW_WORDS: [i16; 6] = [2, -1, 0, 1, 33, 3];
const AROUND: usize = 170;

/// A last group of every length, from none to more than its blocks have, alone and after another.
pub fn lengths() -> Vec<Part> {
    [1, 2].map(lengths_of).into()
}

fn lengths_of(channels: usize) -> Part {
    let most = AROUND * channels;
    Part::new(most * FEW_FLAGS.len() * FEW_WORDS.len() * 2 * channels, move |k| {
        let picks = &mut Picks(k);
        let (length, flags, bits) = (picks.below(most), picks.pick(&FEW_FLAGS), picks.pick(&FEW_WORDS));
        let (group, spoiled) = (picks.below(2), picks.below(channels));
        let random = &mut Random::new(k as u64);
        let mut template = Template::of(16, 512 * group + 5, &vec![(2, 0); channels], random);
        template.file.tail = random.bytes(300);
        let (mut call, places) = (template.call(), template.file.places());
        let blocks = &places.blocks[group];
        put(&mut call.template, blocks[spoiled] + 8, 2, bits as u64);
        put(&mut call.template, blocks[spoiled] + 10, 2, u64::from(flags));
        set_end(&mut call.template, &places, blocks[0] - places.start + length);
        call
    })
}

// ---- tables

/// Entries of three groups of 144 bytes: all of these at all places, the data size as it was or as the last entry says.
const ENTRIES: [u64; 9] = [0, 1, 143, 144, 145, 288, 432, 433, 0xFFFF_FFFF];

const SIZES: [u64; 6] = [0, 1, 9, 80, 100, 0xFFFF_FFFF];

pub fn tables() -> Vec<Part> {
    let entries = Part::new(ENTRIES.len().pow(4) * 2, |k| {
        let picks = &mut Picks(k);
        let mut template = Template::of(16, 1_030, &[(2, 0)], &mut Random::new(5));
        template.file.tail = vec![0x16; 9];
        let (mut call, places) = (template.call(), template.file.places());
        let entries = [0, 1, 2, 3].map(|_| picks.pick(&ENTRIES));
        (0..4).for_each(|k| put(&mut call.template, places.table + 4 * k, 4, entries[k]));
        if picks.below(2) == 1 {
            put(&mut call.template, 28, 4, entries[3]);
        }
        call
    });
    vec![entries, without_frames()]
}

/// Without frames: the data size and the one entry, with bytes after the table and without.
fn without_frames() -> Part {
    Part::new(SIZES.len() * SIZES.len() * 4 * 4, |k| {
        let picks = &mut Picks(k);
        let (size, entry) = (picks.pick(&SIZES), picks.pick(&SIZES));
        let (gap, tail) = (picks.pick(&[0, 1, 4, 50]), picks.pick(&[0, 9, 80, 100]));
        let random = &mut Random::new(k as u64);
        let mut template = Template::of(24, 0, &[(2, 0), (2, 0)], random);
        (template.file.gap, template.file.tail) = (random.bytes(gap), random.bytes(tail));
        let (mut call, places) = (template.call(), template.file.places());
        put(&mut call.template, 28, 4, size);
        put(&mut call.template, places.table, 4, entry);
        call
    })
}
