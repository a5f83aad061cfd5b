//! Document 01's cases of re-encoding.
use crate::blocks::{differences, file, flagged, noise, noisy, noisy_raw, raw};
use crate::faults::put;
use crate::files::{Block, File};
use crate::random::Random;
use crate::{decoded, one_sample, reencoded, refused, spec_of};
use ncw::{encode_pcm, StereoMode};

/// The values, the first of them replaced.
fn over(first: &[i32], values: &[i32]) -> Vec<i32> {
    first.iter().chain(&values[first.len()..]).copied().collect()
}

#[test]
fn one_sample_at_width_2() {
    let template = one_sample();
    assert_eq!(template, encode_pcm(&[5], spec_of(&template), StereoMode::Auto).unwrap());
    for sample in [4, 5, 6, 7] {
        let expected = file(1, 16, 1, vec![vec![differences(sample, 2, &[5 - sample])]]).bytes();
        assert_eq!(reencoded(&[sample], &template).unwrap(), expected, "{sample}");
    }
    assert_eq!([3, 8].map(|sample| refused(&[sample], &template)), [Some(36); 2]);
}

#[test]
fn a_template_without_frames() {
    let template = File { gap: vec![1, 2, 3], tail: vec![4; 9], ..file(2, 24, 0, Vec::new()) }.bytes();
    assert_eq!(reencoded(&[], &template).unwrap(), template);
}

#[test]
fn mid_and_side_that_left_and_right_do_not_give() {
    let lowest = [i32::MIN; 512];
    let pair = |mid, side| file(2, 16, 1, vec![vec![flagged(1, raw(32, mid)), flagged(1, raw(32, side))]]).bytes();
    let template = pair(&lowest, &lowest);
    assert_eq!(decoded(&template), [0, 0]);
    let zero = over(&[0], &lowest);
    assert_eq!(reencoded(&[0, 0], &template).unwrap(), pair(&zero, &zero));
    assert_ne!(reencoded(&[0, 0], &template).unwrap(), template);
}

#[test]
fn raw_at_width_1() {
    let with = |values: &[i32]| file(1, 16, 3, vec![vec![raw(1, values)]]).bytes();
    let template = with(&[-1; 512]);
    assert_eq!(reencoded(&[0, -1, 0], &template).unwrap(), with(&over(&[0, -1, 0], &[-1; 512])));
    assert_eq!([[1, 0, 0], [0, 0, -2]].map(|samples| refused(&samples, &template)), [Some(36); 2]);
}

#[test]
fn raw_at_every_width_up_to_its_limits() {
    for width in 1..=17u32 {
        let limit = 1 << (width - 1);
        let template = file(1, 24, 2, vec![vec![raw(width, &[])]]).bytes();
        let expected = file(1, 24, 2, vec![vec![raw(width, &[-limit, limit - 1])]]).bytes();
        assert_eq!(reencoded(&[-limit, limit - 1], &template).unwrap(), expected, "width {width}");
        assert_eq!([[limit, 0], [0, -limit - 1]].map(|samples| refused(&samples, &template)), [Some(36); 2]);
    }
}

#[test]
fn the_base_of_a_raw_block_stays() {
    let random = &mut Random::new(1);
    let values = noise(16, random);
    let with = |values: &[i32]| {
        file(1, 16, 3, vec![vec![Block { base: -77, padding: 0x0102_0304, ..raw(16, values) }]]).bytes()
    };
    assert_eq!(reencoded(&[9, -32_768, 32_767], &with(&values)).unwrap(), with(&over(&[9, -32_768, 32_767], &values)));
}

#[test]
fn the_last_difference_stays() {
    let full = |base, last| file(1, 16, 512, vec![vec![differences(base, 2, &over(&[0; 511], &[last; 512]))]]).bytes();
    for last in [-2, -1, 0, 1] {
        assert_eq!(reencoded(&[1234; 512], &full(5, last)).unwrap(), full(1234, last), "{last}");
    }
}

#[test]
fn differences_after_the_active_ones_stay() {
    let values = noise(9, &mut Random::new(2));
    let with = |base, values: &[i32]| file(1, 16, 3, vec![vec![differences(base, 9, values)]]).bytes();
    let template = with(100, &values);
    let padded = 100 + values[..3].iter().sum::<i32>();
    let samples = [padded + 10, padded - 200, padded + 55];
    assert_eq!(reencoded(&samples, &template).unwrap(), with(samples[0], &over(&[-210, 255, -55], &values)));
    assert_eq!(refused(&[padded, padded + 256, padded], &template), Some(36));
    assert!(reencoded(&[padded, padded + 100, padded + 256], &template).is_ok());
    assert_eq!(refused(&[padded, padded + 100, padded + 257], &template), Some(36), "the first padded sample stays");
}

#[test]
fn differences_wrap() {
    let with = |base: i32, first: i32| file(1, 16, 1, vec![vec![differences(base, 32, &[first, 7, -7])]]).bytes();
    let template = with(i32::MAX, 2);
    assert_eq!(reencoded(&[5], &template).unwrap(), with(5, (i32::MIN + 1).wrapping_sub(5)));
    assert_eq!(reencoded(&[-5], &template).unwrap(), with(-5, i32::MIN + 6));
}

/// All 512 samples of each channel of a file of one group, whatever its frames are.
fn with_padded(file: &[u8]) -> Vec<i32> {
    let mut all = file.to_vec();
    put(&mut all, 16, 4, 512);
    decoded(&all)
}

#[test]
fn padded_samples_stay() {
    let random = &mut Random::new(3);
    for flags in [0, 1] {
        for active in [1, 2, 300, 511] {
            let group = vec![flagged(flags, noisy(32, random)), flagged(flags, noisy_raw(17, random))];
            let template = file(2, 16, active, vec![group]).bytes();
            let samples: Vec<i32> = (0..active as i32).flat_map(|k| [k - 90, 3 * k + 4]).collect();
            let expected = over(&samples, &with_padded(&template));
            assert_eq!(with_padded(&reencoded(&samples, &template).unwrap()), expected, "{active} frames");
        }
    }
}

/// Every part that no sample determines is other than an encoder would have it.
fn marked(base: i32, first: i32) -> Vec<u8> {
    let random = &mut Random::new(4);
    let block = Block { padding: 0xDEAD_BEEF, ..differences(base, 8, &over(&[first], &noise(8, random))) };
    let parts =
        File { mark: 0x30, unknown: random.bytes(88), gap: random.bytes(7), ..file(1, 16, 1, vec![vec![block]]) };
    File { rate: 1, tail: random.bytes(99), ..parts }.bytes()
}

#[test]
fn bytes_before_the_table_and_after_the_data_stay() {
    assert_eq!(reencoded(&[-30], &marked(40, 10)).unwrap(), marked(-30, 80));
}

#[test]
fn the_first_block_says_mid_side_and_the_second_keeps_its_flags() {
    let with = |flags: [u16; 2], bases: [i32; 2], first: [i32; 2]| {
        let block = |k: usize| flagged(flags[k], differences(bases[k], 3, &[first[k]]));
        file(2, 16, 1, vec![vec![block(0), block(1)]]).bytes()
    };
    for second in [0, 1] {
        let template = with([1, second], [5, 0], [0, 0]);
        assert_eq!(reencoded(&[3, 5], &template).unwrap(), with([1, second], [4, -1], [1, 1]));
        assert_eq!(refused(&[3, 4], &template), Some(35));
        let template = with([0, second], [5, 0], [0, 0]);
        assert_eq!(reencoded(&[4, -3], &template).unwrap(), with([0, second], [4, -3], [1, 3]));
    }
}

#[test]
fn each_group_has_its_own_form() {
    let with = |mid: i32, left: i32| {
        let first = vec![flagged(1, differences(mid, 2, &[])), flagged(0, raw(2, &[1; 512]))];
        let second = vec![flagged(0, differences(left, 5, &[6 - left])), flagged(1, raw(4, &over(&[left], &[3; 512])))];
        file(2, 24, 513, vec![first, second]).bytes()
    };
    let mut samples = [21, 19].repeat(512);
    samples.extend([-8, -8]);
    assert_eq!(reencoded(&samples, &with(5, 6)).unwrap(), with(20, -8));
}
