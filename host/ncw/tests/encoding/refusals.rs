//! Refusals of encoding, by number and in order.
use crate::{spec, stereo};
use ncw::boundary::{encode, REFUSED};
use ncw::{encode_into, encode_pcm, NcwError, PcmSpec, StereoMode};

fn number(samples: &[i32], spec: PcmSpec, mode: StereoMode) -> Option<u32> {
    let refused = encode_pcm(samples, spec, mode).unwrap_err();
    assert!(matches!(refused, NcwError::InvalidHeader(_)));
    refused.number()
}

#[test]
fn settings() {
    for (channels, depth) in [(0, 16), (9, 16), (65_535, 24), (258, 16), (1, 0), (2, 7), (2, 33), (1, 17), (1, 65_535)]
    {
        for samples in [&[][..], &[5, 5], &[i32::MAX; 7]] {
            assert_eq!(number(samples, spec(channels, depth), StereoMode::MidSide), Some(30), "{channels} {depth}");
        }
    }
    assert_eq!(number(&[], PcmSpec { sample_rate: 0, ..spec(2, 16) }, StereoMode::Auto), Some(30));
    assert!(encode_pcm(&[], PcmSpec { sample_rate: u32::MAX, ..spec(1, 24) }, StereoMode::Auto).is_ok());
}

#[test]
fn incomplete_frames() {
    assert_eq!(number(&[1, 2, 3], spec(2, 16), StereoMode::Direct), Some(31));
    assert_eq!(number(&[i32::MAX], spec(2, 16), StereoMode::MidSide), Some(31));
    assert_eq!(number(&[1, 2, 3, 4], spec(3, 8), StereoMode::Auto), Some(31));
    assert_eq!(number(&[0; 4_103], spec(8, 32), StereoMode::Auto), Some(31));
}

#[test]
fn values_outside_the_depth() {
    for (depth, limit) in [(8, 1 << 7), (16, 1 << 15), (24, 1 << 23)] {
        for outside in [limit, -limit - 1, i32::MAX, i32::MIN] {
            for place in [0, 300, 599] {
                let mut samples = vec![0; 600];
                samples[place] = outside;
                assert_eq!(number(&samples, spec(1, depth), StereoMode::Auto), Some(32), "{outside}");
                assert_eq!(number(&samples, spec(2, depth), StereoMode::MidSide), Some(32), "{outside}");
                assert_eq!(number(&samples, spec(8, depth), StereoMode::Direct), Some(32), "{outside}");
            }
        }
        assert!(encode_pcm(&[limit - 1, -limit], spec(1, depth), StereoMode::Auto).is_ok());
    }
    assert!(encode_pcm(&[i32::MAX, i32::MIN], spec(1, 32), StereoMode::Auto).is_ok());
}

#[test]
fn mid_side_without_stereo() {
    assert_eq!(number(&[], spec(1, 16), StereoMode::MidSide), Some(34));
    assert_eq!(number(&[1, 2], spec(1, 24), StereoMode::MidSide), Some(34));
    assert_eq!(number(&[1 << 15], spec(1, 16), StereoMode::MidSide), Some(32));
    for channels in [1, 3, 4, 5, 6, 7, 8] {
        let both = |samples: &[i32]| number(samples, spec(channels, 8), StereoMode::MidSide);
        let mut frame = vec![2; channels.into()];
        assert_eq!([both(&[]), both(&frame)], [Some(34); 2], "{channels} channels");
        frame[0] = 128;
        assert_eq!(both(&frame), Some(32), "{channels} channels");
        frame.push(2);
        assert_eq!(both(&frame), Some(if channels == 1 { 32 } else { 31 }), "{channels} channels");
    }
}

#[test]
fn parity() {
    for (frames, place) in [(1, 0), (2, 1), (512, 511), (513, 512), (700, 0)] {
        let mut samples = vec![-3; 2 * frames];
        assert!(stereo(&samples, StereoMode::MidSide).is_ok());
        samples[2 * place + 1] += 1;
        assert_eq!(number(&samples, spec(2, 16), StereoMode::MidSide), Some(35), "frame {place} of {frames}");
        assert!(stereo(&samples, StereoMode::Auto).is_ok());
    }
    assert_eq!(number(&[i32::MAX, i32::MIN], spec(2, 32), StereoMode::MidSide), Some(35));
}

#[test]
fn what_only_the_boundary_can_be_asked() {
    for mode in [3, 4, u32::MAX] {
        assert_eq!(encode(&[1, 2, 3], 0, 0, 0, mode, &mut []), REFUSED + 38);
    }
    for length in [1, 2, 3, 5] {
        assert_eq!(encode(&[0xFF; 8][..length], 0, 0, 0, 2, &mut []), REFUSED + 39);
    }
    assert_eq!(encode(&[], 1, 16, 1, 2, &mut []), REFUSED + 34);
}

#[test]
fn too_little_room_comes_last() {
    let refused = |samples: &[i32], spec, mode| encode_into(samples, spec, mode, &mut []).unwrap_err().number();
    assert_eq!(refused(&[3, 5], spec(2, 16), StereoMode::MidSide), Some(50));
    assert_eq!(refused(&[3, 4], spec(2, 16), StereoMode::MidSide), Some(35));
    assert_eq!(refused(&[3], spec(1, 16), StereoMode::MidSide), Some(34));
    assert_eq!(refused(&[], spec(2, 16), StereoMode::Auto), Some(50));
}
