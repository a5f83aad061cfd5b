//! What is lent: how much is needed, and what stays.
use crate::spec;
use ncw::{boundary, encode_into, encode_pcm, StereoMode};

/// Stereo, 600 frames of equal parity, all differences 1.
fn rising() -> Vec<i32> {
    (0..600).flat_map(|k| [k, k + 2]).collect()
}

#[test]
fn enough_and_too_little() {
    let file = encode_pcm(&rising(), spec(2, 16), StereoMode::MidSide).unwrap();
    for (more, answer) in [(0, Ok(708)), (1, Ok(708)), (90, Ok(708)), (-1, Err(Some(50))), (-708, Err(Some(50)))] {
        let mut room = vec![0xA5; (708 + more) as usize];
        let written = encode_into(&rising(), spec(2, 16), StereoMode::MidSide, &mut room);
        assert_eq!(written.map_err(|refused| refused.number()), answer);
        let written = answer.unwrap_or(0);
        assert_eq!(room[..written], file[..written]);
        assert!(room[written..].iter().all(|byte| *byte == 0xA5));
    }
}

/// Eight channels of 32 bits, all blocks raw.
#[test]
fn the_longest_file_of_two_frames() {
    let samples: Vec<i32> = (0..16).map(|k| if k < 8 { 0 } else { i32::MIN + k }).collect();
    let mut room = vec![0xA5; 128 + 8 * 2_064 + 1];
    let [exact, more] = [room.len() - 1, room.len()];
    for (length, answer) in [(exact - 1, Err(Some(50))), (exact, Ok(exact)), (more, Ok(exact))] {
        let written = encode_into(&samples, spec(8, 32), StereoMode::Auto, &mut room[..length]);
        assert_eq!(written.map_err(|refused| refused.number()), answer);
    }
    let file = encode_pcm(&samples, spec(8, 32), StereoMode::Auto).unwrap();
    assert_eq!((&room[..exact], room[exact]), (&file[..], 0xA5));
}

#[test]
fn a_refusal_changes_nothing() {
    let mut samples = rising();
    samples[1199] += 1;
    let mut room = [0xA5; 3000];
    let refused = encode_into(&samples, spec(2, 16), StereoMode::MidSide, &mut room).unwrap_err();
    assert_eq!(refused.number(), Some(35));
    samples[1199] = 1 << 15;
    let refused = encode_into(&samples, spec(2, 16), StereoMode::Auto, &mut room).unwrap_err();
    assert_eq!(refused.number(), Some(32));
    assert_eq!(room, [0xA5; 3000]);
}

#[test]
fn the_boundary_as_it_is() {
    let samples: Vec<u8> = [3, 5].into_iter().flat_map(i32::to_le_bytes).collect();
    let file = encode_pcm(&[3, 5], spec(2, 16), StereoMode::Direct).unwrap();
    let mut room = [0; 417];
    assert_eq!(boundary::encode(&samples, 2, 16, 44_100, 1, &mut room), 416);
    assert_eq!((&room[..416], room[416]), (&file[..], 0));
    assert_eq!(boundary::encode(&samples, 2, 16, 44_100, 1, &mut room[..415]), boundary::REFUSED + 50);
}

#[test]
fn memory_that_is_not_needed_is_given_back() {
    let file = encode_pcm(&[5; 600], spec(1, 24), StereoMode::Auto).unwrap();
    assert_eq!((file.len(), file.capacity()), (420, 420));
}
