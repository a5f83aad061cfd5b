//! What is lent: how much is needed, and what stays.
use crate::blocks::{differences, file};
use crate::files::File;
use ncw::boundary;

/// Mono, 600 frames: 1, 2, 3, and so on.
fn rising() -> File {
    let group = |base| vec![differences(base, 2, &[1; 512])];
    file(1, 16, 600, vec![group(1), group(513)])
}

#[test]
fn what_lies_after_the_samples_stays() {
    let mut room = [-7; 603];
    assert_eq!(ncw::decode_into(&rising().bytes(), &mut room).unwrap(), 600);
    assert!(room[..600].iter().copied().eq(1..=600));
    assert_eq!(room[600..], [-7; 3]);
}

#[test]
fn room_is_counted_in_bytes() {
    let file = rising().bytes();
    for (length, answer) in [(2400, Ok(2400)), (2403, Ok(2400)), (2399, Err(Some(50))), (0, Err(Some(50)))] {
        let mut room = vec![0xA5; length];
        assert_eq!(ncw::decode_bytes(&file, &mut room).map_err(|refused| refused.number()), answer);
        let written = answer.unwrap_or(0);
        let samples: Vec<u8> = (1..=600).flat_map(i32::to_le_bytes).take(written).collect();
        assert_eq!(room[..written], samples);
        assert!(room[written..].iter().all(|byte| *byte == 0xA5));
    }
}

#[test]
fn a_refusal_changes_nothing() {
    let mut refused = rising();
    refused.groups[1][0].bits = -33;
    let mut room = [-7; 700];
    assert_eq!(ncw::decode_into(&refused.bytes(), &mut room).unwrap_err().number(), Some(4));
    assert_eq!(ncw::decode_into(&rising().bytes(), &mut room[..599]).unwrap_err().number(), Some(50));
    assert_eq!(room, [-7; 700]);
}

#[test]
fn the_boundary_as_it_is() {
    let file = rising().bytes();
    assert_eq!(boundary::open(&file), 2400);
    assert_eq!(boundary::decode(&file, &mut [0; 2400]), 2400);
    assert_eq!(boundary::open(&[]), boundary::REFUSED + 1);
    assert_eq!(boundary::decode(&file, &mut []), boundary::REFUSED + 50);
}
