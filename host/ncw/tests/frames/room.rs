//! What is lent: how much is needed, what stays, and that 50 is the last of all.
use crate::four;
use ncw::{boundary, decode_into, read_frames_bytes, read_frames_into};

#[test]
fn what_lies_after_the_samples_stays() {
    let file = four(2, 0).bytes();
    let mut whole = [0; 3_200];
    decode_into(&file, &mut whole).unwrap();
    let mut room = [-7; 13];
    assert_eq!(read_frames_into(&file, 510, 5, &mut room).unwrap(), 10);
    assert_eq!((&room[..10], &room[10..]), (&whole[1_020..1_030], &[-7; 3][..]));
}

#[test]
fn room_is_counted_in_bytes() {
    let file = four(3, 0).bytes();
    for (length, answer) in [(24, Ok(24)), (27, Ok(24)), (23, Err(Some(50))), (0, Err(Some(50)))] {
        let mut room = vec![0xA5; length];
        assert_eq!(read_frames_bytes(&file, 511, 2, &mut room).map_err(|refused| refused.number()), answer);
        assert!(room[answer.unwrap_or(0)..].iter().all(|byte| *byte == 0xA5));
    }
    assert_eq!(read_frames_bytes(&file, 511, 0, &mut []).unwrap(), 0);
}

#[test]
fn fifty_is_the_last() {
    let mut file = four(2, 0);
    file.groups[1][1].bits = 33;
    let bytes = file.bytes();
    let mut room = [-7; 3];
    let mut number = |first, count| read_frames_into(&bytes, first, count, &mut room).unwrap_err().number();
    assert_eq!([number(511, 2), number(0, 513), number(0, 512), number(1_599, 2)], [4, 4, 50, 51].map(Some));
    assert_eq!(room, [-7; 3]);
}

#[test]
fn the_boundary_as_it_is() {
    let file = four(2, 0).bytes();
    let refused = |number| boundary::REFUSED + number;
    assert_eq!(boundary::read_frames(&file, 1_590, 10, &mut [0; 80]), 80);
    assert_eq!(boundary::read_frames(&file, 1_590, 10, &mut [0; 79]), refused(50));
    assert_eq!(boundary::read_frames(&file, 10, 1_591, &mut [0; 80]), refused(51), "the first frame, then the count");
    assert_eq!(boundary::read_frames(&file, 1_591, 9, &mut [0; 80]), 72);
    assert_eq!(boundary::read_frames(&[], 0, 0, &mut []), refused(1));
}
