//! What is lent: how much is needed, and what stays.
use crate::blocks::{differences, file, raw};
use crate::files::File;
use crate::{reencoded, spec_of};
use ncw::{boundary, encode_with_template_into};

/// Mono, 600 frames, 3 bytes before the table and 5 after the data: 120 + 3 + 12 + 144 + 1040 + 5.
const LENGTH: usize = 1324;

fn template() -> Vec<u8> {
    let groups = vec![vec![differences(1, 2, &[1; 512])], vec![raw(16, &[])]];
    File { gap: vec![1, 2, 3], tail: vec![5; 5], ..file(1, 16, 600, groups) }.bytes()
}

/// All differences -1.
fn falling() -> Vec<i32> {
    (0..600).map(|k| -k).collect()
}

#[test]
fn enough_and_too_little() {
    let file = reencoded(&falling(), &template()).unwrap();
    assert_eq!(file.len(), LENGTH);
    for (more, answer) in
        [(0, Ok(LENGTH)), (1, Ok(LENGTH)), (90, Ok(LENGTH)), (-1, Err(Some(50))), (-1324, Err(Some(50)))]
    {
        let mut room = vec![0xA5; LENGTH.wrapping_add_signed(more)];
        let written = encode_with_template_into(&falling(), spec_of(&file), &template(), &mut room);
        assert_eq!(written.map_err(|refused| refused.number()), answer);
        let written = answer.unwrap_or(0);
        assert_eq!(room[..written], file[..written]);
        assert!(room[written..].iter().all(|byte| *byte == 0xA5));
    }
}

#[test]
fn a_refusal_changes_nothing() {
    let mut room = [0xA5; 3000];
    let mut number = |samples: &[i32], template: &[u8]| {
        encode_with_template_into(samples, spec_of(template), template, &mut room).unwrap_err().number()
    };
    let mut wide = falling();
    wide[511] += 3;
    assert_eq!(number(&wide, &template()), Some(36));
    let mut bits = template();
    bits[135 + 144 + 8] = 0;
    bits[135 + 144 + 9] = 0;
    assert_eq!(number(&falling(), &bits), Some(44), "in the second group");
    assert_eq!(number(&falling(), &template()[..LENGTH - 6]), Some(41));
    assert_eq!(room, [0xA5; 3000]);
}

#[test]
fn the_boundary_as_it_is() {
    let samples: Vec<u8> = falling().into_iter().flat_map(i32::to_le_bytes).collect();
    let mut room = [0; LENGTH + 1];
    let mut answer = |length: usize| boundary::reencode(&samples, 1, 16, 44_100, &template(), &mut room[..length]);
    assert_eq!(answer(LENGTH - 1), boundary::REFUSED + 50);
    assert_eq!(answer(LENGTH + 1), LENGTH as u64);
    assert_eq!((&room[..LENGTH], room[LENGTH]), (&reencoded(&falling(), &template()).unwrap()[..], 0));
}

#[test]
fn as_much_memory_as_the_template_has() {
    assert_eq!(reencoded(&falling(), &template()).unwrap().capacity(), LENGTH);
}
