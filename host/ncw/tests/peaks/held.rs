//! Bytes held to a file: yes for its own summary alone.
use crate::{build, check, four};

#[test]
fn one_changed_byte() {
    let file = four(3, 0).bytes();
    let summary = build(&file).unwrap();
    assert_eq!(check(&summary, &file), Ok(true));
    for (at, bit) in (0..summary.len()).flat_map(|at| (0..8).map(move |bit| (at, bit))) {
        let mut other = summary.clone();
        other[at] ^= 1 << bit;
        assert_eq!(check(&other, &file), Ok(false), "bit {bit} of byte {at}");
    }
}

#[test]
fn shorter_and_longer() {
    let file = four(2, 0).bytes();
    let summary = build(&file).unwrap();
    for length in 0..summary.len() {
        assert_eq!(check(&summary[..length], &file), Ok(false), "{length}");
    }
    assert_eq!(check(&[&summary[..], &[0]].concat(), &file), Ok(false));
}

/// Malformed bytes get a no, also those that hold the same numbers.
#[test]
fn another_encoding() {
    let file = four(1, 0).bytes();
    let mut long = build(&file).unwrap();
    let last = long.len() - 1;
    long[last] |= 0x80;
    long.push(0);
    assert_eq!(check(&long, &file), Ok(false));
}

#[test]
fn another_file() {
    let (one, other) = (four(1, 0).bytes(), four(2, 0).bytes());
    assert_eq!(check(&build(&one).unwrap(), &other), Ok(false));
    assert_eq!(check(&build(&other).unwrap(), &one), Ok(false));
}

#[test]
fn files_without_a_summary() {
    let summary = build(&four(2, 0).bytes()).unwrap();
    assert_eq!(check(&summary, &four(2, 2).bytes()), Err(66));
    assert_eq!(check(&[], &four(2, 2).bytes()), Err(66));
    let mut bad = four(2, 2);
    bad.groups[1][0].flags ^= 2;
    assert_eq!(check(&summary, &bad.bytes()), Err(20));
    assert_eq!(check(&summary, &summary), Err(1));
}
