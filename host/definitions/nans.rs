//! The bits of a sum or a difference of mid and side in a float file, by document 02 alone, L5. Nothing here is the
//! Rust original's.

/// `result` is the machine's. Of a NaN only that it is one counts, since machines write them in different ways.
pub fn settled(mid: i32, side: i32, result: f32) -> i32 {
    match (is_nan(mid), is_nan(side)) {
        (true, true) | (true, false) => mid | 0x0040_0000,
        (false, true) => side | 0x0040_0000,
        (false, false) if result.is_nan() => 0x7FC0_0000,
        (false, false) => result.to_bits() as i32,
    }
}

/// All bits of the exponent are set, and one of the digits.
pub fn is_nan(bits: i32) -> bool {
    bits & 0x7F80_0000 == 0x7F80_0000 && bits & 0x007F_FFFF != 0
}

#[cfg(test)]
mod tests {
    use super::*;

    /// Left and right.
    fn both(mid: u32, side: u32) -> [u32; 2] {
        let [m, s] = [mid, side].map(f32::from_bits);
        [m + s, m - s].map(|result| settled(mid as i32, side as i32, result) as u32)
    }

    #[test]
    fn one_is_a_nan() {
        assert_eq!(both(0x7F80_0001, 0x3F80_0000), [0x7FC0_0001; 2]);
        assert_eq!(both(0x3F80_0000, 0x7F80_0001), [0x7FC0_0001; 2]);
        assert_eq!(both(0x7FC1_2345, 0), [0x7FC1_2345; 2]);
        assert_eq!(both(0xFF81_2345, 0xFF80_0000), [0xFFC1_2345; 2]);
        assert_eq!(both(0x8000_0000, 0xFFFF_FFFF), [0xFFFF_FFFF; 2]);
    }

    #[test]
    fn both_are_nans() {
        assert_eq!(both(0xFF80_0001, 0x7FC0_0002), [0xFFC0_0001; 2]);
        assert_eq!(both(0x7FC0_0002, 0xFF80_0001), [0x7FC0_0002; 2]);
    }

    #[test]
    fn neither_is_a_nan() {
        assert_eq!(both(0x7F80_0000, 0x7F80_0000), [0x7F80_0000, 0x7FC0_0000]);
        assert_eq!(both(0x7F80_0000, 0xFF80_0000), [0x7FC0_0000, 0x7F80_0000]);
        assert_eq!(both(0xFF80_0000, 0xFF80_0000), [0xFF80_0000, 0x7FC0_0000]);
        assert_eq!(both(0xFF80_0000, 0x3F80_0000), [0xFF80_0000; 2]);
        assert_eq!(both(0x3F80_0000, 0x3F80_0000), [0x4000_0000, 0]);
        assert_eq!(both(0x8000_0000, 0), [0, 0x8000_0000]);
        assert_eq!(both(1, 1), [2, 0]);
    }
}
