//! The number of an input taken apart.

/// Each pick is one of a list, and all numbers below the product of their lengths give all picks.
pub struct Picks(pub usize);

impl Picks {
    pub fn below(&mut self, n: usize) -> usize {
        let pick = self.0 % n;
        self.0 /= n;
        pick
    }

    pub fn pick<T: Copy>(&mut self, from: &[T]) -> T {
        from[self.below(from.len())]
    }
}
