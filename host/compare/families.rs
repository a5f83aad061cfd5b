//! Families of inputs. Every input is made from its number alone, so that neither order nor threads matter.

/// So many inputs, each made from its number.
pub struct Part<I> {
    count: usize,
    make: Box<dyn Fn(usize) -> I + Send + Sync>,
}

impl<I> Part<I> {
    pub fn new(count: usize, make: impl Fn(usize) -> I + Send + Sync + 'static) -> Self {
        Part { count, make: Box::new(make) }
    }

    /// The same number of other inputs, each made from one of these.
    pub fn map<J>(self, other: impl Fn(I) -> J + Send + Sync + 'static) -> Part<J>
    where
        I: 'static,
    {
        Part::new(self.count, move |k| other((self.make)(k)))
    }
}

pub struct Family<I> {
    pub name: &'static str,
    pub parts: Vec<Part<I>>,
}

impl<I> Family<I> {
    pub fn count(&self) -> usize {
        self.parts.iter().map(|part| part.count).sum()
    }

    pub fn input(&self, index: usize) -> I {
        let mut left = index;
        for part in &self.parts {
            if left < part.count {
                return (part.make)(left);
            }
            left -= part.count;
        }
        panic!("{} has no input {index}", self.name)
    }
}

/// The families, and one of random inputs until there are `count` in all.
pub fn filled_up<I>(
    mut families: Vec<Family<I>>,
    count: usize,
    random: impl FnOnce(usize) -> Part<I>,
) -> Vec<Family<I>> {
    let whole: usize = families.iter().map(Family::count).sum();
    families.push(Family { name: "random", parts: vec![random(count.saturating_sub(whole))] });
    families
}
