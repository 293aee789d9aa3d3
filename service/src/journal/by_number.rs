//! A map from numbers to values. The numbers of a file start at 0 and are mostly consecutive, so the values are in a
//! list, except for numbers far above all others.

use ahash::AHashMap;

/// The list may always grow to this length.
const LEAST_NEAR: u64 = 1 << 10;

/// A value for each number: the default until it is changed.
#[derive(Default)]
pub struct ByNumber<T> {
    near: Vec<T>,
    /// A number that was far once stays here.
    far: AHashMap<u64, T>,
}

impl<T: Default> ByNumber<T> {
    pub fn of(&mut self, number: u64) -> &mut T {
        let is_far = number > 2 * self.near.len() as u64 + LEAST_NEAR;
        if is_far || self.far.contains_key(&number) {
            return self.far.entry(number).or_default();
        }
        let place = number as usize;
        if place >= self.near.len() {
            self.near.resize_with(place + 1, T::default);
        }
        &mut self.near[place]
    }

    /// None if neither this number nor a larger one in the list was asked for.
    pub fn get(&self, number: u64) -> Option<&T> {
        let near = || usize::try_from(number).ok().and_then(|place| self.near.get(place));
        self.far.get(&number).or_else(near)
    }
}

/// A set of numbers, one bit for each.
#[derive(Default)]
pub struct NumberSet(ByNumber<u64>);

impl NumberSet {
    /// Returns whether the number is new.
    pub fn insert(&mut self, number: u64) -> bool {
        let (bits, bit) = (self.0.of(number / 64), 1 << (number % 64));
        let is_new = *bits & bit == 0;
        *bits |= bit;
        is_new
    }

    pub fn has(&self, number: u64) -> bool {
        self.0.get(number / 64).is_some_and(|bits| bits >> (number % 64) & 1 != 0)
    }
}

#[cfg(test)]
mod tests {
    use super::*;

    /// Including a number that was far at first and is set again later.
    #[test]
    fn what_is_known_of_a_number_is_what_was_said_last() {
        let mut all = ByNumber::default();
        let said = [5, 1 << 40, u64::MAX, 3_000, 0, 700, 1_500, 2_900, 3_000, 5, u64::MAX];
        let mut last = AHashMap::new();
        for (value, number) in (1..).zip(said) {
            *all.of(number) = value;
            last.insert(number, value);
            assert!(last.iter().all(|(number, value)| all.get(*number) == Some(value)), "{number}");
        }
        assert!([1, 2_899, 1 << 30].iter().all(|number| all.get(*number).copied().unwrap_or(0) == 0));
        assert_eq!((all.near.len(), all.far.len()), (2_901, 3), "3,000 was far at first");
    }

    #[test]
    fn a_set_has_the_numbers_that_were_put() {
        let mut set = NumberSet::default();
        let put = [5, 1 << 40, u64::MAX, 300_000, 0, 63, 64, 65_000, 150_000, 299_999, 400_000];
        for (count, number) in put.into_iter().enumerate() {
            assert!(set.insert(number) && !set.insert(number));
            put.into_iter().enumerate().for_each(|(place, one)| assert_eq!(set.has(one), place <= count));
        }
        assert!([1, 62, 65, 299_998, (1 << 40) + 1, u64::MAX - 1].iter().all(|number| !set.has(*number)));
        assert!(set.0.near.len() < 10_000, "{} places", set.0.near.len());
    }

    #[test]
    fn a_million_numbers_take_an_eighth_of_a_byte_each() {
        let mut set = NumberSet::default();
        assert!((0..1_000_000).all(|number| set.insert(number)));
        assert_eq!(set.0.near.len() * size_of::<u64>(), 125_000);
    }
}
