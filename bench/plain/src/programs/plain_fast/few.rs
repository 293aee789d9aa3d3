//! Lists whose first elements need no memory of their own.

use std::fmt::{Formatter, Result as Written};
use std::marker::PhantomData;
use std::mem::take;
use std::ops::{Deref, DerefMut};

use serde::de::{Deserialize, Deserializer, SeqAccess, Visitor};

pub struct Few<T, const N: usize> {
    count: usize,
    first: [T; N],
    /// All elements, where there are more than have room in `first`.
    all: Vec<T>,
}

impl<T: Default, const N: usize> Default for Few<T, N> {
    fn default() -> Few<T, N> {
        Few {
            count: 0,
            first: std::array::from_fn(|_| T::default()),
            all: Vec::new(),
        }
    }
}

impl<T: Default, const N: usize> Few<T, N> {
    fn push(&mut self, one: T) {
        if let Some(place) = self.first.get_mut(self.count) {
            *place = one;
        } else {
            if self.all.is_empty() {
                self.all.extend(self.first.iter_mut().map(take));
            }
            self.all.push(one);
        }
        self.count += 1;
    }
}

impl<T, const N: usize> Deref for Few<T, N> {
    type Target = [T];

    fn deref(&self) -> &[T] {
        self.first.get(..self.count).unwrap_or(&self.all)
    }
}

impl<T, const N: usize> DerefMut for Few<T, N> {
    fn deref_mut(&mut self) -> &mut [T] {
        self.first.get_mut(..self.count).unwrap_or(&mut self.all)
    }
}

impl<'de, T: Deserialize<'de> + Default, const N: usize> Deserialize<'de> for Few<T, N> {
    fn deserialize<D: Deserializer<'de>>(from: D) -> Result<Few<T, N>, D::Error> {
        from.deserialize_seq(List(PhantomData))
    }
}

struct List<T, const N: usize>(PhantomData<T>);

impl<'de, T: Deserialize<'de> + Default, const N: usize> Visitor<'de> for List<T, N> {
    type Value = Few<T, N>;

    fn expecting(&self, to: &mut Formatter) -> Written {
        to.write_str("a list")
    }

    fn visit_seq<A: SeqAccess<'de>>(self, mut from: A) -> Result<Few<T, N>, A::Error> {
        let mut list = Few::default();
        while let Some(one) = from.next_element()? {
            list.push(one);
        }
        Ok(list)
    }
}
