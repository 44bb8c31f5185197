//! Stand-in for `tinyvec`: a `Vec` under the names that the sources use.

use std::ops::{Deref, DerefMut};

pub trait Array {
    type Item;
}

impl<T, const N: usize> Array for [T; N] {
    type Item = T;
}

#[derive(Clone, Debug, PartialEq)]
pub struct TinyVec<A: Array>(Vec<A::Item>);

impl<A: Array> From<Vec<A::Item>> for TinyVec<A> {
    fn from(items: Vec<A::Item>) -> Self {
        TinyVec(items)
    }
}

impl<A: Array> TinyVec<A> {
    pub fn push(&mut self, item: A::Item) {
        self.0.push(item)
    }
}

impl<A: Array> Deref for TinyVec<A> {
    type Target = [A::Item];

    fn deref(&self) -> &[A::Item] {
        &self.0
    }
}

impl<A: Array> DerefMut for TinyVec<A> {
    fn deref_mut(&mut self) -> &mut [A::Item] {
        &mut self.0
    }
}

#[macro_export]
macro_rules! tiny_vec {
    ([$item:ty; $size:expr]) => {
        $crate::TinyVec::<[$item; $size]>::from(vec![])
    };
    ($($item:expr),*) => {
        $crate::TinyVec::from(vec![$($item),*])
    };
}
