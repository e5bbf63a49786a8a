//! smallvec: a vector that would stay on the stack while it is short.

use std::ops::Deref;

pub trait Array {
    type Item;
    const SIZE: usize;
}

impl<T, const N: usize> Array for [T; N] {
    type Item = T;
    const SIZE: usize = N;
}

pub struct SmallVec<A: Array>(Vec<A::Item>);

impl<A: Array> SmallVec<A> {
    pub fn new() -> Self {
        Self(Vec::new())
    }

    pub fn inline_size(&self) -> usize {
        A::SIZE
    }

    pub fn push(&mut self, value: A::Item) {
        self.0.push(value);
    }
}

// A fault of faults.txt copies one; the Rust does not.
impl<A: Array<Item: Clone>> Clone for SmallVec<A> {
    fn clone(&self) -> Self {
        Self(self.0.clone())
    }
}

impl<A: Array> Deref for SmallVec<A> {
    type Target = [A::Item];

    fn deref(&self) -> &[A::Item] {
        &self.0
    }
}
