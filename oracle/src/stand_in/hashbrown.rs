//! hashbrown: a table whose caller hashes.

use std::collections::HashMap;
use std::hash::{BuildHasherDefault, DefaultHasher, Hasher};

pub type DefaultHashBuilder = BuildHasherDefault<DefaultHasher>;

/// The caller's hash as it is.
#[derive(Default)]
struct Given(u64);

impl Hasher for Given {
    fn finish(&self) -> u64 {
        self.0
    }

    fn write(&mut self, _: &[u8]) {
        unreachable!("only whole numbers are hashed");
    }

    fn write_u64(&mut self, hash: u64) {
        self.0 = hash;
    }
}

pub struct HashTable<T>(HashMap<u64, Vec<T>, BuildHasherDefault<Given>>);

impl<T> HashTable<T> {
    pub fn new() -> Self {
        Self(HashMap::default())
    }

    pub fn find(&self, hash: u64, mut equal: impl FnMut(&T) -> bool) -> Option<&T> {
        self.0.get(&hash)?.iter().find(|value| equal(value))
    }

    pub fn insert_unique(&mut self, hash: u64, value: T, _hasher: impl Fn(&T) -> u64) {
        self.0.entry(hash).or_default().push(value);
    }
}
