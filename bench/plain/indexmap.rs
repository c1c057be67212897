//! A set that numbers what is added, in the order in which it was.

use crate::prelude::{AllocError, Global, String, Vec};
use std::collections::HashMap;
use std::hash::BuildHasher;

pub struct IndexSet<T, S> {
    items: Vec<T>,
    places: HashMap<T, usize, S>,
}

impl<S: BuildHasher> IndexSet<String, S> {
    pub fn with_hasher(alloc: Global, hasher: S) -> Self {
        IndexSet { items: Vec::new(alloc), places: HashMap::with_hasher(hasher) }
    }

    pub fn allocator(&self) -> &Global {
        &()
    }

    pub fn len(&self) -> usize {
        self.items.len()
    }

    pub fn as_slice(&self) -> &[String] {
        &self.items
    }

    pub fn get_index_of(&self, name: &str) -> Option<usize> {
        self.places.get(name).copied()
    }

    pub fn insert(&mut self, name: String) -> Result<bool, AllocError> {
        if self.places.contains_key(name.as_str()) {
            return Ok(false);
        }
        self.places.insert(String(name.0.clone()), self.items.len());
        self.items.push(name)?;
        Ok(true)
    }
}
