//! A list with room for a fixed number of items.

use std::ops::{Deref, DerefMut};

pub struct List<T, const MOST: usize> {
    items: [T; MOST],
    count: usize,
}

impl<T: Copy, const MOST: usize> List<T, MOST> {
    /// An empty list, whose unused places hold `filler`.
    pub fn new(filler: T) -> Self {
        List { items: [filler; MOST], count: 0 }
    }

    /// Adds an item, where there is room.
    pub fn push(&mut self, item: T) -> Option<()> {
        *self.items.get_mut(self.count)? = item;
        self.count += 1;
        Some(())
    }

    pub fn clear(&mut self) {
        self.count = 0;
    }
}

impl<T, const MOST: usize> Deref for List<T, MOST> {
    type Target = [T];

    fn deref(&self) -> &[T] {
        &self.items[..self.count]
    }
}

impl<T, const MOST: usize> DerefMut for List<T, MOST> {
    fn deref_mut(&mut self) -> &mut [T] {
        &mut self.items[..self.count]
    }
}
