//! Entry items: the objects of a heap that others refer to, with how many do.

use crate::names::{Name, NameMap};
use std::collections::hash_map::Entry;

pub struct EntryTable {
    // The home of each segment by its number.
    homes: Vec<usize>,
    // The counts of each home's objects.
    counts: Vec<NameMap<u32>>,
}

impl EntryTable {
    pub fn with_capacity(homes: &[usize], room: usize) -> EntryTable {
        let most = homes.iter().max().map_or(0, |home| home + 1);
        EntryTable {
            homes: homes.to_vec(),
            counts: (0..most)
                .map(|_| NameMap::with_capacity_and_hasher(room / most, Default::default()))
                .collect(),
        }
    }

    pub fn up(&mut self, object: Name) {
        let home = self.homes[object.segment as usize];
        *self.counts[home].entry(object).or_insert(0) += 1;
    }

    pub fn down(&mut self, object: Name) {
        let home = self.homes[object.segment as usize];
        if let Entry::Occupied(mut item) = self.counts[home].entry(object) {
            if *item.get() == 1 {
                item.remove();
            } else {
                *item.get_mut() -= 1;
            }
        }
    }

    pub fn count(&self, object: Name) -> u32 {
        let home = self.homes[object.segment as usize];
        self.counts[home].get(&object).copied().unwrap_or(0)
    }

    /// The objects of that home that others refer to.
    pub fn of_home(&self, home: usize) -> impl Iterator<Item = Name> + '_ {
        self.counts[home].keys().copied()
    }
}
