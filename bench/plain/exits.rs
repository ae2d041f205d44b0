//! Exit items: the objects of other heaps that this one refers to.

use crate::names::{Name, NameMap};
use std::collections::hash_map::Entry;

#[derive(Default)]
pub struct ExitTable {
    marked: NameMap<bool>,
}

impl ExitTable {
    pub fn with_capacity(room: usize) -> ExitTable {
        ExitTable {
            marked: NameMap::with_capacity_and_hasher(room, Default::default()),
        }
    }

    pub fn len(&self) -> usize {
        self.marked.len()
    }

    pub fn has(&self, target: Name) -> bool {
        self.marked.contains_key(&target)
    }

    /// Whether the target is new.
    pub fn add(&mut self, target: Name) -> bool {
        match self.marked.entry(target) {
            Entry::Occupied(_) => false,
            Entry::Vacant(place) => {
                place.insert(false);
                true
            }
        }
    }

    pub fn mark(&mut self, target: Name) {
        if let Some(marked) = self.marked.get_mut(&target) {
            *marked = true;
        }
    }

    pub fn clear_marks(&mut self) {
        for marked in self.marked.values_mut() {
            *marked = false;
        }
    }

    /// Removes the items without a mark, and gives each.
    pub fn drain_unmarked(&mut self, mut each: impl FnMut(Name)) {
        self.marked.retain(|name, marked| {
            if !*marked {
                each(*name);
            }
            *marked
        });
    }
}
