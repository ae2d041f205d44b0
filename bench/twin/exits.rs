//! Exit items, in chains linked by index.

use crate::names::{Link, Name, chain_of, filled};

struct Item {
    target: Name,
    marked: bool,
    // One more than the place of the next item; 0 at the end.
    next: u32,
}

pub struct ExitTable {
    items: Vec<Item>,
    heads: Vec<u32>,
    // From there on each item is marked.
    from: usize,
}

impl ExitTable {
    pub fn make(room: u32) -> ExitTable {
        ExitTable {
            items: Vec::with_capacity(room as usize),
            heads: filled(0, room as usize),
            from: 0,
        }
    }

    pub fn len(&self) -> u32 {
        self.items.len() as u32
    }

    fn find(&self, target: Name) -> Option<usize> {
        if self.heads.is_empty() {
            return None;
        }
        let mut next = self.heads[chain_of(self.heads.len(), target)];
        while next != 0 {
            let i = (next - 1) as usize;
            if self.items[i].target == target {
                return Some(i);
            }
            next = self.items[i].next;
        }
        None
    }

    pub fn has(&self, target: Name) -> bool {
        self.find(target).is_some()
    }

    pub fn add(&mut self, target: Link) -> bool {
        let name = target.name();
        if self.has(name) {
            return false;
        }
        let chain = chain_of(self.heads.len(), name);
        self.items.push(Item {
            target: name,
            marked: false,
            next: self.heads[chain],
        });
        self.heads[chain] = self.items.len() as u32;
        self.from = self.items.len();
        true
    }

    pub fn mark(&mut self, target: Name) {
        let i = self.find(target).unwrap();
        self.items[i].marked = true;
    }

    pub fn unmark_all(&mut self) {
        for item in &mut self.items {
            item.marked = false;
        }
        self.from = self.items.len();
    }

    /// Has the link that leads to the item at place `i` lead to that place, or to the end.
    fn relink(&mut self, i: usize, to: u32) {
        let chain = chain_of(self.heads.len(), self.items[i].target);
        let wanted = i as u32 + 1;
        if self.heads[chain] == wanted {
            self.heads[chain] = to;
            return;
        }
        let mut at = (self.heads[chain] - 1) as usize;
        while self.items[at].next != wanted {
            at = (self.items[at].next - 1) as usize;
        }
        self.items[at].next = to;
    }

    /// Removes an item without a mark, from the last to the first.
    pub fn take_unmarked(&mut self) -> Option<Name> {
        let Some(i) = self.items[..self.from].iter().rposition(|item| !item.marked) else {
            self.from = 0;
            return None;
        };
        self.relink(i, self.items[i].next);
        let last = self.items.len() - 1;
        if i != last {
            self.relink(last, i as u32 + 1);
        }
        self.from = i;
        Some(self.items.swap_remove(i).target)
    }
}
