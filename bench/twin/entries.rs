//! Counted objects: slots in hash chains and in double lists by segment, and the segments that have an item in double lists by home.

use crate::names::{Link, Name, chain_of, filled};

#[derive(Clone, Copy)]
struct Links {
    prev: u32,
    next: u32,
}

/// Double lists over the same numbers, linked by index; a link is one more than a number, 0 is none.
struct Lists {
    links: Vec<Links>,
    heads: Vec<u32>,
}

impl Lists {
    fn make(lists: usize, room: u32) -> Lists {
        Lists {
            links: filled(Links { prev: 0, next: 0 }, room as usize),
            heads: filled(0, lists),
        }
    }

    fn first(&self, list: usize) -> Option<u32> {
        self.heads[list].checked_sub(1)
    }

    fn next(&self, i: u32) -> Option<u32> {
        self.links[i as usize].next.checked_sub(1)
    }

    fn push_front(&mut self, list: usize, i: u32) {
        let head = self.heads[list];
        self.links[i as usize] = Links {
            prev: 0,
            next: head,
        };
        if head != 0 {
            self.links[(head - 1) as usize].prev = i + 1;
        }
        self.heads[list] = i + 1;
    }

    fn remove(&mut self, list: usize, i: u32) {
        let Links { prev, next } = self.links[i as usize];
        if prev == 0 {
            self.heads[list] = next;
        } else {
            self.links[(prev - 1) as usize].next = next;
        }
        if next != 0 {
            self.links[(next - 1) as usize].prev = prev;
        }
    }
}

#[derive(Clone, Copy)]
struct Item {
    target: Name,
    count: u32,
}

pub struct EntryTable {
    slots: Vec<Item>,
    chains: Lists,
    // The slots of each segment, and after these lists the free slots.
    segments: Lists,
    // The segments that have an item, by the number of their home.
    walks: Lists,
    homes: Vec<u32>,
    chain_count: usize,
}

impl EntryTable {
    /// A table with the number of each segment's home.
    pub fn make(homes: &[u32], room: u32) -> EntryTable {
        let chain_count = (room as usize).max(1);
        EntryTable {
            slots: Vec::with_capacity(room as usize),
            chains: Lists::make(chain_count, room),
            segments: Lists::make(homes.len() + 1, room),
            walks: Lists::make(homes.len() + 1, homes.len() as u32),
            homes: homes.to_vec(),
            chain_count,
        }
    }

    fn find(&self, chain: usize, target: Name) -> Option<u32> {
        let mut next = self.chains.first(chain);
        while let Some(i) = next {
            if self.slots[i as usize].target == target {
                return Some(i);
            }
            next = self.chains.next(i);
        }
        None
    }

    pub fn count(&self, target: Name) -> u32 {
        match self.find(chain_of(self.chain_count, target), target) {
            Some(i) => self.slots[i as usize].count,
            None => 0,
        }
    }

    pub fn up(&mut self, target: Link) {
        let name = target.name();
        let chain = chain_of(self.chain_count, name);
        if let Some(i) = self.find(chain, name) {
            self.slots[i as usize].count += 1;
            return;
        }
        let item = Item {
            target: name,
            count: 1,
        };
        let free = self.homes.len();
        let i = match self.segments.first(free) {
            Some(i) => {
                self.segments.remove(free, i);
                self.slots[i as usize] = item;
                i
            }
            None => {
                self.slots.push(item);
                self.slots.len() as u32 - 1
            }
        };
        self.chains.push_front(chain, i);
        let seg = name.seg.0;
        if self.segments.first(seg as usize).is_none() {
            self.walks
                .push_front(self.homes[seg as usize] as usize, seg);
        }
        self.segments.push_front(seg as usize, i);
    }

    fn link_at(&self, i: u32) -> Link {
        let target = self.slots[i as usize].target;
        Link {
            seg: target.seg,
            slot: i as usize,
            serial: target.serial,
        }
    }

    fn first_from(&self, segment: Option<u32>) -> Option<Link> {
        Some(self.link_at(self.segments.first(segment? as usize)?))
    }

    /// The first object on the walk of that home.
    pub fn first_of(&self, home: u32) -> Option<Link> {
        self.first_from(self.walks.first(home as usize))
    }

    /// The object after one that the walk gave, at its slot where it is still there.
    pub fn next_at(&self, target: Link) -> Option<Link> {
        let name = target.name();
        let i = match self.slots.get(target.slot) {
            Some(item) if item.target == name && item.count > 0 => target.slot as u32,
            _ => self.find(chain_of(self.chain_count, name), name)?,
        };
        match self.segments.next(i) {
            Some(next) => Some(self.link_at(next)),
            None => self.first_from(self.walks.next(name.seg.0)),
        }
    }

    pub fn down(&mut self, target: Name) {
        let chain = chain_of(self.chain_count, target);
        let i = self.find(chain, target).unwrap();
        if self.slots[i as usize].count > 1 {
            self.slots[i as usize].count -= 1;
            return;
        }
        self.chains.remove(chain, i);
        let seg = target.seg.0;
        self.segments.remove(seg as usize, i);
        if self.segments.first(seg as usize).is_none() {
            self.walks.remove(self.homes[seg as usize] as usize, seg);
        }
        self.segments.push_front(self.homes.len(), i);
    }
}
