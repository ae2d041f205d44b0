//! A heap: its objects in a vector by slot, marking with a stack of gray objects, and a sweep that keeps the free slots.

use crate::names::{Name, Reference};
use std::collections::HashMap;

/// The references that lead out of a heap, and whether marking came past each.
pub type ExitItems = HashMap<Name, bool>;

pub struct Object {
    pub serial: u32,
    pub is_live: bool,
    is_marked: bool,
    pub references: [Reference; 2],
    pub integer: u64,
}

pub struct Heap {
    pub number: u32,
    pub objects: Vec<Object>,
    free: Vec<u32>,
    gray: Vec<u32>,
    made: u32,
    pub live: u32,
}

impl Heap {
    pub fn new(number: u32) -> Self {
        Heap { number, objects: Vec::new(), free: Vec::new(), gray: Vec::new(), made: 0, live: 0 }
    }

    /// Makes an object, in a slot that a sweep left free if there is one.
    pub fn place(&mut self) -> Name {
        self.made += 1;
        self.live += 1;
        let fresh = Object { serial: self.made, is_live: true, is_marked: false, references: [None; 2], integer: 0 };
        let slot = match self.free.pop() {
            Some(slot) => {
                self.objects[slot as usize] = fresh;
                slot
            }
            None => {
                self.objects.push(fresh);
                self.objects.len() as u32 - 1
            }
        };
        Name { heap: self.number, serial: self.made, slot }
    }

    pub fn object(&mut self, name: Name) -> &mut Object {
        &mut self.objects[name.slot as usize]
    }

    /// Marks what the roots reach, and those of the exit items that lie on the way.
    pub fn mark(&mut self, roots: &[Name], exits: &mut ExitItems) {
        let Heap { number, objects, gray, .. } = self;
        exits.values_mut().for_each(|is_marked| *is_marked = false);
        for root in roots {
            make_gray(objects, gray, root.slot);
        }
        while let Some(slot) = gray.pop() {
            for reference in objects[slot as usize].references {
                match reference {
                    Some(name) if name.heap == *number => make_gray(objects, gray, name.slot),
                    Some(name) => pass_exit(exits, &name),
                    None => {}
                }
            }
        }
    }

    /// Frees what is not marked, takes the marks away, and answers how many objects went.
    pub fn sweep(&mut self) -> u32 {
        let mut freed = 0;
        for (slot, object) in self.objects.iter_mut().enumerate() {
            if object.is_marked {
                object.is_marked = false;
            } else if object.is_live {
                object.is_live = false;
                self.free.push(slot as u32);
                freed += 1;
            }
        }
        self.live -= freed;
        freed
    }
}

fn pass_exit(exits: &mut ExitItems, name: &Name) {
    if let Some(is_marked) = exits.get_mut(name) {
        *is_marked = true;
    }
}

fn make_gray(objects: &mut [Object], gray: &mut Vec<u32>, slot: u32) {
    let object = &mut objects[slot as usize];
    if !object.is_marked {
        object.is_marked = true;
        gray.push(slot);
    }
}
