//! A heap of objects with any number of fields: marking with a stack, and a sweep that keeps the free slots.

use std::collections::HashMap;

/// An object: the heap that it was made in (0 is the kernel's), where it lies, and how many were made before it.
#[derive(Clone, Copy, PartialEq, Eq, Hash)]
pub struct Link {
    pub segment: u32,
    pub slot: u32,
    pub serial: u32,
}

#[derive(Clone, Copy)]
pub enum Field {
    Null,
    Refers(Link),
    Holds(u64),
}

struct Object {
    is_live: bool,
    is_marked: bool,
    fields: Box<[Field]>,
}

pub struct Heap {
    segment: u32,
    objects: Vec<Object>,
    free: Vec<u32>,
    made: u32,
    pub bytes: u64,
    /// The references that lead out of the heap, and whether marking came past each.
    pub exits: HashMap<Link, bool>,
}

/// What a sweep freed.
pub struct Freed {
    pub objects: u32,
    pub bytes: u64,
}

/// The bytes of an object with so many fields.
pub fn object_bytes(fields: usize) -> u64 {
    16 + 8 * fields as u64
}

impl Heap {
    pub fn new(segment: u32) -> Self {
        Heap { segment, objects: Vec::new(), free: Vec::new(), made: 0, bytes: 0, exits: HashMap::new() }
    }

    pub fn place(&mut self, fields: Box<[Field]>) -> Link {
        self.made += 1;
        self.bytes += object_bytes(fields.len());
        let object = Object { is_live: true, is_marked: false, fields };
        let slot = match self.free.pop() {
            Some(slot) => {
                self.objects[slot as usize] = object;
                slot
            }
            None => {
                self.objects.push(object);
                self.objects.len() as u32 - 1
            }
        };
        Link { segment: self.segment, slot, serial: self.made }
    }

    pub fn field(&self, link: Link, field: u32) -> Option<Field> {
        self.objects[link.slot as usize].fields.get(field as usize).copied()
    }

    pub fn set_field(&mut self, link: Link, field: u32, value: Field) {
        self.objects[link.slot as usize].fields[field as usize] = value;
    }

    pub fn mark(&mut self, roots: &[Link]) {
        let Heap { segment, objects, exits, .. } = self;
        let mut gray: Vec<u32> = Vec::new();
        exits.values_mut().for_each(|is_marked| *is_marked = false);
        for root in roots {
            make_gray(objects, &mut gray, root.slot);
        }
        while let Some(slot) = gray.pop() {
            for at in 0..objects[slot as usize].fields.len() {
                match objects[slot as usize].fields[at] {
                    Field::Refers(link) if link.segment == *segment => make_gray(objects, &mut gray, link.slot),
                    Field::Refers(link) => {
                        exits.insert(link, true);
                    }
                    Field::Null | Field::Holds(_) => {}
                }
            }
        }
    }

    pub fn sweep(&mut self) -> Freed {
        let mut freed = Freed { objects: 0, bytes: 0 };
        for (slot, object) in self.objects.iter_mut().enumerate() {
            if object.is_marked {
                object.is_marked = false;
            } else if object.is_live {
                object.is_live = false;
                freed.objects += 1;
                freed.bytes += object_bytes(object.fields.len());
                object.fields = Box::default();
                self.free.push(slot as u32);
            }
        }
        self.bytes -= freed.bytes;
        freed
    }
}

fn make_gray(objects: &mut [Object], gray: &mut Vec<u32>, slot: u32) {
    let object = &mut objects[slot as usize];
    if !object.is_marked {
        object.is_marked = true;
        gray.push(slot);
    }
}
