//! Objects in segments, marking and sweeping.

use crate::exits::ExitTable;
use crate::names::{Name, Reference};

#[derive(Clone, Copy, Debug, PartialEq, Eq)]
pub enum Kind {
    Ref,
    Int,
}

#[derive(Clone, Copy, Debug)]
pub enum Field {
    Ref(Option<Reference>),
    Int(#[allow(dead_code)] u64),
}

impl Field {
    pub fn new(kind: Kind) -> Field {
        match kind {
            Kind::Ref => Field::Ref(None),
            Kind::Int => Field::Int(0),
        }
    }
}

struct Object {
    serial: u32,
    // The collection that marked it last.
    marked_in: u32,
    fields: Box<[Field]>,
}

impl Object {
    fn bytes(&self) -> u64 {
        16 + 8 * self.fields.len() as u64
    }
}

enum Slot {
    Free { next: u32 },
    Used(Object),
}

const NO_SLOT: u32 = u32::MAX;

pub struct Segment {
    pub number: u32,
    slots: Vec<Slot>,
    free: u32,
    // Those of the live objects.
    live: Vec<u32>,
    // Where the object of each serial lies, from 1 on.
    by_serial: Vec<u32>,
    pub bytes: u64,
}

impl Segment {
    pub fn with_capacity(number: u32, room: usize) -> Segment {
        let mut by_serial = Vec::with_capacity(room + 1);
        by_serial.push(NO_SLOT);
        Segment {
            number,
            slots: Vec::with_capacity(room),
            free: NO_SLOT,
            live: Vec::with_capacity(room),
            by_serial,
            bytes: 0,
        }
    }

    pub fn place(&mut self, fields: Box<[Field]>) -> Reference {
        let serial = self.by_serial.len() as u32;
        let object = Object {
            serial,
            marked_in: 0,
            fields,
        };
        self.bytes += object.bytes();
        let slot = if self.free == NO_SLOT {
            self.slots.push(Slot::Used(object));
            self.slots.len() as u32 - 1
        } else {
            let slot = self.free;
            if let Slot::Free { next } = self.slots[slot as usize] {
                self.free = next;
            }
            self.slots[slot as usize] = Slot::Used(object);
            slot
        };
        self.live.push(slot);
        self.by_serial.push(slot);
        Reference {
            segment: self.number,
            slot,
            serial,
        }
    }

    pub fn find(&self, serial: u32) -> Option<Reference> {
        let slot = *self.by_serial.get(serial as usize)?;
        match self.slots.get(slot as usize) {
            Some(Slot::Used(object)) if object.serial == serial => Some(Reference {
                segment: self.number,
                slot,
                serial,
            }),
            _ => None,
        }
    }

    fn object(&mut self, at: Reference) -> Option<&mut Object> {
        match self.slots.get_mut(at.slot as usize) {
            Some(Slot::Used(object)) if object.serial == at.serial => Some(object),
            _ => None,
        }
    }

    pub fn set_ref(&mut self, at: Reference, field: usize, target: Option<Reference>) -> bool {
        match self.object(at).and_then(|object| object.fields.get_mut(field)) {
            Some(Field::Ref(value)) => {
                *value = target;
                true
            }
            _ => false,
        }
    }

    fn sweep(&mut self, collection: u32, swept: &mut Swept) {
        let Segment {
            slots, free, live, bytes, ..
        } = self;
        live.retain(|slot| {
            let here = &mut slots[*slot as usize];
            let Slot::Used(object) = here else {
                return false;
            };
            if object.marked_in == collection {
                return true;
            }
            let size = object.bytes();
            *here = Slot::Free { next: *free };
            *free = *slot;
            *bytes -= size;
            swept.objects += 1;
            swept.bytes += size;
            false
        });
    }
}

#[derive(Clone, Copy, Debug, Default)]
pub struct Swept {
    pub objects: u32,
    pub bytes: u64,
}

/// The segments of one heap, and the marks of its objects.
pub struct Area {
    segments: Vec<Segment>,
    // The place of each segment by its number.
    places: Vec<Option<u32>>,
    collection: u32,
    gray: Vec<Reference>,
}

impl Area {
    pub fn of(segments: Vec<Segment>) -> Area {
        let most = segments.iter().map(|segment| segment.number).max().unwrap_or(0);
        let mut places = vec![None; most as usize + 1];
        for (place, segment) in segments.iter().enumerate() {
            places[segment.number as usize] = Some(place as u32);
        }
        Area {
            segments,
            places,
            collection: 0,
            gray: Vec::new(),
        }
    }

    fn place(&self, number: u32) -> Option<usize> {
        self.places.get(number as usize).copied().flatten().map(|place| place as usize)
    }

    pub fn get(&self, number: u32) -> Option<&Segment> {
        Some(&self.segments[self.place(number)?])
    }

    /// Takes all marks away.
    pub fn clear(&mut self, exits: &mut ExitTable) {
        self.collection += 1;
        self.gray.clear();
        exits.clear_marks();
    }

    pub fn root(&mut self, at: Reference) {
        if let Some(place) = self.place(at.segment) {
            self.shade(place, at);
        }
    }

    fn shade(&mut self, place: usize, at: Reference) {
        let collection = self.collection;
        if let Some(object) = self.segments[place].object(at) {
            if object.marked_in != collection {
                object.marked_in = collection;
                self.gray.push(at);
            }
        }
    }

    /// Marks what the roots reach, and the exit items of what lies in no segment here.
    pub fn mark(&mut self, exits: &mut ExitTable) {
        while let Some(at) = self.gray.pop() {
            let Some(place) = self.place(at.segment) else {
                continue;
            };
            let count = self.segments[place].object(at).map_or(0, |object| object.fields.len());
            for field in 0..count {
                let Some(object) = self.segments[place].object(at) else {
                    break;
                };
                if let Field::Ref(Some(target)) = object.fields[field] {
                    match self.place(target.segment) {
                        Some(there) => self.shade(there, target),
                        None => exits.mark(target.name()),
                    }
                }
            }
        }
    }

    pub fn sweep(&mut self) -> Swept {
        let mut swept = Swept::default();
        for segment in &mut self.segments {
            segment.sweep(self.collection, &mut swept);
        }
        swept
    }

    pub fn bytes(&self) -> u64 {
        self.segments.iter().map(|segment| segment.bytes).sum()
    }
}

impl Area {
    #[allow(dead_code)]
    pub fn reference(&self, name: Name) -> Option<Reference> {
        self.get(name.segment)?.find(name.serial)
    }
}
