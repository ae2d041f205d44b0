//! Objects by serial, over a slab of slots.

use crate::names::{Link, Name, Seg, Serial};

#[derive(Clone, Copy, PartialEq, Eq)]
pub enum Field {
    Ref,
    Int,
}

#[derive(Clone, Copy)]
pub enum Stored {
    Null,
    Refers(Name),
    Holds(#[allow(dead_code)] u64),
}

pub struct Body {
    #[allow(dead_code)]
    ty: Option<u32>,
    pub fields: Vec<Stored>,
}

impl Body {
    pub fn make(types: &[Vec<Field>], ty: u32) -> Body {
        let row = &types[ty as usize];
        let mut fields = Vec::with_capacity(row.len());
        for kind in row {
            fields.push(match kind {
                Field::Ref => Stored::Null,
                Field::Int => Stored::Holds(0),
            });
        }
        Body {
            ty: Some(ty),
            fields,
        }
    }

    fn bytes(&self) -> u64 {
        16 + 8 * self.fields.len() as u64
    }

    pub fn kind_of(&self, field: u32) -> Option<Field> {
        match self.fields.get(field as usize)? {
            Stored::Null | Stored::Refers(_) => Some(Field::Ref),
            Stored::Holds(_) => Some(Field::Int),
        }
    }
}

/// Values under keys; the vacant keys are one list, the last removed first.
enum Entry<T> {
    Vacant(usize),
    Occupied(T),
}

struct Slab<T> {
    entries: Vec<Entry<T>>,
    next: usize,
}

impl<T> Slab<T> {
    fn with_capacity(capacity: usize) -> Slab<T> {
        Slab {
            entries: Vec::with_capacity(capacity),
            next: 0,
        }
    }

    fn insert(&mut self, value: T) -> usize {
        let key = self.next;
        if key == self.entries.len() {
            self.entries.push(Entry::Occupied(value));
            self.next = key + 1;
        } else {
            let Entry::Vacant(next) = self.entries[key] else {
                unreachable!()
            };
            self.next = next;
            self.entries[key] = Entry::Occupied(value);
        }
        key
    }

    fn get(&self, key: usize) -> Option<&T> {
        match self.entries.get(key) {
            Some(Entry::Occupied(value)) => Some(value),
            _ => None,
        }
    }

    fn get_mut(&mut self, key: usize) -> Option<&mut T> {
        match self.entries.get_mut(key) {
            Some(Entry::Occupied(value)) => Some(value),
            _ => None,
        }
    }

    fn remove(&mut self, key: usize) -> T {
        let entry = std::mem::replace(&mut self.entries[key], Entry::Vacant(self.next));
        self.next = key;
        match entry {
            Entry::Occupied(value) => value,
            Entry::Vacant(_) => unreachable!(),
        }
    }
}

#[derive(Clone, Copy)]
enum Mark {
    White,
    // The serial of the next gray object; 0 where there is none.
    Gray(u32),
    Black,
}

#[derive(Clone, Copy)]
enum Place {
    Empty,
    At(usize, Mark),
}

struct Cell {
    serial: Serial,
    body: Body,
}

pub struct Gone {
    pub slot: usize,
    pub bytes: u64,
}

pub struct Segment {
    pub number: Seg,
    places: Vec<Place>,
    cells: Slab<Cell>,
    gray: u32,
    pub bytes: u64,
    end: usize,
}

impl Segment {
    pub fn make(number: Seg, room: u32) -> Segment {
        let mut places = Vec::with_capacity(room as usize + 1);
        places.push(Place::Empty);
        Segment {
            number,
            places,
            cells: Slab::with_capacity(room as usize),
            gray: 0,
            bytes: 0,
            end: 0,
        }
    }

    pub fn place(&mut self, body: Body) -> Link {
        let serial = Serial(self.places.len() as u32);
        self.bytes += body.bytes();
        let slot = self.cells.insert(Cell { serial, body });
        self.places.push(Place::At(slot, Mark::White));
        self.end = self.end.max(slot + 1);
        Link {
            seg: self.number,
            slot,
            serial,
        }
    }

    pub fn find(&self, serial: Serial) -> Option<usize> {
        match self.places.get(serial.0 as usize) {
            Some(Place::At(slot, _)) => Some(*slot),
            _ => None,
        }
    }

    pub fn body_at(&self, slot: usize) -> &Body {
        &self.cells.get(slot).unwrap().body
    }

    pub fn write_ref(&mut self, slot: usize, field: u32, value: Option<Link>) {
        self.cells.get_mut(slot).unwrap().body.fields[field as usize] = match value {
            Some(link) => Stored::Refers(link.name()),
            None => Stored::Null,
        };
    }

    pub fn make_gray(&mut self, serial: Serial) {
        let at = serial.0 as usize;
        if let Some(Place::At(slot, Mark::White)) = self.places.get(at).copied() {
            self.places[at] = Place::At(slot, Mark::Gray(self.gray));
            self.gray = serial.0;
        }
    }

    pub fn take_gray(&mut self) -> Option<Serial> {
        if self.gray == 0 {
            return None;
        }
        let serial = self.gray;
        match self.places[serial as usize] {
            Place::At(slot, Mark::Gray(next)) => {
                self.places[serial as usize] = Place::At(slot, Mark::Black);
                self.gray = next;
                Some(Serial(serial))
            }
            _ => unreachable!(),
        }
    }

    pub fn unmark_all(&mut self) {
        for place in &mut self.places {
            if let Place::At(_, mark) = place {
                *mark = Mark::White;
            }
        }
        self.gray = 0;
    }

    fn is_unmarked(&self, slot: usize) -> bool {
        match self.cells.get(slot) {
            Some(cell) => matches!(
                self.places[cell.serial.0 as usize],
                Place::At(_, Mark::White)
            ),
            None => false,
        }
    }

    pub fn sweep_next(&mut self, from: usize) -> Option<Gone> {
        let slot = (from..self.end).find(|slot| self.is_unmarked(*slot))?;
        let cell = self.cells.remove(slot);
        let bytes = cell.body.bytes();
        self.places[cell.serial.0 as usize] = Place::Empty;
        self.bytes -= bytes;
        Some(Gone { slot, bytes })
    }
}
